"""Pictures of the drawing."""
import storing
from calls import is_there, run
from folder import over_lines
from telling import Failure, fail, lines_of, write


def word_picture(file='drawing.png'):
    if file.endswith('.png'):
        picture = over_lines('paint', '--fit', '--width', '800', '--height', '600')
        if is_there('pnmtopng'):
            picture = made_by('pnmtopng', '-quiet', '-', read=picture)
        else:
            file = file.removesuffix('.png') + '.ppm'
    elif is_there('fig2dev'):
        picture = made_by('fig2dev', '-L', file.rpartition('.')[2], read=over_lines('fig'))
    else:
        fail('there is no fig2dev here: apt-get install fig2dev')
    storing.put(file, picture)
    write(f'draw: painted {file}')


def made_by(*words, read):
    status, picture, said = run(*words, read=read)
    if status:
        raise Failure(*lines_of(said), f'draw: {words[0]} made no picture')
    return picture
