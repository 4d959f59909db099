"""What was hidden comes back, and words are undone and redone."""
import history
import ids
import made
import names
import operations
import own
import storing
from folder import over_lines
from operations import change, is_within, script
from telling import fail, tell


def word_delete(*words):
    with own.Work() as work:
        objects = names.chosen(words, lambda: operations.objects(work.lines))
        work.apply('edit', script(change(work.site, object, 'shown', False) for object in objects))


def word_restore(*words):
    """Shows what was seen of objects before they were hidden."""
    with own.Work() as work:
        all = operations.read(work.lines)
        there = {id for id, operation in all.items() if operation.attribute is None}
        named = [word for word in words if ids.read_id(word)]
        commands = []
        for object in names.chosen(words, lambda: there):
            if not any(version.shown for version in operations.versions(work.lines, object)):
                commands += restore(work, object, all)
            elif ids.name(object) in named:
                fail(f'{ids.name(object)} is shown')
        if not commands:
            fail(f'all of {" ".join(words)} is shown')
        work.apply('edit', script(commands))


def restore(work, object, all):
    """The commands that show what those saw who hid the object last. Who hid it where nothing was seen counts for none."""
    of_shown = [each for each in all.values() if each.object == object and each.attribute == 'shown']
    while last := [each for each in of_shown
                   if each.value('shown') is False and not any(other.knows(each) for other in of_shown)]:
        befores = [operations.within(all, each.past) for each in last]
        if commands := show_again(work.site, work.lines, object, befores):
            return commands
        of_shown = [each for each in of_shown if each not in last]
    return [change(work.site, object, 'shown', True)]


def show_again(site, lines, object, befores):
    """The commands that show of an object what was shown by the lines that were known before."""
    now = operations.versions(lines, object)
    before = [version.operations for known in befores for version in operations.versions(known, object)
              if version.shown]
    hidden = [version.operations for version in now if not version.shown]
    again = [operations_now for operations_now in hidden if any(old <= operations_now for old in before)]
    aims = [set()] if len(again) == len(now) else again
    return [change(site, object, 'shown', True, aim=sorted(aim)) for aim in aims]


class Step:
    """What a word made, and the commands that change it back, as they are where nothing came since."""

    def __init__(self, work, first, last):
        self.work, self.site, self.first, self.last = work, work.site, first, last
        self.all = operations.read(work.lines)
        self.past = self.all[first].past  # what was known before
        self.before = operations.within(self.all, self.past)
        self.lines = operations.within(self.all, self.own_up_to(self.past, last[1]))
        self.counts = ''

    def own_up_to(self, past, number):
        return [number if site == self.site else known for site, known in enumerate(past, 1)]

    def back(self):
        """The operations that show again what the word hid, and take the drawing as it was before."""
        hidden = sorted({self.all[id].object for id in ids.within(self.first, self.last)
                         if self.all[id].attribute == 'shown' and is_within(self.all[id].object, self.past)})
        commands = [command for object in hidden
                    for command in show_again(self.site, self.lines, object, [self.before])]
        shown = self.make('edit', script(commands)) if commands else b''
        return shown + self.make('take', over_lines('fig', '--named', read=self.before), shown)

    def make(self, verb, text, behind=b''):
        new, said = self.work.make(verb, text, self.lines + behind)
        self.counts = ''.join(line.partition(': made ')[2].partition(':')[2] for line in said)
        return new

    def commands(self):
        """The same as commands that come last. What others changed since, and this copy knew of, stays."""
        newest = self.work.own.last()
        known = self.own_up_to(self.all[newest].past, newest[1])
        since = {(each.object, each.attribute) for each in self.all.values()
                 if each.id[0] != self.site and is_within(each.id, known) and not is_within(each.id, self.past)}
        back = operations.read(self.back()).values()
        left = [each for each in back if each.attribute and (each.object, each.attribute) in since]
        if left:
            self.counts = ''
            tell(f'{"; ".join(made.changes_of(left, self.work.lines))}: that stays, as others changed it since')
        commands = script(self.command(each.fields, newest) for each in back if each not in left)
        return commands, operations.within(self.all, known)

    def command(self, fields, newest):
        def renamed(id):
            return [self.site, id[1] - self.last[1] + newest[1]] if id[0] == self.site and id[1] > self.last[1] else id
        command = {key: value for key, value in fields.items() if key not in ('id', 'past', 'op')}
        command.update(site=self.site, do=fields['op'])
        if 'object' in fields:
            command['object'] = renamed(fields['object'])
        if 'aim' in fields:
            command['aim'] = sorted(map(renamed, fields['aim']))
        return command


def word_undo():
    go('undo', 'redo', 'nothing more can be undone: draw redo goes forward')


def word_redo():
    go('redo', 'undo', 'nothing was undone')


def go(here, there, none_left):
    """Changes back what a word made, or what an undo made."""
    with own.Work() as work:
        noted = history.read()
        if noted is None:
            fail('no word changed anything in this copy yet')
        if not noted.is_made(work.own.text()):
            fail('the last change was not made by a word: draw log tells it')
        if not noted.spans[here]:
            fail(none_left)
        span = noted.spans[here].pop()
        step = Step(work, *span)
        commands, lines = step.commands()
        if not commands:
            storing.put('drawing.last', noted.text())
            fail(f'nothing that is seen came of {ids.span(*span)}: draw {here} again goes to the word before')
        new, said = work.make('edit', commands, lines)
        said = [f'{line}:{step.counts}' if step.counts else line for line in said]
        work.add(new, said, lambda span: {**noted.spans, there: [*noted.spans[there], span]})
