"""Which objects a word changed, and what of them, in the words of the designer."""
import names
import operations

MOST_ENTRIES = 6


def told(said, new, lines):
    """What figgroup said, and in its line of what was made which attributes of which objects were changed."""
    entries = changes(new, lines) if new else []
    if not 0 < len(entries) <= MOST_ENTRIES:
        return said
    return [with_entries(line, entries) if line.startswith('figgroup: made ') else line for line in said]


def with_entries(line, entries):
    made, _, counts = line.removeprefix('figgroup: ').partition(': ')
    return f'figgroup: {made}: ' + '; '.join(entries + ([counts] if counts else []))


def changes(new, lines):
    """For each object that was there what of it new lines change."""
    made = operations.read(new).values()
    created = {operation.id for operation in made if operation.attribute is None}
    return changes_of([operation for operation in made if operation.object not in created], lines)


def changes_of(operations_made, lines):
    """The attributes of each object, as `car place`, and together of those that changed alike."""
    changed, alike = {}, {}
    for operation in operations_made:
        changed.setdefault(operation.object, []).append(operation)
    for object in sorted(changed):
        alike.setdefault(words_of(changed[object]), []).append(object)
    known = names.Names()
    there = operations.objects(lines) if known.of else set()
    return [f'{label} {words}' for words, objects in alike.items() for label in known.labels(objects, there)]


def words_of(changes):
    """The attributes that changed; of an object that was hidden and shown again versions were settled."""
    changed = {change.attribute for change in changes}
    words = [attribute for attribute in operations.ATTRIBUTES if attribute in changed]
    shown = {change.value('shown') for change in changes} - {None}
    if shown:
        words.append('settled' if len(shown) > 1 else 'shown' if True in shown else 'hidden')
    return ', '.join(words)
