"""The keys of a document that a sweep varies: their values, their paths, and the document with other values."""
import json
import random
import re

# Draws of a controller's waits stand in a plan and in the table as this word with a seed of their own.
DRAWN = 'drawn:'
LEAST_WAIT, GREATEST_WAIT, MOST_WAITS = 1_000, 2_200, 1_000


class Wrong(Exception):
    """What the reader of the command line gets to see."""


def read_values(text, draws):
    """The values that VALUES stands for."""
    drawn = re.fullmatch(r'random:(-?\d+)\.\.(-?\d+):(\d+)', text)
    if drawn:
        low, high, count = map(int, drawn.groups())
        return [draws.randint(low, high) for _ in range(count)]
    times = re.fullmatch(r'draws:(\d+)', text)
    if times:
        return [DRAWN + str(draws.randrange(10**9)) for _ in range(int(times[1]))]
    if text.startswith('['):
        return [read_value(part) for part in text.split(';')]
    reach = re.fullmatch(r'(-?\d+)\.\.(-?\d+)(?:\.\.([1-9]\d*))?', text)
    if reach:
        return list(range(int(reach[1]), int(reach[2]) + 1, int(reach[3] or 1)))
    return [read_value(part) for part in text.split(',')]


def read_value(text):
    try:
        return json.loads(text)
    except ValueError:
        return text


def split_setting(text):
    path, equals, values = text.partition('=')
    if not equals or not path.startswith('/'):
        raise Wrong('%s is not of the form PATH=VALUES' % text)
    if values.startswith(('draws:', DRAWN)) and not re.fullmatch(r'/controllers/[^/]+/waits', path):
        raise Wrong('%s: only the waits of a controller can be drawn so, /controllers/NAME/waits' % text)
    return path, values


def holders(document, path):
    """The objects of the document that have the key at the end of a path, and this key."""
    parts = path.split('/')[1:]
    if len(parts) == 2 and parts[0] == 'settings':
        return [document['settings']], parts[1]
    if len(parts) == 3 and parts[0] in ('controllers', 'kubelets'):
        name = {'controllers': 'name', 'kubelets': 'node'}[parts[0]]
        found = [each for each in document.get(parts[0], []) if parts[1] in ('*', each[name])]
    elif len(parts) == 3 and parts[0] == 'events' and parts[1].isdecimal():
        found = document.get('events', [])[int(parts[1]):][:1]
    elif len(parts) > 3 and parts[0] == 'objects' and parts[1] in ('Node', 'Pod', 'Lease'):
        found = stored(document, parts)
    else:
        raise Wrong('%s is no key of settings, of a process, of an event or of an object' % path)
    if not found:
        raise Wrong('%s: the document has no such process, event or object' % path)
    return found, parts[-1].replace('~1', '/')


def stored(document, parts):
    """What stands in the objects of the document at a path, but for its last key. `*` is each name, key or place; ~1 is a slash."""
    kind, rest = parts[1], parts[2:]
    names = 1 if kind == 'Node' else 2
    wanted, keys = rest[:names], [key.replace('~1', '/') for key in rest[names:-1]]
    found = [item for item in (document.get('objects') or {}).get('items', []) if item.get('kind') == kind and is_named(item, wanted)]
    for key in keys:
        found = [part for each in found for part in parts_at(each, key)]
    return [each for each in found if isinstance(each, dict)]


def is_named(item, wanted):
    meta = item['metadata']
    names = ([] if len(wanted) == 1 else [meta.get('namespace', 'default')]) + [meta['name']]
    return all(want in ('*', name) for want, name in zip(wanted, names))


def parts_at(value, key):
    if isinstance(value, list):
        return value if key == '*' else value[int(key):][:1] if key.isdecimal() else []
    if isinstance(value, dict):
        return list(value.values()) if key == '*' else [value[key]] if key in value else []
    return []


def is_drawn(value):
    return isinstance(value, str) and value.startswith(DRAWN)


def waits_of(document, controller, seed):
    """The waits of a controller after its failed attempts, in thousandths of its retry period, drawn as client-go's jitter is: evenly from 1 to 2.2
    retry periods. They are as many as it can have failures in the document, and begin anew where those are more than a list may have."""
    settings = document['settings']
    retry = controller.get('retryPeriodMillis', settings.get('retryPeriodMillis', 2_000))
    count = settings['endBeat'] * settings.get('beatMillis', 100) // retry + 2
    draws = random.Random('%s %s' % (seed, controller.get('name')))
    return [draws.randint(LEAST_WAIT, GREATEST_WAIT) for _ in range(min(count, MOST_WAITS))]


def changed(document, changes):
    """The document with other values. Its events are put in the order of their beats again, and with waits it is one of version 4."""
    document = json.loads(json.dumps(document))
    places = [(holders(document, path), value) for path, value in changes]
    for (objects, key), value in places:
        for each in objects:
            each[key] = value
    for (objects, key), value in places:
        if key == 'waits':
            document['version'] = max(document['version'], 4)
        if is_drawn(value):
            for each in objects:
                each[key] = waits_of(document, each, value.removeprefix(DRAWN))
    if 'events' in document:
        document['events'].sort(key=lambda event: event['beat'])
    return document
