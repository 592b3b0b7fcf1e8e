"""What the lines of a trace say of lanes, marks and states, counted apart from the page and in another way: beat by beat."""
from collections import Counter

TAKEN = ('start', 'crash', 'stop', 'end', 'pause', 'stall', 'lead', 'zone', 'mode', 'put', 'remove')


def read(path):
    """The first line's fields, and each further line as its number, beat, actor and the words after it."""
    with open(path) as file:
        lines = file.read().splitlines()
    head = dict(word.split('=') for word in lines[0].split()[2:])
    rows = []
    for number, line in enumerate(lines[1:], 2):
        beat, actor, *words = line.split(' ')
        rows.append((number, int(beat), actor, words))
    return head, rows


def process(actor):
    """The lane of an identity's process: a kubelet's is that of its node."""
    name = actor.rpartition('_')[0]
    return ('node', name.removeprefix('kubelet/')) if name.startswith('kubelet/') else ('controller', name)


def subject(actor, words):
    """The lane that a line is about."""
    verb = words[0]
    if verb in ('create', 'update') and words[1] == 'nodelease':
        return 'node', words[2]
    if verb in ('status', 'unknown', 'taint', 'swap', 'untaint'):
        return 'node', words[1]
    if verb == 'zone':
        return 'zone', '/ (no region, no zone)' if words[1] == '/' else words[1]
    if verb == 'mode':
        return 'zone', 'all zones'
    if verb == 'evict':
        return 'pod', words[1]
    return ('script', 'events of the script') if actor == 'script' else process(actor)


def taken(words):
    return words[0] in TAKEN or words[-1].startswith('v=') and words[-2] != 'conflict' or words[-1].startswith('t=')


def mark(words):
    """The kind of a line's mark."""
    if not taken(words):
        return 'refused'
    if words[0] == 'status':
        return 'ready' if words[2] == 'True' else 'unready'
    return 'nodelease' if words[:2] == ['create', 'nodelease'] else words[0]


def marks(rows):
    """All marks, as a count of lane's kind, lane's name, line and mark's kind. Events of the script stand in two lanes."""
    count, left, over = Counter(), {}, set()
    for number, beat, actor, words in rows:
        kind = mark(words)
        count[(*subject(actor, words), number, 'release' if kind == 'update' and actor in over else kind)] += 1
        if words[0] in ('crash', 'stop', 'end'):
            over.add(actor)
        if actor == 'script' and words[0] != 'stall' and not words[1].startswith('lease/'):
            sort, _, name = words[1].partition('/')
            count[(sort, name, number, words[0])] += 1
        if actor == 'script':
            continue
        first = beat == 0 and actor.endswith('_1')
        by_event = words[0] in ('crash', 'stop', 'pause') or words[0] == 'start' and not first and left.get(process(actor)) != 'end'
        if by_event:
            count[('script', 'events of the script', number, words[0])] += 1
        if words[0] in ('start', 'crash', 'stop', 'end'):
            left[process(actor)] = words[0]
    return count


def leaders(rows, beat):
    """Who acts as the leader at a beat: whose term it is, and who isn't paused."""
    return {who for who in terms(rows, beat) if not is_paused(rows, beat, lambda actor: actor == who)}


def is_paused(rows, beat, is_of):
    """Whether a line says that one of these actors is paused at a beat."""
    return any(words[0] == 'pause' and is_of(actor) and at <= beat < at + int(words[1].removeprefix('beats=')) for _, at, actor, words in rows)


def terms(rows, beat):
    """Whose terms a beat lies in."""
    leading = set()
    for _, at, actor, words in rows:
        if at > beat:
            break
        if words[0] == 'lead':
            leading.add(actor)
        if words[0] in ('crash', 'stop', 'end'):
            leading.discard(actor)
    return leading


def node_state(rows, name, beat):
    """Ready and the condition taint of a node at the end of a beat, as far as the lines tell."""
    ready = taint = None
    for _, at, actor, words in rows:
        if at > beat:
            break
        if actor == 'script' and words[1] == 'node/' + name:
            ready = taint = None
        if subject(actor, words) != ('node', name) or not taken(words):
            continue
        if words[0] in ('status', 'unknown'):
            ready = words[2] if words[0] == 'status' else 'Unknown'
        if words[0] in ('taint', 'swap', 'untaint'):
            taint = words[2] if words[0] != 'untaint' else None
    return ready, taint


def zone_state(rows, name, beat):
    """The state of a zone that the last leader that told one knows, in its term; of `all zones` whether the mode is on."""
    state = None
    for _, at, actor, words in rows:
        if at > beat:
            break
        if words[0] in ('zone', 'mode') and subject(actor, words) == ('zone', name):
            state = (actor, {'on': 'mode', 'off': None}.get(words[1]) if words[0] == 'mode' else words[2])
    return state[1] if state and state[0] in terms(rows, beat) else None
