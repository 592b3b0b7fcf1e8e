"""What happens to the cluster: kubelets and controllers that die, or that are frozen for a while, and a store that stands still."""
from cluster_flags import Wrong, millis
from cluster_told import few


def split_at(text, option, form):
    """NAME@TIME as the name and the milliseconds."""
    name, at, time = text.rpartition('@')
    if not at:
        raise Wrong('%s %s: when? It is %s' % (option, text, form))
    return name, millis(time, '%s %s' % (option, text))


def crashes_of(given, found, controllers, beat, told):
    events = []
    for text in given.kill:
        name, at = split_at(text, '--kill', 'NODE@60s, as in --kill worker-1@60s')
        if name not in found.zones:
            raise Wrong('--kill %s: there is no node %s' % (text, name or 'before the @'))
        events.append((at, 'kubelet/' + name))
    for text in given.kill_zone:
        events += zone_crashes(text, found, controllers, told)
    for text in given.kill_leader:
        name, at = split_at('@' * ('@' not in text) + text, '--kill-leader', '@60s')
        if name not in ('', controllers.leader):
            raise Wrong('--kill-leader %s: the leader at first is %s; it takes a time alone, as --kill-leader @60s' % (text, controllers.leader))
        events.append((at, controllers.leader))
    return [{'beat': at // beat, 'type': 'crash', 'process': process} for at, process in sorted(events, key=lambda event: event[0])]


def zone_crashes(text, found, controllers, told):
    """The kubelets of a zone, and the controllers whose node is in it."""
    zone, at = split_at(text, '--kill-zone', 'ZONE@60s, as in --kill-zone eu-1b@60s')
    nodes = [node for node, names in found.zones.items() if zone in names]
    if not nodes:
        zones = sorted({names[0] or '(none)' for names in found.zones.values()})
        raise Wrong('--kill-zone %s: no node is in it; there are %s' % (text, ', '.join(zones)))
    dead = [name for name in controllers.names if controllers.node[name] in nodes]
    unknown = [name for name in controllers.names if not controllers.node[name]]
    if dead:
        told.say('--kill-zone %s kills %s too, whose node is in it' % (text, few(dead)))
    if unknown:
        told.say('--kill-zone %s: where %s runs is not known, so it goes on; a controller is known by the name of its node' % (text, few(unknown)))
    return [(at, 'kubelet/' + node) for node in nodes] + [(at, name) for name in dead]


def tell_going_on(events, controllers, told):
    """A controller goes on where only the kubelet of its host dies."""
    dead = [event['process'] for event in events if event['type'] == 'crash']
    for name in controllers.names:
        if 'kubelet/%s' % controllers.node[name] in dead and name not in dead:
            also = '; --kill-leader @.. kills it too' if name == controllers.leader else ''
            told.say('the controller %s goes on where only the kubelet of its host dies%s' % (name, also))


def stalls_of(given, found, controllers, beat):
    """The controllers and kubelets that are frozen."""
    events = []
    for text in given.stall:
        name, at, beats = span_at(text, '--stall', 'NAME@60s+45s, or @60s+45s', beat)
        events.append({'beat': at, 'type': 'pause', 'process': stalled_by(name, text, found, controllers), 'beats': beats})
    return apart(events, lambda event: '--stall: %s is frozen at beat %d still, or has just gone on' % (event['process'], event['beat']))


def store_stalls_of(given, beat):
    """The store that stands still."""
    events = []
    for text in given.stall_store:
        name, at, beats = span_at('@' * ('@' not in text) + text, '--stall-store', '@60s+12s', beat)
        if name:
            raise Wrong('--stall-store %s: there is one store; it takes a time alone, as --stall-store @60s+12s' % text)
        events.append({'beat': at, 'type': 'stall', 'beats': beats})
    return apart(events, lambda event: '--stall-store: the store stands still at beat %d still, or has just gone on' % event['beat'])


def span_at(text, option, form, beat):
    """NAME@TIME+TIME as the name, the beat at which it begins, and how many beats it takes."""
    start, plus, length = text.rpartition('+')
    if not plus:
        raise Wrong('%s %s: it is %s, from when on and for how long' % (option, text, form))
    name, at = split_at(start, option, form)
    beats = millis(length, '%s %s' % (option, text)) // beat
    if beats == 0:
        raise Wrong('%s %s: that is shorter than a beat' % (option, text))
    return name, at // beat, beats


def apart(events, told):
    """The events in order, where each begins after the ones before it of the same process are over."""
    events.sort(key=lambda event: event['beat'])
    over = {}
    for event in events:
        if event['beat'] <= over.get(event.get('process'), -1):
            raise Wrong(told(event))
        over[event.get('process')] = event['beat'] + event['beats']
    return events


def stalled_by(name, text, found, controllers):
    """The process of a name: a controller, also where its host is a node as well, else the kubelet of a node."""
    node = name.removeprefix('kubelet/')
    if name in controllers.names or not name:
        return name or controllers.leader
    if node not in found.zones:
        raise Wrong('--stall %s: there is no controller and no node %s' % (text, node))
    return 'kubelet/' + node


def see_end(events, end):
    late = [event for event in events if event['beat'] > end]
    if late:
        word = {'crash': 'what is killed', 'pause': 'what is frozen', 'stall': 'a store that stands still'}[late[0]['type']]
        raise Wrong('%s at beat %d is after the end; let it run longer: --for' % (word, late[0]['beat']))
