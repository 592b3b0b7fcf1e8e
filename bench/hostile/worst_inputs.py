"""The inputs of worst.py, each with the command that gets it."""
from common import MOST_BYTES, TOLERATIONS, as_list, generated, largest_document, node, pod, renewals, text_of

DAY_BEATS = 8_640_000


def document(settings=None, controllers=1, **keys):
    return {'version': 1, 'settings': {'endBeat': 60, **(settings or {})}, 'controllers': [{'name': 'c%d' % i} for i in range(controllers)], **keys}


def filled(piece, joined=b',', front=b'[', back=b']', room=MOST_BYTES):
    """A document as large as may be, with pieces in a field that isn't read; `piece` makes one of a number, or is one."""
    outer = text_of(document(objects=as_list([{'apiVersion': 'v1', 'kind': 'ConfigMap', 'metadata': {'name': 'x'}, 'data': 'DATA'}])))
    room -= len(outer) + len(front) + len(back)
    pieces, number = [], 0
    if isinstance(piece, bytes):
        pieces = [piece] * (room // (len(piece) + len(joined)))
    else:
        while room > 0:
            made = piece(number)
            number, room = number + 1, room - len(made) - len(joined)
            if room > 0:
                pieces.append(made)
    return outer.replace(b'"DATA"', front + joined.join(pieces) + back)


# Parsing alone

def numbers():
    return filled(b'0')


def empty_lists():
    return filled(b'[]')


def deep_lists():
    return filled(b'[' * 110 + b']' * 110)


def empty_objects():
    return filled(b'{}')


def keys():
    return filled(lambda i: b'"%x":0' % i, front=b'{', back=b'}')


def objects_of_one_key():
    return filled(b'{"a":0}')


def short_texts():
    return filled(b'"a"')


def one_text():
    return filled(b'\\u00e9', b'', b'"', b'"')


WORD, MULTIPLIER, INITIAL = (1 << 64) - 1, 0x9e3779b97f4a7c15, 0x243f6a8885a308d3
LETTERS = b'abcdefghijklmnopqrstuvwxyz0123456789'


def folded(state, factor):
    product = state * factor
    return product & WORD ^ product >> 64


def names_that_collide(count):
    """Names of six letters whose hashes lie in an eighth of the table where they are hashed with the fixed seed of std's FoldHasher: a table is
    probed in groups, one after the other, so most of the groups are full and each new name is looked for in nearly all of them. Now that names
    are hashed by a key of the whole input they have to cost what other names cost."""
    groups = 1
    while 9 * groups < count:
        groups *= 2
    found, levels = [], [(b'', folded(INITIAL ^ 6, MULTIPLIER ^ 16))]
    for _ in range(5):
        levels = ((front + bytes([letter]), folded(state ^ letter * 0x10101, MULTIPLIER ^ 2)) for front, state in levels for letter in LETTERS)
    for front, state in levels:
        for letter in LETTERS:
            hashed = folded(state ^ letter * 0x10101, MULTIPLIER ^ 2)
            if (hashed ^ hashed >> 32) % groups < groups // 8:
                found.append((front + bytes([letter])).decode())
        if len(found) >= count:
            return found[:count]


def tolerated_names(count, collide):
    """Pods with a hundred tolerations each, all of other keys."""
    def make():
        names = names_that_collide(count) if collide else ['%06x' % (i * 7919 % (1 << 24)) for i in range(count)]
        return text_of(document(objects=as_list(pod('p%d' % i, '', [{'key': name} for name in names[i:i + 100]]) for i in range(0, count, 100))))
    return make


# Names and objects

def long_names():
    """Pods whose names have 253 bytes, each with a namespace of its own of as many."""
    label = 'n' * 60
    name = lambda i: '.'.join([label] * 4) + '.%08d' % i
    pods = [{**pod(name(i)), 'metadata': {'namespace': name(i + 50_000), 'name': name(i)}} for i in range(26_000)]
    return text_of(document(objects=as_list(pods)))


def tainted_nodes(count, taints, effect):
    each = [{'key': 't%d' % i, 'effect': effect, **({'timeAdded': '2024-01-01T00:00:00Z'} if effect == 'NoExecute' else {})} for i in range(taints)]
    return [node('n%d' % i, each, 'z%d' % i) for i in range(count)]


def zones_and_taints():
    """A thousand nodes, each in a zone of its own and with a hundred taints; their kubelets crash, and each zone is disrupted in full but one."""
    kubelets = [{'node': 'n%d' % i} for i in range(1_000)]
    events = [{'beat': 300, 'type': 'crash', 'process': 'kubelet/n%d' % i} for i in range(999)]
    return text_of(document({'endBeat': 6_000, 'primaryRate': 1_000_000}, 16, kubelets=kubelets, events=events,
                            objects=as_list(tainted_nodes(1_000, 98, 'NoSchedule'))))


# Scripts

def events_of_one_beat():
    return text_of(document(events=[{'beat': 30, 'type': ('crash', 'start')[i % 2], 'process': 'c0'} for i in range(100_000)]))


def rates():
    """A leader's clock is changed at each of 100,000 beats."""
    events = [{'beat': i, 'type': 'rate', 'process': 'c0', 'ratePpm': 900_000 + i} for i in range(100_000)]
    return text_of(document({'endBeat': 100_000}, 16, events=events))


def puts(by_beat):
    """100,000 puts of a node, in one beat or each in its own, seen by sixteen controllers."""
    def make():
        stored = {'apiVersion': 'v1', 'kind': 'Node', 'metadata': {'name': 'n'}}
        events = [{'beat': 100 + i * by_beat, 'type': 'put', 'object': stored} for i in range(100_000)]
        return text_of(document({'endBeat': 100_100}, 16, events=events))
    return make


def crashing_kubelets():
    """A thousand kubelets crash and start fifty times each."""
    events = [{'beat': 100 + 100 * (i // 2_000), 'type': ('crash', 'start')[i // 1_000 % 2], 'process': 'kubelet/n%d' % (i % 1_000)} for i in range(100_000)]
    return text_of(document({'endBeat': 6_000}, 16, kubelets=[{'node': 'n%d' % i} for i in range(1_000)], events=events,
                            objects=as_list(node('n%d' % i) for i in range(1_000))))


def due_at_once(lost=False):
    """30,000 pods are due at one beat; or they can't be deleted, since what their leader sends is lost from the beat before on."""
    def make():
        taint = {'key': 'node.kubernetes.io/unreachable', 'effect': 'NoExecute', 'timeAdded': '2024-01-01T00:00:00Z'}
        stays = [{**each, 'tolerationSeconds': 20} for each in TOLERATIONS]
        events = [{'beat': 19_990, 'type': 'loss', 'process': 'c0', 'requests': True, 'replies': True}] if lost else []
        silent = {**node('n', [taint], 'z'), 'status': {'conditions': [{'type': 'Ready', 'status': 'Unknown'}]}}
        items = [silent, node('well', (), 'other'), *(pod('p%d' % i, 'n', stays) for i in range(30_000))]
        return text_of(document({'beatMillis': 1, 'endBeat': 40_000}, kubelets=[{'node': 'well'}], objects=as_list(items), events=events))
    return make


def refused_heads():
    """A thousand nodes that are to be tainted, each in a zone of its own, by a leader that sees nothing of their last change, so that each try is
    refused."""
    away = [{**node('n%d' % i, (), 'z%d' % i), 'status': {'conditions': [{'type': 'Ready', 'status': 'False'}]}} for i in range(1_000)]
    events = [{'beat': 30, 'type': 'watch', 'process': 'c0', 'on': False}]
    events += [{'beat': 31, 'type': 'put', 'object': each} for each in away]
    return text_of(document({'beatMillis': 10, 'endBeat': 3_000, 'primaryRate': 1_000_000}, events=events,
                            objects=as_list([node('well', (), 'zz'), *(node('n%d' % i, (), 'z%d' % i) for i in range(999))])))


def refused_heads_again():
    """The same nodes, which are to be tainted from the beginning on, and change unseen."""
    away = [{**node('n%d' % i, (), 'z%d' % i), 'status': {'conditions': [{'type': 'Ready', 'status': 'False'}]}} for i in range(999)]
    events = [{'beat': 35, 'type': 'watch', 'process': 'c0', 'on': False}]
    events += [{'beat': 36, 'type': 'put', 'object': each} for each in away]
    return text_of(document({'beatMillis': 10, 'endBeat': 3_000, 'primaryRate': 100}, events=events, objects=as_list([node('well', (), 'zz'), *away])))


def judged_again(sorts):
    """A node with 4,000 pods of a hundred tolerations each, which has a hundred taints, others at each of 1,050 beats. Pods of so many sorts take turns."""
    tolerations = [[{'key': 'x%d' % i} for i in range(98)] + [{'key': 'x%d' % (98 + sort)}, {'operator': 'Exists'}] for sort in range(sorts)]
    def tainted(turn):
        taints = [{'key': 't%d' % i, 'effect': 'NoExecute', 'timeAdded': '2024-01-01T00:00:00Z'} for i in range(99)] + [{'key': 'u%d' % turn, 'effect': 'NoExecute'}]
        return node('n', taints)
    events = [{'beat': 100 + i, 'type': 'put', 'object': tainted(i)} for i in range(1_050)]
    pods = [pod('p%d' % i, 'n', tolerations[i % sorts]) for i in range(4_000)]
    return text_of(document({'endBeat': 2_000}, objects=as_list([tainted(0), *pods]), events=events))


def messages_under_way():
    """A thousand kubelets whose requests travel 6,000 beats of a millisecond, and who wait for a reply for one."""
    events = [{'beat': 0, 'type': 'delay', 'process': 'kubelet/n%d' % i, 'requestBeats': 6_000, 'replyBeats': 6_000} for i in range(1_000)]
    events += [{'beat': 0, 'type': 'delay', 'process': 'c%d' % i, 'requestBeats': 6_000, 'replyBeats': 6_000} for i in range(16)]
    settings = {'beatMillis': 1, 'endBeat': 20_000, 'callTimeoutMillis': 1, 'retryPeriodMillis': 1, 'renewDeadlineMillis': 10}
    return text_of(document(settings, 16, kubelets=[{'node': 'n%d' % i} for i in range(1_000)], events=events))


def small_but_long():
    """200 bytes that ask for hundreds of megabytes of trace, rightly."""
    settings = {'beatMillis': 1, 'endBeat': 40_000_000, 'retryPeriodMillis': 1, 'renewDeadlineMillis': 50, 'callTimeoutMillis': 10}
    return text_of(document(settings))


def day_of_kubelets():
    """A day of a thousand kubelets with skewed clocks, in beats of 10 ms."""
    kubelets = [{'node': 'n%d' % i, 'ratePpm': 990_000 + 20 * i} for i in range(1_000)]
    return text_of(document({'beatMillis': 10, 'endBeat': DAY_BEATS}, 3, kubelets=kubelets, objects=as_list(node('n%d' % i) for i in range(1_000))))


# Documents of version 4

def pods_of_sets(sets, pods):
    """So many sets, each of so many pods on one node that all share."""
    return text_of(document(version=4, podSets=[{'name': 's%d' % i, 'on': [{'node': 'n', 'pods': pods}]} for i in range(sets)]))


def stalls():
    """A stall at every other one of 200,000 beats, while three candidates ask for the lease."""
    events = [{'beat': 2 * i + 1, 'type': 'stall', 'beats': 1} for i in range(100_000)]
    return text_of(document({'endBeat': 200_000}, 3, version=4, events=events))


# Lists of pods, and traces

def terminated_pods():
    """30,000 pods that have ended, the youngest first, of which one is kept."""
    pods = [{**pod('p%d' % i, 'n%d' % (i % 2_000), creationTimestamp='2024-01-01T%02d:%02d:%02dZ' % (23 - i // 3_600, 59 - i // 60 % 60, 59 - i % 60)),
             'status': {'phase': 'Succeeded'}} for i in range(30_000)]
    missing = [{'node': 'n%d' % i, 'since': '2024-01-01T00:00:00Z'} for i in range(1_000, 2_000)]
    return text_of({'now': '2024-01-02T00:00:00Z', 'threshold': 1, 'missing': missing, 'objects': as_list([node('n%d' % i) for i in range(1_000)] + pods)})


def tolerating_pods(differ=False):
    """Each pod tolerates each of a node's hundred taints by the last of its tolerations. All have the same, or one is another pod by pod."""
    tolerations = lambda i: [{'key': 'x%d' % j} for j in range(96)] + [{'key': 'y%d' % i if differ else 'x96'}, {'operator': 'Exists'}]
    pods = [pod('p%d' % i, '', tolerations(i)) for i in range(7_000)]
    return text_of({'objects': as_list(tainted_nodes(1_000, 100, 'NoSchedule') + pods)})


def trace_of(lines):
    """A trace as large as may be, of the lines that a function makes of a number."""
    text, size, number = [b'trace 1 beat=1000 end=604800000 premise=no\n'], 50, 0
    while size < MOST_BYTES - 200:
        made = lines(number)
        text.append(made)
        size, number = size + len(made), number + 1
    return b''.join(text)


def terms():
    return trace_of(lambda i: b'%d c%d_1 lead v=1\n%d c%d_1 end\n' % (i, i, i + 1, i))


def terms_of_one():
    return trace_of(lambda i: b'%d c_%d lead v=1\n%d c_%d end\n' % (i, i + 1, i + 1, i + 1))


def zones_of_a_term():
    return trace_of(lambda i: b'0 c_1 lead v=1\n' if i == 0 else b'1 c_1 zone r/z%d Normal rate=1\n' % i if i % 2 else b'1 c_1 zone r/z%d Normal rate=2\n' % (i // 4))


def taints_of_a_term():
    return trace_of(lambda i: b'0 c_1 lead v=1\n' if i == 0 else b'0 c_1 zone r/z%d Normal rate=1000000\n' % i if i < 100_000
                    else b'%d c_1 taint n not-ready v=1\n' % i)


def acting_lines():
    return trace_of(lambda i: b'0 c_1 lead v=1\n' if i == 0 else b'1 c_1 mode on\n')


CASES = {
    'numbers in a field that is not read': ('check', numbers),
    'empty lists': ('check', empty_lists),
    'lists 110 deep': ('check', deep_lists),
    'empty objects': ('check', empty_objects),
    'objects of one key': ('check', objects_of_one_key),
    'one object of many keys': ('check', keys),
    'short texts': ('check', short_texts),
    'one text of escapes': ('check', one_text),
    '100,000 keys of tolerations': ('check', tolerated_names(100_000, False)),
    '100,000 keys that collide': ('check', tolerated_names(100_000, True)),
    '200,000 keys that collide': ('check', tolerated_names(200_000, True)),
    '400,000 keys that collide': ('check', tolerated_names(400_000, True)),
    '800,000 keys that collide': ('check', tolerated_names(800_000, True)),
    'names of 253 bytes': ('check', long_names),
    'objects and events up to the limits': ('check', largest_document),
    'a thousand zones, 98,000 taints': ('replay', zones_and_taints),
    '100,000 events of one beat': ('replay', events_of_one_beat),
    'a rate at each of 100,000 beats': ('replay', rates),
    '100,000 puts in one beat': ('replay', puts(0)),
    '100,000 puts in a beat each': ('replay', puts(1)),
    '1,000 kubelets crash and start': ('replay', crashing_kubelets),
    '30,000 pods due at one beat': ('replay', due_at_once()),
    '30,000 pods due, deletes lost': ('replay', due_at_once(True)),
    'a thousand refused heads': ('replay', refused_heads),
    'a thousand refused heads, from the start': ('replay', refused_heads_again),
    '4,000 pods judged again and again': ('replay', lambda: judged_again(1)),
    '4,000 pods of two sorts judged again and again': ('replay', lambda: judged_again(2)),
    'messages under way': ('replay', messages_under_way),
    '200 bytes of document': ('replay', small_but_long),
    'a day of 1,000 kubelets, skewed clocks, beats of 10 ms': ('replay', day_of_kubelets),
    '450,000 pods by five sets': ('check', lambda: pods_of_sets(5, 90_000)),
    '450,000 pods by 90,000 sets': ('check', lambda: pods_of_sets(90_000, 5)),
    '100,000 stalls': ('replay', stalls),
    'the last state of 30,000 pods': ('state 600', lambda: text_of(generated(7, 1_000, 30_000, 600))),
    'the first state of 16 MB': ('state 0', largest_document),
    'the greatest generated cluster': ('generate 7 1000 30000 100000', lambda: b''),
    'renewals': ('audit', lambda: renewals(MOST_BYTES)),
    'terms of many identities': ('audit', terms),
    'terms of one process': ('audit', terms_of_one),
    'zones of one term': ('audit', zones_of_a_term),
    'taints over 100,000 zones': ('audit', taints_of_a_term),
    'acting lines': ('audit', acting_lines),
    '30,000 terminated pods': ('collect', terminated_pods),
    'tolerations and taints': ('place', tolerating_pods),
    'tolerations that differ, and taints': ('place', lambda: tolerating_pods(differ=True)),
}
