"""A list as kubectl writes it, read item by item, so that of a list of any length no more is kept than the fields that are read."""
import json
import re

from cluster_flags import Wrong
from cluster_list import only, part

CHUNK, MOST_VALUE = 1 << 20, 1 << 26
BLANKS = re.compile(r'[ \t\r\n]*')
NO_LIST = 'standard input is no List as kubectl get -o json writes it'


class Text:
    """JSON text that is read piece by piece; `place` is how far in the present piece it was looked at."""

    def __init__(self, file):
        self.file, self.piece, self.place, self.decoder = file, '', 0, json.JSONDecoder()

    def more(self):
        """Reads on, at least as much as is left to look at, so that a long value isn't tried again and again."""
        left = self.piece[self.place:]
        read = self.file.read(max(CHUNK, len(left)))
        self.piece, self.place = left + read, 0
        return bool(read)

    def next(self):
        """The next sign that is no blank, and nothing at the end."""
        while True:
            self.place = BLANKS.match(self.piece, self.place).end()
            if self.place < len(self.piece):
                return self.piece[self.place]
            if not self.more():
                return ''

    def take(self, *signs):
        sign = self.next()
        if sign not in signs or not sign:
            raise ValueError('%s expected, and there is %s' % (' or '.join(signs), sign or 'the end'))
        self.place += 1
        return sign

    def value(self):
        """The next value, once what stands behind it is there too: a number may go on in the next piece."""
        self.next()
        while True:
            fault = None
            try:
                value, end = self.decoder.raw_decode(self.piece, self.place)
                if BLANKS.match(self.piece, end).end() < len(self.piece):
                    self.place = end
                    return value
            except ValueError as found:
                fault = found
            if len(self.piece) - self.place > MOST_VALUE:
                raise fault or ValueError('a value is too long')
            if not self.more():
                if fault:
                    raise fault
                self.place = len(self.piece)
                return value

    def members(self, close):
        """Stops before each member of an object or an array that is open."""
        sign = ','
        if self.next() == close:
            sign = self.take(close)
        while sign == ',':
            yield
            sign = self.take(',', close)


def items_of(file):
    """The items of a List, with the fields that are read alone."""
    text, items, kind, shared = Text(file), [], None, {}
    try:
        if text.next() != '{':
            text.value()
            raise Wrong(NO_LIST)
        text.take('{')
        for _ in text.members('}'):
            key = text.value()
            text.take(':')
            if key == 'items' and text.next() == '[':
                text.take('[')
                items += filter(None, (slim(text.value(), shared) for _ in text.members(']')))
            else:
                value = text.value()
                kind = value if key == 'kind' else kind
        if text.next():
            raise ValueError('there is more behind its end')
    except ValueError as fault:
        raise Wrong('standard input is no JSON: %s' % fault) from fault
    if kind != 'List':
        raise Wrong(NO_LIST)
    return items


def slim(item, shared):
    """An item in its own shape with the fields that are read, and nothing for one that isn't; what many pods have alike is kept once."""
    if not isinstance(item, dict) or item.get('kind') not in SLIM:
        return None
    return SLIM[item['kind']](item, shared)


def slim_pod(item, shared):
    meta, tolerations = only(item['metadata'], 'namespace', 'name'), part(item, 'spec', 'tolerations') or []
    owner = next((each for each in item['metadata'].get('ownerReferences') or [] if each.get('controller')), None)
    if owner:
        meta['ownerReferences'] = shared.setdefault((owner.get('kind'), owner.get('name')), [only(owner, 'kind', 'name', 'controller')])
    spec = {key: shared.setdefault(value, value) for key, value in only(item['spec'], 'nodeName').items()}
    spec['tolerations'] = shared.setdefault((json.dumps(tolerations),), tolerations)
    return {'kind': 'Pod', 'metadata': meta, 'spec': spec}


def slim_node(item, shared):
    status = {'conditions': [each for each in part(item, 'status', 'conditions') or [] if each.get('type') == 'Ready'],
              'nodeInfo': only(part(item, 'status', 'nodeInfo'), 'kubeletVersion')}
    return {'kind': 'Node', 'metadata': only(item['metadata'], 'name', 'labels'), 'spec': only(item.get('spec'), 'taints'), 'status': status}


def slim_lease(item, shared):
    return {'kind': 'Lease', 'metadata': only(item['metadata'], 'namespace', 'name'), 'spec': item.get('spec')}


SLIM = {'Pod': slim_pod, 'Node': slim_node, 'Lease': slim_lease}
