"""The flags of kube-controller-manager in a manifest: of a static pod, of kubeadm's configuration, of a unit or a script, in YAML, JSON or words.

Whatever stands around them, these are read: `--flag=value`; `--flag` with the value as the next word or the next entry of a list; `flag: value`,
as kubeadm's extraArgs have it up to v1beta3; `name: flag` and `value: value` in either order, as they have it since v1beta4; `flag=value`, as
in k3s. Comments don't count. A flag is that of the component that was named last before it in its document of the file, and those of others don't
count. Where one of the flags is named in any other way, or with two values, that is an error with its line.
"""
import collections
import re

import cluster_flags
from cluster_flags import FLAGS, Wrong

Word = collections.namedtuple('Word', 'text line')
Value = collections.namedtuple('Value', 'text line')
WORD = re.compile(r'[{}]|(?<=["\']):|:(?=[\s"\'{\[]|$)|(?:[^\s"\'`,\[\]{}\\:]|:(?![\s"\'{\[]|$))+')
QUOTED = re.compile(r'=(["\'])([^"\']*)\1')
# Any way in which somebody may have written the name of a flag, the longest names first.
MENTION = re.compile('|'.join(flag[2:].replace('-', '[-_]?') for flag in sorted(FLAGS, key=len, reverse=True)), re.I)
BY_LETTERS = {flag.replace('-', ''): flag for flag in FLAGS}
SWITCH = re.compile(r'(?:--)?leader[-_]elect(?:=.*)?')
MANAGER = re.compile(r'(?<!cloud-)\bkube-controller-manager|controllerManager', re.I)
OTHERS = re.compile(r'kube-?scheduler|cloud-controller-manager|cluster-autoscaler|^scheduler$', re.I)


def without_comment(row):
    quote = None
    for place, letter in enumerate(row):
        if quote:
            quote = None if letter == quote else quote
        elif letter in '"\'' and (place == 0 or row[place - 1] in ' \t:[{,=-'):
            quote = letter
        elif letter == '#' and (place == 0 or row[place - 1] in ' \t'):
            return row[:place]
    return row


def words_of(text):
    """The words of a text with their lines; a line of a text within a text, which ends in \\n there, is a line for its comment."""
    words = []
    for line, whole in enumerate(text.split('\n'), 1):
        for row in map(without_comment, whole.split('\\n')):
            words += [Word(found, line) for found in WORD.findall(QUOTED.sub(r'=\2', row))]
    return words


def text_at(words, place):
    return words[place].text if 0 <= place < len(words) else ''


def of_manager(words):
    """The places of the words that aren't another component's."""
    places, other = [], False
    for place, word in enumerate(words):
        if word.text == '---' or MANAGER.search(word.text):
            other = False
        elif OTHERS.search(word.text):
            other = True
        places += [] if other else [place]
    return places


def named_value(words, place):
    """The value beside a name, `value: 20s` behind `name: flag` or before it."""
    if [text_at(words, place + step) for step in (1, 2)] == ['value', ':']:
        return text_at(words, place + 3)
    if [text_at(words, place - step) for step in (5, 4)] == ['value', ':']:
        return text_at(words, place - 3)
    return None


def value_at(words, place):
    """The value of the flag that a word names, or nothing where it stands in none of the forms that are read."""
    flag, equals, value = words[place].text.partition('=')
    if equals:
        return value
    if text_at(words, place + 1) == ':':
        return text_at(words, place + 2)
    if flag.startswith('--'):
        return text_at(words, place + 2 if text_at(words, place + 1) == '-' else place + 1)
    return named_value(words, place) if [text_at(words, place - step) for step in (2, 1)] == ['name', ':'] else None


def read_value(words, place, path, mention):
    word, flag = words[place], BY_LETTERS[re.sub('[-_]', '', mention[0]).lower()]
    named = re.fullmatch(r'(?:--)?([a-z_-]+)(?:=.*)?', word.text)
    exact = named and named[1].replace('_', '-') == flag[2:]
    value = value_at(words, place) if exact else None
    where = '%s, line %d: %s' % (path, word.line, flag)
    if value is None:
        raise Wrong('%s stands there in a form that is not read: %s' % (where, word.text))
    cluster_flags.value_of(flag, value, where)
    return flag, Value(value, word.line)


def flags_in(text, path):
    """The flags with their values and lines."""
    words, found = words_of(text), {}
    for place in of_manager(words):
        for mention in MENTION.finditer(words[place].text):
            flag, value = read_value(words, place, path, mention)
            other = found.setdefault(flag, value)
            if cluster_flags.value_of(flag, other.text) != cluster_flags.value_of(flag, value.text):
                raise Wrong('%s: %s is %s in line %d and %s in line %d; which one counts is not known' % (
                    path, flag, other.text, other.line, value.text, value.line))
    if not found and not any(MANAGER.search(word.text) for word in words):
        raise Wrong('%s names neither kube-controller-manager nor one of its flags that count here: is it the right file?' % path)
    return found


def of_others(text):
    """The lines in which another component has such a flag."""
    words = words_of(text)
    ours = set(of_manager(words))
    return sorted({word.line for place, word in enumerate(words) if place not in ours and MENTION.search(word.text)})


def election_off(text):
    """The line that turns the election off, if there is one."""
    words = words_of(text)
    switches = [place for place in of_manager(words) if SWITCH.fullmatch(words[place].text)]
    off = [words[place].line for place in switches if (value_at(words, place) or '').lower() in ('false', 'f', '0')]
    return off[0] if off else None


def text_of(path):
    try:
        with open(path, encoding='utf-8') as file:
            return file.read()
    except UnicodeDecodeError:
        raise Wrong('%s is no text in UTF-8' % path) from None


def flags_told(path, told):
    """The flags of a manifest for a document, which always has an election."""
    text = text_of(path)
    if election_off(text):
        told.say('%s, line %d turns the election off, and the document has one' % (path, election_off(text)))
    return flags_in(text, path)


def election_flags(path, told):
    """The flags of the election, each as one word, as `kube_lens margin` takes them."""
    text = text_of(path)
    found, off, others = flags_in(text, path), election_off(text), of_others(text)
    if off:
        raise Wrong('%s, line %d turns the election off: then nothing keeps two from acting at once' % (path, off))
    election = {flag: value for flag, value in found.items() if flag.startswith('--leader-elect-')}
    lines = ', '.join('%s in line %d' % (flag, value.line) for flag, value in election.items())
    told.say('%s has %s; a flag that is not there has its default' % (path, lines or 'no flag of the election'))
    if others:
        told.say('%s: left out are the flags of other components, in line %s' % (path, ', '.join(map(str, others))))
    return ['%s=%s' % (flag, value.text) for flag, value in election.items()]
