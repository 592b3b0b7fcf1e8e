"""What may stand next behind `kubectl replay`: commands, options, and the nodes and zones of the cluster. In the form of kubectl's own completion."""
import os
import re
import sys

sys.path.insert(0, os.path.join(os.path.dirname(os.path.dirname(os.path.realpath(__file__))), 'tools'))
import words
from cluster_list import zones_of
from lists import NODES, Lists, Unread

# What the shell is to do beside these: look for files, or not.
FILES, NO_FILES = 0, 4
OF_FILES = ('--page', '--from-manifest', '--kubeconfig', '--cache-dir', '--certificate-authority', '--client-certificate', '--client-key')
TIMEOUT, PIECE = '3s', 500
OPTION = re.compile(r'^  (-\w)?(?: [A-Z]+)?(?:, )?(--[a-z-]+)( [A-Z])?', re.M)


def options():
    """The options that the help tells, and kubectl's, each with whether a value stands behind it."""
    found = {'--' + name: True for name in words.KUBECTL}
    for short, name, value in OPTION.findall(words.parser().format_help()):
        found.update({each: bool(value) for each in (short, name) if each})
    return found


def walked(before, known):
    """Of the words before the last one those that are no options, and kubectl's own flags."""
    others, flags, rest = [], [], iter(before)
    for word in rest:
        name, equals, value = word.partition('=')
        if name.startswith('-'):
            value = next(rest, '') if known.get(name) and not equals else value
            flags += ['%s=%s' % (name, value)] if name[2:] in words.KUBECTL else []
        else:
            others.append(word)
    return others, flags


def of_cluster(command, flags):
    """The nodes or zones that a command can be asked of; none where they can't be listed at once."""
    try:
        nodes = Lists(flags, TIMEOUT, PIECE).read(NODES)
    except Unread:
        return []
    names = [node['metadata'].get('name', '') for node in nodes] if command == 'kill-node' else [zones_of(node)[0] for node in nodes]
    return sorted({name for name in names if name})


def complete(line):
    """The words that may stand in place of the last one, and what the shell is to do beside."""
    *before, last = line or ['']
    known = options()
    if before and known.get(before[-1]):
        return [], FILES if before[-1] in OF_FILES else NO_FILES
    if last.startswith('-'):
        return [name for name in known if name.startswith('--')], NO_FILES
    others, flags = walked(before, known)
    if not others:
        return ['%s\t%s' % (name, command.told) for name, command in words.COMMANDS.items()], NO_FILES
    return (of_cluster(others[0], flags) if others in (['kill-node'], ['kill-zone']) else []), NO_FILES


def main(line):
    found, directive = complete(line)
    last = line[-1] if line else ''
    print('\n'.join([each for each in found if each.startswith(last)] + [':%d' % directive]))
