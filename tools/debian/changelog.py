"""CHANGELOG.md as the changelog of a Debian package."""
import datetime
import email.utils
import re
import textwrap


class Wrong(Exception):
    """What the reader of the command line gets to see."""


def sections_of(text):
    """Each version with its points, the newest first. What is unreleased stands first in that of the newest version, from whose sources a package is made."""
    parts = re.split(r'^## (\S+)\n', text, flags=re.M)[1:]
    first, *more = [(version, points_of(body)) for version, body in zip(parts[::2], parts[1::2])] or [('no version', [])]
    if first[0] == 'Unreleased' and more:
        return [(more[0][0], first[1] + more[0][1]), *more[1:]]
    return [first, *more]


def points_of(body):
    return [' '.join(point.split()) for point in re.split(r'^- ', body, flags=re.M)[1:]]


def written(point):
    return textwrap.fill(point.replace('`', ''), 78, initial_indent='  * ', subsequent_indent='    ', break_on_hyphens=False)


def debian_changelog(text, package, version, maintainer, seconds):
    """The changelog, whose first version is the given one. No page tells when a version was made, so all have the given time."""
    sections = sections_of(text)
    if sections[0][0] != version:
        raise Wrong('CHANGELOG.md begins with %s, and VERSION says %s' % (sections[0][0], version))
    moment = datetime.datetime.fromtimestamp(seconds, datetime.timezone.utc)
    signed = ' -- %s  %s' % (maintainer, email.utils.format_datetime(moment))
    return '\n\n'.join('%s (%s) unstable; urgency=medium\n\n%s\n\n%s' % (package, number, '\n'.join(map(written, points)), signed)
                       for number, points in sections) + '\n'
