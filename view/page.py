"""Puts a trace, and what its document tells of it, into the page timeline.html. ./timeline calls it, and tells the words."""
import argparse
import json
import os
import re
import sys

sys.path.append(os.path.dirname(os.path.abspath(__file__)))
from crash_bounds import CrashBounds

PAGE = os.path.join(os.path.dirname(os.path.abspath(__file__)), 'timeline.html')
CLOCK_KEYS = ('name', 'ratePpm', 'offsetMillis')


class Wrong(Exception):
    """What the reader of the command line gets to see."""


def title_of(path):
    """A document's file name, or its folder's where that says more."""
    name = os.path.basename(path).removesuffix('.json')
    folder = os.path.basename(os.path.dirname(os.path.abspath(path)))
    return folder if name == 'document' and folder else name


def reduced_object(item):
    """Of a Node the state, of a Pod its node; nothing else of a manifest comes into the page."""
    meta, spec, status = (item.get(key) or {} for key in ('metadata', 'spec', 'status'))
    kept = {'kind': item['kind'], 'metadata': {key: meta[key] for key in ('name', 'namespace') if key in meta}}
    if item['kind'] == 'Pod':
        return {**kept, 'spec': {'nodeName': spec.get('nodeName')}}
    taints = [{'key': taint['key'], 'effect': taint['effect']} for taint in spec.get('taints') or []]
    conditions = [{'type': 'Ready', 'status': each['status']} for each in status.get('conditions') or [] if each.get('type') == 'Ready']
    return {**kept, 'spec': {'taints': taints}, 'status': {'conditions': conditions}}


def reduced(document, title):
    settings, items = document['settings'], (document.get('objects') or {}).get('items') or []
    shown = [item for item in items if item.get('kind') in ('Node', 'Pod')]
    events = [event for event in document.get('events') or [] if event['type'] in ('rate', 'pause')]
    events += [{**event, 'object': reduced_object(event['object'])} for event in document.get('events') or []
               if event['type'] == 'put' and event['object'].get('kind') == 'Pod']
    return {'title': title, 'settings': {key: settings[key] for key in ('epoch', 'beatMillis') if key in settings},
            'controllers': [{key: each[key] for key in CLOCK_KEYS if key in each} for each in document['controllers']],
            'objects': {'items': [reduced_object(item) for item in shown]}, **reduced_sets(document), 'events': events, 'bounds': bounds(document)}


def reduced_sets(document):
    """Of sets of pods the names and the nodes, where there are sets."""
    sets = [{key: each[key] for key in ('namespace', 'name', 'on') if key in each} for each in document.get('podSets') or []]
    return {'podSets': sets} if sets else {}


def bounds(document):
    """How long nobody leads at most after a crash of each controller, if it led for some time before, where kube_lens is built and tells it."""
    return [{'name': name, 'crashMostMillis': most, 'ledMillis': led} for name, (_, most, led) in CrashBounds().of_each(document).items()]


def read_document(path):
    try:
        with open(path, encoding='utf-8') as file:
            return json.dumps(reduced(json.load(file), title_of(path)), separators=(',', ':'))
    except (ValueError, KeyError, TypeError, AttributeError) as fault:
        raise Wrong('%s is no document: %s' % (path, fault)) from fault


def read_trace(path):
    with (open(path, encoding='utf-8', newline='') if path else open(0, encoding='utf-8', newline='', closefd=False)) as file:
        text = file.read()
    if not re.match(r'trace 1 beat=[1-9][0-9]* end=(0|[1-9][0-9]*) premise=(yes|no)\r?\n', text):
        first = text.split('\n', 1)[0]
        raise Wrong('this is no trace%s' % (', its first line is: ' + first[:120] if first else ', it is empty'))
    return text


def put_in(page, place, text):
    """Writes a text behind the line that begins its place in the page."""
    begin = '<script type="text/plain" id="%s">\n' % place
    return page.replace(begin, begin + text.replace('&', '&amp;').replace('<', '&lt;'), 1)


def between(text, begin, end):
    return text.split(begin, 1)[1].split(end, 1)[0]


def parts():
    """What another page shows the picture by: the page's style, the elements of its body, and its script without the last part, which begins."""
    with open(PAGE, encoding='utf-8') as file:
        page = file.read()
    return {'style': between(page, '<style>\n', '</style>'), 'body': between(page, '<body>\n', '<script'),
            'script': between(page, '<script>\n', '</script>')}


def main():
    options = argparse.ArgumentParser(prog='timeline', description='Puts a trace into a page: ./timeline [--document FILE] [TRACE] > PAGE.html')
    options.add_argument('--document', metavar='FILE', help='the document of the trace: title, time of day, clocks, nodes of pods, pauses')
    options.add_argument('trace', nargs='?', metavar='TRACE', help='a file; standard input where there is none')
    given = options.parse_args()
    with open(PAGE, encoding='utf-8') as file:
        page = file.read()
    told = read_document(given.document) + '\n' if given.document else ''
    page = put_in(put_in(page, 'document', told), 'trace', read_trace(given.trace))
    sys.stdout.reconfigure(encoding='utf-8', newline='')
    sys.stdout.write(page)
    sys.stdout.flush()


if __name__ == '__main__':
    try:
        main()
    except (Wrong, OSError, UnicodeDecodeError) as fault:
        sys.exit('timeline: %s' % fault)
