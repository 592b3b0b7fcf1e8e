#!/usr/bin/env python3
"""Opens the site that tools/site made in a headless Chromium, as files without a server, and searches it.

    tools/test/test_site.py [--site FOLDER] [--picture FILE]

Each row of QUERIES is typed into the search of another page, and a result has to lead to that heading; the link is then followed.
FOLDER is out/site where none is named. --picture writes what is seen with the last results. The exit status is 1 where anything differs.
"""
import argparse
import os
import re
import sys
import time

TOP = os.path.dirname(os.path.dirname(os.path.dirname(os.path.abspath(__file__))))
sys.path.insert(0, os.path.join(TOP, 'view'))
from browser import Browser

# The page on which one searches, the words, and where a result has to lead.
QUERIES = [('index.html', 'emptied lease', 'docs/profile.html#emptied-lease'), ('docs/profile.html', 'glossary', 'docs/glossary.html'),
           ('examples/slow-network/index.html', 'exit statuses', 'docs/running.html#exit-statuses')]
TYPE = 'document.querySelector("[data-md-component=search-query]")'
READY = '!/Initializing/.test(document.querySelector(".md-search-result__meta").innerText)'
RESULTS = '[...document.querySelectorAll(".md-search-result__link")].map(link => link.href).join("\\n")'
SECONDS = 30


def go(browser, path, name=''):
    browser.call('Page.navigate', url='file://' + path + name)
    end = time.monotonic() + SECONDS
    while not browser.run('document.readyState === "complete" && location.pathname === "%s"' % path) and time.monotonic() < end:
        time.sleep(0.1)


def found_by(browser, words):
    """The links of the results for these words."""
    browser.run('document.getElementById("__search").checked = true; %s.focus(); 0' % TYPE)
    end = time.monotonic() + SECONDS
    while not browser.run(READY) and time.monotonic() < end:
        time.sleep(0.2)
    browser.type(words)
    end = time.monotonic() + SECONDS
    links = ''
    while not links and time.monotonic() < end:
        time.sleep(0.2)
        links = browser.run(RESULTS)
    return links.split('\n')


def wrong_in(browser, site, page, words, wanted):
    """What is wrong with a search, or nothing."""
    go(browser, os.path.join(site, page))
    links = [re.sub(r'\?[^#]*', '', link) for link in found_by(browser, words)]
    target = 'file://' + os.path.join(site, wanted)
    if target not in links:
        return '%s: "%s" finds %s, and not %s' % (page, words, links[:3], wanted)
    path, _, name = wanted.partition('#')
    go(browser, os.path.join(site, path), '#' + name)
    if name and not browser.run('document.getElementById("%s") !== null' % name):
        return '%s has no %s' % (path, name)
    return None


def main():
    words = argparse.ArgumentParser(description=__doc__, formatter_class=argparse.RawDescriptionHelpFormatter)
    words.add_argument('--site', default=os.path.join(TOP, 'out', 'site'), metavar='FOLDER', help='the site (out/site)')
    words.add_argument('--picture', metavar='FILE', help='where a screenshot of the last results is written')
    given = words.parse_args()
    site, faults = os.path.abspath(given.site), []
    with Browser() as browser:
        for row in QUERIES:
            fault = wrong_in(browser, site, *row)
            faults += [fault] if fault else []
        if given.picture:
            go(browser, os.path.join(site, QUERIES[0][0]))
            found_by(browser, QUERIES[0][1])
            browser.picture(given.picture)
    print('\n'.join(faults) if faults else 'site: %d searches lead to their headings' % len(QUERIES))
    return 1 if faults else 0


if __name__ == '__main__':
    sys.exit(main())
