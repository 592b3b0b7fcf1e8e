"""Whether the links of a site in a folder hold."""
import os
import posixpath
from html.parser import HTMLParser
from urllib.parse import unquote, urlsplit


class Page(HTMLParser):
    """The names that links can lead to in a page, and the links of it."""

    def __init__(self, path):
        super().__init__()
        self.names, self.links = {''}, []
        with open(path, encoding='utf-8') as file:
            self.feed(file.read())

    def handle_starttag(self, tag, attrs):
        for name, value in attrs:
            if name == 'id' or (tag == 'a' and name == 'name'):
                self.names.add(value)
            elif name in ('href', 'src') and value and not (tag == 'link' and ('rel', 'canonical') in attrs):
                self.links.append(value)


def faults(folder):
    """The links of a site that lead nowhere."""
    paths = [os.path.relpath(os.path.join(room, name), folder) for room, _, names in os.walk(folder) for name in names]
    pages = {path: Page(os.path.join(folder, path)) for path in paths if path.endswith('.html')}
    for path, page in sorted(pages.items()):
        for link in page.links:
            parts = urlsplit(link)
            if parts.scheme or parts.netloc:
                continue
            target = posixpath.normpath(posixpath.join(posixpath.dirname(path), unquote(parts.path))) if parts.path else path
            if target in pages and unquote(parts.fragment) in pages[target].names:
                continue
            if target in pages or target not in paths:
                yield '%s: %s leads nowhere' % (path, link)
