"""The pages of the site, as MkDocs wants them: those that README.md, CONTRIBUTING.md, docs/ and examples/ link to are taken in too."""
import glob
import os
import posixpath
import re
import shutil

LINK = re.compile(r'\]\(([^)\s]+)\)')
OUTSIDE = re.compile(r'[a-z]+:|#|//')
MARKER = re.compile(r'([-*]|\d+\.) +')
RAW = ('docs/', 'examples/')


class Pages:
    """Pages by their path in the repository: what stands there, or what is made for a file or a folder that has no page."""

    def __init__(self, top):
        self.top, self.texts, self.raw = top, {}, set()
        for folder in RAW:
            self.raw.update(path for path in self.files_of(folder) if not path.endswith('.md'))
        open_pages = ['README.md', 'CONTRIBUTING.md', *(path for folder in RAW for path in self.files_of(folder) if path.endswith('.md'))]
        while open_pages:
            path = open_pages.pop()
            if path not in self.texts:
                self.texts[path] = self.text_of(path)
                open_pages += self.wanted_of(path)

    def files_of(self, folder):
        paths = glob.glob(os.path.join(self.top, folder, '**', '*'), recursive=True)
        return sorted(os.path.relpath(path, self.top) for path in paths if os.path.isfile(path) and '__pycache__' not in path and '/out/' not in path)

    def text_of(self, path):
        """A page as it stands; of a folder without one its list of files, and of any other file its text."""
        whole = os.path.join(self.top, path)
        if os.path.isfile(whole):
            with open(whole, encoding='utf-8') as file:
                return file.read()
        if path.endswith('/README.md'):
            folder = os.path.dirname(path)
            names = sorted(name for name in os.listdir(os.path.join(self.top, folder)) if os.path.isfile(os.path.join(self.top, folder, name)))
            return '# %s\n\n%s\n' % (folder, '\n'.join('- [%s](%s)' % (name, name) for name in names))
        with open(whole[:-len('.md')], encoding='utf-8') as file:
            return '# %s\n\n%s\n' % (path[:-len('.md')], ''.join('    ' + line for line in file))

    def page_of(self, path):
        """The page, or the file as it is, that a link to a path of the repository leads to."""
        if os.path.isdir(os.path.join(self.top, path)):
            return posixpath.join(path, 'README.md')
        return path if path.endswith('.md') or path in self.raw else path + '.md'

    def target_of(self, page, link):
        """Where a link of a page leads to, with what stands behind #, or None where it leads out of the repository."""
        if OUTSIDE.match(link):
            return None
        path, sign, anchor = link.partition('#')
        path = posixpath.normpath(posixpath.join(posixpath.dirname(page), path))
        return self.page_of(path), sign + anchor

    def wanted_of(self, page):
        targets = [self.target_of(page, link) for link in LINK.findall(self.texts[page])]
        wanted = [target[0] for target in targets if target and target[0] not in self.raw]
        return [path for path in wanted if os.path.exists(os.path.join(self.top, path.removesuffix('README.md').removesuffix('.md')))
                or os.path.exists(os.path.join(self.top, path))]

    def with_links(self, page):
        def as_page(found):
            target = self.target_of(page, found[1])
            return found[0] if target is None else '](%s%s)' % (posixpath.relpath(target[0], posixpath.dirname(page) or '.'), target[1])
        return LINK.sub(as_page, self.texts[page])

    def write(self, folder):
        for page in self.texts:
            path = os.path.join(folder, page)
            os.makedirs(os.path.dirname(path), exist_ok=True)
            with open(path, 'w', encoding='utf-8') as file:
                file.write(with_lists(self.with_links(page)))
        for path in self.raw:
            os.makedirs(os.path.dirname(os.path.join(folder, path)), exist_ok=True)
            shutil.copyfile(os.path.join(self.top, path), os.path.join(folder, path))

    def nav(self):
        """The side bar: README.md, then docs/README.md with its parts in its order, then the examples, then all else."""
        parts, listed = [{'All pages': ['docs/README.md']}], ['README.md', 'docs/README.md']
        for section in self.texts['docs/README.md'].split('\n## ')[1:]:
            title, _, body = section.partition('\n')
            pages = list(dict.fromkeys(self.target_of('docs/README.md', link)[0] for link in LINK.findall(body)))
            parts.append({title: pages})
            listed += pages
        rest = sorted(set(self.texts) - set(listed))
        examples = sorted((path for path in rest if path.startswith('examples/')), key=lambda path: (path.count('/'), path))
        return ['README.md', *parts, {'Examples': examples}, {'More': [path for path in rest if path not in examples]}]


def with_lists(text):
    """The same lists as Markdown of Python has them: four blanks for each depth, and an empty line before the first item."""
    depths, made, last = [], [], ''
    for line in text.split('\n'):
        body = line.lstrip(' ')
        blanks = len(line) - len(body)
        if body:
            while depths and blanks < depths[-1] and (not last or MARKER.match(body)):
                depths.pop()
            within = depths[-1] if depths else 0
            marker = MARKER.match(body) if blanks - within < 4 else None
            if marker and not depths and last:
                made.append('')
            line = ' ' * (4 * len(depths) + max(blanks - within, 0)) + body
            if marker:
                depths.append(blanks + len(marker[0]))
        made.append(line)
        last = '' if not body or body.startswith('#') else body
    return '\n'.join(made)
