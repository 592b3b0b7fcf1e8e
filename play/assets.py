"""The files of the page, as they are read at the start: the picture's own style and script from view/timeline.html, and what stands beside them here."""
import os
import sys

HERE = os.path.dirname(os.path.realpath(__file__))
sys.path.insert(0, os.path.join(os.path.dirname(HERE), 'view'))
import page

KINDS = {'.js': 'text/javascript; charset=utf-8', '.css': 'text/css; charset=utf-8', '.html': 'text/html; charset=utf-8'}
PICTURE = '<!-- the elements of the picture -->\n'


def files():
    """Each file by its name behind the secret: its kind and its bytes."""
    parts, folder, found = page.parts(), os.path.join(HERE, 'web'), {}
    for name in sorted(os.listdir(folder)):
        with open(os.path.join(folder, name), encoding='utf-8') as file:
            found[name] = (KINDS[os.path.splitext(name)[1]], file.read().replace(PICTURE, parts['body']).encode())
    found[''] = found.pop('index.html')
    found['picture.css'] = (KINDS['.css'], parts['style'].encode())
    found['picture.js'] = (KINDS['.js'], parts['script'].encode())
    return found
