"""What the tests of kube_lens share: their words, the examples, texts from a seed, the calls of the programs, and the comparison with its report."""
import argparse
import glob
import json
import os
import random
import subprocess
import sys
import tempfile

from places import TOP, built

# What `bounds --timeout 2s --wait 4400ms --delay 100ms` says, worked out by hand.
USUAL_BOUNDS = '''\
timeout=2000ms wait=2000ms..4400ms delay=10ms..100ms skew=0ppm
crash nobody-leads at-least=12730ms at-most=24570ms
stop nobody-leads at-least=40ms at-most=4990ms
cut-off acts-on-at-most=12190ms
calm leads at-most=26390ms stays-from at-most=36970ms
node unknown at-least=34650ms at-most=50080ms
node tainted ahead=0 at-least=34650ms at-most=60080ms at-most-with-token=50080ms
pods gone toleration=300s at-least=333660ms at-most=360080ms at-most-with-token=350080ms
stays
'''


def options(page, count):
    """The words that each of these tests takes; `page` is what it says of itself."""
    words = argparse.ArgumentParser(description=page, formatter_class=argparse.RawDescriptionHelpFormatter)
    words.add_argument('--count', type=int, default=count)
    words.add_argument('--seed', type=int, default=1)
    words.add_argument('--program', default=built('kube_lens'))
    words.add_argument('--replay', default=built('kube_replay'))
    return words


def given(words, may_lack_lens=False):
    """The words that were given, with whole paths. It ends the test where a program isn't built."""
    found = words.parse_args()
    for program in [found.replay] + [found.program] * (not may_lack_lens):
        if not os.path.exists(program):
            sys.exit(f'{program} is not built')
    found.program, found.replay = os.path.abspath(found.program), os.path.abspath(found.replay)
    return found


def texts(*pattern):
    """The texts of the repository's files of this pattern, in the order of their names."""
    found = []
    for path in sorted(glob.glob(os.path.join(TOP, *pattern))):
        with open(path, encoding='utf-8') as file:
            found.append(file.read())
    return found


def example_documents():
    """The documents of the examples, as texts."""
    return texts('examples', '*', 'document.json') + texts('examples', 'one-controller.json')


def example_traces():
    return texts('examples', '*', 'trace*.txt')


def from_seed(seed, count, make, damage):
    """As many as wanted, made by a seed, one in ten of them with a fault."""
    dice = random.Random(seed)
    for number in range(count):
        one = make(dice)
        yield damage(dice, one) if number % 10 == 9 else one


def broken(dice, text):
    """The text with one fault."""
    at = dice.randrange(len(text))
    return text[:at] + dice.choice(('', '\n', 'x', '0', ' ')) + text[at + 1:]


def answer(program, words, text):
    """The exit status, and what the program writes on this text, or on these bytes."""
    ran = subprocess.run([program, *words], input=text, stdout=subprocess.PIPE, text=isinstance(text, str), check=False)
    return ran.returncode, ran.stdout


def text_of(program, command, text):
    """What a command of a program writes on this text."""
    return answer(program, [command], text)[1]


def objects(lines):
    """The JSON object of each line, as its members in order."""
    return [json.loads(line, object_pairs_hook=lambda pairs: pairs) for line in lines]


def compare(words, command, cases, status):
    """Compares the answers of a command of kube_lens with the texts wanted, and ends with the outcome. A case is a text and the text wanted, from
    which `status` tells the exit status wanted. Where kube_lens isn't built it runs unproved, by `rt try --cases`."""
    if not os.path.exists(words.program):
        sys.exit(try_unproved(command, cases))
    report([text for text, wanted in cases if answer(words.program, [command], text) != (status(wanted), wanted)])


def try_unproved(command, cases):
    """The status of `rt try` on these texts and the texts wanted."""
    with tempfile.TemporaryDirectory() as folder:
        for number, (text, wanted) in enumerate(cases):
            for ending, what in (('', text), ('.stdout', wanted)):
                with open(os.path.join(folder, f'case{number}{ending}'), 'w', encoding='utf-8') as file:
                    file.write(what)
        ran = subprocess.run(['rt', 'try', '--cases', folder, '--', command], cwd=os.path.join(TOP, 'crates', 'kube_lens'), check=False,
                             stdout=subprocess.PIPE, stderr=subprocess.STDOUT, text=True)
    print('\n'.join(ran.stdout.splitlines()[-3:]))
    return ran.returncode


def report(wrong, tried=True):
    """Says how many differ, shows the first three, and ends the test: with 1 where one differs, or where what matters wasn't tried."""
    print(f'{len(wrong)} differ', *wrong[:3], sep='\n')
    sys.exit(1 if wrong or not tried else 0)
