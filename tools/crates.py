"""The crates of this repository by crates.txt, and what each costs by the table of docs/gate.md."""
import os
import re
import sys
from dataclasses import dataclass

TOP = os.path.dirname(os.path.dirname(os.path.abspath(__file__)))
ROW = re.compile(r'^\|\s*`(\w+)`\s*((?:\|\s*[\d.]*\s*){5})\|\s*$')


class Unknown(Exception):
    """A crate that crates.txt doesn't name."""


@dataclass(frozen=True)
class Minutes:
    """Processor minutes of a crate from nothing."""
    proof: float = 0.0
    tests: float = 0.0
    wrong: float = 0.0
    programs: float = 0.0

    @property
    def all(self):
        return self.proof + self.tests + self.wrong + self.programs

    def __add__(self, other):
        return Minutes(self.proof + other.proof, self.tests + other.tests, self.wrong + other.wrong, self.programs + other.programs)


def read(text):
    """The crates of crates.txt in the order of its lines, each with the libraries that it names; the groups, each a heading with its crates; and
    the static libraries among the crates."""
    uses, groups, static = {}, [], set()
    for line in text.splitlines():
        if line.startswith('#'):
            groups.append((line.lstrip('# ').rstrip(), []))
        words, colon, libraries = line.split('#')[0].partition(':')
        if not colon:
            continue
        name, *kind = words.split()
        uses[name] = libraries.split()
        if 'staticlib' in kind:
            static.add(name)
        if not groups:
            groups.append(('', []))
        groups[-1][1].append(name)
    return uses, [group for group in groups if group[1]], static


class Crates:
    """The crates of one checkout."""

    def __init__(self, text):
        self.uses, self.groups, self.static = read(text)

    @classmethod
    def of(cls, top=TOP):
        with open(os.path.join(top, 'crates.txt'), encoding='utf-8') as file:
            return cls(file.read())

    @property
    def names(self):
        return list(self.uses)

    def own(self, name):
        """The crates of this repository that a crate names, in the order of its line."""
        return [library for library in self.libraries(name) if library in self.uses]

    def of_the_kit(self, name):
        """The libraries of the kit that it names."""
        return [library for library in self.libraries(name) if library not in self.uses]

    def libraries(self, name):
        if name not in self.uses:
            raise Unknown(f'crates.txt names no crate {name}')
        return self.uses[name]

    def below(self, name):
        """All crates that it stands on, each behind those that it stands on itself."""
        found = []
        for library in self.own(name):
            for crate in [*self.below(library), library]:
                if crate not in found:
                    found.append(crate)
        return found

    def above(self, name):
        """All crates that stand on it, in the order of crates.txt."""
        self.libraries(name)
        return [crate for crate in self.names if name in self.below(crate)]

    def out_of_order(self):
        """The pairs of a crate and one that it names and that stands on a later line."""
        place = {name: index for index, name in enumerate(self.names)}
        return [(name, library) for name in self.names for library in self.own(name) if place[library] > place[name]]

    def chain(self, minutes, top=None):
        """The crates that stand on each other whose proofs together take longest, lowest first, and those minutes; up to `top`, where it is given."""
        best, crates = {}, self.names if top is None else [*self.below(top), top]
        for name in sorted(crates, key=lambda crate: len(self.below(crate))):
            longest = max((best[library] for library in self.own(name)), default=(0.0, []))
            best[name] = (longest[0] + minutes.get(name, Minutes()).proof, [*longest[1], name])
        taken, names = max(best.values(), default=(0.0, [])) if top is None else best[top]
        return names, taken


def minutes_in(text):
    """The table of a text: the minutes of each crate."""
    found = {}
    for line in text.splitlines():
        row = ROW.match(line)
        if row:
            cells = [float(cell) if cell.strip() else 0.0 for cell in row[2].split('|')[1:5]]
            found[row[1]] = Minutes(*cells)
    return found


def minutes(top=TOP):
    """The minutes of each crate by the table of docs/gate.md."""
    with open(os.path.join(top, 'docs', 'gate.md'), encoding='utf-8') as file:
        return minutes_in(file.read())


def listing(names, found):
    """These crates with their minutes, a line each, and their sum, for a terminal."""
    wide = max(len(name) for name in [*names, 'crate'])
    lines = [f'{"crate":{wide}s}  proof  tests  wrong  programs    all']
    each = [(name, found.get(name, Minutes())) for name in names]
    total = Minutes()
    for _, cost in each:
        total += cost
    for name, cost in [*each, ('all', total)]:
        lines.append(f'{name:{wide}s}  {cost.proof:5.1f}  {cost.tests:5.1f}  {cost.wrong:5.1f}  {cost.programs:8.1f}  {cost.all:5.1f}')
    return '\n'.join(lines)


def rows(found):
    """The table of docs/gate.md for these minutes, dearest first, with its sum."""
    lines = ['| Crate | Proof | Tests | Wrong bodies | Programs | All |', '|---|---|---|---|---|---|']
    total = Minutes()
    for name, each in sorted(found.items(), key=lambda item: (-round(item[1].all, 1), item[0])):
        total += each
        cells = [f'{part:.1f}' if part >= 0.05 else '' for part in (each.proof, each.tests, each.wrong, each.programs)]
        lines.append(f'| `{name}` | {" | ".join(cells)} | {each.all:.1f} |')
    lines.append(f'| all | {total.proof:.1f} | {total.tests:.1f} | {total.wrong:.1f} | {total.programs:.1f} | {total.all:.1f} |')
    return '\n'.join(lines)


def end(main):
    """Ends the process by what a tool's main returns, or by naming a crate that crates.txt doesn't name."""
    try:
        sys.exit(main())
    except Unknown as fault:
        sys.exit(str(fault))
