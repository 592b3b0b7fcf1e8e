#!/usr/bin/env python3
"""Tests the scripts that read crates.txt: what stands on what, where a library is taken from, edits, tables and pictures.

    python3 tools/test/test_prove_one.py [--prove CRATE] [TEST ..]

Nothing is proved, but with --prove: then tools/prove-one proves this crate and what is below it, from nothing, in a copy of the sources, and
refuses it with one of its wrong bodies of each kind. For `rate_bucket` that takes some three processor minutes.
"""
import importlib.machinery
import importlib.util
import os
import shutil
import subprocess
import sys
import tempfile
import time
import unittest

from places import TOOLS

import bodies
import crates
import edits
import proving

LIST = """# Comment alone

# The base: all stand on it
low: indexmap
mid: low std_io   # a comment
# Above
other: low
top staticlib opt_level=1: mid other itoa
"""
TABLE = """| Crate | Proof | Tests | Wrong bodies | Programs | All |
|---|---|---|---|---|---|
| `low` | 1.0 | 0.5 |  |  | 1.5 |
| `top` | 2.0 |  | 3.0 | 0.4 | 5.4 |
| `mid` | 0.2 |  |  |  | 0.2 |
| all | 3.2 | 0.5 | 3.0 | 0.4 | 7.1 |
"""
PROVE = None


def script(name):
    """A script of the tools as a module."""
    path = os.path.join(TOOLS, name)
    loader = importlib.machinery.SourceFileLoader(name.replace('-', '_'), path)
    module = importlib.util.module_from_spec(importlib.util.spec_from_loader(loader.name, loader))
    loader.exec_module(module)
    return module


def write(text, *path):
    os.makedirs(os.path.dirname(os.path.join(*path)), exist_ok=True)
    with open(os.path.join(*path), 'w', encoding='utf-8') as file:
        file.write(text)


def make(top):
    """A checkout of four small crates."""
    write(LIST, top, 'crates.txt')
    for name in ('low', 'mid', 'other', 'top'):
        write(f'// {name}\n', top, 'crates', name, 'src', 'lib.rt')
    return proving.Checkout(top)


def keep(checkout, name, noted=True):
    """A library, as if it had been proved just now."""
    write('1', checkout.library(name), 'format')
    if noted:
        write(checkout.stamp(name), checkout.note(name))


def change_later(checkout, name):
    """Gives a source of the crate a time after that of each library."""
    later = time.time() + 60
    os.utime(os.path.join(checkout.folder(name), 'src', 'lib.rt'), (later, later))


class OfCrates(unittest.TestCase):
    def setUp(self):
        self.table = crates.Crates(LIST)

    def test_lines(self):
        self.assertEqual(self.table.names, ['low', 'mid', 'other', 'top'])
        self.assertEqual(self.table.own('top'), ['mid', 'other'])
        self.assertEqual(self.table.of_the_kit('top'), ['itoa'])
        self.assertEqual(self.table.of_the_kit('mid'), ['std_io'])
        self.assertEqual(self.table.static, {'top'})

    def test_groups(self):
        self.assertEqual(self.table.groups, [('The base: all stand on it', ['low', 'mid']), ('Above', ['other', 'top'])])

    def test_below_is_lowest_first(self):
        self.assertEqual(self.table.below('top'), ['low', 'mid', 'other'])
        self.assertEqual(self.table.below('low'), [])

    def test_above(self):
        self.assertEqual(self.table.above('low'), ['mid', 'other', 'top'])
        self.assertEqual(self.table.above('other'), ['top'])

    def test_unknown_crates_are_told(self):
        for call in (self.table.below, self.table.above, self.table.of_the_kit):
            self.assertRaises(crates.Unknown, call, 'itoa')

    def test_order(self):
        self.assertEqual(self.table.out_of_order(), [])
        self.assertEqual(crates.Crates('top: low\nlow:\n').out_of_order(), [('top', 'low')])

    def test_chain_takes_the_dearer_way(self):
        costs = {'low': crates.Minutes(1), 'mid': crates.Minutes(0.25, wrong=9), 'other': crates.Minutes(0.5), 'top': crates.Minutes(2)}
        self.assertEqual(self.table.chain(costs), (['low', 'other', 'top'], 3.5))
        self.assertEqual(self.table.chain(costs, 'mid'), (['low', 'mid'], 1.25))


class OfTables(unittest.TestCase):
    def test_minutes(self):
        found = crates.minutes_in(TABLE)
        self.assertEqual(found, {'low': crates.Minutes(1.0, 0.5), 'mid': crates.Minutes(0.2), 'top': crates.Minutes(2.0, 0.0, 3.0, 0.4)})

    def test_rows_are_dearest_first_with_their_sum(self):
        text = crates.rows(crates.minutes_in(TABLE))
        self.assertEqual([line.split('`')[1] for line in text.splitlines() if '`' in line], ['top', 'low', 'mid'])
        self.assertEqual(text.splitlines()[-1], '| all | 3.2 | 0.5 | 3.0 | 0.4 | 7.1 |')
        self.assertEqual(crates.minutes_in(text), crates.minutes_in(TABLE))

    def test_a_page_gets_what_was_measured_and_keeps_the_rest(self):
        with tempfile.TemporaryDirectory() as room:
            page = os.path.join(room, 'page.md')
            write('# Page\n\nbefore\n\n' + TABLE + '\nbehind\n', page)
            script('gate-times').put_into(page, {'low': crates.Minutes(9.0)})
            with open(page, encoding='utf-8') as file:
                text = file.read()
        self.assertEqual(crates.minutes_in(text)['low'], crates.Minutes(9.0))
        self.assertEqual(crates.minutes_in(text)['top'], crates.Minutes(2.0, 0.0, 3.0, 0.4))
        self.assertTrue(text.startswith('# Page\n\nbefore\n\n| Crate'))
        self.assertTrue(text.endswith('|\n\nbehind\n'))

    def test_kinds_of_processes(self):
        place_of = script('gate-times').place_of
        words = ['/kit/bin/rattle', 'build', '--crate-name', 'low', 'src/lib.rt', '--statements']
        self.assertEqual(place_of(words, {'low'}), ('low', 'proof'))
        self.assertEqual(place_of(words[:-1], {'low'}), ('low', 'programs'))
        self.assertEqual(place_of([words[0], 'check', *words[2:]], {'low'}), ('low', 'wrong'))
        self.assertEqual(place_of([*words[:-1], '-o', 'out/low_tests.o'], {'low'}), ('low', 'tests'))
        self.assertEqual(place_of(['/room/low.by-rattle', 'a'], {'low'}), ('low', 'programs'))
        self.assertIsNone(place_of(['python3', 'rt', 'ci'], {'low'}))

    def test_times_of_a_process_and_of_one_below_it(self):
        gate_times = script('gate-times')
        count = 'import time\nwhile time.process_time() < 1.2: pass'
        inner = [sys.executable, '-c', count, '--crate-name', 'low', '--statements']
        outer = [sys.executable, '-c', f'import subprocess\nsubprocess.run({inner!r})', '--crate-name', 'top']
        status, found, seen, taken = gate_times.measure(outer, {'low', 'top'})
        self.assertEqual(status, 0)
        self.assertGreater(found['low'].proof * 60, 0.4)
        self.assertLess(found['low'].proof * 60, 1.7)
        self.assertLess(found['top'].all * 60, 0.7)
        self.assertLessEqual(seen, taken + 0.02)


class OfShelves(unittest.TestCase):
    def setUp(self):
        self.room = tempfile.TemporaryDirectory()
        self.addCleanup(self.room.cleanup)
        self.own = make(os.path.join(self.room.name, 'own'))

    def test_stamps_tell_changes_below(self):
        before = {name: self.own.stamp(name) for name in self.own.crates.names}
        write('// new\n', self.own.folder('other'), 'specs', 'Lib.antt')
        after = {name: proving.Checkout(self.own.top).stamp(name) for name in self.own.crates.names}
        self.assertEqual([name for name in before if before[name] != after[name]], ['other', 'top'])

    def test_stamps_are_those_of_a_copy(self):
        copy = make(os.path.join(self.room.name, 'copy'))
        self.assertEqual(copy.stamp('top'), self.own.stamp('top'))
        write('// low\n', copy.folder('low'), 'src', 'more.rt')
        self.assertNotEqual(proving.Checkout(copy.top).stamp('top'), self.own.stamp('top'))

    def test_nothing_is_kept_at_first(self):
        self.assertEqual(proving.Shelf(self.own).from_source('top'), ['low', 'mid', 'other'])

    def test_noted_libraries_are_taken_until_a_source_changes(self):
        keep(self.own, 'low')
        keep(self.own, 'mid')
        self.assertEqual(proving.Shelf(self.own).from_source('top'), ['other'])
        write('// changed\n', self.own.folder('low'), 'src', 'lib.rt')
        change_later(self.own, 'low')
        self.assertEqual(proving.Shelf(proving.Checkout(self.own.top)).from_source('top'), ['low', 'mid', 'other'])

    def test_what_rt_made_counts_where_it_is_newer(self):
        keep(self.own, 'low', noted=False)
        self.assertEqual(proving.Shelf(self.own).from_source('mid'), [])
        change_later(self.own, 'low')
        self.assertEqual(proving.Shelf(self.own).from_source('mid'), ['low'])

    def test_what_rt_linked_keeps_old_times_and_counts(self):
        keep(self.own, 'low', noted=False)
        os.utime(os.path.join(self.own.library('low'), 'format'), (1, 1))
        os.utime(self.own.library('low'), (1, 1))
        self.assertEqual(proving.Shelf(self.own).from_source('mid'), [])

    def not_proved_again(self):
        """The crates that tools/prove-all leaves alone."""
        write(TABLE, self.own.top, 'docs', 'gate.md')
        own = proving.Checkout(self.own.top)
        return script('prove-all').Queue(own, own.crates.names, 2).kept

    def kept_by_rt(self, name):
        """A library with rt's own sum beside it, as `rt lib` leaves it."""
        keep(self.own, name, noted=False)
        of_rt = proving.rtlib().Crate(self.own.folder(name), self.own.top, {})
        write(of_rt.stamp(), os.path.dirname(self.own.library(name)), 'stamp')

    @unittest.skipUnless(shutil.which('rt'), 'needs rt')
    def test_what_rt_left_is_taken_by_its_own_sum(self):
        self.kept_by_rt('low')
        self.kept_by_rt('mid')
        change_later(self.own, 'low')
        self.assertEqual(proving.Shelf(self.own).from_source('top'), ['other'])
        self.assertEqual(self.not_proved_again(), {'low', 'mid'})

    @unittest.skipUnless(shutil.which('rt'), 'needs rt')
    def test_what_rt_left_of_other_sources_is_not_taken(self):
        self.kept_by_rt('low')
        self.kept_by_rt('mid')
        write('// changed\n', self.own.folder('low'), 'src', 'lib.rt')
        change_later(self.own, 'low')
        self.assertEqual(proving.Shelf(proving.Checkout(self.own.top)).from_source('top'), ['low', 'mid', 'other'])
        self.assertEqual(self.not_proved_again(), set())

    @unittest.skipUnless(shutil.which('rt'), 'needs rt')
    def test_a_library_of_rt_without_its_sum_counts_by_time_alone(self):
        keep(self.own, 'low', noted=False)
        self.assertFalse(self.own.is_by_rt('low'))
        self.assertEqual(self.not_proved_again(), set())

    def test_another_checkout_serves_where_all_is_equal(self):
        other = make(os.path.join(self.room.name, 'other'))
        for name in ('low', 'mid', 'other'):
            keep(other, name, noted=False)
        self.assertEqual(proving.Shelf(self.own, other).from_source('top'), [])
        write('// changed\n', self.own.folder('mid'), 'src', 'lib.rt')
        own = proving.Checkout(self.own.top)
        self.assertEqual(proving.Shelf(own, proving.Checkout(other.top)).from_source('top'), ['mid'])

    def test_words(self):
        keep(self.own, 'low')
        keep(self.own, 'mid')
        found = proving.words(proving.Shelf(self.own), 'mid', False, '/kit')
        self.assertIn('low=' + self.own.library('low'), found)
        self.assertNotIn('--lib', found)
        above = proving.words(proving.Shelf(self.own), 'top', True, '/kit')
        self.assertIn('--test', above)
        self.assertEqual(above[above.index('--lib') + 1], f'other:core,std,low={self.own.folder("other")}/src/lib.rt')
        self.assertIn('low=' + self.own.library('low'), above)
        self.assertIn('itoa=/kit/rlibs/itoa.rlib', above)

    def test_words_of_a_static_library(self):
        for tests in (False, True):
            found = proving.words(proving.Shelf(self.own), 'top', tests, '/kit')
            self.assertEqual(found[-2:] == ['--crate-type', 'staticlib'], not tests)
        self.assertNotIn('--crate-type', proving.words(proving.Shelf(self.own), 'mid', False, '/kit'))


class OfEdits(unittest.TestCase):
    def fault(self, text):
        with tempfile.TemporaryDirectory() as room:
            write('one\ntwo two\n', room, 'src', 'lib.rt')
            write(text, room, 'it.edit')
            return edits.fault_of(os.path.join(room, 'it.edit'), room)

    def test_edits_that_apply(self):
        self.assertIsNone(self.fault('file: src/lib.rt\nold: one\nnew: three\n'))
        self.assertIsNone(self.fault('file: src/lib.rt\nold: one\nnew: three\nold: three\nnew: four\n'))
        self.assertIsNone(self.fault('file: src/lib.rt\nold: one\nnew: \n'))

    def test_edits_that_do_not(self):
        self.assertIn('2 times', self.fault('file: src/lib.rt\nold: two\nnew: three\n'))
        self.assertIn('0 times', self.fault('file: src/lib.rt\nold: none\nnew: three\n'))
        self.assertIn('no file', self.fault('file: src/other.rt\nold: one\nnew: three\n'))
        self.assertIn('no pair', self.fault('file: src/lib.rt\n'))
        self.assertIn('no pair', self.fault('file: src/lib.rt\nold: one\n'))
        self.assertIn('before it', self.fault('old: one\nnew: three\n'))

    def test_lines_of_outcomes(self):
        line = script('wrong-bodies').LINE
        self.assertEqual(line.match('must-fail low/x.edit: refused, as it must be: src/a.rt:1:1: error').groups()[:3], ('low', 'x', 'refused'))
        self.assertEqual(line.match('must-fail low/x_2.edit: NOT REFUSED: the crate is still proved').groups()[:3], ('low', 'x_2', 'NOT REFUSED'))
        self.assertEqual(line.match('rt: must-fail low/x.edit: BAD EDIT: it').groups()[:3], ('low', 'x', 'BAD EDIT'))
        self.assertIsNone(line.match('low: 2 of its 8 must-fail edits were tried by an earlier run'))


class OfWrongBodies(unittest.TestCase):
    """The whole script, with a stand-in for `rt` that says of each edit in must-fail what a line of it has."""

    STAND_IN = """#!/bin/sh
[ "$1" = must-fail ] || exit 2
for edit in crates/$2/must-fail/*.edit; do
    name=$(basename "$edit")
    sed -n "s/^says: /must-fail $2\\/$name: /p" "$edit"
done
"""

    def outcome(self, **says):
        """What the script prints and ends with where each edit gets this outcome; those in capitals stand at the gate."""
        with tempfile.TemporaryDirectory() as room:
            make(room)
            write('Handles allowed: none.\n', room, 'HANDLES')
            write(self.STAND_IN, room, 'bin', 'rt')
            os.chmod(os.path.join(room, 'bin', 'rt'), 0o755)
            shutil.copytree(os.path.join(crates.TOP, 'tools'), os.path.join(room, 'tools'))
            for name, said in says.items():
                place = ('crates', 'low', 'must-fail') if name.isupper() else ('wrong-bodies', 'low')
                write(f'file: src/lib.rt\nold: low\nnew: high\nsays: {said}\n', room, *place, f'{name}.edit')
            command = [sys.executable, os.path.join(room, 'tools', 'wrong-bodies'), 'low']
            path = os.path.join(room, 'bin') + os.pathsep + os.environ['PATH']
            ran = subprocess.run(command, env={**os.environ, 'PATH': path}, capture_output=True, text=True)
            self.assertFalse(os.path.exists(os.path.join(room, 'crates', 'low', 'must-fail', 'b.edit')))
        return [line.split()[:3] for line in ran.stdout.splitlines()[:-1] if not line.startswith('#')], ran.returncode

    def test_both_kinds_are_tried(self):
        found = self.outcome(A='refused, as it must be', b='refused, as it must be: src/lib.rt:1:1: error')
        self.assertEqual(found, ([['refused', 'low/A'], ['refused', 'low/b']], 0))

    def test_one_that_is_not_refused_fails(self):
        found, status = self.outcome(A='NOT REFUSED: the crate is still proved', b='refused, as it must be')
        self.assertEqual((found[0], found[1], status), (['NOT', 'REFUSED', 'low/A'], ['refused', 'low/b'], 1))

    def test_bad_edits_and_those_without_a_word_fail(self):
        found, status = self.outcome(a='BAD EDIT: it cannot be applied', b='')
        self.assertEqual((found[0][:2], found[1][:2], status), (['BAD', 'EDIT'], ['NOT', 'TRIED'], 1))


class OfBodies(unittest.TestCase):
    TEXT = '''// Each thing\nimpl Thing {\n    pub fn take(&self) -> u32\n        ensures { result ≡ 1 }\n    {\n        one()\n    }\n}\n\nfn one() -> u32 {\n    1\n}\n'''

    def test_functions_have_their_paths(self):
        self.assertEqual(bodies.functions('src/thing.rt', self.TEXT, '        one()'), ['Thing::take'])
        self.assertEqual(bodies.functions('src/lib.rt', self.TEXT, '    1'), ['one'])
        self.assertEqual(bodies.functions('src/deep/mod.rt', self.TEXT, '// Each thing'), [])

    def test_an_edit_beside_functions_is_checked_whole(self):
        with tempfile.TemporaryDirectory() as room:
            write(self.TEXT, room, 'src', 'thing.rt')
            write('file: src/thing.rt\nold:         one()\nnew:         2\n', room, 'inside.edit')
            write('file: src/thing.rt\nold: // Each thing\nnew: // Some\n', room, 'beside.edit')
            texts, names = bodies.changed(os.path.join(room, 'inside.edit'), room)
            self.assertEqual(names, ['Thing::take'])
            self.assertEqual(texts['src/thing.rt'], self.TEXT.replace('        one()', '        2'))
            self.assertEqual(bodies.checks(names), [['--only', 'Thing::take'], ['--empty-contracts']])
            self.assertIsNone(bodies.changed(os.path.join(room, 'beside.edit'), room)[1])
            self.assertEqual(bodies.checks(None), [['--empty-contracts']])

    def test_what_a_check_says(self):
        refused = 'note: src/a.rt:3:5: it is not proved\nonly=1 proved=0\n'
        for status, text, is_whole, wanted in ((1, refused, False, 'refused'), (1, 'a\nlogic=not-proved', True, 'refused'), (0, 'only=1 proved=1', False, 'NOT REFUSED'),
                                               (1, 'src/a.rt:3:5: error: expected the end', False, 'BAD EDIT'), (2, 'it has no function', False, None)):
            self.assertEqual(bodies.judged(subprocess.CompletedProcess([], status, text), is_whole)[0], wanted)

    def test_a_refusal_by_a_proof_file_alone_says_little(self):
        ran = subprocess.CompletedProcess([], 1, 'proofs/a.antt:3:5: error: `c` has no field `if`\nonly=1 proved=0')
        self.assertEqual(bodies.judged(ran, False), ('refused', bodies.SAYS_LITTLE))


class OfQueues(unittest.TestCase):
    def test_who_is_proved_when(self):
        with tempfile.TemporaryDirectory() as room:
            own = make(room)
            write(TABLE, room, 'docs', 'gate.md')
            keep(own, 'low')
            queue = script('prove-all').Queue(own, own.crates.names, 2)
            self.assertEqual(queue.kept, {'low'})
            self.assertEqual(queue.way, {'low': 3.5, 'mid': 2.2, 'other': 2.5, 'top': 2.0})
            self.assertEqual(queue.ready(), ['other', 'mid'])
            queue.kept.add('mid')
            queue.failed.append('other')
            self.assertEqual(queue.ready(), [])


class OfPictures(unittest.TestCase):
    def setUp(self):
        self.drawing = script('architecture-picture')

    def test_implied_lines_are_left_out(self):
        table = crates.Crates('# A\na:\n# B\nb: a\nc: a b\nd: c b\n')
        self.assertEqual(self.drawing.lines_of(table), [('c', 'b'), ('d', 'c')])

    def test_every_crate_has_a_box_and_none_lies_on_another(self):
        table = crates.Crates.of()
        groups = [self.drawing.rows_of(table, group) for _, group in table.groups]
        self.assertEqual(sorted(name for rows in groups for row in rows for name in row), sorted(table.names))
        begins = self.drawing.places([row for rows in groups for row in rows], self.drawing.lines_of(table))
        for row in (row for rows in groups for row in rows):
            boxes = sorted((begins[name], begins[name] + self.drawing.wide(name)) for name in row)
            self.assertGreaterEqual(boxes[0][0], 0)
            self.assertLessEqual(boxes[-1][1], self.drawing.WIDTH)
            for (_, end), (begin, _) in zip(boxes, boxes[1:]):
                self.assertLess(end, begin)

    def test_it_is_the_same_each_time(self):
        self.assertEqual(self.drawing.picture(crates.Crates.of()), self.drawing.picture(crates.Crates.of()))


class OfMaps(unittest.TestCase):
    def setUp(self):
        self.check = script('check-map')

    def test_groups_of_a_page(self):
        page = '### One\n\n| Crate | Room of |\n|---|---|\n| `a` | x |\n| `b` | y |\n\n### Two\ntext\n'
        self.assertEqual(self.check.groups_of(page), [('One', ['a', 'b'])])

    def test_differences_are_told(self):
        groups = [('One', ['a', 'b'])]
        self.assertEqual(list(self.check.differences(groups, groups)), [])
        self.assertEqual(len(list(self.check.differences([('One', ['b', 'a'])], groups))), 1)
        self.assertEqual(len(list(self.check.differences([('Other', ['a', 'b'])], groups))), 1)


    def test_a_tool_without_a_name_and_a_name_without_a_tool_are_told(self):
        named = self.check.named_in('| `tools/one`, `two.py` | `three` |\n| `tools/test/test_*.py`, `./four` | x |\ntext\n')
        self.assertEqual(named, ['tools/one', 'tools/two.py', 'tools/test/test_*.py', './four'])
        with tempfile.TemporaryDirectory() as room:
            for name in ('one', 'two.py', 'test/test_a.py', 'unnamed', 'test/unnamed.py'):
                write('#!/bin/sh\n', room, 'tools', name)
            write('module\n', room, 'tools', 'module.py')
            self.assertEqual(list(self.check.unnamed(named, room)),
                             ['tools/README.md names no tools/unnamed, which can be run', 'tools/README.md names no tools/test/unnamed.py, which can be run'])
            os.remove(os.path.join(room, 'tools', 'two.py'))
            self.assertEqual(list(self.check.unnamed(named, room))[2:], ['tools/README.md names tools/two.py, which is not there'])


class OfLayout(unittest.TestCase):
    def test_a_file_that_is_not_laid_out_is_told(self):
        check = script('check-layout')
        with tempfile.TemporaryDirectory() as room:
            path = os.path.join(room, 'src', 'lib.rt')
            write('pub fn one() -> u32 {\n    1\n}\n', path)
            self.assertEqual(check.strays([path]), [])
            write('pub fn one() -> u32 { 1 }\n', path)
            self.assertIn(path, ' '.join(check.strays([path])))


class OfProofs(unittest.TestCase):
    """What needs the prover, where --prove names a crate."""

    def test_a_crate_and_its_wrong_bodies(self):
        if PROVE is None or shutil.which('rt') is None:
            self.skipTest('needs rt and --prove CRATE')
        with tempfile.TemporaryDirectory() as room:
            shutil.copytree(os.path.join(crates.TOP, 'crates'), os.path.join(room, 'crates'), ignore=shutil.ignore_patterns('out'))
            shutil.copytree(os.path.join(crates.TOP, 'tools'), os.path.join(room, 'tools'))
            shutil.copy(os.path.join(crates.TOP, 'crates.txt'), room)
            command = [sys.executable, os.path.join(room, 'tools', 'prove-one'), PROVE]
            self.assertEqual(subprocess.run([*command, '--deps'], stdout=subprocess.DEVNULL).returncode, 0)
            for edit in [*edits.kept(PROVE)[:1], *edits.moved(PROVE)[:1]]:
                self.refuses(edit, os.path.join(room, 'crates', PROVE), command)

    def refuses(self, edit, folder, command):
        """Applies an edit of one file, sees that prove-one refuses it, and takes it back."""
        self.assertIsNone(edits.fault_of(edit, folder))
        lines = dict(line.split(': ', 1) for line in edits.text_of(edit).splitlines())
        path = os.path.join(folder, lines['file'])
        before = edits.text_of(path)
        write(before.replace(lines['old'], lines['new']), path)
        self.assertNotEqual(subprocess.run(command, stdout=subprocess.DEVNULL).returncode, 0)
        write(before, path)


if __name__ == '__main__':
    if '--prove' in sys.argv[:-1]:
        place = sys.argv.index('--prove')
        PROVE = sys.argv[place + 1]
        del sys.argv[place:place + 2]
    unittest.main()
