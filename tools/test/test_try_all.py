#!/usr/bin/env python3
"""Tries tools/try-all with rows made here, and sees that no test script is without a row: python3 tools/test/test_try_all.py"""
import contextlib
import glob
import importlib.machinery
import importlib.util
import io
import os
import sys
import unittest
from unittest import mock

from places import TOOLS, TOP

import rows

PASSES, FAILS = [sys.executable, '-c', 'print("well")'], [sys.executable, '-c', 'print("so it is"); raise SystemExit(3)']
SLEEPS = [sys.executable, '-c', 'import time; time.sleep(60)']
LACKING = rows.Need('a thing that is nowhere', lambda: False)
# Beside the scripts named test_*.py: what tries something under another name.
OTHERS = ['tools/check-docs', 'tools/site', 'tools/check-map', 'tools/check-layout', 'bench/launcher_check.sh', 'bench/library_check.py', 'bench/limits.py',
          'conformance/run.py', 'bench/hostile/edges.py', 'bench/hostile/damaged.py', 'bench/hostile/memory.py', 'bench/hostile/worst.py']


def script():
    loader = importlib.machinery.SourceFileLoader('try_all', os.path.join(TOOLS, 'try-all'))
    module = importlib.util.module_from_spec(importlib.util.spec_from_loader(loader.name, loader))
    loader.exec_module(module)
    return module


def is_script(path):
    with open(path, 'rb') as file:
        return file.read(2) == b'#!'


class OfTryAll(unittest.TestCase):
    def ran(self, table, *words):
        """The status and the lines of try-all over these rows."""
        module, out, errors = script(), io.StringIO(), io.StringIO()
        with mock.patch.object(module, 'ROWS', table), mock.patch.object(sys, 'argv', ['try-all', *words]), \
                contextlib.redirect_stdout(out), contextlib.redirect_stderr(errors):
            status = module.main()
        return status, out.getvalue().splitlines()

    def test_it_goes_on_past_what_fails_and_what_cannot_be_run(self):
        status, lines = self.ran([rows.Row('bad', FAILS), rows.Row('absent', PASSES, [LACKING]), rows.Row('good', PASSES)])
        self.assertEqual(status, 1)
        self.assertEqual([line.split()[:2] for line in lines if not line.startswith(' ')][:3], [['FAILED', 'bad'], ['skipped', 'absent'], ['passed', 'good']])
        self.assertTrue(lines[0].endswith('status 3'))
        self.assertEqual(lines[1], '    so it is')
        self.assertTrue(lines[2].endswith('needs a thing that is nowhere'))
        self.assertEqual(lines[-1], '1 passed, 1 failed, 1 skipped')

    def test_nothing_failed(self):
        status, lines = self.ran([rows.Row('good', PASSES), rows.Row('absent', FAILS, [LACKING])])
        self.assertEqual((status, lines[-1]), (0, '1 passed, 0 failed, 1 skipped'))

    def test_only_and_quick(self):
        table = [rows.Row('good', PASSES, seconds=1), rows.Row('bad', FAILS, seconds=1), rows.Row('goodly', PASSES), rows.Row('better', PASSES, seconds=900)]
        self.assertEqual(self.ran(table, '--only', 'good')[1][-1], '2 passed, 0 failed, 0 skipped')
        self.assertEqual(self.ran(table, '--only', 'good', '--quick')[1][-1], '1 passed, 0 failed, 0 skipped')
        self.assertEqual(self.ran(table, '--only', 'better', '--quick')[0], 2)
        self.assertEqual(self.ran(table, '--only', 'other')[0], 2)

    def test_what_takes_too_long_is_stopped(self):
        status, lines = self.ran([rows.Row('long', SLEEPS), rows.Row('good', PASSES)], '--minutes', '0.01')
        self.assertEqual(status, 1)
        self.assertIn('stopped after 0.01 minutes', lines[0])

    def test_the_list_runs_nothing(self):
        status, lines = self.ran([rows.Row('bad', FAILS, [LACKING])], '--list')
        self.assertEqual((status, lines[1].strip()), (0, 'needs a thing that is nowhere'))


class OfRows(unittest.TestCase):
    def test_names_are_told_apart(self):
        self.assertEqual(len({row.name for row in rows.ROWS}), len(rows.ROWS))

    def test_every_row_has_its_script(self):
        for row in rows.ROWS:
            if '/' in row.words[0]:
                self.assertTrue(os.path.isfile(os.path.join(TOP, row.words[0])), row.words[0])

    def test_every_test_has_a_row(self):
        paths = [path for folder in ('tools/test', '*') for path in glob.glob(os.path.join(TOP, folder, 'test_*.py'))]
        scripts = [os.path.relpath(path, TOP) for path in paths if is_script(path)]
        self.assertGreater(len(scripts), 10)
        self.assertEqual(sorted({*scripts, *OTHERS} - {row.words[0] for row in rows.ROWS}), [])
        self.assertTrue({'python', 'go'} <= {row.place for row in rows.ROWS})


if __name__ == '__main__':
    unittest.main()
