#!/usr/bin/env python3
"""Tries tools/duplicates on small repositories made here: python3 tools/test/test_duplicates.py"""
import os
import subprocess
import sys
import tempfile
import unittest

from places import TOOLS

SIX = ['let one = first(a);', 'let two = second(one);', 'if two > 7 {', 'return Err(Full);', 'table.add(two);', 'Ok(table)']


class OfDuplicates(unittest.TestCase):
    def setUp(self):
        self.room = tempfile.TemporaryDirectory()
        self.addCleanup(self.room.cleanup)
        self.git('init', '-q')

    def git(self, *words):
        subprocess.run(['git', '-C', self.room.name, '-c', 'user.name=x', '-c', 'user.email=x@y', *words], check=True)

    def put(self, name, *lines):
        path = os.path.join(self.room.name, name)
        os.makedirs(os.path.dirname(path), exist_ok=True)
        with open(path, 'w', encoding='utf-8') as file:
            file.write('\n'.join(lines) + '\n')
        self.git('add', name)

    def said(self, *words):
        ran = subprocess.run([sys.executable, os.path.join(TOOLS, 'duplicates'), '--top', self.room.name, *words], stdout=subprocess.PIPE, text=True, check=True)
        return ran.stdout.splitlines()

    def test_a_block_is_told_with_its_places(self):
        self.put('a/one.rt', 'fn one() {', *SIX, '}')
        self.put('b/two.rt', '// two', 'fn two() {', *['    ' + line for line in SIX], '}')
        self.assertEqual(self.said(), ['  1. 6 lines, 2 times, word for word', '     a/one.rt:2-7', '     b/two.rt:3-8',
                                       'word for word: 1 blocks, 6 lines too many'])

    def test_five_lines_are_no_block(self):
        self.put('a/one.rt', *SIX[:5], 'one')
        self.put('b/two.rt', *SIX[:5], 'two')
        self.assertEqual(self.said(), ['word for word: 0 blocks, 0 lines too many'])
        self.assertEqual(self.said('--lines', '5')[-1], 'word for word: 1 blocks, 5 lines too many')

    def test_comments_imports_and_braces_may_differ_and_do_not_count(self):
        self.put('a/one.rt', *SIX[:3], '// why', '{', *SIX[3:])
        self.put('b/two.rt', 'use a::b;', *SIX[:5], '}', SIX[5])
        self.assertEqual(self.said()[:3], ['  1. 6 lines, 2 times, word for word', '     a/one.rt:1-8', '     b/two.rt:2-8'])
        self.put('a/one.rt', *['use a::b%d;' % number for number in range(9)])
        self.put('b/two.rt', *['use a::b%d;' % number for number in range(9)])
        self.assertEqual(self.said()[-1], 'word for word: 0 blocks, 0 lines too many')

    def test_three_times_and_a_longer_part_twice(self):
        self.put('a/one.py', *SIX, 'more', 'end', 'one')
        self.put('b/two.py', *SIX, 'more', 'end', 'two')
        self.put('c/three.py', *SIX, 'three')
        self.assertEqual(self.said()[:8:4], ['  1. 6 lines, 3 times, word for word', '  2. 8 lines, 2 times, word for word'])

    def test_files_end_a_block_and_languages_are_apart(self):
        self.put('a/one.rt', *SIX)
        self.put('a/two.antt', *SIX)
        self.put('b/one.rt', *SIX[:3])
        self.put('b/two.rt', *SIX[3:])
        self.assertEqual(self.said(), ['word for word: 0 blocks, 0 lines too many'])

    def test_twice_in_one_file_and_in_a_script_without_ending(self):
        self.put('a/tool', '#!/usr/bin/env python3', *SIX, 'between', *SIX)
        self.put('a/other', *SIX)
        self.assertEqual(self.said()[1:3], ['     a/tool:2-7', '     a/tool:9-14'])

    def test_like_shapes_stand_behind_the_same_words(self):
        self.put('a/one.rt', *SIX)
        self.put('b/two.rt', *SIX)
        self.put('c/three.rt', *[line.replace('one', 'uno').replace('7', '90') for line in SIX])
        self.assertEqual(len(self.said()), 4)
        said = self.said('--shape')
        self.assertEqual([line for line in said if '. ' in line], ['  1. 6 lines, 2 times, word for word', '  1. 6 lines, 3 times, alike'])

    def test_a_changed_sign_or_keyword_is_no_like_shape(self):
        self.put('a/one.rt', *SIX)
        self.put('b/two.rt', *[line.replace('if two >', 'if two <') for line in SIX])
        self.put('c/three.rt', *[line.replace('return', 'yield') for line in SIX])
        self.assertEqual(self.said('--shape')[-1], 'alike: 0 blocks, 0 lines too many')

    def test_since_a_commit(self):
        self.put('a/one.rt', *SIX)
        self.put('b/two.rt', *SIX)
        self.git('commit', '-qm', 'Two')
        self.assertEqual(self.said('--since', 'HEAD'), ['word for word: 0 blocks, 0 lines too many'])
        self.put('c/three.rt', 'three', *SIX)
        self.assertEqual(self.said('--since', 'HEAD')[:4], ['  1. 6 lines, 3 times, word for word', '     a/one.rt:1-6', '     b/two.rt:1-6', '     c/three.rt:2-7'])

    def test_the_most_that_saves_stands_first(self):
        nine = ['let each%d = %d;' % (number, number) for number in range(9)]
        self.put('a/one.rt', *SIX, 'between', *nine)
        self.put('b/two.rt', *SIX, 'other', *nine)
        self.assertEqual(self.said('--most', '1'), ['  1. 9 lines, 2 times, word for word', '     a/one.rt:8-16', '     b/two.rt:8-16',
                                                    'word for word: 2 blocks, 15 lines too many; the first 1 are shown'])

    def test_a_reason_stands_below_its_block_and_behind_those_without(self):
        nine = ['let each%d = %d;' % (number, number) for number in range(9)]
        self.put('a/one.rt', *SIX, 'between', *nine)
        self.put('b/two.rt', *SIX, 'other', *nine)
        self.put('c/three.rt', 'c', *nine)
        self.put('tools/repeats.txt', '# why', 'a/one.rt b/two.rt c/three.rt c/four.rt: numbers are data', 'a/one.rt c/three.rt: gone')
        self.assertEqual(self.said()[:3], ['  1. 9 lines, 3 times, word for word', '     a/one.rt:8-16', '     b/two.rt:8-16'])
        self.assertEqual([line for line in self.said() if 'stays' in line], ['     stays: numbers are data'] * 2)
        self.assertEqual(self.said()[-2:], ['word for word: 2 blocks, 24 lines too many, 2 of them stay', 'tools/repeats.txt:3: there is no such block'])
        self.put('tools/repeats.txt', 'a/one.rt b/two.rt: a pair')
        self.assertEqual(self.said()[:4], ['  1. 9 lines, 3 times, word for word', '     a/one.rt:8-16', '     b/two.rt:8-16', '     c/three.rt:2-10'])
        self.assertEqual(self.said()[4:8], ['  2. 6 lines, 2 times, word for word', '     a/one.rt:1-6', '     b/two.rt:1-6', '     stays: a pair'])


if __name__ == '__main__':
    unittest.main()
