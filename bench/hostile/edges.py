#!/usr/bin/env python3
"""Runs the program where its input or its output is at fault, a line for each case: exit status and bytes, and `same`, or what was wrong.

    python3 bench/hostile/edges.py [--program COMMAND]

What is expected is what docs/running.md says of exit statuses. The cases: a directory, a file that can't be read, no standard input, none at
all; a full device, a disk that is full after each of the first 300 bytes, no standard output, a reader that has gone, one that goes after
each of the first 300 bytes; an input that ends within a character, that comes a byte at a time, that has no end. The exit status is 1 where
anything was wrong.
"""
import argparse
import array
import fcntl
import os
import resource
import shlex
import subprocess
import tempfile
import termios
import time

from common import add_program, call, call_on, end, generated, small, text_of, wrong

FIRST = 300
# What a pipe holds at least, so that a writer of more is stopped where its reader goes.
PIPE = 4096


class Table:
    def __init__(self, program):
        self.program = program

    def line(self, name, status, text, wanted, told=None):
        """One case, whose status and text are as wanted, or not."""
        said = 'same' if (status, text) == wanted else 'ended with %s and %r, and not with %s and %r' % (status, text[:80], wanted[0], wanted[1][:80])
        print('%-64s %3s %9s bytes  %s' % (name, status, len(text) if told is None else told, said), flush=True)
        if said != 'same':
            wrong(name)

    def run(self, command, more='', stdin=None, stdout=None, given=None):
        """Runs a command of the program by a shell, with further redirections."""
        words = ' '.join(map(shlex.quote, [*self.program, *command])) + ' 2>/dev/null ' + more
        done = subprocess.run(words, shell=True, executable='/bin/bash', input=given, stdin=stdin, stdout=stdout or subprocess.PIPE, timeout=120)
        return done.returncode, done.stdout or b''


def read_faults(table, inputs):
    """Standard input can't be read: 3, and nothing is written."""
    for name, (words, _) in inputs.items():
        if name == 'generate':
            continue
        for what, more in (('a directory as input', '</'), ('no standard input', '<&-'), ('an input that is open for writing alone', '0>/dev/null')):
            table.line('%s: %s' % (name, what), *table.run(words, more), (3, b''))
        table.line(name + ': neither input, output nor errors', *table.run(words, '<&- >&- 2>&-'), (3, b''))


def generate_without(table, inputs, whole):
    words = inputs['generate'][0]
    table.line('generate: no standard input, which it does not read', *table.run(words, '<&-'), (0, whole['generate']))
    table.line('generate: neither input, output nor errors', *table.run(words, '<&- >&- 2>&-'), (4, b''))


def write_faults(table, inputs, whole):
    """Standard output can't be written: 4, and a prefix stands there."""
    for name, (words, given) in inputs.items():
        for what, more in (('a full device as output', '>/dev/full'), ('no standard output', '>&-'), ('an output that is open for reading alone', '1</dev/null')):
            table.line('%s: %s' % (name, what), *table.run(words, more, given=given), (4, b''))
        with open('/dev/null', 'wb') as nowhere:
            table.line(name + ': an output that takes all and keeps nothing', *table.run(words, stdout=nowhere, given=given), (0, b''))
        full_disk(table, name, words, given, whole[name])


def full_disk(table, name, words, given, whole):
    """A disk that is full after each of the first bytes: exactly these stand there."""
    bad = []
    rooms = range(min(FIRST, len(whole)) + 1)
    for room in rooms:
        run = call(table.program, words, given, [(resource.RLIMIT_FSIZE, room)])
        wanted = (0, whole) if room == len(whole) else (4, whole[:room])
        if (run.status, run.text) != wanted:
            bad.append(room)
    table.line('%s: a disk that is full after 0 to %d bytes' % (name, rooms[-1]), 4, str(bad).encode(), (4, b'[]'), 'these')


def gone_readers(table, inputs):
    """The reader of a pipe goes after each of the first bytes, and more than the pipe holds is to be written: 4, and these bytes are a prefix."""
    document = text_of(generated(7, 60, 1_500, 600))
    free = {'objects': {'apiVersion': 'v1', 'kind': 'List', 'items': [
        {'apiVersion': 'v1', 'kind': kind, 'metadata': {'name': '%s-%d' % (kind.lower(), i)}} for i in range(100) for kind in ('Node', 'Pod')]}}
    for name, words, given in (('replay', ['replay'], document), ('state', ['state', '600'], document), ('place', ['place'], text_of(free))):
        whole = call(table.program, words, given).text
        if len(whole) <= PIPE + FIRST:
            wrong('%s writes %d bytes, too few to tell' % (name, len(whole)))
        bad = [size for size in range(FIRST + 1) if gone_after(table.program, words, given, size) != (4, whole[:size])]
        table.line('%s: a reader that goes after 0 to %d bytes' % (name, FIRST), 4, str(bad).encode(), (4, b'[]'), 'these')
    for name, (words, given) in inputs.items():
        table.line(name + ': a reader that has gone before', gone_after(table.program, words, given, None)[0], b'', (4, b''))


def gone_after(program, words, given, size):
    """The status, and what was read before the reader went; it goes at once where the size is None."""
    reader, writer = os.pipe()
    fcntl.fcntl(writer, fcntl.F_SETPIPE_SZ, PIPE)
    if size is None:
        os.close(reader)
    with tempfile.TemporaryFile() as source:
        source.write(given)
        source.seek(0)
        started = subprocess.Popen([*program, *words], stdin=source, stdout=writer, stderr=subprocess.DEVNULL)
    os.close(writer)
    text = b''
    while size is not None and len(text) < size:
        text += os.read(reader, size - len(text))
    if size is not None:
        os.close(reader)
    return started.wait(60), text


def strange_inputs(table, inputs, whole):
    document = inputs['check'][1]
    accented = document.replace(b'{', '{"é":"ü€𝄞",'.encode(), 1)
    for name in ('replay', 'check', 'audit', 'collect', 'place', 'state'):
        words, given = inputs[name]
        refused = (1, b'refused 40 /1\n') if name == 'audit' else (1, b'refused 1 /\n')
        for cut in range(1, 4):
            table.line('%s: an input that ends %d bytes into a character' % (name, cut), *table.run(words, given=b'{"a":"' + '𝄞'.encode()[:cut]), refused)
        table.line(name + ': an empty input', *table.run(words, '</dev/null'), refused)
        table.line(name + ': an input without end', *table.run(words, '</dev/zero'), (1, b'refused 33 /\n'))
        table.line(name + ': an input that comes a byte at a time', *byte_at_a_time(table.program, words, given), (0, whole[name]))
    for cut in range(len(document)):
        if table.run(['check'], given=document[:cut])[:2] != (1, b'refused 1 /\n') and document[cut:].strip():
            wrong('check: the first %d bytes of a document' % cut)
            break
    else:
        table.line('check: the first 0 to %d bytes of a document' % (len(document) - 1), 1, b'', (1, b''))
    table.line('check: a key that is no ASCII is no key of a document', *table.run(['check'], given=accented), (1, b'refused 3 /\n'))


def byte_at_a_time(program, words, given):
    """Each byte is written when the one before was taken."""
    reader, writer = os.pipe()
    with tempfile.TemporaryFile() as sink:
        started = subprocess.Popen([*program, *words], stdin=reader, stdout=sink, stderr=subprocess.DEVNULL)
        os.close(reader)
        left = array.array('i', [0])
        for byte in given:
            os.write(writer, bytes([byte]))
            while started.poll() is None and (fcntl.ioctl(writer, termios.FIONREAD, left) or left[0]):
                time.sleep(0)
        os.close(writer)
        status = started.wait(60)
        sink.seek(0)
        return status, sink.read()


def words_at_fault(table):
    usage = (2, b'usage: kube_replay COMMAND\n')
    for words in ([], ['chek'], ['check', 'x'], ['state'], ['state', '01'], ['state', '-1'], ['state', '604800001'], ['generate', '7', '0', '3', '60'],
                  ['generate', '18446744073709551616', '1', '1', '1'], [''], ['replay '], ['x' * 100_000]):
        table.line('words: %.40s' % (words or 'none'), *table.run(words, '</'), usage)
    table.line('words: one that is not UTF-8', *table.run([], "$'check\\377' </dev/null"), (6, b''))
    table.line('words: none, into a full device', *table.run([], '>/dev/full'), (4, b''))


def main():
    options = argparse.ArgumentParser(description=__doc__, formatter_class=argparse.RawDescriptionHelpFormatter)
    add_program(options)
    table, inputs, whole = Table(shlex.split(options.parse_args().program)), small(), {}
    for name, (words, text) in inputs.items():
        run = call(table.program, words, text)
        whole[name] = run.text
        table.line(name + ': all well', run.status, b'', (0, b''), len(run.text))
    read_faults(table, inputs)
    generate_without(table, inputs, whole)
    write_faults(table, inputs, whole)
    gone_readers(table, inputs)
    strange_inputs(table, inputs, whole)
    words_at_fault(table)
    end()


if __name__ == '__main__':
    main()
