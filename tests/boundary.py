"""The library from C: the program of examples/c, and tests/boundary, which calls everything in include/supharoek.h.

    python3 tests/boundary.py [ARCHIVE]

Without an archive it is made first, from the proved crate. Programs for a given archive are built beside it, so that
several can be tried at a time."""
import os
import pathlib
import re
import subprocess
import sys
import threading

import c_tools
import compare
import edges
import kit

HERE = pathlib.Path(__file__).resolve().parent / 'boundary'
HEADER = kit.ROOT / 'include' / 'supharoek.h'
UNITS = kit.BUILT / 'boundary'
# the kit has a C library and none of its headers, so those that are needed stand beside the check
INCLUDES = ['-nostdinc', '-isystem', HERE / 'include', '-I', HEADER.parent]
FLAGS = ['-std=c99', '-pedantic', '-O2', *INCLUDES]
# what a unit is made from, whichever it is
ORIGINS = [HEADER, *HERE.rglob('*.[ch]'), *map(pathlib.Path, (__file__, c_tools.__file__))]


def unit(name, source):
    """The unit of a C file, compiled where there is none or an older one. Several may want it at a time."""
    path = UNITS / ('%s-%s.o' % (name, source.stem))
    if not path.exists() or path.stat().st_mtime < max(origin.stat().st_mtime for origin in [source, *ORIGINS]):
        own = path.with_name('%s.%d.%d' % (path.name, os.getpid(), threading.get_ident()))
        os.replace(c_tools.compiled(source, own, *FLAGS), path)
    return path


def built(name, sources, archive, folder):
    """A program from C files, linked with the archive."""
    return c_tools.linked(folder / name, *(unit(name, source) for source in sources), archive)


def ran(program, *arguments):
    """The status of a program with arguments, what it wrote, and what it complained."""
    told = subprocess.run([*kit.command(program), *map(str, arguments)], capture_output=True)
    return told.returncode, told.stdout.decode(), told.stderr.decode()


def check_calls(tally, program):
    """Adds what the C check counted to the tally; where it did not come to its sum, there is none here either."""
    status, shown, complaint = ran(program, *(['until the first'] if compare.UNTIL_FIRST else []))
    counted = re.search(r'^(\d+) passed, (\d+) failed\n\Z', shown, re.MULTILINE)
    print(shown[:counted.start() if counted else None] + complaint, end='', flush=True)
    if not counted:
        raise SystemExit('the check ended with status %d and no sum' % status)
    passed, failed = map(int, counted.groups())
    tally.passed += passed
    tally.failed += failed
    tally.equal('the status of the check', status, 1 if failed else 0)


def check_example(tally, program):
    folder = program.parent
    for path in sorted((kit.ROOT / 'examples').glob('*.trace')):
        want = kit.output('sheet', path.read_bytes())
        tally.equal('the sheet of %s' % path.name, ran(program, path), (0, want, ''))
    long = folder / 'long.trace'
    long.write_bytes(bytes.fromhex('0102') + bytes.fromhex('010a01') * 50000)
    want = 'accesses 50000 stretches 1 block 1\n' + ''.join('%d 1 0 49999 0 0 1 0\n' % size for size in (1, 2))
    tally.equal('a trace too long for the sheet program', ran(program, long), (0, want, ''))
    long.write_bytes(b'')
    tally.equal('an empty file', ran(program, long), (1, 'refused 1 at 0\n', ''))
    long.write_bytes(edges.WORKED)
    for redirection in ('>/dev/full', '>&-'):
        have = edges.ended([*kit.command(program), long], redirection)
        tally.equal('output %s' % redirection, have, (2, '', 'sheet: the sheet could not be written\n'))
    # the first page of a process is never there, so that reading it fails
    unreadable = '/proc/self/mem'
    tally.equal('a read that fails', ran(program, unreadable), (2, '', 'sheet: this cannot be read as a file: %s\n' % unreadable))
    missing = folder / 'none'
    tally.equal('no such file', ran(program, missing), (2, '', 'sheet: there is no file to read at %s\n' % missing))
    tally.equal('a folder', ran(program, folder), (2, '', 'sheet: this cannot be read as a file: %s\n' % folder))
    tally.equal('no argument', ran(program), (2, '', 'sheet: one file is needed: sheet FILE\n'))


def check_outside(tally, archive):
    """Firmware may have no C library: what the proved library asks for from outside is in one short file."""
    source = HERE / 'outside' / 'memory.c'
    tally.equal('the library with %s alone' % source.name, c_tools.links_alone(UNITS / 'alone', unit('outside', source), archive), True)


def main(archive=None):
    tally, given = compare.Tally(), archive
    folder = pathlib.Path(archive).resolve().parent / 'boundary' if archive else UNITS
    archive = archive or kit.archive('supharoek')
    for needed in (UNITS, folder):
        needed.mkdir(parents=True, exist_ok=True)
    c_tools.clang('-x', 'c++', '-std=c++11', '-pedantic', *INCLUDES, '-fsyntax-only', HEADER)
    if not given:
        check_outside(tally, archive)
    check_calls(tally, built('check', sorted(HERE.glob('*.c')), archive, folder))
    if not (compare.UNTIL_FIRST and tally.failed):
        check_example(tally, built('sheet', [kit.ROOT / 'examples' / 'c' / 'sheet.c'], archive, folder))
    return tally.end()


if __name__ == '__main__':
    sys.exit(main(*sys.argv[1:2]))
