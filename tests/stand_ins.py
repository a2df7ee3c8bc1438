"""A test of the tests: stand-ins with one fault each take the product's place, and a suite has to notice every one.

    python3 tests/stand_ins.py [NAME ...]

With names only those are tried. A suite notices by a sum with failures in its last line. Where it comes to no sum, it
has noticed nothing: a stand-in that cannot be made, or that brings the suite down, counts as failed here."""
import concurrent.futures
import contextlib
import functools
import os
import pathlib
import re
import subprocess
import sys
import tempfile
import threading
import typing

import boundary
import c_tools
import compare
import kit

HERE = pathlib.Path(__file__).resolve().parent
PATIENCE = 400  # seconds: a suite that takes longer hangs
# a suite that runs the real script waits for others that prove, and would tell that it waits
ONE_AT_A_TIME = threading.Lock()
LIBRARY, PROGRAM = HERE / 'stand_ins' / 'library', HERE / 'stand_ins' / 'program' / 'sheet.c'


class StandIn(typing.NamedTuple):
    """What stands in, its fault in words, and which suites are tried with it."""
    name: str
    words: str
    make: typing.Callable  # takes the name and a folder, and answers what a suite is given
    suites: tuple  # of each the script, and its arguments after what it is given; one of them has to notice
    faulty: bool = True


def listed(path):
    """The faults that a C file lists with their words; the first of them is none."""
    return re.findall(r'^    (\w+),? +/\* (.*) \*/$', path.read_text(), re.MULTILINE)


def library(name, folder):
    """The archive of a library with a fault; what has none in any of them is compiled once."""
    options = [*boundary.FLAGS, '-I', boundary.HERE, '-DFAULT=' + name]
    units = [c_tools.compiled(source, folder / (source.stem + '.o'), *options) for source in LIBRARY.glob('*.c')]
    units += [boundary.unit('check', boundary.HERE / source) for source in ('format.c', 'rule.c')]
    return c_tools.archived(folder / 'libsupharoek.a', *units)


def libraries():
    suites = (('boundary.py',),)
    return [StandIn(name, words, library, suites, name != 'none') for name, words in listed(LIBRARY / 'faults.h')]


def program(name, folder):
    """The sheet program with a fault, over the library without one."""
    archive = library('none', folder)
    unit = c_tools.compiled(PROGRAM, folder / 'program.o', *boundary.FLAGS, '-DFAULT=' + name.partition('_')[2])
    return c_tools.linked(folder / 'sheet', unit, archive)


def programs():
    suites = (('program_edges.py',), ('sheet_runs.py',))
    return [StandIn('program_' + name, words, program, suites, name != 'none') for name, words in listed(PROGRAM)]


def edited(original, changes):
    """What makes a version of a script with some of its lines changed, in a folder that is like the repository."""
    def make(name, folder):
        text = original.read_text()
        for old, new in changes:
            if text.count(old) != 1:
                raise ValueError('%s is not once in %s' % (old, original.name))
            text = text.replace(old, new)
        for part in ('crates', 'crates.txt'):
            (folder / part).symlink_to(kit.ROOT / part)
        (folder / original.name).write_text(text)
        (folder / original.name).chmod(0o755)
        return folder / original.name
    return make


def edits(name, original):
    """The versions of a script that a file of edits tells: lines with - are as they are, with + as they would be."""
    text = (HERE / 'stand_ins' / (name + '.edits')).read_text()
    for head, body in re.findall(r'^(\w.*)\n((?:[-+] .*\n)*)', text, re.MULTILINE):
        version, suite, words = re.fullmatch(r'(\w+) \((.*)\): (.*)', head).groups()
        script, *options = suite.split()
        changes = [tuple(re.sub('^[-+] ', '', side, flags=re.MULTILINE) for side in change)
                   for change in re.findall(r'((?:- .*\n)+)((?:\+ .*\n)+)', body)]
        yield StandIn(version, words, edited(original, changes), ((script + '.py', *options),), bool(body))


def stand_ins():
    return [*libraries(), *programs(), *edits('script', kit.ROOT / 'sheet'), *edits('gate', kit.ROOT / '.ci' / 'run')]


def outcome(given, script, *options):
    """What a suite makes of what it is given: it passes, notices, or something is wrong with it."""
    environment = dict(os.environ, UNTIL_FIRST='yes', MADE_BEFORE='sheet')
    try:
        with ONE_AT_A_TIME if script == 'script_edges.py' else contextlib.nullcontext():
            ran = subprocess.run([sys.executable, HERE / script, given, *options], env=environment, capture_output=True,
                                 text=True, timeout=PATIENCE)
    except subprocess.TimeoutExpired:
        return '%s hangs' % script
    counted = re.search(r'^(\d+) passed, (\d+) failed\n\Z', ran.stdout, re.MULTILINE)
    if not counted:
        return '%s came to no sum: %s' % (script, (ran.stdout + ran.stderr)[-200:])
    if ran.returncode == 0:
        return 'passed'
    return 'noticed' if int(counted[2]) > 0 else 'neither passed nor failed'


def tried(built, stand_in):
    """What became of a stand-in, in words: one is right, and the rest say what has to be mended."""
    folder = built / stand_in.name
    folder.mkdir()
    try:
        given = stand_in.make(stand_in.name, folder)
    except (subprocess.CalledProcessError, ValueError) as fault:
        return 'could not be made: %s' % fault
    for suite in stand_in.suites:
        found = outcome(given, *suite)
        if found != 'passed':
            return found
    return 'passed'


def main(*names):
    every = stand_ins()
    unknown = set(names) - {each.name for each in every}
    if unknown:
        raise SystemExit('there is no stand-in %s' % ' '.join(sorted(unknown)))
    chosen = [each for each in every if not names or each.name in names]
    boundary.UNITS.mkdir(parents=True, exist_ok=True)
    kit.program('sheet')
    tally = compare.Tally()
    # outside the repository, where `rt` takes no links to its folders
    with tempfile.TemporaryDirectory() as built, concurrent.futures.ThreadPoolExecutor(os.cpu_count()) as pool:
        for each, found in zip(chosen, pool.map(functools.partial(tried, pathlib.Path(built)), chosen)):
            tally.equal('%s: %s' % (each.name, each.words), found, 'noticed' if each.faulty else 'passed')
    return tally.end()


if __name__ == '__main__':
    sys.exit(main(*sys.argv[1:]))
