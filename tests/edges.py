"""What goes wrong around a program: inputs that fail, come slowly or would block, and outputs that take nothing.

For the tests of the sheet program and of the script that runs it."""
import errno
import functools
import os
import subprocess
import threading
import time
import tty

import c_tools
import kit
from sheet_rule import WORKED, WORKED_SHEET

PATIENCE = 200  # seconds: a command that takes longer hangs
FOLDER = kit.BUILT / 'edges'
# a day that was cut short: a right trace that is the front of a longer one
CUT_SHORT = bytes.fromhex('0103') + bytes.fromhex('010a01') * 50


def ended(command, redirections='', given=None, **more):
    """The status of a command, what it wrote and what it said. Redirections are those of the shell."""
    if redirections:
        command = ['bash', '-c', '"$@" ' + redirections, 'bash', *command]
    if 'stdin' not in more:
        more['input'] = given or b''
    more.setdefault('timeout', PATIENCE)
    ran = subprocess.run(list(map(str, command)), stdout=subprocess.PIPE, stderr=subprocess.PIPE, **more)
    return ran.returncode, ran.stdout.decode(), ran.stderr.decode()


@functools.cache
def calls_library():
    """The library of tests/edges/calls.c, which lets a program's calls fail. Several tests may make it at a time."""
    folder = FOLDER / str(os.getpid())
    folder.mkdir(parents=True, exist_ok=True)
    unit = c_tools.compiled(kit.ROOT / 'tests' / 'edges' / 'calls.c', folder / 'calls.o', '-ffreestanding', '-O1', '-fPIC')
    return c_tools.shared(folder / 'calls.so', unit)


def error(number):
    """A step of tests/edges/calls.c: the call fails with this error."""
    return -getattr(errno, number)


def closed_terminal(data):
    """A descriptor from which the data can be read, and then a read fails: a terminal whose other side is gone."""
    ours, theirs = os.openpty()
    tty.setraw(theirs)
    os.write(theirs, data)
    os.close(theirs)
    return ours


def would_block(data):
    """A descriptor from which the data can be read, and then a read would block; and the end that keeps it open."""
    ours, theirs = os.pipe()
    os.set_blocking(ours, False)
    os.write(theirs, data)
    return ours, theirs


def written_slowly(data, pieces):
    """A descriptor to which a thread writes the data, piece after piece."""
    ours, theirs = os.pipe()

    def write():
        with os.fdopen(theirs, 'wb', 0) as file:
            for piece in range(pieces):
                time.sleep(0.05)
                file.write(data[len(data) * piece // pieces:len(data) * (piece + 1) // pieces])

    threading.Thread(target=write).start()
    return ours


def bad_inputs(command):
    """What kind of input it is, how the command ended on it, and what is said of such an input."""
    for what, data in (('bytes', CUT_SHORT), ('no bytes', b'')):
        with os.fdopen(closed_terminal(data)) as stdin:
            yield 'a terminal that is gone after ' + what, ended(command, stdin=stdin), 'Input/output error'
        ours, theirs = would_block(data)
        with os.fdopen(ours) as stdin, os.fdopen(theirs):
            yield 'a pipe that would block after ' + what, ended(command, stdin=stdin), 'Resource temporarily unavailable'
    yield 'a folder', ended(command, '</'), 'Is a directory'


def slow_inputs(command):
    """Right inputs that come in pieces: what kind, and how the command ended on it."""
    for pieces in (2, len(WORKED)):
        with os.fdopen(written_slowly(WORKED, pieces)) as stdin:
            yield 'an input in %d pieces' % pieces, ended(command, stdin=stdin)
