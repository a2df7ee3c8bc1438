"""The script ./sheet as a user meets it: how it is called, what it is given, and what fails around it.

    python3 tests/script_edges.py [SCRIPT]

tests/script_kit.py has what goes wrong in the kit and in the program that the script runs."""
import os
import pathlib
import pty
import socket
import sys
import tempfile

import compare
import edges
import kit

FAILED = 'sheet: no sheet: the program failed\n'
WAITING = 'sheet: waiting for the bytes of a trace on standard input; to read a file: ./sheet FILE\n'
RIGHT = (0, edges.WORKED_SHEET, '')


def refused_use(said):
    return 2, '', 'sheet: %s\n' % said


def check_names(tally, script, folder):
    """Files by every kind of name, from another folder."""
    for name in ('a day.trace', '-', '-h', '--', 'two\nlines', 'day$(exit 3)*'):
        (folder / name).write_bytes(edges.WORKED)
        tally.equal('the file %r' % name, edges.ended([script, './' + name], cwd=folder), RIGHT)
    tally.equal('a file after --', edges.ended([script, '--', '-h'], cwd=folder), RIGHT)
    tally.equal('a full name', edges.ended([script, folder / 'a day.trace'], cwd='/'), RIGHT)
    tally.equal('no such file', edges.ended([script, 'none'], cwd=folder), refused_use('there is no file none'))
    tally.equal('a folder', edges.ended([script, '.'], cwd=folder), refused_use('. is a folder, not a trace'))
    with socket.socket(socket.AF_UNIX) as unopened:
        unopened.bind(str(folder / 'socket'))
    for environment in ({}, {'POSIXLY_CORRECT': '1'}, {'SHELLOPTS': 'errexit'}):
        environment.update(os.environ)
        have = edges.ended([script, folder / 'socket'], env=environment)
        tally.equal('a file that cannot be opened', have, refused_use('%s cannot be opened' % (folder / 'socket')))
        tally.equal('a caller with options', edges.ended([script, './a day.trace'], cwd=folder, env=environment), RIGHT)
    tally.equal('two files', edges.ended([script, 'a', 'b']), refused_use('one file at a time: ./sheet FILE, or ./sheet < FILE'))
    said = 'there is no option -x; see ./sheet --help, and name a file that begins with - as ./-x'
    tally.equal('an option that there is not', edges.ended([script, '-x']), refused_use(said))


def check_inputs(tally, script, folder):
    """The same trace by every way in."""
    day = folder / 'a day.trace'
    shell = ['bash', '-c', None, 'bash', script, day]
    for what, line in (('standard input', '"$1" <"$2"'), ('-', '"$1" - <"$2"'), ('/dev/stdin', '"$1" /dev/stdin <"$2"'),
                       ('a pipe', 'cat "$2" | "$1"'), ('process substitution', '"$1" <(cat "$2")'),
                       ('a descriptor', '"$1" /dev/fd/3 3<"$2"'), ('a file with no standard input', '"$1" "$2" <&-'),
                       ('no standard error', '"$1" "$2" 2>&-'),
                       ('a fifo', 'mkfifo "$2.fifo"; (cat "$2" >"$2.fifo") >/dev/null 2>&1 & "$1" "$2.fifo"')):
        tally.equal(what, edges.ended(shell[:2] + [line] + shell[3:]), RIGHT)
    for what, have in edges.slow_inputs([script]):
        tally.equal(what, have, RIGHT)
    for given, line in ((b'', 'refused 1 at 0\n'), (bytes.fromhex('0100'), 'refused 4 at 1\n'), (bytes(16385), 'refused 10 at 16384\n')):
        tally.equal('a refused trace', edges.ended([script], given=given), (1, line, ''))


def check_places(tally, script, folder):
    """Through links and with CDPATH, from other folders."""
    day = folder / 'a day.trace'
    (folder / 'link').symlink_to(script)
    (folder / 'below').mkdir()
    (folder / 'below' / 'link of a link').symlink_to('../link')
    tally.equal('a link', edges.ended([folder / 'link', day], cwd='/'), RIGHT)
    tally.equal('a link of a link', edges.ended(['./below/link of a link', day.name], cwd=folder), RIGHT)
    found = dict(os.environ, PATH='%s:%s' % (folder, os.environ['PATH']))
    tally.equal('a link on the path', edges.ended(['bash', '-c', 'link "$1"', 'bash', day], env=found), RIGHT)
    decoy = folder / 'decoy'
    (decoy / script.parent.name).mkdir(parents=True)
    astray = dict(os.environ, CDPATH=str(decoy))
    for at, word in ((script.parent, './sheet'), (script.parent.parent, '%s/sheet' % script.parent.name)):
        tally.equal('CDPATH and ' + word, edges.ended(['bash', word, day], cwd=at, env=astray), RIGHT)


def check_help(tally, script):
    for option in ('--help', '-h'):
        status, shown, said = edges.ended([script, option])
        tally.equal(option, (status, shown[:27], 'Exit status: 0 ' in shown, said), (0, 'Prints the sheet of a trace', True, ''))
        tally.equal('%s that is lost' % option, edges.ended([script, option], '>/dev/full')[0], 2)


def check_terminal(tally, script):
    """On a terminal with nothing redirected it says what it waits for; the end of the input is typed ahead."""
    ours, theirs = pty.openpty()
    with os.fdopen(theirs) as terminal, os.fdopen(ours, 'wb', 0) as typist:
        typist.write(b'\x04')
        tally.equal('a terminal', edges.ended([script], stdin=terminal), (1, 'refused 1 at 0\n', WAITING))


def check_failed_inputs(tally, script):
    for what, have, why in edges.bad_inputs([script]):
        said = (WAITING if 'terminal' in what else '') + 'sheet: standard input: %s\n' % why + FAILED
        tally.equal(what, have, (2, '', said))
    tally.equal('a closed input', edges.ended([script], '<&-'), refused_use('standard input is closed'))


def check_failed_outputs(tally, script, folder):
    """A lost sheet is told, whatever is lost beside it."""
    day = folder / 'a day.trace'
    lost = 'sheet: standard output did not take the whole sheet\n'
    for what, line in (('a full disk', '>/dev/full'), ('a full disk for all it says', '>/dev/full 2>&1')):
        status, shown, said = edges.ended([script, day], line)
        tally.equal(what, (status, shown, said.endswith(lost)), (2, '', '2>' not in line))
    tally.equal('a closed output', edges.ended([script, day], '>&-'), refused_use('standard output is closed'))
    tally.equal('all closed', edges.ended([script, day], '>&- 2>&- <&-'), (2, '', ''))
    gone = edges.ended(['bash', '-c', 'trap "" PIPE; { sleep 0.5; "$1" "$2"; echo $? >&2; } | :', 'bash', script, day])
    tally.equal('a reader that is gone', (gone[2].endswith(lost + '2\n')), True)
    tally.equal('no folder for scratch files', edges.ended([script, day], env=dict(os.environ, TMPDIR='/nowhere')), RIGHT)


def main(script=kit.ROOT / 'sheet'):
    tally, script = compare.Tally(), pathlib.Path(script).absolute()
    # made first, so that the script has not to prove it, which takes minutes
    kit.program('sheet')
    with tempfile.TemporaryDirectory() as name:
        folder = pathlib.Path(name)
        check_names(tally, script, folder)
        check_inputs(tally, script, folder)
        check_places(tally, script, folder)
        check_help(tally, script)
        check_terminal(tally, script)
        check_failed_inputs(tally, script)
        check_failed_outputs(tally, script, folder)
    return tally.end()


if __name__ == '__main__':
    sys.exit(main(*sys.argv[1:2]))
