"""The sheet program where its input or its output fails: it says so, and prints no sheet of a part of a trace.

    python3 tests/program_edges.py [PROGRAM]

It says on standard error what failed, and ends with status 2."""
import pathlib
import sys
import tempfile

import compare
import edges
import kit
import sheet_rule

LARGE = 'refused 10 at 16384\n'


def failed(why):
    """How the program ends where a read fails."""
    return 2, '', 'sheet: standard input: %s\n' % why


def stepped(program, **steps):
    """How the program ended with calls that go by steps, on the input given."""
    command, given = kit.command(program, edges.calls_library()), steps.pop('given', edges.WORKED)
    redirections = steps.pop('redirections', '')
    words = {name: value if isinstance(value, str) else ' '.join(map(str, value)) for name, value in steps.items()}
    return edges.ended(['env', *map('='.join, words.items()), *command], redirections, given=given)


def check_inputs(tally, program):
    command = kit.command(program)
    for what, have, why in edges.bad_inputs(command):
        tally.equal(what, have, failed(why))
    tally.equal('a closed input', edges.ended(command, '<&-'), failed('Bad file descriptor'))
    for what, have in edges.slow_inputs(command):
        tally.equal(what, have, (0, edges.WORKED_SHEET, ''))


def check_reads(tally, program):
    """Reads that bring little, are interrupted, or fail at some point."""
    interrupted, right = edges.error('EINTR'), (0, edges.WORKED_SHEET, '')
    tally.equal('reads of one byte', stepped(program, READS='1*'), right)
    tally.equal('reads of three bytes', stepped(program, READS=[3] * 5), right)
    tally.equal('interrupted reads', stepped(program, READS=[interrupted] * 3 + [2, interrupted, 5] + [interrupted] * 2000), right)
    for before in (0, 1, 2, 4):
        for name, why in (('EIO', 'Input/output error'), ('EAGAIN', 'Resource temporarily unavailable'),
                          ('EBADF', 'Bad file descriptor'), ('ENOMEM', 'Cannot allocate memory')):
            have = stepped(program, READS=[5] * before + [edges.error(name)])
            tally.equal('%s after %d reads' % (name, before), have, failed(why))
    tally.equal('reads that are never done', stepped(program, READS='%d*' % interrupted), failed('Interrupted system call'))


def check_bound(tally, program):
    """At the largest input the end has to be seen; one byte more is enough to refuse it."""
    for length in (16384, 16385):
        given = bytes.fromhex('0101') + bytes.fromhex('010a01') * 5461
        have = stepped(program, READS=[8192, 8192, length - 16384 or edges.error('EIO')], given=given[:length])
        tally.equal('a read that fails after %d bytes' % length, have, (0, LARGE, '') if length > 16384 else failed('Input/output error'))
        steps = [4096, 4096, 4096, 4095, 1]
        tally.equal('%d bytes in pieces' % length, stepped(program, READS=steps, given=given[:length]),
                    (0, sheet_rule.sheet(given[:length]), ''))


def check_outputs(tally, program):
    command, sheet = kit.command(program), edges.WORKED_SHEET
    said = 'sheet: standard output: %s\n'
    for redirection, why in (('>/dev/full', 'No space left on device'), ('>&-', 'Bad file descriptor')):
        tally.equal('output %s' % redirection, edges.ended(command, redirection, given=edges.WORKED), (2, '', said % why))
    for steps, taken, why in (([40, edges.error('ENOSPC')], 40, 'No space left on device'),
                              ([edges.error('EIO')], 0, 'Input/output error'),
                              ([1] * 20 + [edges.error('EAGAIN')], 20, 'Resource temporarily unavailable')):
        tally.equal('writes %s' % steps, stepped(program, WRITES=steps), (2, sheet[:taken], said % why))
    tally.equal('writes of little', stepped(program, WRITES=[1, 2, 3, 50, 1]), (0, sheet, ''))
    interrupted = edges.error('EINTR')
    tally.equal('interrupted writes', stepped(program, WRITES=[interrupted] * 3 + [20, interrupted, 5]), (0, sheet, ''))
    failing = [edges.error('EIO')]
    tally.equal('a pipe, which does not wait for a disk', stepped(program, SYNCS=failing), (0, sheet, ''))
    with tempfile.TemporaryDirectory() as folder:
        file = pathlib.Path(folder) / 'printed'
        for what, steps, want in (('a file', {}, (0, '', '')),
                                  ('a file that the disk takes', {'SYNCS': [0]}, (0, '', '')),
                                  ('a file that the disk does not take', {'SYNCS': failing}, (2, '', said % 'Input/output error'))):
            have = stepped(program, redirections=">'%s'" % file, **steps)
            tally.equal(what, (have, file.read_text()), (want, sheet))
            tally.equal('more of ' + what, edges.ended(command, ">>'%s'" % file, given=edges.WORKED), (0, '', ''))
            tally.equal('both of ' + what, file.read_text(), 2 * sheet)


def main(program='sheet'):
    tally = compare.Tally()
    program = program if program == 'sheet' else pathlib.Path(program).resolve()
    for check in (check_inputs, check_reads, check_bound, check_outputs):
        check(tally, program)
    return tally.end()


if __name__ == '__main__':
    sys.exit(main(*sys.argv[1:2]))
