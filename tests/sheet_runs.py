"""The sheet program on traces of every kind, right and damaged, against tests/sheet_rule.py.

    python3 tests/sheet_runs.py [PROGRAM]

Also the whole way round: a text made into a trace by tools/trace gives the sheet of that trace, and what the proved
reader refuses is refused by the tool with the same number and place.
"""
import os
import random
import subprocess
import sys

import compare
import edges
import kit
import sheet_rule
import sizes_runs as runs
import trace_format as form

TOOL = str(kit.ROOT / 'tools' / 'trace')


def stated_cases():
    """What the description tells in so many words."""
    yield edges.WORKED, edges.WORKED_SHEET
    yield b'', 'refused 1 at 0\n'
    yield bytes.fromhex('0105'), 'accesses 0 stretches 0 block 0\n' + ''.join('%d 0 0 0 0 0 0 0\n' % m for m in range(1, 6))
    yield bytes.fromhex('0100'), 'refused 4 at 1\n'
    yield bytes.fromhex('018001'), 'refused 4 at 1\n'
    yield bytes.fromhex('0205'), 'refused 3 at 0\n'
    yield bytes.fromhex('8000'), 'refused 2 at 0\n'
    yield bytes.fromhex('0103808004'), 'refused 5 at 2\n'
    yield bytes.fromhex('0103010a'), 'refused 1 at 4\n'
    yield bytes.fromhex('0103010a00'), 'accesses 1 stretches 1 block 1\n' + ''.join('%d 1 0 0 0 0 1 0\n' % m for m in (1, 2, 3))
    yield bytes.fromhex('0103010aff7f'), 'accesses 1 stretches 0 block 0\n' + ''.join('%d 1 0 0 0 0 0 1\n' % m for m in (1, 2, 3))
    yield bytes.fromhex('0103010a808001'), 'refused 6 at 4\n'
    yield bytes(16385), 'refused 10 at 16384\n'
    yield b'\x01\x7f' + bytes(70000), 'refused 10 at 16384\n'


def longest():
    """A trace of exactly as many bytes as the program takes, of the largest size and with large counts everywhere."""
    pick = random.Random(16384)
    data, read = bytearray(form.spell(1) + form.spell(127)), b''
    while len(data) < sheet_rule.LARGEST_INPUT - 10:
        # a read that is done again is the same at every size that has it
        if not read or pick.random() < 0.8:
            priority = pick.choice((pick.randint(0, 3), pick.randint(1, 127), pick.randint(64, 127), 127))
            read = form.spell(0) + form.spell(pick.randrange(64)) + form.spell(priority)
        data += read
    left = sheet_rule.LARGEST_INPUT - len(data)
    # one read of the length that is left: volumes, blocks and priorities are spelled with so many bytes as is asked
    volume, block = min(3, left - 2), max(1, left - 1 - min(3, left - 2))
    data += form.spell(1 << 7 * (volume - 1)) + form.spell((1 << 7 * (block - 1)) % 2 ** 32) + form.spell(1)
    return bytes(data)


def random_cases(tally, program, count):
    pick = random.Random(20261115)
    for _ in range(count):
        size = pick.choice((1, 2, 3, 5, 8, 12))
        data = runs.make_trace(pick, size, pick.randint(0, 40))
        if pick.random() < 0.4:
            data = runs.damaged(pick, data)
        have = kit.output(program, data)
        tally.equal('input %s' % data.hex(), have, sheet_rule.sheet(data))
        told = subprocess.run([TOOL, 'read'], input=data, capture_output=True)
        if have.startswith('refused'):
            number, place = have.split()[1], have.split()[3]
            words = told.stderr.decode().split()
            tally.equal('the tool on %s' % data.hex(), [told.returncode, words[:2], words[3:]], [1, ['refused', number], ['at', place]])
        else:
            back = subprocess.run([TOOL, 'write'], input=told.stdout, capture_output=True).stdout
            tally.equal('the text of %s' % data.hex(), back, data)


def longest_cases(tally, program):
    """The longest input, whose sheet is longer than what a pipe takes at once, and one byte more."""
    data = longest()
    sheet = kit.output(program, data)
    tally.equal('the longest input', len(data), sheet_rule.LARGEST_INPUT)
    tally.equal('a long sheet', len(sheet) > 4096, True)
    tally.equal('the longest sheet', sheet.split('\n'), sheet_rule.sheet(data).split('\n'))
    tally.equal('one byte more', kit.output(program, data + b'\0'), 'refused 10 at 16384\n')


def example_cases(tally, program):
    for path in sorted((kit.ROOT / 'examples').glob('*.trace')):
        data = path.read_bytes()
        tally.equal('the example ' + path.name, kit.output(program, data), sheet_rule.sheet(data))
    shown = (kit.ROOT / 'README.md').read_text()
    first = kit.output(program, (kit.ROOT / 'examples' / 'two-volumes.trace').read_bytes())
    tally.equal('the sheet that README.md shows', first in shown, True)


def main(program='sheet'):
    tally = compare.Tally()
    for data, want in stated_cases():
        tally.equal('input %s' % data[:40].hex(), kit.output(program, data), want)
        tally.equal('the rule on %s' % data[:40].hex(), sheet_rule.sheet(data), want)
    longest_cases(tally, program)
    random_cases(tally, program, 150)
    example_cases(tally, program)
    return tally.end()


if __name__ == '__main__':
    sys.exit(main(*map(os.path.abspath, sys.argv[1:2])))
