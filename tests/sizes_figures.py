"""Works out crates/sizes_test's stored cases and each line of its output by tests/sizes_rule.py.

The gate compares the output with what the proved run answers and leaves, so the two meet in it. The sheet of the
description's worked trace stands here as the description gives it, and both have to have the paper's distances.
"""
import sys

import card_rule
import compare
import paper
import sizes_rule as rule
import trace_format as form
from sheet_rule import BORDERS, WORKED, WORKED_PLACES, reads_of

SHEET = 'done 8 3 2 3 0 12 0 counts 0 0 0 1 2 5 1 0 0 2 3 2 0 1 2 1 4 0'
# blocks with their priorities: all six outcomes occur, and a block has two stretches
NO_HINTS = ((5, 0), (4, 4), (3, 0), (3, 0), (3, 0), (4, 0), (6, 0), (6, 4), (3, 3), (5, 4), (3, 0), (5, 0))

cases = []


def case(data, lent, value=9):
    cases.append((data, lent, value))


def paper_case(time, size=7):
    """The paper's trace up to a time."""
    return form.trace(size, [(0, *read) for read in paper.READS[:time]]), rule.stated(size)


def no_hints_case(written):
    """Reads most of which have no hint, with 0 as it is or written as 1."""
    return form.trace(4, [(0, block, priority or written) for block, priority in NO_HINTS]), rule.stated(4)


def fill():
    case(WORKED, rule.stated(3))
    case(WORKED, [length + 2 for length in rule.stated(3)])
    for short in range(3):
        case(WORKED, [length - (short == area) for area, length in enumerate(rule.stated(3))])
    # after each read of the paper's trace the peaks tell its spans
    for time in range(len(paper.READS) + 1):
        case(*paper_case(time))
    for size in (4, 5, 6):
        case(*paper_case(len(paper.READS), size))
    case(form.trace(2, ((1, 7, 1), (2, 7, 1))), rule.stated(2))
    case(form.trace(3, ((0, 10, 3), (0, 11, 3))), rule.stated(3))
    for written in (0, 1):
        case(*no_hints_case(written))
    for text in BORDERS:
        case(bytes.fromhex(text), rule.stated(3))
    # a fault after reads leaves zeros, whatever the reads left
    case(WORKED + b'\x01', rule.stated(3))
    case(WORKED + bytes.fromhex('010a808001'), rule.stated(3), 255)
    case(form.trace(127, ((65535, 2 ** 32 - 1, 127), (0, 0, 16383))), rule.stated(127))


def outcomes(told):
    """For each read of the paper's trace its outcomes at sizes 1 to 7: of the six counts of a size, the one that grew."""
    first = cases.index((*paper_case(0), 9))
    counts = [[int(n) for n in line.split(' counts ')[1].split()] for line in told[first:first + len(paper.READS) + 1]]
    return [[i % 6 for i, (old, new) in enumerate(zip(*pair)) if new == old + 1] for pair in zip(counts, counts[1:])]


def check_worked_places(tally):
    """The places that the description tells in words; tests/boundary/stated.c has them of the proved step."""
    reads, _ = reads_of(WORKED, 2)
    for size, place in WORKED_PLACES:
        card = [None] * size
        for volume, block, priority in reads[:7]:
            card_rule.read(card, (volume, block), priority)
        tally.equal('block 13 at size %d' % size, card[place - 1], (1, 13))


fill()
lines = [rule.expected(*each) for each in cases]
tally = compare.Tally()
given = (compare.CRATES / 'sizes_test' / 'stdin').read_bytes()
tally.equal('the stored cases', given, b''.join(rule.packed(*each) for each in cases))
tally.equal('the worked trace', lines[0], SHEET)
check_worked_places(tally)
tally.lines(lines, 'sizes_test')
for whose, told in (('the simulation', lines), ('the proved run', compare.stored('sizes_test'))):
    paper.check_distances(tally, whose, outcomes(told))
    as_it_is, as_one = (told[cases.index((*no_hints_case(written), 9))] for written in (0, 1))
    tally.equal('%s with 0 and with 1' % whose, as_it_is, as_one)
sys.exit(tally.end())
