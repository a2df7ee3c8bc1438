"""Runs over many traces, valid and damaged, against a simulation of each size on its own.

    python3 tests/sizes_runs.py [PROGRAM]

The program, crates/sizes_test where no other is named, is handed batches of cases; what it prints of each, the answer,
how far the lent areas were changed and the counts, is compared with what tests/sizes_rule.py makes of the case.
"""
import os
import random
import sys

import compare
import sizes_rule as rule
import trace_format as form

SMALL_CASES, SMALL_SIZE = 2500, 12
CLIMBS = (12, 13, 40, 77, 127)
LONG_READS = 14000


def some_block(pick, volumes, pool):
    """A volume and a block, now and then with one bit changed: it is another block, whichever bit that is."""
    volume, block, kind = pick.randrange(volumes), pick.randrange(pool), pick.randrange(10)
    if kind == 0:
        volume ^= 1 << pick.randrange(16)
    if kind == 1:
        block ^= 1 << pick.randrange(32)
    return volume, block


def make_trace(pick, size, length):
    volumes = pick.choice((1, 1, 3))
    pool = pick.choice((size // 2 + 1, 2 * size, 8 * size))
    kind = pick.choice(('none', 'one', 'none or one', 'small', 'half', 'size', 'twice', 'any', 'mostly none', 'mostly one'))
    tops = {'none': 0, 'one': 1, 'none or one': 1, 'small': max(1, size // 8), 'half': max(1, size // 2),
            'twice': 2 * size, 'any': 16383}
    least, top = int(kind in ('one', 'mostly one')), tops.get(kind, size)
    reads = []
    for _ in range(length):
        priority = least if kind.startswith('mostly') and pick.random() < 0.9 else pick.randint(least, top)
        reads.append((*some_block(pick, volumes, pool), priority))
    return form.trace(size, reads)


def climb(pick, size, more):
    """One block gets as many stretches as any can have, half of the sizes; then more reads by chance.

    The blocks of volume 2 come up by half when those of volume 1 go, and each is present only at sizes from its old
    place on. So when they go, one after the other, those of volume 3 come up at these sizes alone."""
    half, past = (size + 1) // 2, size + 1
    reads = [(1, i, i) for i in range(1, half + 1)]
    reads += [(2, i, half + i) for i in range(1, half)]
    reads += [(1, i, past) for i in range(1, half + 1)]
    reads += [(3, i, i) for i in range(half, size + 1)]
    reads += [(2, i, past) for i in range(1, half)]
    reads += [(pick.choice((1, 2, 3, 3, 4)), pick.randint(1, size), pick.randint(1, size + 2)) for _ in range(more)]
    return form.trace(size, reads)


def damaged(pick, data):
    data = bytearray(data)
    for _ in range(pick.randint(1, 3)):
        kind = pick.randrange(4)
        if kind == 0 and data:
            data[pick.randrange(len(data))] = pick.randrange(256)
        elif kind == 1:
            data = data[:pick.randrange(len(data) + 1)]
        elif kind == 2:
            data.insert(pick.randrange(len(data) + 1), pick.choice((0, 0x80, 0xFF, pick.randrange(256))))
        elif data:
            del data[pick.randrange(len(data))]
    return bytes(data)


def make_case(pick, size, length):
    """A trace that may be damaged, with areas that may be longer than they have to be, or too short."""
    data = make_trace(pick, size, length)
    if pick.random() < 0.35:
        data = damaged(pick, data)
    stated = list(rule.stated(size))
    if pick.random() < 0.1:
        short = pick.randrange(3)
        stated[short] = max(0, stated[short] - pick.choice((1, 1, stated[short])))
    lent = tuple(min(most, need + pick.choice((0, 0, 1, 3))) for most, need in zip(rule.LENT, stated))
    return data, lent, pick.randint(1, 255)


def cases(pick):
    """Many small ones, some for every size, climbs, and a long one with thousands of blocks."""
    for _ in range(SMALL_CASES):
        yield make_case(pick, pick.randint(1, SMALL_SIZE), pick.randint(0, 60))
    for size in range(1, form.LARGEST_SIZE + 1):
        yield make_trace(pick, size, 30 + 2 * size), rule.stated(size), pick.randint(1, 255)
        yield make_case(pick, size, size)
    for size in CLIMBS:
        yield climb(pick, size, size), rule.stated(size), pick.randint(1, 255)
    reads = [(0, pick.randint(1, 4) if i % 2 else i, pick.randint(0, 4)) for i in range(LONG_READS)]
    yield form.trace(3, reads), rule.stated(3), pick.randint(1, 255)


def check_climbs(tally, pick):
    """The simulation itself climbs as far as it has to, so that these cases do not get weak unnoticed."""
    for size in CLIMBS:
        answer = rule.expected(climb(pick, size, 0), rule.stated(size), 1).split()
        tally.equal('the peak of one block at %d' % size, int(answer[3]), (size + 1) // 2)
        tally.equal('the peak of all at %d' % size, int(answer[2]) > size, True)


def main(program='sizes_test'):
    tally = compare.Tally()
    pick = random.Random(20261115)
    tally.cases(program, cases(pick), rule)
    check_climbs(tally, pick)
    return tally.end()


if __name__ == '__main__':
    sys.exit(main(*map(os.path.abspath, sys.argv[1:2])))
