"""What the all-sizes run has to answer and leave, by a simulation of each size on its own.

A second reading of the rules: tests/trace_format.py reads the trace and tests/card_rule.py holds each card.
"""
import collections

import card_rule as rule
import trace_format as form

ROOM = 7
LENT = (130, 16300, 770)  # the lengths of the areas of crates/sizes_test


def stretches(cards):
    """The block of each stretch: one begins where the next smaller card does not hold the block at the same place."""
    smaller, found = [], []
    for card in cards:
        # most cards are alike, and a comparison of lists is quicker
        if card[:-1] != smaller or card[-1] is not None:
            found += [block for block, other in zip(card, smaller + [None]) if block is not None and block != other]
        smaller = card
    return found


def simulate(size, reads):
    """The counts of sizes 1 to N, each run on its own, and the two peaks."""
    cards = [[None] * m for m in range(1, size + 1)]
    counts = [[0] * 6 for _ in cards]
    numbers = {}  # small numbers stand for the blocks: they are compared very often
    total_peak = one_peak = 0
    for volume, block, priority in reads:
        number = numbers.setdefault((volume, block), len(numbers))
        for card, count in zip(cards, counts):
            count[rule.read(card, number, priority)] += 1
        found = stretches(cards)
        total_peak = max(total_peak, len(found))
        one_peak = max(one_peak, *collections.Counter(found).values(), 0)
    return sum(counts, []), total_peak, one_peak


def expected(data, lent, value):
    """The line that crates/sizes_test has to print for a case; its counts end with the last one that the fill is not."""
    def told(answer, changed, counts):
        cells = counts[:]
        while cells and cells[-1] == value:
            cells.pop()
        return '%s %d 0 %d 0 counts%s' % (answer, changed[0], changed[1], ''.join(' %d' % cell for cell in cells))

    head = form.read_header(data)
    if head[0] == 'refused':
        return told('refused %d %d' % head[1:], (0, 0), [])
    size, at = head[2], head[3]
    lengths = stated(size)
    if any(have < need for have, need in zip(lent, lengths)):
        return told('refused %d 0' % ROOM, (0, 0), [])
    reads = []
    while at < len(data):
        found = form.read_record(data[at:])
        if found[0] == 'refused':
            return told('refused %d %d' % (found[1], at + found[2]), lengths, [0] * lengths[2])
        reads.append(found[1:4])
        at += found[4]
    counts, total, one = simulate(size, reads)
    return told('done %d %d %d' % (len(reads), total, one), lengths, counts)


def stated(size):
    """The lengths that the three areas have to have for a size."""
    return (size, 2 * size * ((size + 1) // 2), 6 * size)


def packed(data, lent, value):
    """A case as crates/sizes_test reads it."""
    return b''.join(n.to_bytes(2, 'little') for n in (len(data), *lent)) + bytes([value]) + data
