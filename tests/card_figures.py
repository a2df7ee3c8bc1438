"""Works out each line of crates/card_test/stdout by tests/card_rule.py, from the same reads told a second time.

The gate compares that file with what the proved step answers, so the two meet in it. Both have to show what the paper
shows, too.
"""
import sys

import card_rule as rule
import compare
import paper

VOLUME, PRIORITY, STATE = 5, 6, 9
PLACES = 127
LARGEST_KEY = 2 ** 48

lines = []


def key(volume, block):
    return volume * 2 ** 32 + block + 1


def shown(place):
    return ' -' if place == 0 else ' %d.%d' % divmod(place - 1, 2 ** 32)


def refusal(size, places, volume, priority):
    full = [place for place in places if place]
    if not 1 <= size <= PLACES or any(places[size:]) or len(set(full)) < len(full) or max(places) > LARGEST_KEY:
        return STATE
    if volume > 65535:
        return VOLUME
    if priority > 16383:
        return PRIORITY
    return None


def read(size, places, volume, block, priority):
    """Tells one read as the program does, and changes the places."""
    refused = refusal(size, places, volume, priority)
    if refused is None:
        card = [place or None for place in places[:size]]
        answer = 'outcome %d' % rule.read(card, key(volume, block), priority)
        places[:size] = [place or 0 for place in card]
    else:
        answer = 'refused %d' % refused
    told = ''.join(shown(place) for place in places[:size + 1])
    lines.append('size %d volume %d block %d priority %d: %s%s' % (size, volume, block, priority, answer, told))


def run(size, reads):
    places = [0] * PLACES
    for volume, block, priority in reads:
        read(size, places, volume, block, priority)


def one(size, volume, block, priority, full=()):
    places = [0] * PLACES
    for index, value in full:
        places[index] = value
    read(size, places, volume, block, priority)


def spans(time, block):
    """The block's places over sizes 1 to 7 after so many reads of the paper's trace."""
    found = []
    for size in range(1, 8):
        card = [None] * size
        for name, priority in paper.READS[:time]:
            rule.read(card, name, priority)
        found.append(card.index(block) + 1 if block in card else 0)
    lines.append('time %d block %d places %s' % (time, block, ' '.join(map(str, found))))


def ratio(misses, reads):
    none = reads == 0 or misses > reads or reads > 2 ** 53
    lines.append('ratio %d of %d: %s' % (misses, reads, 'none' if none else 'as expected'))


def tell():
    run(3, ((0, 10, 3), (0, 11, 3)))
    run(2, ((1, 7, 1), (2, 7, 1)))
    run(2, [(1, block, priority) for block, priority in ((10, 0), (11, 0), (10, 0), (10, 1), (10, 0), (12, 0), (11, 0))])
    for size in (5, 6, 4):
        run(size, [(0, block, priority) for block, priority in paper.READS])
    for time, block in ((1, 1), (2, 1), (2, 2), (4, 1), (4, 2), (5, 1), (5, 2), (7, 1), (8, 1)):
        spans(time, block)
    for size in (0, 1, 128, 2 ** 64 - 1):
        one(size, 0, 1, 1)
    for full in ([(2, 9)], [(3, 9)], [(126, 9)], [(1, LARGEST_KEY)], [(1, LARGEST_KEY + 1)], [(0, 9), (2, 9)], [(1, 9), (2, 9)], []):
        one(3, 0, 1, 1, full)
    for volume, block, priority in ((65535, 2 ** 32 - 1, 1), (65536, 0, 1), (1, 0, 0), (1, 0, 16383), (1, 0, 16384), (65536, 0, 0), (65536, 0, 16384)):
        one(2, volume, block, priority)
    one(0, 65536, 0, 16384)
    places = [0] * 126 + [9]
    read(127, places, 0, 8, 127)
    read(127, places, 0, 8, 128)
    for misses, reads in ((0, 0), (1, 0), (0, 1), (1, 1), (2, 1), (1, 3), (2, 3), (7, 8)):
        ratio(misses, reads)
    for misses, reads in ((2 ** 53 - 1, 2 ** 53), (2 ** 53, 2 ** 53), (0, 2 ** 53 + 1), (2 ** 53 + 1, 2 ** 53 + 1)):
        ratio(misses, reads)


tell()
tally = compare.Tally()
tally.lines(lines, 'card_test')
for whose, told in (('the simulation', lines), ('the proved step', compare.stored('card_test'))):
    paper.check_figures(tally, whose, told)
    paper.check_spans(tally, whose, told)
sys.exit(tally.end())
