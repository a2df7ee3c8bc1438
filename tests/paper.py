"""The example of source document 001 (Gu and Ding, priority LRU) as the document shows it and tells it in words, and
whether what was printed for its accesses is that.

Every cell of Figures 5 and 6 can be read in the document's text, and none disagrees with its six cases. Figure 7, of
the spans, is a picture that the text does not have: here stand the spans that section 3.3.2 tells in words.
"""
import re

from card_rule import INSERT, MISS_BYPASS

INFINITE = float('inf')
# the row of accesses with their hints, the same above the three stacks
ACCESSES = 'A-2 B-2 C-5 D-1 B-6 D-6 A-4 C-1 A-4'.split()
# a cache size, and its stack's positions from the top on, each over times 1 to 9; a dot is a cell with nothing in it
STACKS = (
    # Figure 5(a), with a circle around the A at time 8
    (5, ('...DD..CC',
         'ABB..A...',
         '.AABA....',
         '...A..A.A',
         '..C....A.')),
    # Figure 5(b), with a circle around the A at time 8
    (6, ('...DD..CC',
         'ABB..A...',
         '.AABA.C..',
         '...A.CAAA',
         '..C.CBBBB',
         '...CBDDDD')),
    # Figure 6, with a circle around the A at time 9
    (4, ('...DD..CC',
         'ABB..A...',
         '.AABA....',
         '...A..A.A')),
)
# from the captions of Figures 5(a) and 5(b): a cache size, and the position of A in it after time 8
POSITIONS = ((5, 5), (6, 4))
# from the caption of Figure 6: the access at time 9 is a miss in this size
MISS = 4

# from section 3.3.2: a data element, a time, and the spans after it, each with its c1, its c2 and its loc
SPANS = (
    ('A', 1, ((1, 1, INFINITE), (2, INFINITE, 2))),
    ('A', 2, ((1, 2, INFINITE), (3, INFINITE, 3))),
    ('B', 2, ((1, 1, INFINITE), (2, INFINITE, 2))),
    # Figure 7(d), which the access at time 5 finds
    ('A', 4, ((1, 3, INFINITE), (4, INFINITE, 4))),
    ('A', 5, ((1, 3, INFINITE), (4, INFINITE, 3))),
    ('B', 5, ((1, 5, INFINITE), (6, INFINITE, 6))),
    # Figure 7(g), which the access at time 8 finds
    ('A', 7, ((1, 3, INFINITE), (4, INFINITE, 4))),
    ('A', 8, ((1, 4, INFINITE), (5, 5, 5), (6, INFINITE, 4))),
)
# the leftmost span with a finite loc that the accesses at times 5 and 9 find, so after the times before them
LEFTMOST = (('B', 4, (3, INFINITE, 3)), ('A', 8, (5, 5, 5)))
# a time, and the stack distance of its access; at times 3 and 4 it is infinite because that of every first access is
DISTANCES = ((1, INFINITE), (2, INFINITE), (3, INFINITE), (4, INFINITE), (5, 3), (9, 5))
# the access at time 2 'is a miss bypass with a cache size 1 but a miss insertion for larger caches'
SECOND = [MISS_BYPASS, INSERT, INSERT, INSERT, INSERT, INSERT, INSERT]

# the places of crates/card_test in the figures' letters, and the accesses as its blocks with their priorities
LETTERS = {'-': '.', '0.1': 'A', '0.2': 'B', '0.3': 'C', '0.4': 'D'}
BLOCKS = {'A': 1, 'B': 2, 'C': 3, 'D': 4}
READS = [(BLOCKS[name], int(hint)) for name, hint in (access.split('-') for access in ACCESSES)]


def stacks(lines, size):
    """The printed reads at a size: of each its block and priority, if it was a hit, and the stack after it."""
    read = re.compile(r'size %d volume 0 block (\d+) priority (\d+): outcome (\d)(.*)' % size)
    for block, priority, outcome, places in (found.groups() for found in map(read.fullmatch, lines) if found):
        stack = ''.join(LETTERS.get(place, '?') for place in places.split())
        yield (int(block), int(priority)), int(outcome) < INSERT, stack


def shown(rows):
    """The same in a figure: an access is a hit where the column before has its data. Past the last place is nothing."""
    columns = [''.join(column) for column in zip(*rows)]
    for read, access, before, stack in zip(READS, ACCESSES, ['', *columns], columns):
        yield read, access[0] in before, stack + '.'


def check_figures(tally, whose, lines):
    for size, rows in STACKS:
        have, want = list(stacks(lines, size)), list(shown(rows))
        tally.equal('%s: the reads at size %d' % (whose, size), len(have), len(want))
        for time, pair in enumerate(zip(have, want), 1):
            tally.equal('%s: size %d, time %d' % (whose, size, time), *pair)
    for size, position in POSITIONS:
        positions = [stack.find('A') + 1 for _, _, stack in stacks(lines, size)]
        tally.equal('%s: A at size %d after time 8' % (whose, size), positions[7:8], [position])
    tally.equal('%s: a hit at time 9' % whose, [hit for _, hit, _ in stacks(lines, MISS)][8:9], [False])


def spans(lines, name, time):
    """The spans of a data element: the runs of sizes at which the printed place, 0 for none, is the same.

    Sizes 1 to 7 are printed. Larger ones are as 7, because no hint is over 6: so the last span does not end."""
    head = 'time %d block %d places ' % (time, BLOCKS[name])
    places = [int(place) for line in lines if line.startswith(head) for place in line[len(head):].split()]
    starts = [size for size in range(1, len(places) + 1) if size == 1 or places[size - 1] != places[size - 2]]
    ends = [start - 1 for start in starts[1:]] + [INFINITE]
    return tuple((start, end, places[start - 1] or INFINITE) for start, end in zip(starts, ends))


def check_spans(tally, whose, lines):
    for name, time, want in SPANS:
        tally.equal('%s: the spans of %s after time %d' % (whose, name, time), spans(lines, name, time), want)
    for name, time, want in LEFTMOST:
        finite = [span for span in spans(lines, name, time) if span[2] != INFINITE]
        tally.equal('%s: the leftmost span of %s after time %d' % (whose, name, time), finite[:1], [want])


def check_distances(tally, whose, outcomes):
    """Outcomes are, for each time, those at sizes 1 to 7: misses below the stack distance, and hits from there on."""
    for time, distance in DISTANCES:
        hits = [outcome < INSERT for outcome in outcomes[time - 1]]
        tally.equal('%s: the distance at time %d' % (whose, time), hits, [size >= distance for size in range(1, 8)])
    tally.equal('%s: the misses at time 2' % whose, outcomes[1], SECOND)
