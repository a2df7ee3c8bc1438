"""Works out crates/salvage_test's stored cases and each line of its output by tests/salvage_rule.py.

The gate compares the output with what the proved salvage answers and leaves, so the two meet in it. Thousands of damaged
traces more are handed to the program from here. What the description tells of two faults in one record stands here as
worked by hand. What the rule keeps and lists is tried by itself too.
"""
import collections
import itertools
import random
import sys

import compare
import salvage_rule as rule
import sizes_runs as runs
import trace_format as form
from sheet_rule import BORDERS, WORKED, reads_of

# traces with what has to be printed of them: the answer, the output and the entries, each by hand from the description
STATED = (
    ('0103', 'done 2 0 good 01 03 list'),
    ('0103010a00', 'done 5 0 good 01 03 01 0a 00 list'),
    # a record is left out alone for its volume, for its priority, and under the first of the two for both
    ('0103010a018080040a01020b02', 'done 8 1 good 01 03 01 0a 01 02 0b 02 list 5 5 5'),
    ('0103010a808001010a01', 'done 5 1 good 01 03 01 0a 01 list 2 5 6'),
    ('01038080040a808001010a01', 'done 5 1 good 01 03 01 0a 01 list 2 7 5'),
    # everything from a record with a FORM or a CUT on, under the first fault of that record
    ('0103010a01018000010a01', 'done 5 1 good 01 03 01 0a 01 list 5 6 2'),
    ('0103010a010180', 'done 5 1 good 01 03 01 0a 01 list 5 2 1'),
    ('0103018000808001', 'done 2 1 good 01 03 list 2 6 2'),
    ('0103808004800001010a01', 'done 2 1 good 01 03 list 2 9 5'),
    ('01038080040a', 'done 2 1 good 01 03 list 2 4 5'),
    # a record that is left out alone does not go with the rest that is dropped after it
    ('01038080040a0180000a01', 'done 2 2 good 01 03 list 2 5 5 7 4 2'),
    ('0103010a80800101', 'done 2 2 good 01 03 list 2 5 6 7 1 1'),
)
# headers of the least and of the largest size, and bytes that are none or only the front of one
HEADERS = ('0101', '017f', '01', '80', '8000', '00', '02', '0180', 'ffffffff0f05', 'ffffffff1005', '808080808001',
           '01ffffffff0f', '01ffffffff10')
# a record that is right, one with a volume out of range, one with a priority, and one with both
KINDS = ((1, 10, 1), (65536, 10, 1), (1, 10, 16384), (65536, 10, 16384))
# the longest numbers that are in range, just out of it, and of all
LONG = ((65535, 2 ** 32 - 1, 16383), (65536, 2 ** 32 - 1, 16384), (2 ** 32 - 1,) * 3)
# a group of zeros at the end, more than the largest number, and more bytes than a number has
NOT_FORMED = tuple(map(bytes.fromhex, ('8000', 'ffffffff10', '808080808001')))
ENDS = (b'', NOT_FORMED[0], b'\x01')
# how many entries the longest stored list has
MANY_ENTRIES = 300
# how many damaged traces are stored and how many more are handed over, and how many reads one is made of at the most
DAMAGED, FEW_READS = 2000, 5
FURTHER, MANY_READS = 6000, 20
# how often each answer has to occur among them, and how large a part has to be traces that differ and have a fault
OFTEN, MOST = 30, 0.85


def spelled(*records):
    """The bytes of a header and of records, whatever their numbers."""
    return form.trace(3, records)


def with_space(data, space, room, value=0xEE):
    """Areas of other lengths than the salvage needs: by so many longer, or shorter."""
    kind, *found = rule.salvaged(data)
    good, entries = found if kind == 'salvaged' else (b'', [])
    return data, max(0, len(good) + space), max(0, len(entries) + room), value


def enough(data, value=0xEE):
    """The lengths that the header for C says suffice for so many bytes."""
    return data, len(data), len(data) // 3, value


def orders():
    """Up to three records of every kind in every order, with every end after fewer than three."""
    for many in range(4):
        for records in itertools.product(KINDS, repeat=many):
            for end in ENDS if many < 3 else ENDS[:1]:
                yield spelled(*records) + end


def cuts():
    """A record that is cut after each of its bytes, behind a right one."""
    before = spelled(KINDS[0])
    for record in LONG:
        whole = spelled(KINDS[0], record)
        for end in range(len(before), len(whole) + 1):
            yield whole[:end]


def faults_of_form():
    """A number that is not well formed in each place of a record of each kind, before a right record."""
    for record, place, number in itertools.product(KINDS, range(3), NOT_FORMED):
        numbers = [form.spell(value) for value in record]
        numbers[place] = number
        yield spelled(KINDS[0]) + b''.join(numbers) + form.spell(1) * 3


def spaces():
    """Output and list that are each as long as needed, one shorter or longer, or as short as can be."""
    every, bad = spelled(*KINDS), spelled(*KINDS[1:])
    traces = (b'', bytes.fromhex('018001'), spelled(), WORKED, every, every + b'\x01', bad)
    for data, space, room in itertools.product(traces, (-99, -1, 0, 1), (-99, -1, 0, 1)):
        yield with_space(data, space, room)


class Steady:
    """Choices by chance that are the same with every Python: it promises that of random() alone."""

    def __init__(self, seed):
        self.random = random.Random(seed).random

    def randrange(self, many):
        return int(self.random() * many)

    def randint(self, least, largest):
        return least + self.randrange(largest - least + 1)

    def choice(self, some):
        return some[self.randrange(len(some))]


def some_record(pick):
    """A record with numbers around the borders, one in four of them with a number out of range."""
    volume, priority = pick.choice((0, 1, 300, 65535, 65535)), pick.choice((0, 1, 127, 128, 16383, 16383))
    fault = pick.randrange(8)
    if fault == 0:
        volume = pick.choice((65536, 2 ** 32 - 1))
    if fault == 1:
        priority = pick.choice((16384, 2 ** 32 - 1))
    return volume, pick.choice((0, 10, 127, 128, 2 ** 32 - 1)), priority


def has_fault(data):
    """Whether a salvage refuses the trace or leaves something of it out."""
    return rule.salvaged(data) != ('salvaged', data, [])


def with_damage(pick, data):
    """A trace that is damaged, mostly after its header, since one that is refused hides the rest; or with another header,
    before the same records or alone."""
    kind = pick.random()
    if kind < 0.1:
        return bytes.fromhex(pick.choice(HEADERS)) + pick.choice((data[2:], b''))
    whole = 0 if kind < 0.2 else 2
    return data[:whole] + runs.damaged(pick, data[whole:])


def damaged(pick, most):
    """A damaged trace of one read to so many, with areas that may be too short or longer than they have to be."""
    whole = spelled(*(some_record(pick) for _ in range(pick.randint(1, most))))
    data, value = with_damage(pick, whole), pick.randrange(256)
    if not has_fault(data):
        # damage can end in another right trace, of which a few are enough
        data = with_damage(pick, whole)
    if pick.random() < 0.5:
        return enough(data, value)
    return with_space(data, pick.choice((-1, 0, 0, 0, 1, 5)), pick.choice((-1, 0, 0, 0, 1, 5)), value)


def cases():
    """All cases, in the order of the stored ones."""
    pick = Steady(20261116)
    chosen = [bytes.fromhex(text) for text in (*(text for text, _ in STATED), *BORDERS, *HEADERS)]
    yield from map(enough, (*chosen, WORKED, *orders(), *cuts(), *faults_of_form()))
    yield from spaces()
    # offsets of more than one byte, and a good trace that fills all that the program has
    for many in (90, 106):
        data = spelled(*[(0, 0, 0)] * (many - 6), *KINDS[1:], *[(1, 1, 1)] * 6, *KINDS[1:])
        yield with_space(data, 0, 0, 1)
    # more entries than a byte counts, with a list that is just long enough and with one that is too short by one
    for room in (0, -1):
        yield with_space(spelled(KINDS[0], *[KINDS[1]] * MANY_ENTRIES), 0, room, 1)
    for _ in range(DAMAGED):
        yield damaged(pick, FEW_READS)


def further():
    """Damaged traces that are not stored: longer ones, of which more is kept and listed."""
    pick = Steady(20261117)
    return [damaged(pick, MANY_READS) for _ in range(FURTHER)]


def put_back(data, good, entries):
    """The good trace with the listed bytes at their offsets again."""
    for offset, length, _ in entries:
        good = good[:offset] + data[offset:offset + length] + good[offset:]
    return good


def entry_at(data, offset):
    """The entry of a bad record by the reader of the format, which tests each number before it reads the next."""
    formed = form.read_fields(data, offset, [(0, form.LARGEST_NUMBER, form.FORM)] * 3)
    end = len(data) if formed[0] == 'refused' else formed[2]
    return offset, end - offset, form.read_record(data[offset:])[1]


def check_rule(tally, data):
    """What the rule keeps and lists of a trace: each byte once, the reads that are right, and nothing of a good trace."""
    head = form.read_header(data)
    if head[0] == 'refused':
        return
    _, good, entries = rule.salvaged(data)
    kept = [form.read_record(data[start:end])[1:4] for start, end, why in rule.pieces(data, head[3]) if not why]
    tally.equal('%s put together again' % data.hex(), put_back(data, good, entries), data)
    tally.equal('the entries of %s' % data.hex(), entries, [entry_at(data, offset) for offset, _, _ in entries])
    tally.equal('the reads of %s' % data.hex(), reads_of(good, head[3]), (kept, None))
    tally.equal('%s salvaged again' % data.hex(), rule.salvaged(good), ('salvaged', good, []))
    tally.equal('enough for %s' % data.hex(), rule.outcome(*enough(data)[:3])[1:], (good, entries))


def check_often(tally, some):
    """Most damaged traces differ and have a fault, and every answer and every refusal of a record occurs often among them:
    they do not get weak unnoticed."""
    faulty = {data for data, *_ in some if has_fault(data)}
    tally.equal('%d of %d differ and have a fault' % (len(faulty), len(some)), len(faulty) > MOST * len(some), True)
    told = collections.Counter()
    for case in some:
        line = rule.expected(*case)
        answer, entries = line.partition(' good')[0].split(), line.partition(' list')[2].split()
        told['done' if answer[0] == 'done' else 'refused ' + answer[1]] += 1
        told.update('listed ' + number for number in entries[2::3])
    wanted = ['done', *('refused ' + number for number in '12348'), *('listed ' + number for number in '1256')]
    tally.equal('what is rare', [each for each in wanted if told[each] < OFTEN], [])


def main():
    tally, every = compare.Tally(), list(cases())
    lines = [rule.expected(*case) for case in every]
    given = (compare.CRATES / 'salvage_test' / 'stdin').read_bytes()
    tally.equal('the stored cases', given, b''.join(rule.packed(*case) for case in every))
    for (text, want), line in zip(STATED, lines):
        tally.equal('%s as stated' % text, line, want)
    tally.lines(lines, 'salvage_test')
    for data in dict.fromkeys(data for data, *_ in every):
        check_rule(tally, data)
    more = further()
    tally.cases('salvage_test', more, rule)
    for some in (every[-DAMAGED:], more):
        check_often(tally, some)
    return tally.end()


if __name__ == '__main__':
    sys.exit(main())
