"""Works out each line of crates/trace_test/stdout from the tables in its source, by tests/trace_format.py.

The gate compares that file with what the proved library answers, so the two readings of the format meet in it.
"""
import re
import sys

import compare
import trace_format as form

ROOM = 12
# the tables of the program's source, in the order in which it goes over them
TABLES = ('NUMBERS', 'HEADERS', 'RECORDS', 'WRITTEN_HEADERS', 'WRITTEN_RECORDS')
# bytes by their hexadecimal digits, with a place after them in the first table; or numbers, of which some are the largest of a type
BYTES = re.compile(r'b"((?:\\x..)*)"(?:, ([\w:]+)\))?')
NUMBERS = re.compile(r'\(([\w:, ]+)\)')
LARGEST = {'usize::MAX': 2 ** 64 - 1, 'u32::MAX': 2 ** 32 - 1}


def hexed(data):
    return ''.join(' %02x' % byte for byte in data)


def refusal(found):
    return ': refused %d' % found[1]


def number(data, at=0):
    found = form.read_number(data, at)
    answer = refusal(found) if found[0] == 'refused' else ': value %d length %d' % found[1:]
    return 'number%s at %d%s' % (hexed(data), at, answer)


def header(data):
    found = form.read_header(data)
    answer = refusal(found) + ' at %d' % found[2] if found[0] == 'refused' else ': edition %d size %d length %d' % found[1:]
    return 'header%s%s' % (hexed(data), answer)


def record(data):
    found = form.read_record(data)
    if found[0] == 'refused':
        answer, rest = refusal(found) + ' at %d' % found[2], data
    else:
        answer, rest = ': volume %d block %d priority %d length %d' % found[1:], data[found[4]:]
    return 'record%s%s rest%s' % (hexed(data), answer, hexed(rest))


def written(kind, names, ranges, room, at, values):
    found = form.write_fields(room, at, values, ranges)
    buffer = bytearray([0xEE] * ROOM)
    if found[0] == 'length':
        buffer[at:at + found[1]] = found[2]
        answer = ': length %d' % found[1]
    else:
        answer = refusal(found)
    told = ''.join(' %s %d' % pair for pair in zip(names, values))
    return 'write %s room %d at %d%s%s buffer%s' % (kind, room, at, told, answer, hexed(buffer))


def value(word):
    return LARGEST[word] if word in LARGEST else int(word)


def table(source, name):
    """What stands between the brackets of a table, and how many entries its type says that there are."""
    found = re.search(r'^const %s: \[[^\n]*; (\d+)\] = \[\n(.*?)^\];$' % name, source, re.MULTILINE | re.DOTALL)
    return int(found[1]), found[2]


def lines(name, entries):
    """The lines of a table."""
    if name in ('WRITTEN_HEADERS', 'WRITTEN_RECORDS'):
        kind, names, ranges = (('header', ('edition', 'size'), form.HEADER) if name == 'WRITTEN_HEADERS' else
                               ('record', ('volume', 'block', 'priority'), form.RECORD))
        for numbers in NUMBERS.findall(entries):
            room, at, *values = map(value, numbers.split(', '))
            yield written(kind, names, ranges, room, at, values)
        return
    for digits, place in BYTES.findall(entries):
        data = bytes(int(byte, 16) for byte in re.findall(r'\\x(..)', digits))
        yield number(data, value(place)) if name == 'NUMBERS' else header(data) if name == 'HEADERS' else record(data)


source = (compare.CRATES / 'trace_test' / 'src' / 'main.rt').read_text()
tally = compare.Tally()
worked_out = []
for name in TABLES:
    many, entries = table(source, name)
    told = list(lines(name, entries))
    tally.equal('how many entries %s has' % name, len(told), many)
    worked_out += told
tally.lines(worked_out, 'trace_test')
sys.exit(tally.end())
