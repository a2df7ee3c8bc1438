"""The trace format, read a second time from its description, in Python and with no eye on the Rattle code.

A reader answers ('value', value, length), ('header', edition, size, length), ('record', volume, block, priority,
length), or ('refused', number, place). A writer answers ('length', length, bytes) or ('refused', number).
"""

CUT, FORM, EDITION, SIZE, VOLUME, PRIORITY, SPACE = 1, 2, 3, 4, 5, 6, 8
LARGEST_NUMBER = 2 ** 32 - 1
LARGEST_SIZE = 127
LARGEST_VOLUME = 65535
LARGEST_PRIORITY = 16383


def spell(value):
    """The one spelling of a number."""
    out = bytearray()
    while True:
        group = value & 0x7F
        value >>= 7
        if value == 0:
            out.append(group)
            return bytes(out)
        out.append(group | 0x80)


def trace(size, reads):
    """The one spelling of a trace."""
    return b''.join(map(spell, (1, size, *(number for read in reads for number in read))))


def read_number(data, at):
    """By search for the end and then by spelling what was found again: another way than the proved reader's."""
    end = at
    while end < len(data) and end < at + 5 and data[end] >= 0x80:
        end += 1
    if end == at + 5:
        return ('refused', FORM, at)
    if end >= len(data):
        return ('refused', CUT, at)
    length = end + 1 - at
    value = sum((byte & 0x7F) << (7 * i) for i, byte in enumerate(data[at:end + 1]))
    if value > LARGEST_NUMBER or spell(value) != bytes(data[at:end + 1]):
        return ('refused', FORM, at)
    return ('value', value, length)


def read_fields(data, at, ranges):
    """Numbers from a place on, each tested before the next is read: the values and the place after them."""
    values = []
    for least, largest, refusal in ranges:
        found = read_number(data, at)
        if found[0] == 'refused':
            return found
        if not least <= found[1] <= largest:
            return ('refused', refusal, at)
        values.append(found[1])
        at += found[2]
    return ('fields', values, at)


HEADER = ((1, 1, EDITION), (1, LARGEST_SIZE, SIZE))
RECORD = ((0, LARGEST_VOLUME, VOLUME), (0, LARGEST_NUMBER, FORM), (0, LARGEST_PRIORITY, PRIORITY))


def read_header(data):
    found = read_fields(data, 0, HEADER)
    return found if found[0] == 'refused' else ('header', *found[1], found[2])


def read_record(data):
    found = read_fields(data, 0, RECORD)
    return found if found[0] == 'refused' else ('record', *found[1], found[2])


def write_fields(room, at, values, ranges):
    """What is written at an offset of a buffer with so many bytes."""
    for value, (least, largest, refusal) in zip(values, ranges):
        if not least <= value <= largest:
            return ('refused', refusal)
    text = b''.join(spell(value) for value in values)
    if at + len(text) > room:
        return ('refused', SPACE)
    return ('length', len(text), text)
