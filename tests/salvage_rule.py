"""What a salvage has to answer and leave, worked out from its description.

A second reading of the rules: all numbers after the header are read first, whatever they stand for, up to the first that
is not well formed. Then three at a time are a record, and what is left over goes with the rest of the bytes.
"""
import trace_format as form

LENT = 320  # the length of the output of crates/salvage_test, of which a case is lent a part


def numbers(data, at):
    """The well-formed numbers from a place on: where each begins, then where the next would; the values; why it is none."""
    places, values = [at], []
    while True:
        found = form.read_number(data, places[-1])
        if found[0] == 'refused':
            return places, values, found[1]
        places.append(places[-1] + found[2])
        values.append(found[1])


def first_fault(values):
    """The refusal of the first number of a record that is out of range, or 0; not all three have to be there."""
    faults = (refusal for value, (least, largest, refusal) in zip(values, form.RECORD) if not least <= value <= largest)
    return next(faults, 0)


def pieces(data, at):
    """All bytes from a place on, in pieces: where each begins, where it ends, and its refusal, 0 where it is kept."""
    places, values, why = numbers(data, at)
    whole = len(values) // 3 * 3
    found = [(places[i], places[i + 3], first_fault(values[i:i + 3])) for i in range(0, whole, 3)]
    if places[whole] < len(data):
        found.append((places[whole], len(data), first_fault(values[whole:]) or why))
    return found


def salvaged(data):
    """('salvaged', the good trace, the entries), each entry an offset, a length and a number; or the header's refusal."""
    head = form.read_header(data)
    if head[0] == 'refused':
        return head
    found = pieces(data, head[3])
    good = data[:head[3]] + b''.join(data[start:end] for start, end, why in found if not why)
    return 'salvaged', good, [(start, end - start, why) for start, end, why in found if why]


def outcome(data, space, room):
    """The answer in words, and what is written into an output and a list of these lengths."""
    kind, *found = salvaged(data)
    if kind == 'refused':
        return 'refused %d at %d' % tuple(found), b'', []
    good, entries = found
    if len(good) > space or len(entries) > room:
        return 'refused %d' % form.SPACE, b'', []
    return 'done %d %d' % (len(good), len(entries)), good, entries


def expected(data, space, room, value):
    """The line that crates/salvage_test has to print for a case; its bytes end with the last one that the fill is not."""
    answer, good, entries = outcome(data, space, room)
    area = good + bytes([value]) * (LENT - len(good))
    cells = ''.join(' %02x' % byte for byte in area.rstrip(bytes([value])))
    return '%s good%s list%s' % (answer, cells, ''.join(' %d %d %d' % entry for entry in entries))


def packed(data, space, room, value):
    """A case as crates/salvage_test reads it."""
    return b''.join(n.to_bytes(2, 'little') for n in (len(data), space, room)) + bytes([value]) + data
