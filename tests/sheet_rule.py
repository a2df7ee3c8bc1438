"""The sheet of an input, worked out from its description by a simulation of each size on its own."""
import sizes_rule
import trace_format as form

LARGE, LARGEST_INPUT = 10, 16384
# the worked trace of the description, and its sheet as it stands there
WORKED = bytes.fromhex('0103010a01010b02010c03010a03010b03010d02010c04010d01')
WORKED_SHEET = 'accesses 8 stretches 3 block 2\n1 7 0 0 0 1 2 5\n2 5 1 0 0 2 3 2\n3 4 0 1 2 1 4 0\n'
# where the description has block 13 after the seventh read of that trace: a size, and the place in it
WORKED_PLACES = ((2, 2), (3, 1))
# traces at the borders of what is refused; those with the least and the largest priority are accepted
BORDERS = ('', '0100', '018001', '0200', '0103808004', '0103010a', '0103010a00', '0103010aff7f', '0103010a808001',
           '0103010a8000', '018000')


def refused(number, place):
    return 'refused %d at %d\n' % (number, place)


def reads_of(data, at):
    """The reads from a place on, and None; or None and the refusal."""
    reads = []
    while at < len(data):
        found = form.read_record(data[at:])
        if found[0] == 'refused':
            return None, (found[1], at + found[2])
        reads.append(found[1:4])
        at += found[4]
    return reads, None


def sheet(data):
    """What the program has to print."""
    if len(data) > LARGEST_INPUT:
        return refused(LARGE, LARGEST_INPUT)
    head = form.read_header(data)
    if head[0] == 'refused':
        return refused(*head[1:])
    reads, refusal = reads_of(data, head[3])
    if refusal:
        return refused(*refusal)
    counts, total, one = sizes_rule.simulate(head[2], reads)
    lines = ['accesses %d stretches %d block %d' % (len(reads), total, one)]
    for size in range(1, head[2] + 1):
        six = counts[6 * size - 6:6 * size]
        lines.append(' '.join(map(str, [size, six[4] + six[5]] + six)))
    return '\n'.join(lines) + '\n'
