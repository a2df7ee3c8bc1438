"""The workloads: a size, a pool of blocks and a kind of priority, each made into one trace."""
import pathlib
import random
import sys

sys.path.append(str(pathlib.Path(__file__).resolve().parent.parent / 'tests'))
import trace_format as form  # noqa: E402

# The reads of a trace, by its size: enough for a card to fill where priorities let it, and to count in minutes.
READS = {8: 1000, 32: 600, 127: 500}
# What fills the areas before a run. Zeros would do, but the proved run's program leaves out what is as before.
FILL = 255
POOLS = {'N/2': lambda n: n // 2, '2N': lambda n: 2 * n, '8N': lambda n: 8 * n}
# The largest priority of each kind; the least is 1, but for reads without a hint, which have 0.
PRIORITIES = {
    '0': lambda n: 0,
    '1..N/8': lambda n: max(1, n // 8),
    '1..N/2': lambda n: n // 2,
    '1..N': lambda n: n,
    '1..2N': lambda n: 2 * n,
    '1..16383': lambda n: 16383,
    'skewed': lambda n: n,
}


def header(size):
    return form.spell(1) + form.spell(size)


def trace(size, pool, priorities, reads):
    """A trace with every block of the pool as likely; skewed priorities are 1 in nine reads of ten."""
    pick = random.Random('%d %s %s' % (size, pool, priorities))
    blocks, largest = POOLS[pool](size), PRIORITIES[priorities](size)
    data = bytearray(header(size))
    for _ in range(reads):
        low = priorities == 'skewed' and pick.random() < 0.9
        priority = 1 if low else pick.randint(min(1, largest), largest)
        data += form.spell(0) + form.spell(pick.randrange(blocks)) + form.spell(priority)
    return bytes(data)


def case(size, data):
    """A trace with the head that the programs take: its length, the areas' lengths, and what fills the areas."""
    lengths = (len(data), size, 2 * size * ((size + 1) // 2), 6 * size)
    return b''.join(n.to_bytes(2, 'little') for n in lengths) + bytes([FILL]) + data
