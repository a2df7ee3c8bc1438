"""Makes the examples: python3 examples/make.py [FOLDER], which is this folder if it is left out.

The texts are worked out here from a fixed seed, and tools/trace turns each into its trace. Of the generator only
random() is used, whose numbers stay the same from one Python to the next.
"""
import pathlib
import random
import subprocess
import sys

HERE = pathlib.Path(__file__).resolve().parent
TOOL = HERE.parent / 'tools' / 'trace'
SEED = 20261115
POPULAR = 8  # articles that come again in the picking run


def below(pick, count):
    """One of 0 to count - 1, each as likely."""
    return int(pick.random() * count)


def skewed(pick, count):
    """One of 0 to count - 1, small ones far more often; by products, since powers may round otherwise elsewhere."""
    part = pick.random()
    return int(part * part * part * count)


def two_volumes(pick):
    """Two volumes are compared block by block; their blocks have the same numbers and nothing else in common."""
    first, blocks, every, directory = 500, 48, 6, 20
    yield 'Volumes 1 and 2 are compared block by block, blocks %d to %d of each.' % (first, first + blocks - 1)
    yield 'Before every %d blocks the directory of each volume is read, its block %d.' % (every, directory)
    yield 16,
    for index in range(blocks):
        for block in [directory] * (index % every == 0) + [first + index]:
            yield 1, block, 1
            yield 2, block, 1


def article_read(pick, size, others):
    """Of four articles one is popular, with a place of its own in the lower half; the others are read once."""
    if pick.random() < 0.25:
        rank = below(pick, POPULAR)
        return 2, rank, size // 2 + rank
    # past the card, but for a few of which it is not known whether they come again
    return 2, others.pop(below(pick, len(others))), size if pick.random() < 0.1 else size + 1


def picking_run(pick):
    """Each read tells where its block belongs: near the top if it is needed soon, past the card if never again."""
    size, waves, aisles, orders = 24, 3, 8, 4
    yield 'A picking run in %d waves; a wave serves %d orders and walks %d aisles.' % (waves, orders, aisles)
    yield 'A pick reads the map of its aisle (volume 1, from block 100), the list of its order (volume 1,'
    yield 'from block 200) and the record of its article (volume 2).'
    yield size,
    others = list(range(POPULAR, 2000))
    for wave in range(waves):
        # the orders that the picks of each aisle are for
        walk = [[below(pick, orders) for _ in range(3 + below(pick, 3))] for _ in range(aisles)]
        left = sum(walk, [])
        for aisle, picks in enumerate(walk):
            for index, order in enumerate(picks):
                left.pop(0)
                # the next pick needs the map again, the last one in an aisle leaves it to the next wave
                yield 1, 100 + aisle, 1 if index + 1 < len(picks) else 6
                yield 1, 200 + orders * wave + order, 2 + order if order in left else size + 1
                yield article_read(pick, size, others)


def plain_lru_day(pick):
    """A tray without hints: every priority is 0, and every read comes to the top of the card."""
    blocks, reads = 96, (260, 180)
    yield 'A day without hints, on volume 1 and then on volume 2; both have blocks 0 to %d.' % (blocks - 1)
    yield 'Blocks with small numbers are read far more often than the others.'
    yield 32,
    for volume, count in enumerate(reads, 1):
        for _ in range(count):
            yield volume, skewed(pick, blocks), 0


def text(parts):
    """A comment is given as words, the header by its size, and a read by its three numbers."""
    lines = []
    for part in parts:
        if isinstance(part, str):
            lines.append('# ' + part)
        elif len(part) == 1:
            lines += ['1 %d' % part, '']
        else:
            lines.append('%d %d %d' % part)
    return '\n'.join(lines) + '\n'


def main(folder):
    for name, make in (('two-volumes', two_volumes), ('picking-run', picking_run), ('plain-lru-day', plain_lru_day)):
        source = folder / (name + '.text')
        source.write_text(text(make(random.Random(SEED))))
        subprocess.run([str(TOOL), 'write', str(source), str(folder / (name + '.trace'))], check=True)


if __name__ == '__main__':
    main(pathlib.Path(sys.argv[1]) if len(sys.argv) > 1 else HERE)
