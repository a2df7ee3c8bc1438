"""Compares instructions per read: the proved run, N separate simulations in C, and the one-pass algorithm in C.

    python3 bench/compare.py [SIZE ...]

Every program runs every trace, and all have to give the same counts before their instructions are compared."""
import math
import multiprocessing
import os
import sys

import counting
import traces

PROVED = 'a'
# the programs in C, each with its file and its options, and how it is told
IN_C = {
    'b': ('separate.c', '', 'separate simulations'),
    'e': ('separate.c', '-DINCLUSION=1', 'as b with inclusion'),
    'f': ('indexed.c', '', 'as b with an index'),
    'g': ('indexed.c', '-DINCLUSION=1', 'as e with an index'),
    'c': ('one_pass.c', '', 'one pass in C'),
    'd': ('one_pass.c', '-DINTERVAL=1', 'as c with the interval'),
}
WITHOUT_PEAKS = 'befg'
# each ratio that is told, and which end of it is the worst for the proved run
RATIOS = {'b/a': 'least', 'e/a': 'least', 'f/a': 'least', 'g/a': 'least', 'a/c': 'largest', 'a/d': 'largest'}
ENDS = {'least': min, 'largest': max}
ROW = '%4s %-4s %-9s %6s' + (1 + len(IN_C)) * ' %7s' + len(RATIOS) * ' %6s'


def programs():
    """All programs; the proved one is built, and proved where that was not done yet."""
    built = {name: counting.built(name, source, *options.split()) for name, (source, options, _) in IN_C.items()}
    return {PROVED: counting.kit.program('sizes_test'), **built}


def answer(line, size):
    """The reads, the two peaks and the counts of a program's line."""
    told, _, shown = line.partition(' counts')
    if not told.startswith('done '):
        raise RuntimeError('a program refused its trace: ' + told)
    counts = [int(count) for count in shown.split()[:6 * size]]
    # the proved run's program leaves out what is at the end and as before the run
    return tuple(map(int, told.split()[1:4])), counts + [traces.FILL] * (6 * size - len(counts))


def agree(answers, workload):
    """Ends everything where two programs differ; separate simulations know no peaks."""
    (reads, *peaks), counts = answers[PROVED]
    for name, ((other_reads, *other_peaks), other_counts) in answers.items():
        known = name in WITHOUT_PEAKS or other_peaks == peaks
        if other_reads != reads or other_counts != counts or not known:
            raise RuntimeError('%s and %s differ on N = %d, pool %s, priorities %s' % (PROVED, name, *workload))


def counted(paths, size, data):
    """The instructions and the answer of each program on one trace."""
    given = traces.case(size, data)
    found = {name: counting.count(path, given) for name, path in paths.items()}
    counts = {name: instructions for name, (instructions, _) in found.items()}
    return counts, {name: answer(line, size) for name, (_, line) in found.items()}


def measured(task):
    """Instructions per read of each program on one workload, less what the header alone costs."""
    paths, empty, workload = task
    size, reads = workload[0], traces.READS[workload[0]]
    counts, answers = counted(paths, size, traces.trace(*workload, reads))
    agree(answers, workload)
    return {name: (counts[name] - empty[name]) / reads for name in paths}


def ratio(name, cost):
    over, under = name.split('/')
    return cost[over] / cost[under]


def show(workload, cost):
    costs = ['%.0f' % instructions for instructions in cost.values()]
    factors = ['%.2f' % ratio(name, cost) for name in RATIOS]
    print(ROW % (*workload, traces.READS[workload[0]], *costs, *factors), flush=True)


def mean(values):
    return math.exp(sum(map(math.log, values)) / len(values))


def summary(size, costs):
    found = {name: [ratio(name, cost) for cost in costs] for name in RATIOS}
    told = ['%s %s %.2f, geometric mean %.2f' % (name, end, ENDS[end](found[name]), mean(found[name]))
            for name, end in RATIOS.items()]
    print('N = %d: %s' % (size, '; '.join(told)))


def main(sizes):
    if not counting.can_count():
        raise SystemExit('no way to count instructions: needs valgrind')
    paths = programs()
    workloads = [(n, pool, kind) for n in sizes for pool in traces.POOLS for kind in traces.PRIORITIES]
    told = ', '.join('%s %s' % (name, words) for name, (*_, words) in IN_C.items())
    print('Instructions per read: %s proved run, %s' % (PROVED, told))
    print(ROW % ('N', 'pool', 'priority', 'reads', *paths, *RATIOS))
    costs = {n: [] for n in sizes}
    empty = {n: counted(paths, n, traces.header(n))[0] for n in sizes}
    with multiprocessing.Pool(os.cpu_count()) as pool:
        tasks = [(paths, empty[workload[0]], workload) for workload in workloads]
        for workload, cost in zip(workloads, pool.imap(measured, tasks)):
            costs[workload[0]].append(cost)
            show(workload, cost)
    for n in sizes:
        summary(n, costs[n])


if __name__ == '__main__':
    main([int(size) for size in sys.argv[1:]] or list(traces.READS))
