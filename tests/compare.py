"""Compares what the tests have with what they want: values one by one, lines with a crate's stored output, or what a
program prints of many cases with what a rule makes of them.

With UNTIL_FIRST set in the environment a test ends at the first failure, with its sum so far."""
import os
import pathlib
import sys

import kit

UNTIL_FIRST = 'UNTIL_FIRST' in os.environ
CRATES = pathlib.Path(__file__).resolve().parent.parent / 'crates'
BATCH = 60000  # bytes: the programs take 65,536 at a time


class Tally:
    """Counts what is equal, and shows what is not."""
    passed = failed = 0

    def equal(self, what, have, want):
        if have == want:
            self.passed += 1
            return
        self.failed += 1
        print('%s\nwant %.300s\nhave %.300s' % (what, repr(want), repr(have)))
        if UNTIL_FIRST:
            sys.exit(self.end())

    def lines(self, worked, crate):
        """Compares lines that were worked out with those of a crate's stored output."""
        have = stored(crate)
        self.equal('how many lines', len(have), len(worked))
        for number, pair in enumerate(zip(have, worked), 1):
            self.equal('line %d' % number, *pair)

    def cases(self, program, every, rule):
        """Compares the line that a program prints of each case with the rule's; a case is a trace, what is lent, a fill."""
        for batch in batches(every, rule):
            lines = kit.output(program, b''.join(rule.packed(*case) for case in batch)).split('\n')[:-1]
            self.equal('the lines of a batch', len(lines), len(batch))
            for (data, *lent, value), line in zip(batch, lines):
                self.equal('trace %s lent %s filled %d' % (data.hex(), lent, value), line, rule.expected(data, *lent, value))

    def end(self):
        """Prints the sum; the exit status. Nothing compared is no success."""
        print('%d passed, %d failed' % (self.passed, self.failed))
        return 1 if self.failed or not self.passed else 0


def batches(every, rule):
    """Cases in lists of no more bytes than a program takes at a time."""
    batch, length = [], 0
    for case in every:
        taken = len(rule.packed(*case))
        if length + taken > BATCH:
            yield batch
            batch, length = [], 0
        batch.append(case)
        length += taken
    yield batch


def stored(crate):
    """The lines of a crate's stored output."""
    return (CRATES / crate / 'stdout').read_text().split('\n')[:-1]
