"""The gate itself, and that everything it goes by is there: programs for stored outputs, a part for every test, a row
of docs/PROVED.md for every version that has to be refused, and what that page names.

    python3 tests/gate.py [GATE]

The gate is run in a folder of its own, with an `rt` and tests that end as each case says."""
import os
import pathlib
import re
import shutil
import sys
import tempfile

import compare
import edges
import kit

PASSED = '3 passed, 0 failed'
# what `rt ci` says before its last line where nothing failed, with what it tells of must-fail edits
OK = 'rt: ok; handles allowed: none; %sdone in this run: 2 of the 9 proofs (of crates and of their tests)'
REFUSED = 'must-fail edits: 50 refused; '
# what is told of them, and how many failures that adds
EDITS = (
    (REFUSED, 0),
    ('must-fail edits: 50 refused, 3 of them only by a limit; ', 0),
    ('must-fail edits: 49 refused, 1 bad; ', 1),
    ('must-fail edits: 30 refused, 3 of them only by a limit, 20 bad; ', 20),
    ('must-fail edits: 50 refused, 0 bad; ', 0),
    ('must-fail edits: 0 refused, 50 bad; ', 50),
    ('must-fail edits: 0 refused; ', 1),
    ('', 1),
)
ENDING = 'echo working\nprintf "%%s\\n" "%s"\nexit %d\n'
# what specs, proofs and sources declare: a word of several parts that a page names has to be one of these
DECLARED = r'\b(?:pub|fn|mod|ensures|const|struct|enum)\b(?: (?:record|data|fn|mod|const|struct|enum)\b)? (\w+)'
# how one part of the gate ends, with which status, and what that adds to what passed and failed
ENDS = (
    (PASSED, 0, (3, 0)),
    ('2 passed, 1 failed', 1, (2, 1)),
    ('2 passed, 1 failed', 0, (2, 1)),
    (PASSED, 1, (3, 1)),
    ('0 passed, 0 failed', 0, (0, 1)),
    ('0 passed, 0 failed', 1, (0, 1)),
    ('0 passed, 2 failed', 1, (0, 2)),
    ('', 0, (0, 1)),
    (PASSED + '\nand more', 0, (0, 1)),
    ('all 3 passed, 0 failed', 0, (0, 1)),
)


def parts(gate):
    """The tests that a gate runs, by the names in its text."""
    return re.search(r'for test in ([\w\s\\]*);', gate.read_text()).group(1).replace('\\', ' ').split()


def listed(root):
    """The crates of a repository's crates.txt."""
    lines = (line.partition('#')[0] for line in (root / 'crates.txt').read_text().split('\n'))
    return {line.partition(':')[0].split()[0] for line in lines if ':' in line}


def lost(root):
    """What is stored for a program that the kit does not run, crates without code, and code without a listed crate."""
    crates = root / 'crates'
    kinds = ('stdin', 'stdout', 'args', 'status', 'data')
    stored = {path.parent.name for name in kinds for path in crates.glob('*/' + name)}
    programs, libraries = ({path.parent.parent.name for path in crates.glob('*/src/%s.rt' % name)} for name in ('main', 'lib'))
    found = {'no program for what is stored': stored - programs, 'stored for no listed crate': stored - listed(root),
             'a folder of no listed crate': {path.name for path in crates.iterdir()} - listed(root),
             'a listed crate without code': listed(root) - programs - libraries}
    return {what: names for what, names in found.items() if names}


def check_stored(tally, folder):
    """Here nothing is lost; where a program goes, or is no longer listed, that is noticed."""
    tally.equal('what is stored', lost(kit.ROOT), {})
    root = folder / 'stored'
    (root / 'crates' / 'told' / 'src').mkdir(parents=True)
    code, crates = root / 'crates' / 'told' / 'src' / 'main.rt', root / 'crates.txt'
    (root / 'crates' / 'told' / 'stdout').write_text('')
    crates.write_text('told:\n')
    code.write_text('')
    tally.equal('a stored output with its program', lost(root), {})
    code.rename(code.with_name('lib.rt'))
    tally.equal('a stored output of a library', lost(root), {'no program for what is stored': {'told'}})
    code.with_name('lib.rt').unlink()
    without = {'no program for what is stored': {'told'}, 'a listed crate without code': {'told'}}
    tally.equal('a stored output whose program is gone', lost(root), without)
    code.write_text('')
    crates.write_text('# told:\n')
    unlisted = {'stored for no listed crate': {'told'}, 'a folder of no listed crate': {'told'}}
    tally.equal('a stored output that is no longer listed', lost(root), unlisted)


def is_test(path):
    """A host test can be run by itself, and ends with a status."""
    return re.search(r'^(if __name__ ==.*\n    )?sys\.exit\(', path.read_text(), re.MULTILINE) is not None


def check_parts(tally, gate):
    """No test is left out of the gate."""
    tests = {path.stem for path in (kit.ROOT / 'tests').glob('*.py') if is_test(path)}
    tally.equal('the gate runs every test', sorted(parts(gate)), sorted(tests))


def check_versions(tally):
    """Each version that has to be refused stands in the table with the words of its edit."""
    edits = {str(path.relative_to(kit.ROOT)): path.read_text().partition('\n')[0].removeprefix('# ')
             for path in kit.ROOT.glob('crates/*/must-fail/*.edit')}
    rows = re.findall(r'^\| (.*) \| `(.*\.edit)` \|$', (kit.ROOT / 'docs' / 'PROVED.md').read_text(), re.MULTILINE)
    tally.equal('the table of refused versions', sorted((path, words) for words, path in rows), sorted(edits.items()))


def tables(text):
    """The tables of a page: for each its heads, and its rows as lists of cells."""
    for block in re.findall(r'((?:^\|.*\|\n)+)', text, re.MULTILINE):
        heads, _, *rows = ([cell.strip() for cell in line[1:-1].split(' | ')] for line in block[:-1].split('\n'))
        yield heads, rows


def declares(path, name):
    """Whether a file, or one in a folder, has a theorem, or in code a function or a promise, of this name."""
    words = {'.antt': r'^ *pub %s :', '.rt': r'(?:\bfn|\bensures) %s\b'}
    files = path.rglob('*.*') if path.is_dir() else [path]
    return any(re.search(words[file.suffix] % re.escape(name), file.read_text(), re.MULTILINE)
               for file in files if file.suffix in words and file.is_file())


def named(text):
    """What the tables of theorems name, each with the files that are told beside it."""
    for heads, rows in tables(text):
        theorems = next((i for i, head in enumerate(heads) if head in ('Theorem', 'Contract or theorem')), None)
        for row in rows if theorems is not None else ():
            folder = re.fullmatch(r'File(?: in `(.*)`)?', heads[-1])[1]
            files = [file if '/' in file else '%s/%s' % (folder, file) for file in re.findall(r'`([^`]*)`', row[-1])]
            for name in re.findall(r'`([a-z]\w*)`', row[theorems]):
                yield name, files


def shown(text):
    """The words of code that a page shows: those that stand alone, and in a longer piece those that are no plain words."""
    for quoted in re.findall(r'`([^`\n]*)`', text):
        words = re.findall(r"(?<![\w.])[a-z]\w*(?:[-']\w+)*(?![\w.])", '' if '/' in quoted else quoted)
        yield from (word for word in words if word == quoted or re.search('[-_A-Z]', word))


def not_there(text, root):
    """What a page names and is not in a repository: theorems where its tables have them, words of code, and files."""
    theorems = {name for name, files in named(text) if not any(declares(root / file, name) for file in files)}
    code = '\n'.join(path.read_text() for part in ('specs', 'proofs', 'src') for path in root.glob('crates/*/%s/**/*.*' % part))
    words = set(re.findall(r"[^\W_]+(?:[-'][^\W_]+)*", code)) | set(re.findall(DECLARED, code, re.MULTILINE))
    words |= {path.name for path in root.glob('crates/*')}
    files = {path for path in re.findall(r'`((?:crates|tests|include|docs)/[^`]*)`', text) if not (root / path).exists()}
    return theorems, set(shown(text)) - words, files


def check_theorems(tally, folder):
    """What docs/PROVED.md names is there; and where something that a page names is not, that is noticed."""
    text = (kit.ROOT / 'docs' / 'PROVED.md').read_text()
    tally.equal('what is named and not there', not_there(text, kit.ROOT), (set(), set(), set()))
    tally.equal('many theorems are named', len(set(name for name, _ in named(text))) > 100, True)
    root = folder / 'page'
    for part in ('specs', 'proofs', 'src'):
        (root / 'crates' / 'told' / part).mkdir(parents=True)
    (root / 'crates' / 'told' / 'specs' / 'Words.antt').write_text('pub defined_of : Word\n')
    (root / 'crates' / 'told' / 'proofs' / 'Laws.antt').write_text('pub held : Law\nunheld : Law\nheld = only_used\n')
    (root / 'crates' / 'told' / 'src' / 'lib.rt').write_text('fn kept()\n    ensures short { true }\n')
    page = '| What | Theorem | File in `crates/told/proofs` |\n|---|---|---|\n| `defined_of` | `%s` | `%s` |\n\nAs %s.\n'
    for name, file, told, want in (
            ('held', 'Laws.antt', '`kept`', ((), (), ())),
            ('kept', 'crates/told/src/lib.rt', '`defined_of x`', ((), (), ())),
            ('short', 'crates/told/src', '`crates/told/src/lib.rt`', ((), (), ())),
            ('unheld', 'Laws.antt', 'told', (('unheld',), (), ())),
            ('held', 'Words.antt', 'told', (('held',), (), ())),
            ('held-so', 'Laws.antt', 'told', ((), ('held-so',), ())),
            ('lost', 'Lost.antt', 'told', (('lost',), ('lost',), ())),
            ('held', 'Laws.antt', '`definedOf x` of `told::kept`', ((), ('definedOf',), ())),
            ('held', 'Laws.antt', '`gone` and `gone x`', ((), ('gone',), ())),
            ('held', 'Laws.antt', '`defined_of` and `only_used`', ((), ('only_used',), ())),
            ('held', 'Laws.antt', '`crates/told/specs/Laws.antt`', ((), (), ('crates/told/specs/Laws.antt',)))):
        want = tuple(map(set, want))
        tally.equal('a page with %s, %s, %s' % (name, file, told), not_there(page % (name, file, told), root), want)


class Gate:
    """A copy of the gate in a folder where `rt` and the tests end as they are told."""

    def __init__(self, folder, gate):
        self.root, self.tools, self.tests = folder / 'gated', folder / 'tools', parts(gate)
        (self.root / '.ci').mkdir(parents=True)
        (self.root / 'tests').mkdir()
        self.tools.mkdir()
        shutil.copy(gate, self.root / '.ci' / 'run')
        for test in self.tests:
            self.ends(test, PASSED, 0)
        self.kit(PASSED, 0)
        # many gates are run: the tests in them are shell scripts, which start quickly
        self.tool('python3', 'exec sh "$@"\n')

    def tool(self, name, text):
        (self.tools / name).write_text('#!/bin/sh\n' + text)
        (self.tools / name).chmod(0o755)

    def kit(self, last, status, said=OK % REFUSED):
        """From now on `rt ci` says this before its last line, and ends so; with other words it fails."""
        self.tool('rt', '[ "$*" = ci ] || exit 9\n' + ENDING % ('%s\n%s' % (said, last), status))

    def ends(self, test, last, status):
        (self.root / 'tests' / (test + '.py')).write_text(ENDING % (last, status))

    def ended(self, command='.ci/run', **more):
        """The status and the last line of the gate."""
        environment = dict(os.environ, PATH='%s:%s' % (self.tools, os.environ['PATH']), **more.pop('variables', {}))
        status, shown, _ = edges.ended(['bash', command], env=environment, cwd=more.pop('cwd', self.root))
        return status, shown.split('\n')[-2]


def check_gate(tally, folder, gate):
    gate = Gate(folder, gate)
    others = 3 * len(gate.tests)
    whole = (0, '%d passed, 0 failed' % (others + 3))
    for last, status, (passed, failed) in ENDS:
        want = (1 if failed else 0, '%d passed, %d failed' % (others + passed, failed))
        gate.kit(last, status)
        tally.equal('rt ends with %r, %d' % (last, status), gate.ended(), want)
        gate.kit(PASSED, 0)
        gate.ends(gate.tests[-1], last, status)
        tally.equal('the last test ends with %r, %d' % (last, status), gate.ended(), want)
        gate.ends(gate.tests[-1], PASSED, 0)
    for told, failed in EDITS:
        gate.kit(PASSED, 0, OK % told)
        want = (1 if failed else 0, '%d passed, %d failed' % (others + 3, failed))
        tally.equal('rt says %r' % told, gate.ended(), want)
    for said, last, want in (('', PASSED, (1, '%d passed, 1 failed' % (others + 3))),
                             ('rt: FAILED: low/zero.edit', '2 passed, 1 failed', (1, '%d passed, 1 failed' % (others + 2)))):
        gate.kit(last, want[0] if 'FAILED' in said else 0, said)
        tally.equal('rt says %r' % said, gate.ended(), want)
    gate.kit(PASSED, 0)
    for test in gate.tests:
        gate.ends(test, '2 passed, 1 failed', 1)
        tally.equal(test + ' fails', gate.ended(), (1, '%d passed, 1 failed' % (others + 2)))
        gate.ends(test, PASSED, 0)
    (folder / 'decoy' / '.ci').mkdir(parents=True)
    (folder / 'decoy' / 'gated' / '.ci').mkdir(parents=True)
    astray = {'CDPATH': str(folder / 'decoy')}
    tally.equal('the gate with CDPATH', gate.ended(variables=astray), whole)
    tally.equal('the gate with CDPATH from above', gate.ended('gated/.ci/run', cwd=folder, variables=astray), whole)


def main(gate=kit.ROOT / '.ci' / 'run'):
    tally, gate = compare.Tally(), pathlib.Path(gate)
    check_parts(tally, gate)
    check_versions(tally)
    with tempfile.TemporaryDirectory() as name:
        check_theorems(tally, pathlib.Path(name))
        check_stored(tally, pathlib.Path(name))
        check_gate(tally, pathlib.Path(name), gate)
    return tally.end()


if __name__ == '__main__':
    sys.exit(main(*sys.argv[1:2]))
