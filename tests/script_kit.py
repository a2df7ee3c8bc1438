"""The script ./sheet with a kit and programs that fail, and with sources that change.

    python3 tests/script_kit.py [SCRIPT [CHECK ...]]

With the names of checks only those are done.
A copy of the script is put in a folder of its own, with an `rt` and a program that do as each case says; at the end
the real kit proves changed copies of the sheet program."""
import os
import pathlib
import re
import shutil
import subprocess
import sys
import tempfile

import compare
import edges
import kit

# what the script needs, but for `rt`, and what stands in for that and for the program
TOOLS = ('bash', 'cat', 'awk', 'readlink', 'mkdir', 'rm', 'flock', 'dirname', 'env', 'sleep', 'wc', 'cp', 'cksum')
UNCHANGED = '''rt: nothing has changed since the last proved build, by out/sheet.stamp, so nothing is checked now
rt: running out/sheet; to give it other input, run that file yourself
'''
# what the kit says of a crate that it proves, and of one that it does not
PROVED = '''rt: chose --jobs 2 for {0}
fn {0}::first: proved
crate {0}: modules loaded=0 checked=40
logic=proved functions=1 incremental=trusted
'''
NOT_PROVED = '''rt: chose --jobs 2 for sheet
./proofs/main/Answers.antt:7:1: error: a hole is left
fn sheet::main: not proved
fn sheet::told: no proof: expected answers in ./proofs/told/Answers.antt
fn sheet::main+run: no proof: it calls `sheet::main`, which is not proved
crate sheet: modules loaded=30 checked=10
logic=not-proved
rattle build: nothing was built, since only a proved crate is built
'''
# As the real kit it makes the program anew where that is not the one of its stamp, runs it, and reads what stands before
# it; what it says goes to standard error.
KIT = '''#!/usr/bin/env bash
cat >/dev/null
echo refused 1 at 0
exec >&2
[ -e out/sheet ] && [ -e out/sheet.stamp ] && [ "$(cksum <out/sheet)" = "$(cat out/sheet.stamp)" ] && stamped=' stamped'
echo "$* in $PWD$stamped" >>"$LOG"
[ "$stamped" ] || { cp made out/sheet && cksum <out/sheet >out/sheet.stamp; }
%s
'''
SAID = 'sheet: no sheet: the program failed\n'
STAMPED, ANEW = 'run stamped\n', 'run\n'
PROVING = 'sheet: proving and building the program, 3 crates; this takes a few minutes\n'
UNPROVED = 'sheet: no program that is proved from the sources as they stand:'

PROOF = 900  # seconds: as long as the real kit may take for the program
# in the real program: other words for an input that fails, what is then said, and a text that is too short to be proved
OTHER_WORDS = '"standard input"', '"the input"'
OTHER_SAID = 'sheet: the input: Is a directory'
LESS_ROOM = 'LONGEST_SHEET: usize = 32768', 'LONGEST_SHEET: usize = 32767'


def script_file(path, text):
    path.write_text(text)
    path.chmod(0o755)


class Desk:
    """A folder with the script, a kit and a program, which stand in for the real ones."""

    def __init__(self, folder, script):
        self.root, self.tools, self.log = folder / 'root', folder / 'tools', folder / 'log'
        self.crate = self.root / 'crates' / 'sheet'
        self.program, self.stamp = self.crate / 'out' / 'sheet', self.crate / 'out' / 'sheet.stamp'
        for place in (self.tools, self.program.parent):
            place.mkdir(parents=True)
        for tool in TOOLS:
            (self.tools / tool).symlink_to(shutil.which(tool))
        shutil.copy(script, self.root / 'sheet')
        crates = '# NAME: built on\nlow:\nmiddle: low # and nothing else\nsheet: middle low io\nother staticlib: low\n'
        (self.root / 'crates.txt').write_text(crates)
        self.kit('')
        self.has('printf %s "$SHEET"')

    def kit(self, does, says=UNCHANGED, status=0):
        """From now on `rt` does this, says this and ends with this status."""
        script_file(self.tools / 'rt', KIT % '%s\ncat <<"SAYS"\n%sSAYS\nexit %d' % (does, says, status))

    def has(self, program):
        """From now on this program lies there, and is what the kit makes of the sources."""
        script_file(self.crate / 'made', '#!/usr/bin/env bash\n' + program + '\n')
        shutil.copy(self.crate / 'made', self.program)
        self.stamp.write_bytes(subprocess.run(['cksum'], input=self.program.read_bytes(), stdout=subprocess.PIPE).stdout)

    def replaced(self, later):
        """The program is another, so many seconds younger than the stamp; it tells if it is run."""
        script_file(self.program, '#!/usr/bin/env bash\necho ran >>"$LOG"; echo another\n')
        date = self.stamp.stat().st_mtime + later
        os.utime(self.program, (date, date))

    def ended(self, redirections='', **more):
        environment = {'PATH': str(self.tools), 'LOG': str(self.log), 'SHEET': edges.WORKED_SHEET}
        self.log.write_text('')
        self.log.chmod(0o666)
        return edges.ended([self.root / 'sheet'], redirections, given=edges.WORKED, env=environment, **more)

    def asked(self):
        """What the kit was asked in the crate: to run, with a stamp that it could go by or anew; and whether another program ran."""
        return self.log.read_text().replace(' in %s' % self.crate, '')


def check_programs(tally, desk):
    """Programs that end well are believed, and no others."""
    long = 'accesses 1 %s\\n' + '%% \\ %d' * 3000
    for what, program, want in (
            ('a sheet', 'printf %s "$SHEET"', (0, edges.WORKED_SHEET, '')),
            ('how long the input is', 'wc -c', (0, '%d\n' % len(edges.WORKED), '')),
            ('a refusal', 'echo refused 1 at 0', (1, 'refused 1 at 0\n', '')),
            ('a long sheet', "printf '%s\n' '" + long + "'", (0, long + '\n', '')),
            ('nothing', ':', (2, '', 'sheet: no sheet: the program ended without one\n')),
            ('an empty line left out', 'printf %s accesses', (2, '', 'sheet: no sheet: the program ended without one\n')),
            ('a sheet and a complaint', 'printf %s "$SHEET"; echo why >&2', (2, '', 'why\n' + SAID)),
            ('a complaint alone', 'echo why >&2', (2, '', 'why\n' + SAID)),
            ('a sheet and a status', 'printf %s "$SHEET"; exit 3', (2, '', 'sheet: no sheet: the program ended with status 3\n')),
            ('half a sheet', 'echo accesses; kill -9 $$', (2, '', 'sheet: no sheet: the program ended with status 137\n'))):
        desk.has(program)
        tally.equal('a program that prints ' + what, desk.ended(), want)
    desk.has('printf %s "$SHEET"; echo why >&2')
    tally.equal('a complaint that is lost', desk.ended('2>/dev/full'), (2, '', ''))
    tally.equal('a complaint that nobody hears', desk.ended('2>&-'), (2, '', ''))


def check_staleness(tally, desk):
    """What lies there is run only after a check that holds for it."""
    desk.has('printf %s "$SHEET"')
    tally.equal('a program that was checked', (desk.ended(), desk.asked()), ((0, edges.WORKED_SHEET, ''), STAMPED))
    for what, later in (('put there later', 1), ('put back with its date', -1)):
        desk.has('printf %s "$SHEET"')
        desk.replaced(later)
        tally.equal('a program that was ' + what, (desk.ended(), desk.asked()), ((0, edges.WORKED_SHEET, ''), ANEW))
    desk.has('printf %s "$SHEET"; echo ran >>"$LOG"')
    desk.kit('', NOT_PROVED, 1)
    said = UNPROVED + ''.join('\n' + line for line in NOT_PROVED.split('\n')[1:4]) + '\n'
    tally.equal('a check that failed', (desk.ended(), desk.asked()), ((2, '', said), STAMPED))
    said = 'rt: the library low did not build, so nothing above it was checked\n'
    desk.kit('', said, 1)
    tally.equal('a crate below that failed', (desk.ended(), desk.asked()), ((2, '', UNPROVED + '\n' + said), STAMPED))
    desk.kit('kill -9 $$')
    tally.equal('a check that was ended', (desk.ended()[:2], desk.asked()), ((2, ''), STAMPED))
    desk.kit('echo "the kit is broken"; exit 2')
    tally.equal('a kit that fails', (desk.ended(), desk.asked()), ((2, '', UNPROVED + '\nthe kit is broken\n'), STAMPED))
    # the real kit leaves no stamp then
    desk.kit('rm out/sheet.stamp')
    said = UNPROVED + ' they changed while it was proved\n'
    tally.equal('sources that change meanwhile', (desk.ended(), desk.asked()), ((2, '', said), STAMPED))
    desk.kit('rm out/sheet')
    said = 'sheet: the program is not where it was built: %s\n' % desk.program
    tally.equal('no program', (desk.ended(), desk.asked()), ((2, '', said), ANEW))
    desk.kit('')
    desk.has('echo accesses')
    for gone in ((desk.program,), (desk.stamp,), (desk.program, desk.stamp)):
        for path in gone:
            path.unlink()
        tally.equal('a program that is made', (desk.ended(), desk.asked()), ((0, 'accesses\n', ''), ANEW))
    (desk.tools / 'rt').unlink()
    tally.equal('no kit', desk.ended(), (2, '', 'sheet: the Rattle kit is needed: put its rt on the path\n'))


def timed(ended):
    """How the script ended, with how long each crate took apart from what it said."""
    status, shown, said = ended
    taken = [int(seconds) for seconds in re.findall(r'proved \((\d+) s\)$', said, re.MULTILINE)]
    return status, shown, re.sub(r'(?m) \(\d+ s\)$', '', said), taken


def check_progress(tally, desk):
    """Each crate is told as it is proved; of those that were proved before the kit says nothing."""
    desk.has('printf %s "$SHEET"')
    desk.kit('', PROVED.format('low') + PROVED.format('middle') + UNCHANGED)
    told = 'sheet: 1 of 3: low proved\nsheet: 2 of 3: middle proved\n'
    tally.equal('crates that are proved', timed(desk.ended())[:3], (0, edges.WORKED_SHEET, told))
    proof = 'sleep 6\ncat <<"SAYS"\n%sSAYS\n'
    desk.kit(proof % PROVED.format('middle') + proof % PROVED.format('sheet'))
    told = PROVING + 'sheet: 2 of 3: middle proved\nsheet: 3 of 3: sheet proved\n'
    *ended, taken = timed(desk.ended())
    tally.equal('a long check', tuple(ended), (0, edges.WORKED_SHEET, told))
    tally.equal('how long it took', [6 <= seconds <= 9 for seconds in taken], [True, True])
    for waits in ('waiting for another rt to finish in /somewhere', 'low: another copy is building this library; waiting for it'):
        desk.kit('echo "rt: %s"; sleep 6' % waits)
        tally.equal('a kit that waits', desk.ended(), (0, edges.WORKED_SHEET, 'sheet: %s\n' % waits))
        desk.kit('echo "rt: %s"' % waits)
        tally.equal('a kit that waits a moment', desk.ended(), (0, edges.WORKED_SHEET, ''))


def check_together(tally, desk):
    """Two calls at once: one proves after the other."""
    # long enough for the other call to say that it waits, and never so silent that this one says that it takes long
    desk.kit('echo began >>"$LOG"; for _ in 1 2 3; do sleep 1.3; echo; done; echo over >>"$LOG"')
    environment = {'PATH': str(desk.tools), 'LOG': str(desk.log), 'SHEET': edges.WORKED_SHEET}
    desk.log.write_text('')
    calls = [subprocess.Popen([desk.root / 'sheet'], env=environment, stdin=subprocess.DEVNULL, stdout=subprocess.PIPE,
                              stderr=subprocess.PIPE, text=True) for _ in range(2)]
    ended = sorted((call.communicate(timeout=60), call.returncode) for call in calls)
    waited = 'sheet: another call is proving the program; waiting for it\n'
    tally.equal('two calls', ended, [((edges.WORKED_SHEET, said), 0) for said in ('', waited)])
    steps = [line for line in desk.log.read_text().split('\n') if line in ('began', 'over')]
    tally.equal('one check after the other', steps, ['began', 'over'] * 2)


def check_unwritable(tally, desk):
    """Where nothing can be written down, nothing is believed of what lies there."""
    out = desk.program.parent
    somebody = {'user': 65534, 'group': 65534} if os.geteuid() == 0 else {}
    for place in (desk.root.parent, desk.root, desk.crate, out):
        place.chmod(0o777)
    tally.equal('a folder that can be written', desk.ended(**somebody), (0, edges.WORKED_SHEET, ''))
    said = 'sheet: nothing can be proved here: %s cannot be written\n' % out
    out.chmod(0o555)
    tally.equal('a folder that cannot be written', desk.ended(**somebody), (2, '', said))
    out.chmod(0o777)
    shutil.rmtree(out)
    desk.crate.chmod(0o555)
    tally.equal('a folder that cannot be made', desk.ended(**somebody), (2, '', said))


def linked(one, other):
    """A second name for a file of a library, or a copy: the kit removes such a file before it makes it anew."""
    try:
        os.link(one, other)
    except OSError:
        shutil.copy2(one, other)


def copied(root):
    """The sources, with what is proved of the crates below the program, and the program as it was made of them."""
    made = kit.program('sheet').parent
    shutil.copytree(kit.ROOT / 'crates', root / 'crates', ignore=shutil.ignore_patterns('out'))
    shutil.copy(kit.ROOT / 'crates.txt', root)
    for crate in root.glob('crates/*'):
        library = kit.ROOT / 'crates' / crate.name / 'out' / 'rlib'
        if library.is_dir():
            shutil.copytree(library, crate / 'out' / 'rlib', copy_function=linked)
    out = root / 'crates' / 'sheet' / 'out'
    out.mkdir(exist_ok=True)
    for name in ('sheet', 'sheet.stamp'):
        shutil.copy2(made / name, out)
    return out / 'sheet'


def changed(text, old, new):
    if text.count(old) != 1:
        raise ValueError('%s is not once in the program' % old)
    return text.replace(old, new)


def check_sources(tally, desk):
    """The real kit, on a copy of the sources that changes, with what is proved of the crates below."""
    root = desk.root.parent / 'sources'
    program, source, script = copied(root), root / 'crates' / 'sheet' / 'src' / 'main.rt', [root / 'sheet']
    shutil.copy(desk.root / 'sheet', root)
    text = source.read_text()
    tally.equal('sources as they were', edges.ended(script, given=edges.WORKED), (0, edges.WORKED_SHEET, ''))
    script_file(program, '#!/usr/bin/env bash\necho another\n')
    status, shown, said = edges.ended(script, given=edges.WORKED, timeout=PROOF)
    tally.equal('another program', (status, shown, last_crate(said)), (0, edges.WORKED_SHEET, 'sheet'))
    source.write_text(changed(text, *OTHER_WORDS))
    status, shown, said = edges.ended(script, '</', timeout=PROOF)
    told = said.removesuffix(SAID)
    tally.equal('changed sources', (status, shown, last_crate(told), told.split('\n')[-2]), (2, '', 'sheet', OTHER_SAID))
    source.write_text(changed(text, *LESS_ROOM))
    status, shown, said = edges.ended(script, given=edges.WORKED, timeout=PROOF)
    told = (status, shown, UNPROVED in said, re.search('^fn sheet::print_sheet: no', said, re.MULTILINE) is not None)
    tally.equal('sources that are not proved', told, (2, '', True, True))


def last_crate(said):
    """The crate that was told to be proved as the last of all, or None."""
    return next((name for one, all_of_them, name in re.findall(r'^sheet: (\d+) of (\d+): (\w+) proved \(', said, re.MULTILINE)
                 if one == all_of_them), None)


CHECKS = {'programs': check_programs, 'staleness': check_staleness, 'progress': check_progress,
          'together': check_together, 'unwritable': check_unwritable, 'sources': check_sources}


def main(script=kit.ROOT / 'sheet', *names):
    tally = compare.Tally()
    for name in names or CHECKS:
        with tempfile.TemporaryDirectory() as folder:
            CHECKS[name](tally, Desk(pathlib.Path(folder), script))
    return tally.end()


if __name__ == '__main__':
    sys.exit(main(*sys.argv[1:]))
