"""Makes what the repository's crates are built into, and runs its programs.

`rt` proves a crate before it builds it, and builds nothing anew where no source changed: a program comes to lie at
crates/NAME/out/NAME, a static library at crates/NAME/out/libNAME.a."""
import functools
import os
import pathlib
import subprocess

ROOT = pathlib.Path(__file__).resolve().parent.parent
BUILT = ROOT / 'out'  # what the tests compile for themselves


@functools.cache
def kit():
    """The folder of the Rattle kit, where the guide lies that `rt doc` names."""
    guide = subprocess.run(['rt', 'doc'], capture_output=True, text=True, check=True).stdout.strip()
    return pathlib.Path(guide).parent


def made(crate, file, *words):
    """A file in a crate's out/ that `rt` makes by these words; what it says is shown where it could not."""
    folder = ROOT / 'crates' / crate
    ran = subprocess.run(['rt', *words], cwd=folder, stdin=subprocess.DEVNULL, stdout=subprocess.PIPE,
                         stderr=subprocess.STDOUT)
    path = folder / 'out' / file
    if ran.returncode != 0 or not path.is_file():
        print(ran.stdout.decode(errors='replace'))
        raise SystemExit('`rt %s` in crates/%s did not make %s' % (' '.join(words), crate, file))
    return path


@functools.cache
def program(name):
    """The program of a crate, proved from the sources as they stand. To make it `rt` runs it too, on no input.

    A test that starts others names in MADE_BEFORE the programs that it made itself just before."""
    if name in os.environ.get('MADE_BEFORE', '').split():
        return ROOT / 'crates' / name / 'out' / name
    path = made(name, name, 'run')
    # rt leaves no stamp where the sources changed while it proved them
    if not path.with_name(name + '.stamp').is_file():
        raise SystemExit('crates/%s changed while it was proved' % name)
    return path


@functools.cache
def archive(name):
    """The static library of a crate, proved from the sources as they stand."""
    return made(name, 'lib%s.a' % name, 'lib')


def command(what, *before):
    """What starts the program of a crate, or the one at a full path.

    Libraries that come before those of the program are put there by the kit's loader."""
    path = str(what) if os.path.isabs(what) else str(program(what))
    if not before:
        return [path]
    libraries = kit() / 'toolchain' / 'lib'
    loader = [libraries / 'ld-linux-x86-64.so.2', '--library-path', libraries, '--preload', ':'.join(map(str, before))]
    return [str(word) for word in (*loader, path)]


def output(what, given):
    """What the program writes for what it is given on standard input; it has to end well and to complain of nothing."""
    ran = subprocess.run(command(what), input=given, capture_output=True, check=True)
    if ran.stderr:
        raise RuntimeError('%s says: %s' % (what, ran.stderr.decode()))
    return ran.stdout.decode()
