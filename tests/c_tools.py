"""Compiles C with the kit's clang, and links it with the C library that stands in the kit."""
import subprocess

import kit

TOOLS = kit.kit() / 'toolchain' / 'bin'
LIBRARIES = kit.kit() / 'toolchain' / 'lib'
LOADER = LIBRARIES / 'ld-linux-x86-64.so.2'
FLAGS = ['--target=x86_64-linux-gnu', '-fPIE', '-Wall', '-Wextra', '-Werror']


def clang(*options):
    """Runs the compiler."""
    subprocess.run([TOOLS / 'clang', *FLAGS, *options], check=True)


def compiled(source, unit, *options):
    """The unit made from one C file."""
    clang(*options, '-c', source, '-o', unit)
    return unit


def linked(program, *units):
    """A program from units and archives; it finds the kit's C library by itself."""
    start = [LIBRARIES / part for part in ('Scrt1.o', 'crti.o', 'crtbeginS.o')]
    rest = [LIBRARIES / part for part in ('libc.so.6', 'libc_nonshared.a', 'libgcc.a', 'crtendS.o', 'crtn.o')]
    linker = ['-pie', '-rpath', LIBRARIES, '-dynamic-linker', LOADER]
    subprocess.run([TOOLS / 'ld.lld', *linker, *start, *units, *rest, '-o', program], check=True)
    return program


def shared(library, unit):
    """A library that a loader can put before a program's own."""
    subprocess.run([TOOLS / 'ld.lld', '-shared', unit, LIBRARIES / 'libc.so.6', '-o', library], check=True)
    return library


def archived(archive, *units):
    """A static library of units."""
    archive.unlink(missing_ok=True)
    subprocess.run([TOOLS / 'llvm-ar', 'rcs', archive, *units], check=True)
    return archive


def links_alone(program, unit, archive):
    """Whether all of a static library links with one unit and nothing else."""
    return subprocess.run([TOOLS / 'ld.lld', '-pie', '-entry', 'memcpy', '--whole-archive', archive, unit, '-o', program]).returncode == 0
