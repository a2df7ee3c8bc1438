"""Builds the C programs with the kit's clang, and counts the instructions that a program executes."""
import pathlib
import re
import shutil
import subprocess
import sys

HERE = pathlib.Path(__file__).resolve().parent
sys.path.append(str(HERE.parent / 'tests'))
import c_tools  # noqa: E402
import kit  # noqa: E402


def built(name, source, *options):
    """A program from one C file, linked with the C library that stands in the kit."""
    folder = kit.BUILT / 'bench'
    folder.mkdir(parents=True, exist_ok=True)
    unit = c_tools.compiled(HERE / source, folder / (name + '.o'), '-O3', *options)
    return c_tools.linked(folder / name, unit)


def can_count():
    """Whether instructions can be counted here."""
    return shutil.which('valgrind') is not None


def count(program, given):
    """The instructions of a program on what it is given, and its output.

    All programs are started by the kit's loader with its C library, so that all meet the same memmove."""
    started = [c_tools.LOADER, '--library-path', c_tools.LIBRARIES, program]
    command = ['valgrind', '--tool=callgrind', '--callgrind-out-file=/dev/null', *started]
    ran = subprocess.run(command, input=given, capture_output=True, check=True)
    return int(re.search(rb'Collected : (\d+)', ran.stderr).group(1)), ran.stdout.decode()
