"""Holds tools/trace, which turns text into a trace and back, to the second reading of tests/trace_format.py.

Many traces, valid and damaged, go through the tool's functions; exit status, messages and files are tested by running
it as a program. The examples are held to what their script and the tool make of them.
"""
import importlib.util
import os
import pathlib
import random
import subprocess
import sys
import tempfile
from importlib.machinery import SourceFileLoader

import edges
import trace_format as form

ROOT = pathlib.Path(__file__).resolve().parent.parent
TOOL = ROOT / 'tools' / 'trace'
EXAMPLES = ROOT / 'examples'
LARGEST_TRACE = 16384
NAMES = {1: 'CUT', 2: 'FORM', 3: 'EDITION', 4: 'SIZE', 5: 'VOLUME', 6: 'PRIORITY'}
LONG = '9' * 5000

# a text that is refused, and what is said of it
BAD_TEXTS = (
    ('', 'line 1: the text ends without a header (edition size)'),
    ('# no more than this', 'line 2: the text ends without a header (edition size)'),
    ('\n\n', 'line 3: the text ends without a header (edition size)'),
    ('1', 'line 1: 1 number, but the header has 2 (edition size)'),
    ('\n1 10 1\n', 'line 2: 3 numbers, but the header has 2 (edition size)'),
    ('0 5', 'line 1: edition 0 is not 1 (refusal 3, EDITION)'),
    ('2 0', 'line 1: edition 2 is not 1 (refusal 3, EDITION)'),
    ('1 0', 'line 1: size 0 is not from 1 to 127 (refusal 4, SIZE)'),
    ('1 128', 'line 1: size 128 is not from 1 to 127 (refusal 4, SIZE)'),
    ('1 5\n65536 0 16384\n', 'line 2: volume 65536 is not from 0 to 65535 (refusal 5, VOLUME)'),
    ('1 5\n4294967296 0 1', 'line 2: volume 4294967296 is not from 0 to 65535 (refusal 5, VOLUME)'),
    ('1 5\n1 4294967296 1', 'line 2: block 4294967296 is not from 0 to 4294967295 (the format cannot spell it)'),
    ('1 5\n1 4294967296 16384', 'line 2: block 4294967296 is not from 0 to 4294967295 (the format cannot spell it)'),
    ('1 5\n1 %s 1' % LONG, 'line 2: block %s... is not from 0 to 4294967295 (the format cannot spell it)' % LONG[:40]),
    ('# a\n1 5\n\n1 1 1\n1 2 0\n1 3 1\n1 4 65536', 'line 7: priority 65536 is not from 0 to 16383 (refusal 6, PRIORITY)'),
    ('1 5\n1 1 16384 # high', 'line 2: priority 16384 is not from 0 to 16383 (refusal 6, PRIORITY)'),
    ('1 5\r\n1 1 0016384\r\n', 'line 2: priority 0016384 is not from 0 to 16383 (refusal 6, PRIORITY)'),
    ('1 5\n1 1', 'line 2: 2 numbers, but a read has 3 (volume block priority)'),
    ('1 5\n1 1 # 1', 'line 2: 2 numbers, but a read has 3 (volume block priority)'),
    ('1 5\n1', 'line 2: 1 number, but a read has 3 (volume block priority)'),
    ('1 5\n1 1 1 1', 'line 2: 4 numbers, but a read has 3 (volume block priority)'),
    ('1 5\n1 1 16384\n1 x 1', 'line 2: priority 16384 is not from 0 to 16383 (refusal 6, PRIORITY)'),
    ('1 5\n1,1,1', "line 2: '1,1,1' is not a number in decimal digits"),
    ('1 5\n1 %s 1' % ('x' * 60), "line 2: '%s... is not a number in decimal digits" % ('x' * 39)),
)
# words that are no numbers here, though other readers take many of them
BAD_WORDS = (b'+1', b'-1', b'1_0', b'0x1', b'1e1', b'1.0', b'a', b"'", b'\x00', b'1\x00', b'1;', b'--', b'\xb2',
             '\u00bd'.encode(), '\u0663'.encode(), '\uff11'.encode(), '\ufeff1'.encode())
# a text that is accepted, and its trace
GOOD_TEXTS = (
    ('1 5', '0105'),
    ('1 127\n65535 4294967295 16383\n0 0 1\n', '017fffff03ffffffff0fff7f000001'),
    ('1 3\n1 10 0\n', '0103010a00'),
    ('1 5\n1 10 0\n1 10 1\n0 0 000\n1 10 2', '0105010a00010a01000000010a02'),
    ('# first\n\n  1\t5  # header\n \t \n#\n1 10 1#read\n# 1 11 1\n1 10 2 # 3 # 4\n', '0105010a01010a02'),
    ('1 5\r\n1 10 1\r\n', '0105010a01'),
    ('1 5\r1 10 1\r', '0105010a01'),
    ('01 0005\n0000000000001 00010 %s1' % ('0' * 5000), '0105010a01'),
    ('1 5 # größer\n', '0105'),
)
# traces at the borders of what is refused, and some that are just accepted
BORDER_TRACES = ('', '01', '0100', '018001', '0103808004', '0103010a', '0103010a00', '0103010aff7f', '0103010a808001',
                 '0103010a8000', '018000', '80', '8080808080', '8080808010', '01030180808080', '010301ffffffff0f01',
                 '010301ffffffff1001', '010301ffffffffff', '0103018080808000', '0103010a0101')

outcomes = []


def check(told, want, have):
    outcomes.append(want == have)
    if want != have:
        print('%s\nwant %.300r\nhave %.300r' % (told, want, have))


def load():
    """The tool as a module; it has no suffix, and is to leave nothing in its folder."""
    sys.dont_write_bytecode = True
    loader = SourceFileLoader('trace_tool', str(TOOL))
    module = importlib.util.module_from_spec(importlib.util.spec_from_loader('trace_tool', loader))
    loader.exec_module(module)
    return module


tool = load()


def run(*arguments, given=b'', folder=None):
    """Runs the tool as a program: its exit status, what it writes, and what it says."""
    done = subprocess.run([str(TOOL), *map(str, arguments)], input=given, capture_output=True, cwd=folder)
    return done.returncode, done.stdout, done.stderr.decode()


def number(pick, largest):
    """Any number, with those near a change of length as likely as the many long ones."""
    value = pick.choice((pick.randrange(128), pick.randrange(20000), pick.randint(0, largest), largest))
    return min(value, largest)


def make_case(pick):
    """A text as the tool writes it, and its trace by the second reading."""
    size = pick.randint(1, form.LARGEST_SIZE)
    lines = [(1, size)]
    for _ in range(pick.choice((0, 1, 2, 5, 30))):
        priority = pick.choice((0, 1, number(pick, form.LARGEST_PRIORITY), number(pick, form.LARGEST_PRIORITY)))
        lines.append((number(pick, form.LARGEST_VOLUME), number(pick, form.LARGEST_NUMBER), priority))
    text = ''.join(' '.join(map(str, line)) + '\n' for line in lines)
    return text.encode(), b''.join(form.spell(value) for line in lines for value in line)


def damaged(pick, data):
    data = bytearray(data)
    for _ in range(pick.randint(1, 2)):
        kind = pick.randrange(5)
        if kind == 0:
            data = data[:pick.randrange(len(data) + 1)]
        elif kind == 1:
            data.insert(pick.randrange(len(data) + 1), pick.choice((0, 0x80, 0xFF, pick.randrange(256))))
        elif kind == 2:
            edition, size = pick.choice((0, 1, 1, 2, 300)), pick.choice((0, 1, 127, 128, 2 ** 32 - 1))
            data[:2] = form.spell(edition) + form.spell(size)
        elif data:
            data[pick.randrange(len(data))] = pick.choice((0, 0x7F, 0x80, 0xFF, pick.randrange(256)))
    return bytes(data)


def whole(data):
    """What the second reading makes of a whole trace: what the tool has to say, or None if it is accepted."""
    found = form.read_header(data)
    place = found[-1]
    while found[0] != 'refused' and place < len(data):
        found = form.read_record(data[place:])
        place += found[-1]
    return 'refused %d (%s) at %d' % (found[1], NAMES[found[1]], place) if found[0] == 'refused' else None


def turned(turn, given):
    """What one of the tool's functions gives, or what it says of a refusal."""
    try:
        return turn(given)
    except tool.Refused as refused:
        return str(refused)


def read_back(data):
    """The refusal, or None if the text that is read is written back as the same bytes."""
    text = turned(tool.text_of, data)
    if isinstance(text, str):
        return text
    back = turned(tool.trace_of, text)
    return None if back == data else back


def random_traces(pick):
    for index in range(2000):
        text, trace = make_case(pick)
        check('write %r' % text, trace, turned(tool.trace_of, text))
        check('read %s' % trace.hex(), text, turned(tool.text_of, trace))
        bad = damaged(pick, trace)
        check('damaged %s' % bad.hex(), whole(bad), read_back(bad))
        if index < 12:
            check('program, write %r' % text, (0, trace, ''), run('write', given=text))
            check('program, read %s' % trace.hex(), (0, text, ''), run('read', given=trace))
            said = whole(bad)
            want = (1, b'', said + '\n') if said else (0, turned(tool.text_of, bad), '')
            check('program, damaged %s' % bad.hex(), want, run('read', given=bad))


def border_traces():
    traces = [bytes.fromhex(text) for text in BORDER_TRACES]
    traces += [header for byte in range(256) for header in (bytes((byte, 5)), bytes((1, byte)))]
    largest = form.spell(1) + form.spell(127) + b''.join(map(form.spell, (65535, 2 ** 32 - 1, 16383))) * 2
    traces += [largest[:length] for length in range(len(largest) + 1)]
    for data in traces:
        check('border %s' % data.hex(), whole(data), read_back(data))


def bad_texts(folder):
    cases = [(text.encode(), message) for text, message in BAD_TEXTS]
    for word in BAD_WORDS:
        cases.append((b'1 5\n1 1 1\n1 %s 1\n' % word, 'line 3: %s is not a number in decimal digits' % ascii(word)[1:]))
    for index, (text, message) in enumerate(cases):
        check('bad text %r' % text, message, turned(tool.trace_of, text))
        if index < len(BAD_TEXTS):
            source, target = folder / 'bad.text', folder / 'bad.trace'
            source.write_bytes(text)
            check('program, bad text %r' % text, (1, b'', message + '\n'), run('write', source, target))
            check('no trace of %r' % text, False, target.exists())


def good_texts():
    for text, trace in GOOD_TEXTS:
        check('good text %r' % text, bytes.fromhex(trace), turned(tool.trace_of, text.encode()))
    check('any encoding', b'\x01\x05', turned(tool.trace_of, b'1 5 # gr\xf6\xdfer\n'))


def files(folder):
    """Names of files, and files that are not there or cannot be."""
    source, target, again = folder / 'good.text', folder / 'good.trace', folder / 'again.text'
    source.write_bytes(b'1 5\n1 10 1\n')
    check('to a file', (0, b'', ''), run('write', source, target))
    check('its bytes', '0105010a01', target.read_bytes().hex())
    check('back to a file', (0, b'', ''), run('read', target, again))
    check('the same text', source.read_bytes(), again.read_bytes())
    check('to standard output', (0, target.read_bytes(), ''), run('write', source))
    check('by -', (0, source.read_bytes(), ''), run('read', '-', '-', given=target.read_bytes()))
    check('from standard input to a file', (0, b'', ''), run('write', '-', again, given=b'1 7'))
    check('replaced', '0107', again.read_bytes().hex())
    check('refused', (1, b'', 'refused 4 (SIZE) at 1\n'), run('read', '-', again, given=b'\x01\x00'))
    check('left as it was', '0107', again.read_bytes().hex())
    for turn in ('write', 'read'):
        said = 'cannot read missing: No such file or directory\n'
        check('%s a missing file' % turn, (2, b'', said), run(turn, 'missing', 'made', folder=folder))
        check('nothing made', False, (folder / 'made').exists())
        check('%s a folder' % turn, (2, b'', 'cannot read .: Is a directory\n'), run(turn, '.', folder=folder))
    said = 'cannot write none/made: No such file or directory\n'
    check('no folder to write to', (2, b'', said), run('write', source, 'none/made', folder=folder))


def faults(folder):
    """What fails on the way in or out is told, and leaves nothing half done."""
    ours, theirs = edges.would_block(b'1 5\n1 10 1\n')
    with os.fdopen(ours) as stdin, os.fdopen(theirs):
        told = edges.ended([TOOL, 'write'], stdin=stdin)
    check('a pipe that would block', (2, '', 'cannot read standard input: Resource temporarily unavailable\n'), told)
    trace, text, link = folder / 'long.trace', folder / 'long.text', folder / 'link.text'
    trace.write_bytes(b'\x01\x05' + b'\x01\x0a\x01' * 1000)
    text.write_bytes(b'before')
    text.chmod(0o640)
    link.symlink_to(text.name)
    little = ['bash', '-c', 'ulimit -f 1; "$@"', 'bash', TOOL, 'read', trace]
    for target in (text, link, folder / 'new.text'):
        check('a full disk', (2, '', 'cannot write %s: File too large\n' % target), edges.ended([*little, target]))
    check('what is left', ({trace, text, link}, b'before'), (set(folder.iterdir()), text.read_bytes()))
    check('through a link', (0, b'', ''), run('read', trace, link))
    written = (link.is_symlink(), text.read_bytes(), text.stat().st_mode & 0o777)
    check('what is written', (True, run('read', trace)[1], 0o640), written)
    check('to a device', (2, b'', 'cannot write /dev/full: No space left on device\n'), run('read', trace, '/dev/full'))


def uses(folder):
    """Help, wrong use and a closed pipe."""
    status, told, said = run('--help')
    check('help', (0, ''), (status, said))
    for words in ('write [TEXT [TRACE]]', 'read [TRACE [TEXT]]', 'priority from 0 to 16383', 'without a hint', 'printf'):
        check('help says %s' % words, True, words in told.decode())
    check('help after a word', (0, told, ''), run('write', '--help'))
    for wrong in ((), ('turn',), ('write', 'a', 'b', 'c'), ('read', '--fast'), ('write', 'a', '-x')):
        check('wrong use %s' % (wrong,), (2, b'', tool.USAGE + '\n'), run(*wrong, folder=folder))
    long = folder / 'long.trace'
    long.write_bytes(b'\x01\x05' + b'\x01\x0a\x01' * 100000)
    closed = subprocess.run(['sh', '-c', '"$0" read "$1" | head -n 1', str(TOOL), str(long)], capture_output=True)
    check('a closed pipe', (b'1 5\n', b''), (closed.stdout, closed.stderr))
    for words in ('read "$1"', '--help'):
        closed = subprocess.run(['sh', '-c', '"$0" %s >&-' % words, str(TOOL), str(long)], capture_output=True)
        said = b'cannot write standard output: Bad file descriptor\n'
        check('no output for %s' % words, (2, b'', said), (closed.returncode, closed.stdout, closed.stderr))


def examples(folder):
    """Each trace is its text's, and the script makes the same files again."""
    made = subprocess.run([sys.executable, str(EXAMPLES / 'make.py'), str(folder)])
    check('the script', 0, made.returncode)
    names = {path.name for path in EXAMPLES.iterdir() if path.suffix in ('.text', '.trace')}
    check('the examples', names, {path.name for path in folder.iterdir()})
    for name in sorted(names):
        stored = (EXAMPLES / name).read_bytes()
        check('%s made again' % name, stored, (folder / name).read_bytes() if (folder / name).exists() else None)
        if name.endswith('.trace'):
            check('%s of its text' % name, (0, stored, ''), run('write', (EXAMPLES / name).with_suffix('.text')))
            check('%s by the second reading' % name, None, whole(stored))
            check('%s is small' % name, True, len(stored) <= LARGEST_TRACE)
    reads = [line.split() for line in (EXAMPLES / 'plain-lru-day.text').read_text().splitlines() if line[:1].isdigit()][1:]
    check('a day without hints', {'0'}, {priority for volume, block, priority in reads})


def main():
    random_traces(random.Random(20261115))
    border_traces()
    good_texts()
    for part in (bad_texts, files, faults, uses, examples):
        with tempfile.TemporaryDirectory() as folder:
            part(pathlib.Path(folder))
    passed = sum(outcomes)
    print('%d passed, %d failed' % (passed, len(outcomes) - passed))
    return 0 if passed == len(outcomes) else 1


if __name__ == '__main__':
    sys.exit(main())
