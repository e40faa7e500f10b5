"""Counts checks, runs the command within this process or as a program of its own, and keeps the lines of tools/ that were executed."""

import collections
import contextlib
import difflib
import io
import os
import subprocess
import sys
import tempfile
import threading

ROOT = os.path.dirname(os.path.dirname(os.path.dirname(os.path.realpath(__file__))))
TOOLS = os.path.join(ROOT, 'tools')
COMMAND = os.path.join(TOOLS, 'sakonite')
PROGRAM = os.path.join(ROOT, 'target', 'bin', 'verdict')
LONGEST_SHOWN = 3000       # characters of what was expected and of what came

counts = collections.Counter()
Ran = collections.namedtuple('Ran', 'status out err')


# ---- checks

def check(name, good, *told):
    """One check; of a failed one what is told is printed."""
    counts['passed' if good else 'failed'] += 1
    if not good:
        print(f'failed: {name}', *told, sep='\n', flush=True)
    return good


def equal(name, expected, got):
    if expected != got and isinstance(expected, str) and isinstance(got, str) and '\n' in expected and '\n' in got:
        lines = difflib.unified_diff(expected.splitlines(), got.splitlines(), 'expected', 'got', n=1, lineterm='')
        return check(name, False, *(line[:LONGEST_SHOWN] for line in lines))
    return check(name, expected == got, f'expected: {str(expected)[:LONGEST_SHOWN]}', f'got: {str(got)[:LONGEST_SHOWN]}')


def raises(name, error, call, *args):
    """The error that the call raises, which is of this kind."""
    try:
        got = call(*args)
    except error as raised:
        check(name, type(raised) is error, f'expected: {error.__name__}', f'got: {raised!r}')
        return raised
    check(name, False, f'expected: {error.__name__}', f'got: {got!r}')
    return None


def finish():
    """The last line, and the exit status."""
    print(f"{counts['passed']} passed, {counts['failed']} failed")
    return 0 if counts['passed'] and not counts['failed'] else 1


# ---- the command

def environment(**more):
    return {**os.environ, 'PYTHONDONTWRITEBYTECODE': '1', 'COLUMNS': '80', **more}


def kept(ran):
    """What was said, looked through for what no command may say."""
    counts['runs'] += 1
    if b'Traceback' in ran.out + ran.err or b'Exception' in ran.out + ran.err:
        counts['tracebacks'] += 1
        print('a traceback:', ran.err.decode(errors='replace'), flush=True)
    return ran


def process(args, given, more):
    done = subprocess.run(args, input=given, capture_output=True, env=environment(**more), timeout=100, check=False)
    return kept(Ran(done.returncode, done.stdout, done.stderr))


def program(*args, given=b'', **more):
    """The command as a program of its own, with other variables in its environment; its answer in bytes."""
    return process([sys.executable, COMMAND, *args], given, more)


def shell(line, **more):
    """The same, started by a shell, in which "$@" stands for the command."""
    return process(['sh', '-c', line, 'sh', sys.executable, COMMAND], b'', more)


@contextlib.contextmanager
def instead(holder, name, value):
    """For a while another value there."""
    old = getattr(holder, name)
    setattr(holder, name, value)
    try:
        yield
    finally:
        setattr(holder, name, old)


def command(*args, given=b''):
    """The command within this process, where its lines are traced; its answer as text."""
    from sakonite_command.main import main
    given = io.TextIOWrapper(io.BytesIO(given), encoding='utf-8')
    with tempfile.TemporaryFile('w+', encoding='utf-8') as out, tempfile.TemporaryFile('w+', encoding='utf-8') as err:
        with instead(sys, 'stdin', given), instead(sys, 'stdout', out), instead(sys, 'stderr', err):
            try:
                status = main(list(args))
            except SystemExit as ended:        # as argparse ends
                status = ended.code
        said = []
        for stream in (out, err):
            stream.flush()
            stream.buffer.seek(0)
            said.append(stream.buffer.read())
    kept(Ran(status, *said))
    return Ran(status, *(part.decode('utf-8', 'surrogateescape') for part in said))


def says(name, status, out, err, *args, given=b''):
    """The command ends so, and this is the whole of what it says; lists are lines."""
    out, err = (part if isinstance(part, str) else ''.join(line + '\n' for line in part) for part in (out, err))
    got = command(*args, given=given)
    good = check(f'{name}: status', got.status == status, f'expected: {status}', f'got: {got.status}')
    good &= equal(f'{name}: standard output', out, got.out)
    return equal(f'{name}: standard error', err, got.err) and good


# ---- lines

executed = set()           # file and line


def follow(frame, event, _):
    """For sys.settrace: follows what is in tools/, and nothing else."""
    file = frame.f_code.co_filename
    if not file.startswith(TOOLS):
        return None

    def line(frame, event, _):
        if event == 'line':
            executed.add((file, frame.f_lineno))
        return line

    return line


@contextlib.contextmanager
def tracing():
    threading.settrace(follow)
    sys.settrace(follow)
    try:
        yield
    finally:
        sys.settrace(None)
        threading.settrace(None)


@contextlib.contextmanager
def untraced():
    """For what would take too long."""
    old = sys.gettrace()
    sys.settrace(None)
    try:
        yield
    finally:
        sys.settrace(old)
