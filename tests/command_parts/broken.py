"""What goes wrong around the command: full disks, closed streams, odd files, killed workers, no process, no memory, the interrupt key. No
answer is lost, no file either, and the exit status is 1 for a no alone."""

import io
import os
import signal
import socket
import stat
import subprocess
import sys
import time

import sakonite
from sakonite_command import files, plays, replies, workers
from sakonite_command.streams import output_lost

from .harness import COMMAND, TOOLS, check, command, environment, equal, instead, raises, says, shell
from .jobs import BARN, barn_text, barn_with, example, packed, put

NO_ROOM = 'File too large'


def run():
    put('yes.job', BARN)
    put('yes.txt', barn_text({}))
    put('no.job', example('bell-frame.job'))
    put('other.job', sorted_otherwise())
    disks()
    new_files()
    streams()
    names()
    folders()
    processes()
    memory()
    interrupts()
    scripts()
    bounded()


def sorted_otherwise():
    """The barn roof with two entries exchanged."""
    return BARN[:6] + BARN[10:14] + BARN[6:10] + BARN[14:224] + BARN[239:246] + BARN[224:239] + BARN[246:]


def bytes_of(name):
    with open(name, 'rb') as file:
        return file.read()


def full(*_, **__):
    raise OSError(28, 'No space left on device')


# ---- files

def disks():
    """Where nothing can be written, what was there stays, and nothing is left that stands in the way of the next try."""
    os.mkdir('disk')
    put('disk/old.job', example('bell-frame.job'))
    put('disk/other.job', sorted_otherwise())
    before = {name: bytes_of(f'disk/{name}') for name in os.listdir('disk')}
    for line, name in (('pack yes.txt disk/old.job', 'disk/old.job'), ('pack yes.txt disk/new.job', 'disk/new.job'),
                       ('unpack yes.job disk/new.txt', 'disk/new.txt'), ('sort disk/other.job', 'disk/other.job'),
                       ('sort disk/other.job disk/new.job', 'disk/new.job')):
        equal(f'{line}: no room', (2, b'', f'{name}: {NO_ROOM}\n'.encode()), shell(f'ulimit -f 0; "$@" {line}'))
        for what in 'replace', 'fsync', 'chmod':
            with instead(files.os, what, full):
                says(f'{line}: no {what}', 2, '', [f'{name}: No space left on device'], *line.split())
        equal(f'{line}: all as before', before, {name: bytes_of(f'disk/{name}') for name in os.listdir('disk')})
        says(f'{line}: the next try', 0, '', '', *line.split())
        for name in os.listdir('disk'):
            os.remove(f'disk/{name}')
        for name, data in before.items():
            put(f'disk/{name}', data)


def new_files():
    """Permissions, links, and what is no regular file."""
    old = os.umask(0o027)
    try:
        for line, name in ('pack yes.txt made.job', 'made.job'), ('unpack yes.job made.txt', 'made.txt'):
            says(line, 0, '', '', *line.split())
            equal(f'{line}: permissions', 0o640, stat.S_IMODE(os.stat(name).st_mode))
    finally:
        os.umask(old)
    os.chmod('made.job', 0o604)
    os.symlink('made.job', 'link.job')
    says('pack by a link', 0, '', '', 'pack', put('other.txt', barn_with('date')), 'link.job')
    equal('pack by a link: it stays', 'made.job', os.readlink('link.job'))
    equal('pack over a job file: the new one', (packed(barn_with('date')), 0o604),
          (bytes_of('made.job'), stat.S_IMODE(os.stat('made.job').st_mode)))
    os.symlink('made-later.job', 'ahead.job')
    says('pack by a link to nothing', 0, '', '', 'pack', 'yes.txt', 'ahead.job')
    equal('pack by a link to nothing: made', BARN, bytes_of('made-later.job'))
    os.symlink('loop.job', 'loop.job')
    says('pack by a link to itself', 2, '', ['loop.job: Too many levels of symbolic links'], 'pack', 'yes.txt', 'loop.job')
    says('pack to a device', 0, '', '', 'pack', 'yes.txt', os.devnull)
    equal('pack to a pipe', (0, BARN, b''), shell('"$@" pack yes.txt /dev/stdout | cat'))
    says('pack to a folder', 2, '', ['disk: Is a directory'], 'pack', 'yes.txt', 'disk')


# ---- streams

def streams():
    """Standard error that cannot be written is a fault; one that is closed is not."""
    if not os.path.exists('/dev/full'):
        return
    warned = put('warned.txt', barn_text({3: 'start 3'}))
    for line, status in (('verdict yes.job', 0), ('verdict no.job', 1), ('why no.job', 1), ('play no.job warned.txt', 1),
                         ('pack yes.txt full.job', 0), ('unpack yes.job', 0), ('tree yes.job', 0), ('sort yes.job', 0), ('--help', 0)):
        equal(f'{line}: nothing to tell', (status, b''), shell(f'"$@" {line} 2>/dev/full')[::2])
    for line in ('why none.job', 'play none.job', 'pack none.txt x.job', 'unpack none.job', 'tree none.job', 'sort none.job',
                 f'pack {warned} full.job', 'unpack other.job', 'tree other.job', 'sort yes.txt', 'verdict', 'nothing', '',
                 'verdict --csv yes.job no.job'):
        equal(f'{line}: messages to a full disk', 2, shell(f'"$@" {line} 2>/dev/full').status)
    equal('packed, though the warning could not be told', True, os.path.exists('full.job'))
    for line, status in (('--help', 2), ('--version', 2), ('verdict --help', 2), ('sort yes.job', 0), ('why no.job', 2), ('nothing', 2)):
        equal(f'{line}: output closed', status, shell(f'"$@" {line} >&-').status)
        equal(f'{line}: output to a full disk', status, shell(f'"$@" {line} >/dev/full').status)
        for closed in ('<&- >&-', '<&- >&- 2>&-', '>&- 2>&-', '>/dev/full 2>/dev/full'):
            equal(f'{line}: {closed}', status, shell(f'"$@" {line} {closed}').status)
    for closed in '<&-', '2>&-', '<&- 2>&-':
        equal(f'verdict: {closed}', (0, b'yes.job: yes\n', b''), shell(f'"$@" verdict yes.job {closed}'))
        equal(f'verdict -j: {closed}', (1, 3), tuple([got.status, len(got.out.splitlines())]
              if (got := shell(f'"$@" verdict -j 2 yes.job no.job {closed}')) else []))
    with instead(sys, 'stdout', sys.stdout), instead(sys, 'stderr', io.StringIO()):
        output_lost(OSError(28, 'No space left on device'))
        equal('output lost: told', 'standard output: No space left on device\n', sys.stderr.getvalue())
    if os.path.exists('/proc/self/mem'):
        unread = b'Input/output error\n'
        equal('standard input that cannot be read', (2, b'', b'standard input: ' + unread),
              shell('"$@" play yes.job >/dev/null </proc/self/mem'))
        equal('a script that cannot be read', (2, b'', b'/proc/self/mem: ' + unread), shell('"$@" play yes.job /proc/self/mem >/dev/null'))
    with instead(plays, 'LONGEST_TEXT', 1000):
        says('a line that is too long', 2, 'verdict yes\ntag 1 of 4, <getplace>: read\n> ', ['yes.job: a line of the script is too long'],
             'play', 'yes.job', put('script', 1001 * 'x'))


# ---- names and folders

def names():
    for line in 'why', 'play', 'unpack', 'tree', 'sort':
        says(f"{line} ''", 2, '', ["'': No such file or directory"], line, '')
    says("verdict ''", 2, ["'': error: No such file or directory"], '', 'verdict', '')
    says("pack '' x.job", 2, '', ["'': No such file or directory"], 'pack', '', 'x.job')
    for line in ['pack', 'yes.txt', ''], ['unpack', 'yes.job', '']:
        says(f'{line}', 2, '', ["'': No such file or directory"], *line)
    long = 300 * 'x'
    for line in ['why', long], ['pack', 'yes.txt', long], ['unpack', 'yes.job', long], ['sort', 'yes.job', long]:
        says(f'{line[0]}, a name that is too long', 2, '', [f'{long}: File name too long'], *line)
    for word in ('0', '00', '-1', 'x', '', '1.5', '1e3', '+1', '٣'):
        equal(f'--tries {word}', 2, command('why', 'no.job', f'--tries={word}').status)
    for word in ('1', '007', '3000000000', 5000 * '9'):
        equal(f'--tries {word[:12]}', 1, command('why', 'no.job', '--tries', word).status)
        equal(f'--levels {word[:12]}', 0, command('why', 'yes.job', '--levels', word).status)
        equal(f'-j {word[:12]}', 1, command('verdict', 'yes.job', 'no.job', '-j', word).status)


def folders():
    """In a folder only regular files are read; one within another, a thousand times, is no trouble."""
    os.makedirs('odd/within')
    os.mkfifo('odd/pipe.job')
    os.symlink('itself.job', 'odd/itself.job')
    os.symlink('nowhere', 'odd/nowhere.job')
    os.symlink('within', 'odd/within.job')
    put('odd/within/a.JOB', BARN)
    with socket.socket(socket.AF_UNIX) as named:
        named.bind('odd/socket.job')
        says('verdict of a folder with odd files', 2, [
            'odd/itself.job: error: Too many levels of symbolic links', 'odd/nowhere.job: error: No such file or directory',
            'odd/pipe.job: error: not a regular file', 'odd/socket.job: error: not a regular file', 'odd/within/a.JOB: yes',
            '5 files: 1 yes, 0 no, 0 refused, 4 error'], '', 'verdict', 'odd')
    here = os.getcwd()
    for _ in range(1200):
        os.mkdir('d')
        os.chdir('d')
    put('deep.job', BARN)
    deepest = os.getcwd()
    os.chdir(here)
    got = command('verdict', 'd')
    equal('verdict of a deep folder', (0, '1 file: 1 yes, 0 no, 0 refused'), (got.status, got.out.splitlines()[-1]))
    os.chdir(deepest)          # not every way to remove a folder gets so far
    os.remove('deep.job')
    while os.getcwd() != here:
        os.chdir('..')
        os.rmdir('d')


# ---- processes

def processes():
    many = [put(f'team/{number}.job', example('bell-frame.job') if number % 3 else BARN) for number in range(40)]
    alone = command('verdict', *many)
    with instead(workers.os, 'fork', full):
        equal('-j, no process can be started', alone, command('verdict', '-j', '4', *many))
    with instead(workers.socket, 'socketpair', full):
        equal('-j, no line to a process', alone, command('verdict', '-j', '4', *many))
    started, fork = [], os.fork

    def counted():
        started.append(0)
        return fork()

    for wanted, count, files_named in ((3000000000, 40, many), (1000, 3, many[:3]), (1000, workers.MOST_WORKERS, many + many)):
        started.clear()
        with instead(workers.os, 'fork', counted):
            equal(f'-j {wanted}: status', 1, command('verdict', '-j', str(wanted), *files_named).status)
        equal(f'-j {wanted}: no more processes than files', count, len(started))
    here = os.getpid()

    def killed(number):
        if os.getpid() != here and number in (5, 17):
            os.kill(os.getpid(), signal.SIGKILL)
        return number * number

    for count in 1, 3:
        equal(f'{count} workers, killed: every answer, in order', [number * number for number in range(30)],
              list(workers.by_workers(killed, list(range(30)), count)))
    ours, its = socket.socketpair()
    its.close()
    raises('a worker that has ended', EOFError, workers.received, ours, 4)
    ours.close()
    os.mkfifo('slow.job')
    with subprocess.Popen([sys.executable, COMMAND, 'verdict', '-j', '2', 'slow.job', *many], stdout=subprocess.PIPE,
                          stderr=subprocess.PIPE, env=environment()) as running:
        # whoever opens the pipe is a worker, and it is killed; then the command itself reads there
        first = open('slow.job', 'wb')
        children = open(f'/proc/{running.pid}/task/{running.pid}/children', encoding='ascii').read().split() \
            if os.path.exists(f'/proc/{running.pid}/task/{running.pid}/children') else []
        for child in children:
            os.kill(int(child), signal.SIGKILL)
        while any(alive(child) for child in children):
            time.sleep(0.01)
        if children:
            with open('slow.job', 'wb') as again:
                again.write(BARN)
        first.close()
        said = running.communicate()
    lines = said[0].decode().splitlines()
    equal('killed workers: status and messages', (1 if children else 2, b''), (running.returncode, said[1]))
    equal('killed workers: the lines of the others', alone.out.splitlines()[:-1], lines[1:-1])


def alive(process):
    try:
        with open(f'/proc/{process}/stat', encoding='ascii') as file:
            return file.read().rpartition(')')[2].split()[0] != 'Z'
    except OSError:
        return False


# ---- memory

def memory():
    def none_left(*_):
        raise MemoryError

    for name, line in ('verdict', 'why no.job'), ('check', 'play no.job'), ('verdict', 'why yes.job'):
        with instead(sakonite, name, none_left):
            says(f'{line}: no memory', 2, '', ['sakonite: out of memory'], *line.split())
    with instead(sakonite, 'verdict', none_left):
        says('verdict: no memory', 2, ['no.job: error: out of memory'], '', 'verdict', 'no.job')
    limits = ['ulimit -s 256', 'ulimit -s 1000', *(f'ulimit -v {size}' for size in range(22000, 42000, 4000))]
    limits = [limit for limit in limits if shell(f'{limit}; "$1" -c pass').status == 0]    # Python itself must have enough
    for line in 'why no.job', 'verdict no.job':
        whole = shell(f'"$@" {line}')
        for limit in limits:
            got = shell(f'{limit}; "$@" {line}')
            check(f'{line}: {limit}', got == whole or got.status == 2 and (got.err or b'out of memory' in got.out), got)


def interrupts():
    def interrupted(*_):
        raise KeyboardInterrupt

    with instead(sakonite, 'verdict', interrupted):
        says('interrupted', 130, '', '', 'why', 'yes.job')
    early = 'import sys; sys.argv[0] = sys.argv[1]; del sys.argv[1]; import builtins, runpy; kept = builtins.__import__\n' \
            'def importing(name, *more):\n    if name.startswith("sakonite_command"): raise {}\n    return kept(name, *more)\n' \
            'builtins.__import__ = importing; runpy.run_path(sys.argv[0])'
    for error, status, said in ('KeyboardInterrupt', 130, b''), ('MemoryError', 2, b'sakonite: out of memory\n'):
        got = subprocess.run([sys.executable, '-c', early.format(error), COMMAND, 'verdict', 'yes.job'], capture_output=True, check=False,
                             env={**environment(), 'PYTHONPATH': TOOLS})
        equal(f'{error} before the command begins', (status, b'', said), (got.returncode, got.stdout, got.stderr))


def scripts():
    """The program where memory is limited: whatever it gives is given on."""
    limit = 'ulimit -v 4000000; '
    for line in 'verdict yes.job', 'verdict no.job', 'why none.job', 'play yes.job yes.txt', '--help', 'nothing':
        equal(f'{line}: with a limit', shell(f'"$@" {line}'), shell(f'{limit}"$@" {line}'))


# ---- the search

def bounded():
    """The library is asked no more often than some times the number of tries; nor are words put together without end."""
    calls = []

    def counting(function):
        def call(*lent):
            calls.append(function.__name__)
            return function(*lent)
        return call

    text = barn_text({2: 'states 32', 5: 'default 31', 40: ' '.join(30 * ['getspec']), 41: ''})
    put('long.txt', text)
    for tries in 1, 5, 50:
        calls.clear()
        with instead(sakonite, 'verdict', counting(sakonite.verdict)), instead(sakonite, 'advice', counting(sakonite.advice)), \
                instead(sakonite, 'losing_reply', counting(sakonite.losing_reply)):
            equal(f'--tries {tries}: status', 1, command('why', 'long.txt', '--tries', str(tries)).status)
        play = 3 * 60          # of the play itself: advice, and a losing reply, for each tag
        check(f'--tries {tries}: no more calls than that', len(calls) <= 4 * tries + play, len(calls))
    offered = []
    push = replies.heapq.heappush
    with instead(replies.heapq, 'heappush', lambda heap, one: (offered.append(0), push(heap, one))):
        some, complete = replies.fillings(packed(text), 14, 4)
    check('few words put together', len(offered) <= 4 and not complete, len(offered))
