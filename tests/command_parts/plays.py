"""`sakonite play`: each command and each message, from a script, from standard input and from a terminal."""

import os
import pty
import select
import signal
import subprocess
import sys
import time

import sakonite
from sakonite_command import plays

from .harness import COMMAND, check, command, environment, equal, says
from .jobs import BARN, barn_job, barn_text, barn_with, example, put, lost_by

REFUSED = {number: f'refused {number}: {text}' for number, text in sakonite.REFUSALS.items()}
LOST = 'lost; whatever you do, there are replies that lead outside the form'
VALUES = 'Values are not written here, only the elements that would hold them: species, not species(oak)'


def run():
    put('barn.job', BARN)
    put('bell.job', example('bell-frame.job'))
    scripts()
    losing()
    lose()
    helping()
    ends()
    not_played()
    terminal()


def plays_as(name, job, status, transcript):
    """A play from a script, whose lines stand behind '> ' in the whole of what is said; and the same lines from standard input."""
    lines = [line[2:] for line in transcript.splitlines() if line.startswith('> ')]
    put('script', ''.join(line + '\n' for line in lines))
    says(f'{name}, from a script', status, transcript, '', 'play', job, 'script')
    given = ''.join(line + '\n' for line in lines).encode()
    says(f'{name}, SCRIPT is standard input', status, transcript, '', 'play', job, '-', given=given)
    typed = ''.join('> ' if line.startswith('> ') else line + '\n' for line in transcript.splitlines())
    says(f'{name}, from standard input', status, typed, '', 'play', job, given=given)
    says(f'{name}, lines that end in CR LF', status, transcript, '', 'play', job, put('script', '\r\n'.join(lines + [''])))


def scripts():
    plays_as('the moves', 'barn.job', 0, f'''verdict yes
tag 1 of 4, <getplace>: read
> # a comment
tag 1 of 4, <getplace>: read
> #another
tag 1 of 4, <getplace>: read
> {''}
tag 1 of 4, <getplace>: read
>    {''}
tag 1 of 4, <getplace>: read
> fetch date
{REFUSED[23]}
tag 1 of 4, <getplace>: read
>   read  
tag 2 of 4, </getplace>: fetch
> fetch note
{REFUSED[19]}
tag 2 of 4, </getplace>: fetch
> fetch date(
'date(' is never closed; expected its ')' at the end of the line
tag 2 of 4, </getplace>: fetch
> fetch date)
')' without an open element
tag 2 of 4, </getplace>: fetch
> fetch (
'(' without a name before it
tag 2 of 4, </getplace>: fetch
> fetch dat
'dat' is not in the vocabulary; the nearest names are date, match, getmatch. {VALUES}
tag 2 of 4, </getplace>: fetch
> quitter
not understood: quitter; help lists the commands
tag 2 of 4, </getplace>: fetch
> READ
not understood: READ; help lists the commands
tag 2 of 4, </getplace>: fetch
> read it
read takes no argument: it
tag 2 of 4, </getplace>: fetch
> quit now please
quit takes no argument: now
tag 2 of 4, </getplace>: fetch
> read
tag 3 of 4, <getmatch>: {LOST}
> back
tag 2 of 4, </getplace>: fetch
> tree
  getplace
    .. ahead from tag 2 of 4
  getmatch
tag 2 of 4, </getplace>: fetch
> fetch
tag 3 of 4, <getmatch>: read
> go
tag 4 of 4, </getmatch>: fetch
> fetch   date()
finished, in deposit form
> read
{REFUSED[22]}
finished, in deposit form
> tree
  date
finished, in deposit form
> quit
  date
finished, in deposit form
''')
    long = 'note ' * 32768
    got = command('play', 'barn.job', put('script', f'go\nfetch {long}\nfetch {"note " * 2049}\n'))
    said = got.out.splitlines()
    equal('a reply that no history can have', 'a reply of more than 65535 tags cannot be put into a history', said[5])
    equal('a reply that is too long', REFUSED[18], said[8])


def losing():
    plays_as('losing', 'barn.job', 1, f'''verdict yes
tag 1 of 4, <getplace>: read
> losing
{REFUSED[23]}
tag 1 of 4, <getplace>: read
> back
there is no move to take back
tag 1 of 4, <getplace>: read
> go
tag 2 of 4, </getplace>: fetch
> losing
none: after a fetch the form can still be reached, whatever is replied
tag 2 of 4, </getplace>: fetch
> fetch date
tag 3 of 4, <getmatch>: read
> read
tag 4 of 4, </getmatch>: read
> losing
losing reply:
  date
after it: finished, outside the form
tag 4 of 4, </getmatch>: read
> lose
  tag 4 of 4, </getmatch>: fetch date
finished, outside the form
> losing
{REFUSED[22]}
finished, outside the form
> lose
finished, outside the form
> quit
  date
  date
finished, outside the form
''')


def lose():
    plays_as('lose', 'barn.job', 1, '''verdict yes
tag 1 of 4, <getplace>: read
> lose
  tag 1 of 4, <getplace>: read
  tag 2 of 4, </getplace>: read, since no reply loses
  tag 3 of 4, <getmatch>: read
  tag 4 of 4, </getmatch>: fetch date
finished, outside the form
> quit
  getplace
  date
finished, outside the form
''')
    plays_as('lose, an empty reply', 'bell.job', 1, f'''verdict no
tag 1 of 4, <getmatch>: {LOST}
> read
tag 2 of 4, </getmatch>: {LOST}
> losing
losing reply:
  date
after it: {LOST}
tag 2 of 4, </getmatch>: {LOST}
> read
tag 3 of 4, <getplace>: {LOST}
> read
tag 4 of 4, </getplace>: {LOST}
> losing
losing reply: empty
after it: finished, outside the form
tag 4 of 4, </getplace>: {LOST}
> lose
  tag 4 of 4, </getplace>: fetch, and the reply is empty
finished, outside the form
> quit
  getmatch
finished, outside the form
''')
    notes = ''.join(f"  {2 * depth * ' '}note\n" for depth in range(70))
    too_deep = f"losing reply:\n{notes}  {140 * ' '}date\nit cannot be played: it has more than 64 elements open together"
    for number, said in ((70, too_deep), (2058, REFUSED[25])):
        put('tower.txt', lost_by(number))
        plays_as(f'{number} notes', 'tower.txt', 0, f'''verdict yes
tag 1 of 2, <getmatch>: read
> read
tag 2 of 2, </getmatch>: read
> losing
{said}
tag 2 of 2, </getmatch>: read
> lose
  tag 2 of 2, </getmatch>: read, since the losing reply is too long or too deep to be played
finished, in deposit form
> quit
  getmatch
finished, in deposit form
''')


def helping():
    got = command('play', 'barn.job', put('script', 'help\nquit\n'))
    said = got.out.splitlines()
    for name, told in plays.HELP.items():
        first = told.split('\n')[0]
        check(f'help: {name}', any(line.split()[0] == name and line.endswith(first) for line in said[3:-6]), got.out)
    equal('help: lines', [15], sorted({len(line) - len(line[15:]) for line in said[3:-6]}))
    equal('help: the first and the last', ('read           leave the tag as it is', 'quit           stop here'), (said[3], said[-7]))


def ends():
    """Exit statuses, and ends of input without a quit."""
    outside = ['verdict yes', 'tag 1 of 4, <getplace>: read', '> ', '  .. ahead from tag 1 of 4', '  getplace', '  getmatch',
               'tag 1 of 4, <getplace>: read']
    says('nothing typed', 1, outside, '', 'play', 'barn.job')
    says('an empty script', 1, outside, '', 'play', 'barn.job', put('script', ''))
    said = ['verdict yes', 'tag 1 of 4, <getplace>: read', '> go', 'tag 2 of 4, </getplace>: fetch', '> fetch',
            'tag 3 of 4, <getmatch>: read', '> go', 'tag 4 of 4, </getmatch>: fetch', '> fetch date', 'finished, in deposit form', '> ',
            '  date', 'finished, in deposit form']
    put('script', 'go\nfetch\ngo\nfetch date')
    says('a script without a quit, and without a last line break', 0, said, '', 'play', 'barn.job', 'script')
    says('a job from standard input, with a script', 0, said, '', 'play', '-', 'script', given=BARN)
    says('a text', 0, said, '', 'play', put('barn.txt', barn_text({})), 'script')
    says('a record without a tag', 1, ['verdict no', 'finished, outside the form', '> ', 'finished, outside the form'], '', 'play', '-',
         put('script', ''), given=barn_with('').encode())


def not_played():
    for name, args, message in (
            ('no script beside a job from standard input', ['-'],
             'standard input: a job from standard input needs a SCRIPT: the moves cannot come from there too'),
            ('both from standard input', ['-', '-'], 'standard input: the job and the SCRIPT cannot both be standard input'),
            ('a script that is not there', ['barn.job', 'none'], 'none: No such file or directory'),
            ('a script that is a folder', ['barn.job', '.'], '.: Is a directory'),
            ('a job that is not there', ['none.job'], 'none.job: No such file or directory'),
            ('a refused file', [put('refused.job', barn_job({27: 3}))], f'refused.job: {REFUSED[13]}'),
            ('a text with a fault', [put('bad.txt', barn_text({3: 'start'}))], "bad.txt:3: 'start' needs one number")):
        says(f'play: {name}', 2, '', [message], 'play', *args, given=BARN)


def typed_at_terminal(keys, *args):
    """A play at a terminal; what is seen there, with a mark where something was typed."""
    child, terminal = pty.fork()
    if child == 0:
        os.execve(sys.executable, [sys.executable, COMMAND, *args], environment(TERM='dumb'))
    seen, until = b'', time.monotonic() + 20

    def more():
        """What else is seen; None once nobody has the other end, or it takes too long."""
        while time.monotonic() < until:
            if select.select([terminal], [], [], 0.1)[0]:
                try:
                    return os.read(terminal, 4096) or None
                except OSError:        # as Linux says it
                    return None
        os.kill(child, signal.SIGKILL)
        return None

    for key in keys:
        while not seen.endswith(b'> '):
            seen += more() or b'> '
        time.sleep(0.2)                # nobody types before the prompt is read, and Python would miss the key that stops it
        os.write(terminal, key)
        seen += b'|'
    while (part := more()) is not None:
        seen += part
    os.close(terminal)
    return os.waitstatus_to_exitcode(os.waitpid(child, 0)[1]), seen.decode().replace('\r', '')


def terminal():
    status, seen = typed_at_terminal([b'go\n', b'\x04'], 'play', 'barn.job')
    check('at a terminal, to its end', status == 1 and seen.startswith('verdict yes\ntag 1 of 4, <getplace>: read\n> |go\n'
          'tag 2 of 4, </getplace>: fetch\n> |') and seen.endswith('\n  getplace\n    .. ahead from tag 2 of 4\n  getmatch\n'
                                                                   'tag 2 of 4, </getplace>: fetch\n'), (status, seen))
    status, seen = typed_at_terminal([b'go\n', b'\x03'], 'play', 'barn.job')
    check('at a terminal, stopped by a key', status == 130 and 'Traceback' not in seen, (status, seen))
    status, seen = typed_at_terminal([b'go\n', b'quit\n'], 'play', 'barn.job', '-')
    equal('at a terminal, - does not repeat what is typed', 1, seen.count('go\n'))
    args, pipe = [sys.executable, COMMAND, 'play', 'barn.job'], subprocess.PIPE
    # How long it takes to begin, beside whatever else runs: a key that comes before that stops Python and not the command.
    begun = time.monotonic()
    subprocess.run(args, input=b'quit\n', stdout=pipe, stderr=pipe, env=environment(), check=False)
    begins_within = 0.3 + 3 * (time.monotonic() - begun)
    with subprocess.Popen(args, stdin=pipe, stdout=pipe, stderr=pipe, env=environment()) as running:
        running.stdin.write(b'go\n')
        running.stdin.flush()
        time.sleep(begins_within)
        running.send_signal(signal.SIGINT)
        said = running.communicate()
    check('stopped by a signal', running.returncode in (130, -signal.SIGINT) and b'Traceback' not in said[1], running.returncode, said)
