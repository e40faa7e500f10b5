"""`sakonite verdict`: one file and many, tables, several at a time, and on a terminal."""

import csv
import io
import os
import pty
import random
import subprocess
import sys

import sakonite
from sakonite_command import pack

from .harness import TOOLS, check, command, environment, equal, instead, program, says, shell
from .jobs import BARN, barn_job, barn_text, barn_with, example, put


def run():
    put('yes.job', BARN)
    put('no.job', example('bell-frame.job'))
    put('refused.job', barn_job({27: 3}))
    put('short.job', BARN[:20])
    put('yes.txt', barn_text({}))
    put('fault.txt', barn_text({40: 'getplace( getmatch'}))
    put('letter.txt', 'Dear archive,\nwhere is the record?\n')
    one_file()
    many_files()
    folders()
    tables()
    at_a_time()
    asked_wrongly()
    terminal()
    streams()


REFUSED_11, REFUSED_12, REFUSED_13 = (f'refused {number}: {sakonite.REFUSALS[number]}' for number in (11, 12, 13))
NEVER_CLOSED = "line 40: 'getplace(' is never closed; expected its ')' at the end of line 41"


def one_file():
    for name, status, line in (
            ('yes.job', 0, 'yes'), ('no.job', 1, 'no'), ('yes.txt', 0, 'yes'), ('refused.job', 2, REFUSED_13), ('short.job', 2, REFUSED_11),
            ('letter.txt', 2, REFUSED_12), ('fault.txt', 2, f'error: {NEVER_CLOSED}'), ('none.job', 2, 'error: No such file or directory')):
        says(f'verdict {name}', status, [f'{name}: {line}'], '', 'verdict', name)
    says('verdict -', 0, ['standard input: yes'], '', 'verdict', '-', given=BARN)
    says('verdict - of a text', 0, ['standard input: yes'], '', 'verdict', '-', given=barn_text({}).encode())
    says('verdict - of nothing', 2, [f'standard input: {REFUSED_11}'], '', 'verdict', '-')
    missing = ('standard input: error: line 41: the text ends without form getmatch; if only the empty reply can come, it is: '
               'states 1, start 0, accepting 0')
    without = barn_text({number: '' for number in range(11, 18)}).encode()
    says('verdict of a text without a form', 2, [missing], '', 'verdict', '-', given=without)
    with instead(pack, 'LONGEST_TEXT', 1000):
        says('verdict of a text that is too long', 2, ['standard input: error: this is too long for a text'], '', 'verdict', '-',
             given=b'record\n' + b' ' * 994)


def many_files():
    for files, status, lines in (
            (['yes.job', 'yes.txt'], 0, ['yes.job: yes', 'yes.txt: yes', '2 files: 2 yes, 0 no, 0 refused']),
            (['yes.job', 'no.job'], 1, ['yes.job: yes', 'no.job: no', '2 files: 1 yes, 1 no, 0 refused']),
            (['no.job', 'refused.job', 'yes.job'], 2,
             ['no.job: no', f'refused.job: {REFUSED_13}', 'yes.job: yes', '3 files: 1 yes, 1 no, 1 refused']),
            (['none.job', 'no.job', '-'], 2,
             ['none.job: error: No such file or directory', 'no.job: no', 'standard input: yes',
              '3 files: 1 yes, 1 no, 0 refused, 1 error'])):
        says(f"verdict {' '.join(files)}", status, lines, '', 'verdict', *files, given=BARN)


def folders():
    for name in ('b/z.job', 'b/inner/a.job', 'b/inner/deep/c.job', 'b/a.job'):
        put(f'folder/{name}', BARN)
    put('folder/b/text.txt', barn_text({}))        # only what ends in .job
    os.mkdir('folder/folder.job')
    lines = [f'folder/b/{name}: yes' for name in ('a.job', 'inner/a.job', 'inner/deep/c.job', 'z.job')]
    says('verdict of a folder', 0, [*lines, '4 files: 4 yes, 0 no, 0 refused'], '', 'verdict', 'folder')
    says('verdict of a folder and a file', 1, ['no.job: no', *lines, '5 files: 4 yes, 1 no, 0 refused'], '', 'verdict', 'no.job', 'folder')
    os.mkdir('empty')
    none = 'empty: error: no file in this folder ends in .job; name a text itself'
    says('verdict of an empty folder', 2, [none, '1 file: 0 yes, 0 no, 0 refused, 1 error'], '', 'verdict', 'empty')
    says('verdict of a file and an empty folder', 2, ['yes.job: yes', none, '2 files: 1 yes, 0 no, 0 refused, 1 error'], '',
         'verdict', 'yes.job', 'empty')
    # root may look into every folder, so that one is closed here by other means
    scandir = os.scandir

    def closed(path):
        if path == 'folder/b/inner':
            raise PermissionError(13, 'Permission denied', path)
        return scandir(path)

    with instead(os, 'scandir', closed):
        lines = ['folder/b/a.job: yes', 'folder/b/inner: error: Permission denied', 'folder/b/z.job: yes',
                 '3 files: 2 yes, 0 no, 0 refused, 1 error']
        says('verdict of a folder that is closed', 2, lines, '', 'verdict', 'folder')
    if os.getuid():
        os.mkdir('closed', 0)
        says('verdict of a closed folder', 2, ['closed: error: Permission denied', '1 file: 0 yes, 0 no, 0 refused, 1 error'], '',
             'verdict', 'closed')
        os.chmod('closed', 0o700)


def tables():
    names = ['plain.job', 'a,b.job', 'a"b.job', 'line\nbreak.job', 'carriage\rreturn.job', "it's.job", ' blank .job', '#.job',
             'b\xe9.job']
    for name in names:
        put(name, BARN)
    got = command('verdict', '--csv', *names, 'no.job', 'refused.job', 'fault.txt', 'none.job')
    rows = list(csv.reader(io.StringIO(got.out, newline='')))
    equal('--csv: rows', [['file', 'verdict', 'number', 'reason'], *([name, 'yes', '', ''] for name in names), ['no.job', 'no', '', ''],
                          ['refused.job', 'refused', '13', sakonite.REFUSALS[13]], ['fault.txt', 'error', '', NEVER_CLOSED],
                          ['none.job', 'error', '', 'No such file or directory']], rows)
    equal('--csv: status and count', (2, '13 files: 9 yes, 1 no, 1 refused, 2 error\n'), (got.status, got.err))
    says('--csv: one file', 0, 'file,verdict,number,reason\nyes.job,yes,,\n', '', 'verdict', '--csv', 'yes.job')
    says('--csv after the file', 1, 'file,verdict,number,reason\nno.job,no,,\n', '', 'verdict', 'no.job', '--csv')


def at_a_time():
    """Some hundred files in the same order, however many are judged at a time."""
    rng = random.Random(2)
    kinds = [BARN, example('bell-frame.job'), barn_job({27: 3}), barn_with('getplace getplace').encode(), b'record\n(', b'']
    for number in range(300):
        put(f'many/{rng.randrange(1 << 30)}-{number}.job', rng.choice(kinds))
    alone = command('verdict', '-j', '1', 'many')
    equal('many files: lines', 301, len(alone.out.splitlines()))
    equal('many files: in order', sorted(alone.out.splitlines()[:-1]), alone.out.splitlines()[:-1])
    for count in ('3', '1000'):
        equal(f'-j {count}: the same', alone, command('verdict', '-j', count, 'many'))
    equal('-j3 --csv: the same', command('verdict', '--csv', 'many'), command('verdict', '-j3', '--csv', 'many'))


def asked_wrongly():
    usage = ['usage: sakonite verdict [-h] [-j N] [--csv] FILE [FILE ...]']
    for args, message in ((['-j', '0', 'yes.job'], "argument -j: expected a number of 1 or more, not '0'"),
                          (['-j', '-1', 'yes.job'], None), (['-j', 'x', 'yes.job'], "argument -j: expected a number of 1 or more, not 'x'"),
                          (['-j', 'yes.job'], "argument -j: expected a number of 1 or more, not 'yes.job'"),
                          ([], 'the following arguments are required: FILE'), (['--cvs', 'yes.job'], None)):
        got = command('verdict', *args)
        equal(f'verdict {args}: status', (2, ''), (got.status, got.out))
        if message:
            equal(f'verdict {args}: said', [*usage, f'sakonite verdict: error: {message}'], got.err.splitlines())
        check(f'verdict {args}: usage', got.err.startswith('usage: sakonite '), got.err)


def on_terminal(*args):
    """The command with a terminal for standard error, without a pause; what it says there, and on standard output."""
    ours, its = pty.openpty()
    hasty = ('import sys; from sakonite_command import main, verdicts; verdicts.PAUSE = -1; sys.exit(main.main(sys.argv[1:]))')
    with subprocess.Popen([sys.executable, '-c', hasty, *args], stdout=subprocess.PIPE, stderr=its,
                          env={**environment(), 'PYTHONPATH': TOOLS}) as running:
        os.close(its)
        out = running.stdout.read()
        shown = b''
        while True:
            try:
                part = os.read(ours, 4096)
            except OSError:        # as Linux says that nobody has the other end
                break
            if not part:
                break
            shown += part
    os.close(ours)
    return running.returncode, out.decode(), shown.decode()


def terminal():
    """How far it is, where someone looks; the line is gone at the end."""
    status, out, shown = on_terminal('verdict', 'many')
    check('progress on a terminal', '\r\x1b[Kjudged 17 of 300' in shown and shown.endswith('\r\x1b[K'), repr(shown[:300]))
    equal('progress nowhere else', (status, out.encode(), b''), program('verdict', 'many'))
    put('no.job', example('bell-frame.job'))
    status, out, shown = on_terminal('why', 'no.job', '--tries', '20')
    check('why: progress on a terminal', '\r\x1b[Ktried 1 of 20' in shown and shown.endswith('\r\x1b[K'), repr(shown))
    check('why: progress not on standard output', status == 1 and '\r' not in out, out)


def streams():
    """Output that nobody reads or that cannot be written, input that is closed, and names that are no text."""
    equal('output into a closed pipe', (0, b''), shell('"$@" verdict many | head -n 1 >first && test "$(wc -l <first)" -eq 1')[::2])
    got = shell('{ "$@" verdict many many many many; echo $? >&2; } | true')
    check('output into a closed pipe: status', got.err in (b'2\n', b'0\n'), got.err)
    for line in ('verdict yes.job', 'why yes.job', 'play yes.job yes.txt', 'unpack yes.job', 'tree yes.job', 'verdict many'):
        if os.path.exists('/dev/full'):
            equal(f'{line}: a full disk', (2, b'', b'standard output: No space left on device\n'), shell(f'"$@" {line} >/dev/full'))
        equal(f'{line}: output closed', (2, b'', b'standard output: Bad file descriptor\n'), shell(f'"$@" {line} >&-'))
    equal('pack, output closed', (0, b'', b''), shell('"$@" pack yes.txt packed.job >&-'))
    equal('verdict -, input closed', (2, f'standard input: {REFUSED_11}\n'.encode(), b''), shell('"$@" verdict - <&-'))
    equal('play, input closed', 1, shell('"$@" play yes.job <&-').status)
    equal('verdict, messages closed', (0, b'yes.job: yes\n', b''), shell('"$@" verdict yes.job 2>&-'))
    equal('why, messages closed', (2, b'', b''), shell('"$@" why none.job 2>&-'))
    name = b'\xff\xc3\xa9.job'
    put(os.fsdecode(name), BARN)
    for encoding, shown in (('utf-8:strict', name), ('ascii:strict', None), ('latin-1:strict', None)):
        for line in ('verdict', 'verdict --csv', 'why', 'tree'):
            got = program(*line.split(), name, PYTHONIOENCODING=encoding)
            equal(f'{line}, a name that is no text, {encoding}: status', (0, b''), (got.status, got.err))
            if shown and line != 'tree':
                check(f'{line}, a name that is no text, {encoding}: as it is', shown in got.out, got.out)
        got = program('verdict', '-', given='record\n\xe9\n'.encode(), PYTHONIOENCODING=encoding)
        equal(f'a word that {encoding} lacks', 2, got.status)
        equal(f'a line that is no text, {encoding}', (1, b''), program('play', 'yes.job', given=b'\xff\n', PYTHONIOENCODING=encoding)[::2])
    got = program('play', 'yes.job', given=b'\xff\xc3\xa9\n', PYTHONIOENCODING='utf-8:strict')
    check('a line that is no text comes back as it is', b'not understood: \xff\xc3\xa9; help' in got.out, got.out)
