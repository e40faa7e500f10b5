"""The command line itself: --help, --version, and usage errors."""

import os
import re
import shutil
import subprocess
import sys

import sakonite

from .harness import COMMAND, check, command, equal, environment, program, says
from .jobs import BARN, put

OPTIONS = {
    'verdict': ['FILE', '-j N', '--csv'], 'why': ['FILE', '--levels N', '--tries N'], 'play': ['FILE', 'SCRIPT'], 'pack': ['TEXT', 'JOB'],
    'unpack': ['JOB', 'TEXT'], 'tree': ['FILE'], 'sort': ['JOB', 'NEW'],
}


def run():
    put('barn.job', BARN)
    got = command('--help')
    equal('--help: status', (0, ''), (got.status, got.err))
    equal('--help: every command', list(OPTIONS), re.findall(r'^    ([a-z]+) +[a-z]', got.out, re.M))
    check('--help: exit statuses', 'Exit status: 0 for yes' in ' '.join(got.out.split()), got.out)
    equal('-h: the same', got, command('-h'))
    for name, options in OPTIONS.items():
        got = command(name, '--help')
        equal(f'{name} --help: status', (0, ''), (got.status, got.err))
        check(f'{name} --help: usage', got.out.startswith(f'usage: sakonite {name} [-h]'), got.out)
        listed = re.findall(r'^  (-\w N|--?\w+(?: N)?|[A-Z]+)\b', got.out, re.M)
        equal(f'{name} --help: every option', sorted(options), sorted(set(listed) - {'-h'}))
    says('--version', 0, f'sakonite {sakonite.VERSION}\n', '', '--version')
    equal('--version, as a program', (0, f'sakonite {sakonite.VERSION}\n'.encode(), b''), program('--version'))
    wrong()
    installed()


def wrong():
    for line in ('', 'nothing', 'why', 'why barn.job barn.job', 'why barn.job --levels 0', 'why barn.job --tries x', 'why --level', 'play',
                 'play barn.job a b', 'pack barn.job', 'unpack', 'tree', 'sort', 'verdict barn.job --none', '--none'):
        args = line.split()
        got = command(*args)
        equal(f'{args}: status', (2, ''), (got.status, got.out))
        check(f'{args}: usage', got.err.startswith('usage: sakonite ') and 'error: ' in got.err.splitlines()[-1], got.err)
    says('a file that begins with a dash', 2, ['-none.job: error: No such file or directory'], '', 'verdict', '--', '-none.job')


def installed():
    """From another folder, by a link, and where its parts are in lib/sakonite beside it."""
    os.makedirs('place/bin')
    os.makedirs('place/lib/sakonite')
    shutil.copy(COMMAND, 'place/bin/sakonite')
    shutil.copy(os.path.join(os.path.dirname(COMMAND), 'sakonite.py'), 'place/lib/sakonite')
    shutil.copytree(os.path.join(os.path.dirname(COMMAND), 'sakonite_command'), 'place/lib/sakonite/sakonite_command',
                    ignore=shutil.ignore_patterns('__pycache__'))
    shutil.copy(sakonite._places()[0], f'place/lib/{sakonite.LIBRARY}')
    os.symlink(COMMAND, 'link')
    variables = {key: value for key, value in environment().items() if key != 'LIBSAKONITE'}
    for name, path in (('installed', 'place/bin/sakonite'), ('by a link', 'link'), ('as it is', COMMAND)):
        done = subprocess.run([sys.executable, path, 'verdict', 'barn.job'], capture_output=True, env=variables, check=False)
        equal(f'{name}: the verdict', (0, b'barn.job: yes\n', b''), (done.returncode, done.stdout, done.stderr))
    os.remove(f'place/lib/{sakonite.LIBRARY}')
    done = subprocess.run([sys.executable, 'place/bin/sakonite', 'verdict', 'barn.job'], capture_output=True, env=variables, check=False)
    check('installed without the library', done.returncode in (0, 2) and b'Traceback' not in done.stderr, done.stderr)
