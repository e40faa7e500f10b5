"""What the documents show of the command and the module: README's answer, README's script, and every option in the man page."""

import os
import re
import subprocess
import sys

import sakonite
from sakonite_command.files import Bad
from sakonite_command.pack import pack
from sakonite_command.workers import MOST_WORKERS

from .harness import ROOT, TOOLS, check, command, environment, equal, raises
from .jobs import BARN, barn_text, example, put
from .usage import OPTIONS


def run():
    answer()
    script()
    man_page()
    beside_the_five()


def read(*path):
    with open(os.path.join(ROOT, *path), encoding='utf-8') as file:
        return file.read()


def answer():
    """The answer that README shows of the bell frame."""
    shown = re.search(r'^    \$ sakonite (why examples/bell-frame\.job)\n((?:    .*\n)+)', read('README.md'), re.M)
    put('examples/bell-frame.job', example('bell-frame.job'))
    equal("README's answer", re.sub('^    ', '', shown[2], flags=re.M), command(*shown[1].split()).out)


def script():
    """The script that README shows, over a folder of its own."""
    (block,) = re.findall(r'^```python\n(.*?)^```$', read('README.md'), re.M | re.S)
    put('archive/a.job', BARN)
    put('archive/b.job', example('bell-frame.job'))
    put('archive/c.job', bytes(30))
    got = subprocess.run([sys.executable, '-c', block], capture_output=True, text=True, env={**environment(), 'PYTHONPATH': TOOLS})
    said = f'archive/a.job yes\narchive/b.job no\narchive/c.job 12 {sakonite.REFUSALS[12]}\n'
    equal("README's script", (said, ''), (got.stdout, got.stderr))


def man_page():
    page = read('man', 'sakonite.1').replace('\\-', '-')
    for name, options in OPTIONS.items():
        check(f'sakonite(1): {name}', f'.B {name}\n' in page and f'.B sakonite {name}\n' in page)
        for option in options:
            word = option.split()[0]
            check(f'sakonite(1): {name} {option}', word in page)
    for number, default in re.findall(r"'--(levels|tries)', type=positive, default=(\d+)", read('tools', 'sakonite_command', 'main.py')):
        check(f'sakonite(1): as many {number}', f'the default is {int(default):,}.' in page)
    check('sakonite(1): as many workers', f' {MOST_WORKERS} at most.' in page)
    statuses = re.findall(r'\b(\d+) (?:for|if)\b', ' '.join(command('--help').out.split()))
    equal('sakonite(1): every exit status', statuses, re.findall(r'^\.B (\d+)$', page, re.M))


def beside_the_five():
    """What the module has for scripts beside the library's five functions."""
    equal('record', b'\x0f\x1f\x0c\x1c', sakonite.record(BARN))
    raises('record of what is no job file', sakonite.Refused, sakonite.record, bytes(30))
    equal('pack', BARN, sakonite.pack(barn_text({})))
    equal('pack of bytes', pack(barn_text({}).encode())[0], sakonite.pack(barn_text({}).encode()))
    error = raises('pack of a text with a fault', Bad, sakonite.pack, 'record\n(')
    equal('pack of a text with a fault: said', (True, "line 2: '(' without a name before it"), (isinstance(error, ValueError), str(error)))
