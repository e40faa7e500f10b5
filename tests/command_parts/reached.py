"""Whether every line of tools/ that says something was executed by some check, so that no message goes untested."""

import ast
import os
import re

from .harness import TOOLS, check, executed

SAYS = re.compile(r"\braise\b|\byield\b|\bnote\(|\bprint\(|\bsay\(|\blines\.append\(|\breturn f['\"]")
SIMPLE = (ast.Expr, ast.Raise, ast.Return, ast.Assign, ast.AugAssign)

# What no check reaches, by file and text, with the reason.
UNREACHED = {
    ('replies.py', 'raise'): 'a job made for a question is refused with no number but 25, which the proofs promise',
}


def sources():
    for folder, _, names in os.walk(TOOLS):
        for name in sorted(names):
            if name.endswith('.py'):
                yield name, os.path.join(folder, name)


def run():
    count = 0
    for name, path in sources():
        with open(path, encoding='utf-8') as file:
            text = file.read()
        lines = text.split('\n')
        for statement in ast.walk(ast.parse(text)):
            if not isinstance(statement, SIMPLE) or isinstance(getattr(statement, 'value', None), ast.Constant):
                continue
            said = '\n'.join(lines[statement.lineno - 1:statement.end_lineno])
            if not SAYS.search(said):
                continue
            count += 1
            hit = any((path, line) in executed for line in range(statement.lineno, statement.end_lineno + 1))
            excused = (name, said.strip()) in UNREACHED
            check(f'reached: {name}:{statement.lineno}: {said.strip().splitlines()[0]}', hit or excused)
            check(f'not reached, as told: {name}:{statement.lineno}', not (hit and excused))
    check('lines that say something', count > 120, count)
    print(f'{count} statements that say something')
