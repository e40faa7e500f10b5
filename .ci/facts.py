#!/usr/bin/env python3
"""Keeps every place that states a fact of facts.txt true to it.

    facts.py write    writes what is generated, and corrects the places listed in facts.txt that are in files for users
    facts.py check    compares these and all other places: a line for each that differs, and at the end the count

It needs only Python 3.9, and changes nothing in crates/, tests/ and bench/."""

import difflib
import glob
import os
import re
import string
import sys
import textwrap

ROOT = os.path.join(os.path.dirname(os.path.realpath(__file__)), '..')
TABLE = 'facts.txt'
WIDTH = 140
# `write` corrects these; the rest is for people to change, with what hangs on it.
FOR_USERS = ('include/', 'man/', 'README.md', 'docs/FORMAT.md', 'tools/sakonite.py')
# A size that no other number is likely to be: wherever it stands, it must be in a place that is known.
TELLING = ('LARGEST_FILE', 'MOST_TAGS')
# Not searched for them: what was decided and changed at some time, proofs, which the prover checks, and tests, which fail by themselves.
PAST = re.compile(r'docs/(DECISIONS\.md|changes/)|crates/.*/(proofs|must-fail)/|tests/(?!README)|examples/|bench/bench\.c|facts\.txt')


class Wrong(Exception):
    pass


# ---- the table

def whole_lines(text):
    """The lines of the table with their numbers, without comments. One that is far in goes on with the line before it."""
    lines = []
    for at, line in enumerate(text.split('\n'), 1):
        if line.startswith(8 * ' '):
            lines[-1] = lines[-1][0], f'{lines[-1][1]} {line.strip()}'
        elif line.strip() and not line.startswith('#'):
            lines.append((at, line))
    return lines


class Facts:
    def __init__(self, text):
        self.values, self.numbers = {}, {}     # what a name in braces stands for; of those, the numbers before they are worked out
        self.sizes, self.names, self.fetchable, self.refusals, self.texts = [], [], [], [], {}
        self.groups, self.orders, self.limits, self.places = [], {}, [], []
        last = None
        for at, line in whole_lines(text):
            try:
                if line.startswith(' '):
                    self.below(last, line.strip(), at)
                else:
                    word, _, rest = line.partition(' ')
                    last = getattr(self, 'line_' + word)(*[part.strip() for part in rest.split(' / ')])
            except (AttributeError, TypeError, ValueError, KeyError):
                raise Wrong(f'{TABLE}:{at}: not understood') from None
        try:
            self.work_out()
        except (NameError, SyntaxError, RecursionError) as error:
            raise Wrong(f'{TABLE}: {error}') from None

    def below(self, last, line, at):
        if isinstance(last, dict):
            key, _, text = line.partition(' ')
            if key not in ('text', 'header', 'format', 'note'):
                raise ValueError
            last[key] = text.strip()
        else:
            self.places.append((at, last, line))

    def line_version(self, version):
        self.version = version
        parts = [int(part) for part in version.split('.')]
        self.numbers['VERSION'] = str(10000 * parts[0] + 100 * parts[1] + parts[2])
        for name, part in zip(('MAJOR', 'MINOR', 'PATCH'), parts):
            self.numbers['VERSION_' + name] = str(part)
        self.values['version'] = version

    def line_number(self, rest):
        name, expression = rest.split(None, 1)
        if name in self.numbers:
            raise ValueError
        self.numbers[name] = expression

    def line_size(self, rest, about=''):
        self.line_number(rest)
        self.sizes.append((rest.split()[0], about))

    def line_name(self, rest):
        name, *mark = rest.split()
        self.names.append(name)
        self.fetchable.append(mark == ['fetchable'])

    def line_refusal(self, rest):
        number, name = rest.split()
        self.line_number(f'{name} {number}')
        self.refusals.append(name)
        self.texts[name] = {}
        return self.texts[name]

    def line_group(self, about, names):
        self.groups.append((about, [self.refusal(name) for name in names.split()]))

    def line_order(self, rest):
        name, *names = rest.split()
        self.orders[name] = [self.refusal(other) for other in names]

    def line_limit(self, what, most, beyond):
        self.limits.append((what, most, self.refusal(beyond)))

    def line_in(self, path):
        """One file, or those that a pattern with * names."""
        found = glob.glob(os.path.join(ROOT, path), recursive=True)
        return path, sorted(os.path.relpath(name, ROOT) for name in found) if '*' in path else [path]

    def refusal(self, name):
        return name if name in self.texts else self.numbers['no refusal ' + name]

    def work_out(self):
        names = self.numbers

        class Numbers(dict):
            def __missing__(self, name):
                if name not in names:
                    raise NameError(f'{name} is not a number of the table')
                self[name] = int(eval(names[name], {'__builtins__': {}}, self))
                return self[name]

        found = Numbers()
        self.values.update({name: found[name] for name in names})
        self.values['NAME'] = self.names
        self.values['CODE'] = {name: code for code, name in enumerate(self.names)}
        self.refusals.sort(key=self.values.get)

    def filled(self, template):
        try:
            return template.format(**self.values)
        except (KeyError, IndexError, ValueError) as error:
            raise Wrong(f'{TABLE}: in "{template}": {error}') from None

    def text(self, name, kind='text'):
        return self.filled(self.texts[name].get(kind, self.texts[name]['text']))

    def number(self, name):
        return self.values[name]

    def listed(self, names):
        return ', '.join(str(self.number(name)) for name in names)


# ---- what is generated, by file and name

def enum(rows, ends=True):
    """Lines of an enum, each of a name, a number and a comment; the comments stand below each other. C++98 wants no comma at its end."""
    starts = [f'    {name} = {number},' for name, number, _ in rows]
    if ends:
        starts[-1] = starts[-1][:-1]
    room = max(map(len, starts))
    lines = []
    for start, (_, _, comment) in zip(starts, rows):
        if comment:
            start = f'{start:<{room}} /* '
            lines += textwrap.wrap(f'{comment} */', WIDTH, initial_indent=start, subsequent_indent=' ' * len(start))
        else:
            lines.append(start)
    return lines


def header_order(facts):
    order = facts.orders
    return c_comment('Refusals. Where several conditions hold, the first in this order decides: '
                     f"{facts.listed(order['file'] + ['HISTORY'])}, and then, for the history's moves one after another, "
                     f"{facts.listed(order['move'])}; by sakonite_losing_reply, after all moves, {facts.listed(order['losing'])}.")


def c_comment(text):
    return textwrap.wrap(f'/* {text} */', WIDTH, subsequent_indent='   ')


def header_refusals(facts):
    lines = header_order(facts) + ['enum {']
    for at, (about, names) in enumerate(facts.groups):
        lines += ([''] if at else []) + [f'    /* {about} */']
        rows = [('SAKONITE_' + name, facts.number(name), facts.text(name, 'header')) for name in names]
        lines += enum(rows, at == len(facts.groups) - 1)
    first, last = (facts.number(facts.refusals[at]) for at in (0, -1))
    return lines + ['};', '', '/* Whether what a function returned is a refusal. */',
                    f'#define SAKONITE_REFUSED(returned) ((size_t)(returned) - {first} < {last - first + 1})']


def header_codes(facts):
    rows = [(f'SAKONITE_CODE_{name.upper()}', code, '') for code, name in enumerate(facts.names)]
    return ['enum {', *enum(rows), '};']


def header_sizes(facts):
    rows = [(f'SAKONITE_{name}', facts.number(name), about) for name, about in facts.sizes]
    return ['enum {', *enum(rows), '};']


def header_version(facts):
    return [f"#define SAKONITE_VERSION_{name} {facts.number('VERSION_' + name)}" for name in ('MAJOR', 'MINOR', 'PATCH')]


def python_version(facts):
    return [f"VERSION = '{facts.version}'"]


def python_names(facts):
    half = len(facts.names) // 2
    first, second = (', '.join(f"'{name}'" for name in part) for part in (facts.names[:half], facts.names[half:]))
    return [f'NAMES = ({first},', f'         {second})', f'FETCHABLE = NAMES[{facts.fetchable.index(True)}:]']


def python_sizes(facts):
    return [f'{name} = {facts.number(name)}' for name, _ in facts.sizes]


def python_refusals(facts):
    return ['REFUSALS = {', *(f"    {facts.number(name)}: '{facts.text(name)}'," for name in facts.refusals), '}']


def page_codes(facts):
    """Four columns, each as wide as its widest."""
    cells = [f'{code:>2} {name}' for code, name in enumerate(facts.names)]
    wide = [max(len(cell) for cell in cells[column::4]) for column in range(4)]
    return ['  '.join(f'{cell:<{width}}' for cell, width in zip(cells[row:row + 4], wide)).rstrip() for row in range(0, len(cells), 4)]


def page_names(facts):
    plain = [name for name, mark in zip(facts.names, facts.fetchable) if not mark]
    fetched = [name for name, mark in zip(facts.names, facts.fetchable) if mark]
    asked = f"{', '.join(fetched[:-1])} and {fetched[-1]}"
    return textwrap.wrap(f"The names are {', '.join(plain)} and, for what can be fetched, {asked}.", WIDTH)


def page_sizes(facts):
    room = max(len(name) for name, _ in facts.sizes)
    return [f'SAKONITE_{name:<{room}}  {facts.number(name)}' for name, _ in facts.sizes]


def page_order(facts):
    order = facts.orders
    return textwrap.wrap(f"Where several hold, the first in this order decides: {facts.listed(order['file'] + ['HISTORY'])}; then, for the "
                         f"moves one after another, {facts.listed(order['move'])}; by", WIDTH) \
        + ['.BR sakonite_losing_reply (),', f"after all moves, {facts.listed(order['losing'])}."]


def page_refusals(facts):
    lines = page_order(facts)
    for name in facts.refusals:
        lines += ['.TP', f'.BR SAKONITE_{name} " ({facts.number(name)})"', facts.text(name)]
        if 'note' in facts.texts[name]:
            lines += ['.br', f"({facts.text(name, 'note')})"]
    return lines


def page_of_program(facts):
    return [line for name in facts.orders['file'] for line in ('.TP', f'.B {facts.number(name)}', facts.text(name))]


def table(head, rows):
    return [f"| {' | '.join(head)} |", '|---' * len(head) + '|', *(f"| {' | '.join(map(str, row))} |" for row in rows)]


def readme_files(facts):
    return table(('number', 'meaning'), [(facts.number(name), facts.text(name)) for name in facts.orders['file']])


def readme_histories(facts):
    names = ['HISTORY'] + facts.orders['move'] + [name for name in facts.orders['losing'] if name not in facts.orders['move']]
    return table(('number', 'meaning'), [(facts.number(name), facts.text(name)) for name in names])


def readme_limits(facts):
    return table(('what', 'at most', 'beyond it'), [(what, facts.filled(most), facts.number(name)) for what, most, name in facts.limits])


def format_limits(facts):
    return table(('number', 'given if'), [(facts.number(name), facts.text(name, 'format')) for name in facts.orders['file']])


BLOCKS = {
    'include/sakonite.h': {'version': header_version, 'refusals': header_refusals, 'codes': header_codes, 'sizes': header_sizes},
    'tools/sakonite.py': {'version': python_version, 'names': python_names, 'sizes': python_sizes, 'refusals': python_refusals},
    'man/sakonite.1': {'names': page_names},
    'man/sakonite.3': {'codes': page_codes, 'sizes': page_sizes, 'refusals': page_refusals},
    'man/verdict.1': {'refusals': page_of_program},
    'README.md': {'refusals of files': readme_files, 'limits': readme_limits, 'refusals of histories': readme_histories},
    'docs/FORMAT.md': {'limits': format_limits},
}


def text_header(facts):
    """The second header, whole."""
    cases = [f'    case SAKONITE_{name}: return "{facts.text(name)}";' for name in facts.refusals]
    count = len(facts.names)
    rows = textwrap.wrap(', '.join(f'"{name}"' for name in facts.names) + '};', WIDTH - 8)
    return '\n'.join([
        '/* sakonite in words: the texts of the refusals and the names of the codes, for messages and for what is typed. Nothing has to be',
        ' * linked for it. `make facts` writes it from facts.txt.', ' */',
        '#ifndef SAKONITE_TEXT_H', '#define SAKONITE_TEXT_H', '', '#include "sakonite.h"', '',
        '/* Why something was refused; "not a refusal" for every number that is none. */',
        'static inline const char *sakonite_text(size_t returned) {', '    switch (returned) {', *cases,
        '    default: return "not a refusal";', '    }', '}', '',
        *c_comment(f'The name of a code, 0 to {count - 1}, as SAKONITE_CODE gives it. For every other number, and so for a closing tag, '
                   'the empty text, which can be printed and is not a name.'),
        'static inline const char *sakonite_name(unsigned code) {',
        f'    static const char *const names[{count}] = {{', *(f'        {row}' for row in rows),
        f'    return code < {count} ? names[code] : "";', '}', '', '#endif', ''])


WHOLE = {'include/sakonite_text.h': text_header}


# ---- files

def read(path):
    try:
        with open(os.path.join(ROOT, path), encoding='utf-8') as file:
            return file.read()
    except OSError as error:
        raise Wrong(f'{path}: {error.strerror}') from None


class Text:
    """A file as it is and as it should be, and which characters of it are known to state a fact."""

    def __init__(self, path):
        self.path, self.known, self.faults = path, [], []
        try:
            self.old = read(path)
        except Wrong as wrong:         # where it is gone, so are its places
            self.old = ''
            self.faults.append(str(wrong))
        self.new = self.old

    def fault(self, at, message):
        self.faults.append(f"{self.path}:{self.old.count(chr(10), 0, at) + 1}: {message}")

    def whole(self, text):
        self.compare(0, self.old.split('\n'), text.split('\n'))
        self.new = text
        self.known.append((0, len(self.old)))

    def compare(self, start, old, new):
        """Notes a fault for each run of lines that differ."""
        for kind, a, b, c, d in difflib.SequenceMatcher(None, old, new, False).get_opcodes():
            if kind != 'equal':
                here = ' / '.join(line.strip() for line in old[a:b]) or 'nothing'
                due = ' / '.join(line.strip() for line in new[c:d]) or 'nothing'
                self.fault(start + sum(len(line) + 1 for line in old[:a]), f'{here}\n    but by {TABLE}: {due}')

    def block(self, name, lines):
        """What stands between the line that begins a block and the one that ends it."""
        pattern = re.compile(rf'^.*\bfacts: {re.escape(name)}\b.*\n((?:.*\n)*?)(?=.*\bfacts: end\b)', re.M)
        found, again = pattern.search(self.old), pattern.search(self.new)
        if not found or not again:
            self.fault(0, f'there is no "facts: {name}" with a "facts: end"')
            return
        self.compare(found.start(1), found[1].split('\n')[:-1], lines)
        self.known.append(found.span(1))
        self.new = self.new[:again.start(1)] + ''.join(line + '\n' for line in lines) + self.new[again.end(1):]

    def place(self, facts, template):
        """Each text like the template, with anything for its facts, has to have these. Whether there is one."""
        if '{EACH_NAME}' in template:
            return self.each(facts, template)
        due = facts.filled(template)
        pattern, wanted = shape(facts, template)
        found = list(pattern.finditer(self.old))
        for match in found:
            self.known.append(match.span())
            if list(match.groups()) != wanted:
                self.fault(match.start(), f'{" ".join(match[0].split())}\n    but by {TABLE}: {due}')
        if self.path.startswith(FOR_USERS):
            self.new = pattern.sub(lambda match: corrected(match, wanted), self.new)
        return bool(found)

    def each(self, facts, template):
        """The texts like the template have the names, one after another."""
        before, after = (re.escape(part) for part in template.split('{EACH_NAME}'))
        found = list(re.finditer(f'{before}([a-z]+){after}', self.old))
        if found and len(found) != len(facts.names):
            self.fault(found[0].start(), f'{len(found)} texts are like "{template}", and {TABLE} has {len(facts.names)} names')
        for match, name in zip(found, facts.names):
            if match[1] != name:
                self.fault(match.start(), f'{match[0]}\n    but by {TABLE}: {name}')
        return bool(found)

    def strays(self, facts):
        """Numbers that state a fact where no place is known."""
        for name in TELLING:
            digits = f'{facts.number(name):_}'.replace('_', '[,_]?')
            for match in re.finditer(rf'(?<![\w.,]){digits}(?![\w]|[,.][0-9])', self.old):
                if not any(start <= match.start() and match.end() <= end for start, end in self.known):
                    self.fault(match.start(), f'{match[0]}: if this is {name}, {TABLE} has no place for it')


NAME, VERSION, NUMBER = '[a-z]+', r'[0-9]+(?:\.[0-9]+)+', '0x[0-9a-fA-F]+|[0-9]+(?:[,_][0-9]{3})*'


def shape(facts, template):
    """A pattern for texts like a template, and what is wanted in its groups. White space is any, with the mark of a comment's next line."""
    pattern, wanted = '', []
    for literal, field, spec, _ in string.Formatter().parse(template):
        words = re.split(r'\s+', literal)
        pattern += r'\s+(?:(?:\*|//|--)\s+)?'.join(map(re.escape, words))
        if field is not None:
            due = facts.filled('{' + field + (':' + spec if spec else '') + '}')
            pattern += f'({NAME if due.isalpha() else VERSION if "." in due else NUMBER})'
            wanted.append(due)
    before = r'(?<!\w)' if re.match(r'\w|\{', template) else ''
    return re.compile(before + pattern + (r'(?!\w)' if template.endswith('}') else '')), wanted


def corrected(match, wanted):
    text, start = '', match.start()
    for group, due in enumerate(wanted, 1):
        text += match.string[start:match.start(group)] + due
        start = match.end(group)
    return text + match.string[start:match.end()]


def searched():
    """The files that are searched for numbers, job files among them."""
    for folder, folders, files in os.walk(ROOT):
        folders[:] = [name for name in folders if name not in ('.git', 'target', '__pycache__')]
        for name in files:
            path = os.path.relpath(os.path.join(folder, name), ROOT)
            if not PAST.search(path):
                yield path


# ---- the two commands

def seen(facts):
    """All files that state a fact, each with its faults, and how many things were compared."""
    texts, count = {}, 0
    for path, make in WHOLE.items():
        texts[path] = Text(path)
        texts[path].whole(make(facts))
        count += 1
    for path, blocks in BLOCKS.items():
        texts[path] = Text(path)
        for name, make in blocks.items():
            texts[path].block(name, make(facts))
            count += 1
    for at, (named, paths), template in facts.places:
        found = [text_of(texts, path).place(facts, template) for path in paths]
        if not any(found):
            due = template if '{EACH_NAME}' in template else facts.filled(template)
            text_of(texts, TABLE).faults.append(f'{TABLE}:{at}: nothing in {named} is like "{due}"')
        count += 1
    return texts, count


def text_of(texts, path):
    return texts.get(path) or texts.setdefault(path, Text(path))


def check(facts):
    texts, count = seen(facts)
    if not any(text.faults for text in texts.values()):    # a number that has just changed may stand elsewhere and mean something else
        count += look_for_strays(facts, texts)
    faults = [fault for path in sorted(texts) for fault in texts[path].faults]
    print(*faults, sep='\n', end='\n' if faults else '')
    if faults:
        print(f'`make facts` corrects what is written from {TABLE}; the rest is changed by hand')
    print(f'{max(count - len(faults), 0)} passed, {len(faults)} failed')
    return 1 if faults else 0


def look_for_strays(facts, texts):
    paths = list(searched())
    for path in paths:
        try:
            text = text_of(texts, path)
        except UnicodeDecodeError:     # a job file
            continue
        text.strays(facts)
    return len(paths)


def write(facts):
    texts, _ = seen(facts)
    for path, text in texts.items():
        if text.new != text.old:
            with open(os.path.join(ROOT, path), 'w', encoding='utf-8') as file:
                file.write(text.new)
            print(f'{path} written')
    return 0


def main(arguments):
    if arguments not in (['check'], ['write']):
        print('usage: facts.py check | write', file=sys.stderr)
        return 2
    try:
        return {'check': check, 'write': write}[arguments[0]](Facts(read(TABLE)))
    except Wrong as wrong:
        print(wrong, '0 passed, 1 failed', sep='\n')
        return 1


sys.exit(main(sys.argv[1:]))
