"""Text to job file: what each section becomes, and which line each byte comes from."""

import re

import sakonite
from sakonite import CODES, FETCHABLE, MOST_FORM_STATES, MOST_RULES, MOST_TARGET_STATES, NAMES, TextError

from .contents import LONGEST_BODY, RECORD, REPLY, ROLES, TARGET, assemble
from .faults import FORM_HEAD, having, target_size
from .files import LONGEST_TEXT, Bad

SECTIONS = ('target', 'form', 'record')
HEADING = re.compile(rf"^(?:\xef\xbb\xbf)?[ \t]*({'|'.join(SECTIONS)})[:\s]".encode('latin-1'), re.I | re.M)
FOREIGN = re.compile(rb'[\0-\x08\x0b\x0e-\x1f]')     # bytes that no text has
UTF16 = (b'\xff\xfe', b'\xfe\xff')                  # what a text in UTF-16 begins with
DEEPEST = 64               # far above what the loader takes; keeps trees and indents small


def number(word, line, what, allowed, most=255):
    """A number that fits into its place in the file; the message tells what the loader takes, which may be less."""
    if not re.fullmatch('[0-9]{1,6}', word) or int(word) > most:
        several = '; separate several with blanks' if ',' in word else ''
        raise Bad(f"{what} must be a number from {allowed}, not '{word[:40]}'{several}", line)
    return int(word)


def code(word, line):
    if word not in CODES:
        raise Bad(sakonite.unknown(word), line)
    return CODES[word]


class Automaton:
    """What target and reply forms have in common: the number of states, the start, the accepting states, the rules."""

    def __init__(self, role, line, most_states):
        self.role, self.title, self.line = role, ROLES[role], line
        self.most_states = most_states
        self.given = {}        # key to (value, line)

    def state(self, word, line, most=255):
        return number(word, line, 'a state', f'0 to {self.most_states - 1}', most)

    def take(self, words, line):
        key, rest = words[0], words[1:]
        if key in ('open', 'close'):
            self.rule(key, rest, line)
            return
        if key not in self.keys():
            raise Bad(f"'{key[:40]}' does not belong in {self.title}; expected {', '.join(self.keys())}, open or close{heading(key)}", line)
        if key in self.given:
            raise Bad(f"'{key}' was already given, at line {self.given[key][1]}", line)
        if key == 'accepting':
            if not rest:
                raise Bad("'accepting' needs states, or the word none", line)
            mask = 0
            for word in [] if rest == ['none'] else rest:
                mask |= 1 << self.state(word, line, self.most_states - 1)
            value = mask
        elif len(rest) != 1:
            raise Bad(f"'{key}' needs one number", line)
        elif key == 'states':
            value = number(rest[0], line, 'the number of states', f'1 to {self.most_states}')
        else:
            value = self.state(rest[0], line)
        self.given[key] = (value, line)

    def keys(self):
        return ('states', 'start', 'accepting')

    def value(self, key):
        if key not in self.given:
            raise Bad(f"{self.title} has no '{key}' line", self.line)
        return self.given[key][0]

    def line_of(self, key):
        return self.given[key][1]


BLANKS = 'with blanks between the words'


class Target(Automaton):
    def __init__(self, line):
        super().__init__((TARGET, 0), line, MOST_TARGET_STATES)
        self.rules = {}        # (key, state, .., code) to (next, line)

    def keys(self):
        return super().keys() + ('default',)

    def rule(self, key, words, line):
        states = 1 if key == 'open' else 2
        if len(words) < states + 3 or words[-2] != '->':
            form = 'open STATE NAME.. -> STATE' if key == 'open' else 'close STATE KEPT NAME.. -> STATE'
            raise Bad(f"a rule of the target is written '{form}', {BLANKS}", line)
        at = [self.state(word, line) for word in words[:states]]
        names = [code(word, line) for word in words[states:-2]]
        result = self.state(words[-1], line)
        for c in names:
            place = (key, *at, c)
            if place in self.rules:
                raise Bad(f"'{key} {' '.join(map(str, at))} {NAMES[c]}' was already given, at line {self.rules[place][1]}", line)
            self.rules[place] = (result, line)

    def body(self):
        """The body, and the line that each of its bytes comes from."""
        n, start, mask = (self.value(key) for key in ('states', 'start', 'accepting'))
        if target_size(n) > LONGEST_BODY:
            raise Bad(f'{n} states do not fit in a job file; at most {MOST_TARGET_STATES} are allowed', self.line_of('states'))
        for (_, *at, _), (_, line) in self.rules.items():
            if max(at) >= n:
                raise Bad(f'this rule is for state {max(at)}, but {having(self.title, n)}', line)
        places = [('open', q, c) for q in range(n) for c in range(16)]
        places += [('close', r, q, c) for r in range(n) for q in range(n) for c in range(16)]
        body = bytearray([n, start]) + mask.to_bytes(4, 'little')
        lines = [self.line_of('states'), self.line_of('start')] + 4 * [self.line_of('accepting')]
        for place in places:
            if place not in self.rules and 'default' not in self.given:
                key, *at, c = place
                raise Bad(f"the target has no rule '{key} {' '.join(map(str, at))} {NAMES[c]}' and no default", self.line)
            result, line = self.rules.get(place) or self.given['default']
            body.append(result)
            lines.append(line)
        return bytes(body), lines


class Form(Automaton):
    def __init__(self, name, line):
        super().__init__((REPLY, CODES[name]), line, MOST_FORM_STATES)
        self.rules = {'open': [], 'close': []}         # four bytes, and the line

    def rule(self, key, words, line):
        if key == 'open':
            good = len(words) >= 6 and words[-2] == 'keep' and words[-4] == '->'
            form = 'open STATE NAME.. -> NEXT keep KEPT'
        else:
            good = len(words) >= 5 and words[-2] == '->'
            form = 'close STATE KEPT NAME.. -> NEXT'
        if not good:
            raise Bad(f"a rule of a form is written '{form}', {BLANKS}", line)
        if key == 'open':
            state, names, after, kept = words[0], words[1:-4], words[-3], words[-1]
        else:
            state, kept, names, after = words[0], words[1], words[2:-2], words[-1]
        state, kept, after = (self.state(word, line) for word in (state, kept, after))
        for name in names:
            c = code(name, line)
            self.rules[key].append((bytes([state, c, after, kept] if key == 'open' else [state, kept, c, after]), line))
        if FORM_HEAD + 4 * sum(map(len, self.rules.values())) > LONGEST_BODY:
            raise Bad(f'{self.title} has more rules than fit in a job file; at most {MOST_RULES} of each sort are allowed', line)

    def body(self):
        body = bytearray(self.value(key) for key in ('states', 'start', 'accepting'))
        lines = [self.line_of(key) for key in ('states', 'start', 'accepting')]
        for rules in self.rules.values():
            body += len(rules).to_bytes(2, 'little')
            # of too many rules the first that is too many is shown
            lines += 2 * [rules[MOST_RULES][1] if len(rules) > MOST_RULES else self.line]
        for rules in self.rules.values():
            for rule, line in rules:
                body += rule
                lines += 4 * [line]
        return bytes(body), lines


class Record:
    role, title = (RECORD, 0), ROLES[RECORD, 0]

    def __init__(self, line):
        self.line = line
        self.content = []

    def take_line(self, content, line):
        self.content += [''] * (line - self.line - 1 - len(self.content)) + [content]

    def body(self):
        try:
            tags, lines = sakonite.elements('\n'.join(self.content), self.line + 1)
        except TextError as error:
            raise Bad(error.message, error.line) from None
        depth = 0
        for tag, line in zip(tags, lines):
            depth += 1 if tag < 16 else -1
            if depth > DEEPEST:
                raise Bad(f'more than {DEEPEST} elements are open together; at most {sakonite.DEEPEST_RECORD} are allowed', line)
        if len(tags) > LONGEST_BODY:
            raise Bad(f'the record has more tags than fit in a job file; at most {sakonite.MOST_TAGS:,} are allowed', lines[LONGEST_BODY])
        return tags, lines


def section(words, line):
    if words[0] == 'form':
        if len(words) != 2 or words[1] not in FETCHABLE:
            raise Bad(f"'form' needs one of {', '.join(FETCHABLE)}", line)
        return Form(words[1], line)
    if len(words) > 1:
        raise Bad(f"'{words[0]}' must stand alone on its line", line)
    return Target(line) if words[0] == 'target' else Record(line)


def heading(word):
    """What is said of a word that looks like the heading of a section."""
    meant = word.rstrip(':').lower()
    return f"; did you mean the heading '{meant}'?" if meant in SECTIONS else ''


def pack(text):
    """The job file for a text in bytes, and for each byte of it the line of the text; for the contents, where the body's section begins."""
    if len(text) > LONGEST_TEXT:
        raise Bad('this is too long for a text')
    if text[:2] in UTF16:
        raise Bad('this is a text in UTF-16; save it as UTF-8')
    if text[:2] == b'\x06\x00':
        raise Bad('this is a job file, not a text')
    sections, bodies = [], {}
    lines = text.removeprefix(b'\xef\xbb\xbf').split(b'\n')
    for line, raw in enumerate(lines, 1):
        try:
            content = raw.decode('utf-8').partition('#')[0]
        except UnicodeDecodeError:
            raise Bad('this line is not in UTF-8; save the text as UTF-8', line) from None
        words = content.split()
        if not words:
            continue
        if words[0] in SECTIONS:
            new = section(words, line)
            if sections:
                bodies[sections[-1].role] = sections[-1].body()    # faults of a section come before those further down
            for old in sections:
                if old.role == new.role:
                    raise Bad(f'{new.title} was already given, at line {old.line}', line)
            sections.append(new)
        elif not sections:
            raise Bad(f"'{words[0][:40]}' comes before any section; a section starts with target, form or record{heading(words[0])}", line)
        elif isinstance(sections[-1], Record):
            sections[-1].take_line(content, line)
        else:
            sections[-1].take(words, line)
    if sections:
        bodies[sections[-1].role] = sections[-1].body()
    for role, title in ROLES.items():
        if role not in bodies:
            sent = '; if only the empty reply can come, it is: states 1, start 0, accepting 0' if role[0] == REPLY else ''
            raise Bad(f'the text ends without {title}{sent}', len(lines) - (len(lines) > 1 and not lines[-1]))
    begun = {s.role: s.line for s in sections}
    origins = 2 * [1] + [begun[role] for role in ROLES for _ in range(4)] + [line for role in ROLES for line in bodies[role][1]]
    return assemble({role: body for role, (body, _) in bodies.items()}), origins


def is_text(data):
    """Whether this is meant as a text: no byte of it is foreign to one, and a line begins a section. All else is a job file or none."""
    if data[:2] in UTF16:
        return True
    return not FOREIGN.search(data) and bool(HEADING.search(data))
