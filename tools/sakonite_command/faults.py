"""Why the loader refuses a job file: each fault with its number, its place and what is allowed there, in the loader's order (SPEC 7.11 to
7.17, 7.3). The loader decides whether a file is refused; this finds the place."""

from collections import namedtuple

from sakonite import DEEPEST_RECORD, LARGEST_FILE, MOST_FORM_STATES, MOST_RULES, MOST_TAGS, MOST_TARGET_STATES, NAMES, SMALLEST_FILE

from .contents import RECORD, REPLY, ROLES, TARGET, entries
from .files import LONGEST_TEXT

Fault = namedtuple('Fault', 'number byte message role', defaults=(None,))     # the role is that of the body, if it is in one

TARGET_HEAD, FORM_HEAD = 6, 7      # the bytes of a body before its tables and rules


def faults(job):
    """All faults of a file that can be told from each other. Of a file with a fault of size or contents there are no bodies to look at."""
    if not SMALLEST_FILE <= len(job) <= LARGEST_FILE:
        size = f'{len(job):,}' if len(job) <= LONGEST_TEXT else f'more than {LONGEST_TEXT:,}'      # no more was read
        yield Fault(11, min(len(job), LARGEST_FILE), f'its size is {size}; a job file has {SMALLEST_FILE} to {LARGEST_FILE:,} bytes')
        return
    wrong = list(contents_faults(job))
    yield from (Fault(12, at, message) for at, message in wrong)
    if wrong:
        return
    found = entries(job)

    def numbered(number, role, found_in_body):
        """Faults of a body, each a place in it and a message, with their number and their place in the file."""
        return [Fault(number, found[role][0] + at, message, role) for at, message in found_in_body]

    forms = {role: (ROLES[role], body) for role, (_, body) in found.items() if role[0] == REPLY}
    record = found[RECORD, 0][1]
    invalid = {role: numbered(14, role, form_faults(*form)) for role, form in forms.items()}
    misfit = numbered(15, (RECORD, 0), record_faults(record))
    yield from numbered(13, (TARGET, 0), target_faults(found[TARGET, 0][1]))
    for role in forms:
        yield from invalid[role]
    for role, form in forms.items():
        yield from numbered(17, role, [] if invalid[role] else replies_faults(*form))
    yield from misfit
    yield from numbered(16, (RECORD, 0), [] if misfit else depth_faults(record))


def having(title, states):
    return f"{title} has {('no states', 'one state, 0')[states] if states < 2 else f'{states} states, 0 to {states - 1}'}"


# ---- contents

def contents_faults(job):
    """Each entry that is not the one due, or else what is wrong with the lengths."""
    count = int.from_bytes(job[:2], 'little')
    if count != len(ROLES):
        yield 0, f'the number of entries is {count}; a job file has {len(ROLES)}'
    places = range(2, SMALLEST_FILE, 4)
    found = [tuple(job[at:at + 2]) for at in places]
    hint = "; 'sakonite sort' puts them in order" if sorted(found) == sorted(ROLES) else ''
    for number, (at, role, due) in enumerate(zip(places, found, ROLES), 1):
        if role != due:
            whose = f' ({ROLES[role]})' if role in ROLES else ''
            yield at + (role[0] == due[0]), (f'entry {number} has kind {role[0]} with code {role[1]}{whose}; expected {ROLES[due]}, '
                                             f'kind {due[0]} with code {due[1]}{hint}')
            hint = ''
    if count == len(ROLES) and found == list(ROLES):
        yield from lengths_faults(job, places)


def lengths_faults(job, places):
    """If the lengths do not add up: the first that is not what the beginning of its body asks for, or all of them."""
    lengths = [int.from_bytes(job[at + 2:at + 4], 'little') for at in places]
    end = SMALLEST_FILE + sum(lengths)
    if end == len(job):
        return
    told = f'{SMALLEST_FILE} and the six lengths add up to {end:,} bytes, but the file has {len(job):,}'
    offset = SMALLEST_FILE
    for number, (at, (role, title), length) in enumerate(zip(places, ROLES.items(), lengths), 1):
        due = own_length(role, job[offset:])
        if due is not None and due != length:
            yield at + 2, f'{told}; entry {number}, {title}, says {length:,}, but by its first bytes its body takes {due:,}'
            return
        offset += length
    yield places[-1] + 2, told


def own_length(role, rest):
    """The length that a body has by its own beginning, if that is sound; a record's is not told there."""
    if role[0] == TARGET and rest and 1 <= rest[0] <= MOST_TARGET_STATES:
        return target_size(rest[0])
    if role[0] == REPLY and len(rest) >= FORM_HEAD and max(rule_counts(rest)) <= MOST_RULES:
        return FORM_HEAD + 4 * sum(rule_counts(rest))
    return None


# ---- lengths of bodies

def target_size(states):
    return TARGET_HEAD + 16 * states + 16 * states * states


def target_length(body):
    """What is wrong with the length of a target's body, or None."""
    if len(body) < TARGET_HEAD:
        return f"the target's body has {len(body)} bytes; its first part alone takes {TARGET_HEAD}"
    n = body[0]
    due = target_size(n)
    return None if len(body) == due else f"the target's body has {len(body):,} bytes, but with {n} states it must have {due:,}"


def form_length(title, body):
    """The same of a form's body."""
    if len(body) < FORM_HEAD:
        return f'the body of {title} has {len(body)} bytes; its first part alone takes {FORM_HEAD}'
    opening, closing = rule_counts(body)
    due = FORM_HEAD + 4 * (opening + closing)
    if len(body) == due:
        return None
    return f'the body of {title} has {len(body):,} bytes, but with {opening} opening and {closing} closing rules it must have {due:,}'


def rule_counts(body):
    return [int.from_bytes(body[at:at + 2], 'little') for at in (3, 5)]


# ---- the deposit form

def target_faults(body):
    n = body[0] if body else None
    if n is not None and not 1 <= n <= MOST_TARGET_STATES:
        yield 0, f'the target has {n} states; 1 to {MOST_TARGET_STATES} are allowed'
    unsuited = target_length(body)
    if unsuited:
        yield 0, unsuited
    if len(body) < TARGET_HEAD or n == 0:
        return
    if body[1] >= n:
        yield 1, f'the start state is {body[1]}, but {having("the target", n)}'
    yield from mask_faults('the target', 2, body[2:6], n)
    if unsuited:
        return
    for at in range(TARGET_HEAD, len(body)):
        if body[at] >= n:
            place, c = divmod(at - TARGET_HEAD, 16)
            rule = f'open {place}' if place < n else 'close {} {}'.format(*divmod(place - n, n))
            yield at, f'{rule} {NAMES[c]} leads to state {body[at]}, but {having("the target", n)}'


def mask_faults(title, at, mask, states):
    for state in range(states, 8 * len(mask)):
        if mask[state // 8] >> state % 8 & 1:
            yield at + state // 8, f'state {state} is accepting, but {having(title, states)}'


# ---- reply forms

def form_faults(title, body):
    m = body[0] if body else None
    if m is not None and not 1 <= m <= MOST_FORM_STATES:
        yield 0, f'{title} has {m} states; 1 to {MOST_FORM_STATES} are allowed'
    if len(body) < FORM_HEAD:
        yield 0, form_length(title, body)
        return
    counts = rule_counts(body)
    for at, sort, count in zip((3, 5), ('opening', 'closing'), counts):
        if count > MOST_RULES:
            yield at, f'{title} has {count} {sort} rules; at most {MOST_RULES} are allowed'
    unsuited = form_length(title, body)
    if unsuited:
        yield 3, unsuited
    if m == 0:
        return
    if body[1] >= m:
        yield 1, f'the start state is {body[1]}, but {having(title, m)}'
    yield from mask_faults(title, 2, body[2:3], m)
    if unsuited:
        return
    for number, (sort, at, parts) in enumerate(rules(body), 1):
        rule = f"{sort} rule {number - (counts[0] if sort == 'closing' else 0)} of {title}"
        for i, (part, value) in enumerate(parts.items()):
            if part == 'code' and value > 15:
                yield at + i, f'{rule} has code {value}; codes are 0 to 15'
            elif part != 'code' and value >= m:
                what = 'state' if part == 'state' else f'{part} state'
                written = f', {rule_text(sort, parts)},' if parts['code'] <= 15 else ''
                yield at + i, f'{rule}{written} has {value} as its {what}, but {having(title, m)}'


def rules(body):
    """The rules of a form whose length suits it: sort, place, and the four bytes by what they are."""
    opening, closing = rule_counts(body)
    for i in range(opening + closing):
        at = FORM_HEAD + 4 * i
        sort, parts = ('opening', ('state', 'code', 'next', 'kept')) if i < opening else ('closing', ('state', 'kept', 'code', 'next'))
        yield sort, at, dict(zip(parts, body[at:at + 4]))


def rule_text(sort, parts):
    """A rule as the text has it."""
    name = NAMES[parts['code']]
    if sort == 'opening':
        return f"open {parts['state']} {name} -> {parts['next']} keep {parts['kept']}"
    return f"close {parts['state']} {parts['kept']} {name} -> {parts['next']}"


def replies_faults(title, body):
    """Of a valid form: whether some well-nested word leads from the start to an accepting state."""
    m, start, mask = body[:3]
    opening = {tuple(parts.values()) for sort, _, parts in rules(body) if sort == 'opening'}
    closing = {tuple(parts.values()) for sort, _, parts in rules(body) if sort == 'closing'}
    # an element leads from p to q if what it holds leads from a to b
    around = {(p, a, b, q) for p, c, a, kept in opening for b, taken, closed, q in closing if taken == kept and closed == c}
    leads = {(p, p) for p in range(m)}
    while True:
        more = leads | {(p, q) for p, a, b, q in around if (a, b) in leads}
        more |= {(p, r) for p, q in more for s, r in more if s == q}
        if more == leads:
            break
        leads = more
    if any((start, q) in leads and mask >> q & 1 for q in range(m)):
        return
    reached = ' '.join(str(q) for q in range(m) if (start, q) in leads)
    accepting = ' '.join(str(q) for q in range(m) if mask >> q & 1)
    yield 2, (f'{title} has no lawful reply: ' + (f'whole elements lead from its start state {start} only to {reached} '
              f'(accepting: {accepting})' if mask else 'none of its states is accepting')
              + '; each form needs one, if only the empty reply')


# ---- the record

def record_faults(body):
    if len(body) > MOST_TAGS:
        yield MOST_TAGS, f'the record has {len(body):,} tags; at most {MOST_TAGS:,} are allowed'
    yield from misnested(body)


def misnested(body):
    """The first fault of nesting, and each byte before it that is no tag."""
    opened = []
    for at, tag in enumerate(body):
        if tag > 31:
            yield at, f'byte {tag} in the record is not a tag; tags are 0 to 31'
        elif tag < 16:
            opened.append(tag)
        elif not opened or opened[-1] != tag - 16:
            where = f"where '{NAMES[opened[-1]]}' is open" if opened else 'where nothing is open'
            yield at, f"'{NAMES[tag - 16]}' is closed in the record {where}"
            return
        else:
            opened.pop()
    if opened:
        yield len(body), f"the record ends before '{NAMES[opened[-1]]}' is closed"


def depth_faults(body):
    opened = []
    for at, tag in enumerate(body):
        if tag >= 16:
            opened.pop()
            continue
        if len(opened) == DEEPEST_RECORD:
            hint = '; leave the project out, and begin with its objects' if opened[0] == 0 else ''
            yield at, (f"'{NAMES[tag]}' is within {', '.join(NAMES[code] for code in opened)}: "
                       f'{len(opened) + 1} elements are open together; at most {DEEPEST_RECORD} are allowed{hint}')
        opened.append(tag)
