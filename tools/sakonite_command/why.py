"""Why a job is refused, why the answer is no, and what a yes rests on."""

import itertools

import sakonite
from sakonite import DEEPEST_RECORD, LOST, MOST_TAGS, NAMES, OUTSIDE, READ, Refused

from .contents import RECORD, ROLES, bodies, entries
from .faults import faults
from .pack import FOREIGN
from .plays import SAID, Play, losing, tree_lines
from .replies import LONG, Target, depth, fewest, filled, fillings, replies_by_state

MOST_FAULTS = 10           # lines of one refusal
MOST_LINES = 60            # lines of a tree of choices
OFFERS = 20                # words looked at in search of fillings of one form, for each try


def refusal(name, job, origins, number):
    """A refusal in words, with the place, as lines; the other faults that the file has behind it."""
    lines = [f'{name}: {Refused(number)}']
    found, more = first_faults(job, origins)
    for fault, message in found:
        behind = '' if fault.number == number else f' (refused {fault.number}, once the others are fixed)'
        lines.append(f'  {place(job, origins, fault)}: {message}{behind}')
    if more:
        lines.append(f'  and {more:,} more')
    if not found:
        lines.append('  the place was not found')
    if origins is None and job and not FOREIGN.search(job):
        lines.append('  It looks like a text, but none of its lines begins a section: target, form or record.')
    return lines


def first_faults(job, origins):
    """The first faults with their messages, those of one line of a text and one number together; and how many more there are."""
    groups = {}
    for fault in faults(job):
        key = fault if origins is None else (fault.number, line_of(origins, fault.byte))
        groups.setdefault(key, []).append(fault)
    told = [(group[0], group[0].message + (f' (and {len(group) - 1:,} more on this line)' if len(group) > 1 else ''))
            for group in groups.values()]
    return told[:MOST_FAULTS], len(told[MOST_FAULTS:])


def place(job, origins, fault):
    """The line of the text; of a job file the byte, and the entry whose body it is in."""
    if origins is not None:
        return f'line {line_of(origins, fault.byte)}'
    if fault.role is None:
        return f'byte {fault.byte}'
    offset, _ = entries(job)[fault.role]
    return f'byte {fault.byte}, which is byte {fault.byte - offset} of {ROLES[fault.role]}'


def line_of(origins, byte):
    """The line of the text; what is missed at the end is shown where the text ends."""
    return origins[min(byte, len(origins) - 1)]


# ---- a no

def one_play(search):
    """A play that ends outside, move by move, with the replies. Reads without a choice are told together."""
    play = Play(search.job)
    count = len(play.record)
    yield 'One play that ends there; a reply is called losing only if another lawful one would not lose:'
    first = 1                  # of the reads not yet told
    for number, (at, move, reply) in enumerate(losing(play), 1):
        if move == 'read' and number < count:
            continue
        last = number if move == 'read' else number - 1
        if first <= last:
            yield f"  {f'tag {first}' if first == last else f'tags {first} to {last}'} of {count}: read"
        first = number + 1
        if move == 'read':
            continue
        if reply is not None:
            move = f"fetch; the {'losing ' if search.decided_by(play) else ''}reply is{':' if reply else ' empty'}"
        yield f'  {at}{move}'
        for line in tree_lines(reply or b''):
            yield f'    {line}'
    yield f'{SAID[play.advice()]}:'
    yield from outside(search.job, play.finished(), 'this play')


def outside(job, word, what='it'):
    """A finished record as a tree, with the place where it, or the play that it comes from, leaves the form."""
    target = Target(job)
    place, state = target.leaves(word)
    marks = {}
    if place is not None:
        opened = []
        for at, tag in enumerate(word[:place]):
            opened = opened + [at] if tag < 16 else opened[:-1]
        opens = word[place] < 16
        marks = {place if opens else opened[-1]: f"   <- {'here ' if opens else ''}{what} leaves the form{'' if opens else ' at its end'}"}
    for line in tree_lines(word, marks=marks) or ['  nothing at all']:
        yield f'  {line}'
    if target.start in target.dead:
        yield 'No record is in this deposit form: nothing leads from its start state to an accepting one.'
    elif place is None:
        yield f'It ends in state {state} of the form, which is not accepting.'


def open_elements(record):
    """The open elements: the places of their two tags, with the names of the elements around them."""
    found, opened = {}, []
    for at, tag in enumerate(record):
        if tag < 16:
            opened.append(at)
        else:
            start = opened.pop()
            if sakonite.fetchable(tag - 16):
                found[start, at] = [NAMES[record[place]] for place in opened]
    return dict(sorted(found.items()))


class Search:
    """What other replies, and fillings by the record's own hand, would do. For each of its questions the library is asked so many times at
    most."""

    def __init__(self, job, tries, progress):
        self.job, self.tries, self.progress = job, tries, progress
        self.left = self.others_left = tries
        self.target = Target(job)
        self.record = bodies(job)[RECORD, 0]
        self.opened = open_elements(self.record)
        self.known = {}        # fillings by code, and whether they are all
        self.stopped = False   # whether there was more to try
        self.untried = False   # whether some filling could not be judged

    def allowed(self, code):
        if code not in self.known:
            self.known[code] = fillings(self.job, code, OFFERS * self.tries)
        return self.known[code][0]

    def decided_by(self, play):
        """Whether the last move of a play that is lost, a fetch, has a reply where another would not lose. Replies that lead the deposit
        form to the same state do the same."""
        before = Play(self.job, play.moves[:-1])
        kept = self.target.kept_at_end(before.finished())
        others = {filling.leads[kept]: filling.tags for filling in reversed(self.allowed(before.ahead()[0] - 16))}
        others.pop(self.target.leads(play.last_reply())[kept], None)
        for reply in others.values():
            if self.others_left == 0:
                return False
            self.others_left -= 1
            if before.add(sakonite.fetch(reply)) not in (LOST, OUTSIDE):
                return True
            before.back()
        return False

    def won(self, chosen):
        """Whether the record is won with these elements filled."""
        trial = filled(self.job, chosen)
        self.untried = self.untried or trial is None
        return trial is not None and sakonite.verdict(trial)

    def among(self, groups):
        """The first filling of each group of elements that turns the answer."""
        for group in groups:
            for choice in itertools.product(*(self.allowed(self.record[start]) for start, _ in group)):
                if self.left == 0:
                    self.stopped = True
                    return
                self.left -= 1
                self.progress(self.tries - self.left, self.tries)
                chosen = list(zip(group, choice))
                if self.won(chosen):
                    yield chosen
                    break

    def pairs(self):
        # the second begins behind the first: what is within another element goes with it
        return ((one, other) for one, other in itertools.combinations(self.opened, 2) if other[0] > one[1])

    def many(self, chosen):
        """Of these fillings, which turn the answer together, as many as are needed, as far as is tried."""
        for one in chosen[:self.tries]:
            others = [other for other in chosen if other is not one]
            if self.won(others):
                chosen = others
        return chosen

    def complete(self):
        return not self.stopped and not self.untried and all(complete for _, complete in self.known.values())


def remedies(search, origins):
    """Which open elements, filled by the record's own hand, turn the answer to yes: each alone; if none does, pairs; if none does, more."""
    tries = search.tries
    yield 'What would turn the answer to yes, if you filled it in yourself with what its form allows:'
    alone = list(search.among((element,) for element in search.opened))
    pairs = [] if alone else list(search.among(search.pairs()))
    for chosen in alone + pairs:
        lines = shown(search, origins, chosen)
        yield f"  {'both ' if len(lines) > 1 else ''}{lines[0]}"
        yield from (f'   and {line}' for line in lines[1:])
    if not alone and not pairs:
        enough, exact = fewest(search.job, tries)
        if enough is None and exact:
            yield '  nothing: whatever the open elements are filled with, the record ends outside the form'
            return
        tried = '' if search.complete() else ', as far as was tried'
        together = search.many(enough) if enough and search.won(enough) else []
        found = f'but these {len(together)} together' if len(together) > 1 else 'but this one'
        yield f'  no single element, and no two together{tried}' + (f'; {found}:' if together else '')
        yield from (f'    {line}' for line in shown(search, origins, together))
    if search.stopped:
        yield f"  (the search stopped after {tries:,} filling{'s' if tries > 1 else ''}; --tries N tries more)"
    elif not search.complete():
        yield '  (for some forms only the shortest fillings were tried)'


def shown(search, origins, chosen):
    """The elements with what they are filled with, a line for each."""
    record, opened = search.record, search.opened
    longer = len(record) + sum(len(filling.tags) - (end + 1 - start) for (start, end), filling in chosen) > MOST_TAGS
    lines = []
    for (start, end), filling in chosen:
        around = opened[start, end]
        line = f', line {origins[len(origins) - len(record) + start]}' if origins else ''
        what = sakonite.names(filling.tags) if filling.tags else 'nothing, which removes the element'
        deep = depth(filling.tags) + len(around) > DEEPEST_RECORD
        beyond = 'too deep' if deep else 'too long' if longer else ''
        lines.append(f"{'in ' + ', '.join(around) + ': ' if around else ''}{NAMES[record[start]]} (tags {start + 1} to {end + 1} of "
                     f'{len(record)}{line}), filled with: {what}'
                     + (f' (as the reply in a play; it is {beyond} to be written in the record)' if beyond else ''))
    return lines


# ---- a yes

def choices(job, levels):
    """What is advised at the first choices, and what each reply leads to, as lines; and what is said if there are more."""
    target = Target(job)
    lines, complete = [], True

    def follow(play, indent, levels):
        nonlocal complete
        while len(lines) < MOST_LINES:
            play.pass_by()
            advised = play.advice()
            if advised not in ('read', 'fetch'):
                lines.append(f'{indent}{SAID[advised]}')
                return
            if levels == 0:
                complete = False
                lines.append(f'{indent}{play.at()}{advised} ..')
                return
            levels -= 1
            lines.append(f"{indent}{play.at()}{advised}{', so leave it as it is' if advised == 'read' else ''}")
            if advised == 'fetch':
                code = play.ahead()[0] - 16
                kept = target.kept_at_end(play.finished())
                for reply in replies_by_state(job, code, kept).values():
                    branch(play, indent + '  ', levels, reply)
                return
            play.add(READ)
        complete = False

    def branch(play, indent, levels, reply):
        nonlocal complete
        if len(lines) >= MOST_LINES:
            complete = False
            return
        if reply == LONG:
            lines.append(f'{indent}a reply of more than {sakonite.MOST_TAGS:,} tags: it cannot arrive')
            return
        lines.append(f"{indent}{sakonite.names(reply) or 'the empty reply'}")
        try:
            play.add(sakonite.fetch(reply))
        except Refused:
            lines[-1] += ': too deep to arrive'
            return
        before = list(play.moves)
        follow(play, indent + '  ', levels)
        play.moves = before
        play.back()

    follow(Play(job), '  ', levels)
    if len(lines) >= MOST_LINES and not complete:
        return lines, f"There is more than {MOST_LINES} lines can show; 'sakonite play' goes on from any point."
    return lines, '' if complete else 'Where a line ends in .. there is more: --levels N shows N choices in a row.'
