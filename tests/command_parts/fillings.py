"""The search for what would turn a no to yes, on small random jobs: each filling by itself, and the remedies against all short replies."""

import itertools
import random
import re

import sakonite
from sakonite import DEEPEST_RECORD, Refused
from sakonite_command import replies, why
from sakonite_command.contents import RECORD, TARGET, assemble, bodies

from .agreement import takes
from .harness import check, equal, instead
from .jobs import BARN, example, forest, packed, random_job, lost_by

LONGEST = 6                # tags of the replies that are all tried


def run():
    rng = random.Random('fillings')
    jobs = [BARN, example('bell-frame.job'), packed(example('town-hall.txt')), packed(lost_by(7)), packed(lost_by(70))]
    while len(jobs) < 400:
        # a date and a note, something to put them in, and two open elements, of which the forms may have one
        codes = rng.sample([9, 11, 2], rng.choice([1, 2])) + rng.choice([[], [12], [15]])
        job = random_job(rng, rng.randint(2, 4), rng.randint(1, 3), rng.choice([2, 4, 8]), record(rng), codes + [12, 15])
        job = only_codes(rng, job, codes)
        try:
            if not sakonite.verdict(job) or rng.random() < 0.1:
                jobs.append(job)
        except Refused:
            pass
    each_filling(jobs)
    against_all(jobs[5:])


def record(rng):
    return forest(rng, rng.randint(2, 10), 3, [9, 11, 12, 12, 15, 15])


def only_codes(rng, job, codes):
    """The forms' rules with these codes alone."""
    parts = bodies(job)
    for role, body in parts.items():
        if role[0] != 2:
            continue
        new = bytearray(body)
        opening = int.from_bytes(body[3:5], 'little')
        for at in range(7, len(body), 4):
            new[at + (1 if at < 7 + 4 * opening else 2)] = rng.choice(codes)
        parts[role] = bytes(new)
    return assemble(parts)


def runs(target, state, word):
    """Where the deposit form ends, by its tables (SPEC 2.2, 2.3)."""
    n, table, kept = target[0], target[6:], []
    for tag in word:
        if tag < 16:
            kept.append(state)
            state = table[16 * state + tag]
        else:
            state = table[16 * n + 16 * (n * state + kept.pop()) + tag - 16]
    return state


def verdict(job):
    try:
        return sakonite.verdict(job)
    except Refused as refused:
        return refused.number


def each_filling(jobs):
    """Each filling is lawful, leads as it says, and counts the same whether it is written out or another element stands for it."""
    count, stood, bad = 0, 0, []
    for number, job in enumerate(jobs):
        target, word = bodies(job)[TARGET, 0], bodies(job)[RECORD, 0]
        opened = why.open_elements(word)
        for code in range(12, 16):
            for filling in replies.fillings(job, code)[0]:
                count += 1
                if not takes(job, code, filling.tags):
                    bad.append((number, code, filling, 'not taken'))
                if filling.leads != tuple(runs(target, state, filling.tags) for state in range(target[0])):
                    bad.append((number, code, filling, 'leads elsewhere'))
                if filling.left_open != bytes(tag for tag in filling.tags if 12 <= tag < 16):
                    bad.append((number, code, filling, 'left open'))
                places = [place for place in opened if word[place[0]] == code]
                if not places:
                    continue
                start, end = places[0]
                written = assemble({**bodies(job), (RECORD, 0): word[:start] + filling.tags + word[end + 1:]})
                plain = verdict(written)
                with instead(replies, 'DEEPEST_RECORD', -1):       # as if it were too deep
                    other = replies.filled(job, [((start, end), filling)])
                if other is None and not filling.left_open:
                    continue                                       # no code is free
                if other is not None and plain in (True, False):
                    stood += 1
                    if verdict(other) != plain:
                        bad.append((number, code, filling, 'another verdict'))
    equal('fillings: none is wrong', [], bad[:5])
    check(f'{count} fillings, {stood} of them with an element that stands for them', count > 2000 and stood > 500, count, stood)


def words(codes):
    """All words up to the longest, by their length."""
    by_length = {0: [b'']}
    for length in range(2, LONGEST + 1, 2):
        by_length[length] = [bytes([code]) + inner + bytes([16 + code]) + rest for within in range(0, length - 1, 2) for code in codes
                             for inner in by_length[within] for rest in by_length[length - 2 - within]]
    return list(itertools.chain(*by_length.values()))


def against_all(jobs):
    """Each remedy turns the answer. Where the search says that it was complete, all short replies find no other element."""
    told, together, many, searched, bad = 0, 0, 0, 0, []
    for number, job in enumerate(jobs):
        parts = bodies(job)
        word = parts[RECORD, 0]
        opened = why.open_elements(word)
        if sakonite.verdict(job) or not opened:
            continue
        lines = list(why.remedies(why.Search(job, 10 ** 6, lambda done, of: None), None))
        complete = not lines[-1].startswith('  (')
        named = dict(told_in(line) for line in lines[1:] if re.match(r'  (in |get)', line))
        pairs = [(told_in(one), told_in(other)) for one, other in zip(lines, lines[1:]) if one.startswith('  both ')]
        for ((start, end), reply), ((later, last), other) in pairs:
            both = word[:start] + reply + word[end + 1:later] + other + word[last + 1:]
            together += 1
            if replies.depth(both) <= DEEPEST_RECORD and verdict(assemble({**parts, (RECORD, 0): both})) is not True:
                bad.append((number, 'no pair', lines))
        group = [told_in(line) for line in lines if line.startswith('    ')]
        if group:
            many += 1
            filled_all = replies.put_in(word, group)
            if replies.depth(filled_all) <= DEEPEST_RECORD and verdict(assemble({**parts, (RECORD, 0): filled_all})) is not True:
                bad.append((number, 'not together', lines))
        known = {code: [reply for reply in words(used(parts, code)) if takes(job, code, reply)] for code in {word[at] for at, _ in opened}}
        for (start, end), around in opened.items():
            def filled(reply):
                return verdict(assemble({**parts, (RECORD, 0): word[:start] + reply + word[end + 1:]}))

            if (start, end) in named:
                told += 1
                reply = named[start, end]
                if not takes(job, word[start], reply) or replies.depth(reply) + len(around) <= DEEPEST_RECORD and filled(reply) is not True:
                    bad.append((number, 'no remedy', start, reply.hex()))
            elif complete:
                searched += 1
                missed = [reply for reply in known[word[start]] if filled(reply) is True]
                if missed:
                    bad.append((number, 'missed', start, missed[0].hex(), lines))
        if pairs and named:
            bad.append((number, 'pairs beside elements alone', lines))
    equal('remedies: none is wrong, none is missed', [], bad[:3])
    enough = told > 100 and together and searched > 100
    check(f'{told} remedies, {together} pairs, {many} of more elements, {searched} elements for which none is missed', enough)


def told_in(line):
    """The places and the filling that a line names."""
    found = re.search(r'\(tags (\d+) to (\d+) of \d+\), filled with: ([^:]*?)(?: \(as the reply.*)?$', line)
    return (int(found[1]) - 1, int(found[2]) - 1), b'' if found[3].startswith('nothing, ') else sakonite.tags(found[3])


def used(parts, code):
    """The codes in the rules of a form."""
    return sorted({rule['code'] for _, _, rule in replies.rules(parts[2, code])})
