"""What the command finds by itself against what is proved: faults against the library's numbers, replies against the program verdict."""

import random
import subprocess

import sakonite
from sakonite import DEEPEST_REPLY, MOST_RULES, READ, Refused
from sakonite_command.contents import RECORD, REPLY, TARGET, assemble, bodies
from sakonite_command.faults import faults
from sakonite_command.replies import LONG, depth, replies_by_state

from .harness import PROGRAM, check, equal
from .jobs import BARN, example, forest, packed, random_form, random_job, lost_by


def run():
    bases = [BARN, example('bell-frame.job'), packed(example('town-hall.txt'))]
    numbers = set()
    for kind, damage, count in (('bytes', bytes_changed, 20000), ('bodies', bodies_changed, 20000), ('sizes', sizes_changed, 3000)):
        rng = random.Random(kind)
        numbers |= compare_faults(kind, (damage(rng, bases) for _ in range(count)))
    equal('faults: every number that a file can have', {0, 11, 12, 13, 14, 15, 16, 17}, numbers)
    listings()


# ---- faults

def compare_faults(kind, jobs):
    """The first fault that is found has the number that the library gives, and there is none where the library gives none. The numbers."""
    numbers, bad = set(), 0
    for count, job in enumerate(jobs):
        first = next(faults(job), None)
        try:
            sakonite.check(job)
            number = 0
        except Refused as refused:
            number = refused.number
        numbers.add(number)
        if (first.number if first else 0) != number:
            bad += 1
            if bad <= 3:
                print(f'{kind} {count}: the library says {number}, found was {first}: {job.hex()[:4000]}')
    equal(f'faults: {kind}', 0, bad)
    return numbers


def bytes_changed(rng, bases):
    """Some bytes changed, left out or put in."""
    job = bytearray(rng.choice(bases))
    for _ in range(rng.randint(1, 3)):
        at = rng.choice([rng.randrange(len(job)), rng.randrange(26), rng.randrange(26, 40), len(job) - rng.randint(1, 60)]) % len(job)
        what = rng.random()
        if what < 0.8:
            job[at] = rng.choice([rng.randrange(256), rng.randrange(32), 0, 1, 2, 3])
        elif what < 0.9:
            del job[at]
        else:
            job.insert(at, rng.randrange(32))
    return bytes(job)


def bodies_changed(rng, bases):
    """Bodies changed or exchanged, with contents that fit them."""
    parts = bodies(rng.choice(bases))
    for _ in range(rng.randint(1, 2)):
        what = rng.random()
        role = rng.choice(list(parts))
        form = REPLY, rng.choice(range(12, 16))
        if what < 0.3:         # a form that accepts in other states
            body = parts[form]
            parts[form] = body[:2] + bytes([rng.randrange(8) if len(body) > 2 and body[0] == 3 else rng.randrange(256)]) + body[3:]
        elif what < 0.5:       # an element more around a part of the record
            word = bytearray(parts[RECORD, 0])
            at, code = rng.randrange(len(word) + 1), rng.randrange(16)
            end = rng.randrange(at, len(word) + 1)
            word[at:at] = bytes([code])
            word[end + 1:end + 1] = bytes([16 + code])
            parts[RECORD, 0] = bytes(word)
        elif what < 0.7:
            parts[RECORD, 0] = forest(rng, rng.randint(0, 40), rng.randint(1, 6))
        elif what < 0.85:
            states = rng.randint(1, 8)
            parts[form] = random_form(rng, states, rng.randint(0, 6), rng.randint(0, 6), rng.sample(range(16), 3))
        elif what < 0.95:
            body = bytearray(parts[role])
            if body:
                body[rng.randrange(len(body))] = rng.randrange(40)
            parts[role] = bytes(body)
        else:
            parts[role] = parts[rng.choice(list(parts))]
    return assemble(parts)


def sizes_changed(rng, bases):
    """Numbers of states and rules, masks, lengths of records and files at their bounds and beyond."""
    parts = bodies(bases[0])
    what = rng.randrange(7)
    if what == 0:
        states = rng.choice([1, 2, 31, 32, 33])
        mask = rng.choice([1 << states, (1 << states) - 1, 1]).to_bytes(5, 'little')[:4]
        table = bytearray([rng.randrange(states)] * (16 * states + 16 * states * states))
        table[rng.randrange(len(table))] = rng.choice([states - 1, states - 1, states, 255])
        told, start = rng.choice([states, states, states, 0, 33, 255]), rng.choice([states - 1, states - 1, states])
        parts[TARGET, 0] = bytes([told, start]) + mask + table
    elif what == 1:
        parts[TARGET, 0] = bytes([rng.choice([0, 1, 3, 33, 255]), rng.choice([0, 1, 255])]) + bytes(rng.randrange(0, 40))
    elif what in (2, 3):
        counts = [rng.choice([0, 1, MOST_RULES - 1, MOST_RULES, MOST_RULES + 1]) for _ in range(2)]
        body = bytearray(random_form(rng, 8, *counts, rng.sample(range(16), 2)))
        body[0] = rng.choice([8, 8, 8, 7, 9, 0, 255])
        body[2] = rng.choice([1, 128, 255, 0])
        parts[REPLY, rng.choice(range(12, 16))] = bytes(body)
    elif what in (4, 5):
        parts[RECORD, 0] = forest(rng, rng.choice([0, 4094, 4096, 4098, 4100]), rng.choice([1, 4, 4, 5]))
        if rng.random() < 0.2:
            parts[RECORD, 0] = parts[RECORD, 0][:-1]
    else:
        largest = assemble({**parts, (RECORD, 0): bytes(37436 - 284 + rng.choice([-1, 0, 1]))})
        return rng.choice([largest, largest[:rng.choice([0, 1, 25, 26, 27])]])
    return assemble(parts)


# ---- replies

def asked(job, code):
    """The job with nothing but an open element of this code."""
    return assemble({**bodies(job), (RECORD, 0): bytes([code, 16 + code])})


def takes(job, code, reply):
    """Whether the library takes this as a reply for the code."""
    try:
        sakonite.advice(asked(job, code), READ + sakonite.fetch(reply))
        return True
    except Refused:
        return False


def listings():
    """The program verdict lists for each code and state the states that replies lead to, with the least number of tags."""
    rng = random.Random('listings')
    jobs = [BARN, example('bell-frame.job'), packed(example('town-hall.txt')), packed(example('gatehouse.txt')), packed(lost_by(7))]
    while len(jobs) < 120:
        codes = rng.sample(range(16), 3)
        job = random_job(rng, rng.randint(1, 5), rng.randint(1, 4), rng.choice([2, 6, 14]), b'\x0c\x1c', codes)
        try:
            sakonite.check(job)
            jobs.append(job)
        except Refused:
            pass
    lines, taken, long = 0, 0, 0
    for count, job in enumerate(jobs):
        first, *said = subprocess.run([PROGRAM], input=job, capture_output=True, check=False).stdout.decode().splitlines()
        if first != f"verdict {'yes' if sakonite.verdict(job) else 'no'}":
            check(f'job {count}: the verdict', False, first, job.hex()[:2000])
        if len(said) != 4 * bodies(job)[TARGET, 0][0]:
            check(f'job {count}: a line for each code and state', False, len(said), job.hex()[:2000])
        if len(said) == 128:
            said = [said[0], said[7], said[31]]        # of the tower, which takes long, three lines for the one form that it is about
        for line in said:
            name, state = line.split(':')[0].split()
            found = replies_by_state(job, sakonite.CODES[name], int(state))
            own = ' '.join([f'{name} {state}:', *(f'{goal}/{LONG if reply == LONG else len(reply)}' for goal, reply in found.items())])
            if own != line:
                check(f'job {count}: replies as verdict lists them', False, own, line, job.hex()[:2000])
            for reply in found.values():
                long += reply == LONG
                if reply != LONG and depth(reply) <= DEEPEST_REPLY:
                    taken += 1
                    if not takes(job, sakonite.CODES[name], reply):
                        check(f'job {count}: a reply that the library takes', False, name, reply.hex())
        lines += len(said)
    enough = lines > 1000 and taken > 1000 and long
    check(f'{lines} lines as verdict lists them, {taken} replies taken, {long} too long', enough)
