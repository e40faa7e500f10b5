"""Jobs for the tests: the barn roof with lines or bytes changed, forms that count, and random ones."""

import os

from .harness import ROOT


def example(name):
    with open(os.path.join(ROOT, 'examples', name), 'rb') as file:
        return file.read()


def put(name, data):
    """A file in the current folder, which is a temporary one; its name."""
    if os.path.dirname(name):
        os.makedirs(os.path.dirname(name), exist_ok=True)
    with open(name, 'wb') as file:
        file.write(data if isinstance(data, bytes) else data.encode())
    return name


# ---- the barn roof

# Unpacked, it has these lines, to which changes and messages refer:
#   1 target  2 states  3 start  4 accepting  5 default  6 open 0 date  7 open 1 getmatch  8 close 0 0 date  9 close 1 1 getmatch
#   11 form getmatch  12 states  13 start  14 accepting  15 open  16 close     18 form getsap  19 states  20 start  21 accepting
#   23 form getspec  24 states  25 start  26 accepting  27, 28 open  29, 30 close
#   32 form getplace  33 states  34 start  35 accepting  36 open  37 close     39 record  40 getplace()  41 getmatch()
# and its job file these bodies: 26 target, 224 getmatch, 239 getsap, 246 getspec, 269 getplace, 284 record, to 288.
BARN = example('barn-roof.job')


def barn_text(changes):
    """The barn roof's text with other lines, given by their numbers."""
    from sakonite_command.unpack import unpack
    lines = unpack(BARN).decode().split('\n')
    for number, content in changes.items():
        lines[number - 1] = content
    return '\n'.join(lines)


def barn_with(record):
    """The barn roof's forms with another record, which begins in line 40."""
    return barn_text({40: record, 41: ''})


def barn_job(changes):
    """The barn roof's job file with other bytes, given by their places."""
    job = bytearray(BARN)
    for at, value in changes.items():
        job[at] = value
    return bytes(job)


def barn_bodies(changes):
    """The barn roof's job file with other bodies, given by kind and code; the contents fit them."""
    from sakonite_command.contents import assemble, bodies
    return assemble({**bodies(BARN), **changes})


def barn_forms(first=18):
    """The lines of the barn roof's forms from this one on."""
    return barn_text({}).split('\n')[first - 1:38]


# ---- forms that count

def tower(notes, accepting, into=31, out=30, more=()):
    """A job with the record getmatch, for which a date comes within any number of notes that is a multiple of 7. The target counts the
    notes by one number going in, and wants the date only where that count is right; it counts by another coming out. All else leads to
    state 31."""
    lines = ['target', 'states 32', 'start 0', 'default 31', 'accepting ' + ' '.join(map(str, accepting)), *more]
    lines += [f'open {notes % into} date -> 0', f'close 0 {notes % into} date -> 0']
    for q in range(into):
        lines.append(f'open {q} note -> {(q + 1) % into}')
        lines += [f'close {r} {q} note -> {(r + 1) % out}' for r in range(out)]
    lines += ['form getmatch', 'states 8', 'start 0', 'accepting 1', 'open 0 note date -> 0 keep 0', 'close 0 0 date -> 1']
    lines += [f'close {r} 0 note -> {r % 7 + 1}' for r in range(1, 8)]
    return '\n'.join([*lines, *barn_forms(), 'record', 'getmatch', ''])


def lost_by(notes):
    """A tower whose losing reply has so many notes: verdict yes, for the element may stay."""
    return tower(notes, [q for q in range(32) if q != notes % 30])


def packed(text):
    from sakonite_command.pack import pack
    return pack(text if isinstance(text, bytes) else text.encode())[0]


# ---- random ones

def forest(rng, tags, deepest, codes=range(16)):
    """A random word that is well nested."""
    word, opened = bytearray(), []
    while len(word) + len(opened) < tags:
        if opened and (rng.random() < 0.5 or len(opened) == deepest):
            word.append(16 + opened.pop())
        else:
            opened.append(rng.choice(codes))
            word.append(opened[-1])
    return bytes(word) + bytes(16 + code for code in reversed(opened))


def random_target(rng, states, codes=range(16)):
    """Codes outside those given lead to state 0 all through."""
    table = bytearray(16 * states + 16 * states * states)
    for at in range(len(table)):
        if at % 16 in codes:
            table[at] = rng.randrange(states)
    accepting = rng.randrange(1, 1 << states)
    return bytes([states, rng.randrange(states)]) + accepting.to_bytes(4, 'little') + bytes(table)


def random_form(rng, states, opening, closing, codes=range(16)):
    def state():
        return rng.randrange(states)
    body = bytes([states, state(), rng.randrange(1, 1 << states)]) + opening.to_bytes(2, 'little') + closing.to_bytes(2, 'little')
    body += b''.join(bytes([state(), rng.choice(codes), state(), state()]) for _ in range(opening))
    return body + b''.join(bytes([state(), state(), rng.choice(codes), state()]) for _ in range(closing))


def random_job(rng, states, form_states, most_rules, record, codes=range(16)):
    """A job with a random target and random forms; the loader may refuse it."""
    from sakonite_command.contents import ROLES, assemble
    bodies = {}
    for kind, code in ROLES:
        if kind == 1:
            bodies[kind, code] = random_target(rng, states, codes)
        elif kind == 2:
            bodies[kind, code] = random_form(rng, form_states, rng.randint(0, most_rules), rng.randint(0, most_rules), codes)
        else:
            bodies[kind, code] = record
    return assemble(bodies)
