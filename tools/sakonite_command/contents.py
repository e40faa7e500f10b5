"""A job file's six entries: where their bodies are, and the file that is made of them (SPEC 6.2 to 6.5)."""

from sakonite import CODES, FETCHABLE, LARGEST_FILE, SMALLEST_FILE

from .files import Bad

TARGET, REPLY, RECORD = 1, 2, 3
# kind and code of each entry, in the order that the loader asks for, and what messages call it
ROLES = {(TARGET, 0): 'the target', **{(REPLY, CODES[name]): f'form {name}' for name in FETCHABLE}, (RECORD, 0): 'the record'}

LONGEST_BODY = 65535       # a body's length has two bytes in the contents


def assemble(bodies):
    """The job file of six bodies, given by role in any order."""
    contents = b'\x06\x00'
    for role in ROLES:
        contents += bytes(role) + len(bodies[role]).to_bytes(2, 'little')
    return contents + b''.join(bodies[role] for role in ROLES)


def entries(job):
    """Offset and body of the six entries by role, in the order of the file, which need not be the one that the loader asks for."""
    if len(job) < SMALLEST_FILE:
        raise Bad(f'the file has {len(job)} bytes; its contents alone take {SMALLEST_FILE}', byte=len(job))
    count = int.from_bytes(job[:2], 'little')
    if count != len(ROLES):
        raise Bad(f'the number of entries is {count}; a job file has {len(ROLES)}', byte=0)
    found, offset = {}, SMALLEST_FILE
    for at in range(2, SMALLEST_FILE, 4):
        kind, c, length = job[at], job[at + 1], int.from_bytes(job[at + 2:at + 4], 'little')
        number = (at + 2) // 4
        if (kind, c) not in ROLES:
            raise Bad(f'entry {number} has kind {kind} with code {c}; a job file has kind 1 with code 0, kind 2 with 12, 13, 14 and 15, '
                      'and kind 3 with 0', byte=at)
        title = ROLES[kind, c]
        if (kind, c) in found:
            raise Bad(f'entry {number} is for {title}, which already has an entry', byte=at)
        if offset + length > len(job):
            raise Bad(f'entry {number}, {title}: its body of {length} bytes would end at byte {offset + length}, '
                      f'but the file has {len(job)}', byte=at + 2)
        found[kind, c] = offset, job[offset:offset + length]
        offset += length
    if offset != len(job):
        raise Bad(f'the bodies end at byte {offset}, but the file has {len(job)}', byte=offset)
    return found


def bodies(job):
    """The bodies alone."""
    return {role: body for role, (_, body) in entries(job).items()}


def sort(job):
    if len(job) > LARGEST_FILE:
        raise Bad(f'the file has more than {LARGEST_FILE:,} bytes, so it is not a job file', byte=LARGEST_FILE)
    return assemble(bodies(job))


def order_note(job):
    """What is said of a file that only `sort` makes a job file; a longer file is refused for its size."""
    if len(job) <= LARGEST_FILE and list(entries(job)) != list(ROLES):
        return "the entries are not in the order of a job file (refusal 12); 'sakonite sort' puts them in order"
    return None
