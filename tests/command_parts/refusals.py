"""`sakonite why` of job files that are refused: each fault with its number, its byte and the entry in which that is."""

import sakonite
from sakonite_command.contents import bodies

from .harness import equal, program, says
from .jobs import BARN, barn_bodies, barn_job, barn_with, packed, put

# where the bodies begin
BEGIN = {'the target': 26, 'form getmatch': 224, 'form getsap': 239, 'form getspec': 246, 'form getplace': 269, 'the record': 284}
STATES = 'has 3 states, 0 to 2'


def run():
    sizes_and_contents()
    targets()
    forms()
    records()
    together()
    empty_bodies()


def refused(name, job, number, *told):
    put('x.job', job)
    lines = [f'x.job: refused {number}: {sakonite.REFUSALS[number]}', *(f'  {line}' for line in told)]
    return says(f'refused {number}: {name}', 2, lines, '', 'why', 'x.job')


def at(byte, message):
    """A message with its place in the barn roof's file."""
    entry = [entry for entry, begin in BEGIN.items() if begin <= byte][-1]
    return f'byte {byte}, which is byte {byte - BEGIN[entry]} of {entry}: {message}'


def sizes_and_contents():
    due = 'a job file has 26 to 37,436 bytes'
    refused('no bytes', b'', 11, f'byte 0: its size is 0; {due}')
    refused('25 bytes', BARN[:25], 11, f'byte 25: its size is 25; {due}')
    refused('37,437 bytes', bytes(37437), 11, f'byte 37436: its size is 37,437; {due}')
    put('longer', bytes((1 << 24) + 100))      # more than is read
    equal('refused 11: more than is read', f'  byte 37436: its size is more than 16,777,216; {due}'.encode(),
          program('why', 'longer').out.split(b'\n')[1])
    refused('a text without a section', b'a letter to the archive', 11, f'byte 23: its size is 23; {due}',
            'It looks like a text, but none of its lines begins a section: target, form or record.')
    refused('the number of entries', barn_job({0: 5}), 12, 'byte 0: the number of entries is 5; a job file has 6')
    refused('a kind', barn_job({6: 9}), 12, 'byte 6: entry 2 has kind 9 with code 12; expected form getmatch, kind 2 with code 12')
    refused('a code', barn_job({23: 1}), 12, 'byte 23: entry 6 has kind 3 with code 1; expected the record, kind 3 with code 0')
    refused('an entry twice', barn_job({11: 12}), 12,
            'byte 11: entry 3 has kind 2 with code 12 (form getmatch); expected form getsap, kind 2 with code 13')
    refused('two entries', barn_job({2: 3, 7: 0}), 12,
            'byte 2: entry 1 has kind 3 with code 0 (the record); expected the target, kind 1 with code 0',
            'byte 7: entry 2 has kind 2 with code 0; expected form getmatch, kind 2 with code 12')
    for given, end in (5, 289), (3, 287):
        refused(f'a record of {given} tags', barn_job({24: given}), 12,
                f'byte 24: 26 and the six lengths add up to {end} bytes, but the file has 288')
    refused("the target's length", barn_job({4: 199}), 12, 'byte 4: 26 and the six lengths add up to 289 bytes, but the file has 288; '
            'entry 1, the target, says 199, but by its first bytes its body takes 198')
    refused("a form's length", barn_job({12: 11}), 12, 'byte 12: 26 and the six lengths add up to 292 bytes, but the file has 288; '
            'entry 3, form getsap, says 11, but by its first bytes its body takes 7')
    swapped = BARN[:6] + BARN[10:14] + BARN[6:10] + BARN[14:224] + BARN[239:246] + BARN[224:239] + BARN[246:]
    refused('another order', swapped, 12,
            'byte 7: entry 2 has kind 2 with code 13 (form getsap); expected form getmatch, kind 2 with code 12; '
            "'sakonite sort' puts them in order",
            'byte 11: entry 3 has kind 2 with code 12 (form getmatch); expected form getsap, kind 2 with code 13')
    says('another order: sorted', 0, '', '', 'sort', 'x.job')
    with open('x.job', 'rb') as file:
        equal('another order: the one order', BARN, file.read())


def targets():
    n = 'the target ' + STATES
    refused('no states', barn_job({26: 0}), 13, at(26, 'the target has 0 states; 1 to 32 are allowed'),
            at(26, "the target's body has 198 bytes, but with 0 states it must have 6"))
    refused('33 states', barn_job({26: 33}), 13, at(26, 'the target has 33 states; 1 to 32 are allowed'),
            at(26, "the target's body has 198 bytes, but with 33 states it must have 17,958"))
    refused('a body of 2 bytes', barn_bodies({(1, 0): b'\x03\0'}), 13,
            at(26, "the target's body has 2 bytes; its first part alone takes 6"))
    for place, value, message in (
            (27, 3, 'the start state is 3'), (28, 0x0a, 'state 3 is accepting'), (31, 0x80, 'state 31 is accepting'),
            (32, 3, 'open 0 project leads to state 3'), (79, 255, 'open 2 getplace leads to state 255'),
            (80, 3, 'close 0 0 project leads to state 3'), (169, 7, 'close 1 2 date leads to state 7')):
        refused(message, barn_job({place: value}), 13, at(place, f'{message}, but {n}'))
    one = bytes([1, 1, 1, 0, 0, 0]) + bytes(32)
    refused('one state', barn_bodies({(1, 0): one}), 13, at(27, 'the start state is 1, but the target has one state, 0'))
    refused('many faults', barn_job({place: 3 for place in range(32, 80)}), 13,
            *(at(32 + i, f'open 0 {sakonite.NAMES[i]} leads to state 3, but {n}') for i in range(10)), 'and 38 more')


def forms():
    n = 'form getmatch ' + STATES
    refused('no states', barn_job({224: 0}), 14, at(224, 'form getmatch has 0 states; 1 to 8 are allowed'))
    refused('9 states', barn_job({224: 9}), 14, at(224, 'form getmatch has 9 states; 1 to 8 are allowed'))
    refused('a body of 3 bytes', barn_bodies({(2, 12): b'\1\0\1'}), 14,
            at(224, 'the body of form getmatch has 3 bytes; its first part alone takes 7'))
    for place, sort, counts in ((227, 'opening', '513 opening and 1 closing'), (229, 'closing', '1 opening and 513 closing')):
        refused(f'513 {sort} rules', barn_job({place: 1, place + 1: 2}), 14,
                at(place, f'form getmatch has 513 {sort} rules; at most 512 are allowed'),
                at(227, f'the body of form getmatch has 15 bytes, but with {counts} rules it must have 2,063'))
    for place, value, message in (
            (225, 3, 'the start state is 3'), (226, 0x0c, 'state 3 is accepting'),
            (231, 3, 'opening rule 1 of form getmatch, open 3 date -> 1 keep 0, has 3 as its state'),
            (233, 4, 'opening rule 1 of form getmatch, open 0 date -> 4 keep 0, has 4 as its next state'),
            (234, 5, 'opening rule 1 of form getmatch, open 0 date -> 1 keep 5, has 5 as its kept state'),
            (235, 3, 'closing rule 1 of form getmatch, close 3 0 date -> 2, has 3 as its state'),
            (236, 4, 'closing rule 1 of form getmatch, close 1 4 date -> 2, has 4 as its kept state'),
            (238, 5, 'closing rule 1 of form getmatch, close 1 0 date -> 5, has 5 as its next state')):
        refused(message, barn_job({place: value}), 14, at(place, f'{message}, but {n}'))
    refused('a code, opening', barn_job({232: 16}), 14, at(232, 'opening rule 1 of form getmatch has code 16; codes are 0 to 15'))
    refused('a code, closing', barn_job({237: 99}), 14, at(237, 'closing rule 1 of form getmatch has code 99; codes are 0 to 15'))
    refused('a code and a state', barn_job({231: 7, 232: 16}), 14, at(231, f'opening rule 1 of form getmatch has 7 as its state, but {n}'),
            at(232, 'opening rule 1 of form getmatch has code 16; codes are 0 to 15'))
    refused('the last rule', barn_job({268: 3}), 14,
            at(268, 'closing rule 2 of form getspec, close 1 0 note -> 3, has 3 as its next state, but form getspec ' + STATES))
    one = 'but form getsap has one state, 0'
    refused('one state', barn_job({240: 1}), 14, at(240, f'the start state is 1, {one}'))
    each = '; each form needs one, if only the empty reply'
    refused('none accepting', barn_job({241: 0}), 17, at(241, f'form getsap has no lawful reply: none of its states is accepting{each}'))
    refused('accepting not reached', barn_job({226: 2}), 17,
            at(226, 'form getmatch has no lawful reply: whole elements lead from its start state 0 only to 0 2 (accepting: 1)' + each))


def records():
    def with_record(word):
        return barn_bodies({(3, 0): word})

    refused('4,098 tags', with_record(b'\x0b\x1b' * 2049), 15, at(284 + 4096, 'the record has 4,098 tags; at most 4,096 are allowed'))
    refused('no tag', with_record(b'\x0b\x20\x1b\xff'), 15, at(285, 'byte 32 in the record is not a tag; tags are 0 to 31'),
            at(287, 'byte 255 in the record is not a tag; tags are 0 to 31'))
    refused('another is open', with_record(b'\x0f\x0c\x1f\x20'), 15, at(286, "'getplace' is closed in the record where 'getmatch' is open"))
    refused('nothing is open', with_record(b'\x1f\x20'), 15, at(284, "'getplace' is closed in the record where nothing is open"))
    refused('not closed', with_record(b'\x01\x0f\x1f'), 15, at(287, "the record ends before 'object' is closed"))
    deep = "'{}' is within {}: 5 elements are open together; at most 4 are allowed{}"
    hint = '; leave the project out, and begin with its objects'
    project = packed(barn_with('project(object(element(sample(species series))))'))
    around = 'project, object, element, sample'
    refused('too deep', project, 16, at(288, deep.format('species', around, hint)), at(290, deep.format('series', around, hint)))
    refused('too deep, without a project', packed(barn_with('object(element(sample(date(match))))')), 16,
            at(288, deep.format('match', 'object, element, sample, date', '')))


def together():
    """Faults of several numbers come in the loader's order, and the first decides."""
    n = 'the target ' + STATES
    target = at(27, f'the start state is 3, but {n}')
    form = at(225, f'the start state is 3, but form getmatch {STATES}')
    reply = at(241, 'form getsap has no lawful reply: none of its states is accepting; each form needs one, if only the empty reply')
    record = at(284, "'getplace' is closed in the record where nothing is open")
    changes = [({27: 3}, 13, target), ({225: 3}, 14, form), ({241: 0}, 17, reply), ({284: 31}, 15, record)]
    for first in range(len(changes)):
        chosen = changes[first:]
        job = barn_job({at_: value for change, _, _ in chosen for at_, value in change.items()})
        told = [line + ('' if number == chosen[0][1] else f' (refused {number}, once the others are fixed)') for _, number, line in chosen]
        refused(f'{len(chosen)} faults together', job, chosen[0][1], *told)


def empty_bodies():
    """Bodies without a byte begin where the next one does; each fault is shown in its own."""
    job = barn_bodies({role: b'' for role in bodies(BARN)})
    told = ["the target's body has 0 bytes; its first part alone takes 6"]
    told += [f'the body of form {name} has 0 bytes; its first part alone takes 7 (refused 14, once the others are fixed)'
             for name in sakonite.FETCHABLE]
    refused('no bodies', job, 13, *(f'byte 26, which is byte 0 of {title}: {line}' for title, line in zip(BEGIN, told)))
