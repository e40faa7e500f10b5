"""Texts: what `pack` warns of and `why` tells, with the line; what no job file can be made of; and what cannot be unpacked."""

import os

import sakonite
from sakonite_command import contents, files

from .harness import check, command, equal, instead, says
from .jobs import BARN, barn_bodies, barn_job, barn_text, barn_with, put

STATES = 'has 3 states, 0 to 2'
HINT = '; leave the project out, and begin with its objects'
EACH = '; each form needs one, if only the empty reply'
VALUES = 'Values are not written here, only the elements that would hold them: species, not species(oak)'


def run():
    warnings()
    bad_texts()
    not_unpacked()
    sorting()
    rewriting()


def lines(rule, count):
    return '\n'.join([rule] * count)


def warnings():
    deep = "'{}' is within {}: 5 elements are open together; at most 4 are allowed{}"
    for number, line, message, text in (
            (16, 40, deep.format('species', 'project, object, element, sample', HINT),
             barn_with('project(object(element(sample(species))))')),
            (16, 42, deep.format('match', 'object, element, sample, date', ''), barn_with('object(element(\nsample(\ndate(match))))')),
            (13, 2, 'the target has 33 states; 1 to 32 are allowed', barn_text({2: 'states 33'})),
            (13, 2, 'the target has 0 states; 1 to 32 are allowed', barn_text({2: 'states 0', 6: '', 7: '', 8: '', 9: ''})),
            (13, 3, f'the start state is 3, but the target {STATES}', barn_text({3: 'start 3'})),
            (13, 4, f'state 31 is accepting, but the target {STATES}', barn_text({4: 'accepting 1 31'})),
            (13, 6, f'open 0 date leads to state 3, but the target {STATES}', barn_text({6: 'open 0 date -> 3'})),
            (13, 9, f'close 1 1 getmatch leads to state 255, but the target {STATES}', barn_text({9: 'close 1 1 getmatch -> 255'})),
            (14, 12, 'form getmatch has 9 states; 1 to 8 are allowed', barn_text({12: 'states 9'})),
            (14, 12, 'form getmatch has 0 states; 1 to 8 are allowed', barn_text({12: 'states 0'})),
            (14, 527, 'form getmatch has 513 opening rules; at most 512 are allowed',
             barn_text({15: lines('open 0 date -> 1 keep 0', 513)})),
            (14, 528, 'form getmatch has 513 closing rules; at most 512 are allowed', barn_text({16: lines('close 1 0 date -> 2', 513)})),
            (14, 13, f'the start state is 3, but form getmatch {STATES}', barn_text({13: 'start 3'})),
            (14, 21, 'state 7 is accepting, but form getsap has one state, 0', barn_text({21: 'accepting 0 7'})),
            (14, 15, f'opening rule 1 of form getmatch, open 0 date -> 3 keep 0, has 3 as its next state, but form getmatch {STATES}',
             barn_text({15: 'open 0 date -> 3 keep 0'})),
            (14, 16, f'closing rule 1 of form getmatch, close 1 3 date -> 2, has 3 as its kept state, but form getmatch {STATES}',
             barn_text({16: 'close 1 3 date -> 2'})),
            (14, 30, f'closing rule 2 of form getspec, close 9 0 note -> 2, has 9 as its state, but form getspec {STATES}',
             barn_text({30: 'close 9 0 note -> 2'})),
            (17, 21, f'form getsap has no lawful reply: none of its states is accepting{EACH}', barn_text({21: 'accepting none'})),
            (17, 14, f'form getmatch has no lawful reply: whole elements lead from its start state 0 only to 0 2 (accepting: 1){EACH}',
             barn_text({14: 'accepting 1'})),
            (15, 2088, 'the record has 4,098 tags; at most 4,096 are allowed', barn_with(lines('note', 2049))),
            (11, 18616, 'its size is 40,284; a job file has 26 to 37,436 bytes', barn_with(lines('note', 20000)))):
        put('x.txt', text)
        if os.path.exists('x.job'):
            os.remove('x.job')
        warning = f'x.txt:{line}: warning: this will be refused ({number}): {message}'
        says(f'pack warns: {message}', 0, '', [warning], 'pack', 'x.txt', 'x.job')
        check(f'packed all the same: {message}', os.path.exists('x.job'))
        refused = f'refused {number}: {sakonite.REFUSALS[number]}'
        says(f'why of the text: {message}', 2, [f'x.txt: {refused}', f'  line {line}: {message}'], '', 'why', 'x.txt')
        says(f'verdict of what was packed: {message}', 2, [f'x.job: {refused}'], '', 'verdict', 'x.job')
    put('x.txt', barn_text({5: 'default 3'}))
    message = f'open 0 project leads to state 3, but the target {STATES} (and 187 more on this line)'
    warning = f'x.txt:5: warning: this will be refused (13): {message}'
    says('pack: the faults of a line together', 0, '', [warning], 'pack', 'x.txt', 'x.job')
    equal('why: the same', [f'  line 5: {message}'], command('why', 'x.txt').out.splitlines()[1:])
    rules = [f'open 0 {name} -> 3' for name in sakonite.NAMES if name not in ('date', 'getmatch')]
    put('x.txt', barn_text({9: 'close 1 1 getmatch -> 1\n' + '\n'.join(rules)}))
    told = command('pack', 'x.txt', 'x.job')
    equal('pack: ten warnings, and the rest counted', (0, 11, 'x.txt: warning: and 4 more'),
          (told.status, len(told.err.splitlines()), told.err.splitlines()[-1]))
    equal('why: ten lines, and the rest counted', ['  and 4 more'], command('why', 'x.txt').out.splitlines()[11:])


def bad(line, message, changes):
    """The barn roof's text, changed, is not packed; `pack`, `why`, `verdict` and `play` say where."""
    text = changes if isinstance(changes, (str, bytes)) else barn_text(changes)
    put('bad.txt', text)
    says(f'pack, bad text: {message}', 2, '', [f'bad.txt:{line}: {message}'], 'pack', 'bad.txt', 'bad.job')
    check(f'nothing written: {message}', not os.path.exists('bad.job'))
    if not isinstance(text, bytes) and 'section' not in message and len(text) < 50000:
        for asked in 'why', 'play':
            says(f'{asked}, bad text: {message}', 2, '', [f'bad.txt:{line}: {message}'], asked, 'bad.txt')
        says(f'verdict, bad text: {message}', 2, [f'bad.txt: error: line {line}: {message}'], '', 'verdict', 'bad.txt')


def bad_whole(message, data):
    """The fault is of no line."""
    put('bad.txt', data)
    says(f'pack, no text: {message}', 2, '', [f'bad.txt: {message}'], 'pack', 'bad.txt', 'bad.job')


def bad_texts():
    bad(2, "the number of states must be a number from 1 to 32, not 'three'", {2: 'states three'})
    bad(4, "a state must be a number from 0 to 31, not '32'", {4: 'accepting 32'})
    bad(4, "'accepting' needs states, or the word none", {4: 'accepting'})
    bad(3, "'start' needs one number", {3: 'start 0 1'})
    bad(1, "the target has no 'start' line", {3: ''})
    bad(4, "'start' was already given, at line 3", {4: 'start 0'})
    bad(8, "'shut' does not belong in the target; expected states, start, accepting, default, open or close", {8: 'shut 0 0 date -> 1'})
    bad(16, "'default' does not belong in form getmatch; expected states, start, accepting, open or close", {16: 'default 2'})
    for word, near in (('oak', 'note, date, place'), ('1742', 'species, series, sapwood'), ('sapwod', 'sapwood, sample, getsap')):
        bad(6, f"'{word}' is not in the vocabulary; the nearest names are {near}. {VALUES}", {6: f'open 0 {word} -> 0'})
        bad(41, f"'{word}' is not in the vocabulary; the nearest names are {near}. {VALUES}", {41: word})
    between = 'write names as in object(place date), with only blanks and round brackets between them'
    for word, hint in (('Date', 'names are in lower case: date'), ('<date/>', between), ('date,', between)):
        bad(6, f"'{word}' is not in the vocabulary; {hint}", {6: f'open 0 {word} -> 0'})
    blanks = ', with blanks between the words'
    bad(6, f"a rule of the target is written 'open STATE NAME.. -> STATE'{blanks}", {6: 'open 0 date to 0'})
    bad(8, f"a rule of the target is written 'close STATE KEPT NAME.. -> STATE'{blanks}", {8: 'close 0 date -> 1'})
    bad(7, "'open 0 date' was already given, at line 6", {7: 'open 0 note date -> 1'})
    bad(2, '64 states do not fit in a job file; at most 32 are allowed', {2: 'states 64'})
    bad(7, 'this rule is for state 3, but the target has 3 states, 0 to 2', {7: 'open 3 getmatch -> 1'})
    bad(1, "the target has no rule 'open 0 project' and no default", {5: ''})
    bad(15, f"a rule of a form is written 'open STATE NAME.. -> NEXT keep KEPT'{blanks}", {15: 'open 0 date -> 1'})
    bad(16, f"a rule of a form is written 'close STATE KEPT NAME.. -> NEXT'{blanks}", {16: 'close 1 0 date 2'})
    bad(4, "a state must be a number from 0 to 31, not '0,'; separate several with blanks", {4: 'accepting 0, 1'})
    bad(8, "'Target:' does not belong in the target; expected states, start, accepting, default, open or close; did you mean the heading "
        "'target'?", {8: 'Target:'})
    bad(1107, 'form getmatch has more rules than fit in a job file; at most 512 of each sort are allowed',
        {15: lines(f"open 0 {' '.join(15 * ['date'])} -> 1 keep 0", 2000)})
    bad(11, "'form' needs one of getmatch, getsap, getspec, getplace", {11: 'form date'})
    bad(39, "'record' must stand alone on its line", {39: 'record date()'})
    bad(18, 'form getmatch was already given, at line 11', {18: 'form getmatch'})
    bad(1, "'hello' comes before any section; a section starts with target, form or record", {1: 'hello'})
    bad(40, 'this line is not in UTF-8; save the text as UTF-8', barn_text({}).encode().replace(b'getplace()', b'\xff'))
    bad(38, 'the text ends without the record', barn_text({39: '', 40: '', 41: ''}).rstrip('\n ') + '\n\n')
    bad(41, 'the text ends without form getsap; if only the empty reply can come, it is: states 1, start 0, accepting 0',
        {18: '', 19: '', 20: '', 21: ''})
    bad(40, "'(' without a name before it", {40: '()'})
    bad(41, "')' without an open element", {41: 'getmatch())'})
    bad(40, "'getplace(' is never closed; expected its ')' at the end of the line", {40: 'date getplace(note', 41: ''})
    bad(40, "'getplace(' is never closed; expected its ')' at the end of line 41", {40: 'getplace(', 41: '  note'})
    bad(42, "'sample(' is never closed; expected its ')' before line 43",
        {40: '  object(\n    element(\n      sample(\n    )\n  )', 41: ''})
    bad(43, "')' without an open element; by the indents, the extra one is at line 41",
        {40: 'object(', 41: '  element(date))\n  note\n)'})
    bad(40, 'more than 64 elements are open together; at most 4 are allowed', {40: 65 * 'object(' + 65 * ')'})
    bad(32807, 'the record has more tags than fit in a job file; at most 4,096 are allowed', {40: lines('note', 32770), 41: ''})
    bad_whole('this is a text in UTF-16; save it as UTF-8', barn_text({}).encode('utf-16'))
    bad_whole('this is a job file, not a text', BARN)
    put('mine.txt', barn_text({}))
    put('other.txt', barn_text({}))
    says('pack over a text', 2, '', ['mine.txt: other.txt exists and is not a job file, so it is not overwritten'],
         'pack', 'mine.txt', 'other.txt')
    says('unpack over a file', 2, '', ['other.txt: File exists'], 'unpack', '-', 'other.txt', given=BARN)
    for asked in 'unpack', 'sort':
        says(f'{asked} a text', 2, '', ["mine.txt: this is a text, not a job file; 'sakonite pack' makes a job file of it"],
             asked, 'mine.txt')
    equal('a text with a mark of its encoding', 0, command('pack', '-', 'bom.job', given=b'\xef\xbb\xbf' + barn_text({}).encode()).status)
    says('pack from standard input', 2, '', ['standard input:1: the text ends without the target'], 'pack', '-', '-')


def not_unpacked():
    """The place is the byte of the file; faults that have a text are unpacked."""
    for byte, message, job in (
            (26, "the target's body has 198 bytes, but with 4 states it must have 326", barn_job({26: 4})),
            (26, "the target's body has 2 bytes; its first part alone takes 6", barn_bodies({(1, 0): b'\x03\0'})),
            (224, 'the body of form getmatch has 15 bytes, but with 2 opening and 1 closing rules it must have 19', barn_job({227: 2})),
            (224, 'the body of form getmatch has 0 bytes; its first part alone takes 7', barn_bodies({(2, 12): b''})),
            (232, 'code 16 in a rule of form getmatch has no name', barn_job({232: 16})),
            (237, 'code 31 in a rule of form getmatch has no name', barn_job({237: 31})),
            (284, "'getplace' is closed in the record where nothing is open", barn_job({284: 31})),
            (348, 'more than 64 elements are open together', barn_bodies({(3, 0): bytes(65 * [1] + 65 * [17])})),
            (20, 'the file has 20 bytes; its contents alone take 26', BARN[:20])):
        put('x.job', job)
        says(f'unpack: {message}', 2, '', [f'x.job: byte {byte}: {message}'], 'unpack', 'x.job')
    for job in BARN, barn_job({28: 0}), barn_job({27: 9}), packed_large():
        text = command('unpack', '-', given=job).out
        again = put('again.job', b'')
        equal('unpacked and packed: status', 0, command('pack', '-', again, given=text.encode()).status)
        with open(again, 'rb') as file:
            equal('unpacked and packed: the same', job, file.read())
    put('x.job', packed_large())
    says('tree', 0, ['object', '  place', 'note'], '', 'tree', '-', given=barn_with('object(place) note').encode())


def packed_large():
    """A record with elements that do not fit on a line, some within others."""
    word = bytes([1]) + 20 * (bytes([2]) + 8 * b'\x0b\x1b' + b'\x12') + b'\x11'
    return barn_bodies({(3, 0): word})


def sorting():
    parts = contents.bodies(BARN)
    swapped = b'\x06\0' + b''.join(bytes(role) + len(parts[role]).to_bytes(2, 'little') for role in reversed(contents.ROLES))
    put('old.job', swapped + b''.join(parts[role] for role in reversed(contents.ROLES)))
    note = "old.job: note: the entries are not in the order of a job file (refusal 12); 'sakonite sort' puts them in order"
    says('unpack: another order', 0, command('unpack', '-', given=BARN).out, [note], 'unpack', 'old.job')
    says('tree: another order', 0, ['getplace', 'getmatch'], [note], 'tree', 'old.job')
    says('sort to a file that is there', 2, '', ['x.job: File exists'], 'sort', 'old.job', 'x.job')
    kinds = 'a job file has kind 1 with code 0, kind 2 with 12, 13, 14 and 15, and kind 3 with 0'
    for byte, message, job in (
            (0, 'the number of entries is 5; a job file has 6', barn_job({0: 5})),
            (6, f'entry 2 has kind 9 with code 12; {kinds}', barn_job({6: 9})),
            (10, 'entry 3 is for form getmatch, which already has an entry', barn_job({11: 12})),
            (24, 'entry 6, the record: its body of 5 bytes would end at byte 289, but the file has 288', barn_job({24: 5})),
            (287, 'the bodies end at byte 287, but the file has 288', barn_job({24: 3}))):
        for asked in 'unpack', 'tree', 'sort':
            says(f'{asked}: {message}', 2, '', [f'standard input: byte {byte}: {message}'], asked, '-', given=job)
    most = 'the file has more than 37,436 bytes, so it is not a job file'
    says('sort: too long', 2, '', [f'standard input: byte 37436: {most}'], 'sort', '-', given=bytes(37437))
    os.mkfifo('fifo')
    says('sort in place what is no file', 2, '', ['fifo: only a regular file can be sorted in place'], 'sort', 'fifo')


def rewriting():
    """A fault on the way leaves the old file, nothing beside it, and is told with the name of the file that was asked for."""
    def full(*_):
        raise OSError(28, 'No space left on device')

    with open('old.job', 'rb') as file:
        old = file.read()
    before = sorted(os.listdir())
    with instead(files.os, 'replace', full):
        says('sort in place, a full disk', 2, '', ['old.job: No space left on device'], 'sort', 'old.job')
    with instead(files.tempfile, 'mkstemp', lambda dir: full()):
        says('sort in place, no new file', 2, '', ['old.job: No space left on device'], 'sort', 'old.job')
    equal('sort in place, failed: nothing left', before, sorted(os.listdir()))
    with open('old.job', 'rb') as file:
        equal('sort in place, failed: the old file', old, file.read())
    says('sort in place', 0, '', '', 'sort', 'old.job')
    with open('old.job', 'rb') as file:
        equal('sort in place: the one order', BARN, file.read())
