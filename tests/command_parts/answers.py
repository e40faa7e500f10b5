"""`sakonite why` of a yes and of a no: the whole of what it says. Long answers are in the folder said."""

import os

import sakonite
from sakonite_command import replies, why

from .harness import check, command, equal, instead, says, untraced
from .jobs import BARN, barn_bodies, barn_text, barn_with, example, packed, put, tower

YES = 'yes: whatever the partners reply, the record can be brought into deposit form'
NO = 'no: whatever you do, there are replies that lead the record outside the deposit form'
FIRST = 'The first choices, and what each reply leads to:'
STANDS = 'Each reply shown is the shortest of those that lead the deposit form to one state, and stands for all of them.'
MORE = "There is more than {} lines can show; 'sakonite play' goes on from any point."
PLAY = 'One play that ends there; a reply is called losing only if another lawful one would not lose:'
TURN = 'What would turn the answer to yes, if you filled it in yourself with what its form allows:'
OUTSIDE = 'finished, outside the form:'
NONE = '  no single element, and no two together'
NOTHING = '  nothing: whatever the open elements are filled with, the record ends outside the form'
HERE = '   <- here this play leaves the form'
STATE = 'It ends in state {} of the form, which is not accepting.'
NOT_ALL = '  (for some forms only the shortest fillings were tried)'


def run():
    for name in ('barn-roof.job', 'bell-frame.job', 'gatehouse.txt', 'town-hall.txt'):
        put(name, example(name))
    examples()
    nothing_open()
    remedies()
    searches()
    with untraced():           # long searches, whose lines the others have reached
        kinds()
        room()
    no_code()
    long_and_deep()
    many_lines()


def examples():
    town = example('town-hall.txt').decode()
    # the head of the town hall says that without this date the answer is no
    before, plate, rest = town.partition('# wall plate')
    put('undated.txt', before + plate + rest.replace(' date()', '', 1))
    for name, status, args in (
            ('barn-roof', 0, ['barn-roof.job']), ('bell-frame', 1, ['bell-frame.job']), ('gatehouse', 0, ['gatehouse.txt']),
            ('town-hall', 0, ['town-hall.txt']), ('town-hall-1', 0, ['town-hall.txt', '--levels', '1']),
            ('town-hall-5', 0, ['town-hall.txt', '--levels', '5']), ('undated', 1, ['undated.txt'])):
        with open(os.path.join(os.path.dirname(__file__), 'said', f'{name}.txt'), encoding='utf-8') as file:
            says(f'why {name}', status, file.read(), '', 'why', *args)
    says('why, levels before the file', 0, command('why', 'town-hall.txt', '--levels', '5').out, '', 'why', '--levels=5', 'town-hall.txt')
    says('why -', 0, command('why', 'barn-roof.job').out.replace('barn-roof.job', 'standard input'), '', 'why', '-', given=BARN)
    named = ', line 119), filled with: date(match) (as the reply in a play;'
    check('why, by lines of the text', named in command('why', 'undated.txt').out)
    put('undated.job', packed(open('undated.txt', 'rb').read()))
    equal('why, without lines', command('why', 'undated.txt').out.replace(', line 119', '').replace('undated.txt', 'undated.job'),
          command('why', 'undated.job').out)


def no(name, record, play, told, *args, text=None):
    """A record with the barn roof's forms to which the answer is no: the play, and what is told behind it."""
    put('no.txt', text or barn_with(record))
    says(f'why: {name}', 1, [f'no.txt: {NO}', PLAY, *play, *told], '', 'why', 'no.txt', *args)


def nothing_open():
    """The record is judged as it stands, and shown with the place where it leaves the form."""
    for name, record, told, text in (
            ('nothing open', 'note', ['    note   <- here it leaves the form'], None),
            ('no record at all', '', ['    nothing at all', STATE.format(0)], None),
            ('left at the end of an element', 'date(date)', ['    date   <- it leaves the form at its end', '      date'], None),
            ('a form without any record', 'date', ['    date   <- here it leaves the form', 'No record is in this deposit form: nothing '
             'leads from its start state to an accepting one.'], barn_text({4: 'accepting none', 40: 'date', 41: ''}))):
        put('no.txt', text or barn_with(record))
        heading = 'no.txt: no: nothing is open, and as it stands the record is outside the deposit form:'
        says(f'why: {name}', 1, [heading, *told], '', 'why', 'no.txt')
    put('yes.txt', barn_with('date'))
    says('why: nothing open, and yes', 0, ['yes.txt: yes: nothing is open, and as it stands the record is in deposit form'], '',
         'why', 'yes.txt')


def remedies():
    """One element, two that help alone, a pair, and none."""
    def empty(tag, of, losing=''):
        return f'  tag {tag} of {of}, </getplace>: fetch; the {losing}reply is empty'

    no('only a pair helps', 'getplace getplace',
       ['  tag 1 of 4: read', empty(2, 4), '  tag 3 of 4: read', empty(4, 4, 'losing '), OUTSIDE, '    nothing at all', STATE.format(0)],
       [TURN, '  both getplace (tags 1 to 2 of 4, line 40), filled with: nothing, which removes the element',
        '   and getplace (tags 3 to 4 of 4, line 40), filled with: date'])
    no('nothing helps', 'note getplace',
       ['  tags 1 to 3 of 4: read', empty(4, 4), OUTSIDE, f'    note{HERE}'], [TURN, NOTHING])
    no('nothing helps, nor a pair', 'note getplace object(getplace)',
       ['  tags 1 to 3 of 8: read', empty(4, 8), '  tags 5 to 6 of 8: read', empty(7, 8), '  tag 8 of 8: read', OUTSIDE,
        f'    note{HERE}', '    object'], [TURN, NOTHING])
    no('only three help', 'getplace getplace getplace', ['  tag 1 of 6: read', empty(2, 6), '  tag 3 of 6: read', empty(4, 6),
       '  tag 5 of 6: read', empty(6, 6, 'losing '), OUTSIDE, '    nothing at all', STATE.format(0)],
       [TURN, f'{NONE}; but these 3 together:', '    getplace (tags 1 to 2 of 6, line 40), filled with: date',
        *(f'    getplace (tags {tag} to {tag + 1} of 6, line 40), filled with: nothing, which removes the element' for tag in (3, 5))])
    # what is within another goes with it, so the two are no pair
    no('one within the other', 'getspec(getplace)',
       ['  tags 1 to 2 of 4: read', empty(3, 4), '  tag 4 of 4, </getspec>: fetch; the losing reply is:', '      note', OUTSIDE,
        f'    note{HERE}'], [TURN, '  getspec (tags 1 to 4 of 4, line 40), filled with: date'])
    # the form of getspec has getmatch in it, which is fetched later and brings the date
    play = ['  tag 1 of 2: read', '  tag 2 of 2, </getspec>: fetch; the reply is:', '      note', OUTSIDE, f'    note{HERE}']
    no('a filling with something open', 'getspec', play, [TURN, '  getspec (tags 1 to 2 of 2, line 40), filled with: getmatch'],
       text=barn_text({27: 'open 0 note getmatch -> 1 keep 0', 28: '', 29: 'close 1 0 note getmatch -> 2', 30: '', 40: 'getspec', 41: ''}))
    # of two with something open the first in byte order does not help, but the other does
    no('two fillings with something open', 'getspec', play, [TURN, '  getspec (tags 1 to 2 of 2, line 40), filled with: getplace'],
       text=barn_text({27: 'open 0 note getsap getplace -> 1 keep 0', 28: '', 29: 'close 1 0 note getsap getplace -> 2', 30: '',
                       35: 'accepting 2', 40: 'getspec', 41: ''}))


def searches():
    """Searches that end before all is tried, and one that just reaches its end."""
    play = command('why', 'bell-frame.job').out.split(TURN)[0].splitlines()
    for tries in '1', '2':
        found = 'getplace (tags 3 to 4 of 4), filled with: nothing, which removes the element'
        told = [f'{NONE}, as far as was tried', '  (the search stopped after 1 filling; --tries N tries more)'] if tries == '1' \
            else [f'  {found}']
        says(f'why --tries {tries}', 1, [*play, TURN, *told], '', 'why', 'bell-frame.job', '--tries', tries)


def kinds():
    """A form with more kinds of replies than are tried."""
    for depth in 7, 70:
        text = put('tower.txt', tower(depth, [depth % 30]))
        with open(text, encoding='utf-8') as file:
            line = file.read().split('\n').index('record') + 2
        seven = (f"  getmatch (tags 1 to 2 of 2, line {line}), filled with: {7 * 'note('}date{7 * ')'} (as the reply in a play; "
                 'it is too deep to be written in the record)')
        got = command('why', text)
        # 70 notes cannot arrive, and so they are no remedy
        equal(f'why: many kinds of fillings, {depth} notes', (1, [TURN, seven if depth == 7 else f'{NONE}, as far as was tried', NOT_ALL]),
              (got.status, got.out[got.out.index(TURN):].splitlines()))


def room():
    """A filling for which the record has no room, by its length or by its depth."""
    codes = {(2, 12): form('date(match)'), (2, 15): form('date note')}
    for name, record, beyond in (('full', 'note ' * 2047 + 'getmatch', 'too long'),
                                 ('deep', 'object(element(sample(getmatch)))', 'too deep')):
        put('full.job', barn_bodies({**codes, (1, 0): counting(), (3, 0): sakonite.tags(record)}))
        got = command('why', 'full.job')
        check(f'a filling without room, {name}', got.status == 1 and got.out.endswith(
            f'filled with: date(match) (as the reply in a play; it is {beyond} to be written in the record)\n'), got.out[-300:])
    put('full.job', barn_bodies({**codes, (1, 0): counting(), (3, 0): sakonite.tags('note ' * 2045 + 'getplace getmatch')}))
    got = command('why', 'full.job')
    last = 'getmatch (tags 4093 to 4094 of 4094), filled with: date(match)\n'
    check('a filling with just enough room', got.out.endswith(last), got.out[-300:])


def no_code():
    """By depth, where no code is free to stand for the filling."""
    codes = {(2, 12): form('date(match)'), (2, 15): form('date note')}
    used = ' '.join(name for name in sakonite.NAMES[:12] if name not in ('object', 'element', 'sample'))
    put('used.job', barn_bodies({**codes, (1, 0): counting(), (3, 0): sakonite.tags(f'object(element(sample(getmatch))) {used}')}))
    got = command('why', 'used.job')
    check('no code is free: told', got.out.endswith(f'{TURN}\n{NONE}, as far as was tried\n{NOT_ALL}\n'), got.out[-300:])


def form(text):
    """A form with two replies: this one, and an empty note."""
    word, rules, opened = sakonite.tags(text), {'open': [], 'close': []}, []
    for state, tag in enumerate(word):
        if tag < 16:
            opened.append(state)
            rules['open'].append(bytes([state, tag, state + 1, state]))
        else:
            rules['close'].append(bytes([state, opened.pop(), tag - 16, state + 1]))
    last = len(word)
    rules['open'].append(bytes([0, 11, last + 1, 7]))
    rules['close'].append(bytes([last + 1, 7, 11, last]))
    counts = b''.join(len(part).to_bytes(2, 'little') for part in rules.values())
    return bytes([8, 0, 1 << last]) + counts + b''.join(rules['open'] + rules['close'])


def counting():
    """A target that accepts once a date with something in it was closed, at any depth. Its states: 0 before, 1 within a date, 2 something
    in it, 3 after."""
    n, date = 4, 9
    table = bytearray(16 * n + 16 * n * n)
    for code in range(16):
        for q in range(n):
            table[16 * q + code] = 1 if code == date and q == 0 else 2 if q == 1 else q
            for r in range(n):
                table[16 * (n + n * r + q) + code] = 3 if code == date and r == 2 and q == 0 else 0 if r == 1 and q == 0 else r
    return bytes([n, 0]) + b'\x08\0\0\0' + bytes(table)


def long_and_deep():
    """A yes where some replies are too deep and others too long: a date within 7 + 210 j notes leads to state 7 + 7 j, counted by 29."""
    put('long.txt', tower(7, [q for q in range(32) if q != 30], 30, 29, ['open 0 getmatch -> 30', 'close 30 0 getmatch -> 30']))
    lines = {}
    for j in range(29):
        notes = 7 + 210 * j
        told = ['a reply of more than 4,096 tags: it cannot arrive'] if notes > 2047 else \
            [f"{notes * 'note('}date{notes * ')'}" + (': too deep to arrive' if notes > 63 else '')]
        lines[notes % 29] = told if notes > 63 else [*told, '  finished, in deposit form']
    shown = [f'    {line}' for state in sorted(lines) for line in lines[state]]
    shown += ['    date', '      finished, in deposit form']      # a date without any note: state 31
    says('why: replies too long and too deep', 0, [f'long.txt: {YES}', FIRST, '  tag 2 of 2, </getmatch>: fetch', *shown, STANDS], '',
         'why', 'long.txt')


def many_lines():
    full = command('why', 'town-hall.txt', '--levels', '12').out.splitlines()
    equal('as many lines as there may be', why.MOST_LINES + 4, len(full))
    equal('as many lines as there may be: told', [STANDS, MORE.format(why.MOST_LINES)], full[-2:])
    with instead(why, 'MOST_LINES', 1000):
        whole = command('why', 'town-hall.txt', '--levels', '12').out.splitlines()
    check('the lines before are the same', len(whole) > len(full) and whole[:why.MOST_LINES + 2] == full[:-2])
    # cut where a reply would come next
    for most in range(1, 11):
        with instead(why, 'MOST_LINES', most):
            cut = command('why', 'town-hall.txt').out.splitlines()
        equal(f'cut after {most} lines', [*command('why', 'town-hall.txt').out.splitlines()[:2 + most], STANDS, MORE.format(most)], cut)
    equal('the place was not found', ['x.job: refused 13: the deposit form is not valid', '  the place was not found'],
          why.refusal('x.job', BARN, None, 13))
    equal('nothing is stood for where nothing is needed', True, replies.filled(BARN, []) == BARN)
