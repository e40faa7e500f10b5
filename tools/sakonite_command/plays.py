"""A play on the record of an accepted job file: the moves so far, what is said of them, and a player's commands, as examples/host.c has
them."""

import sys

import sakonite
from sakonite import LOST, NAMES, READ, Refused

from .contents import RECORD, bodies
from .files import LONGEST_TEXT, Bad, naming

SAID = {
    LOST: 'lost; whatever you do, there are replies that lead outside the form',
    'read': 'read',
    'fetch': 'fetch',
    sakonite.IN_FORM: 'finished, in deposit form',
    sakonite.OUTSIDE: 'finished, outside the form',
}


class Play:
    def __init__(self, job, moves=()):
        self.job = job
        self.record = bodies(job)[RECORD, 0]
        self.moves = list(moves)       # each in bytes, one for each tag gone by

    def history(self):
        return b''.join(self.moves)

    def advice(self):
        return sakonite.advice(self.job, self.history())

    def losing(self):
        return sakonite.losing_reply(self.job, self.history())

    def finished(self):
        return sakonite.finished(self.job, self.history())

    def add(self, move):
        """Makes a move and gives the advice after it; one that is refused is taken back."""
        self.moves.append(move)
        try:
            return self.advice()
        except Refused:
            self.back()
            raise

    def last_reply(self):
        """The reply of the last move, a fetch."""
        return self.moves[-1][len(sakonite.fetch(b'')):]

    def pass_by(self):
        """Reads on to the next tag at which there is a choice, or to the end. A read is never refused while tags are left."""
        while self.ahead() and not self.can_fetch():
            self.moves.append(READ)

    def back(self):
        del self.moves[-1:]

    def ahead(self):
        """The tags that are left."""
        return self.record[len(self.moves):]

    def can_fetch(self):
        return bool(self.ahead()) and self.ahead()[0] >= 16 and sakonite.fetchable(self.ahead()[0] - 16)

    def at(self):
        """Where the play stands; nothing at its end."""
        if not self.ahead():
            return ''
        tag = self.ahead()[0]
        return f"tag {len(self.moves) + 1} of {len(self.record)}, <{'' if tag < 16 else '/'}{NAMES[tag % 16]}>: "

    def tree(self):
        """The finished part, and what is ahead."""
        done = self.finished()
        lines = tree_lines(done)
        if self.ahead():
            depth = sum(1 if tag < 16 else -1 for tag in done)
            lines.append(f'  {2 * depth * " "}.. ahead from tag {len(self.moves) + 1} of {len(self.record)}')
            lines += tree_lines(self.ahead(), depth)
        return lines


def tree_lines(tags, depth=0, marks={}):
    """Tags as a tree, a line for each element; marks are what is put behind the element that opens at a place."""
    lines = []
    for at, tag in enumerate(tags):
        if tag < 16:
            lines.append(f"  {2 * depth * ' '}{NAMES[tag]}{marks.get(at, '')}")
        depth += 1 if tag < 16 else -1
    return lines


def told(reply):
    """A reply as it is typed behind `fetch`."""
    return f' {sakonite.names(reply)}' if reply else ', and the reply is empty'


# ---- the player's commands

# each with what help says of it; help itself is named where a word is not understood
HELP = {
    'read': 'leave the tag as it is',
    'fetch': 'fetch the element; REPLY is what came back: names, with what they hold in brackets,\n'
             'as in date(match match) note; nothing at all for an empty reply',
    'go': 'read as long as that is the advice',
    'back': 'take the last move back',
    'tree': 'show the record so far, and what is ahead',
    'losing': 'show the losing reply: the shortest that, fetched here, leaves the play lost or\nfinished outside the form',
    'lose': 'play on to the end with the losing replies: fetch where there is one,\nand read elsewhere',
    'quit': 'stop here',
}


class Player:
    """What a player's commands do, but for quit."""

    def __init__(self, job, say):
        self.play, self.say = Play(job), say

    def make(self, move):
        try:
            self.play.add(move)
        except Refused as refused:
            self.say(str(refused))

    def read(self):
        self.make(READ)

    def fetch(self, text):
        try:
            self.make(sakonite.fetch(sakonite.tags(text)))
        except ValueError as error:
            self.say(str(error))

    def go(self):
        while self.play.advice() == 'read':
            self.make(READ)

    def back(self):
        if not self.play.moves:
            self.say('there is no move to take back')
        self.play.back()

    def tree(self):
        for line in self.play.tree():
            self.say(line)

    def losing(self):
        try:
            reply = self.play.losing()
        except Refused as refused:
            self.say(str(refused))
            return
        if reply is None:
            self.say('none: after a fetch the form can still be reached, whatever is replied')
            return
        self.say('losing reply:' + ('' if reply else ' empty'))
        for line in tree_lines(reply):
            self.say(line)
        try:
            self.say(f'after it: {SAID[self.play.add(sakonite.fetch(reply))]}')
            self.play.back()
        except Refused:
            self.say(f'it cannot be played: it has more than {sakonite.DEEPEST_REPLY} elements open together')

    def lose(self):
        for at, move, reply in losing(self.play):
            self.say(f'  {at}{move}' if reply is None else f'  {at}fetch{told(reply)}')

    def help(self):
        for name, said in HELP.items():
            shown = f"{name}{' REPLY' if name == 'fetch' else ''}"
            for line in said.split('\n'):
                self.say(f'{shown:<15}{line}')
                shown = ''


def losing(play):
    """Plays on to the end. For each move: where it is made, what is done, and the reply of a fetch. A play that is lost stays so where a
    losing reply that cannot be played makes way for a read."""
    while play.ahead():
        at, move = play.at(), 'read'
        if not play.can_fetch():
            play.moves.append(READ)
            yield at, move, None
            continue
        try:
            reply = play.losing()
            if reply is not None:
                play.add(sakonite.fetch(reply))
                yield at, 'fetch', reply
                continue
            move = 'read, since no reply loses'
        except Refused:
            move = 'read, since the losing reply is too long or too deep to be played'
        play.moves.append(READ)
        yield at, move, None


def played(job, lines, echo, say):
    """Plays by the commands in these lines; whether the record is in deposit form at the end."""
    player = Player(job, say)
    play = player.play

    def show():
        said = play.advice()
        say(play.at() + SAID[said])
        return said

    say(f"verdict {'yes' if sakonite.verdict(job) else 'no'}")
    while True:
        show()
        line = lines()
        if line is None:
            say('')
            break
        if echo:
            say(line)
        word, *rest = line.split(None, 1) or ['']
        if not word or word.startswith('#'):
            continue
        if word not in HELP and word != 'help':
            say(f'not understood: {word}; help lists the commands')
        elif word == 'fetch':
            player.fetch(''.join(rest))
        elif ''.join(rest).split():
            say(f'{word} takes no argument: {rest[0].split()[0]}')
        elif word == 'quit':
            break
        else:
            getattr(player, word)()
    for line in play.tree():
        say(line)
    return show() == sakonite.IN_FORM


def play(job, script, name, echo):
    """The command: moves from the script, which has this name and may be shown as it comes, or typed in at a terminal."""
    def typed():
        try:
            return input('> ')
        except EOFError:
            return None

    def scripted():
        sys.stdout.write('> ')
        sys.stdout.flush()
        with naming(name):
            line = script.readline(LONGEST_TEXT + 1)
        if len(line) > LONGEST_TEXT:
            raise Bad('a line of the script is too long')
        return line.rstrip('\r\n') if line else None

    return played(job, scripted if script else typed, echo, print)
