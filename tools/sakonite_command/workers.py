"""Several processes at work on one list. What one of them leaves undone, since it was killed or could not be started, is done here."""

import contextlib
import os
import pickle
import select
import signal
import socket

MOST_WORKERS = 64
AHEAD = 4                  # things that a worker has before it, so that it need not wait for the next
SIZE = 4                   # bytes of a number that is sent


def by_workers(call, things, workers):
    """What the call gives for each thing, in order."""
    found, lost = {}, set()
    numbers = iter(range(len(things)))
    team = started(call, things, min(workers, len(things), MOST_WORKERS))

    def hand(line):
        """The next thing that nobody has; nothing if there is none, or the worker has ended, which shows when it is listened to."""
        number = next(numbers, None)
        if number is not None:
            team[line][1].add(number)
            with contextlib.suppress(OSError):
                line.sendall(number.to_bytes(SIZE, 'little'))

    def listen(line):
        """Takes an answer; of a worker that has ended, what it had before it."""
        try:
            number, answer = pickle.loads(received(line, int.from_bytes(received(line, SIZE), 'little')))
        except (EOFError, OSError):
            lost.update(team[line][1])
            end(line)
            return
        found[number] = answer
        team[line][1].discard(number)
        hand(line)

    def end(line):
        worker, _ = team.pop(line)
        line.close()
        os.kill(worker, signal.SIGKILL)
        os.waitpid(worker, 0)

    try:
        for line in AHEAD * list(team):
            hand(line)
        for number, thing in enumerate(things):
            while team and number not in found and number not in lost:
                for line in select.select(list(team), [], [])[0]:
                    listen(line)
            yield found.pop(number) if number in found else call(thing)
    finally:
        # whoever stops reading waits for no more
        for line in list(team):
            end(line)


def started(call, things, count):
    """As many workers as can be started: by the line to each, its process, and the numbers of the things that it has before it."""
    signal.signal(signal.SIGCHLD, signal.SIG_DFL)      # where it is ignored, there is nothing to wait for
    team, here = {}, os.getpid()
    for _ in range(count):
        try:
            line, its = socket.socketpair()
            worker = os.fork()
            if worker == 0:
                for other in (line, *team):
                    other.close()
                work(call, things, its)
        except OSError:
            break
        finally:
            if os.getpid() != here:
                os._exit(0)
        its.close()
        team[line] = worker, set()
    return team


def work(call, things, line):
    """A worker: answers for what it is handed, until nobody hands it anything."""
    signal.signal(signal.SIGINT, signal.SIG_IGN)       # who started it is interrupted too, and ends it
    while True:
        number = int.from_bytes(received(line, SIZE), 'little')
        data = pickle.dumps((number, call(things[number])))
        line.sendall(len(data).to_bytes(SIZE, 'little') + data)


def received(line, count):
    data = b''
    while len(data) < count:
        part = line.recv(count - len(data))
        if not part:
            raise EOFError
        data += part
    return data
