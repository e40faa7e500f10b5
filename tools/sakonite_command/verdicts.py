"""The verdicts of many files: a line for each and a count, or a table for other programs."""

import collections
import csv
import io
import os
import sys
import time

import sakonite
from sakonite import Refused

from .files import NO, REFUSED, YES, Bad, called, placed, read
from .jobs import job_of
from .workers import by_workers

Answer = collections.namedtuple('Answer', 'file verdict number reason')
COUNTED = ('yes', 'no', 'refused', 'error')
NOTHING = 'no file in this folder ends in .job; name a text itself'
SPECIAL = 'not a regular file'


def files_in(paths):
    """The files that are named; a folder stands for the job files in it and in the folders within, however .job is written. Of a folder in
    which there is nothing to judge, the answer."""
    for path in paths:
        if path == '-' or not os.path.isdir(path):
            yield path
        else:
            found = job_files(path)
            yield from [found[name] or name for name in sorted(found)] or [fault(path, NOTHING)]


def job_files(folder):
    """By name the job files below a folder, each with None; what cannot be looked into or is no file, with the answer, an error."""
    found, folders = {}, [folder]
    while folders:
        here = folders.pop()
        try:
            with os.scandir(here) as entries:
                for entry in entries:
                    path = entry.path
                    if os.path.isdir(path):
                        folders += [] if os.path.islink(path) else [path]
                    elif path.lower().endswith('.job'):
                        # a pipe might never end; that a link leads nowhere shows where it is read
                        special = os.path.exists(path) and not os.path.isfile(path)
                        found[path] = fault(path, SPECIAL) if special else None
        except OSError as error:
            found[here] = fault(here, error.strerror)
    return found


def fault(name, reason):
    return Answer(name, 'error', '', reason)


def judge(path):
    """The answer, if it is not there yet."""
    if isinstance(path, Answer):
        return path
    name = called(path)
    try:
        job, _ = job_of(read(path))
        return Answer(name, 'yes' if sakonite.verdict(job) else 'no', '', '')
    except Refused as refused:
        return Answer(name, 'refused', refused.number, refused.text)
    except Bad as bad:
        return fault(name, str(bad))
    except MemoryError:
        return fault(name, 'out of memory')
    except OSError as error:
        if error.errno is None:        # no fault of this file
            raise
        return fault(name, error.strerror)


def judged(paths, workers):
    """The answers in the order of the files, by several processes if so wanted. Standard input is this one's."""
    return map(judge, paths) if workers == 1 or len(paths) < 2 or '-' in paths else by_workers(judge, paths, workers)


def line(answer):
    if answer.verdict == 'refused':
        return placed(answer.file, Refused(answer.number))
    return placed(answer.file, f"{answer.verdict}{': ' if answer.reason else ''}{answer.reason}")


def row(fields):
    """A row of the table. The writer puts quotes around the characters of its own line ending, so it has both."""
    text = io.StringIO()
    csv.writer(text, lineterminator='\r\n').writerow(fields)
    return text.getvalue()[:-2] + '\n'


PAUSE = 0.2                # seconds between two looks at how far it is


class Progress:
    """How far it is, on a terminal: one line on standard error that is written over again and again."""

    def __init__(self, what):
        self.what, self.shown, self.last = what, False, time.monotonic()
        self.wanted = sys.stderr.isatty()

    def at(self, done, of):
        if self.wanted and time.monotonic() - self.last > PAUSE:
            self.last, self.shown = time.monotonic(), True
            sys.stderr.write(f'\r\x1b[K{self.what} {done:,} of {of:,}')
            sys.stderr.flush()

    def clear(self):
        if self.shown:
            self.shown = False
            sys.stderr.write('\r\x1b[K')
            sys.stderr.flush()


def verdicts(paths, workers, as_csv):
    """Prints the verdicts; the exit status."""
    named, paths = paths, list(files_in(paths))
    counts = collections.Counter()
    if as_csv:
        sys.stdout.write(row(Answer._fields))
    progress = Progress('judged')
    for done, answer in enumerate(judged(paths, workers), 1):
        counts[answer.verdict] += 1
        progress.clear()
        if as_csv:
            sys.stdout.write(row(answer))
        else:
            print(line(answer))
        progress.at(done, len(paths))
    progress.clear()
    if len(paths) > 1 or any(map(os.path.isdir, named)):
        sys.stdout.flush()
        count = ', '.join(f'{counts[word]:,} {word}' for word in COUNTED if counts[word] or word != 'error')
        print(f"{len(paths):,} file{'s' if len(paths) != 1 else ''}: {count}", file=sys.stderr if as_csv else sys.stdout)
    return REFUSED if counts['refused'] or counts['error'] else NO if counts['no'] else YES
