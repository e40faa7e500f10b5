"""The three standard streams, which may be closed, full, or read by nobody."""

import codecs
import io
import os
import sys

from .files import placed


class Messages:
    """Standard error. If a message cannot be written, the command goes on, and its exit status tells in the end."""

    def __init__(self, stream):
        self.stream, self.lost = stream, False

    def write(self, text):
        try:
            self.stream.write(text)
            self.stream.flush()
        except OSError:
            self.lost = True

    def flush(self):
        """Each text is written at once."""

    def isatty(self):
        return self.stream.isatty()


def prepare():
    """File names and lines need not be text: such bytes go through as they came. What an encoding lacks is written as an escape."""
    # a stream that is closed is none for Python: nothing can be read there, and to write is a fault
    sys.stdin = sys.stdin or open(os.devnull)
    sys.stdout = sys.stdout or os.fdopen(os.open(os.devnull, os.O_RDONLY), 'w')
    sys.stderr = sys.stderr or open(os.devnull, 'w')
    for stream in (sys.stdin, sys.stdout, sys.stderr):
        if isinstance(stream, io.TextIOWrapper):
            utf8 = codecs.lookup(stream.encoding).name == 'utf-8'
            stream.reconfigure(errors='surrogateescape' if utf8 else 'backslashreplace')
    sys.stderr = Messages(sys.stderr)


def note(name, message, **place):
    sys.stderr.write(placed(name, message, **place) + '\n')


def output_lost(error):
    """Standard output cannot be written: that is told, unless whoever read it has gone. What else is printed goes nowhere."""
    if not isinstance(error, BrokenPipeError):
        note('standard output', error.strerror)
    sys.stdout = io.TextIOWrapper(io.BytesIO())


def all_written():
    """Whether everything that was printed and told could be written."""
    try:
        sys.stdout.flush()
    except OSError as error:
        output_lost(error)
        return False
    return not sys.stderr.lost
