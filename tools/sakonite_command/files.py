"""Files as they are named on the command line: - is standard input or output."""

import contextlib
import os
import stat
import sys
import tempfile

YES, NO, REFUSED = 0, 1, 2     # exit statuses

LONGEST_TEXT = 1 << 24     # no input is longer, job or text


class Bad(ValueError):
    """Input of which nothing can be made, with the line of the text or the byte of the file where that shows, if there is one."""

    def __init__(self, message, line=None, byte=None):
        super().__init__(message if line is None else f'line {line}: {message}')
        self.message, self.line, self.byte = message, line, byte


def placed(name, message, line=None, byte=None):
    """A message with the name of its file, and the place."""
    return f"{name or repr(name)}{'' if line is None else f':{line}'}: {'' if byte is None else f'byte {byte}: '}{message}"


def called(path):
    return 'standard input' if path == '-' else path


@contextlib.contextmanager
def naming(name):
    """What goes wrong within is told with this name."""
    try:
        yield
    except OSError as error:
        raise type(error)(error.errno, error.strerror, name) from None


# ---- reading

def read(path):
    with naming(called(path)):
        if path == '-':
            return sys.stdin.buffer.read(LONGEST_TEXT + 1)
        with open(path, 'rb') as file:
            return file.read(LONGEST_TEXT + 1)


def same(path, other):
    """Whether both names are of one file; a name that is not there yet is of another."""
    return os.path.exists(path) and os.path.exists(other) and os.path.samefile(path, other)


# ---- writing: a file is written whole or not at all

def put_out(data):
    """On standard output."""
    sys.stdout.buffer.write(data)
    sys.stdout.buffer.flush()


@contextlib.contextmanager
def beside(path, data):
    """The name of a file with the data in the same folder. It is gone afterwards, unless it was given another name."""
    handle, new = tempfile.mkstemp(dir=os.path.dirname(path) or os.curdir)
    try:
        with open(handle, 'wb') as file:
            file.write(data)
            file.flush()
            os.fsync(handle)
        yield new
    finally:
        with contextlib.suppress(OSError):
            os.unlink(new)


def create(path, data):
    """A new file; where something has the name already, that stays."""
    with naming(path), beside(path, data) as new:
        with open(path, 'xb') as file:     # takes the name
            mode = os.fstat(file.fileno()).st_mode
        try:
            os.chmod(new, stat.S_IMODE(mode))
            os.replace(new, path)
        except BaseException:
            os.unlink(path)
            raise


def rewrite(path, data):
    """The data takes the place of what a file has now."""
    with naming(path):
        path = os.path.realpath(path)      # a link stays, and points to the new file
        with open(path, 'r+b') as file:    # what must not be written to is not replaced either
            old = os.fstat(file.fileno())
        with beside(path, data) as new:
            with contextlib.suppress(AttributeError, OSError):  # not every system and not every user can
                os.chown(new, old.st_uid, old.st_gid)
            os.chmod(new, stat.S_IMODE(old.st_mode))
            os.replace(new, path)


def put_into(path, data, job_file):
    """A new file, or one that is there if the check says of its bytes that it is a job file. Pipes and devices are written to."""
    try:
        regular = stat.S_ISREG(os.stat(path).st_mode)
    except FileNotFoundError:
        with naming(path):
            create(os.path.realpath(path) if os.path.islink(path) else path, data)
        return
    if not regular:
        with naming(path), open(path, 'wb') as file:
            file.write(data)
    elif job_file(read(path)):
        rewrite(path, data)
    else:
        raise Bad(f'{path} exists and is not a job file, so it is not overwritten')
