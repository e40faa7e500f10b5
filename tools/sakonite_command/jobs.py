"""What a file's bytes are: a job file, or a text that is packed into one."""

from .pack import is_text, pack


def job_of(data):
    """The job file, and for a text the line that each of its bytes comes from."""
    return pack(data) if is_text(data) else (data, None)
