"""Where memory is limited, the library or Python itself can be killed in the middle of anything, for want of room on the stack. The command
then runs in a process of its own, whose end is told by the one that started it."""

import contextlib
import os
import signal

try:
    import resource
except ImportError:        # not every system has it
    resource = None

ENOUGH = 4 << 20           # bytes of stack for the library and for Python


def limited():
    """Whether there is a limit to the process's memory, or a narrow one to its stack."""
    if resource is None:
        return False
    stack, memory = (resource.getrlimit(limit)[0] for limit in (resource.RLIMIT_STACK, resource.RLIMIT_AS))
    return memory != resource.RLIM_INFINITY or stack != resource.RLIM_INFINITY and stack < ENOUGH


def watched(call):
    """The exit status that the call gives."""
    signal.signal(signal.SIGCHLD, signal.SIG_DFL)      # where it is ignored, there is nothing to wait for
    here, status = os.getpid(), 2
    try:
        child = os.fork()
        if child == 0:
            status = call()
    except OSError:
        return call()
    finally:
        if os.getpid() != here:
            os._exit(status)
    try:
        status = os.waitstatus_to_exitcode(os.waitpid(child, 0)[1])
    except KeyboardInterrupt:
        os.kill(child, signal.SIGKILL)
        os.waitpid(child, 0)
        return 128 + signal.SIGINT
    if status < 0:
        with contextlib.suppress(OSError):
            os.write(2, f'sakonite: killed by signal {-status}, most likely for lack of memory\n'.encode())
        return 2
    return status
