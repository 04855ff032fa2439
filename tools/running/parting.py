"""A program that is run ends with the call that runs it, also where that is killed."""
import ctypes
import os
import signal

SET_DEATH_SIGNAL = 1


def prctl():
    """The host's call that says what signal comes when the parent ends; None where it has none."""
    try:
        return ctypes.CDLL(None, use_errno=True).prctl
    except (OSError, AttributeError):
        return None


def with_caller():
    """What a process does before it becomes the program: it asks to be killed when this one is gone. None where the host has no such thing."""
    call, caller = prctl(), os.getpid()
    if call is None:
        return None

    def ask():
        call(SET_DEATH_SIGNAL, signal.SIGKILL)
        if os.getppid() != caller:
            os.kill(os.getpid(), signal.SIGKILL)  # it was gone before it was asked

    return ask
