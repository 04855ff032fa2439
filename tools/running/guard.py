"""Ends a tool with a sentence and a status, whatever happens, and never with a trace of a stack."""
import os
import re
import signal
import sys


class Bad(Exception):
    """Bad input of a tool, in a sentence; the status is 64, or the one that is given."""

    def __init__(self, why, status=64):
        Exception.__init__(self, why)
        self.status = status


def text_of(name, fault=Bad):
    """The text of a file of this clone, which is to be UTF-8."""
    try:
        with open(name, encoding='utf-8') as file:
            return file.read()
    except UnicodeDecodeError:
        folder, base = os.path.split(os.path.abspath(name))
        raise fault("'%s' is not UTF-8, and has to be: git -C '%s' checkout '%s' brings it back" % (name, folder, base)) from None


def pasted(line):
    """A line that can be pasted: what stands in quotes and has bytes that aren't UTF-8 is written as a shell takes it, `$'caf\\xe9'`; and so is the file of
    a place, `$'caf\\xe9':2:1`."""
    byte = lambda match: '\\x%02x' % (ord(match[0]) - 0xdc00)
    quoted = lambda match: '$' + re.sub('[\udc80-\udcff]', byte, match[0].replace('\\', '\\\\'))
    line = re.sub(r"^([^'\s:][^':]*[\udc80-\udcff][^':]*)(?=(?::\d+){1,2}$)", r"'\1'", line)
    line = re.sub("'[^']*[\udc80-\udcff][^']*'", quoted, line)
    return re.sub('[\udc80-\udcff]', byte, line)


def say(lines):
    """Puts lines to standard error, if it is there."""
    if sys.stderr is None:
        return
    try:
        for line in [lines] if isinstance(lines, str) else lines:
            print(pasted(line), file=sys.stderr, flush=True)
    except (OSError, ValueError):
        pass


class Ended(BaseException):
    """A signal came that ends this tool. What is under way is put away on the way out, as it is where a user interrupts."""

    def __init__(self, number):
        BaseException.__init__(self)
        self.number = number


# The signals that end a tool so; a hangup that the caller has this tool ignore is ignored.
ENDING = (signal.SIGTERM, signal.SIGHUP)


def end(number, frame):
    for other in ENDING:
        signal.signal(other, signal.SIG_IGN)  # a second one doesn't cut off what is put away
    raise Ended(number)


def guarded(name, main, words):
    """Runs a tool's main function with the words given, and gives the status to end with: 7 where there is no standard output, before anything is done.

    With that closed, the first file that a tool opens would get its number, and what is printed would go into that file.
    """
    if sys.stdout is None:
        say('%s: there is no standard output; nothing was done' % name)
        return 7
    before = {number: signal.getsignal(number) for number in ENDING}
    try:
        for number in ENDING:
            if before[number] != signal.SIG_IGN:
                signal.signal(number, end)
        return main(words)
    except Ended as ended:
        return 128 + ended.number
    except Bad as bad:
        say('%s: %s' % (name, bad))
        return bad.status
    except KeyboardInterrupt:
        return 130
    except OSError as error:
        say("%s: %s%s" % (name, error.strerror or error, ": '%s'" % error.filename if error.filename else ''))
        return 70
    except MemoryError:
        say('%s: there is too little memory for this tool (ulimit -v)' % name)
        return 70
    except Exception as error:  # a fault of the tool itself still ends in a sentence
        say('%s: this tool has a fault of its own (%s: %s)' % (name, type(error).__name__, error))
        return 70
    finally:
        for number in ENDING:
            signal.signal(number, signal.SIG_DFL if before[number] is None else before[number])
