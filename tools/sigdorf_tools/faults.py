"""Faults of an input, told in one sentence."""
import os
import signal
import sys

from .surroundings import content_of, is_heard

STATUS = 2
# As of a command that a signal ends: Ctrl-C, or a reader that goes away.
STOPPED, READER_GONE = 128 + signal.SIGINT, 128 + signal.SIGPIPE
# So many letters of a cell are shown in a sentence.
SHOWN = 40
# What takes away the line of a terminal in which the cursor stands.
TAKE_AWAY = "\r\x1b[K"


class Fault(Exception):
    """What is wrong with an input: one sentence that names the place, what was found and what was wanted."""


def run(main):
    """Ends the process with the status of a tool's main function. A fault is one sentence on standard error and status 2."""
    if signal.getsignal(signal.SIGINT) is signal.SIG_DFL:
        # Up to here Ctrl-C ended the process at once; from here on what was begun is taken back first.
        signal.signal(signal.SIGINT, signal.default_int_handler)
    sys.exit(status_of(main))


def status_of(main):
    try:
        try:
            status = main()
        except SystemExit as end:
            status = end.code
        sys.stdout.flush()
        return status
    except Fault as fault:
        return tell(str(fault))
    except BrokenPipeError:
        # Whoever read it wants no more, so that there is nothing to say.
        drop_output()
        return READER_GONE
    except OSError as error:
        if not error.filename:
            drop_output()
        return tell(f"{error.filename or 'the output'}: it can't be written: {error.strerror}")
    except MemoryError:
        return tell("there is too little memory for this problem")
    except KeyboardInterrupt:
        say("stopped")
        return STOPPED


def drop_output():
    """What couldn't be written stays in the buffer, and Python would try once more at its end."""
    os.dup2(os.open(os.devnull, os.O_WRONLY), sys.stdout.fileno())


def quoted(text):
    """A name or a cell as a sentence shows it, in one line."""
    text = "".join(letter if letter.isprintable() else " " for letter in text[: SHOWN + 1])
    return f"`{text if len(text) <= SHOWN else text[: SHOWN - 3] + '..'}`"


def tell(sentence):
    say(sentence)
    return STATUS


def say(sentence):
    """One sentence on standard error, after the name of the tool. On a terminal a line that tells what goes on may
    stand there, and is taken away."""
    if is_heard(sentence):
        return
    before = TAKE_AWAY if sys.stderr.isatty() else ""
    print(f"{before}{os.path.basename(sys.argv[0])}: {sentence}", file=sys.stderr)


def read_bytes(file):
    """All bytes of a file; the fault of one that can't be read names it."""
    try:
        return content_of(file)
    except IsADirectoryError:
        raise Fault(f"{file}: a file is wanted, and this is a folder") from None
    except FileNotFoundError:
        raise Fault(f"{file}: there is no such file") from None
    except (OSError, ValueError) as error:
        raise Fault(f"{file}: it can't be read: {getattr(error, 'strerror', None) or error}") from None
