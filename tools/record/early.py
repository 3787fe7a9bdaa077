"""What an interrupt does while a tool's modules are loaded, which takes a moment: nothing is there yet that would have to be undone."""

import contextlib
import os
import signal

STATUS_FAILED = 125


def end_when_interrupted(name):
    """From here on an interrupt ends the process, which says so in a line, unless interrupts are ignored."""

    def end(*_):
        with contextlib.suppress(OSError):
            os.write(2, b"%s: interrupted\n" % name.encode())
        os._exit(STATUS_FAILED)

    if signal.getsignal(signal.SIGINT) is signal.default_int_handler:
        signal.signal(signal.SIGINT, end)


def raise_when_interrupted():
    """From here on an interrupt is an exception, as Python has it."""
    if signal.getsignal(signal.SIGINT) != signal.SIG_IGN:
        signal.signal(signal.SIGINT, signal.default_int_handler)
