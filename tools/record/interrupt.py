"""The first of the signals that end a process interrupts it, once."""

import signal
import threading

# A thread of this process sends it to the main thread; nobody else does.
INTERRUPT = signal.SIGRTMAX


def interrupt_once(numbers):
    """From here on the first of these signals is a KeyboardInterrupt in the main thread, which calls this, and further ones wait for ever,
    as those do that were ignored before (under nohup). Which signals were blocked until now, as a program has to find them.

    No handler of theirs would do: Python looks for signals wherever a handler begins, too, so that handlers nest while signals come
    quickly."""
    ending = [number for number in numbers if signal.getsignal(number) != signal.SIG_IGN]
    signal.signal(INTERRUPT, signal.default_int_handler)
    mask = signal.pthread_sigmask(signal.SIG_BLOCK, ending)
    threading.Thread(target=interrupt_at, args=(ending, threading.get_ident()), daemon=True).start()
    return mask


def interrupt_at(numbers, thread):
    """Waits for one of the signals; then the thread, which blocks them, is interrupted."""
    signal.sigwait(numbers)
    signal.pthread_kill(thread, INTERRUPT)
