"""Signals that whoever runs a test ignores, as a shell has it of what runs beside it."""

import signal

BESIDE = (signal.SIGHUP, signal.SIGINT, signal.SIGQUIT)


def heed() -> None:
    """Ignores none of them any more, so that no program of the test does: the library notes what a program ignores."""
    for number in BESIDE:
        if signal.getsignal(number) == signal.SIG_IGN:
            signal.signal(number, signal.SIG_DFL)
