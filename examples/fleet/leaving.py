"""How a tool ends when it is asked to."""
import signal
import sys

SIGNALS = (signal.SIGTERM, signal.SIGHUP, signal.SIGINT)


def heed_signals() -> None:
    """Whatever asks this call to end, it leaves as any exit does: its drafts are gone, its jobs are ended, what it wrote is synced."""

    def leave(number: int, _: object) -> None:
        sys.exit(128 + number)

    for number in SIGNALS:
        # Where the caller ignores a signal, this call ignores it too.
        if signal.getsignal(number) is not signal.SIG_IGN:
            signal.signal(number, leave)
