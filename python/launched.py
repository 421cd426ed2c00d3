"""Runs `fieldc` for the launcher, which blocks interrupts: until it begins, one ends the process without a word."""

import signal

if signal.getsignal(signal.SIGINT) is signal.default_int_handler:
    signal.signal(signal.SIGINT, signal.SIG_DFL)
signal.pthread_sigmask(signal.SIG_UNBLOCK, {signal.SIGINT})

import sys  # noqa: E402

from fieldc.command import main  # noqa: E402

sys.exit(main())
