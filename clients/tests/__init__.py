"""Tests of what stands round the program.

What they start has the signals' defaults, also where they were started themselves with signals ignored, as in the background of
a shell. (Python ignores two of them for itself, and gives these back to what it starts.) """

import signal

for _number in signal.valid_signals() - {signal.SIGPIPE, signal.SIGXFSZ}:
    if signal.getsignal(_number) is signal.SIG_IGN:
        signal.signal(_number, signal.default_int_handler if _number == signal.SIGINT else signal.SIG_DFL)
