"""heed.py COMMAND [WORD..] runs a command that heeds its signals, also where whoever started the test ignores them, as in
the background or under nohup: a shell cannot take back what it was started with."""
import os
import signal
import sys


def heed(path, words):
    for name in ("SIGHUP", "SIGINT", "SIGQUIT", "SIGTERM", "SIGPIPE", "SIGXFSZ"):
        signal.signal(getattr(signal, name), signal.SIG_DFL)
    os.execv(path, words)


if __name__ == "__main__":
    heed(sys.argv[1], sys.argv[1:])
