"""The words of `jcconv` that need no converter: explanations, CAP files, advice, help and the version."""
import os
import sys

import advise
import explain
import helping
import packing


def main(words):
    """Answers the words of the command line; gives the exit status."""
    if helping.is_asked(words):
        return helping.main(words)
    if words[0] == "explain":
        return explain.main(words[1:])
    if words[0] in ("pack", "unpack"):
        return packing.main(words)
    if words[0] == "advise":
        return advise.main(words[1:])
    return helping.main([])


if __name__ == "__main__":
    for stream in (sys.stdin, sys.stdout, sys.stderr):
        stream.reconfigure(encoding="utf-8", errors="surrogateescape")
    try:
        status = main(sys.argv[1:])
        sys.stdout.flush()
    except BrokenPipeError:
        os.dup2(os.open(os.devnull, os.O_WRONLY), 1)
        status = 0
    sys.exit(status)
