"""Standard streams of a tool that stands in a pipe. One that is closed, full, or left by its reader is an OSError that names it, and `run` makes that one line
on standard error and a status. Nothing stays in a buffer, so nothing is left to fail when the interpreter ends."""

import contextlib
import os
import sys


def read(most):
    """Standard input, and no more than so many bytes of it."""
    if sys.stdin is None:
        raise OSError("standard input is closed")
    try:
        return sys.stdin.buffer.read(most)
    except OSError as error:
        raise OSError(f"standard input: {error.strerror or error}") from None


def write(content):
    """The whole content, bytes or a text, to standard output."""
    if sys.stdout is None:
        raise OSError("standard output is closed")
    try:
        _write(sys.stdout, content)
    except OSError as error:
        raise OSError(f"standard output: {error.strerror}") from None


def run(name, main):
    """Ends the process with main's status, or with 1 and what went wrong."""
    try:
        status = main(sys.argv[1:])
    except OSError as error:
        complain(name, error)
        status = 1
    sys.exit(status)


def complain(name, error):
    """One line on standard error, if there is one."""
    if sys.stderr is not None:
        with contextlib.suppress(OSError):
            _write(sys.stderr, f"{name}: {error}\n")


def _write(stream, content):
    rest = content.encode("utf-8", "backslashreplace") if isinstance(content, str) else content
    while rest:
        rest = rest[os.write(stream.fileno(), rest) :]
