"""A program's command: its one argument, its streams, and the status that it ends with."""

import contextlib
import os
import sys

ALL_WELL, CHECK_FAILED, COMMAND_NOT_UNDERSTOOD = range(3)
READING_OR_WRITING_FAILED, NOT_ALL_ACCEPTED = 3, 4
STANDARD_INPUT, STANDARD_OUTPUT, STANDARD_ERROR, STATUS_DIGIT = range(4)


class Unreadable:
    """An input that can't be opened: reading it fails."""

    def __init__(self, error):
        self.error = error

    def readline(self, most):
        raise self.error

    def seek(self, *place):
        raise self.error


def is_open(descriptor):
    try:
        os.fstat(descriptor)
    except OSError:
        return False
    return True


def complain(text):
    with contextlib.suppress(OSError):
        os.write(STANDARD_ERROR, os.fsencode(text + "\n"))


def opened(arguments):
    """The file named by the one argument, or standard input."""
    try:
        return open(arguments[0], "rb") if arguments else open(STANDARD_INPUT, "rb", closefd=False)
    except OSError as error:
        complain(f"{arguments[0] if arguments else 'standard input'}: {error.strerror}")
        return Unreadable(error)


def status_of(program, arguments):
    """Runs the program. It gives its status and reads to the end or until reading fails,
    so that an error met here is one of writing."""
    if len(arguments) > 1:
        complain("one argument at most: the file to read")
        return COMMAND_NOT_UNDERSTOOD
    try:
        with open(STANDARD_OUTPUT, "wb", closefd=False) as output:
            return program(opened(arguments), output)
    except OSError as error:
        complain(f"standard output: {error.strerror}")
        return READING_OR_WRITING_FAILED


def end_with(status_of_arguments):
    """Ends with the status that the arguments lead to, which goes to descriptor 3 too if that
    is open."""
    digit_is_wanted = is_open(STATUS_DIGIT)
    status = status_of_arguments(sys.argv[1:])
    if digit_is_wanted:
        with contextlib.suppress(OSError):
            os.write(STATUS_DIGIT, b"%d" % status)
    sys.exit(status)


def run(program):
    """Runs a program that reads one file, or standard input, and ends with its status."""
    end_with(lambda arguments: status_of(program, arguments))
