"""Inputs that are read whole, outputs that are written whole or not at all, and how a tool ends."""

import argparse
import os
import sys

OK, WRONG = 0, 1


class Wrong(Exception):
    """Something that was handed in is wrong. `where` is a file, or a file and a line as FILE:LINE; `what` says what is wrong."""

    def __init__(self, where, what):
        super().__init__(f"{where}: {what}")
        self.where, self.what = where, what


class Text:
    """A file that was read: its name as it was given, and its lines without their ends, counted from 1."""

    def __init__(self, name, text):
        self.name = name
        self.ended = text == "" or text.endswith("\n")
        self.lines = (text[:-1] if text.endswith("\n") else text).split("\n") if text else []

    def at(self, number):
        """The place of a line, as messages give it."""
        return f"{self.name}:{number}"

    def numbered(self):
        """Each line with its number."""
        return enumerate(self.lines, 1)


def text_of(name, content):
    """The text of these bytes, which have to be UTF-8."""
    try:
        return Text(name, content.decode("utf-8"))
    except UnicodeDecodeError as fault:
        line = content.count(b"\n", 0, fault.start) + 1
        raise Wrong(f"{name}:{line}", "this line is not UTF-8") from None


def read(path):
    """Reads a file whole, or standard input where the path is `-`."""
    try:
        if path == "-":
            return text_of("standard input", sys.stdin.buffer.read())
        with open(path, "rb") as file:
            return text_of(path, file.read())
    except OSError as fault:
        raise Wrong(path, reason_of(fault)) from None


def reason_of(fault):
    """The system's own reason, in lower case as the program gives it."""
    return (fault.strerror or str(fault)).lower()


def bytes_of(text):
    """The text in UTF-8. What came from words of the command line that are no UTF-8 is spelled with backslashes."""
    return text.encode("utf-8", "backslashreplace")


def write(path, text):
    """Writes a file whole, or standard output where no path is given."""
    if path is not None:
        write_all([(path, text)])
        return
    try:
        sys.stdout.buffer.write(bytes_of(text))
        sys.stdout.buffer.flush()
    except OSError as fault:
        # Else Python would try once more at its end, and complain.
        os.dup2(os.open(os.devnull, os.O_WRONLY), sys.stdout.fileno())
        raise Wrong("standard output", reason_of(fault)) from None


def write_all(files):
    """Writes some files, each a path and a text. Until all are written they have other names, so that none is there in part."""
    made = []
    try:
        for path, text in files:
            made.append(written_beside(path, text))
        for beside, target in made:
            os.replace(beside, target)
    except OSError as fault:
        raise Wrong(fault.filename or files[0][0], reason_of(fault)) from None
    finally:
        for beside, _ in made:
            if os.path.exists(beside):
                os.remove(beside)


def written_beside(path, text):
    """Writes a text under another name in the folder of its file. Returns that name and the file's own, without links."""
    target = os.path.realpath(path)
    if os.path.exists(target) and not os.path.isfile(target):
        raise Wrong(path, "is no regular file")
    beside = f"{target}.{os.getpid()}.part"
    try:
        with open(beside, "xb") as file:
            file.write(bytes_of(text))
            file.flush()
            os.fsync(file.fileno())
    except OSError as fault:
        if not isinstance(fault, FileExistsError) and os.path.exists(beside):
            os.remove(beside)
        raise Wrong(path, reason_of(fault)) from None
    return beside, target


def count_from(least, most=None):
    """A kind of word for argparse: a whole number from `least` on, and at most `most`."""
    limits = f"from {least:,} on" if most is None else f"from {least:,} to {most:,}"

    def read_count(word):
        if not (word.isascii() and word.isdigit()) or int(word) < least or (most is not None and int(word) > most):
            raise argparse.ArgumentTypeError(f"{word} is no whole number {limits}")
        return int(word)

    return read_count


def tell(tool, what):
    """A line on standard error."""
    print(f"{tool}: {what}", file=sys.stderr)


def ended(tool, work):
    """Does the work, and gives the status that the tool ends with: its own, or 1 where something that was handed in is wrong."""
    try:
        return work()
    except Wrong as fault:
        tell(tool, fault)
    except KeyboardInterrupt:
        tell(tool, "interrupted")
    return WRONG
