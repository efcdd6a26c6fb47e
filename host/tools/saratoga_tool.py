"""What the tools have in common: files whose errors name them, and how a tool ends."""
import os
import sys


class Named:
    """A file, or a standard one where the name is - or none. Every error of it has a name."""

    def __init__(self, name, mode):
        self.standard = not name or name == "-"
        writes = "w" in mode
        self.name = ("standard output" if writes else "standard input") if self.standard else name
        if self.standard:
            self.file = sys.stdout.buffer if writes else sys.stdin.buffer
        else:
            self.file = open(name, mode)

    def named(self, call, *arguments):
        try:
            return call(*arguments)
        except OSError as error:
            error.filename = self.name
            raise

    def read(self, *count):
        return self.named(self.file.read, *count)

    def write(self, octets):
        self.named(self.file.write, octets)

    def flush(self):
        self.named(self.file.flush)

    def __enter__(self):
        return self

    def __exit__(self, *_):
        self.named(self.file.close)


def printable(text):
    """The text with what could steer a terminal written as \\xNN, so that a message may hold any input."""
    return "".join(letter if letter.isprintable() else "".join(f"\\x{octet:02x}" for octet in letter.encode(
        "utf-8", "surrogateescape")) for letter in text)


def tell(tool, message):
    print(printable(f"{tool}: {message}"), file=sys.stderr)


def ended(tool, main):
    """Runs a tool's main, which gives its exit status. Errors of files are told, but for a reader that has ended."""
    try:
        return main()
    except BrokenPipeError:
        return quiet(1)
    except OSError as error:
        tell(tool, f"{error.filename or 'input or output'}: {error.strerror}")
        return quiet(1)


def quiet(status):
    """Has Python not try again, and fail again, to write what was left for standard output."""
    try:
        os.dup2(os.open(os.devnull, os.O_WRONLY), 1)
    except OSError:
        pass
    return status
