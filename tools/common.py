"""What the tools share: how one is run and ends, words that are refused, what is read and written,
and what is said of it."""

import argparse
import contextlib
import io
import os
import signal
import sys

MOST_FAULTS = 100       # wrong lines that are listed
LONGEST_WORD = 40       # characters of a word that is quoted
LONGEST_MESSAGE = 400   # characters of what is said of the words behind a tool's name
LONGEST_LINE = 500      # characters of a line on standard error
CHUNK = 1 << 20         # bytes that are read at once


class Fault(Exception):
    """What is wrong with an input or with a line of it; each of its arguments is a line to say."""


# ---- What is said -----------------------------------------------------------------------

def cut(text, most=LONGEST_WORD):
    """A text, of a long one its beginning."""
    return text if len(text) <= most else text[:most] + '..'


def quoted(word):
    """A word in quotes, of a long one its beginning."""
    return repr(word) if len(word) <= LONGEST_WORD else repr(word[:LONGEST_WORD]) + '..'


def say(tool, text):
    """One line on standard error, whatever the text has.  Where that cannot be written either,
    the exit status is left."""
    line = ''.join(each if each.isprintable() else each.encode('unicode_escape').decode()
                   for each in f'{tool}: {text}')
    if sys.stderr is not None:
        with contextlib.suppress(OSError):
            write_all(2, f'{cut(line, LONGEST_LINE)}\n')


class Faults:
    """The wrong lines of an input: how many, and what is said of the first."""

    def __init__(self):
        self.count, self.kept = 0, []

    def add(self, at, what):
        """A line is wrong; None for the whole input, which is always said."""
        if at is None or self.count < MOST_FAULTS:
            self.kept.append((at or 0, f'line {at}: {what}' if at else str(what)))
        self.count += 1

    def check(self):
        """End here if there is one."""
        if self.count:
            more = self.count - len(self.kept)
            said = [what for _, what in sorted(self.kept, key=lambda each: each[0])]
            raise Fault(*said, *([f'and {more} more'] if more else []))


# ---- Reading and writing ----------------------------------------------------------------

def name_of(path):
    """What is said for a file, or for standard input."""
    return 'standard input' if path is None else repr(path)


def chunks(path):
    """The bytes of a file, or of standard input, as they come."""
    if path is None and sys.stdin is None:
        raise Fault('cannot read standard input: it is closed')
    try:
        file = os.open(path, os.O_RDONLY) if path is not None else 0
        try:
            while chunk := os.read(file, CHUNK):
                yield chunk
        finally:
            if path is not None:
                os.close(file)
    except OSError as fault:
        raise Fault(f'cannot read {name_of(path)}: {fault.strerror}') from None


def read_bytes(path, most=None):
    """All bytes of a file, or of standard input; `most` of them."""
    data = bytearray()
    for chunk in chunks(path):
        data += chunk
        if most is not None and len(data) > most:
            raise Fault(f'{name_of(path)} has more than {most} bytes')
    return bytes(data)


def read_words(path, what):
    """The text of a file, or of standard input, that people write: a byte that is no UTF-8 is for
    its line to refuse, but one that is zero says that there is no text."""
    data = bytearray()
    for chunk in chunks(path):
        if 0 in chunk:
            raise Fault(f'{name_of(path)} looks binary, not like a text: byte '
                        f'{len(data) + chunk.index(0)} is zero')
        data += chunk
    text = data.decode('utf-8-sig', 'replace')
    if not text or text.isspace():
        raise Fault(f'no {what}: the input is empty')
    return text


def read_text(path):
    """The text of a file, in UTF-8 all of it."""
    try:
        return read_bytes(path).decode('utf-8').replace('\r\n', '\n')
    except UnicodeDecodeError as fault:
        raise Fault(f'{name_of(path)} is no text in UTF-8: byte {fault.start} is '
                    f'0x{fault.object[fault.start]:02x}') from None


def write_all(file, data):
    """Write text or bytes to a file that is open, past no buffer."""
    data = data.encode('utf-8', 'backslashreplace') if isinstance(data, str) else data
    left = memoryview(data)
    while left:
        left = left[os.write(file, left):]


def check_output():
    """Standard output has to be open."""
    if sys.__stdout__ is None:
        raise Fault('cannot write standard output: it is closed')


def write(data):
    """Write text or bytes to standard output now, in front of what is held."""
    if not data:
        return
    check_output()
    try:
        write_all(1, data)
    except BrokenPipeError:
        raise
    except OSError as fault:
        raise Fault(f'cannot write standard output: {fault.strerror}') from None


def replace(path, data):
    """Write a file whole, or leave it as it was; what is there and is no file, such as a device, is
    written to."""
    whole = os.path.isfile(path) or not os.path.exists(path)
    new = f'{path}.{os.getpid()}.new' if whole else path
    try:
        file = os.open(new, os.O_WRONLY | os.O_CREAT | os.O_TRUNC, 0o666)
        try:
            write_all(file, data)
        finally:
            os.close(file)
        if whole:
            os.replace(new, path)
    except OSError as fault:
        if whole:
            with contextlib.suppress(OSError):
                os.remove(new)
        raise Fault(f'cannot write {path}: {fault.strerror}') from None


# ---- Running ----------------------------------------------------------------------------

class Words(argparse.ArgumentParser):
    """The words behind a tool's name.  Those that it does not know end it with one line and status
    2, so that a misspelt option does not pass for a check that was made."""

    def __init__(self, tool, text):
        super().__init__(prog=tool, allow_abbrev=False)
        self.text = text

    def format_help(self):
        return self.text.lstrip('\n')

    def print_help(self, file=None):
        print(self.format_help(), end='')

    def error(self, message):
        say(self.prog, f'{cut(message, LONGEST_MESSAGE)}; see --help')
        sys.exit(2)


def end_by_pipe():
    """End as one that nobody reads any more does: at once, quietly, by its signal."""
    signal.signal(signal.SIGPIPE, signal.SIG_DFL)
    os.kill(os.getpid(), signal.SIGPIPE)
    os._exit(1)     # where the signal is blocked


def status_of(main):
    """The exit status that a tool returns, or with which it exits."""
    try:
        return main() or 0
    except SystemExit as end:
        return end.code or 0


def what_failed(fault):
    """The lines that are said of a failure."""
    if isinstance(fault, Fault):
        return fault.args
    if isinstance(fault, OSError):
        where = '' if fault.filename is None else f'{str(fault.filename)!r}: '
        return [f'{where}{fault.strerror or fault}']
    return [{UnicodeDecodeError: 'an input is no text in UTF-8',
             KeyboardInterrupt: 'interrupted',
             RecursionError: 'an input is nested too deep',
             MemoryError: 'the memory does not suffice'}[type(fault)]]


def run(tool, main, failed=1):
    """Run a tool and exit.  `main` returns its exit status, none for 0.  What it prints is held
    until it has ended, then written whole; a tool that fails before has written nothing.  What
    fails is said in one line, and the exit status is `failed`."""
    held = io.StringIO()
    try:
        with contextlib.redirect_stdout(held):
            status = status_of(main)
        write(held.getvalue())
    except BrokenPipeError:
        end_by_pipe()
    except (Fault, OSError, UnicodeDecodeError, KeyboardInterrupt, RecursionError,
            MemoryError) as fault:
        for line in what_failed(fault):
            say(tool, line)
        status = failed
    sys.exit(status)
