"""What `page`, `replay` and `table` share: bytes given raw or as digits, the rules of an event table, and
one in words."""

import codecs
import re
import string
import struct

from common import Fault, Faults, cut, quoted

# Document 02, A8: bytes of a line, the most lines, the value that stands for no bit.
LINE, MOST, NO_BIT = 4, 64, 255

# The codes that the meter logs by itself (document 01), which a table may not list.
BARRED = {4, 5, 10, 11, *range(59, 68), 69, 255}

MOST_BYTES = 1 << 24        # of an input that is a page or a table
LONGEST_NAME = 40           # characters of an event's name

LOGS = {'standard': 1, 'fraud': 2, 'disconnect': 3}

# The bits of include/pillar.h, by their names there.
ERROR_BITS = {
    'clock-invalid': 0,
    'replace-battery': 1,
    'program-memory-error': 8,
    'ram-error': 9,
    'nv-memory-error': 10,
    'measurement-system-error': 11,
    'watchdog-error': 12,
}
ALARM_BITS = {**ERROR_BITS, 'fraud-attempt': 13}
NO_BIT_NAMES = {'-': NO_BIT}

# Each column: what it is called, and the names that stand for a number.
COLUMNS = (
    ('code', {}),
    ('log', LOGS),
    ('alarm bit', {**ALARM_BITS, **NO_BIT_NAMES}),
    ('error bit', {**ERROR_BITS, **NO_BIT_NAMES}),
)


# ---- Bytes ------------------------------------------------------------------------------

def given_bytes(data, what):
    """Raw bytes as they are; a text, which has printing characters only, as its hexadecimal
    digits."""
    unmarked = data.removeprefix(codecs.BOM_UTF8)
    if unmarked.translate(None, string.printable.encode()):
        return data
    text = unmarked.decode('ascii')
    other = re.search(r'[^0-9a-fA-F\s]', text)
    if other:
        at = text.count('\n', 0, other.start()) + 1
        raise Fault(f"line {at}: '{other[0]}' is no hexadecimal digit")
    digits = ''.join(text.split())
    if not digits:
        raise Fault(f'no {what}: the input is empty')
    if len(digits) % 2:
        made = 'digit makes' if len(digits) == 1 else 'digits make'
        raise Fault(f'{len(digits)} hexadecimal {made} no whole number of bytes')
    return bytes.fromhex(digits)


def table_lines(data):
    """The whole lines of an event table: code, log, alarm bit, error bit."""
    return list(struct.iter_unpack('>4B', data[:len(data) // LINE * LINE]))


# ---- The rules --------------------------------------------------------------------------

def length_fault(length):
    """What is wrong with a table of so many bytes, or None."""
    if length % LINE == 0 and 1 <= length // LINE <= MOST:
        return None
    lines = f'{length // LINE} line{"" if length // LINE == 1 else "s"}'
    rest = f' and {length % LINE} of {LINE} bytes' if length % LINE else ''
    return f'{lines}{rest}; a table has 1 to {MOST} whole lines'


def line_faults(line, before):
    """The rules that a line breaks, as (number, rule); `before` is the code of the line before
    it, None for the first."""
    code, log, *bits = line
    faults = []
    if code in BARRED:
        faults.append((18, f'code {code} is barred: the meter logs it by itself'))
    if before is not None and code <= before:
        faults.append((18, f'code {code} is not above that of the line before, {before}'))
    if not 1 <= log <= 3:
        faults.append((19, f'log {log} is not 1 to 3'))
    faults += [(19, f'{register} bit {bit} is not 0 to 31, nor {NO_BIT} for none')
               for register, bit in zip(('alarm', 'error'), bits) if 32 <= bit < NO_BIT]
    return faults


def table_faults(data):
    """The rules that a table breaks, as (line counted from 1 or None, number, rule), the one that
    decides first: 'On loading 17 comes first; then the first faulty line decides, 18 before 19
    within it.'"""
    faults, before = [], None
    length = length_fault(len(data))
    if length:
        faults.append((None, 17, length))
    for at, line in enumerate(table_lines(data), 1):
        faults += [(at, *fault) for fault in line_faults(line, before)]
        before = line[0]
    return faults


# ---- Words ------------------------------------------------------------------------------

def number(word, column, names):
    """A number of a byte, or a name that stands for one."""
    name = word.lower().replace('_', '-') if word != '-' else word
    if name in names:
        return names[name]
    if not re.fullmatch('0x[0-9a-fA-F]+|[0-9]+', word):
        known = ', '.join(names)
        raise Fault(f'{quoted(word)} is no {column}' + (f': a number, or {known}' if known else ''))
    value = int(word, 16 if 'x' in word else 10) if len(word) <= 10 else 256
    if value > 255:
        raise Fault(f'{column} {cut(word)} does not fit a byte')
    return value


def split(text_line):
    """The words of a line, and the name in quotes behind them, or None; `#` begins a comment."""
    found = re.fullmatch(r'([^"#]*)(?:"([^"]*)"\s*)?(?:#.*)?', text_line)
    if not found:
        raise Fault('a name stands in double quotes behind the error bit, and no word behind it')
    return found[1].split(), None if found[2] is None else found[2].strip()


def line_of(words, name):
    """The four numbers of a line; its name may be shown."""
    if len(words) != len(COLUMNS):
        raise Fault(f'an event has a code, a log, an alarm bit and an error bit, not '
                    f'{len(words)} word{"" if len(words) == 1 else "s"}')
    line = [number(word, *column) for word, column in zip(words, COLUMNS)]
    if name is not None and not (1 <= len(name) <= LONGEST_NAME and name.isprintable()):
        raise Fault(f'{quoted(name)} is no name: 1 to {LONGEST_NAME} printing characters')
    return line


def table_of(text):
    """The bytes of a table in words, its faults, and the names that it gives, by code."""
    data, faults, names, before = bytearray(), Faults(), {}, None
    for at, text_line in enumerate(text.split('\n'), 1):
        try:
            words, name = split(text_line.removesuffix('\r'))
            if not words and name is None:
                continue
            line = line_of(words, name)
        except Fault as fault:
            faults.add(at, fault)
            data += bytes(LINE)
            before = None
            continue
        for refusal, rule in line_faults(line, before):
            faults.add(at, f'{rule} ({refusal})')
        data += bytes(line)
        before = line[0]
        if name is not None:
            names[line[0]] = name
    length = length_fault(len(data))
    if length:
        faults.add(None, f'{length} (17)')
    return bytes(data), faults, names


def words_in(data):
    """The text of a table, if it is one in words; None for raw bytes and for digits.  A good
    table's raw bytes are no text, since its logs are none; words of hexadecimal digits alone have
    a log of one digit, where bytes have two."""
    try:
        text = data.decode('utf-8-sig')
    except UnicodeDecodeError:
        return None
    rows = [row for row in (line.split('#')[0].split() for line in text.split('\n')) if row]
    if not ''.join(text.split()).isprintable() or not any(len(row) > 1 for row in rows):
        return None
    numbers = re.fullmatch(r'[0-9a-fA-F\s]*', text)
    four = all(len(row) == len(COLUMNS) for row in rows)
    odd = any(len(word) % 2 for row in rows for word in row)
    return text if not numbers or four and odd else None
