"""What `records` and `replay` share: the records of both meters, and a history in words."""

import difflib
import re
import struct

from common import LONGEST_WORD, Fault, Faults, cut, quoted

SIGNED = ('THRESHOLD', 'POWER', 'L1', 'L2', 'L3', 'SUM')    # shown as two's complement
BITS = ('FILTER', 'MASK', 'IDS')    # shown as hexadecimal digits
AT_ONCE = 1 << 16                   # records that are written at once


def calls(thresholds, powers, *others):
    """Word, its numbers; a word's place is its kind."""
    return (
        ('fresh', ('MODE', *thresholds, 'OVER', 'UNDER', 'CLOCK')),
        ('sample', powers),
        ('remote-disconnect', ()),
        ('remote-reconnect', ()),
        ('manual-disconnect', ()),
        ('manual-reconnect', ()),
        ('mode', ('MODE',)),
        ('limiter', (*thresholds, 'OVER', 'UNDER')),
        ('clock', ('CLOCK',)),
        ('event', ('CODE',)),
        ('alarm-filter', ('FILTER',)),
        ('error-filter', ('FILTER',)),
        ('clear-alarms', ('MASK',)),
        ('clear-errors', ('MASK',)),
        ('clear-log', ('LOG',)),
        ('script', ('SCRIPT',)),
        *others,
    )


class Meter:
    """The records of a meter: a kind and so many numbers, and the words for them."""

    def __init__(self, numbers, words):
        self.numbers, self.calls = numbers, words
        self.record = struct.Struct(f'>B{numbers}I')
        self.kind = {word: kind for kind, (word, _) in enumerate(words)}
        self.words = (*self.kind, 'record', 'bytes', 'repeat', 'end')


ONE_PHASE = Meter(5, calls(
    ('THRESHOLD',), ('POWER',),
    ('emergency-groups', ('COUNT', 'IDS', 'IDS', 'IDS', 'IDS')),
    ('emergency-profile', ('ID', 'THRESHOLD', 'ACTIVATION', 'DURATION'))))
THREE_PHASE = Meter(8, calls(('L1', 'L2', 'L3', 'SUM'), ('L1', 'L2', 'L3')))


class NoRecord(Fault):
    """A word that begins no record; the nearest that does is looked for where it is said."""

    def __init__(self, word, known):
        super().__init__(word)
        self.word, self.known = word, known

    def __str__(self):
        near = difflib.get_close_matches(self.word.lower(), self.known, 1) if len(
            self.word) <= LONGEST_WORD else []
        hint = f"; did you mean '{near[0]}'?" if near else ''
        return f'{quoted(self.word)} is no record{hint}'


# ---- Words to records -------------------------------------------------------------------

def number(word):
    """A number of 32 bits, decimal or 0x..; a negative one in two's complement."""
    if not re.fullmatch('-?(0x[0-9a-fA-F]+|[0-9]+)', word):
        raise Fault(f'{quoted(word)} is no number')
    digits = word.lstrip('-0x') or '0'
    value = int(digits, 16 if 'x' in word else 10) if len(digits) <= 10 else 1 << 32
    if word.startswith('-'):
        value = -value
    if not -0x80000000 <= value <= 0xFFFFFFFF:
        raise Fault(f'{cut(word)} does not fit 32 bits')
    return value & 0xFFFFFFFF


def take(word, names, given):
    """The numbers given to a word: one for each name."""
    if len(given) != len(names):
        plural = '' if len(names) == 1 else 's'
        wanted = f' ({" ".join(names)})' if names else ''
        raise Fault(f"'{word}' takes {len(names) or 'no'} number{plural}{wanted}, "
                    f'not {len(given)}')
    return [number(each) for each in given]


def pack(meter, kind, numbers):
    """The record of a kind; missing numbers are 0."""
    return meter.record.pack(kind, *numbers, *[0] * (meter.numbers - len(numbers)))


def any_record(meter, given):
    """`record KIND [N1 .. N5]`."""
    takes = f"'record' takes a kind and up to {meter.numbers} numbers"
    if not given:
        raise Fault(f'{takes}; the kind is missing')
    if len(given) > meter.numbers + 1:
        raise Fault(f'{takes}, not {len(given) - 1}')
    kind, *numbers = [number(each) for each in given]
    if kind > 255:
        raise Fault(f'{cut(given[0])} is no kind: a kind is 0 to 255')
    return pack(meter, kind, numbers)


def plain_bytes(given):
    """`bytes HEX`, blanks between the digits allowed."""
    digits = ''.join(given)
    if not re.fullmatch('([0-9a-fA-F]{2})+', digits):
        raise Fault("'bytes' takes hexadecimal digits, two for each byte")
    return bytes.fromhex(digits)


def record(meter, word, given):
    """The bytes of one line."""
    if word == 'record':
        return any_record(meter, given)
    if word == 'bytes':
        return plain_bytes(given)
    if word not in meter.kind:
        raise NoRecord(word, meter.words)
    kind = meter.kind[word]
    return pack(meter, kind, take(word, meter.calls[kind][1], given))


def each_line(text):
    """The lines of a text, one after the other: a list of all would be larger than the text."""
    begin = 0
    while (end := text.find('\n', begin)) >= 0:
        yield text[begin:end]
        begin = end + 1
    yield text[begin:]


class History:
    """The records of a history, as blocks (bytes, times), and its faults."""

    def __init__(self, meter, text):
        self.meter, self.blocks, self.faults = meter, [], Faults()
        self.repeats = []           # lines of the repeats not yet ended
        for at, text_line in enumerate(each_line(text), 1):
            words = text_line.removesuffix('\r').split('#')[0].split()
            if words:
                self.read(at, *words)
        for at in self.repeats:
            self.faults.add(at, "'repeat' without its 'end'")

    def read(self, at, word, *given):
        """One line that is not empty."""
        try:
            if word == 'repeat':
                self.begin(at, given)
            elif word == 'end':
                self.end(given)
            else:
                self.add(record(self.meter, word, given))
        except Fault as fault:
            self.faults.add(at, fault)

    def add(self, data):
        """A record goes to the last block; outside a repeat a block stands once."""
        if not self.blocks:
            self.blocks.append([bytearray(), 1])
        self.blocks[-1][0] += data

    def begin(self, at, given):
        """`repeat N`."""
        self.repeats.append(at)
        if len(self.repeats) > 1:
            raise Fault(f"'repeat' inside the repeat of line {self.repeats[-2]}")
        times = take('repeat', ('N',), given)[0]
        if given[0].startswith('-'):
            raise Fault(f'{cut(given[0])} is no number of times')
        self.blocks.append([bytearray(), times])

    def end(self, given):
        """`end`."""
        if not self.repeats:
            raise Fault("'end' without its 'repeat'")
        self.repeats.pop()
        take('end', (), given)
        self.blocks.append([bytearray(), 1])


def blocks(history):
    """The bytes of a history, many records at once."""
    for block, times in history.blocks:
        together = max(1, AT_ONCE * history.meter.record.size // max(1, len(block)))
        for begin in range(0, times if block else 0, together):
            count = min(together, times - begin)
            yield block if count == 1 else block * count


# ---- Records to words -------------------------------------------------------------------

def show(name, value):
    """A number as its name wants it."""
    if name in SIGNED and value > 0x7FFFFFFF:
        return str(value - (1 << 32))
    return f'0x{value:08x}' if name in BITS else str(value)


def line(meter, data):
    """One record in words; a cut one, or one with unused numbers, as it is."""
    if len(data) < meter.record.size:
        parts = [data[:1], *(data[i:i + 4] for i in range(1, len(data), 4))]
        return ' '.join(['bytes', *(part.hex() for part in parts)])
    kind, *numbers = meter.record.unpack(data)
    word, names = meter.calls[kind] if kind < len(meter.calls) else ('record', ())
    if word == 'record' or any(numbers[len(names):]):
        while numbers and numbers[-1] == 0:
            numbers.pop()
        return ' '.join(map(str, ['record', kind, *numbers]))
    return ' '.join([word, *map(show, names, numbers)])


def lines(meter, data):
    """The records of the input in words, many at once."""
    size = meter.record.size
    for begin in range(0, len(data), size * AT_ONCE):
        end = min(begin + size * AT_ONCE, len(data))
        yield ''.join(line(meter, data[i:i + size]) + '\n' for i in range(begin, end, size))
