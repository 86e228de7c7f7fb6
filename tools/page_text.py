"""What `page` and `replay` share: a page as a text, under the built-in event table or another."""

import datetime
import struct

from common import Fault, read_bytes
from event_table import (BARRED, MOST_BYTES, NO_BIT, given_bytes, table_faults, table_lines,
                         table_of, words_in)

# Document 01, 'The page', and document 02, A3 and A6: offset, length, area.
ONE_PHASE = (
    (36, 6, 'control mode, state, openings'),
    (42, 17, 'limiter'),
    (59, 4, 'clock'),
    (63, 9, 'alarm register, filter, count'),
    (72, 8, 'error register and filter'),
    (80, 161, 'log 1, standard'),
    (241, 161, 'log 2, fraud'),
    (402, 161, 'log 3, disconnect'),
    (563, 36, 'emergency profile and groups'),
)

# Document 02, A13.
THREE_PHASE = (
    (32, 6, 'control mode, state, openings'),
    (38, 44, 'limiter'),
    (82, 4, 'clock'),
    (86, 9, 'alarm register, filter, count'),
    (95, 8, 'error register and filter'),
    (103, 161, 'log 1, standard'),
    (264, 161, 'log 2, fraud'),
    (425, 161, 'log 3, disconnect'),
)
LENGTH, THREE_PHASE_LENGTH = 599, 586

# The monitored values of a three-phase meter, in their order.
MONITORED = ('L1', 'L2', 'L3', 'sum')

# Document 02, A3.
PROFILE_STATES = {
    0: 'none',
    1: 'waiting',
    2: 'active',
}

# 003, 6.9.2, 'Control State'.
CONTROL_STATES = {
    0: 'Disconnected',
    1: 'Connected',
    2: 'Ready for reconnection',
}

# 003, Tables 55 and 56: what a control mode allows, with the letters of the transitions.
CONTROL_MODES = {
    0: ('none: always Connected',),
    1: ('disconnects: remote (b, c), manual (f), local (g)',
        'reconnects: remote to Ready (d), manual (e)'),
    2: ('disconnects: remote (b, c), manual (f), local (g)',
        'reconnects: remote to Connected (a), manual (e)'),
    3: ('disconnects: remote (b, c), local (g)',
        'reconnects: remote to Ready (d), manual (e)'),
    4: ('disconnects: remote (b, c), local (g)',
        'reconnects: remote to Connected (a), manual (e)'),
    5: ('disconnects: remote (b, c), manual (f), local (g)',
        'reconnects: remote to Ready (d), manual (e), local (h)'),
    6: ('disconnects: remote (b, c), local (g)',
        'reconnects: remote to Ready (d), manual (e), local (h)'),
}

# The codes of document 01 with its logs and bits: code, logs, alarm bit, error bit, and the
# event name of 003, Tables 44 (standard), 45 (fraud) and 47 (disconnecter control).
EVENTS = (
    (1, (1,), None, None, 'Power Down'),
    (2, (1,), None, None, 'Power Up'),
    (4, (1,), None, None, 'Clock adjusted (old date/time)'),
    (5, (1,), None, None, 'Clock adjusted (new date/time)'),
    (6, (1,), 0, 0, 'Clock invalid'),
    (7, (1,), 1, 1, 'Replace Battery'),
    (8, (1,), None, None, 'Battery voltage low'),
    (10, (1,), None, None, 'Error register cleared'),
    (11, (1,), None, None, 'Alarm register cleared'),
    (12, (1,), 8, 8, 'Program memory error'),
    (13, (1,), 9, 9, 'RAM error'),
    (14, (1,), 10, 10, 'NV memory error'),
    (15, (1,), 12, 12, 'Watchdog error'),
    (16, (1,), 11, 11, 'Measurement system error'),
    (40, (2,), 13, None, 'Terminal cover removed'),
    (41, (2,), None, None, 'Terminal cover closed'),
    (42, (2,), 13, None, 'Strong DC field detected'),
    (43, (2,), None, None, 'No strong DC field anymore'),
    (44, (2,), 13, None, 'Meter cover removed'),
    (45, (2,), None, None, 'Meter cover closed'),
    (46, (2,), None, None, 'Association authentication failure (n time failed authentication)'),
    (59, (3,), None, None, 'Disconnecter ready for manual reconnection'),
    (60, (3,), None, None, 'Manual disconnection'),
    (61, (3,), None, None, 'Manual connection'),
    (62, (3,), None, None, 'Remote disconnection'),
    (63, (3,), None, None, 'Remote connection'),
    (64, (3,), None, None, 'Local disconnection'),
    (65, (3,), None, None, 'Limiter threshold exceeded'),
    (66, (3,), None, None, 'Limiter threshold ok'),
    (67, (3,), None, None, 'Limiter threshold changed'),
    (68, (3,), None, None, 'Disconnect/Reconnect failure'),
    (69, (3,), None, None, 'Local reconnection'),
    (255, (1, 2, 3), None, None, 'Event log cleared'),
)

# 003, Table 50 (6.6.2): the bits of the alarm register; the others are reserved.
ALARM_BITS = {
    0: 'Clock invalid',
    1: 'Replace battery',
    2: 'A2 (PLC meters only)',
    3: 'A3 (PLC meters only)',
    4: 'A4 (PLC meters only)',
    5: 'A5 (PLC meters only)',
    8: 'Program memory error',
    9: 'RAM error',
    10: 'NV memory error',
    11: 'Measurement system error',
    12: 'Watchdog error',
    13: 'Fraud attempt',
    16: 'Comm. error M-Bus Ch1',
    17: 'Comm. error M-Bus Ch2',
    18: 'Comm. error M-Bus Ch3',
    19: 'Comm. error M-Bus Ch4',
    20: 'Fraud attempt M-Bus Ch1',
    21: 'Fraud attempt M-Bus Ch2',
    22: 'Fraud attempt M-Bus Ch3',
    23: 'Fraud attempt M-Bus Ch4',
}

# 003, Table 53 (6.7.1): the bits of the error register; the others are unused.
ERROR_BITS = {
    0: 'Clock invalid',
    1: 'Replace battery (discharged)',
    8: 'Program memory error',
    9: 'RAM error',
    10: 'NV memory error',
    11: 'Measurement system error',
    12: 'Watchdog error',
    16: 'Communication error M-Bus channel 1',
    17: 'Communication error M-Bus channel 2',
    18: 'Communication error M-Bus channel 3',
    19: 'Communication error M-Bus channel 4',
}


# ---- The event table --------------------------------------------------------------------

class Table:
    """The events in the form of EVENTS, and the names of the bits; its bytes, none for the
    built-in table, and how many lines."""

    def __init__(self):
        self.data, self.lines, self.events = b'', None, EVENTS

    def alarm(self, bit):
        """The name of a bit of the alarm register."""
        return ALARM_BITS.get(bit, 'Reserved for future use')

    def error(self, bit):
        """The name of a bit of the error register."""
        return ERROR_BITS.get(bit, 'Unused')


class OwnTable(Table):
    """A harbour's own table, with the codes that the meter logs by itself; names by code."""

    def __init__(self, table, names):
        super().__init__()
        self.data, self.own, self.names = table, table_lines(table), names
        bit = {NO_BIT: None}
        own = [(code, (number,), bit.get(alarm, alarm), bit.get(error, error),
                names.get(code, f'event {code}')) for code, number, alarm, error in self.own]
        self.lines = len(own)
        self.events = tuple(sorted([*own, *(each for each in EVENTS if each[0] in BARRED)]))

    def bit(self, bit, raised_by):
        """The names of the events that raise a bit."""
        given = [self.names[code] for code in raised_by if code in self.names]
        return ', '.join(dict.fromkeys(given)) or f'bit {bit}'

    def alarm(self, bit):
        return self.bit(bit, [code for code, _, alarm, _ in self.own if alarm == bit])

    def error(self, bit):
        return self.bit(bit, [code for code, _, _, error in self.own if error == bit])


def good_table(path):
    """A good event table; without a file the built-in one."""
    if path is None:
        return Table()
    data = read_bytes(path, MOST_BYTES)
    text = words_in(data)
    try:
        if text is not None:
            table, faults, names = table_of(text)
            faults.check()
            return OwnTable(table, names)
        table = given_bytes(data, 'table')
    except Fault as fault:
        raise Fault(f'table: {fault.args[0]}') from None
    faults = table_faults(table)
    if faults:
        raise Fault(f'the table is refused with {faults[0][1]}: {faults[0][2]}')
    return OwnTable(table, {})


# ---- A page's parts ---------------------------------------------------------------------
# Each part gives the lines that show it and the rules of a sound record that it breaks.

def must(broken, what, value, low, high):
    """Note a value outside its range."""
    if not low <= value <= high:
        between = 'or' if high == low + 1 else 'to'
        broken.append(f'{what} is {value}; it must be {low} {between} {high}')


def field(name, value, *notes):
    """A field's line; further notes stand under the first."""
    first, *rest = notes or ('',)
    shown = [f'  {name:<16}{value:>10}  {first}'.rstrip()]
    return shown + [' ' * 30 + note for note in rest]


def disconnect_control(area):
    """Control mode, control state and openings."""
    mode, state, openings = struct.unpack('>BBI', area)
    broken = []
    must(broken, 'control mode', mode, 0, 6)
    must(broken, 'control state', state, 0, 2)
    if mode == 0 and state != 1:
        broken.append(f'control state is {state}; in control mode 0 it must be 1, Connected')
    shown = ['Disconnect control',
             *field('Control mode', mode, *CONTROL_MODES.get(mode, ('no control mode',))),
             *field('Control state', state, CONTROL_STATES.get(state, 'no control state')),
             *field('Openings', openings)]
    return shown, broken


def first_capital(name):
    """A field's name as it begins a line."""
    return name[:1].upper() + name[1:]


def threshold_of(value, threshold, broken):
    """The threshold of a monitored value, which has a name only where there are several."""
    name = f'{value} threshold'.strip()
    must(broken, name, threshold, 0, 0x7FFFFFFF)
    return field(first_capital(name), threshold, 'W')


def durations(over, under, broken):
    """The durations, which the monitored values share."""
    must(broken, 'over duration', over, 1, 86400)
    must(broken, 'under duration', under, 1, 86400)
    return [*field('Over duration', over, 'samples'), *field('Under duration', under, 'samples')]


def exceeded_and_run(value, exceeded, run, over, under, broken):
    """Whether a monitored value is exceeded, and its run."""
    exceeded_name, run_name = (f'{value} {name}'.strip() for name in ('Exceeded', 'Run'))
    must(broken, exceeded_name, exceeded, 0, 1)
    if exceeded == 0:
        word = 'no'
        note = f'samples in a row above the threshold in force; at {over} Exceeded is set'
        if run >= over:
            broken.append(f'{run_name} is {run}; while not Exceeded it must be below the over '
                          f'duration, {over}')
    elif exceeded == 1:
        word = 'yes'
        note = f'samples in a row not above the threshold in force; at {under} Exceeded ends'
        if run >= under:
            broken.append(f'{run_name} is {run}; while Exceeded it must be below the under '
                          f'duration, {under}')
    else:
        word, note = 'neither no (0) nor yes (1)', 'samples in a row'
    return [*field(first_capital(exceeded_name), exceeded, word),
            *field(first_capital(run_name), run, note)]


def limiter(area):
    """The limiter's settings, whether it is exceeded, and its run."""
    threshold, over, under, exceeded, run = struct.unpack('>IIIBI', area)
    broken = []
    shown = ['Limiter',
             *threshold_of('', threshold, broken),
             *durations(over, under, broken),
             *exceeded_and_run('', exceeded, run, over, under, broken)]
    return shown, broken


def three_phase_limiter(area):
    """'Over, Under, then threshold, Exceeded and Run per line' (document 02, A13)."""
    over, under = struct.unpack('>II', area[:8])
    broken = []
    shown = ['Limiter', *durations(over, under, broken)]
    for value, (threshold, exceeded, run) in zip(MONITORED, struct.iter_unpack('>IBI', area[8:])):
        shown += threshold_of(value, threshold, broken)
        shown += exceeded_and_run(value, exceeded, run, over, under, broken)
    return shown, broken


def date(seconds):
    """Seconds as a date, counted from 1970 here: document 01 names no first day."""
    day = datetime.datetime(1970, 1, 1) + datetime.timedelta(seconds=seconds)
    return f'counted from 1970: {day.isoformat(" ")} UTC'


def clock(area):
    """The clock."""
    seconds = int.from_bytes(area, 'big')
    return ['Clock', *field('Seconds', seconds, date(seconds))], []


def register(area, what, name, raisers):
    """A register and its filter: the bits that an event raises, and others that are one."""
    bits, mask = struct.unpack('>II', area)
    wide = max([10, *(len(', '.join(codes)) for codes in raisers.values())])
    names = {bit: name(bit) for bit in range(32) if bit in raisers or (bits | mask) >> bit & 1}
    wide_name = max([35, *map(len, names.values())])
    row = '  {:>3}  {:<%d}  {:<%d}  {:<8}  {}' % (wide_name, wide)
    shown = [f'{what} register 0x{bits:08x}, filter 0x{mask:08x}',
             row.format('Bit', what, 'Raised by', 'Register', 'Filter')]
    shown += [row.format(bit, names[bit], ', '.join(raisers.get(bit, ())) or 'no event',
                         'set' if bits >> bit & 1 else '-', 'hides' if mask >> bit & 1 else '-')
              for bit in names]
    return shown, []


def raisers(places):
    """The codes that raise each bit, from pairs (code, bit)."""
    return {bit: [str(code) for code, other in places if other == bit]
            for _, bit in places if bit is not None}


def alarms(area, table):
    """The alarm register, its filter and how many alarms stand."""
    count, bits = area[8], bin(int.from_bytes(area[:4], 'big')).count('1')
    (title, *shown), broken = register(
        area[:8], 'Alarm', table.alarm,
        raisers([(code, bit) for code, _, bit, _, _ in table.events]))
    if count != bits:
        broken.append(f'alarms standing is {count}; it must be how many bits of the alarm '
                      f'register are set, {bits}')
    return [f'{title}, alarms standing: {count}', *shown], broken


def errors(area, table):
    """The error register and its filter."""
    return register(area, 'Error', table.error,
                    raisers([(code, bit) for code, _, _, bit, _ in table.events]))


def event_name(code, number, events):
    """What a code in the log of that number means."""
    for other, logs, _, _, name in events:
        if other == code:
            return name if number in logs else f'of log {logs[0]}: {name}'
    return 'no code of document 01' if events is EVENTS else 'no code of the table'


def may_hold(code, number, events):
    """Whether the log of that number may hold a code."""
    return any(other == code and number in logs for other, logs, _, _, _ in events)


def log_title(what, count):
    """A log's first line."""
    if count > 32:
        return f'{what}: count {count}, all 32 places shown'
    return f'{what}: {count or "no"} line{"" if count == 1 else "s"}' + (
        ', oldest first' if count > 1 else '')


def log(area, number, what, events):
    """A log: its lines, and those past its count that are not zero."""
    count, lines = area[0], list(struct.iter_unpack('>IB', area[1:]))
    row = '  {:>2}  {:>10}  {:>4}  {}'
    shown, broken = [log_title(what, count)], []
    must(broken, f'the count of log {number}', count, 0, 32)
    past = []
    for at, (seconds, code) in enumerate(lines, 1):
        if at <= count:
            shown.append(row.format(at, seconds, code, event_name(code, number, events)))
            if not may_hold(code, number, events):
                broken.append(f'log {number}, line {at}: code {code} is no code of this log')
        elif (seconds, code) != (0, 0):
            past.append(row.format(at, seconds, code, 'past the count, not zero'))
            broken.append(f'log {number}, line {at}: past the count it must be zero')
    if len(shown) > 1 or past:
        shown.insert(1, row.format('No', 'Clock', 'Code', 'Event'))
    return shown + past, broken


def profile_rules(state, threshold, duration, left):
    """The rules that a profile which waits or runs breaks."""
    broken = []
    must(broken, 'emergency threshold', threshold, 0, 0x7FFFFFFF)
    must(broken, 'emergency duration', duration, 1, 604800)
    if state == 1 and left != duration:
        broken.append(f'samples left is {left}; while waiting it must be the duration, '
                      f'{duration}')
    if state == 2 and not 1 <= left <= duration:
        broken.append(f'samples left is {left}; while active it must be 1 to the duration, '
                      f'{duration}')
    return broken


def emergency(area):
    """The emergency profile, and the group ids that one may name."""
    number, threshold, activation, duration, left, state, count = struct.unpack(
        '>HIIIIBB', area[:20])
    ids = struct.unpack('>8H', area[20:])
    broken = []
    must(broken, 'profile state', state, 0, 2)
    if state == 0:
        broken += [f'{name} is {value}; without a profile it must be 0' for name, value in (
            ('profile id', number), ('emergency threshold', threshold),
            ('activation', activation), ('emergency duration', duration),
            ('samples left', left)) if value]
    elif state <= 2:
        broken += profile_rules(state, threshold, duration, left)
    must(broken, 'the count of group ids', count, 0, 8)
    broken += [f'group id {at}: past the count it must be zero'
               for at, value in enumerate(ids, 1) if at > count and value]
    shown = ['Emergency profile',
             *field('State', state, PROFILE_STATES.get(state, 'no state')),
             *field('Profile id', number),
             *field('Threshold', threshold, 'W'),
             *field('Activation', activation, date(activation) if state else ''),
             *field('Duration', duration, 'samples'),
             *field('Samples left', left, 'samples'),
             *field('Group ids', count, ', '.join(map(str, ids[:count])))]
    past = ', '.join(map(str, ids[count:]))
    return shown + ([' ' * 30 + f'past the count: {past}'] if any(ids[count:]) else []), broken


def parts_by(table, areas):
    """How each of the areas is shown."""
    return (disconnect_control, limiter if areas is ONE_PHASE else three_phase_limiter, clock,
            lambda area: alarms(area, table),
            lambda area: errors(area, table),
            lambda area: log(area, 1, 'Log 1, standard', table.events),
            lambda area: log(area, 2, 'Log 2, fraud', table.events),
            lambda area: log(area, 3, 'Log 3, disconnect', table.events),
            emergency)[:len(areas)]


def pairs(page, areas):
    """The pairs, one for each area, and which of them differ from the documents'."""
    row = '  {:>2}  {:<30}  {:>6}  {:>6}  {}'
    shown = ['Pairs', row.format('No', 'Area', 'Offset', 'Length', '').rstrip()]
    broken = []
    for at, (offset, length, area) in enumerate(areas, 1):
        pair = struct.unpack('>HH', page[4 * at - 4:4 * at])
        remark = ''
        if pair != (offset, length):
            remark = f'differs: the documents have {offset}, {length}'
            broken.append(f'pair {at} is ({pair[0]}, {pair[1]}); it must be '
                          f'({offset}, {length})')
        shown.append(row.format(at, area, *pair, remark).rstrip())
    shown.append(f'  {len(broken) or "None"} differ{"" if len(broken) > 1 else "s"} '
                 f'from the documents.')
    return shown, broken


# ---- The whole page ---------------------------------------------------------------------

def verdict(broken):
    """A reader's answer; it stops at the first of the rules (number, rule)."""
    if not broken:
        return ['A reader takes this page.']
    return [f'A reader refuses this page with {broken[0][0]}.  Broken rules:',
            *(f'  {number:>2}  {rule}' for number, rule in broken)]


def show(page, table):
    """All lines of a page under a table, and whether a reader takes it."""
    unit = 'byte' if len(page) == 1 else 'bytes'
    lines = f'{table.lines} line{"" if table.lines == 1 else "s"}'
    under = f', under an own event table of {lines}' if table.lines else ''
    three_phase = len(page) == THREE_PHASE_LENGTH
    areas = THREE_PHASE if three_phase else ONE_PHASE
    meter = ', three-phase meter' if three_phase else ''
    blocks, missing, broken = [[f'Page: {len(page)} {unit}{meter}{under}']], [], []
    if len(page) not in (LENGTH, THREE_PHASE_LENGTH):
        broken.append((9, f'the length is {len(page)}; it must be {LENGTH}, or '
                          f'{THREE_PHASE_LENGTH} of a three-phase meter'))
    parts = [(10, 0, 4 * len(areas), 'pairs', lambda page: pairs(page, areas))]
    parts += [(11, *area, part) for area, part in zip(areas, parts_by(table, areas))]
    for number, offset, length, name, part in parts:
        if len(page) < offset + length:
            missing.append(f'  {name}')
            continue
        shown, rules = part(page[offset:offset + length])
        blocks.append(shown)
        broken += [(number, rule) for rule in rules]
    if missing:
        blocks.append(['Not whole in this page', *missing])
    if len(page) > LENGTH:
        blocks.append([f'Bytes past {LENGTH}: {len(page) - LENGTH}, not shown'])
    blocks.append(verdict(broken))
    return '\n\n'.join('\n'.join(block) for block in blocks), not broken
