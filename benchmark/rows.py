#!/usr/bin/env python3
"""The rows of one kind: the stream that makes them, and the table of what callgrind counted.

    rows.py streams WORK            writes the streams that ./bench counts: the rows, restarts, WORK/recipe on either port and in pieces,
                                    and noise
    rows.py table WORK COLUMN ..    prints the table of WORK/COLUMN.*.count*, Rattle being the first column

The stream has a few hundred equal events for each row, and a restart behind them: before each restart callgrind writes down what it has
counted since the last one (--dump-before), so that one run gives all the rows. The node is set by handed-in records, so that between two
restarts nothing but the row's events calls anything.
"""
import sys

TIMES = 400
OWN = bytes([0x12, 0x34])
DATA = bytes(range(0x41, 0x49))
FLASH, EEPROM = 0x002000, 0xF00100
NOT_STARTED, STARTED, PROGRAMMING, WAITING = 0, 1, 2, 4
NOTHING, READ, WRITE, ERASE = range(4)
# The ways after noise.
NEW, OLD = 1, 2

# The aims: how many times the peer's instructions a call may take, with the record by value and without one.
RECORD_BY_VALUE, LEAF = 1.9, 1.2
# The names of the calls: proved, in the second program, in the peer.
NAMES = {
    'can_frame': ('node_can::can_frame', 'main::node::Node::can_frame', 'peer::peer::Node::can_frame'),
    'uart_byte': ('node_uart::uart_byte', 'main::node::Node::uart_byte', 'peer::peer::Node::uart_byte'),
    'restart': ('node_restart::restart', 'main::node::Node::restart', 'peer::peer::Node::restart'),
    'wrap': ('frame_wrap::wrap', 'main::frames::wrap', 'peer::peer::wrap'),
    'unwrap': ('frame_unwrap::unwrap', 'main::frames::unwrap', 'peer::peer::unwrap'),
    'to_can': ('frame_to_can::to_can', 'main::frames::frame_to_identifier', 'peer::peer::to_can'),
    'to_hapcan': ('frame_to_hapcan::to_hapcan', 'main::frames::identifier_to_frame', 'peer::peer::to_hapcan'),
    'rule': ('memory_address::rule', 'main::memory::asked', 'peer::peer::rule'),
    'translate': ('recipe_translate::translate', 'main::recipe::translate', 'peer::peer::translate'),
}
COLUMNS = ('rattle', 'second', 'peer')
HEADS = {'rattle': 'Rattle', 'second': 'second', 'peer': 'peer'}
ON_RECORD = ('can_frame', 'uart_byte', 'restart')
LEAVES = ('wrap', 'unwrap', 'to_can', 'to_hapcan', 'rule')


def record(*parts):
    """A record of the stream: numbers and bytes, filled up with 0."""
    return b''.join(bytes([p]) if isinstance(p, int) else p for p in parts).ljust(64, b'\0')


def node(mode=PROGRAMMING, staged=NOTHING, address=0, held=b'', pin=1, way=NEW):
    """A node is handed in."""
    fixed = bytes(range(1, 7))
    what = staged, address >= 0xF00000, address.to_bytes(4, 'big')
    return record(0x05, pin, fixed, OWN, len(held), held.ljust(14, b'\0'), mode, *what, bytes(5), way)


def frame(kind, data=DATA, flags=0, numbers=OWN):
    return bytes([kind >> 4, kind << 4 & 0xF0 | flags]) + numbers + data


def address_frame(address, command, **more):
    return frame(0x030, address.to_bytes(3, 'big') + bytes([0xFF, 0xFF, command, 0xFF, 0xFF]), **more)


def wrapped(inner):
    return b'\xAA' + inner + bytes([sum(inner) % 256]) + b'\xA5'


def can(*frames):
    return [record(0x02, 0, 12, f) for f in frames]


def uart(some):
    return [record(0x03, byte) for byte in some]


def each(set_up, event):
    """The event, each time with the node set up anew."""
    return TIMES * [set_up, *event]


STAGE = address_frame(FLASH, WRITE)
PUT = frame(0x040)
ASK = b'\0\0' + OWN + 4 * b'\0'
STAGED = dict(staged=WRITE, address=FLASH)
WRAPPED = wrapped(STAGE)

# Each row: the call, what it is handed, the events.
ROWS = [
    ('can_frame', '0x030 stages a write', [node()] + TIMES * can(STAGE)),
    ('can_frame', '0x040 writes FLASH', [node(**STAGED)] + TIMES * can(PUT)),
    ('can_frame', '0x040 writes EEPROM', [node(staged=WRITE, address=EEPROM)] + TIMES * can(PUT)),
    ('can_frame', '0x040 erases', [node(staged=ERASE, address=FLASH)] + TIMES * can(PUT)),
    ('can_frame', '0x040 reads FLASH', [node(staged=READ, address=FLASH)] + TIMES * can(PUT)),
    ('can_frame', '**a frame: 0x030 and 0x040 in turn**', [node()] + TIMES // 2 * can(STAGE, PUT)),
    ('can_frame', 'refused 3 (waiting)', [node(mode=WAITING)] + TIMES * can(STAGE)),
    ('can_frame', 'refused 4 (upper flag)', [node(**STAGED)] + TIMES * can(frame(0x030, flags=2))),
    ('can_frame', 'refused 5 (response)', [node(**STAGED)] + TIMES * can(frame(0x030, flags=1))),
    ('can_frame', 'refused 6 (no such type)', [node(**STAGED)] + TIMES * can(frame(0x050))),
    ('can_frame', 'refused 6 (type of the other mode)', [node(**STAGED)] + TIMES * can(frame(0x104, ASK))),
    ('can_frame', 'refused 7 (foreign)', [node(**STAGED)] + TIMES * can(address_frame(FLASH, WRITE, numbers=b'\1\1'))),
    ('can_frame', 'refused 8 (illegal address)', [node()] + TIMES * can(address_frame(0x000800, WRITE))),
    ('can_frame', 'refused 9 (nothing staged)', [node()] + TIMES * can(PUT)),
    ('can_frame', '0x104 hardware type', [node(mode=STARTED)] + TIMES * can(frame(0x104, ASK))),
    ('can_frame', '0x106, firmware started', [node(mode=STARTED)] + TIMES * can(frame(0x106, ASK))),
    ('can_frame', '0x106, not started: 0x1F1', [node(mode=NOT_STARTED)] + 100 * can(frame(0x106, ASK))),
    ('can_frame', '0x10E description, two replies', [node(mode=STARTED)] + TIMES * can(frame(0x10E, ASK))),
    ('uart_byte', 'skipped byte', [node()] + TIMES * uart(b'\0')),
    ('uart_byte', 'refused 2 (CAN only)', [node(pin=0)] + TIMES * uart(b'\xAA')),
    ('uart_byte', 'first byte 0xAA', each(node(), uart(b'\xAA'))),
    ('uart_byte', 'held byte 8', each(node(held=WRAPPED[:7], **STAGED), uart(WRAPPED[7:8]))),
    ('uart_byte', '15th, wrong stop (11), nothing stays', each(node(held=WRAPPED[:14], **STAGED), uart(b'\0'))),
    ('uart_byte', '11, from the 2nd on: fourteen stay', each(node(held=b'\xAA' + WRAPPED[:13], **STAGED), uart(b'\0'))),
    ('uart_byte', '11, from the 15th on: one stays', each(node(held=WRAPPED[:14], **STAGED), uart(b'\xAA'))),
    ('uart_byte', '11 in the old way', each(node(held=WRAPPED[:14], way=OLD, **STAGED), uart(b'\0'))),
    ('uart_byte', '15th of 0x030', each(node(held=WRAPPED[:14]), uart(b'\xA5'))),
    ('uart_byte', '15th of 0x040, a write', each(node(held=wrapped(PUT)[:14], **STAGED), uart(b'\xA5'))),
    ('uart_byte', '**a byte: of 0x030 and 0x040 in turn**', [node()] + TIMES // 20 * uart(WRAPPED + wrapped(PUT))),
    ('wrap', '12 bytes', TIMES * [record(0x0C, 12, 15, STAGE)]),
    ('unwrap', '15 bytes', TIMES * [record(0x0D, 15, 12, WRAPPED)]),
    ('to_can', '12 bytes', TIMES * [record(0x0B, 12, 8, STAGE)]),
    ('to_hapcan', '8 data bytes', TIMES * [record(0x0A, b'\x00\x60\x12\x34', 8, 12, DATA)]),
    ('rule', 'a row of FLASH', TIMES * [record(0x0E, FLASH.to_bytes(4, 'big'), b'\0\0\0\2')]),
    ('rule', 'a row of EEPROM', TIMES * [record(0x0E, EEPROM.to_bytes(4, 'big'), b'\0\0\0\2')]),
]
# The lengths of pieces, 0 being byte by byte, and those of noise.
PIECES = (0, 1, 15, 64, 4096)
NOISE_PIECES = (0, 64)
# Rows that are runs of their own: the call, what it is handed, the run.
RUNS = [
    ('restart', 'with the firmware sum', 'restarts'),
    ('restart', 'the three cells differ', 'restarts-other-cells'),
    ('translate', 'a recipe of 2,048 items', 'can'),
]


def frames(recipe):
    """The frames that a recipe becomes."""
    numbers, at = b'', 0
    while at < len(recipe):
        kind, body = recipe[at], recipe[at + 1:]
        address = int.from_bytes(body[:3], 'big')
        if kind == 0x01:
            numbers, length = body[:2], 2
        elif kind == 0x02:
            yield address_frame(address, ERASE, numbers=numbers)
            yield frame(0x040, b'\xFF' * 8, numbers=numbers)
            for row in range(0, 64, 8):
                yield address_frame(address + row, WRITE, numbers=numbers)
                yield frame(0x040, body[3 + row:11 + row], numbers=numbers)
            length = 67
        elif kind == 0x03:
            yield address_frame(address, WRITE, numbers=numbers)
            yield frame(0x040, body[3:11], numbers=numbers)
            length = 11
        else:
            yield frame(0x020, b'\xFF' * 8, numbers=numbers)
            length = 0
        at += 1 + length


def streams(work):
    """Writes the streams."""
    begin, mark, end = record(0x08, 0xFF, 0xFF, bytes(range(1, 7))), record(0x01, 1, 1), record(0x09)
    rows = [r for _, _, events in ROWS for r in [*events, mark]]
    # A node whose BOOTFL is 0x00, so that each restart asks whether firmware starts: it works out the sum where the three cells are right.
    other_cells = [record(0x08, 0x5A, 0x00)] + 100 * [record(0x01, 1)]
    cells = [record(0x07, (0x001010 + i).to_bytes(4, 'big'), value) for i, value in enumerate((0x30, 0x00, 0x03))]
    restarts = other_cells[:1] + cells + other_cells[1:]
    # The recipe, on CAN and on UART: plain memories, pin CAN and UART, nothing staged, nothing held.
    recipe = open(f'{work}/recipe', 'rb').read()
    recipe = record(recipe[:14], 0, 0, 1) + recipe[64:]
    for name, stream in (
        ('rows', b''.join([begin, *rows, end])),
        ('restarts', b''.join([*restarts, end])),
        ('restarts-other-cells', b''.join([*other_cells, end])),
        ('can', recipe[:1] + b'\0' + recipe[2:]),
        ('uart', recipe[:1] + b'\1' + recipe[2:]),
        *pieces(recipe),
    ):
        open(f'{work}/{name}', 'wb').write(stream)


def noise(length):
    """Pseudo-random bytes, one in eight of them 0xAA beside those that come out so, and no right frame among them."""
    made, state = bytearray(), 1
    while len(made) < length:
        state = (state * 6364136223846793005 + 1442695040888963407) % 2**64
        made.append(0xAA if state >> 61 == 0 else state >> 48 & 0xFF)
        if made[-1] == 0xA5 and made[-15:] == wrapped(made[-14:-2]):
            made[-1] = 0
    return bytes(made)


def pieces(recipe):
    """Behind the length of a piece, the own numbers and the way after noise the recipe's bytes on UART, as many bytes of noise in each way,
    and the same with no bytes: names and streams."""
    own, length = recipe[4:6], int.from_bytes(recipe[6:10], 'big')
    serial = b''.join(wrapped(inner) for inner in frames(recipe[64:64 + length]))
    noisy = noise(len(serial))
    for name, some, way, lengths in (
        ('pieces', serial, NEW, PIECES),
        ('noise.new', noisy, NEW, NOISE_PIECES),
        ('noise.old', noisy, OLD, NOISE_PIECES),
    ):
        for piece in lengths:
            head = piece.to_bytes(2, 'big') + own + bytes([way])
            yield f'{name}.{piece}', head + some
            yield f'{name}.{piece}.none', head


def inside(path, function):
    """The calls of a function in a file of callgrind's, and the instructions in them and in what they call."""
    names, calls, cost, wanted = {}, 0, 0, 0
    for line in open(path):
        if line.startswith(('fn=', 'cfn=')):
            number, _, name = line.split('=', 1)[1].strip().partition(' ')
            names.setdefault(number, name)
            wanted = line[0] == 'c' and names[number] == function
        elif line.startswith('calls='):
            if wanted:
                calls += int(line[6:].split()[0])
                wanted = 2
        elif wanted == 2:
            cost += int(line.split()[1])
            wanted = 0
    return calls, cost


def cell(work, column, call, kind, at, times):
    """Instructions a call, as callgrind counted them."""
    function = NAMES[call][COLUMNS.index(column)]
    path = f'{work}/{column}.{kind}.count' + (f'.{at}' if at else '')
    calls, cost = inside(path, function)
    if not calls or times and calls != times:
        sys.exit(f'bench: {function} is called {calls} times in {path}' + (f', not {times}' if times else ''))
    return cost / calls


def table(work, columns):
    """Prints the table."""
    others = columns[1:]
    heads = ['Call', 'it is handed', *(HEADS[c] for c in columns), *(f'Rattle / {HEADS[c]}' for c in others)]
    print('| ' + ' | '.join(heads) + ' |')
    print('|---|---|' + '---:|' * (len(heads) - 2))
    rows = [(call, what, 'leaves' if call in LEAVES else 'calls', at, sum(event[0] != 0x05 for event in events))
            for at, (call, what, events) in enumerate(ROWS, 1)]
    for call, what, kind, at, times in rows + [(call, what, run, 0, 0) for call, what, run in RUNS]:
        costs = [cell(work, column, call, kind, at, times) for column in columns]
        ratios = []
        for column, cost in zip(others, costs[1:]):
            ratio = costs[0] / cost
            aim = RECORD_BY_VALUE if call in ON_RECORD else LEAF
            mark = ' !' if column == 'peer' and round(ratio, 2) > aim else ''
            ratios.append(f'{ratio:.2f}{mark}')
        print(f'| `{call}` | {what} | ' + ' | '.join([f'{cost:,.0f}' for cost in costs] + ratios) + ' |')


if __name__ == '__main__':
    if sys.argv[1] == 'streams':
        streams(sys.argv[2])
    else:
        table(sys.argv[2], sys.argv[3:])
