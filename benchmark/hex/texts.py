#!/usr/bin/env python3
"""The texts of ./bench hex, for the programs beside this file.
     texts.py FOLDER    writes each text as FOLDER/hex.NAME.text, and behind a head for one call (hex.NAME.1) and for so many
                        more (hex.NAME.N). A head: the calls (two bytes, high first), the room lent (three), module, group."""
import random
import sys

CALLS = 5
ROOM = 66820  # what the recipe of a full area takes
FLASH, EEPROM = range(0x001000, 0x010000), range(0xF00000, 0xF00400)


def record(address, kind, data):
    body = bytes([len(data), address >> 8 & 0xFF, address & 0xFF, kind, *data])
    return b":%s\n" % (body + bytes([-sum(body) & 0xFF])).hex().upper().encode()


def text(cells, starts, size):
    """Records of this size from each start on, a type 04 where the upper half of addresses is another, and the end record."""
    upper, lines = 0, []
    for start in starts:
        if start >> 16 != upper:
            upper = start >> 16
            lines.append(record(0, 0x04, upper.to_bytes(2, "big")))
        lines.append(record(start, 0x00, [cells[a] for a in range(start, start + size)]))
    return lines + [record(0, 0x01, [])]


def main(folder):
    draw = random.Random(20261116)
    cells = {a: draw.randrange(256) for area in (FLASH, EEPROM) for a in area}
    full = text(cells, [*FLASH[::16], *EEPROM[::16]], 16)
    sparse = text(cells, sorted(draw.sample(FLASH[::16], 16)) + sorted(draw.sample(EEPROM[::16], 4)), 16)
    late = full[:-2] + [full[-2][:-2] + bytes([full[-2][-2] ^ 1]) + b"\n", full[-1]]
    rows = {"full": (full, ROOM), "sparse": (sparse, ROOM), "late": (late, ROOM), "short": (full, ROOM - 1)}
    for name, (lines, room) in rows.items():
        whole = b"".join(lines)
        with open(f"{folder}/hex.{name}.text", "wb") as f:
            f.write(whole)
        for calls in (1, CALLS):
            with open(f"{folder}/hex.{name}.{'1' if calls == 1 else 'N'}", "wb") as f:
                f.write(calls.to_bytes(2, "big") + room.to_bytes(3, "big") + b"\x05\x0A" + whole)


if __name__ == "__main__":
    main(sys.argv[1])
