#!/usr/bin/env python3
"""The recipes of ./bench differences, for the programs beside this file.
     recipes.py FOLDER    writes each recipe behind its image and a head for one call (FOLDER/differences.NAME.1) and for so many
                          more (differences.NAME.N). A head: the calls (two bytes, high first), the room lent and the bytes of the
                          image (three each). Those that are refused (differences.refused.NUMBER, one call) are not counted, only
                          held to the same answer."""
import random
import sys

CALLS = 5
CELLS, BLOCKS, ROWS = 65536, range(0x001000, 0x010000, 64), range(0xF00000, 0xF00400, 8)
ROOM = 150000
ITEMS = 2046  # what fits between Open and Leave
OPEN, LEAVE = b"\x01\x05\x0A", b"\x0F"


def block(address, cells):
    return b"\x02" + address.to_bytes(3, "big") + cells


def named(draw, count):
    """So many addresses of blocks in a drawn order, each as often as any other, or once more."""
    addresses = (draw.sample(BLOCKS, len(BLOCKS)) * (count // len(BLOCKS) + 1))[:count]
    draw.shuffle(addresses)
    return addresses


def over(draw, image, addresses, keeps):
    """A Block for each address: with cells as the Blocks before it leave them or, where it is to be kept, drawn ones."""
    now, items = bytearray(image), []
    for address, keep in zip(addresses, keeps):
        if keep:
            now[address:address + 64] = draw.randbytes(64)
        items.append(block(address, bytes(now[address:address + 64])))
    return items


def main(folder):
    draw = random.Random(20261116)
    image = draw.randbytes(CELLS)
    many = named(draw, ITEMS)
    other = draw.sample(BLOCKS, 10)
    rows = [b"\x03" + draw.choice(ROWS).to_bytes(3, "big") + draw.randbytes(8) for _ in range(ITEMS)]
    kept = over(draw, image, many, [True] * ITEMS)
    recipes = {
        "kept": kept,
        "dropped": over(draw, image, many, [False] * ITEMS),
        "half": over(draw, image, many, [draw.random() < 0.5 for _ in range(ITEMS)]),
        "ten-of-960": over(draw, image, BLOCKS, [address in other for address in BLOCKS]),
        "ten": over(draw, image, many[:10], [True] * 10),
        "rows": rows,
    }
    refused = {
        "20": (kept[:5], ROOM, CELLS, b""),
        "21": (kept[:5] + [b"\x04"], ROOM, CELLS, LEAVE),
        "21-after-leave": (kept[:5] + [LEAVE], ROOM, CELLS, b"\x04"),
        "22": (kept[:5], ROOM, CELLS, kept[5][:-1]),
        "23": (kept[:5] + [OPEN], ROOM, CELLS, LEAVE),
        "23-after-leave": (kept[:5] + [LEAVE], ROOM, CELLS, kept[5]),
        "24": (kept[:5] + [block(0x001020, bytes(64))], ROOM, CELLS, LEAVE),
        "24-row": (rows[:5] + [b"\x03\xF0\x04\x00" + bytes(8)], ROOM, CELLS, LEAVE),
        "25": (kept + kept[:1], ROOM, CELLS, LEAVE),
        "26": (kept, 4 + 68 * ITEMS - 1, CELLS, LEAVE),
        "36": (kept, 0, CELLS - 1, LEAVE),
        "36-and-21": (kept[:5] + [b"\x04"], 0, CELLS - 1, LEAVE),
    }

    def write(name, calls, items, room, cells, end):
        with open(f"{folder}/differences.{name}", "wb") as f:
            f.write(calls.to_bytes(2, "big") + room.to_bytes(3, "big") + cells.to_bytes(3, "big") + image)
            f.write(OPEN + b"".join(items) + end)

    for name, items in recipes.items():
        write(f"{name}.1", 1, items, ROOM, CELLS, LEAVE)
        write(f"{name}.N", CALLS, items, ROOM, CELLS, LEAVE)
    for name, parts in refused.items():
        write(f"refused.{name}", 1, *parts)


if __name__ == "__main__":
    main(sys.argv[1])
