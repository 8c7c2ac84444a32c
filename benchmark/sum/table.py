#!/usr/bin/env python3
"""Prints the table of the firmware sum in several shapes.

    table.py AREA ANY RUST      the program of main.rattle with its sums over the firmware area kept apart, the same with its sums over any
                                cells kept apart, and the program of main.rs

Instructions are those of a thousand sums less those of the same run with none, by callgrind. Times are the least of many runs in turn.
"""
import shutil
import subprocess
import sys
import time

TIMES, COUNTED, FIRST, PAST = 20_000, 1_000, 0x1003, 0x8000
ONE = 2
SHAPES = {
    1: '**the crate\'s: eight a turn, by a call**',
    ONE: 'one a turn (before)',
    3: 'eight in one expression',
    4: 'an inner loop of eight',
    5: 'the same, `i + 8 <= len`',
    6: 'eight sums side by side',
    7: 'sixty-four a turn, in 16 bits',
}
# The crate's own shape in Rust is the inner loop.
IN_RUST = {**{shape: shape for shape in SHAPES}, 1: 4}


def asked(shape, any_cells, times):
    """What the programs are asked for."""
    return bytes([shape, any_cells]) + b''.join(n.to_bytes(2, 'big') for n in (times, FIRST, PAST))


def run(program, *what, under=()):
    """What a program prints of what it is asked for, and what the program around it prints."""
    done = subprocess.run([*under, program], input=asked(*what), capture_output=True, check=True, env={})
    return done.stdout, done.stderr.decode()


def counted(program, *what):
    """The instructions of a run."""
    said = run(program, *what, under=[shutil.which('valgrind'), '--tool=callgrind', '--callgrind-out-file=/dev/null'])[1]
    return int(said.split('Collected : ')[1].split()[0])


def a_sum(program, shape, any_cells):
    """The instructions of one sum."""
    return (counted(program, shape, any_cells, COUNTED) - counted(program, 0, any_cells, COUNTED)) / COUNTED


def timed(*what):
    """The time of a run."""
    begun = time.perf_counter()
    run(*what, TIMES)
    return time.perf_counter() - begun


def least(cells):
    """The least time of each, of many runs in turn."""
    return [min(took) for took in zip(*([timed(*cell) for cell in cells] for _ in range(15)))]


def table(area, some, rust):
    """Prints the table."""
    columns = [(area, 0), (rust, 0), (some, 1), (rust, 1)]
    rows = [[(program, IN_RUST[shape] if program == rust else shape, over) for program, over in columns] for shape in SHAPES]
    if len({run(*cell, COUNTED)[0] for row in rows for cell in row}) != 1:
        sys.exit('bench: the sums differ')
    took = least([cell for row in rows for cell in row[:2]])
    took = dict(zip(SHAPES, zip(took[::2], took[1::2])))
    print('| Shape | Rattle | Rust | Rattle / Rust | time, Rattle | time, Rust | any cells: Rattle | any cells: Rust |')
    print('|---|---:|---:|---:|---:|---:|---:|---:|')
    for (shape, what), row in zip(SHAPES.items(), rows):
        mine, other, *any_cells = (a_sum(*cell) for cell in row)
        times = (t / took[ONE][0] for t in took[shape])
        cells = [f'{mine:,.0f}', f'{other:,.0f}', f'{mine / other:.2f}', *(f'{t:.2f}' for t in times), *(f'{n:,.0f}' for n in any_cells)]
        print(f'| {what} | ' + ' | '.join(cells) + ' |')


if __name__ == '__main__':
    table(*sys.argv[1:])
