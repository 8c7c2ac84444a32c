//! The program of main.rattle in plain Rust: the firmware sum, many times, in one of several shapes.

use std::io::{self, Read};

const FLASH_CELLS: usize = 65_536;
const FIRST_SUMMED: usize = 0x1003;
const PAST_SUMMED: usize = 0x8000;

/// Cells added to a sum singly.
#[inline(always)]
fn singly(sum: u32, cells: &[u8]) -> u32 {
    cells.iter().fold(sum, |sum, &cell| sum + cell as u32)
}

#[inline(always)]
fn one(cells: &[u8]) -> u32 {
    singly(0, cells)
}

#[inline(always)]
fn expression(cells: &[u8]) -> u32 {
    let (eights, rest) = cells.as_chunks::<8>();
    let mut sum = 0;
    for e in eights {
        let low = e[0] as u32 + e[1] as u32 + e[2] as u32 + e[3] as u32;
        sum += low + e[4] as u32 + e[5] as u32 + e[6] as u32 + e[7] as u32;
    }
    singly(sum, rest)
}

#[inline(always)]
fn inner(cells: &[u8]) -> u32 {
    let (eights, rest) = cells.as_chunks::<8>();
    let sum = eights.iter().fold(0, |sum, eight| singly(sum, eight));
    singly(sum, rest)
}

#[inline(always)]
fn turned(cells: &[u8]) -> u32 {
    let (mut sum, mut at) = (0, 0);
    while at + 8 <= cells.len() {
        sum = singly(sum, &cells[at..at + 8]);
        at += 8;
    }
    singly(sum, &cells[at..])
}

#[inline(always)]
fn side_by_side(cells: &[u8]) -> u32 {
    let (eights, rest) = cells.as_chunks::<8>();
    let mut sums = [0u32; 8];
    for eight in eights {
        for (sum, &cell) in sums.iter_mut().zip(eight) {
            *sum += cell as u32;
        }
    }
    singly(sums.iter().sum(), rest)
}

#[inline(always)]
fn sixty_four(cells: &[u8]) -> u32 {
    let (pieces, rest) = cells.as_chunks::<64>();
    let short = |piece: &[u8; 64]| piece.iter().map(|&cell| cell as u16).sum::<u16>() as u32;
    singly(pieces.iter().map(short).sum(), rest)
}

/// Each shape over the firmware area, 0 where FLASH has another length than 65,536, and over any
/// cells.
macro_rules! shapes {
    ($($number:literal $by:ident $of:ident $shape:ident)*) => {
        $(
            #[inline(never)]
            fn $by(flash: &[u8]) -> u32 {
                if flash.len() != FLASH_CELLS {
                    return 0;
                }
                $shape(&flash[FIRST_SUMMED..PAST_SUMMED])
            }

            #[inline(never)]
            fn $of(cells: &[u8]) -> u32 {
                $shape(cells)
            }
        )*

        fn over_area(shape: u8, flash: &[u8]) -> u32 {
            match shape {
                $($number => $by(flash),)*
                _ => 0,
            }
        }

        fn over_any(shape: u8, cells: &[u8]) -> u32 {
            match shape {
                $($number => $of(cells),)*
                _ => 0,
            }
        }
    };
}
shapes! {
    2 by_one of_one one
    3 by_expression of_expression expression
    4 by_inner of_inner inner
    5 by_turned of_turned turned
    6 by_side_by_side of_side_by_side side_by_side
    7 by_sixty_four of_sixty_four sixty_four
}

/// A cell is changed before each sum, so that none is the one before.
fn main() -> io::Result<()> {
    let mut head = [0; 8];
    io::stdin().read_exact(&mut head)?;
    let number = |at: usize| head[at] as usize * 256 + head[at + 1] as usize;
    let (times, first, past) = (number(2), number(4), number(6));
    let mut flash = vec![0; FLASH_CELLS];
    for (i, cell) in flash.iter_mut().enumerate() {
        *cell = (i * 7 + i / 256) as u8;
    }
    let mut check = 0;
    for i in 0..times {
        flash[first + i % 1024] = i as u8;
        check += match head[1] {
            1 => over_any(head[0], &flash[first..past]),
            _ => over_area(head[0], &flash),
        } as u64;
    }
    println!("{check}");
    Ok(())
}
