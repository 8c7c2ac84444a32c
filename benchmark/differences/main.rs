//! The program of main.rattle around plain Rust written for speed: one pass that checks each item
//! and decides, a table of where each block's last cells are, nothing on the heap.
//!   differences by-item < stream    copies the kept items one by one
//!   differences by-run < stream     copies neighbouring kept items at once

use std::io::{self, Read};

/// The most bytes of a recipe, and of an output.
const RECIPE: usize = 150_000;

/// The cells of FLASH, and the most items of a recipe.
const FLASH: usize = 65_536;
const ITEMS: usize = 2_048;
/// A block's cells, and the bytes that an item of each kind takes.
const BLOCK: usize = 64;
const OPEN_SIZE: usize = 3;
const BLOCK_SIZE: usize = 68;
const ROW_SIZE: usize = 12;
const LEAVE_SIZE: usize = 1;

pub enum Differences {
    Kept { erases: usize, size: usize },
    Refused { number: u8, place: usize },
}

/// The kept items, one by one, each by its place; or runs of neighbouring ones, each by its place
/// and its end.
trait Kept {
    fn new() -> Self;
    /// Takes in the item from a place up to an end, behind so many entries; how many there are now.
    fn keep(&mut self, count: usize, place: usize, end: usize) -> usize;
    /// Copies the items of so many entries.
    fn copy(&self, count: usize, recipe: &[u8], output: &mut [u8]);
}

struct Items([u32; ITEMS]);

impl Kept for Items {
    #[inline(always)]
    fn new() -> Self {
        Items([0; ITEMS])
    }

    #[inline(always)]
    fn keep(&mut self, count: usize, place: usize, _: usize) -> usize {
        self.0[count] = place as u32;
        count + 1
    }

    #[inline(always)]
    fn copy(&self, count: usize, recipe: &[u8], mut output: &mut [u8]) {
        for &place in &self.0[..count] {
            let item = &recipe[place as usize..];
            output = match item[0] {
                0x02 => put::<BLOCK_SIZE>(item, output),
                0x03 => put::<ROW_SIZE>(item, output),
                0x01 => put::<OPEN_SIZE>(item, output),
                _ => put::<LEAVE_SIZE>(item, output),
            };
        }
    }
}

/// Puts an item at the front of what is left of the output, and gives the rest.
#[inline(always)]
fn put<'a, const SIZE: usize>(item: &[u8], output: &'a mut [u8]) -> &'a mut [u8] {
    let (front, rest) = output.split_at_mut(SIZE);
    front.copy_from_slice(&item[..SIZE]);
    rest
}

struct Runs([(u32, u32); ITEMS]);

impl Kept for Runs {
    #[inline(always)]
    fn new() -> Self {
        Runs([(0, 0); ITEMS])
    }

    #[inline(always)]
    fn keep(&mut self, count: usize, place: usize, end: usize) -> usize {
        match count.checked_sub(1) {
            Some(at) if self.0[at].1 == place as u32 => {
                self.0[at].1 = end as u32;
                count
            }
            _ => {
                self.0[count] = (place as u32, end as u32);
                count + 1
            }
        }
    }

    #[inline(always)]
    fn copy(&self, count: usize, recipe: &[u8], mut output: &mut [u8]) {
        for &(place, end) in &self.0[..count] {
            let run = &recipe[place as usize..end as usize];
            let (front, rest) = output.split_at_mut(run.len());
            front.copy_from_slice(run);
            output = rest;
        }
    }
}

/// What the pass over the items comes to: how many entries are kept, their erases and their bytes.
struct Walked {
    count: usize,
    erases: usize,
    size: usize,
}

/// The pass over the items, each looked at for a fault and whether it is kept. Without an image
/// only the faults are looked for.
#[inline(always)]
fn walk<K: Kept>(
    recipe: &[u8],
    image: Option<&[u8; FLASH]>,
    kept: &mut K,
) -> Result<Walked, (u8, usize)> {
    let mut last = [0u32; FLASH / BLOCK];
    let mut walked = Walked { count: 0, erases: 0, size: 0 };
    let (mut place, mut number, mut ended) = (0, 0, false);
    while let rest @ [kind, ..] = &recipe[place..] {
        if number == ITEMS {
            return Err((25, place));
        }
        let out_of_place = ended || (*kind == 0x01) != (number == 0);
        let mut keep = true;
        let size = match kind {
            _ if out_of_place => {
                return Err((if matches!(kind, 0x01..=0x03 | 0x0F) { 23 } else { 21 }, place))
            }
            0x02 => {
                let Some([_, high, middle, low, cells @ ..]) = rest.first_chunk::<BLOCK_SIZE>()
                else {
                    return Err((22, place));
                };
                let address = u32::from_be_bytes([0, *high, *middle, *low]) as usize;
                if !(0x001000..=0x00FFC0).contains(&address) || address % BLOCK != 0 {
                    return Err((24, place));
                }
                if let Some(image) = image {
                    let before =
                        std::mem::replace(&mut last[address / BLOCK], place as u32 + 4) as usize;
                    keep = match before {
                        0 => image[address..address + BLOCK] != *cells,
                        _ => recipe[before..before + BLOCK] != *cells,
                    };
                    walked.erases += keep as usize;
                }
                BLOCK_SIZE
            }
            0x03 => {
                let Some([_, high, middle, low, ..]) = rest.first_chunk::<ROW_SIZE>() else {
                    return Err((22, place));
                };
                let address = u32::from_be_bytes([0, *high, *middle, *low]);
                if !(0xF00000..=0xF003F8).contains(&address) || address % 8 != 0 {
                    return Err((24, place));
                }
                ROW_SIZE
            }
            0x01 if rest.len() < OPEN_SIZE => return Err((22, place)),
            0x01 => OPEN_SIZE,
            0x0F => LEAVE_SIZE,
            _ => return Err((21, place)),
        };
        let end = place + size;
        if keep {
            walked.count = kept.keep(walked.count, place, end);
            walked.size += size;
        }
        ended = *kind == 0x0F;
        number += 1;
        place = end;
    }
    if ended {
        Ok(walked)
    } else {
        Err((20, recipe.len()))
    }
}

/// Writes a recipe without each Block that already stands in an image. A refusal leaves the output
/// as it was.
#[inline(always)]
fn differences<K: Kept>(recipe: &[u8], image: &[u8], output: &mut [u8]) -> Differences {
    let mut kept = K::new();
    let Ok(image) = <&[u8; FLASH]>::try_from(image) else {
        return match walk(recipe, None, &mut kept) {
            Err((number, place)) => Differences::Refused { number, place },
            Ok(_) => Differences::Refused { number: 36, place: 0 },
        };
    };
    match walk(recipe, Some(image), &mut kept) {
        Err((number, place)) => Differences::Refused { number, place },
        Ok(walked) if output.len() < walked.size => Differences::Refused { number: 26, place: 0 },
        Ok(Walked { count, erases, size }) => {
            kept.copy(count, recipe, output);
            Differences::Kept { erases, size }
        }
    }
}

#[inline(never)]
pub fn by_item(recipe: &[u8], image: &[u8], output: &mut [u8]) -> Differences {
    differences::<Items>(recipe, image, output)
}

#[inline(never)]
pub fn by_run(recipe: &[u8], image: &[u8], output: &mut [u8]) -> Differences {
    differences::<Runs>(recipe, image, output)
}

/// What goes into the check of an answer: its erases and its size, or its number and its place.
fn told(answer: Differences) -> u64 {
    match answer {
        Differences::Kept { erases, size } => 1_000_000 * erases as u64 + size as u64,
        Differences::Refused { number, place } => {
            1_000_000 * (1_000_000 + number as u64) + place as u64
        }
    }
}

/// Takes bytes into a digest.
fn digest(bytes: &[u8]) -> u64 {
    bytes.iter().fold(0, |digest, &byte| (digest * 31 + byte as u64 + 1) % 4_294_967_291)
}

fn main() -> io::Result<()> {
    let call = match std::env::args().nth(1).as_deref() {
        Some("by-run") => by_run,
        _ => by_item,
    };
    let mut head = [0; 8];
    let mut image = [0; FLASH];
    let mut recipe = Vec::with_capacity(RECIPE);
    let mut input = io::stdin().lock();
    input.read_exact(&mut head)?;
    input.read_exact(&mut image)?;
    input.read_to_end(&mut recipe)?;
    let [high, low, r2, r1, r0, i2, i1, i0] = head;
    let room = u32::from_be_bytes([0, r2, r1, r0]) as usize;
    let cells = u32::from_be_bytes([0, i2, i1, i0]) as usize;
    let mut output = [0xEE; RECIPE];
    let mut check = 0;
    for _ in 0..u16::from_be_bytes([high, low]) {
        check += told(call(&recipe, &image[..cells], &mut output[..room]));
    }
    println!("check {check} output {}", digest(&output));
    Ok(())
}
