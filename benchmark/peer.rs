//! The peer: the proved calls once more in plain Rust, written for speed. The record is changed in
//! place, replies go into a lent buffer, nothing is on the heap, and a refusal returns where it is
//! known. Record and replies come out as the proved promises say, unused room being 0, and ./bench
//! holds what the peer prints to what the proved programs print.
//!
//! Each call is kept apart (`inline(never)`), so that its instructions can be counted; what it
//! calls is inlined into it.

pub const FLASH_CELLS: usize = 65_536;
pub const EEPROM_CELLS: usize = 1_024;
pub const EEPROM_FIRST: u32 = 0xF0_0000;
pub const HELD: usize = 14;
pub const NODE: usize = 31;
const START: u8 = 0xAA;
const STOP: u8 = 0xA5;
/// The choices of a restart, in one byte of the record: the pin says CAN and UART, and nothing stays
/// held after 11 (the old way).
const UART: u8 = 1;
const OLD: u8 = 2;

/// Places of EEPROM, counted from its beginning.
pub const BOOTFL: usize = 0x00;
pub const MODULE: usize = 0x26;
pub const GROUP: usize = 0x27;
const DESCRIPTION: usize = 0x30;
/// FLASH addresses.
const STORED_SUM: usize = 0x1000;
const FIRST_SUMMED: usize = 0x1003;
const PAST_SUMMED: usize = 0x8000;
const THREE_CELLS: usize = 0x1010;
const ATYPE: usize = 0x1013;

/// What is kept of 16 bytes of which so many count, as two numbers of eight.
static KEPT: [[u64; 2]; HELD + 1] = {
    let mut kept = [[0; 2]; HELD + 1];
    let mut count = 1;
    while count <= HELD {
        let bytes = (1u128 << (8 * count)) - 1;
        kept[count] = [bytes as u64, (bytes >> 64) as u64];
        count += 1;
    }
    kept
};

type Flash = [u8; FLASH_CELLS];
type Eeprom = [u8; EEPROM_CELLS];

#[derive(Clone, Copy, PartialEq, Eq)]
#[repr(u8)]
pub enum Mode {
    Normal,
    Started,
    Programming,
    Error,
    Waiting,
}

/// The commands as frames say them, and none.
#[derive(Clone, Copy, PartialEq, Eq)]
#[repr(u8)]
pub enum Command {
    Nothing,
    Read,
    Write,
    Erase,
}

/// A node's record. A caller may hand in any: each call tidies it. What is staged outside
/// programming mode means nothing.
#[derive(Clone, Copy)]
pub struct Node {
    /// The first `count`, at most 14; 0 behind them.
    pub held: [u8; 16],
    pub count: u8,
    pub choices: u8,
    pub mode: Mode,
    pub command: Command,
    pub own: [u8; 2],
    pub address: u32,
    pub fixed: [u8; 6],
}

/// The number of document 01, and how many replies stand in the lent buffer; 0 behind them.
pub struct Answer {
    pub number: u8,
    pub count: u8,
}

#[derive(Clone, Copy, PartialEq, Eq)]
pub enum Memory {
    Flash,
    Eeprom,
}

/// An answer without replies.
#[inline(always)]
fn quiet(number: u8) -> Answer {
    Answer { number, count: 0 }
}

/// The address rule: the memory that a command reaches at an address, none where it is illegal.
#[inline(always)]
fn ruled(address: u32, command: Command) -> Option<Memory> {
    match command {
        Command::Nothing => None,
        Command::Erase if address % 64 == 0 && address.wrapping_sub(0x1000) <= 0xEFC0 => {
            Some(Memory::Flash)
        }
        Command::Erase => None,
        _ if address % 8 != 0 => None,
        _ if address.wrapping_sub(0x1000) <= 0xEFF8 => Some(Memory::Flash),
        _ if address.wrapping_sub(EEPROM_FIRST) <= 0x3F8 => Some(Memory::Eeprom),
        _ => None,
    }
}

/// The address rule asked with plain numbers.
#[inline(never)]
pub fn rule(address: u32, command: u32) -> Option<Memory> {
    ruled(address, command_of(command)?)
}

#[inline(always)]
fn command_of(code: u32) -> Option<Command> {
    match code {
        1 => Some(Command::Read),
        2 => Some(Command::Write),
        3 => Some(Command::Erase),
        _ => None,
    }
}

/// Eight cells of a slice that has them.
#[inline(always)]
fn eight(cells: &[u8], from: usize) -> [u8; 8] {
    cells[from..from + 8].try_into().unwrap()
}

/// The sum of the firmware area, in pieces whose sums fit 16 bits, so that many bytes are added
/// at once.
#[inline(always)]
fn firmware_sum(flash: &Flash) -> u32 {
    let short = |piece: &[u8]| piece.iter().map(|&cell| cell as u16).sum::<u16>() as u32;
    let (pieces, rest) = flash[FIRST_SUMMED..PAST_SUMMED].as_chunks::<64>();
    pieces.iter().map(|piece| short(piece)).sum::<u32>() + short(rest)
}

/// The stored sum.
#[inline(always)]
fn stored_sum(flash: &Flash) -> u32 {
    let [high, middle, low] = flash[STORED_SUM..FIRST_SUMMED].try_into().unwrap();
    u32::from_be_bytes([0, high, middle, low])
}

/// Whether the three cells that firmware needs to start are 30 00 03.
#[inline(always)]
fn cells_are_right(flash: &Flash) -> bool {
    flash[THREE_CELLS..THREE_CELLS + 3] == [0x30, 0x00, 0x03]
}

/// The sum of bytes modulo 256.
#[inline(always)]
fn sum(bytes: &[u8; 12]) -> u8 {
    bytes.iter().fold(0, |sum, &byte| sum.wrapping_add(byte))
}

/// Where replies go: 12 bytes each on CAN, 15 on UART.
trait Replies {
    fn put(&mut self, at: usize, reply: [u8; 12]);
}

struct OnCan<'a>(&'a mut [u8; 24]);
struct OnUart<'a>(&'a mut [u8; 30]);

impl Replies for OnCan<'_> {
    #[inline(always)]
    fn put(&mut self, at: usize, reply: [u8; 12]) {
        self.0[12 * at..][..12].copy_from_slice(&reply);
    }
}

impl Replies for OnUart<'_> {
    #[inline(always)]
    fn put(&mut self, at: usize, reply: [u8; 12]) {
        wrapped(&reply, (&mut self.0[15 * at..][..15]).try_into().unwrap());
    }
}

impl Node {
    pub fn fresh(fixed: [u8; 6]) -> Node {
        Node {
            held: [0; 16],
            count: 0,
            choices: 0,
            mode: Mode::Waiting,
            command: Command::Nothing,
            own: [0; 2],
            address: 0,
            fixed,
        }
    }

    /// The record as it counts: an illegal staged command is none, so are too many held bytes and
    /// held bytes not starting with 0xAA; unused room is 0.
    #[inline(always)]
    fn tidy(&mut self) {
        if self.count as usize > HELD || self.held[0] != START {
            self.count = 0;
        }
        let [first, last] = KEPT[self.count as usize];
        let (low, high) = self.held.split_at_mut(8);
        low.copy_from_slice(&(u64::from_le_bytes(eight(low, 0)) & first).to_le_bytes());
        high.copy_from_slice(&(u64::from_le_bytes(eight(high, 0)) & last).to_le_bytes());
        if self.mode == Mode::Programming && ruled(self.address, self.command).is_none() {
            self.command = Command::Nothing;
        }
    }

    /// Restarts the node; gives 0 or 1.
    #[inline(never)]
    pub fn restart(&mut self, choices: u8, passed: bool, flash: &[u8], eeprom: &[u8]) -> u8 {
        let (Ok(flash), Ok(eeprom)) = (<&Flash>::try_from(flash), <&Eeprom>::try_from(eeprom))
        else {
            self.tidy();
            return 1;
        };
        self.choices = choices;
        self.count = 0;
        self.held = [0; 16];
        self.own = [eeprom[MODULE], eeprom[GROUP]];
        self.command = Command::Nothing;
        self.mode = if !passed {
            Mode::Error
        } else if eeprom[BOOTFL] == 0xFF {
            Mode::Programming
        } else {
            if cells_are_right(flash) && stored_sum(flash) == firmware_sum(flash) {
                Mode::Started
            } else {
                Mode::Normal
            }
        };
        0
    }

    /// Hands the node a CAN frame of any length.
    #[inline(never)]
    pub fn can_frame(
        &mut self,
        frame: &[u8],
        flash: &mut [u8],
        eeprom: &mut [u8],
        replies: &mut [u8; 24],
    ) -> Answer {
        *replies = [0; 24];
        self.tidy();
        let (Ok(flash), Ok(eeprom)) =
            (<&mut Flash>::try_from(flash), <&mut Eeprom>::try_from(eeprom))
        else {
            return quiet(1);
        };
        if matches!(self.mode, Mode::Error | Mode::Waiting) {
            return quiet(3);
        }
        match <&[u8; 12]>::try_from(frame) {
            Ok(frame) => self.obey(frame, flash, eeprom, OnCan(replies)),
            Err(_) => quiet(4),
        }
    }

    /// Hands the node a UART byte.
    #[inline(never)]
    pub fn uart_byte(
        &mut self,
        byte: u8,
        flash: &mut [u8],
        eeprom: &mut [u8],
        replies: &mut [u8; 30],
    ) -> Answer {
        self.byte(byte, flash, eeprom, replies)
    }

    #[inline(always)]
    fn byte(
        &mut self,
        byte: u8,
        flash: &mut [u8],
        eeprom: &mut [u8],
        replies: &mut [u8; 30],
    ) -> Answer {
        *replies = [0; 30];
        self.tidy();
        let (Ok(flash), Ok(eeprom)) =
            (<&mut Flash>::try_from(flash), <&mut Eeprom>::try_from(eeprom))
        else {
            return quiet(1);
        };
        if self.choices & UART == 0 {
            return quiet(2);
        }
        if matches!(self.mode, Mode::Error | Mode::Waiting) {
            return quiet(3);
        }
        let count = self.count as usize;
        if count < HELD {
            if count > 0 || byte == START {
                self.held[count] = byte;
                self.count += 1;
            }
            return quiet(10);
        }
        self.complete(byte, flash, eeprom, replies)
    }

    /// Hands the node a piece of UART bytes; gives how many of them it takes, and the answer to the
    /// last of these. It stops behind a byte that gives another number than 10.
    #[inline(never)]
    pub fn uart_piece(
        &mut self,
        piece: &[u8],
        flash: &mut [u8],
        eeprom: &mut [u8],
        replies: &mut [u8; 30],
    ) -> (usize, Answer) {
        self.piece(piece, flash, eeprom, replies)
    }

    #[inline(always)]
    fn piece(
        &mut self,
        piece: &[u8],
        flash: &mut [u8],
        eeprom: &mut [u8],
        replies: &mut [u8; 30],
    ) -> (usize, Answer) {
        *replies = [0; 30];
        self.tidy();
        let (Ok(flash), Ok(eeprom)) =
            (<&mut Flash>::try_from(flash), <&mut Eeprom>::try_from(eeprom))
        else {
            return (0, quiet(1));
        };
        if self.choices & UART == 0 {
            return (0, quiet(2));
        }
        if matches!(self.mode, Mode::Error | Mode::Waiting) {
            return (0, quiet(3));
        }
        let mut at = 0;
        let mut count = self.count as usize;
        if count == 0 {
            while at < piece.len() && piece[at] != START {
                at += 1;
            }
            // A whole frame is taken from where it stands.
            if let Some(whole) = piece[at..].first_chunk() {
                return (at + 15, self.whole(whole, flash, eeprom, replies));
            }
        }
        while count < HELD {
            let Some(&byte) = piece.get(at) else {
                self.count = count as u8;
                return (at, quiet(10));
            };
            self.held[count] = byte;
            count += 1;
            at += 1;
        }
        self.count = count as u8;
        match piece.get(at) {
            Some(&last) => (at + 1, self.complete(last, flash, eeprom, replies)),
            None => (at, quiet(10)),
        }
    }

    /// Fifteen bytes where nothing is held. It is apart, so that what it needs costs a piece of a few
    /// bytes nothing.
    #[inline(never)]
    fn whole(
        &mut self,
        whole: &[u8; 15],
        flash: &mut Flash,
        eeprom: &mut Eeprom,
        replies: &mut [u8; 30],
    ) -> Answer {
        let frame = whole[1..13].try_into().unwrap();
        if whole[14] != STOP || whole[13] != sum(frame) {
            if self.choices & OLD == 0 {
                let mut all = [0; 16];
                all[..15].copy_from_slice(whole);
                self.keep(all);
            }
            return quiet(11);
        }
        self.obey(frame, flash, eeprom, OnUart(replies))
    }

    /// The fifteenth byte. It is apart, so that what it needs costs the other fourteen nothing.
    #[inline(never)]
    fn complete(
        &mut self,
        byte: u8,
        flash: &mut Flash,
        eeprom: &mut Eeprom,
        replies: &mut [u8; 30],
    ) -> Answer {
        let frame = self.held[1..13].try_into().unwrap();
        let right = byte == STOP && self.held[13] == sum(frame);
        if !right && self.choices & OLD == 0 {
            self.held[HELD] = byte;
            self.keep(self.held);
            return quiet(11);
        }
        let frame = *frame;
        self.count = 0;
        self.held = [0; 16];
        if !right {
            return quiet(11);
        }
        self.obey(&frame, flash, eeprom, OnUart(replies))
    }

    /// Holds what stays in the new way of fifteen bytes with a wrong sum or stop, behind which is a
    /// 0: from the next 0xAA behind the first byte on, or nothing.
    #[inline(always)]
    fn keep(&mut self, all: [u8; 16]) {
        const ONES: u128 = u128::MAX / 0xFF;
        let others = u128::from_le_bytes(all) >> 8;
        let differs = others ^ ONES * START as u128;
        // The lowest bit stands in the first byte that doesn't differ.
        let found = differs.wrapping_sub(ONES) & !differs & ONES << 7;
        if found == 0 {
            self.count = 0;
            self.held = [0; 16];
            return;
        }
        let dropped = found.trailing_zeros() / 8;
        self.count = HELD as u8 - dropped as u8;
        self.held = (others >> (8 * dropped)).to_le_bytes();
    }

    /// A reply of this node.
    #[inline(always)]
    fn reply(&self, kind: u16, data: [u8; 8]) -> [u8; 12] {
        let [first, second] = (kind << 4 | 1).to_be_bytes();
        let [module, group] = self.own;
        let [d0, d1, d2, d3, d4, d5, d6, d7] = data;
        [first, second, module, group, d0, d1, d2, d3, d4, d5, d6, d7]
    }

    /// A frame to a node that hears it, from number 4 on.
    #[inline(always)]
    fn obey(
        &mut self,
        frame: &[u8; 12],
        flash: &mut Flash,
        eeprom: &mut Eeprom,
        replies: impl Replies,
    ) -> Answer {
        let flags = frame[1] & 0x0F;
        if flags != 0 {
            return quiet(if flags == 1 { 5 } else { 4 });
        }
        let kind = u16::from_be_bytes([frame[0], frame[1]]) >> 4;
        if self.mode == Mode::Programming {
            self.program(kind, frame, flash, eeprom, replies)
        } else {
            self.request(kind, frame, flash, eeprom, replies)
        }
    }

    /// A frame of programming mode.
    #[inline(always)]
    fn program(
        &mut self,
        kind: u16,
        frame: &[u8; 12],
        flash: &mut Flash,
        eeprom: &mut Eeprom,
        mut replies: impl Replies,
    ) -> Answer {
        let numbers = [frame[2], frame[3]];
        let data = eight(frame, 4);
        match kind {
            0x010 if numbers != [0, 0] => return quiet(7),
            0x020 | 0x030 | 0x040 if numbers != self.own => return quiet(7),
            0x010 | 0x020 => {
                eeprom[BOOTFL] = 0x00;
                self.mode = Mode::Waiting;
                return quiet(0);
            }
            0x030 => {
                self.command = Command::Nothing;
                let address = u32::from_be_bytes([0, data[0], data[1], data[2]]);
                let Some(command) = command_of(data[5] as u32) else {
                    return quiet(8);
                };
                if ruled(address, command).is_none() {
                    return quiet(8);
                }
                self.command = command;
                self.address = address;
                replies.put(0, self.reply(kind, data));
            }
            0x040 => {
                if self.command == Command::Nothing {
                    return quiet(9);
                }
                // What is staged is legal here: the record is tidy.
                let row = if self.address < EEPROM_FIRST {
                    let at = self.address as usize;
                    match self.command {
                        Command::Write => {
                            let row =
                                u64::from_ne_bytes(eight(flash, at)) & u64::from_ne_bytes(data);
                            flash[at..at + 8].copy_from_slice(&row.to_ne_bytes());
                        }
                        Command::Erase => flash[at..at + 64].fill(0xFF),
                        _ => {}
                    }
                    eight(flash, at)
                } else {
                    let at = (self.address - EEPROM_FIRST) as usize;
                    if self.command == Command::Write {
                        eeprom[at..at + 8].copy_from_slice(&data);
                    }
                    eight(eeprom, at)
                };
                replies.put(0, self.reply(kind, row));
            }
            _ => return quiet(6),
        }
        Answer { number: 0, count: 1 }
    }

    /// A frame of normal mode.
    #[inline(always)]
    fn request(
        &mut self,
        kind: u16,
        frame: &[u8; 12],
        flash: &mut Flash,
        eeprom: &mut Eeprom,
        mut replies: impl Replies,
    ) -> Answer {
        let asked = [frame[6], frame[7]];
        match kind {
            0x100 | 0x102 | 0x104 | 0x106 | 0x10E | 0x111 if asked != self.own => return quiet(7),
            0x101 | 0x103 | 0x105 | 0x10D | 0x10F
                if asked[0] != 0 || asked[1] != 0 && asked[1] != self.own[1] =>
            {
                return quiet(7)
            }
            0x100 => {
                eeprom[BOOTFL] = 0xFF;
                self.mode = Mode::Programming;
                self.command = Command::Nothing;
                replies.put(0, self.reply(kind, [0xFF, 0xFF, 0x03, 0x04, 0xFF, 0xFF, 0xFF, 0xFF]));
            }
            0x101 | 0x102 => {
                self.mode = Mode::Waiting;
                return quiet(0);
            }
            0x103 | 0x104 => {
                let [id0, id1, id2, id3, ..] = self.fixed;
                replies.put(0, self.reply(kind, [0x30, 0x00, 0x03, 0xFF, id0, id1, id2, id3]));
            }
            0x106 if self.mode == Mode::Normal => {
                let sum = firmware_sum(flash);
                let sums = (stored_sum(flash) != sum) as u8;
                let flags = sums | (!cells_are_right(flash) as u8) << 1;
                let [_, high, middle, low] = sum.to_be_bytes();
                replies
                    .put(0, self.reply(0x1F1, [flags, high, middle, low, 0xFF, 0xFF, 0x03, 0x04]));
            }
            0x105 | 0x106 => {
                let [atype, avers, fvers] = flash[ATYPE..ATYPE + 3].try_into().unwrap();
                replies
                    .put(0, self.reply(kind, [0x30, 0x00, 0x03, atype, avers, fvers, 0x03, 0x04]));
            }
            0x10D | 0x10E => {
                replies.put(0, self.reply(kind, eight(eeprom, DESCRIPTION)));
                replies.put(1, self.reply(kind, eight(eeprom, DESCRIPTION + 8)));
                return Answer { number: 0, count: 2 };
            }
            0x10F | 0x111 => {
                let [.., devid1, devid2] = self.fixed;
                let rest = 0xFF;
                replies
                    .put(0, self.reply(kind, [devid1, devid2, rest, rest, rest, rest, rest, rest]));
            }
            _ => return quiet(6),
        }
        Answer { number: 0, count: 1 }
    }
}

/// A UART byte with the record by value, as the proved call takes and gives it.
#[inline(never)]
pub fn byte_by_value(
    mut node: Node,
    byte: u8,
    flash: &mut [u8],
    eeprom: &mut [u8],
) -> (Answer, Node, [u8; 30]) {
    let mut replies = [0; 30];
    let answer = node.byte(byte, flash, eeprom, &mut replies);
    (answer, node, replies)
}

/// A piece of UART bytes with the record by value.
#[inline(never)]
pub fn piece_by_value(
    mut node: Node,
    piece: &[u8],
    flash: &mut [u8],
    eeprom: &mut [u8],
) -> (usize, Answer, Node, [u8; 30]) {
    let mut replies = [0; 30];
    let (taken, answer) = node.piece(piece, flash, eeprom, &mut replies);
    (taken, answer, node, replies)
}

/// The choices of a restart: whether the pin says CAN and UART, and whether the way after 11 is the
/// old one.
pub fn choices(uart: bool, old: bool) -> u8 {
    (uart as u8 * UART) | (old as u8 * OLD)
}

/// The way after 11 as second/PROTOCOL.md writes it: 1 the new one, 2 the old one.
pub fn way_byte(node: &Node) -> u8 {
    1 + (node.choices & OLD != 0) as u8
}

/// A record as NODE of second/PROTOCOL.md. What is staged is 0 where it means nothing.
pub fn node_bytes(node: &Node) -> [u8; NODE] {
    let mut bytes = [0; NODE];
    bytes[0] = node.choices & UART;
    bytes[1..7].copy_from_slice(&node.fixed);
    bytes[7..9].copy_from_slice(&node.own);
    bytes[9] = node.count;
    bytes[10..24].copy_from_slice(&node.held[..HELD]);
    bytes[24] = node.mode as u8;
    if node.mode == Mode::Programming && node.command != Command::Nothing {
        bytes[25] = node.command as u8;
        bytes[26] = (node.address >= EEPROM_FIRST) as u8;
        bytes[27..].copy_from_slice(&node.address.to_be_bytes());
    }
    bytes
}

/// Identifier and 8 data bytes to the 12 bytes of a frame; gives a number.
#[inline(never)]
pub fn to_hapcan(identifier: u32, data: &[u8], frame: &mut [u8]) -> u8 {
    let Ok(frame) = <&mut [u8; 12]>::try_from(frame) else {
        return 4;
    };
    let Ok(data) = <&[u8; 8]>::try_from(data) else {
        return 4;
    };
    if identifier > 0x1FFF_FFFF {
        return 4;
    }
    // Type, three flags that are 0, the response flag, and the numbers.
    let head = identifier << 3 & 0xFFF0_0000 | identifier & 0x0001_FFFF;
    frame[..4].copy_from_slice(&head.to_be_bytes());
    frame[4..].copy_from_slice(data);
    0
}

/// The 12 bytes of a frame to identifier and 8 data bytes; gives a number, and 0 as identifier
/// where it refuses.
#[inline(never)]
pub fn to_can(frame: &[u8], data: &mut [u8]) -> (u8, u32) {
    let Ok(frame) = <&[u8; 12]>::try_from(frame) else {
        return (4, 0);
    };
    let Ok(data) = <&mut [u8; 8]>::try_from(data) else {
        return (4, 0);
    };
    if frame[1] & 0x0E != 0 {
        return (4, 0);
    }
    data.copy_from_slice(&frame[4..]);
    let head = u32::from_be_bytes(frame[..4].try_into().unwrap());
    (0, head >> 3 & 0x1FFE_0000 | head & 0x0001_FFFF)
}

/// A frame as it goes out on UART.
#[inline(always)]
fn wrapped(frame: &[u8; 12], output: &mut [u8; 15]) {
    output[0] = START;
    output[1..13].copy_from_slice(frame);
    output[13] = sum(frame);
    output[14] = STOP;
}

/// Wraps 12 bytes into the 15 sent on UART; gives a number.
#[inline(never)]
pub fn wrap(frame: &[u8], output: &mut [u8]) -> u8 {
    let Ok(output) = <&mut [u8; 15]>::try_from(output) else {
        return 4;
    };
    let Ok(frame) = <&[u8; 12]>::try_from(frame) else {
        return 4;
    };
    wrapped(frame, output);
    0
}

/// Unwraps 15 bytes from UART into 12; gives a number.
#[inline(never)]
pub fn unwrap(input: &[u8], frame: &mut [u8]) -> u8 {
    let Ok(frame) = <&mut [u8; 12]>::try_from(frame) else {
        return 4;
    };
    let Ok(input) = <&[u8; 15]>::try_from(input) else {
        return 4;
    };
    let inner = input[1..13].try_into().unwrap();
    if input[0] != START || input[14] != STOP || input[13] != sum(inner) {
        return 11;
    }
    *frame = *inner;
    0
}

/// The address that begins an item's body.
#[inline(always)]
fn address(body: &[u8]) -> u32 {
    u32::from_be_bytes([0, body[0], body[1], body[2]])
}

/// Walks over a recipe without writing anything; gives how many frames it makes, or why and where
/// it is refused.
#[inline(always)]
fn measure(recipe: &[u8]) -> Result<usize, (u8, usize)> {
    let (mut place, mut items, mut frames, mut left) = (0, 0, 0, false);
    while place < recipe.len() {
        if items == 2_048 {
            return Err((25, place));
        }
        let kind = recipe[place];
        let (length, makes) = match kind {
            0x01 => (2, 0),
            0x02 => (67, 18),
            0x03 => (11, 2),
            0x0F => (0, 1),
            _ => return Err((21, place)),
        };
        if left || (kind == 0x01) != (items == 0) {
            return Err((23, place));
        }
        let Some(body) = recipe[place + 1..].get(..length) else {
            return Err((22, place));
        };
        let legal = match kind {
            0x02 => ruled(address(body), Command::Erase).is_some(),
            0x03 => ruled(address(body), Command::Write) == Some(Memory::Eeprom),
            _ => true,
        };
        if !legal {
            return Err((24, place));
        }
        left = kind == 0x0F;
        items += 1;
        frames += makes;
        place += 1 + length;
    }
    if left {
        Ok(frames)
    } else {
        Err((20, recipe.len()))
    }
}

/// Translates a recipe into frames of 12 bytes; gives the frame count, or number and place of the
/// refusal.
#[inline(never)]
pub fn translate(recipe: &[u8], output: &mut [u8]) -> Result<usize, (u8, usize)> {
    let frames = measure(recipe)?;
    let Some(mut output) = output.get_mut(..12 * frames) else {
        return Err((26, 0));
    };
    let head = |kind| u32::from_le_bytes([kind, 0x00, recipe[1], recipe[2]]);
    let (address_head, data_head) = (head(0x03), head(0x04));
    // An address frame and a data frame.
    let put = |pair: &mut [u8; 24], address: u32, command: Command, data: &[u8; 8]| {
        let place = u32::from_le_bytes((address << 8).to_be_bytes()) as u64;
        let staging = place | (command as u64) << 40 | 0xFFFF_00FF_FF00_0000;
        pair[..4].copy_from_slice(&address_head.to_le_bytes());
        pair[4..12].copy_from_slice(&staging.to_le_bytes());
        pair[12..16].copy_from_slice(&data_head.to_le_bytes());
        pair[16..].copy_from_slice(data);
    };
    // The recipe is accepted: each item is whole, and there is room for its frames.
    let mut rest = &recipe[3..];
    while let [kind @ (0x02 | 0x03), high, middle, low, cells @ ..] = rest {
        let address = u32::from_be_bytes([0, *high, *middle, *low]);
        if *kind == 0x02 {
            let (body, behind) = cells.split_first_chunk::<64>().unwrap();
            let (room, left) = output.split_first_chunk_mut::<{ 9 * 24 }>().unwrap();
            let ([erase, writes @ ..], _) = room.as_chunks_mut() else { unreachable!() };
            put(erase, address, Command::Erase, &[0xFF; 8]);
            for (at, (pair, row)) in writes.iter_mut().zip(body.as_chunks().0).enumerate() {
                put(pair, address + 8 * at as u32, Command::Write, row);
            }
            (rest, output) = (behind, left);
        } else {
            let (row, behind) = cells.split_first_chunk().unwrap();
            let (pair, left) = output.split_first_chunk_mut().unwrap();
            put(pair, address, Command::Write, row);
            (rest, output) = (behind, left);
        }
    }
    output[..4].copy_from_slice(&head(0x02).to_le_bytes());
    output[4..12].fill(0xFF);
    Ok(frames)
}
