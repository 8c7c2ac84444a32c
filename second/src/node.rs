//! The node: its record, restart, and what it does with frames, UART bytes and pieces of them.

use crate::frames::{self, Frame, FRAME, START, WRAPPED};
use crate::memory::*;
use crate::numbers::*;

/// The most bytes that are held, and the room that a record has for them.
pub const HELD: usize = 14;
pub const HELD_ROOM: usize = 15;

#[derive(Clone, Copy, PartialEq, Eq, Debug)]
pub enum Pin {
    CanOnly,
    CanAndUart,
}

/// What stays held after 11 (request A2).
#[derive(Clone, Copy, PartialEq, Eq, Debug, Default)]
pub enum Way {
    /// The first held byte is dropped, and the next 0xAA among the fourteen others and what is
    /// behind it stay, or nothing.
    #[default]
    New,
    /// All fifteen are dropped.
    Old,
}

impl Way {
    /// What stays held of fifteen bytes with a wrong sum or stop.
    pub fn kept(self, fifteen: &[u8; WRAPPED]) -> &[u8] {
        let others = &fifteen[1..];
        match (self, others.iter().position(|&byte| byte == START)) {
            (Way::New, Some(next)) => &others[next..],
            _ => &[],
        }
    }

    /// Each fifteen bytes that a receiver comes to which held some bytes and takes these.
    pub fn fifteens(self, held: &[u8], bytes: &[u8]) -> Vec<[u8; WRAPPED]> {
        let (mut held, mut rest) = (held.to_vec(), bytes);
        let mut all = Vec::new();
        while let Some((count, fifteen)) = frames::first_fifteen(&held, rest) {
            let right = frames::unwrap(&fifteen, &mut [0; FRAME]) == DONE;
            held = if right { Vec::new() } else { self.kept(&fifteen).to_vec() };
            rest = &rest[count..];
            all.push(fifteen);
        }
        all
    }
}

/// A command waiting for its data frame.
#[derive(Clone, Copy, PartialEq, Eq, Debug)]
pub struct Staged {
    pub command: Command,
    pub address: Address,
}

impl Staged {
    /// Whether it counts as staged: the address rule allows the command at this very address.
    pub fn legal(self) -> bool {
        rule(self.address.raw(), self.command) == Some(self.address)
    }
}

#[derive(Clone, Copy, PartialEq, Eq, Debug)]
pub enum Mode {
    Normal { started: bool },
    Programming(Option<Staged>),
    Error,
    Waiting,
}

/// The node record; `held_count` may be any number in a record that a caller hands in.
#[derive(Clone, PartialEq, Eq, Debug)]
pub struct Node {
    pub pin: Pin,
    pub fixed: [u8; 6],
    pub module: u8,
    pub group: u8,
    pub held_count: u64,
    pub held: [u8; HELD_ROOM],
    pub mode: Mode,
    pub way: Way,
}

/// A number, and the replies as they go out on the port.
pub struct Outcome {
    pub number: u8,
    pub replies: Vec<Vec<u8>>,
}

/// Whom a handled type is for.
#[derive(Clone, Copy)]
enum For {
    /// D2 is 0x00, D3 is 0x00 or the own group.
    Group,
    /// D2, D3 are the own numbers.
    Node,
    /// Frame module and group are both 0x00.
    All,
    /// Frame module and group are the own numbers.
    Own,
}

/// The handled types: the mode (programming or normal) and whom the type is for.
const HANDLED: [(u16, bool, For); 15] = [
    (0x100, false, For::Node),
    (0x101, false, For::Group),
    (0x102, false, For::Node),
    (0x103, false, For::Group),
    (0x104, false, For::Node),
    (0x105, false, For::Group),
    (0x106, false, For::Node),
    (0x10D, false, For::Group),
    (0x10E, false, For::Node),
    (0x10F, false, For::Group),
    (0x111, false, For::Node),
    (0x010, true, For::All),
    (0x020, true, For::Own),
    (0x030, true, For::Own),
    (0x040, true, For::Own),
];

/// An outcome without replies.
fn refused(number: u8) -> Outcome {
    Outcome { number, replies: Vec::new() }
}

impl Node {
    /// A fresh node with its six fixed bytes.
    pub fn fresh(fixed: [u8; 6]) -> Node {
        Node {
            pin: Pin::CanOnly,
            fixed,
            module: 0,
            group: 0,
            held_count: 0,
            held: [0; HELD_ROOM],
            mode: Mode::Waiting,
            way: Way::default(),
        }
    }

    /// Makes the record mean what it counts as: an illegal staged command is none, so are too
    /// many held bytes and held bytes not starting with 0xAA. What means nothing becomes 0.
    pub fn tidy(&mut self) {
        if let Mode::Programming(Some(staged)) = self.mode {
            if !staged.legal() {
                self.mode = Mode::Programming(None);
            }
        }
        if self.held_count > HELD as u64 || self.held[0] != START {
            self.held_count = 0;
        }
        self.held[self.held_count as usize..].fill(0);
    }

    /// The same record, tidied.
    pub fn tidied(&self) -> Node {
        let mut node = self.clone();
        node.tidy();
        node
    }

    /// The held bytes of a tidied record.
    pub fn held_bytes(&self) -> &[u8] {
        &self.held[..self.held_count as usize]
    }

    /// Holds these bytes and no others.
    fn hold(&mut self, bytes: &[u8]) {
        self.held_count = bytes.len() as u64;
        self.held = [0; HELD_ROOM];
        self.held[..bytes.len()].copy_from_slice(bytes);
    }

    /// Restarts the node; gives 0 or 1.
    pub fn restart(&mut self, lent: &Lent, pin: Pin, passed: bool, way: Way) -> u8 {
        self.tidy();
        if !lent.lengths_right() {
            return MEMORY_LENGTH;
        }
        self.pin = pin;
        self.way = way;
        self.hold(&[]);
        self.module = lent.eeprom[MODULE];
        self.group = lent.eeprom[GROUP];
        self.mode = if !passed {
            Mode::Error
        } else if lent.eeprom[BOOTFL] == 0xFF {
            Mode::Programming(None)
        } else {
            Mode::Normal { started: starts(lent.flash) }
        };
        DONE
    }

    /// Hands the node a CAN frame, of any length.
    pub fn can_frame(&mut self, lent: &mut Lent, bytes: &[u8]) -> Outcome {
        self.tidy();
        if !lent.lengths_right() {
            return refused(MEMORY_LENGTH);
        }
        if self.deaf() {
            return refused(DEAF);
        }
        match self.frame(lent, bytes) {
            Err(number) => refused(number),
            Ok(replies) => {
                let replies = replies.iter().map(|reply| reply.to_vec()).collect();
                Outcome { number: DONE, replies }
            }
        }
    }

    /// Hands the node a UART byte.
    pub fn uart_byte(&mut self, lent: &mut Lent, byte: u8) -> Outcome {
        self.tidy();
        if let Some(number) = self.uart_closed(lent) {
            return refused(number);
        }
        let count = self.held_count as usize;
        if count < HELD {
            if count > 0 || byte == START {
                self.held[count] = byte;
                self.held_count += 1;
            }
            return refused(INCOMPLETE);
        }
        let mut all = [0; WRAPPED];
        all[..HELD].copy_from_slice(&self.held[..HELD]);
        all[HELD] = byte;
        let mut bytes = [0; FRAME];
        if frames::unwrap(&all, &mut bytes) != DONE {
            self.hold(self.way.kept(&all));
            return refused(BAD_WRAPPING);
        }
        self.hold(&[]);
        match self.frame(lent, &bytes) {
            Err(number) => refused(number),
            Ok(replies) => {
                let replies = replies.iter().map(|reply| frames::wrapped(reply).to_vec());
                Outcome { number: DONE, replies: replies.collect() }
            }
        }
    }

    /// Hands the node a piece of UART bytes, from no bytes up. It stops behind the byte that gives
    /// an outcome other than 10, or at the end; gives the bytes taken, the outcome and its replies.
    /// 1, 2 and 3 take no byte.
    pub fn uart_piece(&mut self, lent: &mut Lent, piece: &[u8]) -> (usize, Outcome) {
        self.tidy();
        if let Some(number) = self.uart_closed(lent) {
            return (0, refused(number));
        }
        for (index, &byte) in piece.iter().enumerate() {
            let outcome = self.uart_byte(lent, byte);
            if outcome.number != INCOMPLETE {
                return (index + 1, outcome);
            }
        }
        (piece.len(), refused(INCOMPLETE))
    }

    /// The number of a node that hears nothing on UART: 1, 2 or 3, in this order.
    fn uart_closed(&self, lent: &Lent) -> Option<u8> {
        if !lent.lengths_right() {
            Some(MEMORY_LENGTH)
        } else if self.pin == Pin::CanOnly {
            Some(PIN_CAN_ONLY)
        } else if self.deaf() {
            Some(DEAF)
        } else {
            None
        }
    }

    /// Whether the mode hears nothing.
    fn deaf(&self) -> bool {
        matches!(self.mode, Mode::Error | Mode::Waiting)
    }

    /// What a whole frame does, from outcome 4 on: the replies, or the number of the refusal.
    fn frame(&mut self, lent: &mut Lent, bytes: &[u8]) -> Result<Vec<Frame>, u8> {
        let frame = Frame::try_from(bytes).map_err(|_| MALFORMED)?;
        if frames::upper_flag(&frame) {
            return Err(MALFORMED);
        }
        if frames::response_flag(&frame) {
            return Err(RESPONSE);
        }
        let programming = matches!(self.mode, Mode::Programming(_));
        let (kind, _, whom) = *HANDLED
            .iter()
            .find(|row| row.0 == frames::kind(&frame) && row.1 == programming)
            .ok_or(NOT_HANDLED)?;
        if !self.meant(whom, &frame) {
            return Err(NOT_FOR_NODE);
        }
        match self.mode {
            Mode::Programming(staged) => self.program(lent, kind, frames::data(&frame), staged),
            mode => Ok(self.request(lent, kind, mode == Mode::Normal { started: true })),
        }
    }

    /// Whether the frame is meant for this node.
    fn meant(&self, whom: For, frame: &Frame) -> bool {
        let (d2, d3) = (frame[6], frame[7]);
        match whom {
            For::Group => d2 == 0x00 && (d3 == 0x00 || d3 == self.group),
            For::Node => d2 == self.module && d3 == self.group,
            For::All => frame[2] == 0x00 && frame[3] == 0x00,
            For::Own => frame[2] == self.module && frame[3] == self.group,
        }
    }

    /// A reply of this node.
    fn reply(&self, kind: u16, data: [u8; 8]) -> Frame {
        frames::frame(kind, 1, self.module, self.group, data)
    }

    /// A request in normal mode, handled and for this node.
    fn request(&mut self, lent: &mut Lent, kind: u16, started: bool) -> Vec<Frame> {
        let [id0, id1, id2, id3, devid1, devid2] = self.fixed;
        match kind {
            0x100 => {
                lent.eeprom[BOOTFL] = 0xFF;
                self.mode = Mode::Programming(None);
                vec![self.reply(kind, [0xFF, 0xFF, 0x03, 0x04, 0xFF, 0xFF, 0xFF, 0xFF])]
            }
            0x101 | 0x102 => {
                self.mode = Mode::Waiting;
                vec![]
            }
            0x103 | 0x104 => {
                vec![self.reply(kind, [0x30, 0x00, 0x03, 0xFF, id0, id1, id2, id3])]
            }
            0x106 if !started => {
                let flags = flag_byte(lent.flash);
                let [_, high, middle, low] = firmware_sum(lent.flash).to_be_bytes();
                vec![self.reply(0x1F1, [flags, high, middle, low, 0xFF, 0xFF, 0x03, 0x04])]
            }
            0x105 | 0x106 => {
                let firmware = &lent.flash[ATYPE..];
                let (atype, avers, fvers) = (firmware[0], firmware[1], firmware[2]);
                vec![self.reply(kind, [0x30, 0x00, 0x03, atype, avers, fvers, 0x03, 0x04])]
            }
            0x10D | 0x10E => {
                let eight = |from: usize| std::array::from_fn(|i| lent.eeprom[from + i]);
                vec![self.reply(kind, eight(DESCRIPTION)), self.reply(kind, eight(DESCRIPTION + 8))]
            }
            _ => vec![self.reply(kind, [devid1, devid2, 0xFF, 0xFF, 0xFF, 0xFF, 0xFF, 0xFF])],
        }
    }

    /// A frame of programming mode, handled and for this node.
    fn program(
        &mut self,
        lent: &mut Lent,
        kind: u16,
        data: [u8; 8],
        staged: Option<Staged>,
    ) -> Result<Vec<Frame>, u8> {
        match kind {
            0x030 => {
                let raw = u32::from_be_bytes([0, data[0], data[1], data[2]]);
                let new = Command::of(data[5] as u32).and_then(|command| {
                    rule(raw, command).map(|address| Staged { command, address })
                });
                self.mode = Mode::Programming(new);
                match new {
                    Some(_) => Ok(vec![self.reply(kind, data)]),
                    None => Err(ILLEGAL),
                }
            }
            0x040 => {
                let Staged { command, address } = staged.ok_or(NOTHING_STAGED)?;
                match command {
                    Command::Read => {}
                    Command::Write => lent.write(address, data),
                    Command::Erase => lent.erase(address),
                }
                Ok(vec![self.reply(kind, lent.row(address))])
            }
            _ => {
                lent.eeprom[BOOTFL] = 0x00;
                self.mode = Mode::Waiting;
                Ok(vec![])
            }
        }
    }
}
