//! FLASH and EEPROM: the address rule, rows and blocks, the firmware sum, and whether firmware
//! starts.

use crate::numbers::*;

pub const FLASH_CELLS: usize = 65_536;
pub const EEPROM_CELLS: usize = 1_024;
pub const ROW: usize = 8;
pub const BLOCK: usize = 64;

/// Where EEPROM begins among the addresses.
pub const EEPROM_BASE: u32 = 0xF0_0000;
/// Places, counted from the beginning of EEPROM.
pub const BOOTFL: usize = 0x00;
pub const MODULE: usize = 0x26;
pub const GROUP: usize = 0x27;
pub const DESCRIPTION: usize = 0x30;
/// FLASH addresses of the stored sum, of the three cells that firmware needs to start, of ATYPE
/// AVERS FVERS, and the area of the firmware sum.
pub const STORED_SUM: usize = 0x1000;
pub const THREE_CELLS: usize = 0x1010;
pub const ATYPE: usize = 0x1013;
pub const SUM_FIRST: usize = 0x1003;
pub const SUM_LAST: usize = 0x7FFF;
/// What the three cells are in firmware that starts.
pub const RIGHT_CELLS: [u8; 3] = [0x30, 0x00, 0x03];
/// The bits of 0x1F1's flag byte.
pub const SUMS_DIFFER: u8 = 0x01;
pub const CELLS_DIFFER: u8 = 0x02;

#[derive(Clone, Copy, PartialEq, Eq, Debug)]
pub enum Command {
    Read,
    Write,
    Erase,
}

impl Command {
    /// The command of a number; numbers other than 1 to 3 are none.
    pub fn of(code: u32) -> Option<Command> {
        match code {
            1 => Some(Command::Read),
            2 => Some(Command::Write),
            3 => Some(Command::Erase),
            _ => None,
        }
    }

    /// The number of a command.
    pub fn code(self) -> u8 {
        match self {
            Command::Read => 1,
            Command::Write => 2,
            Command::Erase => 3,
        }
    }
}

/// An address of FLASH or of EEPROM, written as document 01 writes it.
#[derive(Clone, Copy, PartialEq, Eq, Debug)]
pub enum Address {
    Flash(u32),
    Eeprom(u32),
}

impl Address {
    /// The bare number.
    pub fn raw(self) -> u32 {
        match self {
            Address::Flash(raw) | Address::Eeprom(raw) => raw,
        }
    }
}

/// The address rule: which memory a legal command reaches, none where it is illegal.
pub fn rule(address: u32, command: Command) -> Option<Address> {
    let (last_in_flash, unit) = match command {
        Command::Read | Command::Write => (0x00_FFF8, 8),
        Command::Erase => (0x00_FFC0, 64),
    };
    if address % unit != 0 {
        None
    } else if (0x00_1000..=last_in_flash).contains(&address) {
        Some(Address::Flash(address))
    } else if command != Command::Erase && (EEPROM_BASE..=0xF0_03F8).contains(&address) {
        Some(Address::Eeprom(address))
    } else {
        None
    }
}

/// The address rule asked with plain numbers.
pub fn asked(address: u32, command: u32) -> Option<Address> {
    Command::of(command).and_then(|command| rule(address, command))
}

/// The memories as they are lent to a call.
pub struct Lent<'a> {
    pub flash: &'a mut [u8],
    pub eeprom: &'a mut [u8],
}

impl Lent<'_> {
    /// Whether both memories have their lengths.
    pub fn lengths_right(&self) -> bool {
        self.flash.len() == FLASH_CELLS && self.eeprom.len() == EEPROM_CELLS
    }

    /// So many cells from a legal address on.
    fn cells(&mut self, address: Address, count: usize) -> &mut [u8] {
        match address {
            Address::Flash(raw) => &mut self.flash[raw as usize..][..count],
            Address::Eeprom(raw) => &mut self.eeprom[(raw - EEPROM_BASE) as usize..][..count],
        }
    }

    /// The eight cells of the row at a legal address.
    pub fn row(&mut self, address: Address) -> [u8; ROW] {
        let cells = self.cells(address, ROW);
        std::array::from_fn(|i| cells[i])
    }

    /// Writes a row: FLASH keeps old and new bits combined by "and", EEPROM is replaced.
    pub fn write(&mut self, address: Address, data: [u8; ROW]) {
        let in_flash = matches!(address, Address::Flash(_));
        for (cell, new) in self.cells(address, ROW).iter_mut().zip(data) {
            *cell = if in_flash { *cell & new } else { new };
        }
    }

    /// Erases the block at a legal address.
    pub fn erase(&mut self, address: Address) {
        self.cells(address, BLOCK).fill(0xFF);
    }

    /// Shows the row at any address: the number, and the part of FLASH or EEPROM.
    pub fn show(&mut self, address: u32) -> (u8, &[u8]) {
        if !self.lengths_right() {
            return (MEMORY_LENGTH, &[]);
        }
        match rule(address, Command::Read) {
            None => (ILLEGAL, &[]),
            Some(address) => (DONE, self.cells(address, ROW)),
        }
    }
}

/// The firmware sum as it is worked out.
pub fn firmware_sum(flash: &[u8]) -> u32 {
    flash[SUM_FIRST..=SUM_LAST].iter().map(|&cell| cell as u32).sum()
}

/// The stored sum, high byte first.
pub fn stored_sum(flash: &[u8]) -> u32 {
    flash[STORED_SUM..][..3].iter().fold(0, |sum, &cell| sum << 8 | cell as u32)
}

/// The flag byte of a FLASH as it is (request A4): bit 0 says that the sums differ, bit 1 that the
/// three cells do.
pub fn flag_byte(flash: &[u8]) -> u8 {
    let sums = if stored_sum(flash) != firmware_sum(flash) { SUMS_DIFFER } else { 0 };
    let cells = if flash[THREE_CELLS..][..3] != RIGHT_CELLS { CELLS_DIFFER } else { 0 };
    sums | cells
}

/// Whether firmware starts: the sums are equal, and the three cells are 30 00 03.
pub fn starts(flash: &[u8]) -> bool {
    flag_byte(flash) == 0
}
