//! The domain in which the rules take the original as the clock's oracle (Original 3), clause by clause, and what is known of a clock's
//! place in it.
use crate::clocks::{Lazy, Stepwise, DAY};
use crate::machine::Access;
use crate::tally::Rule;

// The clauses, as bits.

/// A second that no unlatched clock read followed.
pub const UNREAD: u8 = 1;
/// A second that passed while the clock was frozen.
pub const FROZEN: u8 = 2;
/// A carry.
pub const CARRY: u8 = 4;
/// Minute 60 or hour 24 written.
pub const SIXTY: u8 = 8;
/// A save read with its clock.
pub const SAVE: u8 = 16;
/// A save read with a part of its clock.
pub const BLOCK: u8 = 32;

pub fn rule_of(left: u8) -> Rule {
    match left {
        _ if left & BLOCK != 0 => Rule::ShortBlock,
        _ if left & SAVE != 0 => Rule::SaveRead,
        UNREAD => Rule::Unread,
        FROZEN | 3 => Rule::Frozen,
        CARRY => Rule::Carry,
        SIXTY => Rule::Sixty,
        _ => Rule::Several,
    }
}

/// What is known of a cartridge with a timer.
pub struct Timer {
    pub enabled: bool,
    pub memory: bool,
    pub register: u8,
    pub stepwise: Stepwise,
    pub lazy: Lazy,
    /// Seconds since the last unlatched clock read.
    pub due: u64,
    /// The clauses that the sequence has left.
    pub left: u8,
}

pub fn in_ram(addr: u16) -> bool {
    addr & 0xE000 == 0xA000
}

impl Timer {
    pub fn new(wall: u64) -> Timer {
        let (stepwise, lazy) = (Stepwise::new(wall), Lazy::new(wall));
        Timer { enabled: true, memory: false, register: 0, stepwise, lazy, due: 0, left: 0 }
    }

    pub fn on_clock(&self, addr: u16) -> bool {
        in_ram(addr) && self.enabled && !self.memory
    }

    /// The clauses that an access would leave.
    pub fn leaves(&self, access: Access) -> u8 {
        let mut left = 0;
        match access {
            Access::Read(_) => {}
            Access::Write(addr, byte) => {
                let clock = self.on_clock(addr);
                if self.due > 0 && (clock || addr & 0xE000 == 0x6000) {
                    left |= UNREAD;
                }
                if clock && (self.register == 1 && byte & 0x3F == 60 || self.register == 2 && byte & 0x1F == 24) {
                    left |= SIXTY;
                }
                if clock && self.register == 4 && byte & 0x80 != 0 {
                    left |= CARRY;
                }
            }
            // An advance that is refused leaves nothing.
            Access::Clocks(n) if self.stepwise.is_late(n) => {}
            Access::Clocks(n) => {
                let seconds = self.stepwise.completed(n);
                if self.due + seconds > 1 {
                    left |= UNREAD;
                }
                if seconds > 0 && self.stepwise.latched {
                    left |= FROZEN;
                }
                // The next day may be a second away, the others are a day each.
                if seconds > 0 && self.stepwise.running.day as u64 + (seconds - 1) / DAY >= 511 {
                    let mut later = self.stepwise.running;
                    later.steps(seconds);
                    if later.carry {
                        left |= CARRY;
                    }
                }
            }
        }
        left
    }

    // What a write does to what is known.
    pub fn write(&mut self, addr: u16, byte: u8) {
        match addr {
            0x0000..=0x1FFF => self.enabled = byte & 0xF == 0xA,
            0x4000..=0x5FFF if byte & 0xF < 4 => self.memory = true,
            0x4000..=0x5FFF => {
                self.memory = false;
                self.register = (byte & 0xF) - 8;
            }
            0x6000..=0x7FFF => {
                self.stepwise.latch(byte & 1 == 1);
                self.lazy.latch(byte & 1 == 1);
            }
            _ if self.on_clock(addr) => {
                self.stepwise.write(self.register, byte);
                self.lazy.write(self.register, byte);
            }
            _ => {}
        }
    }
}
