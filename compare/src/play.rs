//! Accesses, drawn and directed: bank registers and then the windows' edges, both modes, every selection, enabling and disabling, the
//! clock's registers, its latch, and time that passes.
use crate::clocks::SECOND;
use crate::domain::{Timer, CARRY, FROZEN, SIXTY, UNREAD};
use crate::draw::Draw;
use crate::machine::{Access, Machine};
use std::collections::VecDeque;
use Access::{Clocks, Read, Write};

const REGISTERS: [u16; 18] = [
    0x0000, 0x00FF, 0x0100, 0x1FFF, 0x2000, 0x20FF, 0x2100, 0x2FFF, 0x3000, 0x30FF, 0x3100, 0x3FFF, 0x4000, 0x4FFF, 0x5FFF,
    0x6000, 0x6FFF, 0x7FFF,
];
const EDGES: [u16; 18] = [
    0x0000, 0x0001, 0x0104, 0x3FFE, 0x3FFF, 0x4000, 0x4001, 0x4104, 0x7FFE, 0x7FFF, 0xA000, 0xA001, 0xA1FF, 0xA200, 0xA7FF,
    0xA800, 0xBFFE, 0xBFFF,
];
const BYTES: [u8; 24] = [
    0x00, 0x01, 0x02, 0x03, 0x04, 0x08, 0x09, 0x0A, 0x0B, 0x0C, 0x0F, 0x10, 0x11, 0x12, 0x1A, 0x1F, 0x20, 0x30, 0x3F, 0x40, 0x60,
    0x7F, 0x80, 0xFF,
];
pub const STRANGE: [u16; 8] = [0x8000, 0x8001, 0x9FFF, 0xC000, 0xC001, 0xDFFF, 0xFEFF, 0xFFFF];

pub struct Player {
    pub draw: Draw,
    /// The clauses of the domain that may be left.
    permitted: u8,
    /// What is drawn already.
    pub next: VecDeque<Access>,
}

impl Player {
    pub fn new(mut draw: Draw, machine: &Machine) -> Player {
        let permitted = match (&machine.timer, draw.below(20)) {
            (None, _) => 0,
            (Some(timer), _) if timer.left != 0 => 0x3F,
            (_, 0..=10) => 0,
            (_, 11 | 12) => UNREAD,
            (_, 13) => FROZEN | UNREAD,
            (_, 14 | 15) => CARRY,
            (_, 16 | 17) => SIXTY,
            _ => UNREAD | FROZEN | CARRY | SIXTY,
        };
        let mut next = VecDeque::new();
        if !draw.one_in(4) {
            next.push_back(Write(0x0000, 0x0A));
        }
        Player { draw, permitted, next }
    }

    /// One that leaves the domain nowhere, and begins with both parts of every bank register, each mode, and what they then show.
    pub fn within(draw: Draw, machine: &Machine) -> Player {
        let mut player = Player { permitted: 0, ..Player::new(draw, machine) };
        let ends = [Read(0x0000), Read(0x4000), Read(0x7FFE), Read(0xA000)];
        for (addr, byte) in
            [(0x2100, 0x10), (0x2100, 0x00), (0x3100, 0x01), (0x2100, 0x12), (0x4000, 0x02), (0x6000, 0x01), (0x6000, 0x00)]
        {
            player.next.push_back(Write(addr, byte));
            player.next.extend(ends);
        }
        player
    }

    /// One that may leave every clause.
    pub fn anywhere(draw: Draw) -> Player {
        Player { draw, permitted: 0x3F, next: VecDeque::new() }
    }

    pub fn byte(&mut self) -> u8 {
        if self.draw.one_in(2) {
            self.draw.of(&BYTES)
        } else {
            self.draw.byte()
        }
    }

    pub fn ram_addr(&mut self) -> u16 {
        if self.draw.one_in(3) {
            self.draw.of(&EDGES[10..])
        } else {
            0xA000 + self.draw.below(0x2000) as u16
        }
    }

    pub fn rom_addr(&mut self) -> u16 {
        if self.draw.one_in(3) {
            self.draw.of(&EDGES[..10])
        } else {
            self.draw.below(0x8000) as u16
        }
    }

    fn register(&mut self) -> u16 {
        if self.draw.one_in(2) {
            self.draw.of(&REGISTERS)
        } else {
            self.draw.below(0x8000) as u16
        }
    }

    fn edges(&mut self, n: u32) {
        for _ in 0..n {
            let edge = self.draw.of(&EDGES);
            self.next.push_back(Read(edge));
        }
    }

    /// A register and then the windows' edges.
    pub fn bank(&mut self, machine: &Machine) -> Access {
        let n = 1 + self.draw.below(4);
        let addr = self.register();
        let mut byte = self.byte();
        // Mostly a selection that there is: the others stop the original.
        if matches!(machine.kind, 4 | 5) && addr & 0xE000 == 0x4000 && !self.draw.one_in(8) {
            byte = byte & 0xF0 | self.draw.of(&[0, 1, 2, 3, 8, 9, 0xA, 0xB, 0xC]);
        }
        self.edges(n);
        Write(addr, byte)
    }

    /// Something of the clock's: its registers, its latch, time that passes.
    pub fn clock(&mut self, timer: &Timer) -> Access {
        let high = self.byte() & 0xF0;
        match self.draw.below(16) {
            0..=2 => {
                let register = self.draw.below(5) as u8;
                let addr = self.ram_addr();
                self.next.push_back(Read(addr));
                Write(0x4000 + self.draw.below(0x2000) as u16, high | (8 + register))
            }
            3 => {
                for register in 0..5 {
                    self.next.push_back(Write(0x4000, 8 + register));
                    self.next.push_back(Read(0xA000));
                }
                Write(0x0000, 0x0A)
            }
            4 | 5 => {
                let register = self.draw.below(5) as u8;
                let byte = match register {
                    0 => self.draw.of(&[0, 1, 40, 57, 58, 59, 60, 61, 62, 63, 0x7B, 0xFB]),
                    1 => self.draw.of(&[0, 1, 57, 58, 59, 60, 61, 62, 63, 0x7B]),
                    2 => self.draw.of(&[0, 1, 22, 23, 24, 25, 30, 31, 0x37]),
                    3 => self.draw.of(&[0, 1, 0x7F, 0x80, 0xFE, 0xFF]),
                    _ => self.draw.of(&[0, 1, 0, 1, 0x40, 0x41, 0x80, 0x81, 0x3E, 0xC1]),
                };
                let byte = if self.draw.one_in(4) { self.draw.byte() } else { byte };
                let addr = self.ram_addr();
                self.next.push_back(Write(addr, byte));
                self.next.push_back(Read(addr));
                Write(0x4000, 8 + register)
            }
            6 => {
                // All registers before the last second of something.
                for (register, byte) in
                    [(2, 23), (1, 59), (0, 59 - self.draw.below(3) as u8), (3, 0xFF), (4, self.draw.below(2) as u8)]
                {
                    if !self.draw.one_in(6) {
                        self.next.push_back(Write(0x4000, 8 + register));
                        self.next.push_back(Write(0xA000, byte));
                    }
                }
                Write(0x0000, 0x0A)
            }
            7 | 8 => {
                let on = if timer.stepwise.latched { self.draw.one_in(4) } else { self.draw.one_in(3) };
                Write(0x6000 + self.draw.below(0x2000) as u16, self.draw.byte() & 0xFE | on as u8)
            }
            9 => {
                // Running again.
                self.next.push_back(Write(0xA000, self.draw.below(2) as u8));
                Write(0x4000, 0x0C)
            }
            10 => Clocks(1 + self.draw.below(60) as u64),
            _ => {
                let left = SECOND - timer.stepwise.sub;
                let drawn = self.draw.below(SECOND as u32) as u64;
                if self.permitted & UNREAD != 0 && self.draw.one_in(2) {
                    let seconds = match self.draw.below(20) {
                        0 => self.draw.below(2047),
                        1..=6 => self.draw.below(300),
                        _ => self.draw.below(70),
                    };
                    return Clocks(seconds as u64 * SECOND + drawn);
                }
                self.draw.of(&[
                    Clocks(left),
                    Clocks(left),
                    Clocks(left),
                    Clocks(left - 1),
                    Clocks(SECOND),
                    Clocks(drawn),
                    Clocks(SECOND - 1),
                ])
            }
        }
    }

    fn any(&mut self, machine: &Machine) -> Access {
        if let Some(timer) = &machine.timer {
            if self.draw.one_in(2) {
                return self.clock(timer);
            }
        }
        match self.draw.below(64) {
            0..=11 => Read(self.rom_addr()),
            12..=20 => Read(self.ram_addr()),
            21..=36 => {
                let addr = self.ram_addr();
                let byte = self.byte();
                if self.draw.one_in(2) {
                    self.next.push_back(Read(addr));
                }
                Write(addr, byte)
            }
            37..=56 => self.bank(machine),
            57..=60 => {
                Write(self.draw.of(&[0x0000, 0x0000, 0x1EFF, 0x3E00]), self.draw.of(&[0x0A, 0x0A, 0x0A, 0x1A, 0x0B, 0x00]))
            }
            61 => Clocks(1 + self.draw.below(48) as u64),
            62 => Read(self.draw.of(&STRANGE)),
            _ => Write(self.draw.of(&STRANGE), self.draw.byte()),
        }
    }

    /// The clock read that a completed second waits for, or a step towards it.
    fn follow(&mut self, timer: &Timer) -> Access {
        if !timer.enabled {
            Write(0x0000, 0x0A)
        } else if timer.memory {
            Write(0x4000, 8 + self.draw.below(5) as u8)
        } else {
            Read(0xA000 + self.draw.below(0x2000) as u16)
        }
    }

    /// The next access, one that leaves no clause which may not be left.
    pub fn next(&mut self, machine: &Machine) -> Access {
        for _ in 0..30 {
            let access = match self.next.pop_front() {
                Some(access) => access,
                None => self.any(machine),
            };
            let timer = match &machine.timer {
                None => return access,
                Some(timer) => timer,
            };
            let left = timer.leaves(access) & !self.permitted;
            if left == 0 {
                return access;
            }
            if left & UNREAD != 0 && timer.due > 0 && !timer.stepwise.latched {
                self.next.push_front(access);
                return self.follow(timer);
            }
        }
        Read(0x4000)
    }

    /// What is still needed before the end, so that the sequence stays in the domain.
    pub fn last(&mut self, machine: &Machine) -> Option<Access> {
        let timer = machine.timer.as_ref()?;
        (timer.due > 0 && timer.left == 0 && !timer.stepwise.latched).then(|| self.follow(timer))
    }
}
