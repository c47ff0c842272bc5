//! Accesses on a board with a timer, whatever its clock does: advances from one clock to more than 512 days, freezes, halts, carries and
//! registers beyond their stops, and between them banks, RAM and both windows, so that what is no clock register is asked for at every turn.
use crate::clocks::{DAY, SECOND};
use crate::domain::Timer;
use crate::draw::Draw;
use crate::machine::{Access, Machine};
use crate::play::{Player, STRANGE};
use Access::{Clocks, Read, Write};

/// Seconds until a clock shows the same again.
const PERIOD: u64 = 512 * DAY;

pub struct Anytime {
    player: Player,
    /// Clocks that may still pass: the original takes its time over them.
    clocks: u64,
}

impl Anytime {
    pub fn new(draw: Draw, clocks: u64) -> Anytime {
        Anytime { player: Player::anywhere(draw), clocks }
    }

    /// One that lets more than 512 days pass at once, when banks are moved and RAM is written.
    pub fn long(draw: Draw, clocks: u64) -> Anytime {
        let mut anytime = Anytime::new(draw, clocks);
        let (bank, more) = (2 + anytime.player.draw.below(254) as u8, anytime.player.draw.below(50 * DAY as u32) as u64);
        anytime.player.next.push_back(Write(0x2000, bank));
        for _ in 0..3 {
            let enabling = anytime.memory();
            anytime.player.next.push_back(enabling);
        }
        anytime.player.next.push_back(Clocks((PERIOD + more) * SECOND));
        anytime.look();
        anytime
    }

    pub fn next(&mut self, machine: &Machine) -> Access {
        let timer = machine.timer.as_ref().expect("a board with a timer");
        let access = match self.player.next.pop_front() {
            Some(access) => access,
            None => self.any(machine, timer),
        };
        self.affordable(access)
    }

    // An advance that is too long becomes a short one.
    fn affordable(&mut self, access: Access) -> Access {
        match access {
            Clocks(n) if n > self.clocks => Clocks(n % 61),
            Clocks(n) => {
                self.clocks -= n;
                access
            }
            _ => access,
        }
    }

    fn any(&mut self, machine: &Machine, timer: &Timer) -> Access {
        match self.player.draw.below(32) {
            0..=9 => self.memory(),
            10..=13 => self.player.bank(machine),
            14..=16 => Read(self.player.rom_addr()),
            17 | 18 => Read(self.player.ram_addr()),
            19..=22 => self.player.clock(timer),
            23 | 24 => self.beyond(),
            25 => self.last_day(),
            26..=29 => {
                let advance = self.advance(timer);
                self.look();
                advance
            }
            30 => Write(self.player.draw.of(&[0x0000, 0x1FFF]), self.player.draw.of(&[0x0A, 0x0A, 0x0A, 0x1A, 0x0B, 0x00])),
            _ => self.refused(),
        }
    }

    // A RAM bank, and bytes written and read there.
    fn memory(&mut self) -> Access {
        let bank = self.player.byte() & 0xF0 | self.player.draw.below(4) as u8;
        self.player.next.push_back(Write(0x4000 + self.player.draw.below(0x2000) as u16, bank));
        for _ in 0..1 + self.player.draw.below(6) {
            let addr = self.player.ram_addr();
            if self.player.draw.one_in(2) {
                let byte = self.player.draw.byte();
                self.player.next.push_back(Write(addr, byte));
            }
            self.player.next.push_back(Read(addr));
        }
        Write(0x0000, 0x0A)
    }

    // Both windows of ROM, and RAM where it may be selected: behind an advance, for what may have moved with it.
    fn look(&mut self) {
        let (low, high) = (self.player.draw.below(0x4000) as u16, 0x4000 + self.player.draw.below(0x4000) as u16);
        self.player.next.push_back(Read(low));
        self.player.next.push_back(Read(high));
        self.maybe_ram();
        for _ in 0..1 + self.player.draw.below(3) {
            let addr = self.player.ram_addr();
            self.player.next.push_back(Read(addr));
        }
    }

    fn maybe_ram(&mut self) {
        if self.player.draw.one_in(2) {
            let bank = self.player.draw.below(4) as u8;
            self.player.next.push_back(Write(0x4000, bank));
        }
    }

    // Time that passes behind a clock register that was written, which is then selected, or RAM.
    fn pass(&mut self, clocks: u64) {
        self.maybe_ram();
        self.player.next.push_back(Clocks(clocks));
        self.look();
    }

    // A register at its stop and beyond it, a carry, a halt; and then time.
    fn beyond(&mut self) -> Access {
        let draw = &mut self.player.draw;
        let (register, byte) = match draw.below(8) {
            0 => (8, 60 + draw.below(4)),
            1 | 2 => (9, 60 + draw.below(4)),
            3 | 4 => (0xA, 24 + draw.below(8)),
            _ => (0xC, draw.of(&[0x80, 0x81, 0x40, 0x41, 0xC0, 0xC1, 0x00, 0x01])),
        };
        let (high, clocks) = (draw.below(4) << 6, draw.below(4) as u64 * SECOND);
        let byte = if register == 0xC { byte } else { byte | high };
        self.player.next.push_back(Write(0x4000, register));
        self.player.next.push_back(Write(0xBFFF, byte as u8));
        self.pass(clocks);
        Write(0x0000, 0x0A)
    }

    // The last seconds of day 511, and what passes them.
    fn last_day(&mut self) -> Access {
        let left = 1 + self.player.draw.below(4) as u64;
        for (register, byte) in [(0xC, 1), (0xB, 0xFF), (0xA, 23), (9, 59), (8, 60 - left as u8)] {
            self.player.next.push_back(Write(0x4000, register));
            self.player.next.push_back(Write(0xA000, byte));
        }
        let more = self.player.draw.of(&[0, 0, 1, SECOND - 1, 2 * SECOND]);
        self.pass(left * SECOND + more);
        Write(0x0000, 0x0A)
    }

    fn refused(&mut self) -> Access {
        let (addr, byte) = (self.player.draw.of(&STRANGE), self.player.draw.byte());
        match self.player.draw.below(3) {
            0 => Read(addr),
            1 => Write(addr, byte),
            _ => Write(0x5FFF, byte & 0xF0 | self.player.draw.of(&[4, 5, 6, 7, 0xD, 0xE, 0xF])),
        }
    }

    fn advance(&mut self, timer: &Timer) -> Access {
        let left = SECOND - timer.stepwise.sub;
        let class = self.player.draw.below(32);
        let draw = &mut self.player.draw;
        let mut drawn = |n: u64| draw.below(n as u32) as u64;
        let seconds = match class {
            0..=5 => return Clocks([1, 1, 2, 48, 49, 61][drawn(6) as usize]),
            6..=13 => return Clocks([left - 1, left, left, left + 1][drawn(4) as usize]),
            14..=17 => return Clocks([SECOND - 1, SECOND, SECOND + 1, drawn(SECOND)][drawn(4) as usize]),
            18..=23 => 2 + drawn(70),
            24..=27 => [60, 3_599, 3_600, 3_601, drawn(3_600), drawn(7_200)][drawn(6) as usize],
            28 | 29 => drawn(2 * DAY),
            30 => [DAY - 1, DAY, DAY + 1, drawn(4 * DAY)][drawn(4) as usize],
            _ => [PERIOD - 1, PERIOD, PERIOD + 1, PERIOD + drawn(50 * DAY), drawn(PERIOD)][drawn(5) as usize],
        };
        let clocks = [0, 1, left, drawn(SECOND)][drawn(4) as usize];
        Clocks(seconds * SECOND + clocks)
    }
}
