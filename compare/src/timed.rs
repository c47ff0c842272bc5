//! What was done on boards with a timer, and what of it was held to the original whatever the clock did.
use crate::clocks::{Stepwise, DAY};
use crate::domain::{in_ram, Timer};
use std::fmt::Write;

/// How far an advance goes at most, in seconds, and what that is called.
const SPANS: [(u64, &str); 7] = [
    (0, "no second"),
    (1, "one second"),
    (60, "to a minute"),
    (3_600, "to an hour"),
    (DAY, "to a day"),
    (512 * DAY, "to 512 days"),
    (u64::MAX, "more"),
];

#[derive(Clone, Default)]
pub struct Timed {
    advances: [u64; 7],
    halted_advances: u64,
    seconds: u64,
    frozen_seconds: u64,
    /// Saves that were read, by the seconds that they were behind.
    catch_ups: [u64; 7],
    /// Clocks that were calls of the original's one by one.
    calls: u64,
    carries_passed: u64,
    carries_written: u64,
    minute_60: u64,
    hour_24: u64,
    /// Second 60 to 63, minute 61 to 63, hour 25 to 31.
    beyond: u64,
    halts: u64,
    freezes: u64,
    /// Reads that showed a clock register: held to the models where they are outside the domain.
    clock_reads: u64,
    /// Bytes that showed none: held to the original's. Of these, those of mapped RAM.
    held: u64,
    held_ram: u64,
    /// Of those held, after a clause of the domain was left; with the carry set; frozen; halted.
    held_outside: u64,
    held_carried: u64,
    held_frozen: u64,
    held_halted: u64,
    /// With 15, 16 and 17. Of these the original is asked 16 alone, on which it stops before anything changes.
    pub refused: [u64; 3],
    pub ram_compared: u64,
    /// Saves whose RAM and offset were compared, and of these the ones whose offset is not 0.
    pub saves: u64,
    pub offsets: u64,
}

fn span(seconds: u64) -> usize {
    SPANS.iter().position(|(most, _)| seconds <= *most).unwrap()
}

fn by_span(counts: &[u64; 7]) -> String {
    let all: Vec<String> = SPANS.iter().zip(counts).map(|((_, name), n)| format!("{} {}", name, n)).collect();
    all.join(", ")
}

impl Timed {
    /// A save's 21 bytes that have brought a clock to its time.
    pub fn catch_up(&mut self, block: &[u8], time: u64) {
        let stored = u64::from_le_bytes(block[5..13].try_into().unwrap());
        self.catch_ups[span(time.saturating_sub(stored))] += 1;
    }

    /// Clocks that have passed.
    pub fn advance(&mut self, before: &Stepwise, after: &Stepwise, clocks: u64, each: bool) {
        let seconds = after.time - before.time;
        self.advances[span(seconds)] += 1;
        self.halted_advances += before.running.halt as u64;
        self.seconds += seconds;
        if before.latched {
            self.frozen_seconds += seconds;
        }
        if each {
            self.calls += clocks;
        }
        self.carries_passed += (after.running.carry && !before.running.carry) as u64;
    }

    /// A write that is about to be made.
    pub fn write(&mut self, timer: &Timer, addr: u16, byte: u8) {
        if addr & 0xE000 == 0x6000 {
            self.freezes += (byte & 1 == 1 && !timer.stepwise.latched) as u64;
        }
        if !timer.on_clock(addr) {
            return;
        }
        match (timer.register, byte & 0x3F, byte & 0x1F) {
            (0, 60..=63, _) | (1, 61..=63, _) | (2, _, 25..=31) => self.beyond += 1,
            (1, 60, _) => self.minute_60 += 1,
            (2, _, 24) => self.hour_24 += 1,
            (4, _, _) => {
                self.carries_written += (byte >> 7) as u64;
                self.halts += (byte >> 6 & 1) as u64;
            }
            _ => {}
        }
    }

    /// A read that is about to be held, on a board with so much RAM.
    pub fn read(&mut self, timer: &Timer, addr: u16, ram: usize) {
        if timer.on_clock(addr) {
            self.clock_reads += 1;
            return;
        }
        let clock = &timer.stepwise;
        self.held += 1;
        // RAM of 0x800 is never mapped.
        self.held_ram += (in_ram(addr) && timer.enabled && timer.memory && ram > 0x800) as u64;
        self.held_outside += (timer.left != 0) as u64;
        self.held_carried += clock.running.carry as u64;
        self.held_frozen += clock.latched as u64;
        self.held_halted += clock.running.halt as u64;
    }

    pub fn table(&self) -> String {
        let mut out = String::new();
        let o = &mut out;
        writeln!(o, "advances: {}", by_span(&self.advances)).unwrap();
        let many: u64 = self.advances[2..].iter().sum();
        writeln!(o, "  of more than one second {}, of a halted clock {}", many, self.halted_advances).unwrap();
        writeln!(o, "seconds passed: {}, {} of them frozen", self.seconds, self.frozen_seconds).unwrap();
        writeln!(o, "saves that were read, by how far behind: {}", by_span(&self.catch_ups)).unwrap();
        writeln!(o, "clocks that were calls one by one: {}", self.calls).unwrap();
        writeln!(o, "carries set: {} by passing day 511, {} by a write", self.carries_passed, self.carries_written).unwrap();
        writeln!(
            o,
            "written: minute 60 {}, hour 24 {}, further beyond a stop {}, halts {}; freezes {}",
            self.minute_60, self.hour_24, self.beyond, self.halts, self.freezes
        )
        .unwrap();
        writeln!(o, "reads that showed a clock register: {}", self.clock_reads).unwrap();
        writeln!(o, "bytes held to the original's: {}, {} of them of RAM", self.held, self.held_ram).unwrap();
        writeln!(
            o,
            "  outside the clock's domain {}, with the carry set {}, frozen {}, halted {}",
            self.held_outside, self.held_carried, self.held_frozen, self.held_halted
        )
        .unwrap();
        let r = &self.refused;
        writeln!(o, "refused with 15: {}, 16: {}, 17: {}", r[0], r[1], r[2]).unwrap();
        writeln!(o, "RAM bytes compared at the end: {}", self.ram_compared).unwrap();
        writeln!(o, "saves whose RAM and offset were compared: {}, {} with an offset", self.saves, self.offsets).unwrap();
        out
    }
}
