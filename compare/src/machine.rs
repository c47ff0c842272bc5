//! One cartridge in both: the same image, save and accesses, each answer compared, and what the domain says of it.
use crate::clocks::Registers;
use crate::domain::{in_ram, rule_of, Timer, BLOCK, SAVE};
use crate::original::{self, Files, Mounted, Original};
use crate::recipe::hex;
use crate::tally::*;
use imfelkuz::sys::{self, State, Windows};
use imfelkuz::Facts;
use std::fmt;

#[derive(Clone, Copy, PartialEq)]
pub enum Access {
    Read(u16),
    Write(u16, u8),
    Clocks(u64),
}

impl fmt::Display for Access {
    fn fmt(&self, f: &mut fmt::Formatter<'_>) -> fmt::Result {
        match self {
            Access::Read(addr) => write!(f, "R {:04X}", addr),
            Access::Write(addr, byte) => write!(f, "W {:04X} {:02X}", addr, byte),
            Access::Clocks(n) => write!(f, "C {}", n),
        }
    }
}

/// A difference that is on no list.
pub struct Found {
    pub what: String,
}

pub fn found<T>(what: String) -> Result<T, Found> {
    Err(Found { what })
}

// ---- the library's side

pub struct Ours {
    pub state: State,
    pub ram: Vec<u8>,
    /// Every second cartridge is read and written through windows where they can say.
    windows: Option<Windows>,
}

impl Ours {
    #[inline]
    fn read(&self, image: &[u8], addr: u16) -> u32 {
        if let Some(windows) = &self.windows {
            let answer = sys::window_read(windows, image, &self.ram, addr);
            if answer != sys::ASK {
                return answer;
            }
        }
        sys::read(&self.state, image, &self.ram, addr)
    }

    #[inline]
    fn write(&mut self, addr: u16, byte: u8) -> u32 {
        if let Some(windows) = &mut self.windows {
            let answer = sys::window_write(windows, &mut self.ram, addr, byte);
            if answer != sys::ASK {
                return answer;
            }
            let answer = sys::write(&mut self.state, &mut self.ram, addr, byte);
            sys::windows(&self.state, windows);
            return answer;
        }
        sys::write(&mut self.state, &mut self.ram, addr, byte)
    }

    pub fn registers(&self, at: usize) -> Registers {
        let s = &self.state[at..at + 7];
        let day = u16::from_le_bytes([s[3], s[4]]);
        Registers { second: s[0], minute: s[1], hour: s[2], day, halt: s[5] == 1, carry: s[6] == 1 }
    }

    pub fn long(&self, at: usize) -> u64 {
        u64::from_le_bytes(self.state[at..at + 8].try_into().unwrap())
    }
}

// ---- both

pub struct Machine {
    pub ours: Ours,
    pub original: Box<Original>,
    pub kind: usize,
    pub timer: Option<Timer>,
    /// Whether every clock is a call of the original's.
    pub each: bool,
    /// What the last read gave, in the original and in the library.
    pub seen: Option<(u32, u32)>,
}

fn kind_of(ty: u8, multicart: bool) -> usize {
    match ty {
        1..=3 => 1 + multicart as usize,
        5 | 6 => 3,
        0x11..=0x13 => 4,
        0x0F | 0x10 => 5,
        0x19..=0x1E => 6,
        _ => 0,
    }
}

/// Mounts an image in both, with a save where one is given. A machine where both go on; none where both refuse, or the difference is
/// listed and ends it.
pub fn mount(
    files: &Files,
    tally: &mut Tally,
    image: &[u8],
    fresh: bool,
    save: Option<&[u8]>,
    wall: u64,
    windows: bool,
) -> Result<Option<Machine>, Found> {
    let mut numbers = [0xEEEE_EEEE; 12];
    let verdict = sys::header(image, &mut numbers);
    let said = original::mount(files, image, fresh, save, wall);
    tally.verdicts[verdict as usize] += 1;
    tally.lengths(image.len());
    let mut original = match (said, verdict) {
        (Mounted::Taken(original), 0) => original,
        (Mounted::Refused(number), _) if number == verdict => return Ok(None),
        (Mounted::Stopped(_), 11) => {
            tally.listed(Rule::BeyondStops);
            return Ok(None);
        }
        (Mounted::Taken(original), 11) if matches!(original.ty, 1..=3) && image.len() > 0x200000 => {
            tally.listed(Rule::BeyondTaken);
            return Ok(None);
        }
        (_, 1) if image.len() > 0x800000 => {
            tally.listed(Rule::TooLong);
            return Ok(None);
        }
        (Mounted::Taken(_), n) => return found(format!("mounting: the original takes it, the library {}", n)),
        (Mounted::Refused(m), n) => return found(format!("mounting: the original {}, the library {}", m, n)),
        (Mounted::Stopped(why), n) => return found(format!("mounting: the original stops ({}), the library {}", why, n)),
    };

    // What the header says.
    let facts = match Facts::of(image) {
        Ok(facts) => facts,
        Err(why) => return found(format!("mounting: the header is taken and then refused with {}", why.number())),
    };
    let fields = original.fields();
    let title = &image[numbers[8] as usize..][..numbers[9] as usize];
    let kind = kind_of(original.ty, fields.multicart);
    if numbers[0] as usize != kind || fields.timer != facts.timer {
        return found(format!("mounting: the original has kind {}, the library {}", kind, numbers[0]));
    }
    if facts.rom_banks as u64 != fields.rom_banks as u64 {
        return found(format!("mounting: the original has {} banks, the library {}", fields.rom_banks, facts.rom_banks));
    }
    if title != original.title().as_bytes() || facts.colour != original.colour() {
        return found(format!("mounting: the original's title is {:?}, the library's {}", original.title(), hex(title)));
    }

    let mut ours = Ours { state: [0xEE; 64], ram: vec![0xEE; numbers[3] as usize], windows: None };
    let answer = sys::mount(&mut ours.state, image, &mut ours.ram, wall);
    if answer != 0 {
        return found(format!("mounting: the original takes it, the library {}", answer));
    }
    if windows {
        let mut windows = [0; 6];
        sys::windows(&ours.state, &mut windows);
        ours.windows = Some(windows);
    }
    let timer = facts.timer.then(|| Timer::new(wall));
    let mut machine = Machine { ours, original, kind, timer, each: false, seen: None };
    let goes_on = match save {
        Some(save) if facts.battery => machine.load(tally, save, wall, numbers[2] as usize)?,
        _ => true,
    };
    machine.same_ram("after mounting")?;
    Ok(goes_on.then(|| machine))
}

impl Machine {
    // A save that the original has read at mounting. Whether both go on.
    fn load(&mut self, tally: &mut Tally, save: &[u8], wall: u64, ram_size: usize) -> Result<bool, Found> {
        tally.saves_read += 1;
        let mut clock = 2;
        let before = self.ours.state;
        let answer = sys::save_in(&mut self.ours.state, &mut self.ours.ram, save, wall, &mut clock);
        if answer != 0 && (self.ours.state != before || self.ours.ram.iter().any(|b| *b != 0)) {
            return found(format!("a save refused with {} has changed something", answer));
        }
        if let Some(windows) = &mut self.ours.windows {
            sys::windows(&self.ours.state, windows);
        }
        let area = self.ours.ram.len();
        let fields = self.original.fields();
        match (answer, &mut self.timer) {
            (0, None) if save.len() >= area && clock == 0 => Ok(true),
            (0, Some(timer)) if save.len() >= area + 21 && clock == 1 => {
                timer.left |= SAVE;
                timer.stepwise.load(&save[area..], wall);
                tally.timed.catch_up(&save[area..], timer.stepwise.time);
                timer.lazy.load(&save[area..]);
                Ok(true)
            }
            (0, Some(timer)) if save.len() >= area && save.len() < area + 21 && clock == 0 => {
                timer.left |= BLOCK;
                timer.lazy.load(&save[area..]);
                tally.listed(Rule::ShortBlock);
                Ok(true)
            }
            (19, _) if save.len() < area && self.kind == 3 && save.len() >= ram_size => {
                tally.listed(Rule::ShortHalfBytes);
                let mut expected = save.to_vec();
                expected.resize(area, 0);
                self.ours.ram.copy_from_slice(&expected);
                Ok(false)
            }
            (19, _) if save.len() < area => {
                tally.listed(Rule::ShortSave);
                Ok(true)
            }
            (20, Some(_)) if save.len() >= area + 21 => {
                let b = &save[area..];
                let day = u16::from_le_bytes([b[3], b[4]]);
                let r = fields.clock;
                let wide = b[0] > 63 || b[1] > 63 || b[2] > 31 || day > 511;
                if !wide || (r.second, r.minute, r.hour, r.day) != (b[0], b[1], b[2], day) {
                    return found(format!("a save read: the library 20, the original {:?}", r));
                }
                tally.listed(Rule::WideBlock);
                self.ours.ram.copy_from_slice(&save[..area]);
                Ok(false)
            }
            (17, Some(_)) if save.len() >= area + 21 => {
                let offset = u64::from_le_bytes(save[area + 13..area + 21].try_into().unwrap());
                if wall.checked_add(offset).is_some() || fields.time != wall.wrapping_add(offset) {
                    return found(format!("a save read: the library 17, the original's time {}", fields.time));
                }
                tally.listed(Rule::LateOffset);
                self.ours.ram.copy_from_slice(&save[..area]);
                Ok(false)
            }
            _ => {
                found(format!("a save of {} bytes for an area of {}: the library {}, clock {}", save.len(), area, answer, clock))
            }
        }
    }

    pub fn same_ram(&mut self, when: &str) -> Result<(), Found> {
        let ram = self.original.ram();
        if ram != self.ours.ram {
            let place = ram.iter().zip(&self.ours.ram).position(|(a, b)| a != b);
            return match place {
                Some(i) => {
                    let (a, b) = (ram[i], self.ours.ram[i]);
                    found(format!("{}: RAM byte {:X} is {:02X} in the original, {:02X} in the library", when, i, a, b))
                }
                None => found(format!("{}: RAM of {} and {} bytes", when, ram.len(), self.ours.ram.len())),
            };
        }
        Ok(())
    }

    /// One access to both.
    pub fn step(&mut self, tally: &mut Tally, image: &[u8], access: Access) -> Result<(), Found> {
        if let Some(timer) = &mut self.timer {
            timer.left |= timer.leaves(access);
        }
        self.seen = None;
        match access {
            Access::Read(addr) => self.read(tally, image, addr),
            Access::Write(addr, byte) => self.write(tally, addr, byte),
            Access::Clocks(n) => self.clocks(tally, n),
        }
    }

    fn clocks(&mut self, tally: &mut Tally, n: u64) -> Result<(), Found> {
        let late = self.timer.as_ref().map_or(false, |timer| timer.stepwise.is_late(n));
        let answer = sys::advance(&mut self.ours.state, n);
        if answer != if late { 17 } else { 0 } {
            return found(format!("clocks: the library answers {}", answer));
        }
        // Where the time would pass 2^64 - 1 the original is given nothing.
        if late {
            tally.timed.refused[2] += 1;
            return Ok(());
        }
        tally.accesses[self.kind][5] += 1;
        if self.each {
            self.original.clocks_each(n);
        } else {
            self.original.clocks(n);
        }
        if let Some(timer) = &mut self.timer {
            let before = timer.stepwise.clone();
            let seconds = before.completed(n);
            timer.due += seconds;
            if timer.left == 0 {
                tally.inside_seconds += seconds;
            }
            timer.stepwise.clocks(n);
            timer.lazy.clocks(n);
            tally.timed.advance(&before, &timer.stepwise, n, self.each);
        }
        Ok(())
    }

    fn read(&mut self, tally: &mut Tally, image: &[u8], addr: u16) -> Result<(), Found> {
        let ours = self.ours.read(image, addr);
        if addr >= 0x8000 && !in_ram(addr) {
            return self.outside(tally, ours.wrapping_sub(sys::REFUSED));
        }
        let original = self.original.read(addr) as u32;
        self.seen = Some((original, ours));
        tally.accesses[self.kind][(addr >> 14) as usize] += 1;
        if let Some(timer) = &mut self.timer {
            tally.timed.read(timer, addr, self.ours.ram.len());
            if timer.on_clock(addr) {
                let expected = timer.stepwise.read(timer.register) as u32;
                let lazy = timer.lazy.read(timer.register) as u32;
                if !timer.stepwise.latched {
                    timer.due = 0;
                }
                if timer.left != 0 {
                    if ours != expected || original != lazy {
                        return found(format!(
                            "the original {:02X}, expected {:02X}; the library {:02X}, expected {:02X}; outside the domain by {}",
                            original,
                            lazy,
                            ours,
                            expected,
                            rule_of(timer.left).words()
                        ));
                    }
                    tally.outside_reads += 1;
                    if ours != original {
                        tally.listed(rule_of(timer.left));
                    }
                    return Ok(());
                }
                tally.inside_reads += 1;
            }
        }
        if ours != original {
            return found(format!("the original {:02X}, the library {}", original, answer(ours)));
        }
        Ok(())
    }

    fn write(&mut self, tally: &mut Tally, addr: u16, byte: u8) -> Result<(), Found> {
        let answer = self.ours.write(addr, byte);
        if addr >= 0x8000 && !in_ram(addr) {
            return self.outside(tally, answer);
        }
        if answer == 16 {
            if !matches!(self.kind, 4 | 5) || !self.original.write_stops(addr, byte) {
                return found("the library 16, the original takes it".to_string());
            }
            tally.listed(Rule::Selection);
            tally.timed.refused[1] += self.timer.is_some() as u64;
            return Ok(());
        }
        if answer != 0 {
            return found(format!("the library refuses with {}", answer));
        }
        self.original.write(addr, byte);
        if let Some(timer) = &mut self.timer {
            tally.timed.write(timer, addr, byte);
            timer.write(addr, byte);
        }
        tally.accesses[self.kind][if in_ram(addr) { 4 } else { 3 }] += 1;
        Ok(())
    }

    /// What the original answers to an access, for the vectors. The library must answer so too.
    pub fn answer(&mut self, tally: &mut Tally, image: &[u8], access: Access) -> Result<String, Found> {
        self.step(tally, image, access)?;
        Ok(match self.seen {
            Some((original, _)) => format!("{} {:02X}", access, original),
            None => access.to_string(),
        })
    }

    // An address that is no cartridge's: the original is not asked.
    fn outside(&self, tally: &mut Tally, number: u32) -> Result<(), Found> {
        if number != 15 {
            return found(format!("an address outside: the library {}", number));
        }
        tally.listed(Rule::Address);
        tally.timed.refused[0] += self.timer.is_some() as u64;
        Ok(())
    }

    pub fn ram(&self) -> &[u8] {
        &self.ours.ram
    }

    pub fn save(&self, wall: u64) -> Option<Vec<u8>> {
        let mut room = vec![0; self.ours.ram.len() + 21];
        let mut size = 0;
        let answer = sys::save_out(&self.ours.state, &self.ours.ram, &mut room, wall, &mut size);
        room.truncate(size as usize);
        (answer == 0).then(|| room)
    }
}

fn answer(answer: u32) -> String {
    match answer {
        0..=0xFF => format!("{:02X}", answer),
        _ => format!("refuses with {}", answer.wrapping_sub(sys::REFUSED)),
    }
}
