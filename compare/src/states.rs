//! Every state of the clock's registers, one second on in both: 64 seconds, 64 minutes, 32 hours, 512 days, carry or none, halted or not.
use crate::clocks::Registers;
use imfelkuz::sys::{self, State};
use std::fmt::Write;

// The original's private fields: with the timer, enabled, register 0 selected, the last clock of a second before it, at time 1000.
fn of_original() -> [u8; 39] {
    let mut fields = [0; 39];
    fields[0] = 2;
    fields[4] = 1;
    fields[5] = 1;
    fields[9..13].copy_from_slice(&2_097_151u32.to_le_bytes());
    fields[20..28].copy_from_slice(&1000u64.to_le_bytes());
    fields[29..37].copy_from_slice(&1000u64.to_le_bytes());
    fields[37] = 1;
    fields
}

// The same in the library's 64 bytes.
fn of_library() -> State {
    let mut state = [0; 64];
    state[0] = 5;
    state[1] = 1;
    state[2] = 1;
    state[4] = 1;
    state[8] = 2;
    state[16..24].copy_from_slice(&0x8000u64.to_le_bytes());
    state[32..40].copy_from_slice(&1000u64.to_le_bytes());
    state[40..44].copy_from_slice(&2_097_151u32.to_le_bytes());
    state
}

#[inline]
fn put(bytes: &mut [u8], r: &Registers) {
    bytes[0] = r.second;
    bytes[1] = r.minute;
    bytes[2] = r.hour;
    bytes[3] = r.day as u8;
    bytes[4] = (r.day >> 8) as u8;
    bytes[5] = r.halt as u8;
    bytes[6] = r.carry as u8;
}

#[inline]
fn get(bytes: &[u8]) -> Registers {
    let day = u16::from_le_bytes([bytes[3], bytes[4]]);
    Registers { second: bytes[0], minute: bytes[1], hour: bytes[2], day, halt: bytes[5] != 0, carry: bytes[6] != 0 }
}

// What the rules on the list make of the library's answer: "carry", a carry from before is gone; "sixty", minute 60 and hour 24 step though
// nothing carried into them.
fn as_listed(before: &Registers, ours: &Registers) -> (Registers, bool, bool) {
    if before.halt {
        return (*ours, false, false);
    }
    let mut r = *ours;
    let (mut sixty, mut wrapped) = (false, before.day == 511 && ours.day == 0);
    if r.minute == 60 {
        r.minute = 0;
        r.hour = (r.hour + 1) & 0x1F;
        sixty = true;
    }
    if r.hour == 24 {
        r.hour = 0;
        r.day += 1;
        sixty = true;
        if r.day == 512 {
            r.day = 0;
            wrapped = true;
        }
    }
    r.carry = wrapped;
    (r, r.carry != (ours.carry || wrapped), sixty)
}

// The state of a number: six bits of second, six of minute, five of hour, nine of day, carry, halt.
fn state_of(n: u32) -> Registers {
    Registers {
        second: n as u8 & 63,
        minute: (n >> 6) as u8 & 63,
        hour: (n >> 12) as u8 & 31,
        day: (n >> 17) as u16 & 511,
        carry: n >> 26 & 1 == 1,
        halt: n >> 27 & 1 == 1,
    }
}

struct Both {
    mapper: Box<dyn mizu::Mapper>,
    fields: [u8; 39],
    start: State,
}

impl Both {
    // One second on: what the original and the library then have.
    fn step(&mut self, before: &Registers) -> Result<(Registers, Registers), String> {
        put(&mut self.fields[13..20], before);
        self.mapper.load_state(&self.fields).unwrap();
        self.mapper.clock();
        let _ = self.mapper.map_ram_read(0xA000);
        let after = self.mapper.save_state().unwrap();

        put(&mut self.start[45..52], before);
        let mut state = self.start;
        let answer = sys::advance(&mut state, 1);

        // Sub-second and time are always the same.
        let time = if before.halt { 1000u64 } else { 1001 };
        if answer != 0 || after[9..13] != state[40..44] || after[29..37] != state[32..40] || state[32..40] != time.to_le_bytes() {
            return Err(format!("{:?}: answer {}, {:?}, {:?}\n", before, answer, after, state));
        }
        Ok((get(&after[13..20]), get(&state[45..52])))
    }
}

pub fn all(say: &mut dyn FnMut(&str)) -> Result<String, String> {
    let mut both = Both { mapper: mizu::timer(), fields: of_original(), start: of_library() };
    // The same; carry; sixty; both.
    let mut counts = [0u64; 4];
    let mut first: [Option<(Registers, Registers, Registers)>; 4] = [None; 4];
    for n in 0..1 << 28 {
        let before = state_of(n);
        let (theirs, ours) = both.step(&before)?;
        // The library by the rules' own step.
        let mut expected = before;
        if !before.halt {
            expected.step();
        }
        if ours != expected {
            return Err(format!("{:?}: the library {:?}, by the rules {:?}\n", before, ours, expected));
        }
        let mut at = 0;
        if ours != theirs {
            let (listed, by_carry, by_sixty) = as_listed(&before, &ours);
            at = by_carry as usize | (by_sixty as usize) << 1;
            if listed != theirs || at == 0 {
                return Err(format!("{:?}: the original {:?}, the library {:?}: on no list\n", before, theirs, ours));
            }
        }
        counts[at] += 1;
        if first[at].is_none() {
            first[at] = Some((before, theirs, ours));
        }
        if n % (1 << 24) == (1 << 24) - 1 {
            say(&format!("{} states: {:?}", n + 1, counts));
        }
    }
    let mut out = String::new();
    let names = ["the same", "carry", "sixty", "carry and sixty"];
    writeln!(out, "{} states of the clock's registers, one second on; the first half is not halted", counts.iter().sum::<u64>())
        .unwrap();
    for i in 0..4 {
        writeln!(out, "  {:<16} {:>12}", names[i], counts[i]).unwrap();
        if let (Some((before, theirs, ours)), true) = (first[i], i > 0) {
            writeln!(out, "    first {:?}\n    original {:?}\n    library {:?}", before, theirs, ours).unwrap();
        }
    }
    Ok(out)
}
