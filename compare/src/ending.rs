//! The end of a sequence: all that is left is compared, the RAM area, the registers, and the save that each writes.
use crate::clocks::Lazy;
use crate::domain::{rule_of, BLOCK, UNREAD};
use crate::machine::{found, Found, Machine};
use crate::original::Files;
use crate::recipe::hex;
use crate::tally::Tally;
use imfelkuz::sys;

impl Machine {
    /// Compares all that is left: the RAM area, the registers, and the save that each writes at a wall time.
    pub fn end(mut self, files: &Files, tally: &mut Tally, wall: u64) -> Result<(), Found> {
        tally.sequences += 1;
        self.same_ram("at the end")?;
        tally.ram_bytes += self.ours.ram.len() as u64;
        if self.timer.is_some() {
            tally.timed.ram_compared += self.ours.ram.len() as u64;
        }
        let fields = self.original.fields();
        let s = &self.ours.state;
        let register = if self.timer.is_some() { fields.register } else { 0 };
        let theirs = (fields.enabled, fields.mode, fields.bank, fields.ram_bank, register);
        let ours = (s[2] == 1, s[3] == 1, u16::from_le_bytes([s[4], s[5]]), s[6], s[7]);
        if theirs != ours {
            return found(format!("registers at the end: the original {:X?}, the library {:X?}", theirs, ours));
        }
        let left = match &self.timer {
            None => 0,
            Some(timer) => timer.left | if timer.due > 0 { UNREAD } else { 0 },
        };
        if let Some(timer) = &self.timer {
            let time = (self.ours.long(40) & 0xFFFF_FFFF, self.ours.long(32), self.ours.state[44] == 1);
            let ours = (self.ours.registers(45), time);
            let theirs = (fields.clock, (fields.sub as u64, fields.time, fields.latched));
            if left == 0 && ours != theirs {
                return found(format!("the clock at the end: the original {:?}, the library {:?}", theirs, ours));
            }
            if left != 0 {
                let (step, lazy) = (&timer.stepwise, &timer.lazy);
                let expected = (step.running, (step.sub, step.time, step.latched));
                let known = Lazy {
                    registers: fields.clock,
                    latched: fields.latched,
                    sub: fields.sub as u64,
                    last: fields.last,
                    time: fields.time,
                };
                if ours != expected || self.ours.registers(52) != step.frozen || known != *lazy {
                    return found(format!(
                        "the clock at the end: the original {:?}, expected {:?}; the library {:?}, expected {:?}",
                        known, lazy, ours, expected
                    ));
                }
                if ours != theirs {
                    tally.listed(rule_of(left));
                }
            }
        }
        self.saves(files, tally, wall, left)
    }

    fn saves(mut self, files: &Files, tally: &mut Tally, wall: u64, left: u8) -> Result<(), Found> {
        let mut room = vec![0xEE; self.ours.ram.len() + 32];
        let mut size = 0;
        let answer = sys::save_out(&self.ours.state, &self.ours.ram, &mut room, wall, &mut size);
        let theirs = match self.original.end(files, wall) {
            Ok(theirs) => theirs,
            Err(why) => return found(format!("saving: the original stops ({})", why)),
        };
        let theirs = match (answer, theirs) {
            (18, None) => return Ok(()),
            (0, Some(theirs)) => theirs,
            (answer, theirs) => {
                return found(format!("saving: the library {}, the original {:?}", answer, theirs.map(|s| s.len())))
            }
        };
        tally.saves_written += 1;
        room.truncate(size as usize);
        // A part of a block gave the original an offset that the library did not take.
        if self.timer.is_some() && left & BLOCK == 0 {
            let offset = same_offset(&theirs, &room, self.ours.ram.len())?;
            tally.timed.saves += 1;
            tally.timed.offsets += (offset > 0) as u64;
        }
        if left == 0 {
            if room != theirs {
                let area = self.ours.ram.len();
                let tail = |save: &[u8]| hex(&save[area.min(save.len())..]);
                return found(format!(
                    "saves of {} and {} bytes: .. {} and .. {}",
                    theirs.len(),
                    size,
                    tail(&theirs),
                    tail(&room)
                ));
            }
            return Ok(());
        }
        let timer = self.timer.as_ref().unwrap();
        let with = |block: Vec<u8>| [&self.ours.ram[..], &block].concat();
        if room != with(timer.stepwise.save(wall)) || theirs != with(timer.lazy.save(wall)) {
            return found("saves: not as expected".to_string());
        }
        if room != theirs {
            tally.listed(rule_of(left));
            tally.saves_apart = Some((hex(&theirs[theirs.len() - 21..]), hex(&room[room.len() - 21..])));
        }
        Ok(())
    }
}

// Whatever the clock did, a timer's saves begin with the same RAM and end with the same offset, which is given.
fn same_offset(theirs: &[u8], ours: &[u8], area: usize) -> Result<u64, Found> {
    if theirs.len() != area + 21 || ours.len() != area + 21 {
        return found(format!("saves of {} and {} bytes for an area of {}", theirs.len(), ours.len(), area));
    }
    if let Some(i) = (0..area).find(|i| theirs[*i] != ours[*i]) {
        return found(format!(
            "saves: RAM byte {:X} is {:02X} in the original's, {:02X} in the library's",
            i, theirs[i], ours[i]
        ));
    }
    let offset = |save: &[u8]| u64::from_le_bytes(save[area + 13..].try_into().unwrap());
    if offset(theirs) != offset(ours) {
        return found(format!("saves: the offset is {} in the original's, {} in the library's", offset(theirs), offset(ours)));
    }
    Ok(offset(ours))
}
