//! Two clocks in plain words, for what lies outside the domain in which the original is the oracle: the one that steps second by second,
//! as the rules have it (Clock 1 to 12), and the one that adds when it is read, as docs/DIFFERENCES.md says of the original. There a
//! difference counts as listed only where the library answers as the first and the original as the second.

pub const SECOND: u64 = 2_097_152;

/// Seconds of a day.
pub const DAY: u64 = 86_400;

#[derive(Clone, Copy, Debug, Default, PartialEq)]
pub struct Registers {
    pub second: u8,
    pub minute: u8,
    pub hour: u8,
    pub day: u16,
    pub halt: bool,
    pub carry: bool,
}

impl Registers {
    pub fn get(&self, register: u8) -> u8 {
        match register {
            0 => self.second,
            1 => self.minute,
            2 => self.hour,
            3 => self.day as u8,
            _ => (self.carry as u8) << 7 | (self.halt as u8) << 6 | (self.day >> 8 & 1) as u8,
        }
    }

    fn put(&mut self, register: u8, byte: u8) {
        match register {
            0 => self.second = byte & 0x3F,
            1 => self.minute = byte & 0x3F,
            2 => self.hour = byte & 0x1F,
            3 => self.day = self.day & 0x100 | byte as u16,
            _ => {
                self.day = self.day & 0xFF | (byte as u16 & 1) << 8;
                self.halt = byte & 0x40 != 0;
                self.carry = byte & 0x80 != 0;
            }
        }
    }

    /// One second.
    pub fn step(&mut self) {
        self.second = (self.second + 1) & 0x3F;
        if self.second != 60 {
            return;
        }
        self.second = 0;
        self.minute = (self.minute + 1) & 0x3F;
        if self.minute != 60 {
            return;
        }
        self.minute = 0;
        self.hour = (self.hour + 1) & 0x1F;
        if self.hour != 24 {
            return;
        }
        self.hour = 0;
        self.next_day();
    }

    fn next_day(&mut self) {
        self.day += 1;
        if self.day == 512 {
            self.day = 0;
            self.carry = true;
        }
    }

    /// So many seconds. Where second and minute are below 60 and the hour is below 24, a day brings the same time of the next day: so
    /// whole days are taken at once there, and months are affordable.
    pub fn steps(&mut self, mut seconds: u64) {
        while seconds > 0 {
            if seconds >= DAY && self.second < 60 && self.minute < 60 && self.hour < 24 {
                self.next_day();
                seconds -= DAY;
            } else {
                self.step();
                seconds -= 1;
            }
        }
    }

    /// The original's one addition of all the seconds that have passed.
    pub fn add(&mut self, seconds: u64) {
        let second = self.second.wrapping_add((seconds % 60) as u8) & 0x3F;
        let more = (second == 60) as u8;
        self.second = if more == 1 { 0 } else { second };
        let minute = self.minute.wrapping_add((seconds / 60 % 60) as u8 + more) & 0x3F;
        let more = (minute == 60) as u8;
        self.minute = if more == 1 { 0 } else { minute };
        let hour = self.hour.wrapping_add((seconds / 3600 % 24) as u8 + more) & 0x1F;
        let more = (hour == 24) as u64;
        self.hour = if more == 1 { 0 } else { hour };
        let days = (self.day as u64).wrapping_add(seconds / 86400 + more) as u16;
        self.carry = days > 511;
        self.day = days & 511;
    }
}

/// What a save's 21 bytes say; missing ones are zero.
fn block(bytes: &[u8]) -> (Registers, u64, u64) {
    let mut all = [0; 21];
    let n = bytes.len().min(21);
    all[..n].copy_from_slice(&bytes[..n]);
    let day = u16::from_le_bytes([all[3], all[4]]);
    let registers = Registers { second: all[0], minute: all[1], hour: all[2], day, halt: false, carry: false };
    let long = |at: usize| u64::from_le_bytes(all[at..at + 8].try_into().unwrap());
    (registers, long(5), long(13))
}

fn write_block(registers: &Registers, time: u64, now: u64, wall: u64) -> Vec<u8> {
    let mut bytes = vec![registers.second, registers.minute, registers.hour];
    bytes.extend_from_slice(&registers.day.to_le_bytes());
    bytes.extend_from_slice(&time.to_le_bytes());
    bytes.extend_from_slice(&now.saturating_sub(wall).to_le_bytes());
    bytes
}

/// The clock of the rules: Clock 1 to 12.
#[derive(Clone, Debug)]
pub struct Stepwise {
    pub running: Registers,
    pub frozen: Registers,
    pub latched: bool,
    pub sub: u64,
    pub time: u64,
}

impl Stepwise {
    pub fn new(wall: u64) -> Stepwise {
        Stepwise { running: Registers::default(), frozen: Registers::default(), latched: false, sub: 0, time: wall }
    }

    pub fn read(&self, register: u8) -> u8 {
        if self.latched { &self.frozen } else { &self.running }.get(register)
    }

    pub fn write(&mut self, register: u8, byte: u8) {
        self.running.put(register, byte);
        if self.latched {
            self.frozen.put(register, byte);
        }
        if register == 0 {
            self.sub = 0;
        }
    }

    pub fn latch(&mut self, on: bool) {
        if on && !self.latched {
            self.frozen = self.running;
        }
        self.latched = on;
    }

    /// The seconds that so many clocks complete.
    pub fn completed(&self, clocks: u64) -> u64 {
        if self.running.halt {
            0
        } else {
            (self.sub + clocks) / SECOND
        }
    }

    /// Whether its time would pass 2^64 - 1: number 17.
    pub fn is_late(&self, clocks: u64) -> bool {
        self.time.checked_add(self.completed(clocks)).is_none()
    }

    pub fn clocks(&mut self, clocks: u64) {
        if self.running.halt {
            return;
        }
        let seconds = self.completed(clocks);
        self.sub = (self.sub + clocks) % SECOND;
        self.time += seconds;
        self.running.steps(seconds);
    }

    pub fn load(&mut self, bytes: &[u8], wall: u64) {
        let (registers, stored, offset) = block(bytes);
        *self = Stepwise { running: registers, ..Stepwise::new(wall + offset) };
        self.running.steps(self.time.saturating_sub(stored));
    }

    pub fn save(&self, wall: u64) -> Vec<u8> {
        write_block(&self.running, self.time, self.time, wall)
    }
}

/// The clock of the original.
#[derive(Clone, Debug, PartialEq)]
pub struct Lazy {
    pub registers: Registers,
    pub latched: bool,
    pub sub: u64,
    /// The time as of which the registers stand.
    pub last: u64,
    pub time: u64,
}

impl Lazy {
    pub fn new(wall: u64) -> Lazy {
        Lazy { registers: Registers::default(), latched: false, sub: 0, last: wall, time: wall }
    }

    fn update(&mut self) {
        if self.registers.halt {
            return;
        }
        match self.time.checked_sub(self.last) {
            Some(0) => {}
            Some(seconds) => {
                self.registers.add(seconds);
                self.last = self.time;
            }
            None => self.last = self.time,
        }
    }

    pub fn read(&mut self, register: u8) -> u8 {
        if !self.latched {
            self.update();
        }
        self.registers.get(register)
    }

    pub fn write(&mut self, register: u8, byte: u8) {
        let halted = self.registers.halt;
        self.registers.put(register, byte);
        if register == 0 {
            self.sub = 0;
        }
        if halted && !self.registers.halt {
            self.last = self.time;
        }
    }

    pub fn latch(&mut self, on: bool) {
        self.latched = on;
        if !on {
            self.update();
        }
    }

    pub fn clocks(&mut self, clocks: u64) {
        if !self.registers.halt {
            self.time += (self.sub + clocks) / SECOND;
            self.sub = (self.sub + clocks) % SECOND;
        }
    }

    pub fn load(&mut self, bytes: &[u8]) {
        let (registers, last, offset) = block(bytes);
        self.registers = registers;
        self.last = last;
        self.time = self.time.wrapping_add(offset);
    }

    pub fn save(&self, wall: u64) -> Vec<u8> {
        write_block(&self.registers, self.last, self.time, wall)
    }
}
