//! States made here and not by the library: the 64 bytes of any fit cartridge, and which bytes are fit, both by the rules' words.
use super::Draw;
use imfelkuz::State;

pub const RAM_SIZES: [u64; 6] = [0, 0x800, 0x2000, 0x8000, 0x20000, 0x10000];

/// The most ROM banks of each kind: no mapper, MBC1, multicart, MBC2, MBC3, MBC3 with a timer, MBC5.
pub const MOST: [u16; 7] = [2, 128, 64, 16, 256, 256, 512];

/// A type byte with RAM of each kind.
pub const TYPES: [u8; 7] = [0x09, 0x03, 0x03, 0x06, 0x13, 0x10, 0x1E];

pub fn number(state: &State, at: usize, width: usize) -> u64 {
    (0..width).rev().fold(0, |n, i| n * 256 + u64::from(state[at + i]))
}

pub fn put(state: &mut State, at: usize, width: usize, n: u64) {
    state[at..at + width].copy_from_slice(&n.to_le_bytes()[..width]);
}

fn clock_registers_fit(state: &State, at: usize) -> bool {
    state[at] <= 63 && state[at + 1] <= 63 && state[at + 2] <= 31 && number(state, at + 3, 2) <= 511
}

/// "Unfit means ..", the rules' list, with the flags that are 0 or 1 and the kinds that there are.
pub fn fit(state: &State) -> bool {
    let kind = state[0] as usize;
    if kind > 6 {
        return false;
    }
    let flags: &[usize] = match kind {
        0 => &[1],
        3 | 6 => &[1, 2],
        5 => &[1, 2, 3, 44, 50, 51, 57, 58],
        _ => &[1, 2, 3],
    };
    let banks = number(state, 8, 2);
    let length = number(state, 16, 8);
    let size = number(state, 24, 8);
    let padded = (u128::from(length.max(0x8000)) + 0x3FFF) / 0x4000 * 0x4000;
    let board = banks.is_power_of_two()
        && banks >= 2
        && banks <= u64::from(MOST[kind])
        && (kind != 2 || banks == 64)
        && padded == u128::from(banks) * 0x4000
        && RAM_SIZES.contains(&size)
        && (kind != 0 || size <= 0x2000);
    // MBC1, MBC2 and MBC3 have a ROM bank of one byte.
    let (byte, bank, ram) = (state[4], number(state, 4, 2), state[6]);
    let registers = match kind {
        0 => true,
        1 => (1..=31).contains(&byte) && ram <= 3,
        2 => byte <= 15 && ram <= 3,
        3 => (1..=15).contains(&byte),
        4 => byte >= 1 && ram <= 3,
        5 => {
            let clock = number(state, 40, 4) <= 2_097_151 && clock_registers_fit(state, 45) && clock_registers_fit(state, 52);
            byte >= 1 && ram <= 3 && state[7] <= 4 && clock
        }
        _ => bank <= 511 && ram <= 15,
    };
    flags.iter().all(|at| state[*at] <= 1) && board && registers
}

/// What goes with a state.
#[derive(Clone, Copy, Debug)]
pub struct Shape {
    pub kind: u8,
    pub banks: u16,
    pub length: usize,
    pub size: usize,
    pub area: usize,
}

/// A shape that can be mounted: any kind, any bank count up to `most`, any RAM, an image that may end anywhere in its last bank.
pub fn shape(draw: &mut Draw, most: u16) -> Shape {
    let kind = draw.below(7) as u8;
    let banks = match kind {
        2 => 64,
        k => 2 << draw.below(u64::from(MOST[k as usize].min(most).trailing_zeros())),
    };
    let shortest = if banks == 2 { 0x150 } else { (banks as usize - 1) * 0x4000 + 1 };
    let whole = banks as usize * 0x4000;
    let length = match draw.below(3) {
        0 => whole,
        1 => shortest,
        _ => shortest + draw.below((whole - shortest) as u64) as usize,
    };
    let sizes = if kind == 0 { &RAM_SIZES[..3] } else { &RAM_SIZES[..] };
    let size = draw.of(sizes) as usize;
    Shape { kind, banks, length, size, area: size + if kind == 3 { 512 } else { 0 } }
}

/// The bytes that a kind does not use.
fn unused(kind: u8) -> Vec<usize> {
    let registers: &[usize] = match kind {
        0 => &[2, 3, 4, 5, 6],
        3 => &[3, 5, 6],
        6 => &[3],
        _ => &[5],
    };
    let clock = if kind == 5 { 0..0 } else { 32..59 };
    let selection = if kind == 5 { None } else { Some(7) };
    registers.iter().copied().chain(selection).chain(clock).chain(10..16).chain(59..64).collect()
}

/// The same state as the library writes it: zero in what is not used.
pub fn canonical(mut state: State) -> State {
    for at in unused(state[0]) {
        state[at] = 0;
    }
    state
}

/// A fit state of this shape, with registers and a clock that are drawn, and what the kind does not use drawn too.
pub fn state(draw: &mut Draw, shape: &Shape) -> State {
    let mut s = [0; 64];
    draw.fill(&mut s);
    s[0] = shape.kind;
    for at in [1, 2, 3, 44, 50, 51, 57, 58] {
        s[at] = draw.below(2) as u8;
    }
    s[2] = !draw.one_in(4) as u8; // RAM is mostly enabled.
    put(&mut s, 8, 2, shape.banks.into());
    put(&mut s, 16, 8, shape.length as u64);
    put(&mut s, 24, 8, shape.size as u64);
    let (bank, ram) = match shape.kind {
        0 => (0, 0),
        1 => (1 + draw.below(31), draw.below(4)),
        2 => (draw.below(16), draw.below(4)),
        3 => (1 + draw.below(15), 0),
        4 | 5 => (1 + draw.below(255), draw.below(4)),
        _ => (draw.below(512), draw.below(16)),
    };
    put(&mut s, 4, 2, bank);
    s[6] = ram as u8;
    s[7] = draw.below(5) as u8;
    // A time that can pass many years.
    let time = draw.below(1 << 40);
    put(&mut s, 32, 8, time);
    put(&mut s, 40, 4, draw.below(2_097_152));
    for at in [45, 52] {
        s[at] = draw.below(64) as u8;
        s[at + 1] = draw.below(64) as u8;
        s[at + 2] = draw.below(32) as u8;
        put(&mut s, at + 3, 2, draw.below(512));
    }
    s
}
