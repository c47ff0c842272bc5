//! Which images: every type, every code and length, every header byte changed to every value, multicarts and what is nearly one, short
//! images; then drawn ones.
use crate::draw::Draw;
use crate::recipe::{Image, Save, PLACES, RAM_SIZES};

pub const TYPES: [u8; 24] =
    [0, 1, 2, 3, 5, 6, 8, 9, 0x0B, 0x0C, 0x0D, 0x0F, 0x10, 0x11, 0x12, 0x13, 0x19, 0x1A, 0x1B, 0x1C, 0x1D, 0x1E, 0x20, 0x22];
const DRAWN: [u8; 30] = [
    0, 8, 9, 1, 2, 3, 1, 2, 3, 5, 6, 6, 0x0F, 0x10, 0x0F, 0x10, 0x0F, 0x10, 0x11, 0x12, 0x13, 0x13, 0x19, 0x1A, 0x1B, 0x1C, 0x1D,
    0x1E, 0x1B, 0x1E,
];

fn has_ram(ty: u8) -> bool {
    !matches!(ty, 0 | 1 | 5 | 0x0B | 0x0F | 0x11 | 0x19 | 0x1C)
}

// The largest length of a mapper: 0x8000 shifted by so much.
fn largest_shift(ty: u8) -> u32 {
    match ty {
        0 | 8 | 9 => 0,
        1..=3 => 6,
        5 | 6 => 3,
        0x0F..=0x13 => 7,
        _ => 8,
    }
}

fn ram_code(draw: &mut Draw, ty: u8) -> u8 {
    match ty {
        _ if !has_ram(ty) => 0,
        8 | 9 => draw.below(3) as u8,
        _ => draw.of(&[0, 1, 2, 2, 3, 3, 4, 5]),
    }
}

fn plain(draw: &mut Draw, len: usize, ty: u8, rom: u8, ram: u8) -> Image {
    let mut title = [0; 16];
    title[..8].copy_from_slice(b"IMFELKUZ");
    title[15] = draw.byte();
    Image {
        len,
        from: draw.below(PLACES as u32) as usize,
        logos: 1,
        title,
        codes: [ty, rom, ram],
        mended: true,
        changes: Vec::new(),
    }
}

/// The images that are not drawn, and how many accesses each gets where it is taken.
pub fn sweep(draw: &mut Draw) -> Vec<(Image, u32)> {
    let mut all = Vec::new();
    // Every type byte with every RAM code.
    for ty in 0..=255 {
        for ram in 0..=6 {
            all.push((plain(draw, 0x8000, ty, 0, ram), 60));
        }
    }
    // Every known type and ROM code with every length that is a power of two, equal, mendable and not.
    for ty in TYPES {
        for rom in 0..=9 {
            for shift in 0..=8 {
                let ram = ram_code(draw, ty);
                all.push((plain(draw, 0x8000 << shift, ty, rom, ram), 100));
            }
        }
    }
    // Lengths beside them.
    for shift in 0..=8usize {
        for rom in [shift, shift.saturating_sub(1), 0, 8] {
            let len = 0x8000 << shift;
            for len in [len - 0x4000, len - 0x3FFF, len - 1, len + 1, len + 0x4000, (len / 2 * 3).min(0x880000)] {
                let ty = draw.of(&DRAWN);
                let ram = ram_code(draw, ty);
                all.push((plain(draw, len, ty, rom as u8, ram), 100));
            }
        }
    }
    // Multicarts, and what is nearly one.
    for ty in 1..=3 {
        for len in [0xFBFFF, 0xFC000, 0xFC001, 0xFFFFF, 0x100000, 0x100001, 0x104000, 0x80000, 0x200000] {
            for logos in [1, 3, 5, 7, 9, 0xB, 0xD, 0xF, 0xE] {
                let ram = ram_code(draw, ty);
                let mut image = plain(draw, len, ty, if len == 0x80000 { 4 } else { 5 }, ram);
                image.logos = logos;
                all.push((image, 600));
            }
        }
    }
    for quarter in 0..4 {
        for at in 0..48 {
            let mut image = plain(draw, 0x100000, 1, 5, 0);
            image.logos = 0xF;
            image.changes.push((quarter * 0x40000 + 0x104 + at, 0x55));
            all.push((image, 40));
        }
    }
    // Every byte of the header changed to every value, with the checksum mended and not.
    for at in 0x100..0x150 {
        let ty = draw.of(&DRAWN);
        let ram = ram_code(draw, ty);
        for byte in 0..=255 {
            for mended in [false, true] {
                let mut image = plain(draw, 0x8000, ty, 0, ram);
                image.mended = mended;
                image.changes.push((at, byte));
                all.push((image, 8));
            }
        }
    }
    // Short images, the shortest that is taken among them.
    for len in 0..0x200 {
        let mut image = plain(draw, len, 0, 0, 0);
        image.title = *b"ts\0\0\0\0\0\0\0\0\0\0\0\0\0\0";
        all.push((image, 60));
    }
    // Too long.
    for len in [0x800001, 0x804000, 0x880000] {
        for logos in [0, 1] {
            let mut image = plain(draw, len, 0x19, 8, 0);
            image.logos = logos;
            all.push((image, 0));
        }
    }
    all
}

/// An image of each mapper with as many banks and as much RAM as it can have, two multicarts and what is nearly one, and the last
/// quotients that are mended and not.
pub fn largest_of_each(draw: &mut Draw) -> Vec<Image> {
    let largest = [(9, 2), (3, 3), (6, 4), (0x13, 3), (0x10, 3), (0x1E, 4)];
    let mut all: Vec<Image> =
        largest.iter().map(|(ty, ram)| plain(draw, 0x8000 << largest_shift(*ty), *ty, largest_shift(*ty) as u8, *ram)).collect();
    for ty in [1, 2] {
        let ram = ram_code(draw, ty);
        all.push(Image { logos: 0xF, ..plain(draw, 0x100000, ty, 5, ram) });
    }
    all.push(Image { logos: 7, ..plain(draw, 0x100000, 1, 5, 0) });
    all.push(plain(draw, 0x400000, 0x19, 0, 0));
    all.push(plain(draw, 0x800000, 0x19, 0, 0));
    all
}

fn title(draw: &mut Draw) -> [u8; 16] {
    let mut title = [0; 16];
    let n = draw.below(17) as usize;
    match draw.below(24) {
        // Any bytes at all.
        0 => title.iter_mut().for_each(|b| *b = draw.byte()),
        // Letters of one to four bytes, which the end may cut.
        1..=6 => {
            let mut at = 0;
            while at < n {
                let letter = draw
                    .of(&["A", "z", "é", "Я", "ゲ", "ー", "\u{FFFD}", "𝄞", "\u{7F}", "\u{80}", "\u{7FF}", "\u{800}"])
                    .as_bytes();
                for byte in letter.iter().take(16 - at) {
                    title[at] = *byte;
                    at += 1;
                }
            }
            // And sometimes one byte of it is another.
            if draw.one_in(4) {
                title[draw.below(16) as usize] =
                    draw.of(&[0x80, 0xBF, 0xC0, 0xC1, 0xE0, 0xED, 0xF0, 0xF4, 0xF5, 0xFF, 0xA0, 0x9F, 0x90]);
            }
        }
        _ => title.iter_mut().take(n).for_each(|b| *b = 0x20 + draw.below(0x5F) as u8),
    }
    title[15] = draw.byte();
    title
}

pub fn drawn(draw: &mut Draw) -> Image {
    let ty = match draw.below(100) {
        0 | 1 => draw.byte(),
        2..=4 => draw.of(&TYPES),
        _ => draw.of(&DRAWN),
    };
    let most = largest_shift(ty);
    let shift = match draw.below(100) {
        0..=84 => draw.below(most.min(3) + 1),
        85..=97 => draw.below(most + 1),
        _ => draw.below(9),
    };
    // Only 1 MiB can be a multicart.
    let shift = if matches!(ty, 1..=3) && draw.one_in(8) { 5 } else { shift };
    let whole = 0x8000usize << shift;
    let len = match draw.below(100) {
        0..=69 => whole,
        70..=89 => whole - draw.below(0x4000) as usize,
        90..=93 => whole + draw.below(0x8000) as usize,
        94..=96 => draw.below(0x8000) as usize,
        _ => whole / 2 + draw.below(whole as u32) as usize,
    };
    let rom = match draw.below(100) {
        0..=74 => shift as u8,
        75..=94 => shift.saturating_sub(draw.below(9)) as u8,
        _ => draw.below(11) as u8,
    };
    let ram = match draw.below(50) {
        0 => draw.byte(),
        1 => draw.below(6) as u8,
        _ => ram_code(draw, ty),
    };
    let mut image = plain(draw, len.min(0x800000), ty, rom, ram);
    image.title = title(draw);
    if matches!(ty, 1..=3) && shift == 5 && !draw.one_in(3) {
        image.logos = if draw.one_in(4) { draw.byte() & 0xF | 1 } else { 0xF };
    }
    if draw.one_in(25) {
        image.changes.push((0x104 + draw.below(0x4C) as usize, draw.byte()));
        image.mended = draw.one_in(2);
    }
    image
}

/// A board with a timer: RAM of every size or none, 2 to 256 banks, sometimes shorter than its last bank.
pub fn with_timer(draw: &mut Draw) -> Image {
    let ty = draw.of(&[0x0F, 0x10, 0x10, 0x10]);
    let ram = if has_ram(ty) { draw.below(6) as u8 } else { 0 };
    let shift = match draw.below(64) {
        0 => 7,
        1..=5 => draw.below(8),
        _ => draw.below(4),
    };
    let short = if draw.one_in(8) { draw.below(0x4000) as usize } else { 0 };
    plain(draw, (0x8000 << shift) - short, ty, shift as u8, ram)
}

/// A whole save for a board with a timer, often none. Its time may stand far behind that of mounting, so that days pass at once; some have
/// an offset that brings the time near its end, 2^64 - 1.
pub fn whole_save(draw: &mut Draw, image: &Image, wall: u64) -> Option<Save> {
    if !draw.one_in(3) {
        return None;
    }
    let area = RAM_SIZES[image.codes[2] as usize];
    let day = draw.of(&[0, 1, 255, 256, 509, 510, 511]);
    let passed = match draw.below(8) {
        0 | 1 => 0,
        2 | 3 => draw.below(200),
        4 | 5 => draw.below(2_000_000),
        _ => draw.below(100_000_000),
    };
    let offset = match draw.below(8) {
        0..=3 => 0,
        4 | 5 => draw.below(100_000_000) as u64,
        _ => u64::MAX - wall - draw.below(20_000) as u64,
    };
    let time = wall + offset;
    let stored = if draw.one_in(8) { time.saturating_add(passed as u64) } else { time.saturating_sub(passed as u64) };
    let mut block = vec![draw.below(64) as u8, draw.below(64) as u8, draw.below(32) as u8];
    block.extend_from_slice(&u16::to_le_bytes(day));
    block.extend_from_slice(&stored.to_le_bytes());
    block.extend_from_slice(&offset.to_le_bytes());
    Some(Save { len: area + 21, from: draw.below(PLACES as u32) as usize, block: Some((area, block)) })
}

/// A save for an image, often none.
pub fn save(draw: &mut Draw, image: &Image, wall: u64) -> Option<Save> {
    let ram = *RAM_SIZES.get(image.codes[2] as usize)?;
    let ty = image.codes[0];
    let timer = matches!(ty, 0x0F | 0x10);
    let area = ram + if matches!(ty, 5 | 6) { 512 } else { 0 };
    if !matches!(ty, 3 | 6 | 9 | 0x0F | 0x10 | 0x13 | 0x1B | 0x1E) || draw.one_in(2) {
        return None;
    }
    let from = draw.below(PLACES as u32) as usize;
    let whole = area + if timer { 21 } else { 0 };
    let len = match draw.below(20) {
        0..=11 => whole,
        12..=15 => whole + draw.below(64) as usize,
        16 => draw.below(whole as u32 + 1) as usize,
        17 => whole.saturating_sub(1),
        18 => area.saturating_sub(1 + draw.below(8) as usize),
        _ => area + draw.below(21) as usize,
    };
    let mut registers = [draw.below(64) as u8, draw.below(64) as u8, draw.below(32) as u8];
    let mut day = draw.below(512) as u16;
    match draw.below(12) {
        0 => registers = [59 - draw.below(20) as u8, 59, 23],
        1 => (registers, day) = ([59 - draw.below(20) as u8, 59, 23], 511),
        2 => registers[draw.below(3) as usize] = draw.byte(),
        3 if draw.one_in(2) => day = draw.below(65536) as u16,
        _ => {}
    }
    let passed = match draw.below(400) {
        0..=120 => 0,
        121..=200 => 1,
        201..=320 => draw.below(200) as u64,
        321..=398 => draw.below(100_000) as u64,
        _ => draw.below(50_000_000) as u64,
    };
    let offset = match draw.below(10) {
        0..=6 => 0,
        7 | 8 => draw.below(5000) as u64,
        _ if wall < 10_000 => 1 << 62,
        _ => u64::MAX - draw.below(4000) as u64,
    };
    let time = wall.wrapping_add(offset);
    let time = if draw.one_in(10) { time.saturating_add(passed) } else { time.saturating_sub(passed) };
    let mut block = registers.to_vec();
    block.extend_from_slice(&day.to_le_bytes());
    block.extend_from_slice(&time.to_le_bytes());
    block.extend_from_slice(&offset.to_le_bytes());
    // A part of a block leaves the original with a time near zero: its next read adds all that passed since.
    Some(Save { len, from, block: timer.then(|| (area, block)) })
}
