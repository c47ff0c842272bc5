//! Images and saves by recipe: a line of text says all of one. The vectors' test builds the same from the same lines.
use std::fmt::Write;

pub const LOGO: [u8; 48] = *b"\xce\xed\x66\x66\xcc\x0d\x00\x0b\x03\x73\x00\x83\x00\x0c\x00\x0d\x00\x08\x11\x1f\x88\x89\x00\x0e\xdc\xcc\x6e\xe6\xdd\xdd\xd9\x99\xbb\xbb\x67\x63\x6e\x0e\xec\xcc\xdd\xdc\x99\x9f\xbb\xb9\x33\x3e";

/// The header's RAM sizes, by its code.
pub const RAM_SIZES: [usize; 6] = [0, 0x800, 0x2000, 0x8000, 0x20000, 0x10000];

/// Where an image or a save may begin in the base.
pub const PLACES: usize = 0x10000;

/// The bytes that images and saves are cut from: no bank is like another.
pub struct Base(Vec<u8>);

impl Base {
    pub fn new() -> Base {
        let mut bytes = Vec::with_capacity(0x900000 + PLACES);
        let mut x = 0x1F2E_3D4C_5B6A_7988u64;
        while bytes.len() < 0x900000 + PLACES {
            x ^= x << 13;
            x ^= x >> 7;
            x ^= x << 17;
            bytes.extend_from_slice(&x.wrapping_mul(0x9E37_79B9_7F4A_7C15).to_le_bytes());
        }
        Base(bytes)
    }

    pub fn bytes(&self, from: usize, len: usize) -> &[u8] {
        &self.0[from..from + len]
    }
}

/// An image: `I`, length, place in the base, the quarters with a logo (bit 0 the first), the 16 bytes of the title and colour flag, type,
/// ROM code, RAM code, whether the checksum is made after the changes, and single bytes that are changed.
#[derive(Clone, Debug, Default)]
pub struct Image {
    pub len: usize,
    pub from: usize,
    pub logos: u8,
    pub title: [u8; 16],
    pub codes: [u8; 3],
    pub mended: bool,
    pub changes: Vec<(usize, u8)>,
}

fn put(image: &mut [u8], at: usize, bytes: &[u8]) {
    if at < image.len() {
        let n = bytes.len().min(image.len() - at);
        image[at..at + n].copy_from_slice(&bytes[..n]);
    }
}

fn mend(image: &mut [u8]) {
    let c = (0x134..0x14D).fold(0u8, |c, i| c.wrapping_sub(image.get(i).copied().unwrap_or(0)).wrapping_sub(1));
    put(image, 0x14D, &[c]);
}

impl Image {
    pub fn build(&self, base: &Base, image: &mut Vec<u8>) {
        image.clear();
        image.extend_from_slice(base.bytes(self.from, self.len));
        // Each bank has its number at both ends.
        for bank in 0..(self.len + 0x3FFF) / 0x4000 {
            let mark = (bank as u16).to_le_bytes();
            put(image, bank * 0x4000, &mark);
            put(image, bank * 0x4000 + 0x3FFE, &mark);
        }
        for quarter in (0..4).filter(|q| self.logos >> q & 1 == 1) {
            put(image, quarter * 0x40000 + 0x104, &LOGO);
        }
        put(image, 0x134, &self.title);
        put(image, 0x147, &self.codes);
        mend(image);
        for (at, byte) in &self.changes {
            put(image, *at, &[*byte]);
        }
        if self.mended {
            mend(image);
        }
    }

    pub fn line(&self) -> String {
        let mut line = format!("I {:X} {:X} {:X} {} ", self.len, self.from, self.logos, hex(&self.title));
        write!(line, "{} {}", hex(&self.codes), self.mended as u8).unwrap();
        for (at, byte) in &self.changes {
            write!(line, " {:X}={:02X}", at, byte).unwrap();
        }
        line
    }

    pub fn read(line: &str) -> Image {
        let words: Vec<&str> = line.split(' ').collect();
        let mut image =
            Image { len: number(words[1]), from: number(words[2]), logos: number(words[3]) as u8, ..Image::default() };
        image.title.copy_from_slice(&bytes(words[4]));
        image.codes.copy_from_slice(&bytes(words[5]));
        image.mended = words[6] == "1";
        for word in &words[7..] {
            let (at, byte) = word.split_once('=').unwrap();
            image.changes.push((number(at), number(byte) as u8));
        }
        image
    }
}

/// A save: `B`, length, place in the base, and where a clock's block stands in it, that block.
#[derive(Clone, Debug, Default)]
pub struct Save {
    pub len: usize,
    pub from: usize,
    pub block: Option<(usize, Vec<u8>)>,
}

impl Save {
    pub fn build(&self, base: &Base) -> Vec<u8> {
        let mut save = base.bytes(self.from, self.len).to_vec();
        if let Some((at, block)) = &self.block {
            put(&mut save, *at, block);
        }
        save
    }

    pub fn line(&self) -> String {
        let block = self.block.as_ref().map_or(String::new(), |(at, block)| format!(" {:X} {}", at, hex(block)));
        format!("B {:X} {:X}{}", self.len, self.from, block)
    }

    pub fn read(line: &str) -> Save {
        let words: Vec<&str> = line.split(' ').collect();
        let block = (words.len() > 3).then(|| (number(words[3]), bytes(words[4])));
        Save { len: number(words[1]), from: number(words[2]), block }
    }
}

pub fn hex(bytes: &[u8]) -> String {
    bytes.iter().map(|b| format!("{:02X}", b)).collect()
}

pub fn number(word: &str) -> usize {
    usize::from_str_radix(word, 16).unwrap()
}

pub fn bytes(word: &str) -> Vec<u8> {
    (0..word.len() / 2).map(|i| u8::from_str_radix(&word[2 * i..2 * i + 2], 16).unwrap()).collect()
}

/// A sum of bytes (FNV-1a).
pub fn sum(bytes: &[u8]) -> u64 {
    bytes.iter().fold(0xCBF2_9CE4_8422_2325, |s, b| (s ^ *b as u64).wrapping_mul(0x100_0000_01B3))
}
