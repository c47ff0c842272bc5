//! The lines of crates/bus_lines: `R A000 5C` read, `W A000 5C` written, `C 5` clocks passed, `F 512` RAM filled, `X 15` refused; and the
//! comparison with what a proved program writes.
use super::steps::Step;
use super::{build, Bus};
use std::fmt::Write;

pub fn number(out: &mut String, letter: char, n: u64) {
    writeln!(out, "{} {}", letter, n).unwrap();
}

/// The cartridge that was mounted: length, type byte, banks, RAM size.
pub fn heading(out: &mut String, image: &[u8], type_byte: u8) {
    let facts = imfelkuz::Facts::of(image).unwrap();
    writeln!(out, "M {} {} {} {}", image.len(), type_byte, facts.rom_banks, facts.ram_size).unwrap();
}

/// Each byte counts with its place.
pub fn sum(bytes: &[u8]) -> u64 {
    bytes.iter().fold(0u32, |s, b| s.wrapping_mul(31).wrapping_add((*b).into())).into()
}

// The bank, then the byte: a mix of its place in the area, moved behind all places of an image.
fn filled<B: Bus>(out: &mut String, cart: &mut B) {
    let area = cart.ram().len();
    for n in 0..area {
        cart.write(0x4000, (n / 0x2000 % 16) as u8).unwrap();
        cart.write((0xA000 + n % 0x2000) as u16, build::mixed(n % 0x800000 + 0x800000)).unwrap();
    }
    number(out, 'F', area as u64);
}

fn take<B: Bus>(out: &mut String, cart: &mut B, step: Step) {
    let answer = match step {
        Step::Read(addr) => cart.read(addr).map(|b| writeln!(out, "R {:04X} {:02X}", addr, b).unwrap()),
        Step::Write(addr, byte) => cart.write(addr, byte).map(|()| writeln!(out, "W {:04X} {:02X}", addr, byte).unwrap()),
        Step::Quiet(addr, byte) => cart.write(addr, byte),
        Step::Clocks(n) => cart.advance(n).map(|()| number(out, 'C', n)),
        Step::Fill => {
            filled(out, cart);
            Ok(())
        }
    };
    if let Err(why) = answer {
        number(out, 'X', why.into());
    }
}

/// Each step in its turn, and its line.
pub fn each<B: Bus>(out: &mut String, cart: &mut B, steps: &[Step]) {
    for step in steps {
        take(out, cart, *step);
    }
}

/// Compares with the lines that a proved program writes, and says how many they are.
pub fn compare(out: &str, program: &str) -> usize {
    let path = format!("{}/../../crates/{}/stdout", env!("CARGO_MANIFEST_DIR"), program);
    let expected = std::fs::read_to_string(&path).expect(&path);
    for (i, (ours, theirs)) in out.lines().zip(expected.lines()).enumerate() {
        assert_eq!(ours, theirs, "line {} of {}", i + 1, path);
    }
    assert_eq!(out.lines().count(), expected.lines().count(), "the count of lines of {}", path);
    out.lines().count()
}
