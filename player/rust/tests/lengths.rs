//! Buffers of every wrong length, with guard bytes around them: the number that the rules have for it, and no byte changed, inside or out.
mod common;

use common::images;
use imfelkuz::sys::{self, State};
use imfelkuz::Facts;

const GUARD: usize = 64;

/// Bytes with guards around them. Every byte, guards too, is a mix of its place.
#[derive(Clone, PartialEq, Debug)]
struct Guarded(Vec<u8>, usize);

impl Guarded {
    fn new(len: usize) -> Guarded {
        Guarded((0..len + 2 * GUARD).map(|i| (i * 151 + i / 256 + 7) as u8).collect(), len)
    }

    fn inside(&mut self) -> &mut [u8] {
        let end = GUARD + self.1;
        &mut self.0[GUARD..end]
    }

    fn part(&mut self, len: usize) -> &mut [u8] {
        &mut self.0[GUARD..GUARD + len]
    }

    // The same outside of the first n bytes.
    fn same_beyond(&self, other: &Guarded, n: usize) -> bool {
        self.0[..GUARD] == other.0[..GUARD] && self.0[GUARD + n..] == other.0[GUARD + n..]
    }
}

struct Case {
    image: Vec<u8>,
    area: usize,
    size: usize,
    state: State,
}

fn case(len: usize, ty: u8, rom: u8, ram: u8) -> Case {
    let image = images::image(len, ty, rom, ram);
    let facts = Facts::of(&image).unwrap();
    let mut state = [0; 64];
    assert_eq!(sys::mount(&mut state, &image, &mut vec![0; facts.ram_area], 1000), 0);
    let block = if facts.timer { 21 } else { 0 };
    Case { image, area: facts.ram_area, size: facts.ram_area + block, state }
}

// With and without RAM, half-bytes and a timer. Every length up to some beyond the right one is tried, so the areas are small.
fn cases() -> Vec<Case> {
    vec![
        case(0x8000, 0x09, 0, 1),
        case(0x8000, 0x03, 0, 0),
        case(0x150, 0x03, 0, 1),
        case(0x8000, 0x06, 0, 0),
        case(0x7FFF, 0x06, 0, 1),
        case(0x8000, 0x13, 0, 1),
        case(0x8000, 0x10, 0, 1),
        case(0x10000, 0x0F, 1, 0),
        case(0x8000, 0x1B, 0, 1),
    ]
}

const MORE: usize = 0x120;

#[test]
fn mounting_takes_the_area_that_the_header_asks_for() {
    for case in cases() {
        for n in 0..=case.area + MORE {
            let mut ram = Guarded::new(n);
            let mut state = [0xEE; 64];
            let number = sys::mount(&mut state, &case.image, ram.inside(), 1000);
            if n == case.area {
                assert_eq!((number, state), (0, case.state));
                assert!(ram.inside().iter().all(|b| *b == 0) && ram.same_beyond(&Guarded::new(n), n));
            } else {
                assert_eq!((number, state), (12, [0xEE; 64]));
                assert_eq!(ram, Guarded::new(n));
            }
        }
    }
}

#[test]
fn the_bus_takes_the_mounted_ram_alone() {
    for case in cases() {
        for n in 0..=case.area + MORE {
            for (addr, enables) in [(0x0000, true), (0xA000, false), (0xBFFF, false)] {
                let mut ram = Guarded::new(n);
                let mut state = case.state;
                let read = sys::read(&state, &case.image, ram.inside(), addr);
                let number = sys::write(&mut state, ram.inside(), addr, if enables { 0x0A } else { 0x5C });
                if n == case.area {
                    assert!(read < sys::REFUSED && number == 0 && ram.same_beyond(&Guarded::new(n), n));
                } else {
                    assert_eq!((read, number, state), (sys::REFUSED + 14, 14, case.state));
                    assert_eq!(ram, Guarded::new(n));
                }
            }
        }
    }
}

#[test]
fn the_bus_takes_the_mounted_image_alone() {
    for case in cases() {
        let whole = Guarded::new(0x10000 + MORE);
        let mut lent = whole.clone();
        let ram = vec![0; case.area];
        for n in 0..=case.image.len() + MORE {
            for addr in [0x0000, 0x3FFF, 0x4000, 0x7FFF, 0xA000] {
                let read = sys::read(&case.state, lent.part(n), &ram, addr);
                assert_eq!(read >= sys::REFUSED, n != case.image.len());
                assert!(read < sys::REFUSED || read == sys::REFUSED + 14);
            }
        }
        assert_eq!(lent, whole);
    }
}

#[test]
fn a_save_goes_into_room_that_is_long_enough() {
    for case in cases() {
        for n in 0..=case.size + MORE {
            let mut ram = Guarded::new(case.area);
            let mut room = Guarded::new(n);
            let mut size = 0xEEEE;
            let number = sys::save_out(&case.state, ram.inside(), room.inside(), 1000, &mut size);
            if n >= case.size {
                assert_eq!((number, size), (0, case.size as u64));
                assert_eq!(room.part(case.area), ram.inside());
                assert!(room.same_beyond(&Guarded::new(n), case.size));
            } else {
                assert_eq!((number, size), (21, 0xEEEE));
                assert_eq!(room, Guarded::new(n));
            }
            assert_eq!(ram, Guarded::new(case.area));
        }
        // A wrong RAM comes before the room.
        for n in (0..case.area).chain(case.area + 1..case.area + MORE) {
            let (mut ram, mut room, mut size) = (Guarded::new(n), Guarded::new(n % 7), 0xEEEE);
            assert_eq!(sys::save_out(&case.state, ram.inside(), room.inside(), 1000, &mut size), 14);
            assert_eq!((ram, room, size), (Guarded::new(n), Guarded::new(n % 7), 0xEEEE));
        }
    }
}

#[test]
fn a_save_is_read_from_as_many_bytes_as_the_area_has() {
    for case in cases() {
        let timer = case.size != case.area;
        for n in 0..=case.size + MORE {
            let mut ram = Guarded::new(case.area);
            let mut save = Guarded::new(n);
            save.inside().iter_mut().for_each(|b| *b &= 0x0F);
            if n > case.area + 4 {
                save.inside()[case.area + 4] &= 1; // the day's high byte
            }
            let kept = save.clone();
            let (mut state, mut clock) = (case.state, 7);
            let number = sys::save_in(&mut state, ram.inside(), save.inside(), 1000, &mut clock);
            assert_eq!(save, kept);
            if n < case.area {
                assert_eq!((number, state, clock), (19, case.state, 7));
                assert_eq!(ram, Guarded::new(case.area));
            } else {
                assert_eq!((number, clock), (0, (timer && n >= case.size) as u32));
                assert_eq!(state == case.state, clock == 0);
                assert_eq!(ram.inside(), save.part(case.area));
                assert!(ram.same_beyond(&Guarded::new(case.area), case.area));
            }
        }
        for n in (0..case.area).chain(case.area + 1..case.area + MORE) {
            let (mut ram, mut save, mut state, mut clock) = (Guarded::new(n), Guarded::new(n % 9), case.state, 7);
            assert_eq!(sys::save_in(&mut state, ram.inside(), save.inside(), 1000, &mut clock), 14);
            assert_eq!((ram, save, state, clock), (Guarded::new(n), Guarded::new(n % 9), case.state, 7));
        }
    }
}

#[test]
fn a_header_cut_anywhere_has_a_number_or_facts() {
    let whole = images::image(0x8000, 0x03, 0, 2);
    for n in 0..0x400 {
        let mut image = Guarded::new(n);
        let cut = n.min(whole.len());
        image.inside()[..cut].copy_from_slice(&whole[..cut]);
        let kept = image.clone();
        let mut facts = [0xEEEE; 12];
        let number = sys::header(image.inside(), &mut facts);
        // The last byte of the header is the checksum, at 0x14D; what is cut off counts as zero.
        let expected = match n {
            0..=0x133 => 2,
            0x134..=0x14D => 9,
            _ => 0,
        };
        assert_eq!((number, facts[0] == 0xEEEE), (expected, expected != 0), "{:X}", n);
        assert_eq!(image, kept);
    }
}
