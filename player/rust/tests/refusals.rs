//! Every number, given for the least that earns it, in the order of the rules, in words, and with nothing changed.
mod common;

use common::images::{image, mend_checksum, put_header};
use common::Draw;
use imfelkuz::trace::{Record, Records};
use imfelkuz::{sys, Cartridge, Facts, Kind, Loaded, Refusal};
use std::collections::HashSet;
use std::error::Error;

fn spoilt(image: &[u8], at: usize, byte: u8) -> Vec<u8> {
    let mut image = image.to_vec();
    image[at] = byte;
    mend_checksum(&mut image);
    image
}

fn refused(image: &[u8], why: Refusal) {
    assert_eq!(Cartridge::mount(image, 0).unwrap_err(), why);
    assert_eq!(Facts::of(image).unwrap_err(), why);
    let (mut state, mut ram, mut facts) = ([0xEE; 64], [0xEE; 0x2000], [0xEE; 12]);
    assert_eq!(sys::mount(&mut state, image, &mut ram, 0), why.number().into());
    assert_eq!(sys::header(image, &mut facts), why.number().into());
    assert!(state == [0xEE; 64] && ram == [0xEE; 0x2000] && facts == [0xEE; 12]);
}

#[test]
fn images_1_to_11() {
    let good = image(0x8000, 3, 0, 2);
    assert_eq!(Cartridge::mount(&good[..], 0).unwrap().title(), "IMFELKUZ");
    let mut large = vec![0; 0x800001];
    refused(&large, Refusal::TooLong);
    put_header(&mut large, 0x1B, 8, 4);
    refused(&large, Refusal::TooLong);
    large.pop();
    assert_eq!(Cartridge::mount(large, 0).unwrap().facts().rom_banks, 512);
    refused(&[], Refusal::BadLogo);
    for at in 0x104..0x134 {
        refused(&spoilt(&good, at, good[at] ^ 0x10), Refusal::BadLogo);
    }
    refused(&spoilt(&good, 0x13C, 0xC3), Refusal::BadTitle);
    assert!(Cartridge::mount(spoilt(&good, 0x13D, 0xC3), 0).is_ok()); // behind the first zero
    for ty in 0..=255 {
        let known =
            [0, 1, 2, 3, 5, 6, 8, 9, 0xB, 0xC, 0xD, 0xF, 0x10, 0x11, 0x12, 0x13, 0x19, 0x1A, 0x1B, 0x1C, 0x1D, 0x1E, 0x20, 0x22];
        let without_ram = [0, 1, 5, 0xB, 0xF, 0x11, 0x19, 0x1C];
        let image = spoilt(&good, 0x147, ty);
        if !known.contains(&ty) {
            refused(&image, Refusal::BadType);
        } else if without_ram.contains(&ty) {
            refused(&image, Refusal::NeedlessRam);
        } else if [0xC, 0xD, 0x20, 0x22].contains(&ty) {
            refused(&image, Refusal::Unsupported);
        } else {
            assert!(Cartridge::mount(image, 0).is_ok());
        }
    }
    refused(&spoilt(&good, 0x148, 9), Refusal::BadRomCode);
    refused(&spoilt(&good, 0x148, 1), Refusal::BadRomSize);
    refused(&spoilt(&good, 0x149, 6), Refusal::BadRamCode);
    let mut checksum = good.clone();
    checksum[0x14D] ^= 1;
    refused(&checksum, Refusal::BadChecksum);
    refused(&spoilt(&checksum, 0x147, 0x0D), Refusal::Unsupported);
    refused(&image(0x10000, 9, 1, 2), Refusal::Beyond);
    refused(&image(0x8000, 9, 0, 3), Refusal::Beyond);
    refused(&image(0x400000, 3, 7, 2), Refusal::Beyond);
    refused(&image(0x80000, 6, 4, 0), Refusal::Beyond);
    refused(&image(0x800000, 0x13, 8, 2), Refusal::Beyond);
    // The quotient of a mended size: 256 is refused, 128 taken.
    refused(&image(0x800000, 0x1B, 0, 2), Refusal::BadRomSize);
    assert!(Cartridge::mount(image(0x800000, 0x1B, 1, 2), 0).is_ok());
}

#[test]
fn the_first_that_holds_is_given() {
    // Every number from 2 on at once, and then one after the other is mended.
    let mut all = vec![0; 0x10000];
    put_header(&mut all, 0x04, 9, 6);
    all[0x133] = 0;
    all[0x134] = 0x80;
    all[0x14D] ^= 1;
    refused(&all, Refusal::BadLogo);
    all[0x133] = 0x3E;
    refused(&all, Refusal::BadTitle);
    all[0x134] = b'T';
    refused(&all, Refusal::BadType);
    all[0x147] = 0x0B;
    refused(&all, Refusal::BadRomCode);
    all[0x148] = 8;
    refused(&all, Refusal::BadRomSize);
    all[0x148] = 1;
    refused(&all, Refusal::BadRamCode);
    all[0x149] = 2;
    refused(&all, Refusal::NeedlessRam);
    all[0x147] = 0x0D;
    refused(&all, Refusal::BadChecksum);
    mend_checksum(&mut all);
    refused(&all, Refusal::Unsupported);
    all[0x147] = 9;
    mend_checksum(&mut all);
    refused(&all, Refusal::Beyond);
}

fn mounted(ty: u8, ram: u8) -> Cartridge {
    Cartridge::mount(image(0x8000, ty, 0, ram), 1000).unwrap()
}

#[test]
fn area_state_and_lengths_12_to_14() {
    let (image, ram, state) = mounted(0x10, 2).into_parts();
    assert_eq!(sys::mount(&mut [0; 64], &image, &mut [0; 0x1FFF], 0), Refusal::WrongArea.number().into());
    let mut none = state;
    none[0] = 7;
    assert_eq!(Cartridge::from_parts(&image[..], &ram[..], none).unwrap_err(), Refusal::Unfit);
    assert_eq!(Cartridge::from_parts(&image[..], &ram[1..], state).unwrap_err(), Refusal::WrongLength);
    let longer = [&image[..], &[0]].concat();
    assert_eq!(Cartridge::from_parts(longer, &ram[..], state).unwrap_err(), Refusal::BadRomSize);
    assert_eq!(Cartridge::from_parts(&image[..0x7FFF], &ram[..], state).unwrap_err(), Refusal::WrongLength);
    assert_eq!(Cartridge::from_parts(&image[..], &ram[1..], none).unwrap_err(), Refusal::Unfit);
    assert_eq!(Cartridge::from_parts(image, ram, state).unwrap().state(), &state);
}

fn unchanged(cart: &mut Cartridge, call: impl FnOnce(&mut Cartridge) -> Refusal, why: Refusal) {
    let before = cart.clone().into_parts();
    assert_eq!(call(cart), why);
    assert!(before == cart.clone().into_parts());
}

#[test]
fn accesses_15_and_16() {
    for (ty, ram) in [(9, 2), (3, 2), (6, 2), (0x13, 2), (0x10, 2), (0x1B, 2)] {
        let mut cart = mounted(ty, ram);
        for addr in (0x8000..=0x9FFF).chain(0xC000..=0xFFFF) {
            assert_eq!(cart.read(addr), Err(Refusal::BadAddress));
            assert_eq!(cart.byte(addr), 0xFF);
            assert_eq!(cart.bus().read(addr), Err(Refusal::BadAddress));
            assert_eq!(cart.bus().byte(addr), 0xFF);
            unchanged_at(&mut cart, addr);
        }
        for byte in 0..=255 {
            let answer = cart.write(0x4000 + u16::from(byte), byte);
            let none = (4..=7).contains(&(byte % 16)) || byte % 16 >= 0xD;
            let mbc3 = ty == 0x13 || ty == 0x10;
            assert_eq!(answer, if mbc3 && none { Err(Refusal::BadSelection) } else { Ok(()) });
        }
        if ty == 0x10 {
            unchanged(&mut cart, |c| c.write(0x5FFF, 0xF4).unwrap_err(), Refusal::BadSelection);
        }
    }
}

fn unchanged_at(cart: &mut Cartridge, addr: u16) {
    let state = *cart.state();
    assert_eq!(cart.write(addr, 1), Err(Refusal::BadAddress));
    assert_eq!(cart.state(), &state);
}

#[test]
fn accesses_give_the_first_of_13_to_16() {
    let (image, ram, state) = mounted(0x10, 2).into_parts();
    let mut none = state;
    none[45] = 64; // a second that no clock has
    let read = |state, image: &[u8], ram: &[u8], addr| sys::read(state, image, ram, addr) - sys::REFUSED;
    assert_eq!(read(&none, &image[1..], &ram[1..], 0xC000), 13);
    assert_eq!(read(&state, &image[1..], &ram, 0xC000), 14);
    assert_eq!(read(&state, &image, &ram[1..], 0xC000), 14);
    assert_eq!(read(&state, &image, &ram, 0xC000), 15);
    let write = |mut state, mut ram: Vec<u8>, addr| sys::write(&mut state, &mut ram, addr, 0x0F);
    assert_eq!(write(none, ram[1..].to_vec(), 0x4000), 13);
    assert_eq!(write(state, ram[1..].to_vec(), 0x4000), 14);
    assert_eq!(write(state, ram[1..].to_vec(), 0x8000), 14);
    assert_eq!(write(state, ram.clone(), 0x8000), 15);
    assert_eq!(write(state, ram, 0x4000), 16);
    none[32..40].fill(0xFF);
    assert_eq!(sys::advance(&mut none, u64::MAX), 13);
}

#[test]
fn time_17() {
    let mut cart = Cartridge::mount(image(0x8000, 0x10, 0, 2), u64::MAX).unwrap();
    unchanged(&mut cart, |c| c.advance(2_097_152).unwrap_err(), Refusal::Late);
    unchanged(&mut cart, |c| c.advance(u64::MAX).unwrap_err(), Refusal::Late);
    cart.advance(2_097_151).unwrap();
    unchanged(&mut cart, |c| c.advance(1).unwrap_err(), Refusal::Late);
    // Without a timer nothing passes; with one, all of 64 bits from time 0.
    mounted(3, 2).advance(u64::MAX).unwrap();
    Cartridge::mount(image(0x8000, 0x10, 0, 2), 0).unwrap().advance(u64::MAX).unwrap();
}

#[test]
fn saves_17_to_21() {
    let mut cart = mounted(2, 2);
    for why in [cart.save(0).unwrap_err(), cart.save_size().unwrap_err(), cart.save_into(&mut [], 0).unwrap_err()] {
        assert_eq!(why, Refusal::NoBattery);
    }
    unchanged(&mut cart, |c| c.load(&[], 0).unwrap_err(), Refusal::NoBattery);

    let mut cart = mounted(0x10, 2);
    let save = cart.save(1000).unwrap();
    assert_eq!((save.len(), cart.save_size()), (0x2015, Ok(0x2015)));
    assert_eq!(cart.save_into(&mut [0; 0x2014], 1000), Err(Refusal::ShortRoom));
    assert_eq!(cart.save_into(&mut [0; 0x2016], 1000), Ok(0x2015));
    unchanged(&mut cart, |c| c.load(&save[..0x1FFF], 1000).unwrap_err(), Refusal::ShortSave);
    assert_eq!(cart.load(&save[..0x2014], 1000), Ok(Loaded::RamOnly));
    assert_eq!(cart.load(&save, 1000), Ok(Loaded::Whole));
    for (at, most) in [(0, 63), (1, 63), (2, 31)] {
        let mut bad = save.clone();
        bad[0x2000 + at] = most;
        assert_eq!(cart.load(&bad, 1000), Ok(Loaded::Whole));
        bad[0x2000 + at] += 1;
        unchanged(&mut cart, |c| c.load(&bad, 1000).unwrap_err(), Refusal::BadBlock);
    }
    let mut bad = save.clone();
    bad[0x2004] = 2;
    unchanged(&mut cart, |c| c.load(&bad, 1000).unwrap_err(), Refusal::BadBlock);
    // A great offset has no room in the time; a bad register is seen first.
    let mut late = save.clone();
    late[0x200D..0x2015].copy_from_slice(&(u64::MAX - 999).to_le_bytes());
    unchanged(&mut cart, |c| c.load(&late, 1000).unwrap_err(), Refusal::Late);
    assert_eq!(cart.load(&late, 999), Ok(Loaded::Whole));
    late[0x2000] = 64;
    unchanged(&mut cart, |c| c.load(&late, 1000).unwrap_err(), Refusal::BadBlock);
}

#[test]
fn traces_22_and_23() {
    let whole = b"WR\x00\x00\x0ARD\x00\xA0CK\x05\x00\x00\x00";
    let records: Vec<_> = Records::new(whole).collect();
    assert_eq!(records, [Ok(Record::Write(0, 0x0A)), Ok(Record::Read(0xA000)), Ok(Record::Clocks(5))]);
    for cut in 0..whole.len() {
        let mut reader = Records::new(&whole[..cut]);
        let last = reader.by_ref().last();
        match cut {
            0 => assert_eq!(last, None),
            5 | 9 => assert!(last.unwrap().is_ok()),
            _ => assert_eq!(
                (last, reader.place()),
                (
                    Some(Err(Refusal::CutShort)),
                    if cut < 5 {
                        0
                    } else if cut < 9 {
                        5
                    } else {
                        9
                    }
                )
            ),
        }
        assert_eq!(reader.next(), None);
    }
    let mut reader = Records::new(b"RD\x00\xA0RX\x00\x00");
    assert_eq!((reader.nth(1), reader.place(), reader.next()), (Some(Err(Refusal::UnknownMark)), 4, None));
    assert_eq!(Records::new(b"X").next(), Some(Err(Refusal::CutShort)));
}

#[test]
fn numbers_and_words() {
    let header = include_str!("../../../include/imfelkuz.h");
    let mut words = HashSet::new();
    for number in 0..0x300 {
        let why = match Refusal::from_number(number) {
            Some(why) => why,
            None => {
                assert!(number == 0 || number > 23);
                continue;
            }
        };
        assert!((1..0xFF).contains(&number) && u32::from(why.number()) == number);
        assert!(words.insert(why.words()));
        let text = (&why as &dyn Error).to_string();
        assert!(text.starts_with(why.words()) && text.ends_with(&format!("(number {})", number)));
        // The C header has the same words for the same number.
        let name = header.split_once(&format!(" = {},\n", number)).unwrap().0.split_whitespace().last().unwrap();
        assert!(header.contains(&format!("case {}: return \"{}\";", name, why.words())), "{}", name);
    }
    assert_eq!(Refusal::from_number(u32::MAX), None);
}

#[test]
fn header_and_crate_have_one_version() {
    let header = include_str!("../../../include/imfelkuz.h");
    assert!(header.contains(&format!("#define IMF_VERSION \"{}\"\n", imfelkuz::VERSION)));
}

#[test]
fn facts_of_each_type() {
    // Type, ROM code, RAM code, length; kind, banks, RAM, area, battery, timer, rumble.
    let rows: [(u8, u8, u8, usize, Kind, usize, usize, usize, bool, bool, bool); 9] = [
        (0x00, 0, 0, 0x8000, Kind::NoMapper, 2, 0, 0, false, false, false),
        (0x09, 0, 1, 0x200, Kind::NoMapper, 2, 0x800, 0x800, true, false, false),
        (0x02, 6, 3, 0x200000, Kind::Mbc1, 128, 0x8000, 0x8000, false, false, false),
        (0x05, 3, 0, 0x40000, Kind::Mbc2, 16, 0, 512, false, false, false),
        (0x06, 1, 2, 0x10000, Kind::Mbc2, 4, 0x2000, 0x2200, true, false, false),
        (0x11, 7, 0, 0x400000, Kind::Mbc3, 256, 0, 0, false, false, false),
        (0x0F, 2, 0, 0x1C001, Kind::Mbc3Timer, 8, 0, 0, true, true, false),
        (0x1B, 8, 4, 0x800000, Kind::Mbc5, 512, 0x20000, 0x20000, true, false, false),
        (0x1D, 0, 5, 0x8000, Kind::Mbc5, 2, 0x10000, 0x10000, false, false, true),
    ];
    for (ty, rom, ram, len, kind, banks, size, area, battery, timer, rumble) in rows {
        let mut image = image(len, ty, rom, ram);
        let facts = Facts::of(&image).unwrap();
        assert_eq!((facts.kind, facts.rom_banks, facts.ram_size, facts.ram_area), (kind, banks, size, area));
        assert_eq!((facts.battery, facts.timer, facts.rumble, facts.colour), (battery, timer, rumble, false));
        image[0x143] = 0x80;
        mend_checksum(&mut image);
        assert!(Facts::of(&image).unwrap().colour);
        assert_eq!(Cartridge::mount(image, 0).unwrap().ram(), vec![0; area]);
    }
    let mut multicart = image(0x100000, 1, 5, 0);
    for quarter in 1..4 {
        multicart.copy_within(0x104..0x134, quarter * 0x40000 + 0x104);
    }
    assert_eq!(Facts::of(&multicart).unwrap().kind, Kind::Mbc1Multicart);
    multicart[0xC0133] ^= 1;
    assert_eq!(Facts::of(&multicart).unwrap().kind, Kind::Mbc1);
}

#[test]
fn titles() {
    for title in ["", "A", "IMFELKUZ PROVED", "\u{e9}\u{20ac}\u{1f600}"] {
        let mut image = image(0x8000, 0, 0, 0);
        image[0x134..0x143].fill(0);
        image[0x134..0x134 + title.len()].copy_from_slice(title.as_bytes());
        mend_checksum(&mut image);
        assert_eq!(Cartridge::mount(image, 0).unwrap().title(), title);
    }
    // Drawn titles: as Rust's own reader says.
    let mut draw = Draw::new(5);
    for _ in 0..3000 {
        let mut image = image(0x8000, 0, 0, 0);
        let lead = draw.of(&[0x41, 0xC3, 0xE0, 0xED, 0xF0, 0xF4, 0x80]);
        draw.fill(&mut image[0x134..0x143]);
        image[0x134] = lead;
        image[0x135..0x143].iter_mut().for_each(|b| *b = if *b < 0x20 { 0 } else { *b % 0x40 | 0x80 });
        image[0x138..0x143].fill(0);
        mend_checksum(&mut image);
        let title: Vec<u8> = image[0x134..0x143].iter().copied().take_while(|b| *b != 0).collect();
        match std::str::from_utf8(&title) {
            Ok(words) => assert_eq!(Cartridge::mount(image, 0).unwrap().title(), words),
            Err(_) => refused(&image, Refusal::BadTitle),
        }
    }
}
