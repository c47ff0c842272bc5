//! Drawn states, addresses and bytes, the same in every run: windows against calls, bytes that are no state, and lengths that are wrong.
mod common;

use common::images::{self, put_header};
use common::states::{self, fit, shape, Shape};
use common::{byte, done, Draw};
use imfelkuz::sys::{self, State};
use imfelkuz::{Bus, Cartridge};

const PLACES: [u16; 14] =
    [0x0000, 0x0104, 0x3FFF, 0x4000, 0x4001, 0x7FFF, 0x8000, 0x9FFF, 0xA000, 0xA7FF, 0xA800, 0xBFFF, 0xC000, 0xFFFF];

fn addr(draw: &mut Draw) -> u16 {
    match draw.below(4) {
        0 => draw.of(&PLACES),
        1 => 0xA000 + draw.below(0x2000) as u16,
        2 => draw.below(0x8000) as u16,
        _ => draw.addr(),
    }
}

// The image of the recipe, cut to the shape, with a header that the shape's own could be.
fn image_of(all: &[u8], shape: &Shape) -> Vec<u8> {
    let mut image = all[..shape.length].to_vec();
    let code = states::RAM_SIZES.iter().position(|n| *n == shape.size as u64).unwrap();
    put_header(&mut image, states::TYPES[shape.kind as usize], (shape.banks.trailing_zeros() - 1) as u8, code as u8);
    image
}

fn windows_of(state: &State) -> sys::Windows {
    let mut windows = [0xEEEE_EEEE; 6];
    assert_eq!(sys::windows(state, &mut windows), 0);
    windows
}

// What the selected clock register reads: of the frozen copy while it is latched, and else of the running clock.
fn clock_register(state: &State) -> u32 {
    let at = if state[44] == 1 { 52 } else { 45 };
    let byte = match state[7] {
        4 => state[at + 6] << 7 | state[at + 5] << 6 | state[at + 4],
        register => state[at + register as usize],
    };
    byte.into()
}

// Reads: through the state, through windows, by a cartridge, and by the bus of another. Whether the windows had to pass it on.
fn read_agrees(cart: &Cartridge, bus: &Bus, windows: &sys::Windows, addr: u16) -> bool {
    let expected = sys::read(cart.state(), cart.image(), cart.ram(), addr);
    let seen = sys::window_read(windows, cart.image(), cart.ram(), addr);
    assert_eq!(cart.read(addr).map_err(|why| why.number().into()), byte(expected));
    assert_eq!(cart.byte(addr), byte(expected).unwrap_or(0xFF));
    assert_eq!(bus.read(addr), cart.read(addr));
    assert_eq!(bus.byte(addr), cart.byte(addr));
    if seen == sys::ASK {
        assert_eq!(windows[4], 3);
        assert!((0xA000..0xC000).contains(&addr));
        assert_eq!(expected, clock_register(cart.state()));
        return true;
    }
    assert_eq!(seen, expected, "{:?} {:04X}", windows, addr);
    false
}

#[test]
fn windows_show_what_the_state_shows() {
    let mut draw = Draw::new(0x1234_5678_9ABC_DEF1);
    let all = images::recipe();
    let (mut passed_on, mut kinds, mut hows) = (0, [0; 7], [0; 4]);
    for round in 0..420 {
        let shape = shape(&mut draw, if round % 20 == 0 { 512 } else { 32 });
        let start = states::canonical(states::state(&mut draw, &shape));
        let mut ram = vec![0; shape.area];
        draw.fill(&mut ram);
        let mut cart = Cartridge::from_parts(image_of(&all[..], &shape), ram, start).unwrap();
        kinds[shape.kind as usize] += 1;
        // One bus for all of them.
        let mut lent = cart.clone();
        let mut bus = lent.bus();
        // The same through the calls, and a third RAM that is written through windows where they can say.
        let (mut state, mut ram, mut third) = (start, cart.ram().to_vec(), cart.ram().to_vec());
        let mut windows = windows_of(&state);
        hows[windows[4] as usize] += 1;
        for _ in 0..60 {
            for _ in 0..4 {
                passed_on += read_agrees(&cart, &bus, &windows, addr(&mut draw)) as u32;
            }
            let (at, b) = (addr(&mut draw), draw.byte());
            let answer = sys::write(&mut state, &mut ram, at, b);
            let put = sys::window_write(&windows, &mut third, at, b);
            assert_eq!(cart.write(at, b).map_err(|why| why.number().into()), done(answer));
            assert_eq!(bus.write(at, b).map_err(|why| why.number().into()), done(answer));
            if put != sys::ASK {
                assert_eq!(put, answer);
            }
            if draw.one_in(8) {
                let clocks = draw.next() >> 24;
                assert_eq!(sys::advance(&mut state, clocks), 0);
                cart.advance(clocks).unwrap();
                bus.advance(clocks).unwrap();
            }
            // Only a write below 0x8000 moves the windows.
            let next = windows_of(&state);
            assert!(next == windows || at < 0x8000);
            windows = next;
            assert_eq!(cart.state(), &state);
        }
        assert_eq!(cart.ram(), &ram[..]);
        assert_eq!(third, ram);
        assert_eq!((lent.ram(), lent.state()), (&ram[..], &state));
        // What was kept is the same cartridge again.
        let (image, kept, bytes) = cart.clone().into_parts();
        let again = Cartridge::from_parts(image, kept, bytes).unwrap();
        read_agrees(&again, &lent.bus(), &windows, addr(&mut draw));
    }
    println!("kinds {:?}, ways of mapping {:?}, {} reads passed on", kinds, hows, passed_on);
    assert!(kinds.iter().all(|n| *n > 20) && hows.iter().all(|n| *n > 15) && passed_on > 100);
}

// What an advance leaves: without a timer the bytes that there were, and else the next clock's, with zeros in what is not used.
fn left_by_advance(before: &State, next: &State) -> bool {
    if before[0] == 5 {
        *next == states::canonical(*next)
    } else {
        next == before
    }
}

#[test]
fn a_state_is_written_as_it_was_read() {
    let mut draw = Draw::new(31337);
    for _ in 0..4000 {
        let shape = shape(&mut draw, 512);
        let mut state = states::state(&mut draw, &shape);
        let time = draw.next() << draw.below(2);
        states::put(&mut state, 32, 8, time);
        let mut next = state;
        assert_eq!(sys::advance(&mut next, 0), 0);
        assert!(left_by_advance(&state, &next));
        // A write to RAM, or to where none is mapped, is one of the state too.
        if shape.kind != 5 {
            let mut ram = vec![0; shape.area];
            assert_eq!(sys::write(&mut next, &mut ram, 0xA000, draw.byte()), 0);
        }
        assert_eq!(next, states::canonical(state));
    }
}

#[test]
fn windows_of_any_numbers_stay_inside() {
    let mut draw = Draw::new(77);
    let (image, area) = (vec![0x11; 0x9000], 0x900);
    for _ in 0..40_000 {
        let mut windows = [0u32; 6];
        for w in &mut windows {
            *w = (draw.next() as u32) >> draw.below(32);
        }
        windows[4] = if draw.one_in(8) { windows[4] } else { draw.below(4) as u32 };
        let lent = draw.below(area + 1) as usize;
        let mut ram = vec![0x22; area as usize];
        let at = addr(&mut draw);
        let place = windows[2] as usize + (at as usize & windows[3] as usize);
        let in_ram = (0xA000..0xC000).contains(&at);
        let seen = sys::window_read(&windows, &image[..0x8100], &ram[..lent], at);
        let expected = match (at, windows[4]) {
            (0x0000..=0x3FFF, _) => {
                if windows[0] as usize + (at as usize) < 0x8100 {
                    0x11
                } else {
                    0
                }
            }
            (0x4000..=0x7FFF, _) => {
                if windows[1] as usize + (at as usize & 0x3FFF) < 0x8100 {
                    0x11
                } else {
                    0
                }
            }
            (_, 0) if in_ram => 0xFF,
            (_, 1) if in_ram => {
                if place < lent {
                    0x22
                } else {
                    0xFF
                }
            }
            (_, 2) if in_ram => {
                if place < lent {
                    0xF2
                } else {
                    0xFF
                }
            }
            _ if in_ram => sys::ASK,
            _ => sys::REFUSED + 15,
        };
        assert_eq!(seen, expected, "{:?} {:04X} {}", windows, at, lent);
        let put = sys::window_write(&windows, &mut ram[..lent], at, 0x7C);
        let expected = match (at, windows[4]) {
            (0x0000..=0x7FFF, _) => sys::ASK,
            (_, 0..=2) if in_ram => 0,
            _ if in_ram => sys::ASK,
            _ => 15,
        };
        assert_eq!(put, expected);
        let mut after = vec![0x22; area as usize];
        if put == 0 && windows[4] != 0 && place < lent {
            after[place] = if windows[4] == 1 { 0x7C } else { 0x0C };
        }
        assert_eq!(ram, after);
    }
}

// Every call with these bytes for a state: 13 exactly where they are unfit, and then nothing changes.
fn try_state(draw: &mut Draw, state: &State, image: &[u8], ram: &mut [u8]) -> bool {
    let good = fit(state);
    let check = |number: u32, allowed: &[u32]| {
        assert_eq!(number == 13, !good, "{:?}", state);
        assert!(number == 13 || allowed.contains(&number), "{} for {:?}", number, state);
        number
    };
    let before = ram.to_vec();
    let (at, b, n) = (addr(draw), draw.byte(), draw.next() >> draw.below(64));
    let read = sys::read(state, image, ram, at);
    check(if read < 0x100 { 0 } else { read - 0x100 }, &[0, 14, 15]);

    let mut next = *state;
    if check(sys::write(&mut next, ram, at, b), &[0, 14, 15, 16]) != 0 {
        assert_eq!((&next, &ram[..]), (state, &before[..]));
    } else {
        assert!(fit(&next));
    }
    ram.copy_from_slice(&before);

    let mut next = *state;
    if check(sys::advance(&mut next, n), &[0, 17]) != 0 {
        assert_eq!(&next, state);
    } else {
        assert!(fit(&next) && left_by_advance(state, &next));
    }

    let mut size = 0xEEEE;
    let sized = check(sys::save_size(state, &mut size), &[0, 18]);
    assert!(sized == 0 || size == 0xEEEE);

    let mut room = vec![0xEE; 0x2300];
    let mut wrote = 0xEEEE;
    let saved = check(sys::save_out(state, ram, &mut room, n, &mut wrote), &[0, 14, 18, 21]);
    if saved != 0 {
        assert!(wrote == 0xEEEE && room.iter().all(|b| *b == 0xEE));
    } else {
        assert_eq!(wrote, size);
        assert!(room[wrote as usize..].iter().all(|b| *b == 0xEE));
    }
    assert_eq!(ram, &before[..]);

    let mut next = *state;
    let mut clock = 9;
    let save: Vec<u8> = before.iter().map(|b| b ^ 0xFF).chain((0..draw.below(24) as u8).map(|i| i % 16)).collect();
    if check(sys::save_in(&mut next, ram, &save, n, &mut clock), &[0, 14, 17, 18, 20]) != 0 {
        assert_eq!((&next, &ram[..], clock), (state, &before[..], 9));
    } else {
        assert!(fit(&next) && ram == &save[..ram.len()]);
        assert_eq!(clock == 1, state[0] == 5 && save.len() - ram.len() >= 21);
    }
    ram.copy_from_slice(&before);

    let mut windows = [0xEEEE_EEEE; 6];
    if check(sys::windows(state, &mut windows), &[0]) != 0 {
        assert_eq!(windows, [0xEEEE_EEEE; 6]);
    }
    good
}

#[test]
fn bytes_that_are_no_state_are_number_13() {
    let mut draw = Draw::new(99);
    let image = images::image(0x8000, 0x10, 0, 2);
    let mut fit_ones = 0;
    // Any bytes, small bytes, and bytes of which most are 0.
    for round in 0..6000 {
        let mut state = [0; 64];
        draw.fill(&mut state);
        if round % 3 == 1 {
            state.iter_mut().for_each(|b| *b %= 7);
        }
        if round % 3 == 2 {
            state.iter_mut().enumerate().for_each(|(i, b)| *b = if i < 9 || *b < 20 { *b % 3 } else { 0 });
        }
        let mut ram = vec![0x33; 0x2000];
        fit_ones += try_state(&mut draw, &state, &image, &mut ram) as u32;
    }
    println!("{} of 6000 are fit", fit_ones);
}

#[test]
fn a_byte_changed_in_a_state_is_seen_where_the_rules_say() {
    let mut draw = Draw::new(4242);
    let image = images::image(0x8000, 0x10, 0, 2);
    let mut fit_ones = 0;
    for _ in 0..12_000 {
        let shape = shape(&mut draw, 512);
        let mut state = states::state(&mut draw, &shape);
        assert!(fit(&state));
        let at = draw.below(64) as usize;
        state[at] = match draw.below(4) {
            0 => draw.byte(),
            1 => state[at].wrapping_add(1),
            2 => state[at] ^ 1 << draw.below(8),
            _ => draw.below(70) as u8,
        };
        let mut ram = vec![0x44; shape.area.min(0x2200)];
        fit_ones += try_state(&mut draw, &state, &image, &mut ram) as u32;
    }
    println!("{} of 12000 are fit", fit_ones);
    assert!(fit_ones > 2000 && fit_ones < 10_000);
}
