//! The same accesses on the same cartridges, by every way there is to make them, in nanoseconds for each access:
//!
//! - floor: an array of 64 KiB by the address, which any way must at least do;
//! - bus: the windows in Rust by `imfelkuz::Bus`, whose pages are looked up beforehand;
//! - cartridge: the windows in Rust by `imfelkuz::Cartridge`, for one access at a time;
//! - window calls: `imf_window_read` and `imf_window_write`, and the state where they ask for it;
//! - calls: `imf_read` and `imf_write`;
//! - original: mizu-core's `Cartridge`, where its source was given.
//!
//! `bench times FILE` writes the tables to a file. `bench count WAY MAPPER ACCESSES ROUNDS` makes one kind of access for so many rounds of 1,000
//! and writes nothing: for a counter of instructions to run.
use imfelkuz::sys::{self, State};
use imfelkuz::{Bus, Cartridge};
use std::arch::asm;
use std::env;
use std::fmt::Write;
use std::time::Instant;

// A value that the compiler knows nothing of. (Rust's own came after 1.63.)
#[inline(always)]
fn black_box<T>(value: T) -> T {
    unsafe { asm!("/* {0} */", in(reg) &value, options(nostack, preserves_flags)) };
    value
}

#[derive(Clone, Copy)]
struct Mapper {
    name: &'static str,
    len: usize,
    ty: u8,
    rom: u8,
    ram: u8,
}

const MAPPERS: [Mapper; 6] = [
    Mapper { name: "NoMapper", len: 0x8000, ty: 0x09, rom: 0, ram: 2 },
    Mapper { name: "MBC1", len: 0x200000, ty: 0x03, rom: 6, ram: 3 },
    Mapper { name: "MBC2", len: 0x40000, ty: 0x06, rom: 3, ram: 0 },
    Mapper { name: "MBC3", len: 0x200000, ty: 0x13, rom: 6, ram: 3 },
    Mapper { name: "MBC3 with timer", len: 0x200000, ty: 0x10, rom: 6, ram: 3 },
    Mapper { name: "MBC5", len: 0x800000, ty: 0x1B, rom: 8, ram: 4 },
];

const LOGO: &[u8; 48] = b"\xce\xed\x66\x66\xcc\x0d\x00\x0b\x03\x73\x00\x83\x00\x0c\x00\x0d\x00\x08\x11\x1f\x88\x89\x00\x0e\xdc\xcc\x6e\xe6\xdd\xdd\xd9\x99\xbb\xbb\x67\x63\x6e\x0e\xec\xcc\xdd\xdc\x99\x9f\xbb\xb9\x33\x3e";

// Every byte but the header's is the low bits of its place; a count of instructions needs none of them.
fn image(mapper: Mapper, filled: bool) -> Vec<u8> {
    let mut image = vec![0; mapper.len];
    if filled {
        for (i, b) in image.iter_mut().enumerate() {
            *b = (i * 31 + i / 0x4000) as u8;
        }
    }
    image[0x104..0x134].copy_from_slice(LOGO);
    image[0x134..0x14E].fill(0);
    (image[0x147], image[0x148], image[0x149]) = (mapper.ty, mapper.rom, mapper.ram);
    image[0x14D] = image[0x134..0x14D].iter().fold(0u8, |c, b| c.wrapping_sub(*b).wrapping_sub(1));
    image
}

/// One way to make an access.
trait Way {
    fn read(&mut self, addr: u16) -> u8;
    fn write(&mut self, addr: u16, byte: u8);
}

struct Floor(Box<[u8; 0x10000]>);

impl Way for Floor {
    fn read(&mut self, addr: u16) -> u8 {
        self.0[addr as usize]
    }

    fn write(&mut self, addr: u16, byte: u8) {
        self.0[addr as usize] = byte;
    }
}

impl Way for Bus<'_> {
    #[inline]
    fn read(&mut self, addr: u16) -> u8 {
        self.byte(addr)
    }

    #[inline]
    fn write(&mut self, addr: u16, byte: u8) {
        let _ = Bus::write(self, addr, byte);
    }
}

impl Way for Cartridge {
    #[inline]
    fn read(&mut self, addr: u16) -> u8 {
        self.byte(addr)
    }

    #[inline]
    fn write(&mut self, addr: u16, byte: u8) {
        let _ = Cartridge::write(self, addr, byte);
    }
}

struct Calls {
    state: State,
    image: Vec<u8>,
    ram: Vec<u8>,
}

impl Calls {
    fn mount(image: Vec<u8>) -> Calls {
        let (image, ram, state) = Cartridge::mount(image, 0).unwrap().into_parts();
        Calls { state, image, ram }
    }
}

impl Way for Calls {
    #[inline]
    fn read(&mut self, addr: u16) -> u8 {
        sys::read(&self.state, &self.image, &self.ram, addr) as u8
    }

    #[inline]
    fn write(&mut self, addr: u16, byte: u8) {
        sys::write(&mut self.state, &mut self.ram, addr, byte);
    }
}

struct WindowCalls(Calls, sys::Windows);

// What the windows leave to the state is rare, and kept out of the loop: so a player would.
impl WindowCalls {
    #[cold]
    #[inline(never)]
    fn ask(&self, addr: u16) -> u8 {
        sys::read(&self.0.state, &self.0.image, &self.0.ram, addr) as u8
    }

    #[cold]
    #[inline(never)]
    fn tell(&mut self, addr: u16, byte: u8) {
        self.0.write(addr, byte);
        if addr < 0x8000 {
            sys::windows(&self.0.state, &mut self.1);
        }
    }
}

impl Way for WindowCalls {
    #[inline]
    fn read(&mut self, addr: u16) -> u8 {
        match sys::window_read(&self.1, &self.0.image, &self.0.ram, addr) {
            sys::ASK => self.ask(addr),
            seen => seen as u8,
        }
    }

    #[inline]
    fn write(&mut self, addr: u16, byte: u8) {
        if sys::window_write(&self.1, &mut self.0.ram, addr, byte) == sys::ASK {
            self.tell(addr, byte);
        }
    }
}

#[cfg(original)]
impl Way for mizu::cartridge::Cartridge {
    #[inline]
    fn read(&mut self, addr: u16) -> u8 {
        match addr {
            0x0000..=0x3FFF => self.read_rom0(addr),
            0x4000..=0x7FFF => self.read_romx(addr),
            _ => self.read_ram(addr),
        }
    }

    #[inline]
    fn write(&mut self, addr: u16, byte: u8) {
        match addr {
            0x0000..=0x7FFF => self.write_to_bank_controller(addr, byte),
            _ => self.write_ram(addr, byte),
        }
    }
}

// It mounts files; it tells what it does on the standard output.
#[cfg(original)]
fn original(image: &[u8]) -> mizu::cartridge::Cartridge {
    let path = env::temp_dir().join(format!("bench-{}.gb", std::process::id()));
    std::fs::write(&path, image).unwrap();
    let none = path.with_extension("none");
    let cart = mizu::cartridge::Cartridge::from_file(&path, Some(none), false).map_err(|_| "refused").unwrap();
    std::fs::remove_file(&path).unwrap();
    cart
}

const ACCESSES: [&str; 6] = ["romx read", "RAM read", "RAM write", "register write", "game's mix", "clock read"];
const CLOCK: usize = 5;

// 1,000 accesses: a write's first byte is 1, then come address and byte.
fn accesses(kind: usize) -> Vec<u32> {
    let mut x = 0x2545_F491u32;
    let mut drawn = move || {
        x ^= x << 13;
        x ^= x >> 17;
        x ^= x << 5;
        x >> 4
    };
    let read = |addr: u32| addr << 8;
    let write = |addr: u32, byte: u32| 1 << 24 | addr << 8 | byte & 0xFF;
    // Bit 8 of the address is set, which MBC2 asks of its bank register.
    (0..1000)
        .map(|i| match kind {
            0 => read(0x4000 + drawn() % 0x4000),
            1 | CLOCK => read(0xA000 + drawn() % 0x2000),
            2 => write(0xA000 + drawn() % 0x2000, drawn()),
            3 => write(0x2100, drawn()),
            _ => match (i * 611) % 1000 {
                0..=449 => read(drawn() % 0x4000),
                450..=899 => read(0x4000 + drawn() % 0x4000),
                900..=959 => read(0xA000 + drawn() % 0x2000),
                960..=995 => write(0xA000 + drawn() % 0x2000, drawn()),
                _ => write(0x2100, drawn()),
            },
        })
        .collect()
}

// RAM enabled, and RAM bank 0 or the clock's second selected.
fn set_up(way: &mut impl Way, kind: usize) {
    way.write(0x0000, 0x0A);
    way.write(0x4000, if kind == CLOCK { 8 } else { 0 });
}

#[inline(never)]
fn play(way: &mut impl Way, accesses: &[u32]) -> u64 {
    let mut sum = 0;
    for access in accesses {
        let addr = (access >> 8) as u16;
        if access >> 24 == 1 {
            way.write(addr, *access as u8);
        } else {
            sum += u64::from(way.read(addr));
        }
    }
    sum
}

fn play_rounds(way: &mut impl Way, kind: usize, rounds: u32) {
    set_up(way, kind);
    let accesses = accesses(kind);
    for _ in 0..rounds {
        black_box(play(way, black_box(&accesses)));
    }
}

// The least of 15 times, each of about 4 milliseconds, in nanoseconds for one of `each`.
fn least(each: u32, mut run: impl FnMut()) -> f64 {
    let mut rounds = 1u32;
    loop {
        let start = Instant::now();
        (0..rounds).for_each(|_| run());
        if start.elapsed().as_micros() > 2000 || rounds > 1 << 24 {
            break;
        }
        rounds *= 2;
    }
    let mut best = f64::INFINITY;
    for _ in 0..15 {
        let start = Instant::now();
        (0..rounds).for_each(|_| run());
        best = best.min(start.elapsed().as_nanos() as f64);
    }
    best / f64::from(rounds) / f64::from(each)
}

fn time(mut way: impl Way, kind: usize) -> f64 {
    set_up(&mut way, kind);
    let accesses = accesses(kind);
    least(1000, || {
        black_box(play(&mut way, black_box(&accesses)));
    })
}

fn floor() -> Floor {
    Floor(vec![0x5A; 0x10000].into_boxed_slice().try_into().unwrap())
}

fn window_calls(image: Vec<u8>) -> WindowCalls {
    let calls = Calls::mount(image);
    let mut windows = [0; 6];
    sys::windows(&calls.state, &mut windows);
    let mut way = WindowCalls(calls, windows);
    // The windows are asked for anew.
    way.write(0x0000, 0x00);
    way
}

fn with_clock(mapper: Mapper, kind: usize) -> bool {
    kind != CLOCK || mapper.ty == 0x10
}

fn times(out: &mut String) {
    writeln!(
        out,
        "{:16} {:15} {:>8} {:>8} {:>10} {:>13} {:>8} {:>10} {:>9} {:>13} {:>21}",
        "ns for an access",
        "",
        "floor",
        "bus",
        "cartridge",
        "window calls",
        "calls",
        "bus/floor",
        "original",
        "bus/original",
        "window calls/original"
    )
    .unwrap();
    for mapper in MAPPERS {
        for (kind, name) in ACCESSES.iter().enumerate().filter(|(kind, _)| with_clock(mapper, *kind)) {
            let image = || image(mapper, true);
            let floor = time(floor(), kind);
            let mut cart = Cartridge::mount(image(), 0).unwrap();
            let bus = time(cart.bus(), kind);
            let cartridge = time(cart, kind);
            let window_calls = time(window_calls(image()), kind);
            let calls = time(Calls::mount(image()), kind);
            write!(
                out,
                "{:16} {:15} {:8.2} {:8.2} {:10.2} {:13.2} {:8.2} {:10.2}",
                mapper.name,
                name,
                floor,
                bus,
                cartridge,
                window_calls,
                calls,
                bus / floor
            )
            .unwrap();
            #[cfg(original)]
            {
                let original = time(original(&image()), kind);
                write!(out, " {:9.2} {:13.2} {:21.2}", original, bus / original, window_calls / original).unwrap();
            }
            writeln!(out).unwrap();
        }
    }
}

fn row(out: &mut String, what: &str, ns: f64) {
    writeln!(out, "{:62} {:12.1}", what, ns).unwrap();
}

// What is done once in a while.
fn rarely(out: &mut String) {
    writeln!(out, "\n{:62} {:>12}", "ns for a call", "").unwrap();
    let large = image(MAPPERS[5], true);
    let mut calls = Calls::mount(large.clone());
    let empty = image(Mapper { ram: 0, ..MAPPERS[5] }, true);
    let mut state = calls.state;
    row(
        out,
        "imf_header of 8 MiB",
        least(1, || {
            black_box(sys::header(black_box(&large), &mut [0; 12]));
        }),
    );
    row(
        out,
        "imf_mount of 8 MiB, no RAM",
        least(1, || {
            black_box(sys::mount(&mut state, black_box(&empty), &mut [], 0));
        }),
    );
    row(
        out,
        "imf_mount of 8 MiB, 128 KiB of RAM zeroed",
        least(1, || {
            black_box(sys::mount(&mut calls.state, black_box(&large), &mut calls.ram, 0));
        }),
    );
    let timer = Calls::mount(image(MAPPERS[4], true)).state;
    for (name, clocks) in
        [("one clock", 1), ("a second", 2_097_152), ("a year", 31_536_000 * 2_097_152), ("2^64 - 1 clocks", u64::MAX)]
    {
        row(
            out,
            &format!("imf_advance by {}", name),
            least(1, || {
                let mut state = timer;
                black_box(sys::advance(black_box(&mut state), black_box(clocks)));
            }),
        );
    }
    #[cfg(original)]
    {
        let mut cart = original(&image(MAPPERS[4], true));
        row(out, "original: clock_mapper, one clock", least(1, || black_box(&mut cart).clock_mapper()));
    }
    let mut room = vec![0; 0x20000];
    let mut size = 0;
    row(
        out,
        "imf_save_out of 128 KiB",
        least(1, || {
            black_box(sys::save_out(&calls.state, &calls.ram, black_box(&mut room), 0, &mut size));
        }),
    );
    row(
        out,
        "imf_save_in of 128 KiB",
        least(1, || {
            black_box(sys::save_in(&mut calls.state, &mut calls.ram, black_box(&room), 0, &mut 0));
        }),
    );
    row(
        out,
        "imf_windows",
        least(1, || {
            black_box(sys::windows(black_box(&calls.state), &mut [0; 6]));
        }),
    );
}

// How deep a call goes: the stack below is painted, and what the call has changed of it is looked for.
mod stack {
    const DEPTH: usize = 0x4000;
    const PAINT: u8 = 0xB7;

    // Where the frames begin of functions that are called from here: a place in one, and up to what stacks are aligned to.
    #[inline(never)]
    fn below() -> usize {
        let place = 0u8;
        (super::black_box(&place as *const u8) as usize + 15) & !15
    }

    #[inline(always)]
    pub fn depth<T>(call: impl FnOnce() -> T) -> usize {
        let top = below();
        (1..=DEPTH).for_each(|i| unsafe { ((top - i) as *mut u8).write_volatile(PAINT) });
        super::black_box(call());
        let untouched = (1..=DEPTH).rev().take_while(|i| unsafe { ((top - i) as *const u8).read_volatile() } == PAINT).count();
        DEPTH - untouched
    }
}

fn depths(out: &mut String) {
    let image = image(MAPPERS[4], false);
    let calls = Calls::mount(image);
    let (mut state, mut ram, mut room, mut size) = (calls.state, calls.ram.clone(), vec![0; 0x9000], 0);
    writeln!(out, "\nbytes of stack that a call takes").unwrap();
    let mut deepest = |name: &str, depth: usize| writeln!(out, "{:62} {:12}", name, depth).unwrap();
    deepest("imf_header", stack::depth(|| sys::header(&calls.image, &mut [0; 12])));
    deepest("imf_mount", stack::depth(|| sys::mount(&mut state, &calls.image, &mut ram, 0)));
    deepest("imf_read", stack::depth(|| sys::read(&state, &calls.image, &ram, 0xA000)));
    deepest("imf_write", stack::depth(|| sys::write(&mut state, &mut ram, 0xA000, 5)));
    deepest("imf_advance", stack::depth(|| sys::advance(&mut state, 1 << 60)));
    deepest("imf_save_out", stack::depth(|| sys::save_out(&state, &ram, &mut room, 0, &mut size)));
    deepest("imf_save_in", stack::depth(|| sys::save_in(&mut state, &mut ram, &room, 0, &mut 0)));
    deepest("imf_windows", stack::depth(|| sys::windows(&state, &mut [0; 6])));
    deepest("imf_window_read", stack::depth(|| sys::window_read(&[0; 6], &calls.image, &ram, 0xA000)));
    writeln!(out, "\n{:62} {:12}", "bytes of a state", sys::STATE_SIZE).unwrap();
}

fn count(way: &str, mapper: usize, kind: usize, rounds: u32) {
    let image = image(MAPPERS[mapper], false);
    match way {
        "floor" => play_rounds(&mut floor(), kind, rounds),
        "bus" => play_rounds(&mut Cartridge::mount(image, 0).unwrap().bus(), kind, rounds),
        "cartridge" => play_rounds(&mut Cartridge::mount(image, 0).unwrap(), kind, rounds),
        "window-calls" => play_rounds(&mut window_calls(image), kind, rounds),
        "calls" => play_rounds(&mut Calls::mount(image), kind, rounds),
        #[cfg(original)]
        "original" => play_rounds(&mut original(&image), kind, rounds),
        _ => panic!("no such way"),
    }
}

fn main() {
    let words: Vec<String> = env::args().skip(1).collect();
    let words: Vec<&str> = words.iter().map(String::as_str).collect();
    match words[..] {
        ["times", file] => {
            let mut out = String::new();
            times(&mut out);
            rarely(&mut out);
            depths(&mut out);
            std::fs::write(file, out).unwrap();
        }
        ["count", way, mapper, kind, rounds] => {
            count(way, mapper.parse().unwrap(), kind.parse().unwrap(), rounds.parse().unwrap())
        }
        _ => panic!("usage: bench times FILE | bench count WAY MAPPER ACCESSES ROUNDS"),
    }
}
