//! A Game Boy cartridge: its header, the mappers MBC1, MBC2, MBC3 with its clock and MBC5, and the save file, over `libplayer.a`, whose
//! calls are proved.
//!
//! A [`Cartridge`] owns its image and its RAM. It is read and written by address, as the console's bus does:
//!
//! | Address | Read | Written |
//! |---|---|---|
//! | 0x0000 to 0x3FFF | ROM, bank 0 (MBC1 may move it) | the mapper's registers |
//! | 0x4000 to 0x7FFF | ROM, the selected bank | the mapper's registers |
//! | 0xA000 to 0xBFFF | RAM or a clock register, 0xFF where nothing is mapped | the same, or nothing |
//! | any other | [`Refusal::BadAddress`] | [`Refusal::BadAddress`] |
//!
//! ```
//! # fn image() -> Vec<u8> {
//! #     let mut image = vec![0; 0x8000];
//! #     image[0x104..0x134].copy_from_slice(b"\xce\xed\x66\x66\xcc\x0d\x00\x0b\x03\x73\x00\x83\x00\x0c\x00\x0d\x00\x08\x11\x1f\x88\x89\x00\x0e\xdc\xcc\x6e\xe6\xdd\xdd\xd9\x99\xbb\xbb\x67\x63\x6e\x0e\xec\xcc\xdd\xdc\x99\x9f\xbb\xb9\x33\x3e");
//! #     image[0x147] = 3;
//! #     image[0x149] = 2;
//! #     image[0x14D] = image[0x134..0x14D].iter().fold(0, |c: u8, b| c.wrapping_sub(*b).wrapping_sub(1));
//! #     image
//! # }
//! use imfelkuz::Cartridge;
//!
//! # let (image, wall) = (image(), 0);
//! let mut cart = Cartridge::mount(image, wall)?;    // wall: seconds, for the clock of a cartridge with a timer
//! cart.write(0x0000, 0x0A)?;                        // the game enables its RAM
//! cart.write(0xA000, 0x5C)?;
//! assert_eq!(cart.read(0xA000)?, 0x5C);
//! cart.advance(2_097_152)?;                         // a second of mapper clocks
//! let save = cart.save(wall + 1)?;                  // what the battery keeps
//! cart.load(&save, wall + 1)?;
//! # Ok::<(), imfelkuz::Refusal>(())
//! ```
//!
//! Reads and RAM writes go through the cartridge's windows, which this crate keeps and asks for again after each accepted register
//! write and each save that was read: a few instructions in the caller's loop, and the fewest by way of [`Cartridge::bus`]. All else
//! is a call into the library. No call panics, whatever the image, the save or the state holds; a refused one changes nothing.
//!
//! # What is proved, and what is tested
//!
//! | Group | It is | Held by |
//! |---|---|---|
//! | the library's calls, in [`sys`] as functions over slices | Rattle | proofs: each answers, and leaves every lent byte, as its definition says, for every image, state, address, byte, clock count and save |
//! | [`Facts::of`] and of [`Cartridge`] `mount`, `from_parts`, `advance`, `save_size`, `save`, `save_into` and `load`, of [`Bus`] `advance` | Rust that makes such a call, or a few, and hands on the answer | tests |
//! | of [`Cartridge`] and of [`Bus`] `read`, `byte` and `write` | Rust that restates the proved reads and writes through windows, and calls the library where these cannot say | tests, which compare each with the proved calls on drawn states of every kind |
//! | [`trace`] and [`Refusal`] | Rust that restates the rules' records, numbers and words | tests |
//!
//! `docs/PROMISES.md` of the repository has the definitions, and what is assumed.
//!
//! The library is for Linux on x86-64 and on aarch64: `make player` builds both. The environment variable `IMFELKUZ_LIB` names its folder
//! where that is not `target/library/x86_64` or `target/library/aarch64` of the same repository.
#![deny(unsafe_op_in_unsafe_fn)]
#![deny(unsafe_code)]
#![warn(missing_docs)]

#[cfg(not(any(doc, all(any(target_arch = "x86_64", target_arch = "aarch64"), target_os = "linux"))))]
compile_error!("libplayer.a is for Linux on x86-64 and on aarch64: build for one of these targets");

mod bus;
mod refusal;
pub mod sys;
pub mod trace;

pub use bus::Bus;
pub use refusal::Refusal;
pub use sys::State;

use std::fmt;

/// The version of this crate, and of what comes with it: the library and the C header.
pub const VERSION: &str = env!("CARGO_PKG_VERSION");

/// Mapper clocks in a second.
pub const CLOCKS_PER_SECOND: u64 = 2_097_152;

/// The kinds of cartridge.
#[derive(Clone, Copy, Debug, PartialEq, Eq, Hash)]
pub enum Kind {
    /// 32 KiB and no registers.
    NoMapper,
    /// MBC1.
    Mbc1,
    /// MBC1 with four games of 256 KiB.
    Mbc1Multicart,
    /// MBC2, with 512 half-bytes of its own.
    Mbc2,
    /// MBC3.
    Mbc3,
    /// MBC3 with a clock.
    Mbc3Timer,
    /// MBC5.
    Mbc5,
}

/// What a header says.
#[derive(Clone, Copy, Debug, PartialEq, Eq)]
pub struct Facts {
    /// The mapper.
    pub kind: Kind,
    /// ROM banks of 16 KiB in the padded image: 2, 4, .. 512.
    pub rom_banks: usize,
    /// The header's RAM in bytes.
    pub ram_size: usize,
    /// The bytes of the RAM area: the same, and 512 more for MBC2's half-bytes.
    pub ram_area: usize,
    /// Whether there is a save.
    pub battery: bool,
    /// Whether there is a clock.
    pub timer: bool,
    /// Whether there is a motor.
    pub rumble: bool,
    /// Whether the header asks for a Game Boy Color.
    pub colour: bool,
    title: (usize, usize),
}

impl Facts {
    /// Reads the header of an image, or says with 1 to 11 why it is none. The cost does not grow with the image.
    pub fn of(image: &[u8]) -> Result<Facts, Refusal> {
        let mut found = [0; 12];
        done(sys::header(image, &mut found))?;
        let [kind, rom_banks, ram_size, ram_area, battery, timer, rumble, colour, title, title_length, ..] = found;
        Ok(Facts {
            kind: match kind {
                0 => Kind::NoMapper,
                1 => Kind::Mbc1,
                2 => Kind::Mbc1Multicart,
                3 => Kind::Mbc2,
                4 => Kind::Mbc3,
                5 => Kind::Mbc3Timer,
                _ => Kind::Mbc5,
            },
            rom_banks: rom_banks as usize,
            ram_size: ram_size as usize,
            ram_area: ram_area as usize,
            battery: battery == 1,
            timer: timer == 1,
            rumble: rumble == 1,
            colour: colour == 1,
            title: (title as usize, title_length as usize),
        })
    }
}

/// What came with a save that was read.
#[derive(Clone, Copy, Debug, PartialEq, Eq)]
pub enum Loaded {
    /// The RAM and the clock, which has caught up.
    Whole,
    /// The RAM. The cartridge has no timer, or the save no block for it: the clock goes on as it was.
    RamOnly,
}

/// A mounted cartridge, with its image and RAM.
///
/// Its reads and RAM writes are compared with the proved calls by running, not proved; the rest hands on the library's answers.
#[derive(Clone)]
pub struct Cartridge {
    image: Vec<u8>,
    ram: Vec<u8>,
    state: State,
    windows: Windows,
    facts: Facts,
}

/// Where the windows stand.
#[derive(Clone, Copy)]
struct Windows {
    found: sys::Windows,
    /// What to add to an address, for each 8 KiB of them, to have its place in the image.
    image: [usize; 8],
}

const NOT_MAPPED: u32 = 0;
const BYTES: u32 = 1;
const HALF_BYTES: u32 = 2;

/// With any address a place that no image has.
const NOWHERE: usize = usize::MAX / 2;

impl Windows {
    fn of(state: &State) -> Result<Windows, Refusal> {
        let mut windows = Windows { found: [0; 6], image: [NOWHERE; 8] };
        windows.ask(state)?;
        Ok(windows)
    }

    fn ask(&mut self, state: &State) -> Result<(), Refusal> {
        done(sys::windows(state, &mut self.found))?;
        let [rom0, romx, ..] = self.found;
        let (low, high) = (rom0 as usize, (romx as usize).wrapping_sub(0x4000));
        self.image = [low, low, high, high, NOWHERE, NOWHERE, NOWHERE, NOWHERE];
        Ok(())
    }

    /// How the RAM's is mapped.
    #[inline]
    fn how(&self) -> u32 {
        self.found[4]
    }

    #[inline]
    fn place(&self, addr: u16) -> usize {
        let [_, _, ram, mask, ..] = self.found;
        ram as usize + (addr as usize & mask as usize)
    }
}

impl Cartridge {
    /// Mounts an image with zeroed RAM. `wall` is the time in seconds since any fixed moment, where a timer's clock starts.
    ///
    /// Refuses what is no image, with 1 to 11.
    pub fn mount(image: impl Into<Vec<u8>>, wall: u64) -> Result<Cartridge, Refusal> {
        let image = image.into();
        let facts = Facts::of(&image)?;
        let mut ram = vec![0; facts.ram_area];
        let mut state = [0; sys::STATE_SIZE];
        done(sys::mount(&mut state, &image, &mut ram, wall))?;
        let windows = Windows::of(&state)?;
        Ok(Cartridge { image, ram, state, windows, facts })
    }

    /// A cartridge again from what [`into_parts`](Cartridge::into_parts) gave, or from bytes that were kept elsewhere.
    ///
    /// Refuses what is no image (1 to 11), bytes that are no state or an unfit one (13), and an image or RAM that is not as long as the
    /// state's (14).
    /// Whether the bytes were written for this image, and not for another of the same length, is the caller's to know: either is safe.
    pub fn from_parts(image: impl Into<Vec<u8>>, ram: impl Into<Vec<u8>>, state: State) -> Result<Cartridge, Refusal> {
        let (image, ram) = (image.into(), ram.into());
        let facts = Facts::of(&image)?;
        byte(sys::read(&state, &image, &ram, 0x0000))?;
        let windows = Windows::of(&state)?;
        Ok(Cartridge { image, ram, state, windows, facts })
    }

    /// The image, the RAM and the state.
    pub fn into_parts(self) -> (Vec<u8>, Vec<u8>, State) {
        (self.image, self.ram, self.state)
    }

    /// The byte that an address reads.
    ///
    /// Refuses an address outside the cartridge, with 15.
    #[inline]
    pub fn read(&self, addr: u16) -> Result<u8, Refusal> {
        match self.image_byte(addr) {
            Some(byte) => Ok(byte),
            None => self.read_elsewhere(addr),
        }
    }

    /// The same for a bus that sends the cartridge its own addresses only: others read 0xFF, as an open bus does.
    #[inline]
    pub fn byte(&self, addr: u16) -> u8 {
        match self.image_byte(addr) {
            Some(byte) => byte,
            None => self.byte_elsewhere(addr),
        }
    }

    // None where the address shows no part of the image, or one behind its end.
    #[inline]
    fn image_byte(&self, addr: u16) -> Option<u8> {
        let place = self.windows.image[usize::from(addr >> 13)].wrapping_add(usize::from(addr));
        self.image.get(place).copied()
    }

    // A call, so that the caller's loop holds what most reads take and no more.
    #[inline(never)]
    fn byte_elsewhere(&self, addr: u16) -> u8 {
        if addr >> 13 == 5 && self.windows.how() == BYTES {
            return self.ram_byte(addr);
        }
        self.read_elsewhere(addr).unwrap_or(0xFF)
    }

    fn read_elsewhere(&self, addr: u16) -> Result<u8, Refusal> {
        match addr {
            0x0000..=0x7FFF => Ok(0), // The image counts as padded with zeros.
            0xA000..=0xBFFF => match self.windows.how() {
                NOT_MAPPED => Ok(0xFF),
                BYTES => Ok(self.ram_byte(addr)),
                HALF_BYTES => Ok(self.ram_byte(addr) | 0xF0),
                _ => self.ask(addr),
            },
            _ => Err(Refusal::BadAddress),
        }
    }

    /// Writes a byte to an address: below 0x8000 to the mapper's registers, from 0xA000 on to the RAM or a clock register.
    ///
    /// Refuses an address outside the cartridge (15) and an MBC3 selection that there is not (16).
    #[inline]
    pub fn write(&mut self, addr: u16, byte: u8) -> Result<(), Refusal> {
        match addr {
            0x0000..=0x7FFF => self.write_register(addr, byte),
            0xA000..=0xBFFF => {
                match self.windows.how() {
                    NOT_MAPPED => {}
                    BYTES => self.put(addr, byte),
                    HALF_BYTES => self.put(addr, byte & 0x0F),
                    _ => return self.tell(addr, byte),
                }
                Ok(())
            }
            _ => Err(Refusal::BadAddress),
        }
    }

    #[inline]
    fn ram_byte(&self, addr: u16) -> u8 {
        let place = self.windows.place(addr);
        if place < self.ram.len() {
            self.ram[place]
        } else {
            0xFF
        }
    }

    #[inline]
    fn put(&mut self, addr: u16, byte: u8) {
        let place = self.windows.place(addr);
        if place < self.ram.len() {
            self.ram[place] = byte;
        }
    }

    fn ask(&self, addr: u16) -> Result<u8, Refusal> {
        byte(sys::read(&self.state, &self.image, &self.ram, addr))
    }

    fn tell(&mut self, addr: u16, byte: u8) -> Result<(), Refusal> {
        done(sys::write(&mut self.state, &mut self.ram, addr, byte))
    }

    // The windows may have moved.
    fn write_register(&mut self, addr: u16, byte: u8) -> Result<(), Refusal> {
        self.tell(addr, byte)?;
        self.windows.ask(&self.state)
    }

    /// The cartridge lent out for a run of accesses: the fastest way to make many.
    pub fn bus(&mut self) -> Bus<'_> {
        Bus::new(&mut self.image, &mut self.ram, &mut self.state, &mut self.windows)
    }

    /// Lets mapper clocks pass, [`CLOCKS_PER_SECOND`] of them in a second. Only a timer's clock shows it. It costs the same for one
    /// clock and for `u64::MAX` of them.
    ///
    /// Refuses with 17 where the clock's time has no room for it.
    pub fn advance(&mut self, clocks: u64) -> Result<(), Refusal> {
        done(sys::advance(&mut self.state, clocks))
    }

    /// How many bytes a save has.
    ///
    /// Refuses a cartridge without a battery, with 18.
    pub fn save_size(&self) -> Result<usize, Refusal> {
        let mut size = 0;
        done(sys::save_size(&self.state, &mut size))?;
        Ok(size as usize)
    }

    /// The save at this wall time: the RAM, and behind it 21 bytes of a timer's clock.
    ///
    /// Refuses a cartridge without a battery, with 18.
    pub fn save(&self, wall: u64) -> Result<Vec<u8>, Refusal> {
        let mut room = vec![0; self.save_size()?];
        self.save_into(&mut room, wall)?;
        Ok(room)
    }

    /// Writes the save at this wall time to the start of the room, and says how many bytes it has. The rest of the room stays.
    ///
    /// Refuses a cartridge without a battery (18) and room that is too short (21).
    pub fn save_into(&self, room: &mut [u8], wall: u64) -> Result<usize, Refusal> {
        let mut size = 0;
        done(sys::save_out(&self.state, &self.ram, room, wall, &mut size))?;
        Ok(size as usize)
    }

    /// Reads a save at this wall time; bytes behind it are ignored.
    ///
    /// A timer's clock becomes the save's: its time is the wall time plus the saved offset; halt and carry, the sub-second, the latch and
    /// the frozen copy are cleared; second, minute, hour and day are the saved ones, and then step by the time that passed since they were saved.
    ///
    /// Refuses a cartridge without a battery (18), a save shorter than the RAM (19), a clock block beyond its registers (20) and one
    /// whose time has no room (17).
    pub fn load(&mut self, save: &[u8], wall: u64) -> Result<Loaded, Refusal> {
        let mut clock = 0;
        done(sys::save_in(&mut self.state, &mut self.ram, save, wall, &mut clock))?;
        self.windows.ask(&self.state)?;
        Ok(if clock == 1 { Loaded::Whole } else { Loaded::RamOnly })
    }

    /// The title that the header has, up to 15 bytes.
    pub fn title(&self) -> &str {
        let (place, length) = self.facts.title;
        let bytes = self.image.get(place..place + length).unwrap_or(&[]);
        std::str::from_utf8(bytes).unwrap_or("") // Number 3 refuses any title that is none.
    }

    /// What the header says.
    pub fn facts(&self) -> &Facts {
        &self.facts
    }

    /// The image as it was mounted.
    pub fn image(&self) -> &[u8] {
        &self.image
    }

    /// The RAM area: the header's RAM, and behind it MBC2's half-bytes.
    pub fn ram(&self) -> &[u8] {
        &self.ram
    }

    /// The 64 bytes that, with the image and the RAM, are the cartridge. The same cartridge has the same bytes.
    pub fn state(&self) -> &State {
        &self.state
    }
}

// The image and the RAM by their lengths.
impl fmt::Debug for Cartridge {
    fn fmt(&self, f: &mut fmt::Formatter<'_>) -> fmt::Result {
        f.debug_struct("Cartridge")
            .field("title", &self.title())
            .field("facts", &self.facts)
            .field("image", &format_args!("{} bytes", self.image.len()))
            .field("ram", &format_args!("{} bytes", self.ram.len()))
            .field("state", &self.state)
            .finish()
    }
}

fn refusal(number: u32) -> Refusal {
    Refusal::from_number(number).unwrap_or(Refusal::Unfit) // The library has no number that is not in the enum.
}

fn done(number: u32) -> Result<(), Refusal> {
    match number {
        0 => Ok(()),
        n => Err(refusal(n)),
    }
}

#[inline]
fn byte(answer: u32) -> Result<u8, Refusal> {
    if answer < sys::REFUSED {
        Ok(answer as u8)
    } else {
        Err(refusal(answer - sys::REFUSED))
    }
}
