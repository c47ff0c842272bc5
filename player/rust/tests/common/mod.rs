//! What the tests share: images, cartridges behind the two ways in, and the lines of the programs that show the bus and the save file.
#![allow(dead_code)]

pub mod images;
pub mod lines;
pub mod saves;
pub mod states;

// The recipes and tables of the proved programs are plain Rust: they are used as they stand.
#[rustfmt::skip]
#[path = "../../../../crates/bus_recipe/src/build.rt"]
pub mod build;
#[rustfmt::skip]
#[path = "../../../../crates/bus_recipe/src/draw.rt"]
pub mod draw;
#[rustfmt::skip]
#[path = "../../../../crates/bus_recipe/src/steps.rt"]
pub mod steps;

use imfelkuz::sys::{self, State};
use imfelkuz::{Cartridge, Facts, Loaded, Refusal};

/// A mounted cartridge, whatever way in it takes. An error is the number of a refusal.
pub trait Bus: Sized {
    fn mount(image: &[u8], area: usize, wall: u64) -> Result<Self, u32>;
    fn read(&self, addr: u16) -> Result<u8, u32>;
    fn write(&mut self, addr: u16, byte: u8) -> Result<(), u32>;
    fn advance(&mut self, clocks: u64) -> Result<(), u32>;
    fn save(&self, room: &mut [u8], wall: u64) -> Result<usize, u32>;
    fn load(&mut self, save: &[u8], wall: u64) -> Result<Loaded, u32>;
    fn ram(&self) -> &[u8];
}

/// The calls alone: each is lent the image, the RAM and the state.
#[derive(Clone)]
pub struct Lent {
    pub state: State,
    pub image: Vec<u8>,
    pub ram: Vec<u8>,
}

pub fn done(number: u32) -> Result<(), u32> {
    match number {
        0 => Ok(()),
        n => Err(n),
    }
}

pub fn byte(answer: u32) -> Result<u8, u32> {
    if answer < sys::REFUSED {
        Ok(answer as u8)
    } else {
        Err(answer - sys::REFUSED)
    }
}

impl Bus for Lent {
    fn mount(image: &[u8], area: usize, wall: u64) -> Result<Self, u32> {
        let mut lent = Lent { state: [0xEE; 64], image: image.to_vec(), ram: vec![0xEE; area] };
        done(sys::mount(&mut lent.state, image, &mut lent.ram, wall))?;
        Ok(lent)
    }

    fn read(&self, addr: u16) -> Result<u8, u32> {
        byte(sys::read(&self.state, &self.image, &self.ram, addr))
    }

    fn write(&mut self, addr: u16, byte: u8) -> Result<(), u32> {
        done(sys::write(&mut self.state, &mut self.ram, addr, byte))
    }

    fn advance(&mut self, clocks: u64) -> Result<(), u32> {
        done(sys::advance(&mut self.state, clocks))
    }

    fn save(&self, room: &mut [u8], wall: u64) -> Result<usize, u32> {
        let mut size = 0;
        done(sys::save_out(&self.state, &self.ram, room, wall, &mut size))?;
        Ok(size as usize)
    }

    fn load(&mut self, save: &[u8], wall: u64) -> Result<Loaded, u32> {
        let mut clock = 2;
        done(sys::save_in(&mut self.state, &mut self.ram, save, wall, &mut clock))?;
        Ok([Loaded::RamOnly, Loaded::Whole][clock as usize])
    }

    fn ram(&self) -> &[u8] {
        &self.ram
    }
}

fn number(why: Refusal) -> u32 {
    why.number().into()
}

impl Bus for Cartridge {
    // A cartridge makes its own area: where the case lends another, the call is asked.
    fn mount(image: &[u8], area: usize, wall: u64) -> Result<Self, u32> {
        let facts = Facts::of(image).map_err(number)?;
        if facts.ram_area != area {
            done(sys::mount(&mut [0; 64], image, &mut vec![0; area], wall))?;
        }
        Cartridge::mount(image, wall).map_err(number)
    }

    fn read(&self, addr: u16) -> Result<u8, u32> {
        self.read(addr).map_err(number)
    }

    fn write(&mut self, addr: u16, byte: u8) -> Result<(), u32> {
        self.write(addr, byte).map_err(number)
    }

    fn advance(&mut self, clocks: u64) -> Result<(), u32> {
        self.advance(clocks).map_err(number)
    }

    fn save(&self, room: &mut [u8], wall: u64) -> Result<usize, u32> {
        self.save_into(room, wall).map_err(number)
    }

    fn load(&mut self, save: &[u8], wall: u64) -> Result<Loaded, u32> {
        self.load(save, wall).map_err(number)
    }

    fn ram(&self) -> &[u8] {
        self.ram()
    }
}

/// Marsaglia's xorshift, from a fixed seed: every run draws the same.
pub struct Draw(u64);

impl Draw {
    pub fn new(seed: u64) -> Draw {
        Draw(seed)
    }

    pub fn next(&mut self) -> u64 {
        self.0 ^= self.0 << 13;
        self.0 ^= self.0 >> 7;
        self.0 ^= self.0 << 17;
        self.0
    }

    /// Below n.
    pub fn below(&mut self, n: u64) -> u64 {
        (self.next() >> 11) % n
    }

    pub fn byte(&mut self) -> u8 {
        self.below(256) as u8
    }

    pub fn addr(&mut self) -> u16 {
        self.below(0x10000) as u16
    }

    pub fn one_in(&mut self, n: u64) -> bool {
        self.below(n) == 0
    }

    pub fn of<T: Copy>(&mut self, from: &[T]) -> T {
        from[self.below(from.len() as u64) as usize]
    }

    pub fn fill(&mut self, bytes: &mut [u8]) {
        for chunk in bytes.chunks_mut(8) {
            let drawn = self.next().wrapping_mul(0x9E37_79B9_7F4A_7C15).to_le_bytes();
            chunk.copy_from_slice(&drawn[..chunk.len()]);
        }
    }
}
