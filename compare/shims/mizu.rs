//! The original's cartridge module as it stands, and its mappers a second time, since the module keeps them to itself.
#![allow(dead_code)]
pub mod cartridge;

#[allow(unused_imports)]
#[path = "cartridge/mappers/mod.rs"]
mod mappers;

pub use mappers::Mapper;

/// An MBC3 with a timer, behind no cartridge.
pub fn timer() -> Box<dyn Mapper> {
    let mut mapper = Box::new(mappers::Mbc3::new(true));
    mapper.init(2, 0);
    mapper
}
