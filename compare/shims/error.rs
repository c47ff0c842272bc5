//! The original's errors, as far as its cartridge names them.
use super::mappers::MapperType;
use std::fmt;
use std::io::Error;

#[derive(Debug)]
pub enum CartridgeError {
    FileError(Error),
    ExtensionError,
    InvalidNintendoLogo,
    InvalidGameTitle,
    InvalidCartridgeType,
    InvalidRomSizeIndex(u8),
    InvalidRomSize(usize),
    InvalidRamSizeIndex(u8),
    NotNeededRamPresentError,
    InvalidChecksum { got: u8, expected: u8 },
    MapperNotImplemented(MapperType),
}

#[derive(Debug)]
pub enum SramError {
    FileError(Error),
    SramFileSizeDoesNotMatch,
    FailedToSaveSramFile,
}

impl From<Error> for CartridgeError {
    fn from(why: Error) -> Self {
        CartridgeError::FileError(why)
    }
}

impl From<Error> for SramError {
    fn from(why: Error) -> Self {
        SramError::FileError(why)
    }
}

impl fmt::Display for SramError {
    fn fmt(&self, f: &mut fmt::Formatter<'_>) -> fmt::Result {
        write!(f, "{:?}", self)
    }
}
