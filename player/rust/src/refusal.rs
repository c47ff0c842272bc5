use std::error::Error;
use std::fmt;

/// Why a call was refused. The discriminant is the number that the rules and the C header have for it.
///
/// A refused call has changed nothing. Where several hold, the first of them in the call's order gives the number. A rule that
/// is named here stands in docs/RULES.md.
#[derive(Clone, Copy, Debug, PartialEq, Eq, Hash)]
#[repr(u8)]
#[non_exhaustive]
pub enum Refusal {
    // made from refusals.txt by make lists: begin variants
    /// The image is longer than 8,388,608 bytes.
    TooLong = 1,
    /// Bytes 0x104 to 0x133 are not the logo.
    BadLogo = 2,
    /// The title is not UTF-8.
    BadTitle = 3,
    /// The type byte at 0x147 is not one of the 24 known.
    BadType = 4,
    /// The ROM code at 0x148 is above 8.
    BadRomCode = 5,
    /// The ROM size is neither the image's length, padded, nor can be mended to it.
    BadRomSize = 6,
    /// The RAM code at 0x149 is above 5.
    BadRamCode = 7,
    /// The header has RAM, and the type has none.
    NeedlessRam = 8,
    /// The checksum differs from the byte at 0x14D.
    BadChecksum = 9,
    /// The type is MMM01, MBC6 or MBC7.
    Unsupported = 10,
    /// There are more banks, or more RAM, than the mapper can have.
    Beyond = 11,
    /// The lent RAM area is not as long as the cartridge asks: the header's RAM, and for MBC2 512 bytes more.
    WrongArea = 12,
    /// The 64 bytes are no state or an unfit one (Player 3 and Fit 1 to 9 have the list).
    Unfit = 13,
    /// The image or the RAM area is not as long as the mounted one.
    WrongLength = 14,
    /// The address is outside 0x0000 to 0x7FFF and 0xA000 to 0xBFFF.
    BadAddress = 15,
    /// A write to 0x4000 to 0x5FFF asks an MBC3 to select 4 to 7 or 0xD to 0xF (the low four bits).
    BadSelection = 16,
    /// The clock's time would pass 2^64 - 1 seconds.
    Late = 17,
    /// The type has no battery, so there is no save.
    NoBattery = 18,
    /// The save is shorter than the RAM area.
    ShortSave = 19,
    /// The save's clock has a second or minute above 63, an hour above 31 or a day above 511.
    BadBlock = 20,
    /// The room for the save is too short.
    ShortRoom = 21,
    /// A trace has two bytes that are no mark (for readers of traces; no call of the library gives it).
    UnknownMark = 22,
    /// A trace ends within a record (for readers of traces; no call of the library gives it).
    CutShort = 23,
    // made from refusals.txt by make lists: end variants
}

use Refusal::*;

impl Refusal {
    /// The number of the rules.
    pub fn number(self) -> u8 {
        self as u8
    }

    /// The refusal with this number, if there is one.
    pub fn from_number(number: u32) -> Option<Refusal> {
        Some(match number {
            // made from refusals.txt by make lists: begin numbers
            1 => TooLong,
            2 => BadLogo,
            3 => BadTitle,
            4 => BadType,
            5 => BadRomCode,
            6 => BadRomSize,
            7 => BadRamCode,
            8 => NeedlessRam,
            9 => BadChecksum,
            10 => Unsupported,
            11 => Beyond,
            12 => WrongArea,
            13 => Unfit,
            14 => WrongLength,
            15 => BadAddress,
            16 => BadSelection,
            17 => Late,
            18 => NoBattery,
            19 => ShortSave,
            20 => BadBlock,
            21 => ShortRoom,
            22 => UnknownMark,
            23 => CutShort,
            // made from refusals.txt by make lists: end numbers
            _ => return None,
        })
    }

    /// What it means, in words.
    pub fn words(self) -> &'static str {
        match self {
            // made from refusals.txt by make lists: begin words
            TooLong => "the image is longer than 8 MiB",
            BadLogo => "the logo is not in the header",
            BadTitle => "the title is not UTF-8",
            BadType => "the type byte is unknown",
            BadRomCode => "the ROM code is above 8",
            BadRomSize => "the ROM size does not go with the image's length",
            BadRamCode => "the RAM code is above 5",
            NeedlessRam => "the header has RAM and the type has none",
            BadChecksum => "the header's checksum is wrong",
            Unsupported => "MMM01, MBC6 and MBC7 are not supported",
            Beyond => "more banks or RAM than the mapper can have",
            WrongArea => "the RAM area is not as long as the header asks",
            Unfit => "the bytes are no state of a cartridge",
            WrongLength => "the image or the RAM area is not as long as the mounted one",
            BadAddress => "the address is outside the cartridge",
            BadSelection => "MBC3 has no such selection",
            Late => "the clock's time would pass 2^64 - 1 seconds",
            NoBattery => "the cartridge has no battery",
            ShortSave => "the save is shorter than the RAM area",
            BadBlock => "a register of the save's clock is too large",
            ShortRoom => "the room for the save is too short",
            UnknownMark => "the trace has an unknown mark",
            CutShort => "the trace ends within a record",
            // made from refusals.txt by make lists: end words
        }
    }
}

impl fmt::Display for Refusal {
    fn fmt(&self, f: &mut fmt::Formatter<'_>) -> fmt::Result {
        write!(f, "{} (number {})", self.words(), self.number())
    }
}

impl Error for Refusal {}
