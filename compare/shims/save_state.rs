//! What the original asks of the crate `save_state`. Every field is written as its bytes, the least first, with nothing between: so the
//! private fields of a cartridge can be looked at and set. The format is this bench's own.
use std::io::{Error, ErrorKind, Read, Write};
use std::sync::atomic::{AtomicBool, Ordering};

pub use save_state_derive::Savable;

pub type Result<T> = std::io::Result<T>;

/// While this is set, a cartridge's RAM is left out.
pub static REGISTERS_ONLY: AtomicBool = AtomicBool::new(false);

pub trait Savable {
    fn save<W: Write>(&self, writer: &mut W) -> Result<()>;
    fn load<R: Read>(&mut self, reader: &mut R) -> Result<()>;

    fn save_size(&self) -> Result<u64> {
        let mut bytes = Vec::new();
        self.save(&mut bytes)?;
        Ok(bytes.len() as u64)
    }

    // Two methods of numbers that Rust before 1.87 lacks. Where Rust has them, its own are called.
    fn is_multiple_of(&self, _n: usize) -> bool {
        unreachable!()
    }

    fn ilog2(&self) -> u32 {
        unreachable!()
    }
}

macro_rules! number {
    ($number:ty $(, $method:item)*) => {
        impl Savable for $number {
            fn save<W: Write>(&self, writer: &mut W) -> Result<()> {
                writer.write_all(&self.to_le_bytes())
            }

            fn load<R: Read>(&mut self, reader: &mut R) -> Result<()> {
                let mut bytes = [0; std::mem::size_of::<$number>()];
                reader.read_exact(&mut bytes)?;
                *self = <$number>::from_le_bytes(bytes);
                Ok(())
            }

            $($method)*
        }
    };
}

number!(u8);
number!(u16);
number!(u32);
number!(u64);
number!(
    usize,
    fn is_multiple_of(&self, n: usize) -> bool {
        self % n == 0
    },
    fn ilog2(&self) -> u32 {
        usize::BITS - 1 - self.leading_zeros()
    }
);

impl Savable for bool {
    fn save<W: Write>(&self, writer: &mut W) -> Result<()> {
        writer.write_all(&[*self as u8])
    }

    fn load<R: Read>(&mut self, reader: &mut R) -> Result<()> {
        let mut byte = [0];
        reader.read_exact(&mut byte)?;
        *self = byte[0] != 0;
        Ok(())
    }
}

impl<const N: usize> Savable for [u8; N] {
    fn save<W: Write>(&self, writer: &mut W) -> Result<()> {
        writer.write_all(self)
    }

    fn load<R: Read>(&mut self, reader: &mut R) -> Result<()> {
        reader.read_exact(self)
    }
}

// A cartridge's RAM: it keeps its length.
impl Savable for Vec<u8> {
    fn save<W: Write>(&self, writer: &mut W) -> Result<()> {
        if REGISTERS_ONLY.load(Ordering::Relaxed) {
            return Ok(());
        }
        writer.write_all(self)
    }

    fn load<R: Read>(&mut self, reader: &mut R) -> Result<()> {
        if REGISTERS_ONLY.load(Ordering::Relaxed) {
            return Ok(());
        }
        reader.read_exact(self)
    }
}

pub fn save_object<T: Savable>(object: &T) -> Result<Vec<u8>> {
    let mut bytes = Vec::with_capacity(64);
    object.save(&mut bytes)?;
    Ok(bytes)
}

pub fn load_object<T: Savable>(object: &mut T, mut data: &[u8]) -> Result<()> {
    object.load(&mut data)
}

/// For the derived enums: a byte that is no variant.
pub fn no_variant() -> Error {
    Error::new(ErrorKind::InvalidData, "no such variant")
}
