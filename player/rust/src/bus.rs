use crate::sys::{self, cells};
use crate::{byte, done, Refusal, State, Windows, BYTES, HALF_BYTES};
use std::cell::Cell;

/// What the upper three bits of an address select.
type Page = [Cell<u8>; 0x2000];

/// MBC2's RAM.
type Halves = [Cell<u8>; 0x200];

/// The page of 0xA000.
const RAM: u16 = 5;

/// A [`Cartridge`](crate::Cartridge) lent out for a run of accesses, by [`bus`](crate::Cartridge::bus): a frame's worth, say. It
/// answers as the cartridge does, and faster, because where each 8 KiB of addresses lead is looked up beforehand. That it does is
/// compared by running, not proved.
///
/// ```
/// # fn frame(cart: &mut imfelkuz::Cartridge) -> Result<(), imfelkuz::Refusal> {
/// let mut bus = cart.bus();
/// let opcode = bus.byte(0x0100);
/// bus.write(0x2000, opcode)?;
/// bus.advance(4)?;
/// # Ok(())
/// # }
/// ```
pub struct Bus<'a> {
    // None where a page is not as many bytes side by side: half-bytes, a clock register, 2 KiB, the end of a short image.
    pages: [Option<&'a Page>; 8],
    halves: Option<&'a Halves>,
    // Cells, because RAM that a page shows is also written.
    image: &'a [Cell<u8>],
    ram: &'a [Cell<u8>],
    state: &'a mut State,
    windows: &'a mut Windows,
}

impl<'a> Bus<'a> {
    pub(crate) fn new(image: &'a mut [u8], ram: &'a mut [u8], state: &'a mut State, windows: &'a mut Windows) -> Bus<'a> {
        let image = Cell::from_mut(image).as_slice_of_cells();
        let ram = Cell::from_mut(ram).as_slice_of_cells();
        let mut bus = Bus { pages: [None; 8], halves: None, image, ram, state, windows };
        bus.look_up();
        bus
    }

    fn look_up(&mut self) {
        let [rom0, romx, at, mask, how, _] = self.windows.found;
        let (low, high) = (rom0 as usize, romx as usize);
        self.pages[0] = part(self.image, low);
        self.pages[1] = part(self.image, low + 0x2000);
        self.pages[2] = part(self.image, high);
        self.pages[3] = part(self.image, high + 0x2000);
        let area = if how == BYTES && mask == 0x1FFF { part(self.ram, at as usize) } else { None };
        self.pages[usize::from(RAM)] = area;
        self.halves = if how == HALF_BYTES && mask == 0x1FF { part(self.ram, at as usize) } else { None };
    }

    /// The byte that an address reads.
    ///
    /// Refuses an address outside the cartridge, with 15.
    #[inline]
    pub fn read(&self, addr: u16) -> Result<u8, Refusal> {
        match self.page(addr) {
            Some(page) => Ok(page[within(addr)].get()),
            None => self.read_elsewhere(addr),
        }
    }

    /// The same for a bus that sends the cartridge its own addresses only: others read 0xFF, as an open bus does.
    #[inline]
    pub fn byte(&self, addr: u16) -> u8 {
        match self.page(addr) {
            Some(page) => page[within(addr)].get(),
            None => self.byte_elsewhere(addr),
        }
    }

    #[inline]
    fn page(&self, addr: u16) -> Option<&'a Page> {
        self.pages[usize::from(addr >> 13)]
    }

    // Cold, and so are writes: the caller's loop then runs straight through what most accesses are, reads of a page.
    #[cold]
    #[inline(never)]
    fn byte_elsewhere(&self, addr: u16) -> u8 {
        match self.halves {
            Some(halves) if addr >> 13 == RAM => halves[usize::from(addr & 0x1FF)].get() | 0xF0,
            _ => self.read_elsewhere(addr).unwrap_or(0xFF),
        }
    }

    #[cold]
    #[inline(never)]
    fn read_elsewhere(&self, addr: u16) -> Result<u8, Refusal> {
        match cells::window_read(&self.windows.found, self.image, self.ram, addr) {
            sys::ASK => byte(cells::read(self.state, self.image, self.ram, addr)),
            answer => byte(answer),
        }
    }

    /// Writes a byte to an address: below 0x8000 to the mapper's registers, from 0xA000 on to the RAM or a clock register.
    ///
    /// Refuses an address outside the cartridge (15) and an MBC3 selection that there is not (16).
    #[cold]
    #[inline(never)]
    pub fn write(&mut self, addr: u16, byte: u8) -> Result<(), Refusal> {
        if addr >> 13 == RAM {
            if let Some(page) = self.page(addr) {
                page[within(addr)].set(byte);
                return Ok(());
            }
            if let Some(halves) = self.halves {
                halves[usize::from(addr & 0x1FF)].set(byte & 0x0F);
                return Ok(());
            }
        }
        self.write_elsewhere(addr, byte)
    }

    #[inline(never)]
    fn write_elsewhere(&mut self, addr: u16, byte: u8) -> Result<(), Refusal> {
        if addr < 0x8000 {
            return self.write_register(addr, byte);
        }
        match cells::window_write(&self.windows.found, self.ram, addr, byte) {
            sys::ASK => done(cells::write(self.state, self.ram, addr, byte)),
            answer => done(answer),
        }
    }

    // The windows may have moved.
    fn write_register(&mut self, addr: u16, byte: u8) -> Result<(), Refusal> {
        done(cells::write(self.state, self.ram, addr, byte))?;
        self.windows.ask(self.state)?;
        self.look_up();
        Ok(())
    }

    /// Lets mapper clocks pass, as [`Cartridge::advance`](crate::Cartridge::advance) does.
    pub fn advance(&mut self, clocks: u64) -> Result<(), Refusal> {
        done(sys::advance(self.state, clocks))
    }
}

#[inline]
fn within(addr: u16) -> usize {
    usize::from(addr & 0x1FFF)
}

fn part<const N: usize>(bytes: &[Cell<u8>], at: usize) -> Option<&[Cell<u8>; N]> {
    bytes.get(at..at + N)?.try_into().ok()
}
