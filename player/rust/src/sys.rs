//! The library's calls, as `include/imfelkuz.h` declares them, and for each a safe function over slices. The calls are proved; the
//! functions here only lend them their arguments. This is the crate's only unsafe module.
//!
//! A slice is a pointer and a length behind it, which is all that the library asks: pointers that are not null, memory that is there,
//! and no overlap with what it writes. References and slices of Rust are always so, whatever bytes stand in them.
//!
//! Most programs want [`Cartridge`](crate::Cartridge) instead. The functions here are for those that keep image, RAM and state
//! themselves, and answer with the numbers of the C header: 0 or the number of a [`Refusal`](crate::Refusal), and where the answer is
//! a byte, [`REFUSED`] and the number.
#![allow(unsafe_code)]

/// Bytes of a state.
pub const STATE_SIZE: usize = 64;

/// A cartridge as the library keeps it between calls.
pub type State = [u8; STATE_SIZE];

/// Added to the number where an answer is otherwise a byte.
pub const REFUSED: u32 = 0x100;

/// The answer that is no refusal: the windows cannot say, the state can.
pub const ASK: u32 = 0x200;

/// What a header says, as numbers: kind, ROM banks, the header's RAM size, the RAM area to lend, battery, timer, rumble, colour, the
/// title's place and length in the image, and two zeros.
pub type Facts = [u32; 12];

/// Where the windows stand: the places in the image that 0x0000 and 0x4000 show, the place in the RAM area that 0xA000 shows, the mask
/// of its address bits, how it is mapped, and a zero.
pub type Windows = [u32; 6];

mod ffi {
    use super::{Facts, State, Windows};

    extern "C" {
        pub fn imf_header(image: *const u8, image_len: usize, facts: *mut Facts) -> u32;
        pub fn imf_mount(state: *mut State, image: *const u8, image_len: usize, ram: *mut u8, ram_len: usize, wall: u64) -> u32;
        pub fn imf_read(
            state: *const State,
            image: *const u8,
            image_len: usize,
            ram: *const u8,
            ram_len: usize,
            addr: u16,
        ) -> u32;
        pub fn imf_write(state: *mut State, ram: *mut u8, ram_len: usize, addr: u16, byte: u8) -> u32;
        pub fn imf_advance(state: *mut State, clocks: u64) -> u32;
        pub fn imf_save_size(state: *const State, size: *mut u64) -> u32;
        pub fn imf_save_out(
            state: *const State,
            ram: *const u8,
            ram_len: usize,
            room: *mut u8,
            room_len: usize,
            wall: u64,
            size: *mut u64,
        ) -> u32;
        pub fn imf_save_in(
            state: *mut State,
            ram: *mut u8,
            ram_len: usize,
            save: *const u8,
            save_len: usize,
            wall: u64,
            clock: *mut u32,
        ) -> u32;
        pub fn imf_windows(state: *const State, windows: *mut Windows) -> u32;
        pub fn imf_window_read(
            windows: *const Windows,
            image: *const u8,
            image_len: usize,
            ram: *const u8,
            ram_len: usize,
            addr: u16,
        ) -> u32;
        pub fn imf_window_write(windows: *const Windows, ram: *mut u8, ram_len: usize, addr: u16, byte: u8) -> u32;
    }
}

// In each function the pointers come from references and slices that live until the call returns, with the slices' own lengths; what is
// written comes from an exclusive reference. The library keeps no pointer.

/// What the header of an image says. 0, or 1 to 11.
pub fn header(image: &[u8], facts: &mut Facts) -> u32 {
    unsafe { ffi::imf_header(image.as_ptr(), image.len(), facts) }
}

/// Mounts an image: the state, and a zeroed RAM area. 0, or 1 to 12.
pub fn mount(state: &mut State, image: &[u8], ram: &mut [u8], wall: u64) -> u32 {
    unsafe { ffi::imf_mount(state, image.as_ptr(), image.len(), ram.as_mut_ptr(), ram.len(), wall) }
}

/// What an address reads: the byte, or [`REFUSED`] and 13, 14 or 15.
pub fn read(state: &State, image: &[u8], ram: &[u8], addr: u16) -> u32 {
    unsafe { ffi::imf_read(state, image.as_ptr(), image.len(), ram.as_ptr(), ram.len(), addr) }
}

/// Writes a byte. 0, or 13, 14, 15, 16.
pub fn write(state: &mut State, ram: &mut [u8], addr: u16, byte: u8) -> u32 {
    unsafe { ffi::imf_write(state, ram.as_mut_ptr(), ram.len(), addr, byte) }
}

/// Lets mapper clocks pass. 0, or 13, 17.
pub fn advance(state: &mut State, clocks: u64) -> u32 {
    unsafe { ffi::imf_advance(state, clocks) }
}

/// How many bytes the save has. 0, or 13, 18.
pub fn save_size(state: &State, size: &mut u64) -> u32 {
    unsafe { ffi::imf_save_size(state, size) }
}

/// Writes the save to the start of the room, and its length. 0, or 13, 14, 18, 21.
pub fn save_out(state: &State, ram: &[u8], room: &mut [u8], wall: u64, size: &mut u64) -> u32 {
    unsafe { ffi::imf_save_out(state, ram.as_ptr(), ram.len(), room.as_mut_ptr(), room.len(), wall, size) }
}

/// Reads a save; `clock` becomes 1 where the clock came too, 0 where only the RAM did. 0, or 13, 14, 18, 19, 20, 17.
pub fn save_in(state: &mut State, ram: &mut [u8], save: &[u8], wall: u64, clock: &mut u32) -> u32 {
    unsafe { ffi::imf_save_in(state, ram.as_mut_ptr(), ram.len(), save.as_ptr(), save.len(), wall, clock) }
}

/// Where the windows of a state stand. 0, or 13.
pub fn windows(state: &State, windows: &mut Windows) -> u32 {
    unsafe { ffi::imf_windows(state, windows) }
}

/// What an address reads through windows: the byte, [`REFUSED`] and 15, or [`ASK`].
pub fn window_read(windows: &Windows, image: &[u8], ram: &[u8], addr: u16) -> u32 {
    unsafe { ffi::imf_window_read(windows, image.as_ptr(), image.len(), ram.as_ptr(), ram.len(), addr) }
}

/// Writes a byte through windows: 0, 15, or [`ASK`].
pub fn window_write(windows: &Windows, ram: &mut [u8], addr: u16, byte: u8) -> u32 {
    unsafe { ffi::imf_window_write(windows, ram.as_mut_ptr(), ram.len(), addr, byte) }
}

/// Four of the calls over bytes that others hold references to meanwhile. A cell is its byte in memory, and may be written through a
/// shared reference; no other thread has one. Two slices of cells may overlap, but the calls that are lent two write to neither.
pub mod cells {
    use super::{ffi, State, Windows};
    use std::cell::Cell;

    fn at(bytes: &[Cell<u8>]) -> *mut u8 {
        bytes.as_ptr() as *mut u8
    }

    /// As [`read`](super::read).
    pub fn read(state: &State, image: &[Cell<u8>], ram: &[Cell<u8>], addr: u16) -> u32 {
        unsafe { ffi::imf_read(state, at(image), image.len(), at(ram), ram.len(), addr) }
    }

    /// As [`write`](super::write).
    pub fn write(state: &mut State, ram: &[Cell<u8>], addr: u16, byte: u8) -> u32 {
        unsafe { ffi::imf_write(state, at(ram), ram.len(), addr, byte) }
    }

    /// As [`window_read`](super::window_read).
    pub fn window_read(windows: &Windows, image: &[Cell<u8>], ram: &[Cell<u8>], addr: u16) -> u32 {
        unsafe { ffi::imf_window_read(windows, at(image), image.len(), at(ram), ram.len(), addr) }
    }

    /// As [`window_write`](super::window_write).
    pub fn window_write(windows: &Windows, ram: &[Cell<u8>], addr: u16, byte: u8) -> u32 {
        unsafe { ffi::imf_window_write(windows, at(ram), ram.len(), addr, byte) }
    }
}
