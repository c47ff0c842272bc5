//! Images with a header.
use super::build;

pub const LOGO: [u8; 48] = *b"\xce\xed\x66\x66\xcc\x0d\x00\x0b\x03\x73\x00\x83\x00\x0c\x00\x0d\x00\x08\x11\x1f\x88\x89\x00\x0e\xdc\xcc\x6e\xe6\xdd\xdd\xd9\x99\xbb\xbb\x67\x63\x6e\x0e\xec\xcc\xdd\xdc\x99\x9f\xbb\xb9\x33\x3e";

/// The image of the recipe that every case of the vectors is cut from.
pub fn recipe() -> Box<[u8; 0x800000]> {
    let mut image: Box<[u8; 0x800000]> = vec![0; 0x800000].into_boxed_slice().try_into().unwrap();
    build::fill(&mut image);
    image
}

pub fn mend_checksum(image: &mut [u8]) {
    image[0x14D] = image[0x134..0x14D].iter().fold(0u8, |c, b| c.wrapping_sub(*b).wrapping_sub(1));
}

/// Writes a header with this type byte, ROM code and RAM code.
pub fn put_header(image: &mut [u8], ty: u8, rom: u8, ram: u8) {
    image[0x104..0x134].copy_from_slice(&LOGO);
    image[0x134..0x14E].fill(0);
    image[0x134..0x13C].copy_from_slice(b"IMFELKUZ");
    image[0x147] = ty;
    image[0x148] = rom;
    image[0x149] = ram;
    mend_checksum(image);
}

/// An image of zeros with a header.
pub fn image(len: usize, ty: u8, rom: u8, ram: u8) -> Vec<u8> {
    let mut image = vec![0; len];
    put_header(&mut image, ty, rom, ram);
    image
}
