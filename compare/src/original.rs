//! The original: mounted from files, as it wants them, at a wall time that is given, and its private fields.
use crate::clocks::{Registers, SECOND};
use crate::recipe::RAM_SIZES;
use mizu::cartridge::{Cartridge, CartridgeError};
use save_state::{Savable, REGISTERS_ONLY};
use std::panic::{catch_unwind, AssertUnwindSafe};
use std::path::{Path, PathBuf};
use std::sync::atomic::{AtomicU64, Ordering};
use std::sync::Mutex;

// ---- wall time

static WALL: AtomicU64 = AtomicU64::new(0);

extern "C" {
    fn syscall(number: i64, ...) -> i64;
}

// Linux's number of clock_gettime.
const CLOCK_GETTIME: i64 = if cfg!(target_arch = "x86_64") { 228 } else { 113 };

/// Stands before the C library's: the original asks it for the wall time. The other clocks are the machine's.
#[no_mangle]
pub unsafe extern "C" fn clock_gettime(id: i32, to: *mut [i64; 2]) -> i32 {
    if id == 0 {
        *to = [WALL.load(Ordering::Relaxed) as i64, 0];
        return 0;
    }
    syscall(CLOCK_GETTIME, id as i64, to) as i32
}

pub fn set_wall(wall: u64) {
    WALL.store(wall, Ordering::Relaxed);
    let seen = std::time::SystemTime::now().duration_since(std::time::UNIX_EPOCH).unwrap().as_secs();
    assert_eq!(seen, wall, "the wall time is not the given one");
}

// ---- asserts

static LAST: Mutex<String> = Mutex::new(String::new());

/// What the last panic said, kept by the hook.
pub fn note_panic(what: String) {
    *LAST.lock().unwrap() = what.replace('\n', " ");
}

pub fn last_panic() -> String {
    LAST.lock().unwrap().clone()
}

fn caught<T>(f: impl FnOnce() -> T) -> Result<T, String> {
    catch_unwind(AssertUnwindSafe(f)).map_err(|_| last_panic())
}

// ---- mounting

/// The files that it reads and writes.
pub struct Files {
    folder: PathBuf,
}

impl Files {
    pub fn new(folder: &Path) -> Files {
        std::fs::create_dir_all(folder).unwrap();
        Files { folder: folder.to_path_buf() }
    }

    pub fn remove(&self) {
        let _ = std::fs::remove_dir_all(&self.folder);
    }

    fn image(&self) -> PathBuf {
        self.folder.join("image.gb")
    }

    fn save(&self) -> PathBuf {
        self.folder.join("save")
    }
}

pub struct Original {
    cart: Option<Cartridge>,
    pub ty: u8,
    ram_size: usize,
    bytes: Vec<u8>,
}

pub enum Mounted {
    Taken(Box<Original>),
    /// With the number, of Numbers 2 to 10, that the rules give its error.
    Refused(u32),
    /// On an assert.
    Stopped(String),
}

fn number(why: &CartridgeError) -> u32 {
    match why {
        CartridgeError::InvalidNintendoLogo => 2,
        CartridgeError::InvalidGameTitle => 3,
        CartridgeError::InvalidCartridgeType => 4,
        CartridgeError::InvalidRomSizeIndex(_) => 5,
        CartridgeError::InvalidRomSize(_) => 6,
        CartridgeError::InvalidRamSizeIndex(_) => 7,
        CartridgeError::NotNeededRamPresentError => 8,
        CartridgeError::InvalidChecksum { .. } => 9,
        CartridgeError::MapperNotImplemented(_) => 10,
        CartridgeError::FileError(_) | CartridgeError::ExtensionError => panic!("the bench's files: {:?}", why),
    }
}

/// What it says of an image at a wall time. The file of the last image is taken again where `fresh` is not set.
pub fn mount(files: &Files, image: &[u8], fresh: bool, save: Option<&[u8]>, wall: u64) -> Mounted {
    set_wall(wall);
    if fresh {
        std::fs::write(files.image(), image).unwrap();
    }
    match save {
        Some(bytes) => std::fs::write(files.save(), bytes).unwrap(),
        None => drop(std::fs::remove_file(files.save())),
    }
    match caught(|| Cartridge::from_file(files.image(), Some(files.save()), true)) {
        Err(why) => Mounted::Stopped(why),
        Ok(Err(why)) => Mounted::Refused(number(&why)),
        Ok(Ok(cart)) => {
            let at = |i: usize| image.get(i).copied().unwrap_or(0);
            let ram_size = RAM_SIZES[at(0x149) as usize];
            Mounted::Taken(Box::new(Original { cart: Some(cart), ty: at(0x147), ram_size, bytes: Vec::new() }))
        }
    }
}

/// Its private fields, by the names that the bench has for them.
#[derive(Clone, Debug, Default, PartialEq)]
pub struct Fields {
    pub rom_banks: u16,
    pub enabled: bool,
    /// MBC1's mode; MBC3: whether RAM is selected.
    pub mode: bool,
    pub bank: u16,
    pub ram_bank: u8,
    pub register: u8,
    pub multicart: bool,
    pub timer: bool,
    pub clock: Registers,
    pub sub: u32,
    pub latched: bool,
    pub last: u64,
    pub time: u64,
}

const SUB: usize = 9;

impl Original {
    fn cart(&mut self) -> &mut Cartridge {
        self.cart.as_mut().unwrap()
    }

    pub fn read(&mut self, addr: u16) -> u8 {
        match addr {
            0..=0x3FFF => self.cart().read_rom0(addr),
            0x4000..=0x7FFF => self.cart().read_romx(addr),
            _ => self.cart().read_ram(addr),
        }
    }

    pub fn write(&mut self, addr: u16, byte: u8) {
        match addr {
            0..=0x7FFF => self.cart().write_to_bank_controller(addr, byte),
            _ => self.cart().write_ram(addr, byte),
        }
    }

    /// Whether it stops on an assert.
    pub fn write_stops(&mut self, addr: u16, byte: u8) -> bool {
        caught(|| self.write(addr, byte)).is_err()
    }

    // Hash and type come before the mapper's fields.
    fn head(&self) -> usize {
        match self.ty {
            1..=3 | 0x0F..=0x13 | 0x19..=0x1E => 36,
            _ => 35,
        }
    }

    fn take(&mut self, registers_only: bool) {
        REGISTERS_ONLY.store(registers_only, Ordering::Relaxed);
        let mut bytes = std::mem::take(&mut self.bytes);
        bytes.clear();
        self.cart().save(&mut bytes).unwrap();
        self.bytes = bytes;
    }

    fn give(&mut self) {
        REGISTERS_ONLY.store(true, Ordering::Relaxed);
        let bytes = std::mem::take(&mut self.bytes);
        self.cart().load(&mut &bytes[..]).unwrap();
        self.bytes = bytes;
    }

    /// Clocks. Runs of them that only count up the sub-second are set, except short ones: a second has two million.
    pub fn clocks(&mut self, mut clocks: u64) {
        if clocks <= 48 || !matches!(self.ty, 0x0F | 0x10) {
            (0..clocks.min(48)).for_each(|_| self.cart().clock_mapper());
            return;
        }
        while clocks > 0 {
            self.take(true);
            let at = self.head() + SUB;
            let sub = u32::from_le_bytes(self.bytes[at..at + 4].try_into().unwrap()) as u64;
            if self.fields_of().clock.halt {
                self.cart().clock_mapper();
                return;
            }
            let set = (sub + clocks).min(SECOND) - 1;
            self.bytes[at..at + 4].copy_from_slice(&(set as u32).to_le_bytes());
            self.give();
            self.cart().clock_mapper();
            clocks -= set + 1 - sub;
        }
    }

    /// The same by so many calls.
    pub fn clocks_each(&mut self, clocks: u64) {
        (0..clocks).for_each(|_| self.cart().clock_mapper());
    }

    fn fields_of(&self) -> Fields {
        let b = &self.bytes[self.head()..];
        let word = |at: usize| u16::from_le_bytes([b[at], b[at + 1]]);
        let long = |at: usize| u64::from_le_bytes(b[at..at + 8].try_into().unwrap());
        let flag = |at: usize| b[at] != 0;
        match self.ty {
            1..=3 => Fields {
                rom_banks: word(2),
                mode: flag(4),
                ram_bank: b[5],
                enabled: flag(6),
                bank: b[7] as u16,
                multicart: flag(8),
                ..Fields::default()
            },
            5 | 6 => Fields { rom_banks: b[0] as u16, bank: b[1] as u16, enabled: flag(514), ..Fields::default() },
            0x0F..=0x13 => Fields {
                rom_banks: word(0),
                timer: flag(4),
                bank: word(5),
                ram_bank: b[7],
                register: b[8],
                sub: u32::from_le_bytes(b[9..13].try_into().unwrap()),
                clock: Registers { second: b[13], minute: b[14], hour: b[15], day: word(16), halt: flag(18), carry: flag(19) },
                last: long(20),
                latched: flag(28),
                time: long(29),
                enabled: flag(37),
                mode: flag(38),
                ..Fields::default()
            },
            0x19..=0x1E => Fields { rom_banks: word(0), enabled: flag(4), ram_bank: b[5], bank: word(6), ..Fields::default() },
            _ => Fields { rom_banks: 2, ..Fields::default() },
        }
    }

    pub fn fields(&mut self) -> Fields {
        self.take(true);
        self.fields_of()
    }

    /// Its whole RAM, MBC2's half-bytes behind the rest.
    pub fn ram(&mut self) -> Vec<u8> {
        self.take(false);
        let mut ram = self.bytes[self.bytes.len() - self.ram_size..].to_vec();
        if matches!(self.ty, 5 | 6) {
            ram.extend_from_slice(&self.bytes[37..37 + 512]);
        }
        ram
    }

    pub fn title(&self) -> &str {
        self.cart.as_ref().unwrap().game_title()
    }

    pub fn colour(&self) -> bool {
        self.cart.as_ref().unwrap().is_cartridge_color()
    }

    /// Ends it at a wall time: the save that it leaves, where it has a battery.
    pub fn end(&mut self, files: &Files, wall: u64) -> Result<Option<Vec<u8>>, String> {
        let _ = std::fs::remove_file(files.save());
        set_wall(wall);
        let cart = self.cart.take();
        caught(|| drop(cart))?;
        Ok(std::fs::read(files.save()).ok())
    }
}

// What was not ended leaves no save.
impl Drop for Original {
    fn drop(&mut self) {
        if let Some(cart) = self.cart.take() {
            drop(caught(|| drop(cart)));
        }
    }
}
