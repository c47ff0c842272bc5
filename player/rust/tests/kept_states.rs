//! States as release 0.2.0 writes them, one of each kind, which every later release must read as the cartridge that they were. The bytes were laid out
//! by hand from the table of docs/RULES.md, Player 1, and what they must give from its rules: not by the library.
use imfelkuz::sys::{self, State, STATE_SIZE};

struct Kept {
    name: &'static str,
    /// Sixteen bytes a line.
    bytes: [&'static str; 4],
    windows: sys::Windows,
    /// What 0xA000 reads over RAM whose byte at a place is the place's high byte.
    shown: u32,
    save_size: u64,
}

const KEPT: [Kept; 7] = [
    Kept {
        name: "no mapper, 8 KiB",
        bytes: [
            "00010000 00000000 02000000 00000000",
            "00800000 00000000 00200000 00000000",
            "00000000 00000000 00000000 00000000",
            "00000000 00000000 00000000 00000000",
        ],
        windows: [0, 0x4000, 0, 0x1FFF, 1, 0],
        shown: 0x00,
        save_size: 0x2000,
    },
    Kept {
        name: "MBC1 of 128 banks, mode 1",
        bytes: [
            "01010101 12000200 80000000 00000000",
            "00002000 00000000 00800000 00000000",
            "00000000 00000000 00000000 00000000",
            "00000000 00000000 00000000 00000000",
        ],
        windows: [0x100000, 0x148000, 0x4000, 0x1FFF, 1, 0],
        shown: 0x40,
        save_size: 0x8000,
    },
    Kept {
        name: "multicart, no RAM",
        bytes: [
            "02010000 00000300 40000000 00000000",
            "00001000 00000000 00000000 00000000",
            "00000000 00000000 00000000 00000000",
            "00000000 00000000 00000000 00000000",
        ],
        windows: [0, 0xC0000, 0, 0, 0, 0],
        shown: 0xFF,
        save_size: 0,
    },
    Kept {
        name: "MBC2",
        bytes: [
            "03010100 0f000000 10000000 00000000",
            "01c00300 00000000 00000000 00000000",
            "00000000 00000000 00000000 00000000",
            "00000000 00000000 00000000 00000000",
        ],
        windows: [0, 0x3C000, 0, 0x1FF, 2, 0],
        shown: 0xF0,
        save_size: 0x200,
    },
    Kept {
        name: "MBC3 of 256 banks",
        bytes: [
            "04010101 c8000300 00010000 00000000",
            "00004000 00000000 00800000 00000000",
            "00000000 00000000 00000000 00000000",
            "00000000 00000000 00000000 00000000",
        ],
        windows: [0, 0x320000, 0x6000, 0x1FFF, 1, 0],
        shown: 0x60,
        save_size: 0x8000,
    },
    Kept {
        name: "MBC3 with a timer that runs frozen, register 4 selected",
        bytes: [
            "05010100 01000004 02000000 00000000",
            "00800000 00000000 00200000 00000000",
            "efcdab89 67452301 ffff1f00 013d3f1f",
            "ff010001 3b3a172c 01010100 00000000",
        ],
        windows: [0, 0x4000, 0, 0, 3, 0],
        shown: 0xC1,
        save_size: 0x2015,
    },
    Kept {
        name: "MBC5 of 512 banks",
        bytes: [
            "06010100 ff010f00 00020000 00000000",
            "00008000 00000000 00000200 00000000",
            "00000000 00000000 00000000 00000000",
            "00000000 00000000 00000000 00000000",
        ],
        windows: [0, 0x7FC000, 0x1E000, 0x1FFF, 1, 0],
        shown: 0xE0,
        save_size: 0x20000,
    },
];

impl Kept {
    fn state(&self) -> State {
        let digits: String = self.bytes.concat().split_whitespace().collect();
        let byte = |i: usize| u8::from_str_radix(&digits[2 * i..2 * i + 2], 16).unwrap();
        let mut state = [0; STATE_SIZE];
        state.iter_mut().enumerate().for_each(|(i, at)| *at = byte(i));
        state
    }

    /// The length of the image, and of the RAM area.
    fn lengths(&self) -> (usize, usize) {
        let state = self.state();
        let number = |at: usize| u64::from_le_bytes(state[at..at + 8].try_into().unwrap()) as usize;
        (number(16), number(24) + if state[0] == 3 { 512 } else { 0 })
    }
}

#[test]
fn kept_states_are_read_as_what_they_were() {
    for kept in &KEPT {
        let state = kept.state();
        let (image_len, ram_len) = kept.lengths();
        let image = vec![0; image_len];
        let ram: Vec<u8> = (0..ram_len).map(|i| (i >> 8) as u8).collect();

        let mut windows = [0; 6];
        assert_eq!(sys::windows(&state, &mut windows), 0, "{}", kept.name);
        assert_eq!(windows, kept.windows, "{}", kept.name);
        assert_eq!(sys::read(&state, &image, &ram, 0xA000), kept.shown, "{}", kept.name);
        let mut size = 0;
        assert_eq!((sys::save_size(&state, &mut size), size), (0, kept.save_size), "{}", kept.name);
    }
}

#[test]
fn kept_states_are_written_again_byte_for_byte() {
    for kept in &KEPT {
        let mut state = kept.state();
        let mut ram = vec![0; kept.lengths().1];
        // No clocks, and a write of what the RAM enable has: neither changes a register.
        assert_eq!(sys::advance(&mut state, 0), 0, "{}", kept.name);
        let enable = if kept.state()[2] == 1 { 0x0A } else { 0x00 };
        assert_eq!(sys::write(&mut state, &mut ram, 0x0000, enable), 0, "{}", kept.name);
        assert_eq!(state, kept.state(), "{}", kept.name);
    }
}

fn timer() -> &'static Kept {
    KEPT.iter().find(|kept| kept.state()[0] == 5).unwrap()
}

/// The five clock registers as the RAM window shows them.
fn registers(state: &mut State) -> [u32; 5] {
    let mut ram = vec![0; 0x2000];
    [0, 1, 2, 3, 4].map(|register| {
        assert_eq!(sys::write(state, &mut ram, 0x4000, 8 + register), 0);
        sys::read(state, &[0; 0x8000], &ram, 0xA000)
    })
}

// Of a clock every field has its place and its order of bytes: day 300, 23:58:59, halted and carried in the copy; day 511, 31:63:61 and
// carried as it runs, a clock before the next second; the time 0x0123456789ABCDEF.
#[test]
fn the_kept_clock_is_read_field_by_field() {
    let mut state = timer().state();
    assert_eq!(registers(&mut state), [59, 58, 23, 0x2C, 0xC1]);
    assert_eq!(sys::write(&mut state, &mut vec![0; 0x2000], 0x6000, 0x00), 0);
    assert_eq!(registers(&mut state), [61, 63, 31, 0xFF, 0x81]);

    let mut room = vec![0; 0x2015];
    assert_eq!(sys::save_out(&state, &[0; 0x2000], &mut room, 0x0123_4567_89AB_CD00, &mut 0), 0);
    let block = [61, 63, 31, 0xFF, 0x01, 0xEF, 0xCD, 0xAB, 0x89, 0x67, 0x45, 0x23, 0x01, 0xEF, 0, 0, 0, 0, 0, 0, 0];
    assert_eq!(room[0x2000..], block);

    assert_eq!(sys::advance(&mut state, 1), 0);
    assert_eq!(registers(&mut state), [62, 63, 31, 0xFF, 0x81]);
}
