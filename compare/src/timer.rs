//! Boards with a timer, driven outside the clock's domain as well as inside it: whatever the clock does, every byte that shows no clock
//! register, the RAM at the end, and in the save the RAM and the offset are the original's.
use crate::anytime::Anytime;
use crate::clocks::{Registers, DAY, SECOND};
use crate::draw::Draw;
use crate::images;
use crate::recipe::RAM_SIZES;
use crate::tally::{COLUMNS, KINDS};
use crate::{Bench, Case};

/// How a board's time passes.
struct Pace {
    /// Whether every clock is a call of the original's.
    each: bool,
    /// Clocks that may pass altogether.
    clocks: u64,
    /// Whether more than 512 days pass at once.
    long: bool,
}

// Most boards see some hours. An eighth goes by calls alone, for seconds; a sixteenth for days. Of those that go for more than 512 days there
// are few: each takes as long as hundreds of the others.
fn pace(i: u64) -> Pace {
    let (each, seconds) = match i {
        _ if i % 1_000 == 77 => (false, 700 * DAY),
        _ if i % 8 == 3 => (true, 16),
        _ if i % 16 == 5 => (false, 4 * DAY),
        _ => (false, DAY / 4),
    };
    Pace { each, clocks: seconds * SECOND, long: seconds > 512 * DAY }
}

pub fn run(bench: &mut Bench, seed: u64, boards: u64, accesses: u32) {
    bench.say(&format!("seed {}, {} boards with a timer, {} accesses for each", seed, boards, accesses));
    check_days();
    // Ten minutes by calls too.
    bench.check_clocks(&[600 * SECOND + 777]);
    let mut by_ram = [0; 6];
    for i in 0..boards {
        let draw = Draw::new(seed.wrapping_add(i.wrapping_mul(0x9E37_79B9)));
        let code = board(bench, &format!("board {} of seed {}", i, seed), pace(i), draw, accesses);
        by_ram[code] += 1;
        if i % 1_000 == 999 {
            bench.say(&format!("{} boards, {} accesses", i + 1, bench.tally.all_accesses()));
        }
    }
    bench.say("no unlisted difference");
    let table = table(bench, &by_ram);
    bench.print(&table);
}

// Plays a board that is drawn, and gives its RAM code.
fn board(bench: &mut Bench, name: &str, pace: Pace, mut draw: Draw, accesses: u32) -> usize {
    let mut image = images::with_timer(&mut draw);
    // There are few long ones, so none of them is without RAM that is mapped.
    if pace.long {
        image.codes[0] = 0x10;
        image.codes[2] = 2 + draw.below(4) as u8;
    }
    let wall = draw.of(&[0, 1000, 1_700_000_000, 1 << 40, 1 << 62]) + draw.below(5000) as u64;
    let save = images::whole_save(&mut draw, &image, wall);
    let mut bytes = Vec::new();
    image.build(&bench.base, &mut bytes);
    let case = Case {
        image: bytes,
        save: save.as_ref().map(|save| save.build(&bench.base)),
        wall,
        later: later(&mut draw, wall),
        windows: draw.one_in(2),
        each: pace.each,
    };
    let name = format!("{}: {} {}", name, image.line(), save.map_or(String::new(), |s| s.line()));
    // Few where a replay takes long: what is found is made small by hundreds of them.
    let most = if pace.long { accesses.min(100) } else { accesses };
    let n = (most / 2 + draw.below(most + 1)) as usize;
    let mut player = if pace.long { Anytime::long(draw, pace.clocks) } else { Anytime::new(draw, pace.clocks) };
    bench.case(&name, &case, &mut |machine, at| (at < n).then(|| player.next(machine)));
    image.codes[2] as usize
}

// The wall time of saving: that of mounting, a little later, much later, and before it, where the offset is not 0.
fn later(draw: &mut Draw, wall: u64) -> u64 {
    match draw.below(4) {
        0 => wall,
        1 => wall + draw.below(100) as u64,
        2 => wall + draw.below(60_000_000) as u64,
        _ => wall.saturating_sub(draw.below(60_000_000) as u64),
    }
}

fn table(bench: &Bench, by_ram: &[u64; 6]) -> String {
    let tally = &bench.tally;
    let (boards, saves, accesses) = (tally.sequences, tally.saves_read, tally.all_accesses());
    let sizes: Vec<String> = RAM_SIZES.iter().zip(by_ram).map(|(size, n)| format!("0x{:X} {}", size, n)).collect();
    let kinds: Vec<String> = COLUMNS.iter().zip(&tally.accesses[5]).map(|(name, n)| format!("{} {}", name, n)).collect();
    let mut out = format!("{}: {} boards, {} of them mounted with a save, {} accesses\n", KINDS[5], boards, saves, accesses);
    out += &format!("boards by RAM: {}\n", sizes.join(", "));
    out += &format!("accesses: {}\n", kinds.join(", "));
    out + &tally.timed.table()
}

// The model takes whole days at once: that this is the same as second by second is tried from many times of day.
fn check_days() {
    let mut draw = Draw::new(2);
    for _ in 0..200 {
        let (second, minute, hour) = (draw.below(64) as u8, draw.below(64) as u8, draw.below(32) as u8);
        let day = draw.of(&[0, 255, 508, 509, 510, 511]);
        let (mut at_once, seconds) =
            (Registers { second, minute, hour, day, ..Registers::default() }, draw.below(300_000) as u64);
        let mut singly = at_once;
        at_once.steps(seconds);
        (0..seconds).for_each(|_| singly.step());
        assert_eq!(at_once, singly, "days at once");
    }
}
