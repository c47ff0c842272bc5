//! Drives mizu-core 1.3.0's cartridge module, unchanged, and libplayer.a with the same images and accesses, and stops at the first
//! difference that is on no list, with the smallest sequence that shows it. compare/README.md says how to run it.
mod anytime;
mod clocks;
mod domain;
mod draw;
mod ending;
mod images;
mod kept;
mod machine;
mod original;
mod play;
#[allow(dead_code)]
mod recipe;
mod states;
mod tally;
mod timed;
mod timer;
mod vectors;

use draw::Draw;
use machine::{Access, Found, Machine};
use original::Files;
use play::Player;
use recipe::{Base, Image, Save};
use std::fs::File;
use std::io::Write;
use std::ops::Range;
use std::os::unix::io::{AsRawFd, FromRawFd};
use std::panic::{catch_unwind, AssertUnwindSafe};
use std::path::{Path, PathBuf};
use std::time::Instant;
use tally::Tally;

extern "C" {
    fn dup(fd: i32) -> i32;
    fn dup2(from: i32, to: i32) -> i32;
}

/// What is played: an image, a save, the wall times of mounting and saving, whether through windows, and whether every clock is a call
/// of the original's.
#[derive(Clone)]
pub struct Case {
    pub image: Vec<u8>,
    pub save: Option<Vec<u8>>,
    pub wall: u64,
    pub later: u64,
    pub windows: bool,
    pub each: bool,
}

pub struct Bench {
    pub base: Base,
    pub files: Files,
    pub tally: Tally,
    out: PathBuf,
    screen: File,
    since: Instant,
}

impl Bench {
    fn say(&mut self, line: &str) {
        let time = self.since.elapsed().as_secs_f32();
        writeln!(self.screen, "[{:7.1} s] {}", time, line).unwrap();
    }

    fn print(&mut self, text: &str) {
        self.screen.write_all(text.as_bytes()).unwrap();
    }

    fn stop(&self, code: i32) -> ! {
        self.files.remove();
        std::process::exit(code)
    }

    // Plays accesses: those that `next` gives, each kept, until it gives none. Where something is found, it is after the last one kept.
    fn play(
        &mut self,
        case: &Case,
        fresh: bool,
        kept: &mut Vec<Access>,
        next: &mut dyn FnMut(&Machine, usize) -> Option<Access>,
    ) -> Result<(), Found> {
        let (files, tally) = (&self.files, &mut self.tally);
        let run = AssertUnwindSafe(|| {
            let machine = machine::mount(files, tally, &case.image, fresh, case.save.as_deref(), case.wall, case.windows)?;
            let mut machine = match machine {
                Some(machine) => machine,
                None => return Ok(()),
            };
            machine.each = case.each;
            while let Some(access) = next(&machine, kept.len()) {
                kept.push(access);
                machine.step(tally, &case.image, access)?;
            }
            machine.end(files, tally, case.later)
        });
        match catch_unwind(run) {
            Ok(answer) => answer,
            Err(_) => Err(Found { what: format!("the original stops: {}", original::last_panic()) }),
        }
    }

    // The same accesses again.
    fn again(&mut self, case: &Case, accesses: &[Access]) -> Option<(usize, String)> {
        let tally = self.tally.clone();
        let mut kept = Vec::new();
        let answer = self.play(case, false, &mut kept, &mut |_, n| accesses.get(n).copied());
        self.tally = tally;
        answer.err().map(|f| (kept.len(), f.what))
    }

    /// Plays a case; what is found is made small, written down, and ends the run.
    pub fn case(&mut self, name: &str, case: &Case, next: &mut dyn FnMut(&Machine, usize) -> Option<Access>) {
        let mut kept = Vec::new();
        if let Err(first) = self.play(case, true, &mut kept, next) {
            self.report(name, case, kept, first);
        }
    }

    // Plays a case with drawn accesses.
    fn drawn_case(&mut self, name: &str, case: &Case, draw: Draw, n: u32) {
        let mut player = None;
        self.case(name, case, &mut |machine, at| {
            let player = player.get_or_insert_with(|| Player::new(draw.clone(), machine));
            if at < n as usize {
                Some(player.next(machine))
            } else {
                player.last(machine)
            }
        });
    }

    fn report(&mut self, name: &str, case: &Case, mut kept: Vec<Access>, first: Found) {
        self.say(&format!("found: {}; after {} accesses: {}", name, kept.len(), first.what));
        let mut case = case.clone();
        let mut what = match self.again(&case, &kept) {
            None => {
                self.say("the same accesses did not show it again");
                self.stop(1);
            }
            Some((n, what)) => {
                kept.truncate(n);
                what
            }
        };
        if case.save.is_some() {
            let without = Case { save: None, ..case.clone() };
            if let Some((n, w)) = self.again(&without, &kept) {
                kept.truncate(n);
                what = w;
                case = without;
            }
        }
        // Halves, quarters and so on are left out where it still shows, at last single accesses until none can be.
        let mut size = kept.len() / 2;
        while size > 0 {
            let mut at = 0;
            let mut shorter = false;
            while at < kept.len() {
                let end = (at + size).min(kept.len());
                let fewer: Vec<Access> = kept[..at].iter().chain(&kept[end..]).copied().collect();
                match self.again(&case, &fewer) {
                    Some((n, w)) => {
                        kept = fewer;
                        kept.truncate(n);
                        what = w;
                        shorter = true;
                    }
                    None => at = end,
                }
            }
            if size > 1 || !shorter {
                size /= 2;
            }
        }
        self.say(&format!("the smallest: {} accesses: {}", kept.len(), what));
        let at = |i: usize| case.image.get(i).copied().unwrap_or(0);
        let mut text = format!("{}\n{}\n", name, what);
        text += &format!(
            "image of {:X} bytes, type {:02X}, codes {:02X} {:02X}; wall {}, {}",
            case.image.len(),
            at(0x147),
            at(0x148),
            at(0x149),
            case.wall,
            case.later
        );
        text += &format!("; {}\n", if case.windows { "through windows" } else { "through calls" });
        kept.iter().for_each(|a| text += &format!("{}\n", a));
        let folder = self.out.join("found");
        kept::keep(&folder, &case, &kept, &text);
        self.print(&text);
        self.print(&format!("kept in {}: `make replay DIR=..` where it fits, `compare replay ..` always\n", folder.display()));
        self.stop(1);
    }

    fn sweep(&mut self, seed: u64) {
        let mut draw = Draw::new(seed);
        let all = images::sweep(&mut draw);
        let n = all.len();
        let mut bytes = Vec::new();
        for (i, (image, accesses)) in all.into_iter().enumerate() {
            image.build(&self.base, &mut bytes);
            let windows = i % 2 == 1;
            let image_bytes = std::mem::take(&mut bytes);
            let case = Case { image: image_bytes, save: None, wall: 1000 + i as u64, later: 1000, windows, each: false };
            self.drawn_case(&image.line(), &case, Draw::new(draw.next()), accesses);
            bytes = case.image;
            if i % 10_000 == 9_999 {
                self.say(&format!("{} of {} images that are not drawn, {} accesses", i + 1, n, self.tally.all_accesses()));
            }
        }
        self.say(&format!("all {} images that are not drawn, {} accesses", n, self.tally.all_accesses()));
    }

    fn drawn(&mut self, seed: u64, images: Range<u64>, accesses: u32) {
        let mut bytes = Vec::new();
        for i in images {
            let mut draw = Draw::new(seed.wrapping_add(i.wrapping_mul(0x9E37_79B9)));
            let (image, save, wall, later) = one(&mut draw);
            image.build(&self.base, &mut bytes);
            let built = save.as_ref().map(|save| save.build(&self.base));
            let n = accesses / 2 + draw.below(accesses + 1);
            let case = Case { image: std::mem::take(&mut bytes), save: built, wall, later, windows: i % 2 == 1, each: false };
            let name =
                format!("drawn image {} of seed {}: {} {}", i, seed, image.line(), save.map_or(String::new(), |s| s.line()));
            self.drawn_case(&name, &case, draw, n);
            bytes = case.image;
            if i % 5_000 == 4_999 {
                self.say(&format!("{} drawn images, {} accesses", i + 1, self.tally.all_accesses()));
            }
        }
    }

    /// Short runs of clocks are run and long ones set: that both are the same is tried once, over these counts and those that are given.
    fn check_clocks(&mut self, more: &[u64]) {
        let mut draw = Draw::new(1);
        let mut image = Vec::new();
        let (mut recipe, _, _, _) = one(&mut draw);
        recipe =
            Image { len: 0x8000, codes: [0x10, 0, 2], title: [0; 16], logos: 1, mended: true, changes: Vec::new(), ..recipe };
        recipe.build(&self.base, &mut image);
        let mount = |files: &Files| match original::mount(files, &image, true, None, 77) {
            original::Mounted::Taken(original) => original,
            _ => panic!("the clock's image is refused"),
        };
        let (mut set, mut run) = (mount(&self.files), mount(&self.files));
        let mut both = |n: u64| {
            set.clocks(n);
            run.clocks_each(n);
            assert_eq!(set.fields(), run.fields(), "clocks that are set");
        };
        [49, 2_000_000, 97_102, 1, 2_097_152, 2_097_151, 2_097_153, 4_194_304].iter().chain(more).for_each(|n| both(*n));
        self.say("clocks that are set are the same as clocks that are run");
    }
}

fn one(draw: &mut Draw) -> (Image, Option<Save>, u64, u64) {
    let image = images::drawn(draw);
    let wall = draw.of(&[0, 1000, 1_700_000_000, 1 << 40]) + draw.below(5000) as u64;
    let save = images::save(draw, &image, wall);
    let later = (wall + draw.below(100) as u64).saturating_sub(draw.below(100) as u64);
    (image, save, wall, later)
}

fn main() {
    let words: Vec<String> = std::env::args().skip(1).collect();
    let option = |name: &str| words.iter().position(|w| w == name).map(|i| words[i + 1].as_str());
    let number = |name: &str, usual: u64| option(name).map_or(usual, |w| w.parse().expect("a number"));
    let out = PathBuf::from(option("--out").unwrap_or("."));
    let memory = Path::new("/dev/shm");
    let files = if memory.is_dir() { memory.join(format!("compare-{}", std::process::id())) } else { out.join("files") };

    // The original prints: that goes nowhere.
    let screen = unsafe { File::from_raw_fd(dup(1)) };
    let nowhere = File::options().write(true).open("/dev/null").unwrap();
    let (base, tally, since) = (Base::new(), Tally::default(), Instant::now());
    let mut bench = Bench { base, files: Files::new(&files), tally, out, screen, since };
    let told = unsafe { File::from_raw_fd(dup(2)) };
    std::panic::set_hook({
        let told = std::sync::Mutex::new(told);
        Box::new(move |info| {
            original::note_panic(info.to_string());
            if !info.location().map_or(false, |l| l.file().contains("mizu")) {
                let _ = writeln!(told.lock().unwrap(), "{}", info);
            }
        })
    });
    unsafe {
        dup2(nowhere.as_raw_fd(), 1);
        dup2(nowhere.as_raw_fd(), 2);
    }

    let seed = number("--seed", 20261115);
    match words.first().map(String::as_str) {
        Some("states") => {
            let text = states::all(&mut |line| bench.say(line));
            let bad = text.is_err();
            bench.print(&text.unwrap_or_else(|why| why));
            bench.stop(bad as i32);
        }
        Some("vectors") => vectors::write(&mut bench, seed, Path::new(option("--to").expect("--to FILE"))),
        Some("timer") => timer::run(&mut bench, seed, number("--boards", 12_000), number("--accesses", 2_000) as u32),
        Some("replay") => kept::replay(&mut bench, Path::new(&words[1])),
        _ => {
            let (images, accesses) = (number("--images", 100_000), number("--accesses", 2_000) as u32);
            bench.say(&format!("seed {}, {} drawn images, {} accesses for each that is taken", seed, images, accesses));
            bench.check_clocks(&[]);
            // Some drawn ones first: they find most of what can be wrong in seconds.
            let some = images.min(2_000);
            bench.drawn(seed, 0..some, accesses);
            bench.sweep(seed);
            bench.drawn(seed, some..images, accesses);
            let table = bench.tally.table();
            bench.say("no unlisted difference");
            bench.print(&table);
        }
    }
    bench.stop(0);
}
