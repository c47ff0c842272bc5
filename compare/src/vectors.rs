//! A fixed sample of the original's answers, as text, for a test with no original at hand.
use crate::draw::Draw;
use crate::images;
use crate::machine::{self, Found};
use crate::play::Player;
use crate::recipe::sum;
use crate::Bench;
use imfelkuz::sys;
use std::fmt::Write;
use std::path::Path;

const HEAD: &str = "\
# Answers of mizu-core 1.3.0's cartridge module, inside the domain in which the rules take it as the oracle. Made by
#   make compare-vectors ORIGINAL=folder
# from seed SEED; player/rust/tests/original.rs replays them with no original at hand.
#
# I ..     an image, by the recipe of compare/src/recipe.rs      M n      the number of its refusal, 0 where it is taken
# B ..     a save that is there at mounting                      T n      wall time of mounting
# R, W, C  a read with its answer, a write, clocks that pass     A n s    the RAM area's length and sum (FNV-1a) at the end
# S t n s  the save written at wall time t, its length and sum
";

pub fn write(bench: &mut Bench, seed: u64, to: &Path) {
    let mut text = HEAD.replace("SEED", &seed.to_string());
    let mut bytes = Vec::new();
    let (mut images, mut taken, mut lines) = (0, 0, 0);
    // The largest of each mapper first, then some others that are not drawn, then drawn ones.
    let mut fixed: Vec<_> = images::sweep(&mut Draw::new(seed)).into_iter().step_by(233).map(|(image, _)| image).collect();
    let largest = images::largest_of_each(&mut Draw::new(seed));
    let kept = fixed.len();
    fixed.extend(largest);
    let mut i = 0;
    while images < 500 {
        let mut draw = Draw::new(seed.wrapping_mul(31).wrapping_add(i));
        i += 1;
        let (mut image, mut save, wall, later) = crate::one(&mut draw);
        let first = fixed.len() > kept;
        if let Some(other) = fixed.pop() {
            image = other;
            save = None;
        }
        // Large ones make the test slow: some are enough.
        if image.len > 0x100000 && !first && images % 40 != 7 {
            continue;
        }
        image.build(&bench.base, &mut bytes);
        let built = save.as_ref().map(|s| s.build(&bench.base));
        let mut numbers = [0; 12];
        let verdict = sys::header(&bytes, &mut numbers);
        let before = bench.tally.rules;
        let mounted = machine::mount(&bench.files, &mut bench.tally, &bytes, true, built.as_deref(), wall, false);
        let mut case = format!("{}\nM {}\n", image.line(), verdict);
        let mounted = match mounted {
            Ok(mounted) => mounted,
            Err(found) => panic!("{}: {}", case, found.what),
        };
        // What is only listed is no answer of the original's. And of damaged logos a few are enough.
        if bench.tally.rules != before || verdict == 2 && images % 5 != 0 {
            continue;
        }
        if let Some(mut machine) = mounted {
            if machine.timer.as_ref().map_or(false, |t| t.left != 0) {
                continue;
            }
            if let Some(save) = &save {
                writeln!(case, "{}", save.line()).unwrap();
            }
            writeln!(case, "T {}", wall).unwrap();
            let mut player = Player::within(draw, &machine);
            let mut count = 0;
            let played: Result<(), Found> = (|| loop {
                let access = if count < 60 { Some(player.next(&machine)) } else { player.last(&machine) };
                let access = match access {
                    Some(access) => access,
                    None => return Ok(()),
                };
                let before = bench.tally.rules;
                let line = machine.answer(&mut bench.tally, &bytes, access)?;
                count += 1;
                if bench.tally.rules == before {
                    writeln!(case, "{}", line).unwrap();
                    lines += 1;
                }
            })();
            if let Err(found) = played {
                panic!("{}: {}", case, found.what);
            }
            writeln!(case, "A {:X} {:X}", machine.ram().len(), sum(machine.ram())).unwrap();
            if let Some(save) = machine.save(later) {
                writeln!(case, "S {} {:X} {:X}", later, save.len(), sum(&save)).unwrap();
            }
            // The end compares both once more, so that what is written above is the original's too.
            if let Err(found) = machine.end(&bench.files, &mut bench.tally, later) {
                panic!("{}: {}", case, found.what);
            }
            taken += 1;
        }
        images += 1;
        text += &case;
    }
    std::fs::write(to, text).unwrap();
    bench.say(&format!("{} images, {} taken, {} accesses in {}", images, taken, lines, to.display()));
}
