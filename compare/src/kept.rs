//! A case that was found, in a folder: for `make replay` where it fits, and for the bench's own replay.
use crate::machine::Access;
use crate::recipe::number;
use crate::tally::RULES;
use crate::{Bench, Case};
use imfelkuz::trace::{Record, Records};
use std::path::Path;

// The records of a trace. Their counts have four bytes: a longer advance becomes several.
fn trace_of(accesses: &[Access]) -> Vec<u8> {
    let mut trace = Vec::new();
    for access in accesses {
        match access {
            Access::Read(addr) => trace.extend_from_slice(&[&b"RD"[..], &addr.to_le_bytes()].concat()),
            Access::Write(addr, byte) => trace.extend_from_slice(&[&b"WR"[..], &addr.to_le_bytes(), &[*byte]].concat()),
            Access::Clocks(n) => {
                let most = u32::MAX as u64;
                let counts = (0..n / most).map(|_| u32::MAX).chain([(n % most) as u32]);
                counts.for_each(|n| trace.extend_from_slice(&[&b"CK"[..], &n.to_le_bytes()].concat()));
            }
        }
    }
    trace
}

fn of_trace(trace: &[u8]) -> Vec<Access> {
    Records::new(trace)
        .map(|record| match record.expect("a whole trace") {
            Record::Read(addr) => Access::Read(addr),
            Record::Write(addr, byte) => Access::Write(addr, byte),
            Record::Clocks(n) => Access::Clocks(n as u64),
        })
        .collect()
}

// The accesses as they are printed: these can be of any length.
fn lines_of(accesses: &[Access]) -> String {
    accesses.iter().map(|access| format!("{}\n", access)).collect()
}

fn of_line(line: &str) -> Access {
    let words: Vec<&str> = line.split(' ').collect();
    match words[..] {
        ["R", addr] => Access::Read(number(addr) as u16),
        ["W", addr, byte] => Access::Write(number(addr) as u16, number(byte) as u8),
        ["C", n] => Access::Clocks(n.parse().unwrap()),
        _ => panic!("no access: {}", line),
    }
}

/// Writes a case. A file that it has no need of is taken away: it would be of another case.
pub fn keep(folder: &Path, case: &Case, accesses: &[Access], text: &str) {
    std::fs::create_dir_all(folder).unwrap();
    let put = |name: &str, bytes: Option<&[u8]>| match bytes {
        Some(bytes) => std::fs::write(folder.join(name), bytes).unwrap(),
        None => drop(std::fs::remove_file(folder.join(name))),
    };
    let times = format!("{} {} {} {}\n", case.wall, case.later, case.windows as u8, case.each as u8);
    let long = accesses.iter().any(|access| matches!(access, Access::Clocks(n) if *n > u32::MAX as u64));
    put("cart.rom", Some(&case.image));
    put("cart.trace", Some(&trace_of(accesses)));
    put("accesses", long.then(|| lines_of(accesses)).as_ref().map(|lines| lines.as_bytes()));
    put("times", Some(times.as_bytes()));
    put("what", Some(text.as_bytes()));
    put("cart.sav", case.save.as_deref());
}

/// Replays a case that was kept, or made by hand: cart.rom, cart.trace or accesses, and where they are there cart.sav and times.
pub fn replay(bench: &mut Bench, folder: &Path) {
    let read = |name: &str| std::fs::read(folder.join(name));
    let text = |name: &str| std::fs::read_to_string(folder.join(name));
    let times: Vec<u64> = text("times").unwrap_or_default().split_whitespace().map(|w| w.parse().unwrap()).collect();
    let time = |i: usize| times.get(i).copied().unwrap_or(0);
    let (wall, later, windows, each) = (time(0), time(1), time(2) == 1, time(3) == 1);
    let case = Case { image: read("cart.rom").unwrap(), save: read("cart.sav").ok(), wall, later, windows, each };
    let accesses: Vec<Access> = match text("accesses") {
        Ok(lines) => lines.lines().map(of_line).collect(),
        Err(_) => of_trace(&read("cart.trace").unwrap()),
    };
    let (mut kept, mut lines) = (Vec::new(), String::new());
    let answer = bench.play(&case, true, &mut kept, &mut |machine, n| {
        if let Some((original, ours)) = machine.seen {
            lines += &format!("  original {:02X}, library {:02X}\n", original, ours);
        }
        let access = accesses.get(n).copied();
        access.iter().for_each(|access| lines += &format!("{}\n", access));
        access
    });
    bench.print(&lines);
    match answer {
        Ok(()) => {
            if let Some((original, ours)) = bench.tally.saves_apart.clone() {
                bench.print(&format!("saves: original {}, library {}\n", original, ours));
            }
            let rules: Vec<&str> =
                RULES.iter().zip(&bench.tally.rules).filter(|(_, n)| **n > 0).map(|(r, _)| r.words()).collect();
            bench.print(&format!("no unlisted difference; listed: {:?}\n", rules));
        }
        Err(found) => {
            bench.print(&format!("{}\n", found.what));
            bench.stop(1);
        }
    }
}
