//! What was compared, and the listed differences by their rules.
use crate::timed::Timed;
use std::fmt::Write;

/// The rules of docs/DIFFERENCES.md, by the names that it gives them.
#[derive(Clone, Copy, Debug, PartialEq)]
pub enum Rule {
    TooLong,
    BeyondStops,
    BeyondTaken,
    Address,
    Selection,
    ShortSave,
    ShortHalfBytes,
    WideBlock,
    LateOffset,
    ShortBlock,
    SaveRead,
    Unread,
    Frozen,
    Carry,
    Sixty,
    Several,
}

pub const RULES: [Rule; 16] = [
    Rule::TooLong,
    Rule::BeyondStops,
    Rule::BeyondTaken,
    Rule::Address,
    Rule::Selection,
    Rule::ShortSave,
    Rule::ShortHalfBytes,
    Rule::WideBlock,
    Rule::LateOffset,
    Rule::ShortBlock,
    Rule::SaveRead,
    Rule::Unread,
    Rule::Frozen,
    Rule::Carry,
    Rule::Sixty,
    Rule::Several,
];

impl Rule {
    pub fn words(self) -> &'static str {
        match self {
            Rule::TooLong => "too-long",
            Rule::BeyondStops => "beyond-stops",
            Rule::BeyondTaken => "beyond-taken",
            Rule::Address => "address",
            Rule::Selection => "selection",
            Rule::ShortSave => "short-save",
            Rule::ShortHalfBytes => "short-half-bytes",
            Rule::WideBlock => "wide-block",
            Rule::LateOffset => "late-offset",
            Rule::ShortBlock => "short-block",
            Rule::SaveRead => "save-read",
            Rule::Unread => "unread",
            Rule::Frozen => "frozen",
            Rule::Carry => "carry",
            Rule::Sixty => "sixty",
            Rule::Several => "several of unread, frozen, carry, sixty",
        }
    }
}

pub const KINDS: [&str; 7] = ["NoMapper", "MBC1", "MBC1 multicart", "MBC2", "MBC3", "MBC3 with timer", "MBC5"];
pub const COLUMNS: [&str; 6] = ["rom0 reads", "romx reads", "RAM reads", "register writes", "RAM writes", "clocks"];

#[derive(Clone, Default)]
pub struct Tally {
    /// Images by the number that refuses them; 0 is taken.
    pub verdicts: [u64; 24],
    /// Images by length: up to 32 KiB, 256 KiB, 2 MiB, below 8 MiB, 8 MiB, longer.
    pub lengths: [u64; 6],
    pub accesses: [[u64; 6]; 7],
    pub sequences: u64,
    pub ram_bytes: u64,
    pub saves_read: u64,
    pub saves_written: u64,
    /// Clock reads in the domain, and the seconds that passed there.
    pub inside_reads: u64,
    pub inside_seconds: u64,
    pub outside_reads: u64,
    /// The last clock blocks that were not the same, in the original's save and the library's.
    pub saves_apart: Option<(String, String)>,
    pub rules: [u64; 16],
    pub timed: Timed,
}

impl Tally {
    pub fn listed(&mut self, rule: Rule) {
        self.rules[RULES.iter().position(|r| *r == rule).unwrap()] += 1;
    }

    pub fn lengths(&mut self, len: usize) {
        let at = match len {
            0..=0x8000 => 0,
            0x8001..=0x40000 => 1,
            0x40001..=0x200000 => 2,
            0x200001..=0x7FFFFF => 3,
            0x800000 => 4,
            _ => 5,
        };
        self.lengths[at] += 1;
    }

    pub fn images(&self) -> u64 {
        self.verdicts.iter().sum()
    }

    pub fn all_accesses(&self) -> u64 {
        self.accesses.iter().flatten().sum()
    }

    pub fn table(&self) -> String {
        let mut out = String::new();
        let o = &mut out;
        writeln!(o, "{} images, {} of them taken; {} accesses", self.images(), self.verdicts[0], self.all_accesses()).unwrap();
        let verdicts = self.verdicts.iter().enumerate().filter(|(_, count)| **count > 0);
        let verdicts: Vec<String> = verdicts.map(|(number, count)| format!("{}: {}", number, count)).collect();
        writeln!(o, "verdicts by number, 0 taken: {}", verdicts.join(", ")).unwrap();
        let l = &self.lengths;
        writeln!(
            o,
            "lengths: to 32 KiB {}, to 256 KiB {}, to 2 MiB {}, below 8 MiB {}, 8 MiB {}, longer {}",
            l[0], l[1], l[2], l[3], l[4], l[5]
        )
        .unwrap();
        writeln!(
            o,
            "{} sequences ended with RAM and registers compared ({} bytes of RAM), {} saves read, {} written",
            self.sequences, self.ram_bytes, self.saves_read, self.saves_written
        )
        .unwrap();
        write!(o, "{:<16}", "accesses").unwrap();
        COLUMNS.iter().for_each(|c| write!(o, " {:>15}", c).unwrap());
        writeln!(o).unwrap();
        for (kind, row) in KINDS.iter().zip(&self.accesses) {
            write!(o, "{:<16}", kind).unwrap();
            row.iter().for_each(|n| write!(o, " {:>15}", n).unwrap());
            writeln!(o).unwrap();
        }
        writeln!(o, "clock reads in the domain: {}, over {} seconds", self.inside_reads, self.inside_seconds).unwrap();
        writeln!(o, "clock reads outside the domain, each as its rule has it: {}", self.outside_reads).unwrap();
        writeln!(o, "differences by rule of docs/DIFFERENCES.md:").unwrap();
        for (rule, count) in RULES.iter().zip(&self.rules) {
            writeln!(o, "  {:<40} {:>12}", rule.words(), count).unwrap();
        }
        out
    }
}
