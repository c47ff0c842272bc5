//! What a cartridge and its save go through, as in crates/save_lines, save_flows and save_cases: `S` a save's length and sum, `T` its last
//! 25 bytes, `E` four bytes of the room beyond, `B` how many bytes are read, `L` the wall time of a reading and its answer, `A` the sum
//! of the RAM area.
use super::lines::{each, heading, number, sum};
use super::steps::Step;
use super::{build, done, Bus, Lent};
use imfelkuz::{sys, Loaded};
use jobs::{Job, Moment};
use std::cell::RefCell;
use std::fmt::Write;

#[rustfmt::skip]
#[path = "../../../../crates/save_cases/src/jobs.rt"]
pub mod jobs;
#[rustfmt::skip]
#[path = "../../../../crates/save_flows/src/tables.rt"]
mod tables;

const ROOM: usize = 0x20240;

fn room() -> Vec<u8> {
    vec![0xEE; ROOM]
}

fn row(out: &mut String, letter: char, bytes: &[u8]) {
    let digits: String = bytes.iter().map(|b| format!(" {:02X}", b)).collect();
    writeln!(out, "{}{}", letter, digits).unwrap();
}

fn tail(out: &mut String, room: &[u8], n: usize) {
    row(out, 'T', &room[n.saturating_sub(25)..n]);
}

fn saved(out: &mut String, answer: Result<usize, u32>, room: &[u8]) -> usize {
    match answer {
        Ok(n) => {
            writeln!(out, "S {} {}", n, sum(&room[..n])).unwrap();
            tail(out, room, n);
            row(out, 'E', &room[n..room.len().min(n + 4)]);
            n
        }
        Err(why) => {
            number(out, 'X', why.into());
            0
        }
    }
}

fn save<B: Bus>(out: &mut String, cart: &B, room: &mut [u8], wall: u64) -> usize {
    let answer = cart.save(room, wall);
    saved(out, answer, room)
}

// The area, and the tail of what is saved at this wall time.
fn kept<B: Bus>(out: &mut String, cart: &B, wall: u64) {
    number(out, 'A', sum(cart.ram()));
    let mut room = room();
    match cart.save(&mut room, wall) {
        Ok(n) => tail(out, &room, n),
        Err(why) => number(out, 'X', why.into()),
    }
}

fn loaded(out: &mut String, answer: Result<Loaded, u32>, wall: u64) {
    let words = match answer {
        Ok(Loaded::Whole) => "whole".to_string(),
        Ok(Loaded::RamOnly) => "RAM only".to_string(),
        Err(why) => format!("X {}", why),
    };
    writeln!(out, "L {} {}", wall, words).unwrap();
}

// Mounted at wall time 1000, filled and played, and saved at this wall time: the save's length.
fn first<B: Bus>(out: &mut String, case: &Lending, room: &mut [u8], table: &[Step], wall: u64) -> usize {
    let mut cart = B::mount(case.image, case.area, 1000).unwrap();
    heading(out, case.image, case.type_byte);
    each(out, &mut cart, &tables::FILLED);
    each(out, &mut cart, table);
    case.leave(cart.ram());
    save(out, &cart, room, wall)
}

// Mounted at this wall time, the save read, the registers read, and saved again.
fn again<B: Bus>(out: &mut String, case: &Lending, bytes: &[u8], wall: u64) {
    let mut cart = B::mount(case.image, case.area, wall).unwrap();
    let answer = cart.load(bytes, wall);
    loaded(out, answer, wall);
    each(out, &mut cart, &tables::READS);
    number(out, 'A', sum(cart.ram()));
    save(out, &cart, &mut room(), wall);
    case.leave(cart.ram());
}

fn timed<B: Bus>(out: &mut String, case: &Lending, table: &[Step], wall: u64, later: &[u64]) {
    let mut room = room();
    let n = first::<B>(out, case, &mut room, table, wall);
    again::<B>(out, case, &room[..n], wall);
    for at in later {
        again::<B>(out, case, &room[..n], *at);
    }
}

// A save that no cartridge wrote: each byte of RAM a mix of its place, a block, and three bytes more.
fn made(area: usize, moment: Moment, offset: u64) -> Vec<u8> {
    let mut bytes: Vec<u8> = (0..area + 24).map(|i| build::mixed(i + 0x900000)).collect();
    let Moment(day, hour, minute, second) = moment;
    let block = &mut bytes[area..];
    block[..3].copy_from_slice(&[second, minute, hour]);
    block[3..5].copy_from_slice(&day.to_le_bytes());
    block[5..13].copy_from_slice(&1000u64.to_le_bytes());
    block[13..21].copy_from_slice(&offset.to_le_bytes());
    bytes
}

// Played, a save read at this wall time, and played on; what is kept before and after.
fn between<B: Bus>(out: &mut String, case: &Lending, before: &[Step], bytes: &[u8], wall: u64, after: &[Step]) {
    let mut cart = B::mount(case.image, case.area, wall).unwrap();
    heading(out, case.image, case.type_byte);
    each(out, &mut cart, before);
    kept(out, &cart, wall);
    number(out, 'B', bytes.len() as u64);
    let answer = cart.load(bytes, wall);
    loaded(out, answer, wall);
    each(out, &mut cart, after);
    kept(out, &cart, wall);
    case.leave(cart.ram());
}

// Saved and read with this bank count and n bytes of RAM lent; the cartridge is mounted with all but 512 of them. Only the calls can be
// lent what is wrong.
fn wrong(out: &mut String, case: &Lending, banks: u16, n: usize) {
    let mut cart = Lent::mount(case.image, case.area - 512, 1000).unwrap();
    heading(out, case.image, case.type_byte);
    cart.ram.extend_from_slice(&case.left.borrow()[case.area - 512..case.area]);
    cart.state[8..10].copy_from_slice(&banks.to_le_bytes());
    let mut bytes = [0xEE; 10];
    let mut size = 0;
    let answer = done(sys::save_out(&cart.state, &cart.ram[..n], &mut bytes, 1000, &mut size)).map(|()| size as usize);
    saved(out, answer, &bytes);
    let mut clock = 2;
    let answer = done(sys::save_in(&mut cart.state, &mut cart.ram[..n], &bytes, 1000, &mut clock));
    loaded(out, answer.map(|()| [Loaded::RamOnly, Loaded::Whole][clock as usize]), 1000);
    writeln!(out, "A {} {}", sum(&cart.ram), sum(&bytes)).unwrap();
    case.leave(&cart.ram);
}

pub struct Lending<'a> {
    pub image: &'a [u8],
    pub area: usize,
    pub type_byte: u8,
    /// What the cases before have left in the RAM.
    pub left: &'a RefCell<Vec<u8>>,
}

impl Lending<'_> {
    fn leave(&self, ram: &[u8]) {
        self.left.borrow_mut()[..ram.len()].copy_from_slice(ram);
    }
}

fn slept<B: Bus>(out: &mut String, case: &Lending, table: &[Step], wall: u32) {
    let time: u64 = wall.into();
    timed::<B>(out, case, table, time, &[time + 61, time + 34_560_000, time.saturating_sub(900)]);
}

/// What a case goes through.
pub fn show<B: Bus>(out: &mut String, case: &Lending, job: Job) {
    let block = |moment, offset| made(case.area, moment, offset);
    match job {
        Job::Whole(moment, wall) => between::<B>(out, case, &[], &block(moment, 0), wall, &tables::READS),
        Job::Offset(moment, offset) => between::<B>(out, case, &[], &block(moment, offset), 1000, &tables::READS),
        Job::Refused(moment, offset) => between::<B>(out, case, &tables::FILLED, &block(moment, offset), 1000, &[]),
        Job::Used(moment) => between::<B>(out, case, &tables::USED, &block(moment, 0), 1000, &tables::AFTER),
        Job::Cut(moment, most) => between::<B>(out, case, &[], &block(moment, 0)[..most], 1000, &[]),
        Job::Plain => timed::<B>(out, case, &[], 1000, &[]),
        Job::Day111(wall) => slept::<B>(out, case, &tables::DAY_111, wall),
        Job::Day300(wall) => slept::<B>(out, case, &tables::DAY_300, wall),
        // The sum of the whole room too.
        Job::Short(size) => {
            let mut room = room();
            first::<B>(out, case, &mut room[..size], &[], 1000);
            number(out, 'A', sum(&room));
        }
        Job::Wrong(banks, lent) => wrong(out, case, banks, lent),
    }
}
