//! The vectors of crates/save_vectors: 90 cases of saving and reading. Both ways in must write the same lines: the cartridge that owns its
//! RAM, and the calls.
mod common;
#[rustfmt::skip]
#[path = "../../../crates/save_vectors/src/rows.rt"]
mod rows;

use common::build::Case;
use common::lines::compare;
use common::saves::jobs::{Job, Moment};
use common::saves::{show, Lending};
use common::{build, images, Bus, Lent};
use imfelkuz::Cartridge;
use std::cell::RefCell;

fn lines<B: Bus>() -> String {
    let mut out = String::new();
    let mut image = images::recipe();
    let left = RefCell::new(vec![0; 0x20200]);
    for (case, job) in rows::ROWS {
        build::header(&mut image, case);
        let lending = Lending { image: &image[..case.length], area: case.area, type_byte: case.type_byte, left: &left };
        show::<B>(&mut out, &lending, job);
    }
    out
}

#[test]
fn a_cartridge_saves_and_reads_as_the_vectors_say() {
    println!("{} lines", compare(&lines::<Cartridge>(), "save_vectors"));
}

#[test]
fn the_calls_save_and_read_as_the_vectors_say() {
    println!("{} lines", compare(&lines::<Lent>(), "save_vectors"));
}
