//! The vectors of crates/bus_vectors: 23 cartridges of unequal shape and what each access is answered, by mizu-core 1.3.0 where it can
//! be asked. Both ways in must write the same lines: the cartridge with its windows, and the calls.
mod common;
#[rustfmt::skip]
#[path = "../../../crates/bus_vectors/src/cases.rt"]
mod cases;
#[rustfmt::skip]
#[path = "../../../crates/bus_vectors/src/directed.rt"]
mod directed;

use common::build::Case;
use common::lines::{compare, each, heading, number, sum};
use common::steps::Step;
use common::{build, draw, images, Bus, Lent};
use imfelkuz::Cartridge;

fn played<B: Bus>(out: &mut String, image: &[u8], case: Case, table: &[Step]) {
    match B::mount(image, case.area, 7) {
        Ok(mut cart) => {
            heading(out, image, case.type_byte);
            each(out, &mut cart, &directed::START);
            each(out, &mut cart, table);
            each(out, &mut cart, &draw::steps(case.seed()));
            number(out, 'S', sum(cart.ram()));
        }
        Err(why) => number(out, 'N', why.into()),
    }
}

fn lines<B: Bus>() -> String {
    let mut out = String::new();
    let mut image = images::recipe();
    let groups: [(&[Case], &[Step]); 6] = [
        (&cases::NO_MAPPER, &directed::NO_MAPPER),
        (&cases::MBC1, &directed::MBC1),
        (&cases::MBC2, &directed::MBC2),
        (&cases::MBC3, &directed::MBC3),
        (&cases::MBC5, &directed::MBC5),
        (&cases::REFUSED, &directed::REFUSED),
    ];
    for (cases, table) in groups {
        for case in cases {
            build::header(&mut image, *case);
            played::<B>(&mut out, &image[..case.length], *case, table);
        }
    }
    out
}

#[test]
fn a_cartridge_answers_as_the_vectors_say() {
    println!("{} lines", compare(&lines::<Cartridge>(), "bus_vectors"));
}

#[test]
fn the_calls_answer_as_the_vectors_say() {
    println!("{} lines", compare(&lines::<Lent>(), "bus_vectors"));
}
