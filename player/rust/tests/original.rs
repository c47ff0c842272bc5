//! A fixed sample of what mizu-core 1.3.0 answers, in compare/vectors: images, accesses and saves, with the original's answers. Both ways in
//! must give the same: the cartridge with its windows, and the calls.
mod common;
#[rustfmt::skip]
#[path = "../../../compare/src/recipe.rs"]
#[allow(dead_code)]
mod recipe;

use common::{Bus, Lent};
use imfelkuz::{Cartridge, Facts};
use recipe::{number, sum, Base, Image, Save};

const SAMPLE: &str = include_str!("../../../compare/vectors/sample.txt");

fn long(word: &str) -> u64 {
    word.parse().unwrap()
}

// How many lines had an answer to compare.
fn replay<B: Bus>(base: &Base) -> usize {
    let (mut image, mut save, mut cart) = (Vec::new(), None, None);
    let mut compared = 0;
    for (at, line) in SAMPLE.lines().enumerate() {
        let place = || format!("line {}: {}", at + 1, line);
        let words: Vec<&str> = line.split(' ').collect();
        match words[0] {
            "#" => continue,
            "I" => {
                Image::read(line).build(base, &mut image);
                save = None;
                continue;
            }
            "B" => {
                save = Some(Save::read(line).build(base));
                continue;
            }
            "M" => {
                let verdict = Facts::of(&image).map_or_else(|why| why.number().into(), |_| 0);
                assert_eq!(long(words[1]), verdict, "{}", place());
            }
            "T" => {
                let (facts, wall) = (Facts::of(&image).unwrap(), long(words[1]));
                let mut mounted = B::mount(&image, facts.ram_area, wall).unwrap();
                if let Some(save) = &save {
                    mounted.load(save, wall).unwrap();
                }
                cart = Some(mounted);
                continue;
            }
            _ => {
                let cart: &mut B = cart.as_mut().unwrap();
                let addr = || number(words[1]) as u16;
                match words[0] {
                    "R" => assert_eq!(cart.read(addr()), Ok(number(words[2]) as u8), "{}", place()),
                    "W" => assert_eq!(cart.write(addr(), number(words[2]) as u8), Ok(()), "{}", place()),
                    "C" => assert_eq!(cart.advance(long(words[1])), Ok(()), "{}", place()),
                    "A" => assert_eq!(
                        (number(words[1]), words[2]),
                        (cart.ram().len(), &*format!("{:X}", sum(cart.ram()))),
                        "{}",
                        place()
                    ),
                    _ => {
                        let mut room = vec![0; number(words[2])];
                        assert_eq!(cart.save(&mut room, long(words[1])), Ok(room.len()), "{}", place());
                        assert_eq!(words[3], format!("{:X}", sum(&room)), "{}", place());
                    }
                }
            }
        }
        compared += 1;
    }
    compared
}

#[test]
fn both_answer_as_the_original() {
    let base = Base::new();
    let compared = replay::<Cartridge>(&base);
    assert!(compared > 10_000, "{} lines are not the whole sample", compared);
    assert_eq!(replay::<Lent>(&base), compared);
}
