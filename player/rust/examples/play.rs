//! Mounts an image, runs a trace on it and writes the save: `play cart.rom cart.trace [cart.sav]`.
//!
//! A save that is there already is read first. Prints what the replay program prints: `R` or `W` with address and byte, `C` with a count
//! of clocks, `X` with the number of a refused access, `T` with the place of what is no record, and `end` with the count of records.
use imfelkuz::trace::{Record, Records};
use imfelkuz::{Cartridge, Loaded, Refusal};
use std::error::Error;
use std::io::ErrorKind;
use std::time::{SystemTime, UNIX_EPOCH};
use std::{env, fs, process};

fn now() -> u64 {
    SystemTime::now().duration_since(UNIX_EPOCH).map_or(0, |d| d.as_secs())
}

fn step(cart: &mut Cartridge, record: Record) -> Result<String, Refusal> {
    match record {
        Record::Read(addr) => cart.read(addr).map(|byte| format!("R {:04X} {:02X}", addr, byte)),
        Record::Write(addr, byte) => cart.write(addr, byte).map(|()| format!("W {:04X} {:02X}", addr, byte)),
        Record::Clocks(n) => cart.advance(n.into()).map(|()| format!("C {}", n)),
    }
}

fn replay(cart: &mut Cartridge, trace: &[u8]) {
    let mut records = Records::new(trace);
    let mut count = 0;
    while let Some(next) = records.next() {
        match next {
            Ok(record) => {
                count += 1;
                match step(cart, record) {
                    Ok(line) => println!("{}", line),
                    Err(why) => println!("X {}", why.number()),
                }
            }
            Err(_) => println!("T {}", records.place()),
        }
    }
    println!("end {}", count);
}

fn play(image: &str, trace: &str, save: Option<&str>) -> Result<(), Box<dyn Error>> {
    let mut cart = Cartridge::mount(fs::read(image)?, now())?;
    let facts = cart.facts();
    eprintln!("{:?}, {:?}, {} ROM banks, {} bytes of RAM", cart.title(), facts.kind, facts.rom_banks, facts.ram_area);
    if let Some(save) = save {
        match fs::read(save) {
            Ok(bytes) => match cart.load(&bytes, now())? {
                Loaded::Whole => eprintln!("{}: read, the clock too", save),
                Loaded::RamOnly => eprintln!("{}: read", save),
            },
            Err(why) if why.kind() == ErrorKind::NotFound => {}
            Err(why) => return Err(why.into()),
        }
    }
    replay(&mut cart, &fs::read(trace)?);
    if let Some(save) = save {
        fs::write(save, cart.save(now())?)?;
    }
    Ok(())
}

fn main() {
    let words: Vec<String> = env::args().skip(1).collect();
    let words: Vec<&str> = words.iter().map(String::as_str).collect();
    let answer = match words[..] {
        [image, trace] => play(image, trace, None),
        [image, trace, save] => play(image, trace, Some(save)),
        _ => Err("usage: play cart.rom cart.trace [cart.sav]".into()),
    };
    if let Err(why) = answer {
        eprintln!("{}", why);
        process::exit(1);
    }
}
