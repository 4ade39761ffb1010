//! `cargo run --example show FILE`: the policies of a file, or its faults with their lines.

use cedar_proved::PolicySet;
use std::{env, fs, io, process};

fn main() -> io::Result<()> {
    let name = env::args().nth(1).unwrap_or("/dev/stdin".to_owned());
    let text = fs::read_to_string(&name)?;
    match PolicySet::parse(&text) {
        Ok(set) => {
            for policy in &set {
                println!("{policy:?}");
            }
            Ok(())
        }
        Err(faults) => {
            eprint!("{}", faults.shown(&name, &text));
            process::exit(1)
        }
    }
}
