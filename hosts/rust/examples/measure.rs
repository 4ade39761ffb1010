//! `cargo run --release --example measure FILE`: how long a text takes to parse, then also to read.

use cedar_proved::PolicySet;
use std::time::Instant;
use std::{env, fs, io};

fn read(set: &PolicySet) -> usize {
    let scope = |it: cedar_proved::Scope<'_>| {
        it.entities().map(|entity| entity.id().len()).sum::<usize>() + it.is_slot() as usize
    };
    set.iter()
        .map(|it| {
            let annotations: usize = it
                .annotations()
                .map(|pair| pair.0.len() + pair.1.len())
                .sum();
            it.id().len()
                + it.printed().len()
                + it.range().len()
                + annotations
                + scope(it.principal())
                + scope(it.action())
                + scope(it.resource())
        })
        .sum()
}

fn main() -> io::Result<()> {
    let text = fs::read_to_string(env::args().nth(1).unwrap_or("/dev/stdin".to_owned()))?;
    for _ in 0..3 {
        let begun = Instant::now();
        let set = PolicySet::parse(&text).expect("policies");
        let parsed = begun.elapsed();
        let sum = read(&set);
        let told = begun.elapsed();
        drop(set);
        println!(
            "{} bytes: parsed {parsed:?}, read {told:?}, freed {:?} ({sum})",
            text.len(),
            begun.elapsed()
        );
    }
    Ok(())
}
