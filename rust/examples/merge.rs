//! merge BASE A B: prints the program that integrates two variants with their base, or why there is none.

use std::io::Write;
use std::{env, fs, io, process};

fn main() -> io::Result<()> {
    let names: Vec<String> = env::args().skip(1).collect();
    let [base, a, b] = &names[..] else {
        eprintln!("usage: merge BASE A B");
        process::exit(7);
    };
    let merged = hpr::integrate(&fs::read(base)?, &fs::read(a)?, &fs::read(b)?);
    io::stdout().write_all(&merged.out)?;
    io::stderr().write_all(&merged.err)?;
    process::exit(merged.status.number() as i32);
}
