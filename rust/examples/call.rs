//! call WORD..: makes a call of the program in process, over the files that its words name.
//! call --data WORD..: prints the same call's answer as data.
//! call --threads THREADS CALLS BASE A B: makes one integration as often from each of some threads; all answers are the same.

use std::io::Write;
use std::{env, fs, io, process, thread};

// Hands a call the words and the files that they name.
fn with_files<A>(words: &[String], call: impl Fn(&[&str], &[(&str, &[u8])]) -> A) -> A {
    let files: Vec<(&str, Vec<u8>)> = words
        .iter()
        .skip(1)
        .filter_map(|word| Some((word.as_str(), fs::read(word).ok()?)))
        .collect();
    let files: Vec<(&str, &[u8])> = files
        .iter()
        .map(|file| (file.0, file.1.as_slice()))
        .collect();
    let words: Vec<&str> = words.iter().map(String::as_str).collect();
    call(&words, &files)
}

fn call_at_once(threads: usize, calls: usize, names: &[String]) -> io::Result<()> {
    let [base, a, b] = [
        fs::read(&names[0])?,
        fs::read(&names[1])?,
        fs::read(&names[2])?,
    ];
    let wanted = hpr::integrate(&base, &a, &b);
    thread::scope(|scope| {
        for _ in 0..threads {
            scope.spawn(|| {
                for _ in 0..calls {
                    assert_eq!(hpr::integrate(&base, &a, &b), wanted);
                }
            });
        }
    });
    println!("{threads} threads, {calls} calls each: the same answer");
    Ok(())
}

fn main() -> io::Result<()> {
    let words: Vec<String> = env::args().skip(1).collect();
    if let [first, threads, calls, names @ ..] = &words[..] {
        if first == "--threads" && names.len() == 3 {
            return call_at_once(
                threads.parse().map_err(io::Error::other)?,
                calls.parse().map_err(io::Error::other)?,
                names,
            );
        }
    }
    if words.first().is_some_and(|word| word == "--data") {
        let told = with_files(&words[1..], hpr::data);
        io::stdout().write_all(told.json.as_bytes())?;
        process::exit(told.status.number() as i32);
    }
    let answer = with_files(&words, hpr::call);
    io::stdout().write_all(&answer.out)?;
    io::stderr().write_all(&answer.err)?;
    process::exit(answer.status.number() as i32);
}
