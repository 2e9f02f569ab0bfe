//! Makes the calls of the rows that `checks/embed_rows FILE` writes, where HPR_ROWS names that file, and compares each answer. Where
//! HPR_ANSWERS names another one, what is told as data is written there, as `checks/embed_data` reads it.

use std::io::{BufWriter, Write};
use std::{env, fs, io};

/// What a file of rows still has.
struct Rows<'a>(&'a [u8]);

impl<'a> Rows<'a> {
    fn take(&mut self, count: usize) -> &'a [u8] {
        let (front, rest) = self.0.split_at(count);
        self.0 = rest;
        front
    }

    fn number(&mut self) -> usize {
        u64::from_le_bytes(self.take(8).try_into().expect("eight bytes")) as usize
    }

    fn bytes(&mut self) -> &'a [u8] {
        let count = self.number();
        self.take(count)
    }

    fn texts(&mut self) -> Vec<&'a str> {
        let packed = std::str::from_utf8(self.bytes()).expect("words are UTF-8");
        packed.split_terminator('\0').collect()
    }

    fn call(&mut self) -> (Vec<&'a str>, Vec<(&'a str, &'a [u8])>) {
        let (words, names) = (self.texts(), self.texts());
        let files = names.into_iter().map(|name| (name, self.bytes()));
        (words, files.collect())
    }

    fn answer(&mut self) -> (usize, &'a [u8], &'a [u8]) {
        (self.number(), self.bytes(), self.bytes())
    }
}

fn write_told(out: &mut impl Write, told: &hpr::Data) -> io::Result<()> {
    out.write_all(&u64::from(told.status.number()).to_le_bytes())?;
    out.write_all(&(told.json.len() as u64).to_le_bytes())?;
    out.write_all(told.json.as_bytes())
}

#[test]
fn rows_have_their_answers() {
    let Some(file) = env::var_os("HPR_ROWS") else {
        eprintln!("skipped: HPR_ROWS names no file of rows");
        return;
    };
    let whole = fs::read(file).expect("the file of rows is read");
    let mut rows = Rows(&whole);
    let mut calls = 0;
    while !rows.0.is_empty() {
        let (words, files) = rows.call();
        let wanted = rows.answer();
        let answer = hpr::call(&words, &files);
        assert_eq!(
            (
                answer.status.number() as usize,
                &answer.out[..],
                &answer.err[..]
            ),
            wanted,
            "{words:?}"
        );
        calls += 1;
    }
    assert!(calls > 500, "{calls} calls");
}

#[test]
fn rows_are_told_as_data() -> io::Result<()> {
    let (Some(file), Some(answers)) = (env::var_os("HPR_ROWS"), env::var_os("HPR_ANSWERS")) else {
        eprintln!("skipped: HPR_ROWS and HPR_ANSWERS name no files");
        return Ok(());
    };
    let whole = fs::read(file)?;
    let (mut rows, mut out) = (Rows(&whole), BufWriter::new(fs::File::create(answers)?));
    while !rows.0.is_empty() {
        let (words, files) = rows.call();
        let (number, _, _) = rows.answer();
        if matches!(words.first(), Some(&("integrate" | "affected" | "graph" | "run" | "verify"))) {
            let told = hpr::data(&words, &files);
            assert_eq!(told.status.number() as usize, number, "{words:?}");
            write_told(&mut out, &told)?;
        }
        for (_, text) in files {
            write_told(&mut out, &hpr::places(text))?;
        }
    }
    out.flush()
}

#[test]
fn a_text_is_whole_where_it_is_longer_than_all_that_was_handed_in() {
    let answer = hpr::call(&["sample", "7", "400"], &[]);
    assert_eq!(answer.status, hpr::Status::Done);
    let usage = hpr::call(&[], &[]);
    assert_eq!(usage.status, hpr::Status::Words);
    assert!(usage.err.len() > 256 && usage.err.ends_with(b"\n"));
    let parts: String = (1..200).map(|n| format!("1.{n}:x:=1;")).collect();
    let places = hpr::places(format!("program {parts}end(x)").as_bytes());
    assert!(places.json.len() > 6000 && places.json.ends_with("]\n"));
}

#[test]
fn a_zero_byte_in_a_word_is_no_form() {
    assert_eq!(hpr::call(&["run\0f"], &[]).status, hpr::Status::Form);
    assert_eq!(
        hpr::call(&["run", "f"], &[("f\0", b"")]).status,
        hpr::Status::Form
    );
    let told = hpr::data(&["run\0f"], &[]);
    assert_eq!((told.status, &told.json[..]), (hpr::Status::Form, ""));
}

#[test]
fn another_command_is_not_told_as_data() {
    let told = hpr::data(&["sample", "7", "40"], &[]);
    assert_eq!(
        (told.status, &told.json[..]),
        (hpr::Status::Words, "{\"status\":\"words\"}\n")
    );
}

#[test]
fn a_text_that_spells_no_program_is_refused() {
    let places = hpr::places(b"program");
    assert_eq!(places.status, hpr::Status::Refused);
    assert!(places
        .json
        .starts_with(r#"{"byte":7,"file":"text","kind":"syntax","#));
}

#[test]
fn the_library_has_the_version_of_the_crate() {
    let numbers: Vec<u32> = env!("CARGO_PKG_VERSION")
        .split('.')
        .map(|number| number.parse().expect("a number"))
        .collect();
    assert_eq!(
        hpr::version(),
        numbers[0] * 10_000 + numbers[1] * 100 + numbers[2]
    );
}
