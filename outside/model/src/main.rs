//! The command line: compare, print, why, make; no section of a document.

use model::compare::{compare, Wanted};
use model::make::Maker;
use model::program::{run, Ran};
use std::io::{self, Read, Write};
use std::process::exit;
use std::time::{SystemTime, UNIX_EPOCH};

const USAGE: &str = "\
model compare --programs FOLDER [--loader WORD.. [--]] [--tapes N] [--seed S] [--only I] [--repeat COMMAND]
    runs the folder's tape_run and tape_why on N tapes (20000) and compares every byte they print;
    the loader's words stand before a program's name and go up to a word -- or the end;
    COMMAND is named as the one that repeats a tape
model print < TAPE
    what the model prints for one tape, as tape_run does
model why < TAPE
    the same, as tape_why does
model make --seed S --only I > TAPE
    writes one tape
";

struct Words {
    programs: Option<String>,
    loader: Vec<String>,
    tapes: u64,
    seed: Option<u64>,
    only: Option<u64>,
    repeat: Option<String>,
}

fn misused(text: &str) -> ! {
    eprintln!("model: {text}\n{USAGE}");
    exit(2);
}

fn number(name: &str, word: Option<String>) -> u64 {
    match word.as_ref().map(|word| word.parse()) {
        Some(Ok(number)) => number,
        _ => misused(&format!("{name} takes a number")),
    }
}

fn read_words(mut words: impl Iterator<Item = String>) -> Words {
    let mut read = Words {
        programs: None,
        loader: Vec::new(),
        tapes: 20_000,
        seed: None,
        only: None,
        repeat: None,
    };
    while let Some(word) = words.next() {
        match word.as_str() {
            "--programs" => read.programs = words.next(),
            "--loader" => read.loader = words.by_ref().take_while(|word| word != "--").collect(),
            "--tapes" => read.tapes = number("--tapes", words.next()),
            "--seed" => read.seed = Some(number("--seed", words.next())),
            "--only" => read.only = Some(number("--only", words.next())),
            // how the command that repeats a tape begins
            "--repeat" => read.repeat = words.next(),
            _ => misused(&format!("what is {word}?")),
        }
    }
    read
}

fn seed_from_clock() -> u64 {
    let now = SystemTime::now().duration_since(UNIX_EPOCH);
    now.map_or(1, |past| past.as_micros() as u64)
}

fn run_input() -> Result<Ran, String> {
    let mut tape = Vec::new();
    let read = io::stdin().read_to_end(&mut tape);
    read.map_err(|error| format!("can't read the tape: {error}"))?;
    run(&tape)
}

fn wanted(words: Words) -> Wanted {
    let programs = words
        .programs
        .unwrap_or_else(|| misused("compare takes --programs"));
    let mut again = format!("model compare --programs {programs}");
    if !words.loader.is_empty() {
        again += &format!(" --loader {} --", words.loader.join(" "));
    }
    Wanted {
        programs,
        loader: words.loader,
        tapes: words.tapes,
        seed: words.seed.unwrap_or_else(seed_from_clock),
        only: words.only,
        repeat: words.repeat.unwrap_or(again),
    }
}

fn make(words: &Words) -> Result<(), String> {
    match (words.seed, words.only) {
        (Some(seed), Some(only)) => show(&Maker::default().tape(seed, only).1),
        _ => misused("make takes --seed and --only"),
    }
}

fn show(bytes: &[u8]) -> Result<(), String> {
    let written = io::stdout().write_all(bytes);
    written.map_err(|error| format!("can't write: {error}"))
}

fn main() {
    let mut words = std::env::args().skip(1);
    let command = words.next().unwrap_or_default();
    let words = read_words(words);
    let done = match command.as_str() {
        "compare" => {
            let wanted = wanted(words);
            exit(i32::from(compare(&wanted) > 0));
        }
        "print" => run_input().and_then(|ran| show(&ran.tape_run)),
        "why" => run_input().and_then(|ran| show(&ran.tape_why)),
        "make" => make(&words),
        _ => misused("a command is missing"),
    };
    if let Err(text) = done {
        eprintln!("model: {text}");
        exit(1);
    }
}
