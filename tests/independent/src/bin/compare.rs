//! Holds the two programs to the independent implementation, byte by byte, on seeded files. Every fourth file goes to
//! the program file_cases instead, with a list of editions of its own before it.
//! compare COUNT SEED all|first PROGRAMS KEPT: COUNT files of each kind; PROGRAMS is the folder of hlz, statement and
//! file_cases; a file that is answered otherwise is kept in the folder KEPT, as the program was given it. `first` stops
//! at the first such file.

use independent::editions::Editions;
use independent::files::{statement_text, windows_text};
use independent::making::{customer_file, grid_file, some_list, List, Made, Random};
use std::collections::BTreeMap;
use std::io::{self, Write};
use std::path::{Path, PathBuf};
use std::process::{Command, ExitCode, Stdio};
use std::time::{Duration, Instant};

const MOST_SHOWN: u64 = 10;
const BETWEEN_PROGRESS: Duration = Duration::from_secs(2);
/// Of so many files of a kind the last has a list of editions of its own.
const OWN_LIST_EVERY: u64 = 4;
const UNDER_A_LIST: &str = "file_cases";

struct Kind {
    program: &'static str,
    /// what file_cases knows the kind by
    letter: u8,
    make: fn(&mut Random, &List) -> Made,
    expect: fn(&Editions, &[u8]) -> String,
}

const KINDS: [Kind; 2] = [
    Kind { program: "hlz", letter: b'G', make: grid_file, expect: windows_text },
    Kind { program: "statement", letter: b'C', make: customer_file, expect: statement_text },
];

struct Plan {
    count: u64,
    seed: u64,
    stop_at_first: bool,
    programs: PathBuf,
    kept: PathBuf,
}

impl Plan {
    fn from_words(mut words: impl Iterator<Item = String>) -> Option<Plan> {
        Some(Plan {
            count: words.next()?.parse().ok()?,
            seed: words.next()?.parse().ok()?,
            stop_at_first: words.next()? == "first",
            programs: words.next()?.into(),
            kept: words.next()?.into(),
        })
    }

    /// What a program prints for a file on its standard input.
    fn run(&self, program: &str, file: &[u8]) -> io::Result<Vec<u8>> {
        let mut child = Command::new(self.programs.join(program)).stdin(Stdio::piped()).stdout(Stdio::piped()).spawn()?;
        if let Some(mut input) = child.stdin.take() {
            // a program that has its answer need not read on
            match input.write_all(file) {
                Err(error) if error.kind() != io::ErrorKind::BrokenPipe => return Err(error),
                _ => {}
            }
        }
        let output = child.wait_with_output()?;
        if !output.status.success() {
            return Ok([&output.stdout, format!("({})", output.status).as_bytes()].concat());
        }
        Ok(output.stdout)
    }
}

#[derive(Default)]
struct Tally {
    passed: u64,
    failed: u64,
    /// how often each number was to be answered, for each kind, under today's list or under another
    numbers: BTreeMap<(&'static str, bool, u8), u64>,
}

/// The number that an expected text answers.
fn number_of(text: &str) -> u8 {
    let mut words = text.split_whitespace();
    match words.next() {
        Some("HLZ") => 0,
        Some("REFUSED") => words.next().and_then(|word| word.parse().ok()).unwrap_or(255),
        Some(word) => word.parse().unwrap_or(255),
        None => 255,
    }
}

/// What a program is given, and how it was made.
struct Given {
    program: &'static str,
    recipe: String,
    bytes: Vec<u8>,
    expected: String,
}

fn given(kind: &Kind, random: &mut Random, own_list: bool) -> Given {
    let list = if own_list { some_list(random) } else { List::today() };
    let made = (kind.make)(random, &list);
    let expected = (kind.expect)(&list.loaded, &made.bytes);
    if !own_list {
        return Given { program: kind.program, recipe: made.recipe, bytes: made.bytes, expected };
    }
    let bytes = [&[kind.letter][..], &list.bytes(), &made.bytes].concat();
    Given { program: UNDER_A_LIST, recipe: format!("{}, {} editions given", made.recipe, list.given.len()), bytes, expected }
}

fn show_difference(plan: &Plan, kind: &Kind, index: u64, given: &Given, came: &[u8]) -> io::Result<()> {
    std::fs::create_dir_all(&plan.kept)?;
    let name = format!("{}-{}-{}", kind.program, plan.seed, index);
    std::fs::write(plan.kept.join(&name), &given.bytes)?;
    println!("differs: {} on {} ({}, {} bytes)", given.program, name, given.recipe, given.bytes.len());
    println!("  expected: {}", given.expected.escape_debug());
    println!("  came:     {}", String::from_utf8_lossy(came).escape_debug());
    Ok(())
}

fn compare_one(plan: &Plan, kind: &Kind, index: u64, tally: &mut Tally) -> io::Result<()> {
    // each file has a seed of its own, so that one can be made without those before it
    let mut random = Random::new(Random::new(plan.seed ^ (kind.program.len() as u64) << 56).next() ^ index);
    let own_list = index % OWN_LIST_EVERY == OWN_LIST_EVERY - 1;
    let given = given(kind, &mut random, own_list);
    let came = plan.run(given.program, &given.bytes)?;
    *tally.numbers.entry((kind.program, own_list, number_of(&given.expected))).or_default() += 1;
    if came == given.expected.as_bytes() {
        tally.passed += 1;
        return Ok(());
    }
    tally.failed += 1;
    if tally.failed <= MOST_SHOWN {
        show_difference(plan, kind, index, &given, &came)?;
    }
    Ok(())
}

fn compare_all(plan: &Plan) -> io::Result<Tally> {
    let mut tally = Tally::default();
    let mut shown = Instant::now();
    for index in 0..plan.count {
        for kind in &KINDS {
            compare_one(plan, kind, index, &mut tally)?;
            if plan.stop_at_first && tally.failed > 0 {
                return Ok(tally);
            }
        }
        if shown.elapsed() >= BETWEEN_PROGRESS {
            shown = Instant::now();
            eprintln!("compare: {} of {} files of each kind, {} failed", index + 1, plan.count, tally.failed);
        }
    }
    Ok(tally)
}

fn show_numbers(tally: &Tally) {
    for (kind, own_list) in KINDS.iter().flat_map(|kind| [(kind, false), (kind, true)]) {
        let of_kind = tally.numbers.iter().filter(|((program, own, _), _)| (*program, *own) == (kind.program, own_list));
        let texts: Vec<String> = of_kind.map(|((_, _, number), times)| format!("{number}: {times}")).collect();
        println!("{}{} was to answer {}", kind.program, if own_list { ", under other editions," } else { "" }, texts.join(", "));
    }
}

fn main() -> ExitCode {
    let Some(plan) = Plan::from_words(std::env::args().skip(1)) else {
        eprintln!("compare COUNT SEED all|first PROGRAMS KEPT");
        return ExitCode::from(2);
    };
    let missing = |program: &&str| !Path::new(&plan.programs.join(program)).exists();
    if let Some(program) = KINDS.iter().map(|kind| kind.program).chain([UNDER_A_LIST]).find(|program| missing(&program)) {
        eprintln!("compare: there is no program {program} in {}", plan.programs.display());
        return ExitCode::from(2);
    }
    println!("seed {}, {} files of each kind", plan.seed, plan.count);
    match compare_all(&plan) {
        Ok(tally) => {
            show_numbers(&tally);
            println!("{} passed, {} failed", tally.passed, tally.failed);
            ExitCode::from((tally.failed > 0) as u8)
        }
        Err(error) => {
            eprintln!("compare: {error}");
            ExitCode::from(2)
        }
    }
}
