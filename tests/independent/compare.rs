//! `compare PROGRAM COUNT SEED`: makes COUNT session files from the seed, lets PROGRAM print each, and compares that
//! with what the independent cabinet prints (cabinet.rs). It stops at the first difference, keeps that file, and ends
//! with status 1. At the end it tells what came how often, so that nothing stays untried without being seen.

#[path = "cabinet.rs"]
mod cabinet;
#[path = "sessions.rs"]
mod sessions;

use std::collections::BTreeMap;
use std::path::{Path, PathBuf};
use std::process::{Command, ExitCode};
use std::time::{Duration, Instant};

use cabinet::print_session;
use sessions::{make_file, Chance, SORTS};

// --------------------------------------------------------------------------------------------- the documents' examples

fn bytes_of_text(text: &str) -> Vec<u8> {
    text.split_whitespace().map(|byte| u8::from_str_radix(byte, 16).expect("a byte in hexadecimal")).collect()
}

/// The examples of docs/COMMANDS.md: a whole session, and records with the offset at which they are refused.
fn check_examples() {
    let owners = "F0 00 20 01".to_string() + &" 00".repeat(31);
    let commands = "C1 00 06 B1 02 01 E0 04 38
        F3 00 1F 01 00 01 49 02 00 01 01 03 00 01 00 04 00 01 02 06 00 02 00 02 07 00 01 52 08 00 03 02 02 58
        F3 00 13 01 00 01 44 02 00 01 01 03 00 01 00 08 00 00 09 00 01 54
        F3 00 04 01 00 01 52
        C1 00 00";
    let session = bytes_of_text(&format!("{owners} F1 00 01 04 {commands}"));
    assert_eq!(print_session(&session), "1 I ok 1\n2 D ok 0\n3 ? no 1 4\n4 ? no 1 111\n");
    let session = bytes_of_text(&format!("{owners} F1 00 01 05 {commands}"));
    assert_eq!(print_session(&session), "0 ? no 16 33\n");

    let read = [
        "01 00 01 49 02 00 01 01 03 00 01 00 04 00 01 02 06 00 02 00 02 07 00 01 52 08 00 03 02 02 58",
        "01 00 01 41 02 00 01 01 08 00 00 0A 00 04 00 00 00 03",
        "01 00 01 57 02 00 01 01 0A 00 04 00 00 01 07",
        "01 00 01 44 02 00 01 03 03 00 01 00 08 00 06 03 00 06 06 00 5A 09 00 01 4C",
        "01 00 01 52 02 00 01 03 03 00 01 00",
    ];
    for record in read {
        assert!(cabinet::read_command(&bytes_of_text(record)).is_ok(), "{record}");
    }
    let refused = [
        ("", 0),
        ("02 00 01 05", 0),
        ("01 00 01 58", 0),
        ("01 00 01 57 0A 00 04 00 00 00 01 02 00 01 05", 11),
        ("01 00 01 57 02 00 01 05 02 00 01 05", 8),
        ("01 00 01 57 02 00 01 05 03 00 01 04", 8),
        ("01 00 01 57 02 00 01 05 0A 00 04 00", 8),
        ("01 00 01 57 02 00 01 05 0A 00 03 00 00 01", 8),
        ("01 00 01 57 02 00 01 05", 8),
        ("01 00 01 52 02 00 02 00 05 03 00 01 00", 4),
        ("01 00 01 44 02 00 01 05 03 00 01 00 09 00 01 54", 16),
        ("01 00 01 44 02 00 01 05 03 00 01 00 08 00 06 03 00 01 02 00 01 09 00 01 54", 12),
        ("01 00 01 44 02 00 01 05 03 00 01 00 08 00 03 08 00 01 09 00 01 54", 12),
        ("01 00 01 44 02 00 01 05 03 00 01 00 08 00 02 02 00 09 00 01 54", 12),
        ("01 00 01 44 02 00 01 05 03 00 01 00 08 00 00 09 00 01 52", 15),
    ];
    for (record, place) in refused {
        let refusal = cabinet::Refusal { number: 1, place };
        assert_eq!(cabinet::read_command(&bytes_of_text(record)), Err(refusal), "{record}");
    }
}

// ------------------------------------------------------------------------------------------------------- the counting

/// The verbs in the order of the table; S stands for the set-up, ? for what could not be read.
const VERBS: [char; 7] = ['S', '?', 'I', 'A', 'W', 'D', 'R'];

/// The refusals that can come, by verb. 9, 14 and 15 cannot come in a session file.
const CAN_COME: [(char, &[u32]); 7] = [
    ('S', &[1, 16, 17]),
    ('?', &[1]),
    ('I', &[2, 3, 4, 5, 6, 10, 11]),
    ('A', &[2, 4, 5, 7, 8, 11]),
    ('W', &[2, 7, 8]),
    ('D', &[2, 3, 4, 11, 12]),
    ('R', &[2, 3, 13]),
];

#[derive(Default)]
struct Tally {
    lines: usize,
    silent_files: usize,
    accepted: BTreeMap<char, usize>,
    refused: BTreeMap<(char, u32), usize>,
    chain_lengths: BTreeMap<u32, usize>,
    orphans: BTreeMap<u32, usize>,
    /// The places of refusals 2, 4, 5 and 16, which are few.
    places: BTreeMap<(u32, u32), usize>,
}

impl Tally {
    fn add(&mut self, printed: &str) {
        if printed.is_empty() {
            self.silent_files += 1;
        }
        for line in printed.lines() {
            self.lines += 1;
            let parts: Vec<&str> = line.split(' ').collect();
            let verb = if parts[0] == "0" { 'S' } else { parts[1].chars().next().unwrap_or(' ') };
            let number: u32 = parts[3].parse().unwrap_or(u32::MAX);
            if parts[2] == "ok" {
                *self.accepted.entry(verb).or_default() += 1;
                match verb {
                    'D' => *self.chain_lengths.entry(number).or_default() += 1,
                    'W' => *self.orphans.entry(number).or_default() += 1,
                    _ => {}
                }
            } else {
                *self.refused.entry((verb, number)).or_default() += 1;
                if matches!(number, 2 | 4 | 5 | 16) {
                    let place = parts[4].parse().unwrap_or(u32::MAX);
                    *self.places.entry((number, place)).or_default() += 1;
                }
            }
        }
    }

    fn print(&self) {
        println!("{} lines; {} files print nothing", self.lines, self.silent_files);
        println!("refusals and acceptances by verb (S is the set-up, ? what could not be read):");
        print!("{:>8}", "");
        for verb in VERBS {
            print!("{verb:>9}");
        }
        println!();
        for number in 1..=17 {
            print!("{:>8}", format!("no {number}"));
            for verb in VERBS {
                print!("{:>9}", self.refused.get(&(verb, number)).copied().unwrap_or(0));
            }
            println!();
        }
        print!("{:>8}", "ok");
        for verb in VERBS {
            print!("{:>9}", self.accepted.get(&verb).copied().unwrap_or(0));
        }
        println!();
        println!("chain lengths of accepted draws: {}", pairs(&self.chain_lengths));
        println!("orphans of accepted withdrawals: {}", pairs(&self.orphans));
        for number in [2, 4, 5, 16] {
            let places: BTreeMap<u32, usize> =
                self.places.iter().filter(|(key, _)| key.0 == number).map(|(key, count)| (key.1, *count)).collect();
            println!("places of refusal {number}: {}", pairs(&places));
        }
        let never = self.never_came();
        if never.is_empty() {
            println!("all came that can come (9, 14 and 15 cannot)");
        } else {
            println!("never came: {}", never.join(", "));
        }
    }

    fn never_came(&self) -> Vec<String> {
        let mut never = Vec::new();
        for (verb, numbers) in CAN_COME {
            for number in numbers {
                if !self.refused.contains_key(&(verb, *number)) {
                    never.push(format!("{verb} no {number}"));
                }
            }
            if verb.is_alphabetic() && verb != 'S' && !self.accepted.contains_key(&verb) {
                never.push(format!("{verb} ok"));
            }
        }
        for length in 0..=8 {
            if !self.chain_lengths.contains_key(&length) {
                never.push(format!("a chain of {length}"));
            }
        }
        for orphans in 0..=6 {
            if !self.orphans.contains_key(&orphans) {
                never.push(format!("{orphans} orphans"));
            }
        }
        for (number, places) in [(2, vec![2, 4]), (4, vec![2, 3, 5, 6, 7]), (5, vec![5, 6]), (16, vec![32, 33])] {
            for place in places {
                if !self.places.contains_key(&(number, place)) {
                    never.push(format!("refusal {number} with place {place}"));
                }
            }
        }
        never
    }
}

fn pairs(counts: &BTreeMap<u32, usize>) -> String {
    let parts: Vec<String> = counts.iter().map(|(key, count)| format!("{key}: {count}")).collect();
    parts.join(", ")
}

// ------------------------------------------------------------------------------------------------------ the comparing

/// What the program printed and how it ended.
struct Printed {
    text: Vec<u8>,
    complaint: Vec<u8>,
    status: Option<i32>,
}

fn run(program: &str, file: &Path) -> Result<Printed, String> {
    let output = Command::new(program).arg(file).output().map_err(|error| format!("{program}: {error}"))?;
    Ok(Printed { text: output.stdout, complaint: output.stderr, status: output.status.code() })
}

fn temporary_directory() -> Result<PathBuf, String> {
    let base = if Path::new("/dev/shm").is_dir() { "/dev/shm" } else { "/tmp" };
    let directory = Path::new(base).join(format!("independent-{}", std::process::id()));
    std::fs::create_dir_all(&directory).map_err(|error| format!("{}: {error}", directory.display()))?;
    Ok(directory)
}

fn show_difference(file: &Path, index: usize, sort: &str, printed: &Printed, expected: &str) {
    println!("DIFFERENCE in file {index} ({sort}), kept as {}", file.display());
    let text = String::from_utf8_lossy(&printed.text);
    let first = text.lines().zip(expected.lines()).position(|(one, other)| one != other);
    let first = first.unwrap_or_else(|| text.lines().count().min(expected.lines().count()));
    println!("first different line: {}", first + 1);
    println!("  program:     {}", text.lines().nth(first).unwrap_or("(the end)"));
    println!("  independent: {}", expected.lines().nth(first).unwrap_or("(the end)"));
    println!("--- the program prints (status {:?}):", printed.status);
    print!("{text}");
    if !printed.complaint.is_empty() {
        println!("--- and on standard error:");
        print!("{}", String::from_utf8_lossy(&printed.complaint));
    }
    println!("--- the independent cabinet prints:");
    print!("{expected}");
}

/// Answers whether all files were alike.
fn compare(program: &str, count: usize, seed: u64) -> Result<bool, String> {
    let directory = temporary_directory()?;
    let mut chance = Chance::new(seed);
    let mut tally = Tally::default();
    let mut sorts = [0; SORTS.len()];
    let mut of_program = Duration::ZERO;
    let mut of_independent = Duration::ZERO;
    let mut longest_file = Duration::ZERO;
    let begin = Instant::now();
    for index in 1..=count {
        let (sort, bytes) = make_file(&mut chance);
        sorts[sort] += 1;
        let file = directory.join(format!("session-{seed}-{index}"));
        std::fs::write(&file, &bytes).map_err(|error| format!("{}: {error}", file.display()))?;

        let start = Instant::now();
        let expected = print_session(&bytes);
        let time = start.elapsed();
        of_independent += time;
        longest_file = longest_file.max(time);

        let start = Instant::now();
        let printed = run(program, &file)?;
        of_program += start.elapsed();

        if printed.text != expected.as_bytes() || printed.status != Some(0) {
            show_difference(&file, index, SORTS[sort], &printed, &expected);
            return Ok(false);
        }
        tally.add(&expected);
        std::fs::remove_file(&file).map_err(|error| format!("{}: {error}", file.display()))?;
    }
    std::fs::remove_dir(&directory).map_err(|error| format!("{}: {error}", directory.display()))?;

    println!("{count} files from seed {seed}, all alike, in {:.1} s", begin.elapsed().as_secs_f64());
    println!(
        "of that {:.1} s in the program, {:.1} s in the independent cabinet (longest file {:.3} s)",
        of_program.as_secs_f64(),
        of_independent.as_secs_f64(),
        longest_file.as_secs_f64()
    );
    for (sort, number) in SORTS.iter().zip(sorts) {
        println!("{number:>8} {sort}");
    }
    tally.print();
    Ok(true)
}

fn main() -> ExitCode {
    let arguments: Vec<String> = std::env::args().skip(1).collect();
    let wanted = match arguments.as_slice() {
        [program, count, seed] => match (count.parse(), seed.parse()) {
            (Ok(count), Ok(seed)) => Some((program, count, seed)),
            _ => None,
        },
        _ => None,
    };
    let Some((program, count, seed)) = wanted else {
        eprintln!("compare PROGRAM COUNT SEED");
        return ExitCode::from(2);
    };
    check_examples();
    sessions::check_tools();
    match compare(program, count, seed) {
        Ok(true) => ExitCode::SUCCESS,
        Ok(false) => ExitCode::FAILURE,
        Err(message) => {
            eprintln!("{message}");
            ExitCode::from(2)
        }
    }
}
