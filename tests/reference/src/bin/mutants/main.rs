//! Makes small random changes in a crate's definitions, one at a time, in a copy of the repository. Prints each change with which the crate is still proved.
//! Usage: mutants COPY CRATE N SEED, run by tests/mutants.

mod changes;
mod source;

use changes::{changes, Change};
use reference::random::Random;
use std::env;
use std::fs;
use std::path::{Path, PathBuf};
use std::process::{exit, Command};

struct Mutant {
    file: PathBuf,
    change: Change,
}

#[derive(PartialEq)]
enum Verdict {
    Passed,
    Refused,
    /// It does not compile: a name is not in scope, or a type is wrong.
    Unread,
    Undecided,
}

fn main() {
    let arguments: Vec<String> = env::args().skip(1).collect();
    let [copy, name, many, seed] = &arguments[..] else {
        eprintln!("mutants COPY CRATE N SEED");
        exit(2);
    };
    let (Ok(many), Ok(seed)) = (many.parse::<usize>(), seed.parse::<u64>()) else {
        eprintln!("N and SEED are numbers");
        exit(2);
    };
    let copy = Path::new(copy);
    let mut mutants = all(&copy.join("crates").join(name).join("specs"));
    shuffle(&mut mutants, &mut Random::new(seed));
    println!("{name}: {} changes to draw from, seed {seed}", mutants.len());
    let kept = copy.join("kept");
    copied(&checked(copy, name), &kept);
    let (mut refused, mut passed, mut unread, mut undecided) = (0, 0, 0, 0);
    for mutant in mutants {
        if refused + passed + undecided == many {
            break;
        }
        copied(&kept, &checked(copy, name));
        let text = fs::read_to_string(&mutant.file).expect("a file of definitions is read");
        match tried(copy, name, &mutant, &text) {
            Verdict::Refused => refused += 1,
            Verdict::Unread => unread += 1,
            verdict => {
                let (count, word) = if verdict == Verdict::Passed { (&mut passed, "passed") } else { (&mut undecided, "undecided") };
                *count += 1;
                println!("{word}: {}", shown(copy, &mutant, &text));
            }
        }
        fs::write(&mutant.file, text).expect("a file of definitions is put back");
    }
    println!(
        "{name}: {} changes tried, {refused} refused, {passed} passed, {undecided} undecided; {unread} more were no definitions",
        refused + passed + undecided
    );
}

/// What has already been checked in the crate, so only what a change affects is checked again.
fn checked(copy: &Path, name: &str) -> PathBuf {
    copy.join("crates").join(name).join("out")
}

fn copied(from: &Path, to: &Path) {
    let _ = fs::remove_dir_all(to);
    let done = Command::new("cp").arg("-R").arg(from).arg(to).status().expect("cp runs");
    assert!(done.success(), "{} is copied", from.display());
}

/// Every change in every file except those of computed cases: a case with a different input is not a different definition.
fn all(folder: &Path) -> Vec<Mutant> {
    let mut files = Vec::new();
    definitions(folder, &mut files);
    files.sort();
    let mut found = Vec::new();
    for file in files {
        let text = fs::read_to_string(&file).expect("a file of definitions is read");
        found.extend(changes(&text).into_iter().map(|change| Mutant { file: file.clone(), change }));
    }
    found
}

fn definitions(folder: &Path, files: &mut Vec<PathBuf>) {
    for entry in fs::read_dir(folder).expect("the crate has specs/") {
        let path = entry.expect("an entry").path();
        let of_cases = path.file_stem().is_some_and(|name| name.to_string_lossy().ends_with("Cases"));
        if path.is_dir() && !of_cases {
            definitions(&path, files);
        } else if !of_cases && path.extension().is_some_and(|kind| kind == "antt") {
            files.push(path);
        }
    }
}

fn shuffle(mutants: &mut [Mutant], random: &mut Random) {
    for last in (1..mutants.len()).rev() {
        mutants.swap(last, random.below(last + 1));
    }
}

fn tried(copy: &Path, name: &str, mutant: &Mutant, text: &str) -> Verdict {
    let change = &mutant.change;
    let changed = format!("{}{}{}", &text[..change.start], change.text, &text[change.end..]);
    fs::write(&mutant.file, changed).expect("a change is written");
    let run = Command::new("timeout").args(["600", "rt", "check"]).current_dir(copy.join("crates").join(name)).output().expect("rt runs");
    let said = String::from_utf8_lossy(&run.stdout).into_owned() + &String::from_utf8_lossy(&run.stderr);
    let first = said.lines().find(|line| line.contains(": error"));
    match run.status.code() {
        Some(0) => Verdict::Passed,
        Some(1) if first.is_some_and(|line| line.contains("/specs/")) => Verdict::Unread,
        Some(1) if said.contains("logic=not-proved") => Verdict::Refused,
        _ => Verdict::Undecided,
    }
}

/// The file, the line, the old text and the new text.
fn shown(copy: &Path, mutant: &Mutant, text: &str) -> String {
    let change = &mutant.change;
    let file = mutant.file.strip_prefix(copy).unwrap_or(&mutant.file);
    let begin = text[..change.start].rfind('\n').map_or(0, |at| at + 1);
    let end = text[change.end..].find('\n').map_or(text.len(), |at| change.end + at);
    let number = text[..begin].matches('\n').count() + 1;
    let new = format!("{}{}{}", &text[begin..change.start], change.text, &text[change.end..end]);
    format!("{}:{number}\n    {}\n    {}", file.display(), text[begin..end].trim(), new.trim())
}
