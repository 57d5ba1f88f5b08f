//! Compares the numbers that the command prints with the step table's, on random lock files. HMCS_TOOL names the command.

use reference::file_writer::shortest;
use reference::options::Options;
use reference::random::Random;
use reference::rate::PassingTimes;
use reference::random_file::{random_file, valid_draft};
use reference::table::{Kind, Tree};
use reference::text_tree::read_text;
use reference::tool::*;
use std::env;
use std::fs;
use std::path::PathBuf;
use std::process::{exit, Command, Output};

struct Tool {
    program: String,
    folder: PathBuf,
}

impl Tool {
    fn run(&self, words: &[&str]) -> Output {
        Command::new(&self.program).current_dir(&self.folder).args(words).output().expect("the command starts")
    }

    /// What the command prints if it accepts its arguments.
    fn printed(&self, words: &[&str]) -> Result<String, String> {
        let output = self.run(words);
        if output.status.code() != Some(0) {
            return Err(format!("{words:?} ends with {}: {}", output.status, String::from_utf8_lossy(&output.stderr)));
        }
        Ok(String::from_utf8_lossy(&output.stdout).into_owned())
    }

    fn compare(&self, words: &[&str], expected: &str) -> Result<(), String> {
        let printed = self.printed(words)?;
        if printed == expected {
            return Ok(());
        }
        Err(format!("{words:?} prints\n{printed}and by the step table it is\n{expected}"))
    }

    /// The lines after the first one must each begin with the expected text.
    fn compare_lines(&self, words: &[&str], expected: &[String]) -> Result<(), String> {
        let printed = self.printed(words)?;
        let lines: Vec<&str> = printed.lines().skip(1).collect();
        let same = lines.len() == expected.len() && lines.iter().zip(expected).all(|(line, front)| line.starts_with(front.as_str()));
        same.then_some(()).ok_or_else(|| format!("{words:?} prints\n{printed}and by the step table it is\n{}", expected.join("\n")))
    }
}

/// The command must refuse with the number, the place and the exit status of a refusal, and print nothing on standard output.
fn compare_refused(tool: &Tool, file: &[u8], words: &[&str]) -> Result<(), String> {
    let Err(refusal) = accept(file) else { return Ok(()) };
    let output = tool.run(words);
    let said = String::from_utf8_lossy(&output.stderr).into_owned();
    let expected = format!("refused by {} at {}: ", refusal.number, refusal.place);
    if output.status.code() == Some(1) && output.stdout.is_empty() && said.contains(&expected) {
        return Ok(());
    }
    Err(format!("{words:?} ends with {} and says {said}; by the step table it is {expected}", output.status))
}

fn kind_words(kind: Kind) -> &'static str {
    match kind {
        Kind::Stay => "stays",
        Kind::Move => "moves on",
        Kind::RootEntry => "enters through the root",
        Kind::PassedEntry => "\"enters, passed on at home\"",
        Kind::CrossedEntry => "\"enters, passed on between home and root\"",
        Kind::Leaving => "leaves",
    }
}

fn compare_steps(tool: &Tool, accepted: &Accepted) -> Result<(), String> {
    let printed = tool.printed(&["steps", "a.lock", "--csv"])?;
    let lines: Vec<&str> = printed.lines().skip(1).collect();
    let expected = step_lines(accepted);
    let agrees = |(line, (front, kind, inside)): (&&str, &(String, Kind, String))| {
        line.starts_with(front.as_str()) && line.ends_with(&format!(",{},{inside}", kind_words(*kind)))
    };
    let same = lines.len() == expected.len() && lines.iter().zip(&expected).all(agrees);
    same.then_some(()).ok_or_else(|| format!("steps prints\n{printed}and by the step table it is {expected:?}"))
}

/// Sweeps some domains of the tree together, each named at most once, over some thresholds.
fn compare_sweep(tool: &Tool, random: &mut Random, accepted: &Accepted) -> Result<(), String> {
    if accepted.tree.domains == 1 {
        return Ok(());
    }
    let domains: Vec<usize> = (1..accepted.tree.domains).filter(|_| random.one_in(2)).collect();
    let domains = if domains.is_empty() { vec![1] } else { domains };
    let thresholds: Vec<u16> = (0..random.between(1, 4)).map(|_| random.pick(&[1, 2, 3, 5, 16, 64, 65_535])).collect();
    let joined = |numbers: Vec<String>| numbers.join(",");
    let domain_words = joined(domains.iter().map(|domain| domain.to_string()).collect());
    let threshold_words = joined(thresholds.iter().map(|threshold| threshold.to_string()).collect());
    let jobs = random.between(1, 3).to_string();
    let mut words = vec!["sweep", "a.lock", "--domain", &domain_words, "--thresholds", &threshold_words, "--jobs", &jobs, "--csv"];
    let (count, seed, work) = (random.below(300), random.word(), random.pick(&[0, 0, 1, 7, 60]));
    let busy_words = if work == 0 { format!("busy:{count}:{seed}") } else { format!("busy:{count}:{seed}:{work}") };
    let own = random.one_in(2);
    if !own {
        words.extend(["--schedule", &busy_words]);
    }
    let swept = if own { Swept::Turns(&accepted.schedule) } else { Swept::Busy { count, seed, work } };
    let times = random.one_in(2).then(|| PassingTimes { p1: random.pick(&[0.05, 1.0, 3.25]), p2: random.pick(&[0.2, 7.0]), p3: random.pick(&[1.0, 1000.0, 0.3]) });
    let time_words = times.map_or(String::new(), |times| format!("{},{},{}", times.p1, times.p2, times.p3));
    if times.is_some() {
        words.extend(["--times", &time_words]);
    }
    let printed = tool.printed(&words)?;
    let lines: Vec<&str> = printed.lines().skip(1).collect();
    let expected = sweep_rows(&accepted.tree, &swept, &domains, &thresholds, times);
    (lines == expected).then_some(()).ok_or_else(|| format!("{words:?} prints\n{printed}and by the step table it is\n{}", expected.join("\n")))
}

/// The file made from the tree of a file and a generated schedule must be the shortest file of the two.
fn compare_made(tool: &Tool, random: &mut Random, tree: &Tree) -> Result<(), String> {
    let (count, seed, length) = (random.below(300), random.word(), random.pick(&[1, 2, 7, 40]));
    let word = if length == 1 { format!("random:{count}:{seed}") } else { format!("bursts:{count}:{seed}:{length}") };
    tool.printed(&["make", "a.lock", &word, "-o", "made.lock"])?;
    let made = fs::read(tool.folder.join("made.lock")).expect("the file that was made");
    let expected = shortest(tree, &bursts(count, seed, length, tree.threads));
    (made == expected).then_some(()).ok_or_else(|| format!("make of {word} writes {made:?}, and it is {expected:?}"))
}

/// An even tree of two or three levels as text, and how many members a domain on each level below the root has.
fn even_tree(random: &mut Random) -> (String, Vec<usize>) {
    let sizes: Vec<usize> = (0..random.between(1, 2)).map(|_| random.between(2, 3)).collect();
    let mut text = format!("#{}", sizes[sizes.len() - 1]);
    for level in (0..sizes.len()).rev() {
        let count = if level == 0 { random.between(2, 3) } else { sizes[level - 1] };
        text = vec![format!("1({text})"); count].join(" ");
    }
    (format!("({text})"), sizes)
}

/// The chosen thresholds must keep every wait within the limit. No other thresholds within the limit may be faster by more than two runs of a busy
/// lock differ.
fn compare_choice(tool: &Tool, random: &mut Random) -> Result<(), String> {
    let (text, sizes) = even_tree(random);
    let limit = random.between(2, 24) as u64;
    let (limit_word, schedule) = (limit.to_string(), "busy:3000:1");
    let words = ["choose", &text, "--max-wait", &limit_word, "--times", "0.05,0.2,1", "--schedule", schedule, "--csv"];
    let output = tool.run(&words);
    let tree = read_text(text.as_bytes()).tree.tree();
    let mut best: Option<f64> = None;
    let most = limit as usize + 3;
    for first in 1..=most {
        for second in 1..=(if sizes.len() == 2 { most } else { 1 }) {
            if let Some(cost) = cost_within(&tree, &[first as u16, second as u16], limit) {
                best = Some(best.map_or(cost, |other: f64| other.min(cost)));
            }
        }
    }
    let Some(best) = best else {
        let said = String::from_utf8_lossy(&output.stderr).into_owned();
        return (output.status.code() == Some(2)).then_some(()).ok_or_else(|| format!("{words:?} says {said}, and no thresholds keep to the limit"));
    };
    let printed = String::from_utf8_lossy(&output.stdout).into_owned();
    let chosen = printed.lines().find(|line| line.contains(",chosen,")).ok_or_else(|| format!("{words:?} chooses nothing: {printed}"))?;
    let fields: Vec<&str> = chosen.split(',').collect();
    let thresholds: Vec<u16> = fields[..sizes.len()].iter().map(|field| field.parse().expect("a threshold")).collect();
    let cost = cost_within(&tree, &thresholds, limit).ok_or_else(|| format!("{words:?} chooses {thresholds:?}, which let a thread wait longer"))?;
    (cost <= 1.03 * best).then_some(()).ok_or_else(|| format!("{words:?} chooses {thresholds:?} with {cost} for an entry, and the least is {best}"))
}

/// What the command shows of a file must make the shortest file of its tree and schedule.
fn compare_shown(tool: &Tool, accepted: &Accepted) -> Result<(), String> {
    let shown = tool.printed(&["show", "a.lock"])?;
    fs::write(tool.folder.join("shown"), &shown).expect("a folder to write to");
    tool.printed(&["make", "shown", "-o", "made.lock"])?;
    let made = fs::read(tool.folder.join("made.lock")).expect("the file that was made");
    let expected = shortest(&accepted.tree, &accepted.schedule);
    (made == expected).then_some(()).ok_or_else(|| format!("make writes {made:?}, and it is {expected:?}, of\n{shown}"))
}

fn compare_file(tool: &Tool, random: &mut Random, file: &[u8]) -> Result<bool, String> {
    fs::write(tool.folder.join("a.lock"), file).expect("a folder to write to");
    let Ok(accepted) = accept(file) else {
        compare_refused(tool, file, &["waits", "a.lock"])?;
        return Ok(false);
    };
    tool.compare(&["waits", "a.lock", "--csv"], &waits_table(&accepted))?;
    tool.compare(&["tenures", "a.lock", "--csv"], &tenures_table(&accepted))?;
    tool.compare_lines(&["run", "a.lock", "--csv"], &run_table(&accepted))?;
    tool.compare_lines(&["tree", "a.lock", "--csv"], &tree_rows(&accepted.tree))?;
    compare_steps(tool, &accepted)?;
    compare_sweep(tool, random, &accepted)?;
    compare_made(tool, random, &accepted.tree)?;
    compare_shown(tool, &accepted)?;
    if random.one_in(8) {
        compare_choice(tool, random)?;
    }
    Ok(true)
}

fn main() {
    let options = Options::read(300, 3_000);
    let Ok(program) = env::var("HMCS_TOOL") else {
        println!("no command named: its comparison is left out");
        return;
    };
    println!("{program} against the step table: {} files, seed {}", options.count, options.seed);
    let folder = env::temp_dir().join(format!("hmcs-compare-{}", std::process::id()));
    fs::create_dir_all(&folder).expect("a folder for the files");
    let tool = Tool { program, folder };
    let mut random = Random::new(options.seed);
    let (mut accepted, mut wrong) = (0, None);
    for number in 0..options.count {
        let file = if random.one_in(3) { random_file(&mut random) } else { valid_draft(&mut random).write(&mut random) };
        match compare_file(&tool, &mut random, &file) {
            Ok(was_accepted) => accepted += was_accepted as usize,
            Err(text) => {
                wrong = Some(format!("file {number}, {} bytes: {text}", file.len()));
                break;
            }
        }
    }
    fs::remove_dir_all(&tool.folder).expect("the folder goes");
    if let Some(text) = wrong {
        println!("{text}");
        exit(1);
    }
    println!("{accepted} files accepted, {} refused; no difference", options.count - accepted);
    if accepted == 0 || accepted == options.count {
        println!("files of one kind alone");
        exit(1);
    }
}
