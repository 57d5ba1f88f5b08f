//! Compares what the program prints for a lock file on standard input with what the step table's program prints. HMCS_PROGRAM names the program.

use reference::lock_file::print;
use reference::options::Options;
use reference::random::Random;
use reference::random_file::random_file;
use reference::shrink::{hexadecimal, shrink};
use std::env;
use std::io::Write;
use std::process::{exit, Command, Stdio};

/// If the program stops reading a file that is too long, the write fails. This does not count as a difference.
fn printed(program: &str, file: &[u8]) -> Vec<u8> {
    let mut child = Command::new(program).stdin(Stdio::piped()).stdout(Stdio::piped()).spawn().expect("the program starts");
    let mut input = child.stdin.take().expect("its standard input");
    let _ = input.write_all(file);
    drop(input);
    let output = child.wait_with_output().expect("the program ends");
    assert!(output.status.success(), "the program ends with {}", output.status);
    output.stdout
}

fn main() {
    let options = Options::read(2_000, 20_000);
    let program = match env::var("HMCS_PROGRAM") {
        Ok(program) => program,
        Err(_) => {
            println!("no program named: its comparison is left out");
            return;
        }
    };
    println!("{program} against the step table: {} files, seed {}", options.count, options.seed);
    let mut random = Random::new(options.seed);
    let differs = |file: &[u8]| printed(&program, file) != print(file);
    for number in 0..options.count {
        let file = random_file(&mut random);
        if differs(&file) {
            let smallest = shrink(&file, differs);
            println!("file {number} differs; smallest file, {} bytes: {}", smallest.len(), hexadecimal(&smallest));
            println!("step table: {:?}", String::from_utf8_lossy(&print(&smallest)));
            println!("program:    {:?}", String::from_utf8_lossy(&printed(&program, &smallest)));
            exit(1);
        }
    }
    println!("no difference");
}
