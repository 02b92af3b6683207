//! What a database on a disk reads, writes, cuts and syncs while it is made, opened and changed.
#![tactic(auto)]

mod asked;
mod changes;
mod fault;
mod figures;
mod printing;

use asked::asked_by;
use figures::print_figures;
use std::process::ExitCode;
use std::{env, io};

/// What is printed where the words ask for nothing.
const USAGE: &str = "usage: disk_figures FOLDER ROWS WORK TIMES

makes a database in FOLDER, which must not be there, with a relation of ROWS rows, and changes it TIMES
times, each time by one change. WORK is append, replace, delete (one row), or all (each row is replaced).
ROWS is 1 to 40000000, TIMES 0 to 40000000, and for delete no more than ROWS.";

/// The status where the words ask for nothing.
const WRONG_WORDS: u8 = 1;

/// The status where something failed.
const FAILED: u8 = 2;

/// All words of the command line, from the program's name on.
fn all_words(rt: &HostRuntime) -> io::Result<Vec<String>> {
    let words = env::args(rt)?.collect(rt.alloc())?;
    Ok(words)
}

/// Does what the words ask for; the status.
fn status_of(rt: &HostRuntime, words: &[String]) -> u8 {
    let Some(asked) = asked_by(words) else {
        let _ = println!(rt; "{USAGE}");
        return WRONG_WORDS;
    };
    match print_figures(rt, asked) {
        Ok(()) => 0,
        Err(fault) => {
            let _ = eprintln!(rt; "disk_figures: {fault}");
            FAILED
        }
    }
}

fn main(rt: HostRuntime) -> ExitCode {
    match all_words(&rt) {
        Ok(words) => ExitCode::from(status_of(&rt, &words)),
        Err(_) => ExitCode::from(WRONG_WORDS),
    }
}
