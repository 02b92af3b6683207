//! What the words ask for.

/// The most rows, and the most changes. A row's text has room for a number of 8 digits.
const MOST: u32 = 40_000_000;

/// What one change does.
#[derive(Clone, Copy)]
pub enum Work {
    /// One row comes.
    Append,
    /// One row goes, and one with another number comes.
    Replace,
    /// One row goes.
    Delete,
    /// Each row is replaced.
    All,
}

/// What is asked for.
#[derive(Clone, Copy)]
pub struct Asked<'a> {
    /// The folder of the database.
    pub folder: &'a str,
    /// How many rows there are at first.
    pub rows: u32,
    /// What each change does.
    pub work: Work,
    /// How many changes are made.
    pub times: u32,
}

/// The work of this name.
fn work_of(word: &str) -> Option<Work> {
    match word {
        "append" => Some(Work::Append),
        "replace" => Some(Work::Replace),
        "delete" => Some(Work::Delete),
        "all" => Some(Work::All),
        _ => None,
    }
}

/// The number that is no more than the most.
fn number_of(word: &str) -> Option<u32> {
    match word.parse::<u32>() {
        Ok(number) if number <= MOST => Some(number),
        _ => None,
    }
}

/// What these four words ask for.
fn asked_in<'a>(folder: &'a str, rows: &str, work: &str, times: &str) -> Option<Asked<'a>> {
    let rows = number_of(rows)?;
    let work = work_of(work)?;
    let times = number_of(times)?;
    if rows == 0 || folder.is_empty() || (matches!(work, Work::Delete) && times > rows) {
        return None;
    }
    Some(Asked {
        folder,
        rows,
        work,
        times,
    })
}

/// What the words ask for, the first of which is the program's name.
pub fn asked_by(words: &[String]) -> Option<Asked<'_>> {
    match words {
        [_, folder, rows, work, times] => asked_in(
            folder.as_str(),
            rows.as_str(),
            work.as_str(),
            times.as_str(),
        ),
        _ => None,
    }
}
