//! What is printed.

use folder_disk::Counts;
use std::io;

/// Prints what was counted under a name.
pub fn print_counts(rt: &HostRuntime, name: &str, counts: Counts) -> io::Result<()> {
    let Counts {
        reads,
        writes,
        cuts,
        syncs,
    } = counts;
    println!(rt; "{name}: {reads} reads, {writes} writes, {cuts} cuts, {syncs} syncs")
}

/// What was counted, shared among so many.
fn shared(counts: Counts, among: u64) -> Counts {
    Counts {
        reads: counts.reads.checked_div(among).unwrap_or(0),
        writes: counts.writes.checked_div(among).unwrap_or(0),
        cuts: counts.cuts.checked_div(among).unwrap_or(0),
        syncs: counts.syncs.checked_div(among).unwrap_or(0),
    }
}

/// Prints what was counted in all of so many changes, in the first, and in each further one.
pub fn print_changes(rt: &HostRuntime, all: Counts, first: Counts, times: u32) -> io::Result<()> {
    print_counts(rt, "all changes", all)?;
    if times == 0 {
        return Ok(());
    }
    print_counts(rt, "first change", first)?;
    if times == 1 {
        return Ok(());
    }
    let others = u64::from(times.saturating_sub(1));
    print_counts(rt, "each further change", shared(all.since(first), others))
}
