//! The database is made, opened and changed, and what that takes is printed.

use crate::asked::Asked;
use crate::changes::{administrator, change, creation, key};
use crate::fault::Fault;
use crate::printing::{print_changes, print_counts};
use calculus::DbChange;
use db_disk::{DbDisk, create_db, open_db};
use folder_disk::{Counts, FolderDisk};
use std::alloc::Global;
use std::fs;

/// A database in a folder.
type InFolder<'r> = DbDisk<FolderDisk<'r, HostRuntime>>;

/// What changes took.
#[derive(Clone, Copy)]
struct Taken {
    all: Counts,
    first: Counts,
}

/// Lays a change.
fn lay(alloc: Global, base: &mut InFolder<'_>, change: &DbChange) -> Result<(), Fault> {
    base.apply(alloc, change)?;
    Ok(())
}

/// Makes the database on a disk.
fn born(alloc: Global, disk: &mut FolderDisk<'_, HostRuntime>) -> Result<(), Fault> {
    let dba = administrator(alloc)?;
    create_db(disk, &dba)?;
    Ok(())
}

/// Makes the relation; what was counted then.
fn filled(alloc: Global, base: &mut InFolder<'_>, rows: u32) -> Result<Counts, Fault> {
    let change = creation(alloc, rows)?;
    lay(alloc, base, &change)?;
    Ok(base.disk().counts())
}

/// Makes the database with its relation; what that took.
fn made(rt: &HostRuntime, asked: Asked<'_>) -> Result<Counts, Fault> {
    let mut disk = FolderDisk::new(rt, rt.alloc(), asked.folder)?;
    match born(rt.alloc(), &mut disk) {
        Ok(()) => filled(rt.alloc(), &mut DbDisk::later(rt.alloc(), disk), asked.rows),
        Err(fault) => Err(fault),
    }
}

/// Opens the database.
fn opened<'r>(rt: &'r HostRuntime, folder: &str) -> Result<InFolder<'r>, Fault> {
    let disk = FolderDisk::new(rt, rt.alloc(), folder)?;
    match open_db(rt.alloc(), disk) {
        Ok(base) => Ok(base),
        Err(unopened) => Err(unopened.fault.into()),
    }
}

/// Makes the change of a turn, and lays it.
fn changed_once(
    alloc: Global,
    base: &mut InFolder<'_>,
    asked: Asked<'_>,
    turn: u32,
) -> Result<(), Fault> {
    let change = change(alloc, asked, turn)?;
    lay(alloc, base, &change)
}

/// Makes all changes; what they took.
fn changed(alloc: Global, base: &mut InFolder<'_>, asked: Asked<'_>) -> Result<Taken, Fault> {
    let before = base.disk().counts();
    let mut first = Counts::NONE;
    for turn in 0..asked.times {
        changed_once(alloc, base, asked, turn)?;
        if turn == 0 {
            first = base.disk().counts().since(before);
        }
    }
    let all = base.disk().counts().since(before);
    Ok(Taken { all, first })
}

/// Changes the database; what opening and changing it took is printed.
fn print_changed(rt: &HostRuntime, base: &mut InFolder<'_>, asked: Asked<'_>) -> Result<(), Fault> {
    print_counts(rt, "opening", base.disk().counts())?;
    let taken = changed(rt.alloc(), base, asked)?;
    print_changes(rt, taken.all, taken.first, asked.times)?;
    Ok(())
}

/// Opens the database, and changes it; what that took is printed.
fn print_work(rt: &HostRuntime, asked: Asked<'_>) -> Result<(), Fault> {
    match opened(rt, asked.folder) {
        Ok(mut base) => print_changed(rt, &mut base, asked),
        Err(fault) => Err(fault),
    }
}

/// How many rows the relation has.
fn size_of(alloc: Global, base: &mut InFolder<'_>) -> Result<u32, Fault> {
    let key = key(alloc)?;
    let count = base.size(alloc, &key)?;
    Ok(count)
}

/// How many rows there are in the end.
fn rows_left(rt: &HostRuntime, asked: Asked<'_>) -> Result<u32, Fault> {
    match opened(rt, asked.folder) {
        Ok(mut base) => size_of(rt.alloc(), &mut base),
        Err(fault) => Err(fault),
    }
}

/// Makes the database, opens and changes it, and prints what each takes.
pub fn print_figures(rt: &HostRuntime, asked: Asked<'_>) -> Result<(), Fault> {
    if fs::exists(rt, asked.folder)? {
        return Err(Fault::FolderIsThere);
    }
    print_counts(rt, "making", made(rt, asked)?)?;
    print_work(rt, asked)?;
    let rows = rows_left(rt, asked)?;
    println!(rt; "rows: {rows}")?;
    Ok(())
}
