//! Why there are no figures.

use am_traits::BaseFault;
use calculus::OutOfMemory;
use db_disk::{CreateFault, OpenFault};
use std::alloc::{AllocError, AllocFailed};
use std::{fmt, io};

/// Why there are no figures.
#[derive(Clone, Copy)]
pub enum Fault {
    /// No memory was left.
    OutOfMemory,
    /// The folder is there already.
    FolderIsThere,
    /// The database wasn't made.
    NotMade,
    /// What was made isn't a database.
    NotADatabase,
    /// A call of the database failed.
    Base(BaseFault),
    /// A name or a text isn't one.
    NotAText,
    /// Looking for the folder, or printing, failed.
    Io(io::Error),
}

impl From<AllocError> for Fault {
    fn from(_error: AllocError) -> Fault {
        Fault::OutOfMemory
    }
}

impl<T: Drop> From<AllocFailed<T>> for Fault {
    fn from(_error: AllocFailed<T>) -> Fault {
        Fault::OutOfMemory
    }
}

impl From<OutOfMemory> for Fault {
    fn from(_error: OutOfMemory) -> Fault {
        Fault::OutOfMemory
    }
}

impl From<CreateFault> for Fault {
    fn from(_error: CreateFault) -> Fault {
        Fault::NotMade
    }
}

impl From<OpenFault> for Fault {
    fn from(error: OpenFault) -> Fault {
        match error {
            OpenFault::NotADatabase => Fault::NotADatabase,
            OpenFault::Base(fault) => Fault::Base(fault),
        }
    }
}

impl From<BaseFault> for Fault {
    fn from(error: BaseFault) -> Fault {
        Fault::Base(error)
    }
}

impl From<io::Error> for Fault {
    fn from(error: io::Error) -> Fault {
        Fault::Io(error)
    }
}

/// Prints what a call of a database answered.
fn print_base<W: fmt::Write>(f: &mut fmt::Formatter<W>, fault: BaseFault) -> fmt::Result {
    match fault {
        BaseFault::Disk => f.write_str("a call of the disk failed"),
        BaseFault::Damaged { file, page } => { write!(f, "page {page} of file {file} is damaged") }
        BaseFault::OutOfMemory => f.write_str("out of memory"),
    }
}

impl fmt::Display for Fault {
    fn fmt<W: fmt::Write>(&self, f: &mut fmt::Formatter<W>) -> fmt::Result {
        match self {
            Fault::OutOfMemory => f.write_str("out of memory"),
            Fault::FolderIsThere => f.write_str("the folder is there already"),
            Fault::NotMade => f.write_str("the database could not be made"),
            Fault::NotADatabase => f.write_str("what was made is no database"),
            Fault::Base(fault) => print_base(f, *fault),
            Fault::NotAText => f.write_str("a name or a text is none"),
            Fault::Io(error) => write!(f, "{error}"),
        }
    }
}
