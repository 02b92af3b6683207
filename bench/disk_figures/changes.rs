//! The relation, its rows, and the changes.

use crate::asked::{Asked, Work};
use crate::fault::Fault;
use calculus::{Attr, DbChange, Domain, Kind, List, Name, RelInfo, RelKey, Row, Spec, Text, Value};
use memory::both;
use std::alloc::Global;

/// How far the rows lie apart that are changed one behind the other: a prime number.
const STRIDE: u32 = 7919;

/// A name.
fn named(alloc: Global, bytes: &[u8]) -> Result<Name, Fault> {
    match Name::of(alloc, bytes)? {
        Some(name) => Ok(name),
        None => Err(Fault::NotAText),
    }
}

/// The name of the administrator.
pub fn administrator(alloc: Global) -> Result<Name, Fault> {
    named(alloc, b"ann")
}

/// The key of the relation.
pub fn key(alloc: Global) -> Result<RelKey, Fault> {
    let (owner, name) = both(administrator(alloc), named(alloc, b"big"))?;
    Ok(RelKey { owner, name })
}

/// Puts an attribute behind the others.
fn put_attr(
    attrs: &mut Vec<Attr>,
    alloc: Global,
    name: &[u8],
    domain: Domain,
) -> Result<(), Fault> {
    attrs.push(Attr {
        name: named(alloc, name)?,
        kind: Kind::Of(domain),
    })?;
    Ok(())
}

/// Puts the attributes: a key, a number and a text.
fn put_attrs(attrs: &mut Vec<Attr>, alloc: Global) -> Result<(), Fault> {
    put_attr(attrs, alloc, b"k", Domain::I4)?;
    put_attr(attrs, alloc, b"n", Domain::I4)?;
    put_attr(attrs, alloc, b"t", Domain::C(20))
}

/// The attributes.
fn attrs(alloc: Global) -> Result<List<Attr>, Fault> {
    let mut attrs = Vec::new(alloc);
    put_attrs(&mut attrs, alloc)?;
    Ok(List::of(attrs))
}

/// What the relation is.
fn info(alloc: Global) -> Result<RelInfo, Fault> {
    let (key, attrs) = both(key(alloc), attrs(alloc))?;
    Ok(RelInfo {
        key,
        spec: Spec::Heap,
        attrs,
        keys: List::of(Vec::new(alloc)),
    })
}

/// The text of the row with this key.
fn text(alloc: Global, key: u32) -> Result<Text, Fault> {
    let text = format!(in alloc; "text of row {key}")?;
    match Text::of(alloc, text.as_bytes())? {
        Some(text) => Ok(text),
        None => Err(Fault::NotAText),
    }
}

/// Puts the values of the row with this key and this number.
fn put_values(values: &mut Vec<Value>, alloc: Global, key: u32, number: u32) -> Result<(), Fault> {
    values.push(Value::Int(i64::from(key)))?;
    values.push(Value::Int(i64::from(number)))?;
    values.push(Value::Text(text(alloc, key)?))?;
    Ok(())
}

/// The row with this key and this number.
fn row(alloc: Global, key: u32, number: u32) -> Result<Row, Fault> {
    let mut values = Vec::with_capacity(alloc, 3)?;
    put_values(&mut values, alloc, key, number)?;
    Ok(Row::of(values))
}

/// No rows.
fn none(alloc: Global) -> List<Row> {
    List::of(Vec::new(alloc))
}

/// Puts a row behind the others.
fn put_row(rows: &mut Vec<Row>, alloc: Global, key: u32, number: u32) -> Result<(), Fault> {
    rows.push(row(alloc, key, number)?)?;
    Ok(())
}

/// The list of this row.
fn one(alloc: Global, key: u32, number: u32) -> Result<List<Row>, Fault> {
    let mut rows = Vec::new(alloc);
    put_row(&mut rows, alloc, key, number)?;
    Ok(List::of(rows))
}

/// Puts the rows with the keys below a count, all with this number.
fn put_rows(rows: &mut Vec<Row>, alloc: Global, count: u32, number: u32) -> Result<(), Fault> {
    for key in 0..count {
        put_row(rows, alloc, key, number)?;
    }
    Ok(())
}

/// The rows with the keys below a count, all with this number.
fn all(alloc: Global, count: u32, number: u32) -> Result<List<Row>, Fault> {
    let mut rows = Vec::with_capacity(alloc, count as usize)?;
    put_rows(&mut rows, alloc, count, number)?;
    Ok(List::of(rows))
}

/// The relation is made, with so many rows.
pub fn creation(alloc: Global, count: u32) -> Result<DbChange, Fault> {
    let (info, rows) = both(info(alloc), all(alloc, count, 0))?;
    Ok(DbChange::Create { info, rows })
}

/// The key of the row that a change meets: each row once before any is met again.
fn scattered(count: u32, turn: u32) -> u32 {
    let stride = if count.checked_rem(STRIDE) == Some(0) {
        1
    } else {
        STRIDE
    };
    let far = u64::from(turn).saturating_mul(u64::from(stride));
    let key = far.checked_rem(u64::from(count)).unwrap_or(0);
    u32::try_from(key).unwrap_or(0)
}

/// The rows that go in a change.
fn removed(alloc: Global, asked: Asked<'_>, turn: u32) -> Result<List<Row>, Fault> {
    let key = scattered(asked.rows, turn);
    let round = turn.checked_div(asked.rows).unwrap_or(0);
    match asked.work {
        Work::Append => Ok(none(alloc)),
        Work::Replace | Work::Delete => one(alloc, key, round),
        Work::All => all(alloc, asked.rows, turn),
    }
}

/// The rows that come in a change.
fn added(alloc: Global, asked: Asked<'_>, turn: u32) -> Result<List<Row>, Fault> {
    let key = scattered(asked.rows, turn);
    let round = turn.checked_div(asked.rows).unwrap_or(0);
    match asked.work {
        Work::Append => one(alloc, asked.rows.saturating_add(turn), 0),
        Work::Replace => one(alloc, key, round.saturating_add(1)),
        Work::Delete => Ok(none(alloc)),
        Work::All => all(alloc, asked.rows, turn.saturating_add(1)),
    }
}

/// The change of this turn, counted from 0.
pub fn change(alloc: Global, asked: Asked<'_>, turn: u32) -> Result<DbChange, Fault> {
    let rows = both(removed(alloc, asked, turn), added(alloc, asked, turn));
    let (rel, (remove, add)) = both(key(alloc), rows)?;
    Ok(DbChange::Rows { rel, remove, add })
}
