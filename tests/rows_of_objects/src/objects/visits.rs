//! The calls that an object is visited by.
use crate::objects::watcher::Watcher;
use der_parser::ber::{BerObject, Visit, VisitMut};
use std::alloc::Global;
use test_tables::fault::Fault;

/// The calls that the object is visited by from this depth.
pub fn visited(alloc: Global, object: &BerObject<'_>, depth: usize) -> Result<String, Fault> {
    let mut watcher = Watcher::new(alloc);
    Visit::run_at(&mut watcher, object, depth);
    watcher.calls()
}

/// The calls that a copy of the object is visited by where it may be changed, from this depth. A
/// copy that is another then is told.
pub fn visited_mut(alloc: Global, object: &BerObject<'_>, depth: usize) -> Result<String, Fault> {
    let mut copy = object.try_clone(alloc)?;
    let calls = calls_on(alloc, &mut copy, depth)?;
    if copy == *object {
        Ok(calls)
    } else {
        Ok(format!(in alloc; "{calls} changed")?)
    }
}

fn calls_on(alloc: Global, object: &mut BerObject<'_>, depth: usize) -> Result<String, Fault> {
    let mut watcher = Watcher::new(alloc);
    VisitMut::run_at(&mut watcher, object, depth);
    watcher.calls()
}
