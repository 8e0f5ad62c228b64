//! Copies of the twin with one line replaced, one for each file of faults/ (build.rs makes them), and
//! the search for a call that tells each from the proved board.

use crate::differ::plan::{self, Form, Found};
use crate::side::{proved, side_of, Side};
use std::panic::{catch_unwind, set_hook, take_hook, AssertUnwindSafe};

/// A fault's name, what it is, and the calls of the copy that has it.
pub type Fault = (&'static str, &'static str, Side);

include!(concat!(env!("OUT_DIR"), "/faults.rs"));

/// The calls of one faulty copy.
pub fn named(name: &str) -> Option<Side> {
    all().into_iter().find(|fault| fault.0 == name).map(|fault| fault.2)
}

/// How a fault was found.
pub enum How {
    Differs(Found),
    /// The copy panicked, after so many calls in the sessions before.
    Panics(u64),
    NotFound,
}

/// Runs the sessions of a form on a faulty copy until it is found.
pub fn search(form: Form, side: Side) -> How {
    let mut calls = 0;
    let hook = take_hook();
    set_hook(Box::new(|_| ()));
    let outcome = catch_unwind(AssertUnwindSafe(|| {
        plan::run(form, side, proved(), &mut |total| calls = total)
    }));
    set_hook(hook);
    match outcome {
        Ok(Err(found)) => How::Differs(found),
        Ok(Ok(_)) => How::NotFound,
        Err(_) => How::Panics(calls),
    }
}
