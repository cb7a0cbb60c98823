//! The declarations of the archive, and a safe call for each. Written by tools/exports/declarations.py.
//!
//! The reason is the same for each `unsafe`. During the call the export reads the slices and records that it is passed,
//! writes the records that it is passed to write, of a slice at most as many as it has, and is defined whatever they
//! contain. All of these are references of the call, of the types that the archive declares.

use crate::records::@RECORDS@;
use crate::Error;

fn result_of<T>(status: u32, value: T) -> Result<T, Error> {
    match status {
        0 => Ok(value),
        status => Err(Error::of(status)),
    }
}

extern "C" {
@DECLARED@
}
@CALLS@
