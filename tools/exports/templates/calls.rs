//! A call of each export, for the tests. Written by tools/exports/declarations.py.

use crate::records::*;
use crate::{ffi, Error};

// What the calls are asked with.
pub(crate) struct Asked<'a> {
    pub(crate) input: &'a [u8],
    pub(crate) header: Header,
    pub(crate) part: Range,
    pub(crate) table: SymbolTable,
    pub(crate) hash: FoundTable,
    pub(crate) addresses: AddressIndex,
    pub(crate) name: &'a [u8],
    pub(crate) section: u64,
    pub(crate) index: u64,
}

// Hands on the name of each call, its result, and the errors that it may return.
pub(crate) fn every(asked: &Asked<'_>, mut heard: impl FnMut(&str, Result<(), Error>, &[Error])) {
    let (input, header, part, table) = (asked.input, &asked.header, &asked.part, &asked.table);
    let (hash, name, ranges) = (&asked.hash, asked.name, &[asked.part]);
    let (address_index, numbers) = (&asked.addresses, &[asked.index, asked.section]);
    let objects = &[LoadObject { file: input.into(), ..LoadObject::default() }];
    let tokens = Tokens::new(name, name, name);
    let search = SearchFor::new(name, tokens, name);
@CALLS@
}
