//! The passes: over which files, how many items each goes over, and who has it.
use crate::crate_passes as original;
use crate::facts::Facts;
use crate::foreign::{here, libelf, loops};
use crate::goblin_passes as goblin;
use crate::object_passes as object;
use crate::sorted_passes as sorted;
use crate::Call;

/// A pass over a file.
pub struct Pass {
    pub name: &'static str,
    /// The groups of files that it is measured on.
    pub groups: &'static str,
    /// How many items it goes over.
    pub items: fn(&Facts) -> usize,
    /// What is looked for.
    pub text: fn(&Facts) -> &[u8],
    pub calls: &'static [(&'static str, Call)],
}

const NOTHING: fn(&Facts) -> &[u8] = |_| &[];
const ONE: fn(&Facts) -> usize = |_| 1;

macro_rules! passes {
    ($($name:literal, $groups:literal, $items:expr, $text:expr, [$($who:literal $call:expr),* $(,)?];)*) => {
        &[$(Pass { name: $name, groups: $groups, items: $items, text: $text, calls: &[$(($who, $call)),*] }),*]
    };
}

/// All passes, in the order of the table.
pub const PASSES: &[Pass] = passes![
    "an empty pass (a call)", "large", ONE, NOTHING, ["crate" original::nothing, "here" here::nothing];
    "parse the header", "large", ONE, NOTHING,
        ["crate" original::header, "object" object::header, "goblin" goblin::header, "libelf" libelf::header, "C" loops::header, "here" here::header];
    "the header's nine numbers", "large", ONE, NOTHING,
        ["crate" original::header_fields, "object" object::header_fields, "goblin" goblin::header_fields, "C" loops::header_fields, "here" here::header_fields, "here, by a table" here::header_numbers];
    "check of the ELF header", "large", ONE, NOTHING,
        ["crate" original::header_check, "here" here::header_check];
    "section headers by iterator", "large sections", |f| f.sections, NOTHING,
        ["crate" original::sections, "object" object::sections, "goblin" goblin::sections, "libelf" libelf::sections, "C" loops::sections,
         "here" here::sections, "here, by a table" here::sections_table];
    "section headers by index", "large sections", |f| f.sections, NOTHING,
        ["crate" original::sections_index, "object" object::sections_index, "C" loops::sections,
         "here" here::sections_index, "here, by a table" here::sections_table_index];
    "all ten fields of section headers", "large sections", |f| f.sections, NOTHING,
        ["crate" original::section_fields, "object" object::section_fields, "goblin" goblin::section_fields, "C" loops::section_fields,
         "here" here::section_fields, "here, by a table" here::section_table_fields];
    "types of sections", "large", |f| f.sections, NOTHING,
        ["crate" original::section_types, "object" object::section_types, "C" loops::section_types, "here" here::section_types,
         "here, by a table" here::section_table_types];
    "names of sections", "large sections exports", |f| f.sections, NOTHING,
        ["crate" original::section_names, "object" object::section_names, "object, UTF-8" object::section_texts,
         "goblin" goblin::section_names,
         "libelf" libelf::section_names, "C" loops::section_names, "here" here::section_names, "here, by a table" here::section_table_names];
    "names of sections as bytes", "large sections exports", |f| f.sections, NOTHING,
        ["object" object::section_names, "C" loops::section_names, "here" here::section_name_bytes,
         "here, by a table" here::section_table_name_bytes];
    "find the last section by its name (a call)", "large sections exports", ONE, |f| &f.last_section,
        ["crate" original::find, "object" object::find, "C" loops::find, "here" here::find];
    "find a section that isn't there (a call)", "large sections", ONE, |f| &f.missing,
        ["crate" original::find, "object" object::find, "C" loops::find, "here" here::find];
    "raw data of sections", "large sections", |f| f.sections, NOTHING,
        ["crate" original::raw_data, "object" object::raw_data, "goblin" goblin::raw_data, "C" loops::raw_data, "here" here::raw_data,
         "here, by a table" here::table_raw_data];
    "data of sections by type", "notes sections exports", |f| f.sections, NOTHING,
        ["crate" original::data, "object" object::data, "C" loops::data, "here" here::data, "here, by a table" here::table_data];
    "program headers", "large", |f| f.segments, NOTHING,
        ["crate" original::segments, "object" object::segments, "goblin" goblin::segments, "C" loops::segments, "here" here::segments, "here, by a table" here::segments_table];
    "plan of a load (a call)", "large", ONE, NOTHING, ["object" object::load_plan, "here" here::load_plan];
    "checks of sections", "large", |f| f.sections, NOTHING,
        ["crate" original::section_checks, "here" here::section_checks];
    "checks of segments", "large", |f| f.segments, NOTHING,
        ["crate" original::segment_checks, "here" here::segment_checks];
    "values of symbols", "large exports", |f| f.symbols, NOTHING,
        ["crate" original::symbol_values, "object" object::symbol_values, "goblin" goblin::symbol_values, "libelf" libelf::symbol_values, "C" loops::symbol_values, "here" here::symbol_values];
    "all numbers of symbols", "large exports", |f| f.symbols, NOTHING,
        ["crate" original::symbol_fields, "object" object::symbol_fields, "goblin" goblin::symbol_fields, "C" loops::symbol_fields, "here" here::symbol_fields];
    "names of symbols, each by `get_name`", "exports", |f| f.symbols, NOTHING,
        ["crate" original::symbol_names, "object" object::symbol_names, "object, UTF-8" object::symbol_texts, "C" loops::symbol_names, "here" here::symbol_names];
    "names of symbols, string table once", "large exports", |f| f.symbols, NOTHING,
        ["crate" original::symbol_texts, "object" object::symbol_names, "object, UTF-8" object::symbol_texts, "goblin" goblin::symbol_texts, "C" loops::symbol_names, "here" here::symbol_texts];
    "names of symbols as bytes", "large exports", |f| f.symbols, NOTHING,
        ["object" object::symbol_names, "C" loops::symbol_names, "here" here::symbol_name_bytes];
    "find the last symbol by a search", "large exports", |f| f.symbols, |f| &f.last_symbol,
        ["crate" original::symbol_search, "object" object::symbol_search, "goblin" goblin::symbol_search, "C" loops::symbol_search, "here" here::symbol_search];
    "an index of symbols by addresses", "large", |f| f.symbols, NOTHING,
        ["object" object::addresses_build, "Rust" sorted::addresses_build, "here" here::addresses_build];
    "an index of symbols by addresses, and addresses by it", "large", |f| f.addresses.len() / 8, |f| &f.addresses,
        ["object" object::addresses_asked, "Rust" sorted::addresses_asked, "here" here::addresses_asked];
    "dynamic entries with their tags", "large dynamic", |f| f.dynamic, NOTHING,
        ["crate" original::dynamic, "object" object::dynamic, "goblin" goblin::dynamic, "C" loops::dynamic, "here" here::dynamic,
         "here, by a table" here::table_dynamic];
    "dynamic entries as numbers", "large dynamic", |f| f.dynamic, NOTHING,
        ["object" object::dynamic, "goblin" goblin::dynamic, "C" loops::dynamic, "here, by a table" here::table_dynamic_numbers];
    "relocations", "large", |f| f.relocations, NOTHING,
        ["crate" original::relocations, "object" object::relocations, "goblin" goblin::relocations, "C" loops::relocations, "here" here::relocations];
    "first notes", "notes", |f| f.notes, NOTHING,
        ["crate" original::notes, "object" object::notes, "goblin" goblin::notes, "C" loops::notes, "here" here::notes,
         "here, by a table" here::table_notes];
    "build id (a call)", "exports", |f| f.build_id, NOTHING,
        ["crate" original::build_id, "object" object::build_id, "C" loops::build_id, "here" here::build_id];
    "hash numbers", "exports", |f| f.names.len() / crate::NAME, |f| &f.names,
        ["crate" original::hash_numbers, "object" object::hash_numbers, "C" loops::hash_numbers, "here" here::hash_numbers];
    "look-ups by the gABI's hash table", "exports hostile", |f| f.names.len() / crate::NAME, |f| &f.names,
        ["crate" original::look_ups, "object" object::look_ups, "C" loops::look_ups, "here" here::look_ups];
    "look-ups by GNU's hash table", "exports", |f| f.names.len() / crate::NAME, |f| &f.names,
        ["object" object::gnu_look_ups, "goblin" goblin::gnu_look_ups, "here" here::gnu_look_ups];
    "look-ups of names in sections", "versions", |f| f.versioned.len() / crate::RECORD, |f| &f.versioned,
        ["object" object::linked_look_ups, "here" here::linked_look_ups];
    "look-ups of names in an object", "versions", |f| f.versioned.len() / crate::RECORD, |f| &f.versioned,
        ["here" here::linked_objects];
    "symbols as `dlsym` finds them", "versions", |f| f.versioned.len() / crate::RECORD, |f| &f.versioned,
        ["here" here::found_newest];
    "symbols by names and versions", "versions", |f| f.versioned.len() / crate::RECORD, |f| &f.versioned,
        ["here" here::found_by_version];
    "symbols by versions with their hash numbers", "versions", |f| f.versioned.len() / crate::RECORD, |f| &f.versioned,
        ["here" here::found_by_reference];
    "check of the gABI's hash table (a symbol)", "exports hostile", |f| f.exports, NOTHING, ["here" here::hash_check];
    "check of GNU's hash table (a symbol)", "exports hostile", |f| f.exports, NOTHING, ["here" here::gnu_check];
];
