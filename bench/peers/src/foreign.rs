//! The contenders behind a C interface: this library, bare loops in C, and libelf. The bench calls each of their
//! functions itself, as it calls the passes in Rust.
macro_rules! contender {
    ($module:ident, $prefix:literal, $($name:ident)*) => {
        pub mod $module {
            extern "C-unwind" {
                $(#[link_name = concat!($prefix, stringify!($name))]
                pub fn $name(data: &[u8], text: &[u8]) -> u64;)*
            }
        }
    };
}

contender!(here, "here_", nothing header header_fields header_numbers header_check sections sections_table sections_index
    sections_table_index section_fields section_table_fields section_types section_table_types section_names section_table_names
    section_name_bytes section_table_name_bytes find
    raw_data table_raw_data data table_data segments segments_table section_checks segment_checks symbol_values
    symbol_fields symbol_names symbol_texts symbol_name_bytes symbol_search dynamic table_dynamic table_dynamic_numbers
    relocations notes table_notes build_id hash_numbers look_ups hash_check gnu_look_ups gnu_check linked_look_ups
    linked_objects found_newest found_by_version found_by_reference addresses_build addresses_asked load_plan);
contender!(loops, "loops_", header header_fields sections section_fields section_types section_names find raw_data data
    segments symbol_values symbol_fields symbol_names symbol_search dynamic relocations notes build_id hash_numbers look_ups);
contender!(libelf, "libelf_", header sections section_names symbol_values);
