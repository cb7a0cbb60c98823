/* A call of each export, by the parts of a `struct asked`. Written by tools/exports/declarations.py. */

/* What a call writes: its outputs in order. */
union output {
    xmas_elf_header_t of_header[3];
    xmas_elf_counts_t of_counts[3];
    uint32_t of_u32[3];
    xmas_elf_section_t of_section[3];
    uint64_t of_u64[3];
    xmas_elf_range_t of_range[3];
    xmas_elf_name_t of_name[3];
    xmas_elf_segment_t of_segment[3];
    xmas_elf_symbol_t of_symbol[3];
    xmas_elf_symbol_table_t of_symbol_table[3];
    xmas_elf_relocation_t of_relocation[3];
    xmas_elf_dynamic_t of_dynamic[3];
    xmas_elf_note_t of_note[3];
    xmas_elf_version_t of_version[3];
    xmas_elf_found_symbol_t of_found_symbol[3];
    xmas_elf_answer_t of_answer[3];
    xmas_elf_hash_table_t of_hash_table[3];
    xmas_elf_address_index_t of_address_index[3];
    xmas_elf_symbol_at_t of_symbol_at[3];
    xmas_elf_piece_t of_piece[3];
    xmas_elf_piece_sizes_t of_piece_sizes[3];
    xmas_elf_size_part_t of_size_part[3];
    xmas_elf_size_change_t of_size_change[3];
    uint8_t of_u8[3];
    xmas_elf_debug_candidate_t of_debug_candidate[3];
    xmas_elf_load_plan_t of_load_plan[3];
    xmas_elf_load_mapping_t of_load_mapping[3];
    xmas_elf_needed_name_t of_needed_name[3];
    xmas_elf_candidate_path_t of_candidate_path[3];
    xmas_elf_object_entry_t of_object_entry[3];
    xmas_elf_lacked_version_t of_lacked_version[3];
};

static uint32_t any_open(const struct asked *a, union output *out)
{
    return xmas_elf_open(a->bytes, a->size, &out[0].of_header[0]);
}
static uint32_t any_check_header(const struct asked *a, union output *out)
{
    (void)out;
    return xmas_elf_check_header(a->bytes, a->size, &a->header);
}
static uint32_t any_counts(const struct asked *a, union output *out)
{
    return xmas_elf_counts(a->bytes, a->size, &a->header, &out[0].of_counts[0]);
}
static uint32_t any_names_index(const struct asked *a, union output *out)
{
    return xmas_elf_names_index(a->bytes, a->size, &a->header, &out[0].of_u32[0]);
}
static uint32_t any_section(const struct asked *a, union output *out)
{
    return xmas_elf_section(a->bytes, a->size, &a->header, (uint64_t)a->index, &out[0].of_section[0]);
}
static uint32_t any_check_section(const struct asked *a, union output *out)
{
    (void)out;
    return xmas_elf_check_section(a->bytes, a->size, &a->header, (uint64_t)a->index);
}
static uint32_t any_sections(const struct asked *a, union output *out)
{
    return xmas_elf_sections(a->bytes, a->size, &a->header, (uint64_t)a->index, out[0].of_section, 3, &out[1].of_u64[0]);
}
static uint32_t any_find_section(const struct asked *a, union output *out)
{
    return xmas_elf_find_section(a->bytes, a->size, &a->header, a->name, a->name_size, &out[0].of_section[0]);
}
static uint32_t any_find_section_index(const struct asked *a, union output *out)
{
    return xmas_elf_find_section_index(a->bytes, a->size, &a->header, a->name, a->name_size, &out[0].of_u64[0]);
}
static uint32_t any_section_data(const struct asked *a, union output *out)
{
    return xmas_elf_section_data(a->bytes, a->size, &a->header, (uint64_t)a->index, &out[0].of_range[0]);
}
static uint32_t any_section_names(const struct asked *a, union output *out)
{
    return xmas_elf_section_names(a->bytes, a->size, &a->header, (uint64_t)a->index, out[0].of_name, 3, &out[1].of_u64[0]);
}
static uint32_t any_names(const struct asked *a, union output *out)
{
    return xmas_elf_names(a->bytes, a->size, &a->header, &out[0].of_range[0]);
}
static uint32_t any_text(const struct asked *a, union output *out)
{
    return xmas_elf_text(a->bytes, a->size, &a->part, (uint64_t)a->index, &out[0].of_range[0]);
}
static uint32_t any_segment(const struct asked *a, union output *out)
{
    return xmas_elf_segment(a->bytes, a->size, &a->header, (uint32_t)a->index, &out[0].of_segment[0]);
}
static uint32_t any_check_segment(const struct asked *a, union output *out)
{
    (void)out;
    return xmas_elf_check_segment(a->bytes, a->size, &a->header, (uint32_t)a->index);
}
static uint32_t any_segments(const struct asked *a, union output *out)
{
    return xmas_elf_segments(a->bytes, a->size, &a->header, (uint64_t)a->index, out[0].of_segment, 3, &out[1].of_u64[0]);
}
static uint32_t any_segment_data(const struct asked *a, union output *out)
{
    return xmas_elf_segment_data(a->bytes, a->size, &a->header, (uint32_t)a->index, &out[0].of_range[0]);
}
static uint32_t any_symbols(const struct asked *a, union output *out)
{
    return xmas_elf_symbols(a->bytes, a->size, &a->table, (uint64_t)a->index, out[0].of_symbol, 3, &out[1].of_u64[0]);
}
static uint32_t any_symbol_names(const struct asked *a, union output *out)
{
    return xmas_elf_symbol_names(a->bytes, a->size, &a->table, (uint64_t)a->index, out[0].of_name, 3, &out[1].of_u64[0]);
}
static uint32_t any_symbols_open(const struct asked *a, union output *out)
{
    return xmas_elf_symbols_open(a->bytes, a->size, &a->header, (uint64_t)a->section, &out[0].of_symbol_table[0]);
}
static uint32_t any_relocations(const struct asked *a, union output *out)
{
    return xmas_elf_relocations(a->bytes, a->size, &a->header, (uint64_t)a->section, (uint64_t)a->index, out[0].of_relocation, 3, &out[1].of_u64[0]);
}
static uint32_t any_packed_relocations(const struct asked *a, union output *out)
{
    return xmas_elf_packed_relocations(a->bytes, a->size, &a->header, (uint64_t)a->section, (uint64_t)a->index, out[0].of_u64, 3, &out[1].of_u64[0]);
}
static uint32_t any_dynamics(const struct asked *a, union output *out)
{
    return xmas_elf_dynamics(a->bytes, a->size, &a->header, (uint64_t)a->section, (uint64_t)a->index, out[0].of_dynamic, 3, &out[1].of_u64[0]);
}
static uint32_t any_dynamic_entries(const struct asked *a, union output *out)
{
    return xmas_elf_dynamic_entries(a->bytes, a->size, &a->header, (uint64_t)a->index, out[0].of_dynamic, 3, &out[1].of_u64[0]);
}
static uint32_t any_dynamic_relocations(const struct asked *a, union output *out)
{
    return xmas_elf_dynamic_relocations(a->bytes, a->size, &a->header, (uint64_t)a->index, out[0].of_relocation, 3, &out[1].of_u64[0]);
}
static uint32_t any_dynamic_packed_relocations(const struct asked *a, union output *out)
{
    return xmas_elf_dynamic_packed_relocations(a->bytes, a->size, &a->header, (uint64_t)a->index, out[0].of_u64, 3, &out[1].of_u64[0]);
}
static uint32_t any_note(const struct asked *a, union output *out)
{
    return xmas_elf_note(a->bytes, a->size, &a->header, &a->part, (uint64_t)a->index, &out[0].of_note[0]);
}
static uint32_t any_bytes_at(const struct asked *a, union output *out)
{
    return xmas_elf_bytes_at(a->bytes, a->size, &a->header, (uint64_t)a->index, (uint64_t)a->index, &out[0].of_range[0]);
}
static uint32_t any_dynamic_texts(const struct asked *a, union output *out)
{
    return xmas_elf_dynamic_texts(a->bytes, a->size, &a->header, (uint64_t)a->index, (uint64_t)a->index, out[0].of_name, 3, &out[1].of_u64[0]);
}
static uint32_t any_dynamic_symbols_open(const struct asked *a, union output *out)
{
    return xmas_elf_dynamic_symbols_open(a->bytes, a->size, &a->header, &out[0].of_symbol_table[0]);
}
static uint32_t any_file_symbols_open(const struct asked *a, union output *out)
{
    return xmas_elf_file_symbols_open(a->bytes, a->size, &a->header, &out[0].of_symbol_table[0]);
}
static uint32_t any_dynamic_symbol_versions(const struct asked *a, union output *out)
{
    return xmas_elf_dynamic_symbol_versions(a->bytes, a->size, &a->header, (uint64_t)a->index, out[0].of_version, 3, &out[1].of_u64[0]);
}
static uint32_t any_version_definitions(const struct asked *a, union output *out)
{
    return xmas_elf_version_definitions(a->bytes, a->size, &a->header, (uint64_t)a->index, out[0].of_version, 3, &out[1].of_u64[0]);
}
static uint32_t any_version_needs(const struct asked *a, union output *out)
{
    return xmas_elf_version_needs(a->bytes, a->size, &a->header, (uint64_t)a->index, out[0].of_version, 3, &out[1].of_u64[0]);
}
static uint32_t any_find_symbol(const struct asked *a, union output *out)
{
    return xmas_elf_find_symbol(a->bytes, a->size, &a->header, a->name, a->name_size, a->name, a->name_size, &out[0].of_found_symbol[0]);
}
static uint32_t any_look_ups(const struct asked *a, union output *out)
{
    (void)xmas_elf_look_ups(a->bytes, a->size, &a->hash, a->name, a->name_size, &a->part, 1, out[0].of_answer, 3);
    return XMAS_ELF_OK;
}
static uint32_t any_hash_open(const struct asked *a, union output *out)
{
    return xmas_elf_hash_open(a->bytes, a->size, &a->header, (uint64_t)a->section, &out[0].of_hash_table[0]);
}
static uint32_t any_check_hash(const struct asked *a, union output *out)
{
    (void)out;
    return xmas_elf_check_hash(a->bytes, a->size, &a->hash);
}
static uint32_t any_address_index(const struct asked *a, union output *out)
{
    return xmas_elf_address_index(a->bytes, a->size, &a->header, &a->table, &a->part, (uint32_t)a->index, out[0].of_u32, 3, out[1].of_u64, 3, &out[2].of_address_index[0]);
}
static uint32_t any_symbols_at(const struct asked *a, union output *out)
{
    return xmas_elf_symbols_at(a->bytes, a->size, &a->address_index, a->words, a->words_count, a->index_numbers, a->index_numbers_count, a->numbers, 2, out[0].of_symbol_at, 3);
}
static uint32_t any_pieces(const struct asked *a, union output *out)
{
    return xmas_elf_pieces(a->bytes, a->size, &a->header, (uint64_t)a->index, out[0].of_u32, 3, out[1].of_u64, 3, out[2].of_piece, 3, &out[3].of_piece_sizes[0]);
}
static uint32_t any_symbol_pieces(const struct asked *a, union output *out)
{
    return xmas_elf_symbol_pieces(a->bytes, a->size, &a->address_index, (uint64_t)a->index, (uint64_t)a->index, (uint64_t)a->index, out[0].of_u32, 3, out[1].of_u64, 3, out[2].of_piece, 3, &out[3].of_u64[0]);
}
static uint32_t any_size_changes(const struct asked *a, union output *out)
{
    (void)a;
    return xmas_elf_size_changes(out[0].of_size_part, 3, out[1].of_size_part, 3, out[2].of_size_change, 3, &out[3].of_u64[0]);
}
static uint32_t any_debug_path(const struct asked *a, union output *out)
{
    return xmas_elf_debug_path(a->bytes, a->size, &a->header, a->name, a->name_size, a->name, a->name_size, (uint64_t)a->index, out[0].of_u8, 3, &out[1].of_debug_candidate[0]);
}
static uint32_t any_check_debug(const struct asked *a, union output *out)
{
    (void)out;
    return xmas_elf_check_debug(a->bytes, a->size, &a->header, (uint32_t)a->index, a->name, a->name_size, &a->header);
}
static uint32_t any_debug_crc(const struct asked *a, union output *out)
{
    return xmas_elf_debug_crc(a->name, a->name_size, &out[0].of_u32[0]);
}
static uint32_t any_load_plan(const struct asked *a, union output *out)
{
    return xmas_elf_load_plan(a->bytes, a->size, &a->header, (uint64_t)a->index, (uint64_t)a->index, &out[0].of_load_plan[0]);
}
static uint32_t any_load_mappings(const struct asked *a, union output *out)
{
    return xmas_elf_load_mappings(a->bytes, a->size, &a->header, (uint64_t)a->index, (uint64_t)a->index, (uint32_t)a->index, (uint64_t)a->index, out[0].of_load_mapping, 3, &out[1].of_u64[0]);
}
static uint32_t any_load_image(const struct asked *a, union output *out)
{
    return xmas_elf_load_image(a->bytes, a->size, &a->header, (uint64_t)a->index, (uint64_t)a->index, (uint32_t)a->index, out[0].of_u8, 3);
}
static uint32_t any_check_image(const struct asked *a, union output *out)
{
    uint64_t failed;
    uint64_t relocation;
    return xmas_elf_check_image(&(xmas_elf_load_object_t){.file = a->bytes, .file_size = a->size}, 1, (uint64_t)a->index, (uint64_t)a->index, (uint64_t)a->index, out[0].of_u8, 3, &failed, &relocation);
}
static uint32_t any_relocate(const struct asked *a, union output *out)
{
    uint64_t failed;
    uint64_t relocation;
    return xmas_elf_relocate(&(xmas_elf_load_object_t){.file = a->bytes, .file_size = a->size}, 1, (uint64_t)a->index, (uint32_t)a->index, (uint64_t)a->index, (uint64_t)a->index, out[0].of_u8, 3, &out[1].of_u64[0], &failed, &relocation);
}
static uint32_t any_relocate_all(const struct asked *a, union output *out)
{
    uint64_t failed;
    uint64_t relocation;
    return xmas_elf_relocate_all(&(xmas_elf_load_object_t){.file = a->bytes, .file_size = a->size}, 1, (uint32_t)a->index, (uint64_t)a->index, (uint64_t)a->index, out[0].of_u8, 3, &out[1].of_u64[0], &failed, &relocation);
}
static uint32_t any_message(const struct asked *a, union output *out)
{
    (void)xmas_elf_message((uint32_t)a->index, out[0].of_u8, 3);
    return XMAS_ELF_OK;
}
static uint32_t any_needed_names(const struct asked *a, union output *out)
{
    return xmas_elf_needed_names(a->bytes, a->size, &a->header, (uint64_t)a->index, out[0].of_needed_name, 3, &out[1].of_u64[0]);
}
static uint32_t any_last_entry(const struct asked *a, union output *out)
{
    return xmas_elf_last_entry(a->bytes, a->size, &a->header, (uint64_t)a->index, &out[0].of_u64[0]);
}
static uint32_t any_last_text(const struct asked *a, union output *out)
{
    return xmas_elf_last_text(a->bytes, a->size, &a->header, (uint64_t)a->index, &out[0].of_range[0]);
}
static uint32_t any_fits(const struct asked *a, union output *out)
{
    return xmas_elf_fits(a->name, a->name_size, (uint64_t)a->index, (uint8_t)a->index, (uint16_t)a->index, &out[0].of_u32[0]);
}
static uint32_t any_check_library(const struct asked *a, union output *out)
{
    (void)out;
    return xmas_elf_check_library(a->bytes, a->size, &a->header);
}
static uint32_t any_check_load(const struct asked *a, union output *out)
{
    (void)out;
    return xmas_elf_check_load(a->bytes, a->size, &a->header, (uint64_t)a->index, (uint64_t)a->index, (uint32_t)a->index);
}
static uint32_t any_expand(const struct asked *a, union output *out)
{
    return xmas_elf_expand(a->name, a->name_size, &(xmas_elf_tokens_t){.lib = a->name, .lib_size = a->name_size}, (uint64_t)a->index, out[0].of_u8, 3, &out[1].of_u64[0]);
}
static uint32_t any_candidates(const struct asked *a, union output *out)
{
    return xmas_elf_candidates(&(xmas_elf_search_for_t){.defaults = a->name, .defaults_size = a->name_size}, &(xmas_elf_search_asker_t){.r_path = a->name, .r_path_size = a->name_size}, 1, (uint64_t)a->index, out[0].of_candidate_path, 3, &out[1].of_u64[0]);
}
static uint32_t any_candidate_paths(const struct asked *a, union output *out)
{
    return xmas_elf_candidate_paths(&(xmas_elf_search_for_t){.defaults = a->name, .defaults_size = a->name_size}, &(xmas_elf_search_asker_t){.r_path = a->name, .r_path_size = a->name_size}, 1, (uint64_t)a->index, out[0].of_u8, 3, &out[1].of_u64[0]);
}
static uint32_t any_cache_path(const struct asked *a, union output *out)
{
    return xmas_elf_cache_path(a->name, a->name_size, a->name, a->name_size, &(xmas_elf_cache_machine_t){.flags = 0x303}, (uint64_t)a->index, out[0].of_u8, 3, &out[1].of_u64[0]);
}
static uint32_t any_next_entry(const struct asked *a, union output *out)
{
    return xmas_elf_next_entry(&(xmas_elf_dependencies_t){.found = a->words, .found_count = a->words_count}, 1, out[0].of_u32, 3, out[1].of_u32, 3, &out[2].of_object_entry[0]);
}
static uint32_t any_start_order(const struct asked *a, union output *out)
{
    return xmas_elf_start_order(&(xmas_elf_dependencies_t){.found = a->words, .found_count = a->words_count}, 1, out[0].of_u32, 3, out[1].of_u32, 3, out[2].of_u32, 3, out[3].of_u32, 3, &out[4].of_u64[0]);
}
static uint32_t any_missing_versions(const struct asked *a, union output *out)
{
    return xmas_elf_missing_versions(a->bytes, a->size, &a->header, a->name, a->name_size, a->name, a->name_size, &a->header, (uint64_t)a->index, out[0].of_lacked_version, 3, &out[1].of_u64[0]);
}

static const struct any {
    const char *name;
    uint32_t (*call)(const struct asked *, union output *);
    uint32_t results[71];
    size_t results_count;
} every[] = {
    {"open", any_open, {XMAS_ELF_OK, XMAS_ELF_SHORT_PART_1, XMAS_ELF_NO_MAGIC, XMAS_ELF_INVALID_CLASS, XMAS_ELF_SHORT_HEADERS}, 5},
    {"check_header", any_check_header, {XMAS_ELF_OK, XMAS_ELF_HEADER_SIZE, XMAS_ELF_NO_CLASS, XMAS_ELF_CLASS_MISMATCH, XMAS_ELF_NO_VERSION, XMAS_ELF_NO_DATA_FORMAT, XMAS_ELF_PH_TABLE_RANGE, XMAS_ELF_SH_TABLE_RANGE}, 8},
    {"counts", any_counts, {XMAS_ELF_OK}, 1},
    {"names_index", any_names_index, {XMAS_ELF_OK, XMAS_ELF_RESERVED_INDEX}, 2},
    {"section", any_section, {XMAS_ELF_OK, XMAS_ELF_SHORT_SECTION_HEADER, XMAS_ELF_UNKNOWN_CLASS, XMAS_ELF_SMALL_ENTRY}, 4},
    {"check_section", any_check_section, {XMAS_ELF_OK, XMAS_ELF_SHORT_SECTION_HEADER, XMAS_ELF_UNKNOWN_CLASS, XMAS_ELF_SMALL_ENTRY, XMAS_ELF_INVALID_SH_TYPE}, 5},
    {"sections", any_sections, {XMAS_ELF_OK, XMAS_ELF_NO_RECORD}, 2},
    {"find_section", any_find_section, {XMAS_ELF_OK, XMAS_ELF_NOT_FOUND}, 2},
    {"find_section_index", any_find_section_index, {XMAS_ELF_OK, XMAS_ELF_NOT_FOUND}, 2},
    {"section_data", any_section_data, {XMAS_ELF_OK, XMAS_ELF_SHORT_SECTION_HEADER, XMAS_ELF_UNKNOWN_CLASS, XMAS_ELF_SMALL_ENTRY, XMAS_ELF_INVALID_SH_TYPE, XMAS_ELF_NULL_DATA, XMAS_ELF_DATA_RANGE}, 7},
    {"section_names", any_section_names, {XMAS_ELF_OK, XMAS_ELF_NO_RECORD}, 2},
    {"names", any_names, {XMAS_ELF_OK, XMAS_ELF_RESERVED_INDEX, XMAS_ELF_SHORT_SECTION_HEADER, XMAS_ELF_UNKNOWN_CLASS, XMAS_ELF_SMALL_ENTRY, XMAS_ELF_SHORT_SECTION_OFFSET}, 6},
    {"text", any_text, {XMAS_ELF_OK, XMAS_ELF_DATA_RANGE, XMAS_ELF_TEXT_START, XMAS_ELF_TEXT_END, XMAS_ELF_TEXT_UTF_8}, 5},
    {"segment", any_segment, {XMAS_ELF_OK, XMAS_ELF_NO_PROGRAM_HEADERS, XMAS_ELF_UNKNOWN_CLASS, XMAS_ELF_SHORT_PROGRAM_HEADER, XMAS_ELF_SMALL_ENTRY}, 5},
    {"check_segment", any_check_segment, {XMAS_ELF_OK, XMAS_ELF_NO_PROGRAM_HEADERS, XMAS_ELF_UNKNOWN_CLASS, XMAS_ELF_SHORT_PROGRAM_HEADER, XMAS_ELF_SMALL_ENTRY, XMAS_ELF_PH_SIZE_MISMATCH, XMAS_ELF_ENTRY_POINT_RANGE, XMAS_ELF_INVALID_PH_TYPE, XMAS_ELF_SH_LIB_USED, XMAS_ELF_BAD_ALIGN}, 10},
    {"segments", any_segments, {XMAS_ELF_OK, XMAS_ELF_NO_RECORD}, 2},
    {"segment_data", any_segment_data, {XMAS_ELF_OK, XMAS_ELF_NO_PROGRAM_HEADERS, XMAS_ELF_UNKNOWN_CLASS, XMAS_ELF_SHORT_PROGRAM_HEADER, XMAS_ELF_SMALL_ENTRY, XMAS_ELF_INVALID_PH_TYPE, XMAS_ELF_NULL_DATA, XMAS_ELF_DATA_RANGE}, 8},
    {"symbols", any_symbols, {XMAS_ELF_OK, XMAS_ELF_DATA_RANGE, XMAS_ELF_NOT_MULTIPLE, XMAS_ELF_NO_RECORD}, 4},
    {"symbol_names", any_symbol_names, {XMAS_ELF_OK, XMAS_ELF_DATA_RANGE, XMAS_ELF_NOT_MULTIPLE, XMAS_ELF_NO_RECORD}, 4},
    {"symbols_open", any_symbols_open, {XMAS_ELF_OK, XMAS_ELF_SHORT_SECTION_HEADER, XMAS_ELF_UNKNOWN_CLASS, XMAS_ELF_SMALL_ENTRY, XMAS_ELF_INVALID_SH_TYPE, XMAS_ELF_DATA_RANGE, XMAS_ELF_NOT_MULTIPLE, XMAS_ELF_NOTE_32, XMAS_ELF_SHORT_DATA, XMAS_ELF_OTHER_DATA}, 10},
    {"relocations", any_relocations, {XMAS_ELF_OK, XMAS_ELF_SHORT_SECTION_HEADER, XMAS_ELF_UNKNOWN_CLASS, XMAS_ELF_SMALL_ENTRY, XMAS_ELF_INVALID_SH_TYPE, XMAS_ELF_DATA_RANGE, XMAS_ELF_NOT_MULTIPLE, XMAS_ELF_NOTE_32, XMAS_ELF_SHORT_DATA, XMAS_ELF_OTHER_DATA, XMAS_ELF_NO_RECORD}, 11},
    {"packed_relocations", any_packed_relocations, {XMAS_ELF_OK, XMAS_ELF_SHORT_SECTION_HEADER, XMAS_ELF_UNKNOWN_CLASS, XMAS_ELF_SMALL_ENTRY, XMAS_ELF_OTHER_DATA, XMAS_ELF_DATA_RANGE, XMAS_ELF_LINK_NOT_MULTIPLE, XMAS_ELF_NO_RECORD}, 8},
    {"dynamics", any_dynamics, {XMAS_ELF_OK, XMAS_ELF_SHORT_SECTION_HEADER, XMAS_ELF_UNKNOWN_CLASS, XMAS_ELF_SMALL_ENTRY, XMAS_ELF_INVALID_SH_TYPE, XMAS_ELF_DATA_RANGE, XMAS_ELF_NOT_MULTIPLE, XMAS_ELF_NOTE_32, XMAS_ELF_SHORT_DATA, XMAS_ELF_OTHER_DATA, XMAS_ELF_NO_RECORD}, 11},
    {"dynamic_entries", any_dynamic_entries, {XMAS_ELF_OK, XMAS_ELF_LINK_NO_DYNAMIC, XMAS_ELF_LINK_ADDRESS, XMAS_ELF_DATA_RANGE, XMAS_ELF_UNKNOWN_CLASS, XMAS_ELF_NOT_MULTIPLE, XMAS_ELF_NO_RECORD}, 7},
    {"dynamic_relocations", any_dynamic_relocations, {XMAS_ELF_OK, XMAS_ELF_LINK_NO_DYNAMIC, XMAS_ELF_LINK_ADDRESS, XMAS_ELF_DATA_RANGE, XMAS_ELF_NOT_MULTIPLE, XMAS_ELF_LINK_NO_ENTRY, XMAS_ELF_LINK_RELOCATION_KIND, XMAS_ELF_NO_RECORD}, 8},
    {"dynamic_packed_relocations", any_dynamic_packed_relocations, {XMAS_ELF_OK, XMAS_ELF_LINK_NO_DYNAMIC, XMAS_ELF_LINK_ADDRESS, XMAS_ELF_DATA_RANGE, XMAS_ELF_NOT_MULTIPLE, XMAS_ELF_LINK_NO_ENTRY, XMAS_ELF_LINK_NOT_MULTIPLE, XMAS_ELF_NO_RECORD}, 8},
    {"note", any_note, {XMAS_ELF_OK, XMAS_ELF_DATA_RANGE, XMAS_ELF_NO_RECORD, XMAS_ELF_LINK_SHORT_NOTE}, 4},
    {"bytes_at", any_bytes_at, {XMAS_ELF_OK, XMAS_ELF_LINK_ADDRESS, XMAS_ELF_DATA_RANGE}, 3},
    {"dynamic_texts", any_dynamic_texts, {XMAS_ELF_OK, XMAS_ELF_LINK_NO_DYNAMIC, XMAS_ELF_LINK_ADDRESS, XMAS_ELF_DATA_RANGE, XMAS_ELF_NOT_MULTIPLE, XMAS_ELF_NO_RECORD}, 6},
    {"dynamic_symbols_open", any_dynamic_symbols_open, {XMAS_ELF_OK, XMAS_ELF_LINK_NO_DYNAMIC, XMAS_ELF_LINK_ADDRESS, XMAS_ELF_DATA_RANGE, XMAS_ELF_NOT_MULTIPLE, XMAS_ELF_LINK_NO_ENTRY, XMAS_ELF_SHORT_DATA, XMAS_ELF_LINK_SHORT_TABLE, XMAS_ELF_LINK_BLOOM_COUNT, XMAS_ELF_LINK_CHAIN_INDEX, XMAS_ELF_LINK_CHAIN_DATA, XMAS_ELF_LINK_SYMBOL_INDEX}, 12},
    {"file_symbols_open", any_file_symbols_open, {XMAS_ELF_OK, XMAS_ELF_SHORT_SECTION_HEADER, XMAS_ELF_UNKNOWN_CLASS, XMAS_ELF_SMALL_ENTRY, XMAS_ELF_INVALID_SH_TYPE, XMAS_ELF_DATA_RANGE, XMAS_ELF_NOT_MULTIPLE, XMAS_ELF_NOTE_32, XMAS_ELF_SHORT_DATA, XMAS_ELF_OTHER_DATA, XMAS_ELF_LINK_NO_DYNAMIC, XMAS_ELF_LINK_ADDRESS, XMAS_ELF_LINK_NO_ENTRY, XMAS_ELF_LINK_SHORT_TABLE, XMAS_ELF_LINK_BLOOM_COUNT, XMAS_ELF_LINK_CHAIN_INDEX, XMAS_ELF_LINK_CHAIN_DATA, XMAS_ELF_LINK_SYMBOL_INDEX}, 18},
    {"dynamic_symbol_versions", any_dynamic_symbol_versions, {XMAS_ELF_OK, XMAS_ELF_LINK_NO_DYNAMIC, XMAS_ELF_LINK_ADDRESS, XMAS_ELF_DATA_RANGE, XMAS_ELF_NOT_MULTIPLE, XMAS_ELF_LINK_NO_ENTRY, XMAS_ELF_SHORT_DATA, XMAS_ELF_LINK_SHORT_TABLE, XMAS_ELF_LINK_BLOOM_COUNT, XMAS_ELF_LINK_CHAIN_INDEX, XMAS_ELF_LINK_CHAIN_DATA, XMAS_ELF_LINK_SYMBOL_INDEX, XMAS_ELF_NOT_FOUND, XMAS_ELF_NO_RECORD}, 14},
    {"version_definitions", any_version_definitions, {XMAS_ELF_OK, XMAS_ELF_LINK_NO_DYNAMIC, XMAS_ELF_LINK_ADDRESS, XMAS_ELF_DATA_RANGE, XMAS_ELF_NOT_MULTIPLE, XMAS_ELF_NO_RECORD}, 6},
    {"version_needs", any_version_needs, {XMAS_ELF_OK, XMAS_ELF_LINK_NO_DYNAMIC, XMAS_ELF_LINK_ADDRESS, XMAS_ELF_DATA_RANGE, XMAS_ELF_NOT_MULTIPLE, XMAS_ELF_NO_RECORD}, 6},
    {"find_symbol", any_find_symbol, {XMAS_ELF_OK, XMAS_ELF_TEXT_UTF_8, XMAS_ELF_LINK_NO_DYNAMIC, XMAS_ELF_LINK_ADDRESS, XMAS_ELF_DATA_RANGE, XMAS_ELF_NOT_MULTIPLE, XMAS_ELF_LINK_NO_ENTRY, XMAS_ELF_SHORT_DATA, XMAS_ELF_LINK_SHORT_TABLE, XMAS_ELF_LINK_BLOOM_COUNT, XMAS_ELF_LINK_CHAIN_INDEX, XMAS_ELF_LINK_CHAIN_DATA, XMAS_ELF_LINK_SYMBOL_INDEX, XMAS_ELF_HASH_DATA, XMAS_ELF_CHAIN_INDEX, XMAS_ELF_SYMBOL_INDEX, XMAS_ELF_CHAIN_SUM, XMAS_ELF_HASH_CYCLE, XMAS_ELF_LINK_SHORT_VERSION, XMAS_ELF_LINK_VERSION_COUNT, XMAS_ELF_TEXT_START, XMAS_ELF_TEXT_END}, 22},
    {"look_ups", any_look_ups, {XMAS_ELF_OK}, 1},
    {"hash_open", any_hash_open, {XMAS_ELF_OK, XMAS_ELF_SHORT_SECTION_HEADER, XMAS_ELF_UNKNOWN_CLASS, XMAS_ELF_SMALL_ENTRY, XMAS_ELF_INVALID_SH_TYPE, XMAS_ELF_DATA_RANGE, XMAS_ELF_NOT_MULTIPLE, XMAS_ELF_NOTE_32, XMAS_ELF_SHORT_DATA, XMAS_ELF_LINK_SHORT_TABLE, XMAS_ELF_LINK_BLOOM_COUNT, XMAS_ELF_OTHER_DATA}, 12},
    {"check_hash", any_check_hash, {XMAS_ELF_OK, XMAS_ELF_DATA_RANGE, XMAS_ELF_SHORT_DATA, XMAS_ELF_LINK_SHORT_TABLE, XMAS_ELF_LINK_BLOOM_COUNT, XMAS_ELF_NOT_MULTIPLE, XMAS_ELF_HASH_DATA, XMAS_ELF_CHAIN_INDEX, XMAS_ELF_SYMBOL_INDEX, XMAS_ELF_CHAIN_SUM, XMAS_ELF_HASH_CYCLE, XMAS_ELF_LINK_CHAIN_INDEX, XMAS_ELF_LINK_SYMBOL_INDEX, XMAS_ELF_LINK_CHAIN_DATA, XMAS_ELF_HASH_MISSING, XMAS_ELF_LINK_MISSING}, 16},
    {"address_index", any_address_index, {XMAS_ELF_OK, XMAS_ELF_DATA_RANGE, XMAS_ELF_NOT_MULTIPLE, XMAS_ELF_INDEX_MANY_SYMBOLS, XMAS_ELF_INDEX_FEW_WORDS}, 5},
    {"symbols_at", any_symbols_at, {XMAS_ELF_OK, XMAS_ELF_DATA_RANGE, XMAS_ELF_NOT_MULTIPLE}, 3},
    {"pieces", any_pieces, {XMAS_ELF_OK, XMAS_ELF_INDEX_FEW_WORDS}, 2},
    {"symbol_pieces", any_symbol_pieces, {XMAS_ELF_OK, XMAS_ELF_DATA_RANGE, XMAS_ELF_NOT_MULTIPLE, XMAS_ELF_INDEX_MANY_SYMBOLS, XMAS_ELF_INDEX_FEW_WORDS}, 5},
    {"size_changes", any_size_changes, {XMAS_ELF_OK, XMAS_ELF_INDEX_FEW_WORDS}, 2},
    {"debug_path", any_debug_path, {XMAS_ELF_OK, XMAS_ELF_NO_RECORD}, 2},
    {"check_debug", any_check_debug, {XMAS_ELF_OK, XMAS_ELF_NO_BUILD_ID, XMAS_ELF_OTHER_BUILD_ID, XMAS_ELF_OTHER_CHECKSUM}, 4},
    {"debug_crc", any_debug_crc, {XMAS_ELF_OK}, 1},
    {"load_plan", any_load_plan, {XMAS_ELF_OK, XMAS_ELF_LOAD_TYPE, XMAS_ELF_LOAD_ENTRY_SIZE, XMAS_ELF_LOAD_COUNT, XMAS_ELF_LOAD_TABLE, XMAS_ELF_LOAD_FILE_SIZE, XMAS_ELF_LOAD_EMPTY, XMAS_ELF_LOAD_MISALIGNED, XMAS_ELF_LOAD_ALIGNMENT, XMAS_ELF_LOAD_RANGE, XMAS_ELF_LOAD_DATA, XMAS_ELF_LOAD_OVERLAP, XMAS_ELF_LOAD_ZEROS, XMAS_ELF_LOAD_NO_LOAD, XMAS_ELF_LOAD_HEADERS, XMAS_ELF_LOAD_INTERPRETER, XMAS_ELF_LOAD_RELRO, XMAS_ELF_LOAD_TLS, XMAS_ELF_LOAD_ENTRY}, 19},
    {"load_mappings", any_load_mappings, {XMAS_ELF_OK, XMAS_ELF_LOAD_TYPE, XMAS_ELF_LOAD_ENTRY_SIZE, XMAS_ELF_LOAD_COUNT, XMAS_ELF_LOAD_TABLE, XMAS_ELF_LOAD_FILE_SIZE, XMAS_ELF_LOAD_EMPTY, XMAS_ELF_LOAD_MISALIGNED, XMAS_ELF_LOAD_ALIGNMENT, XMAS_ELF_LOAD_RANGE, XMAS_ELF_LOAD_DATA, XMAS_ELF_LOAD_OVERLAP, XMAS_ELF_LOAD_ZEROS, XMAS_ELF_LOAD_NO_LOAD, XMAS_ELF_LOAD_HEADERS, XMAS_ELF_LOAD_INTERPRETER, XMAS_ELF_LOAD_RELRO, XMAS_ELF_LOAD_TLS, XMAS_ELF_LOAD_ENTRY, XMAS_ELF_NO_RECORD}, 20},
    {"load_image", any_load_image, {XMAS_ELF_OK, XMAS_ELF_LOAD_TYPE, XMAS_ELF_LOAD_ENTRY_SIZE, XMAS_ELF_LOAD_COUNT, XMAS_ELF_LOAD_TABLE, XMAS_ELF_LOAD_FILE_SIZE, XMAS_ELF_LOAD_EMPTY, XMAS_ELF_LOAD_MISALIGNED, XMAS_ELF_LOAD_ALIGNMENT, XMAS_ELF_LOAD_RANGE, XMAS_ELF_LOAD_DATA, XMAS_ELF_LOAD_OVERLAP, XMAS_ELF_LOAD_ZEROS, XMAS_ELF_LOAD_NO_LOAD, XMAS_ELF_LOAD_HEADERS, XMAS_ELF_LOAD_INTERPRETER, XMAS_ELF_LOAD_RELRO, XMAS_ELF_LOAD_TLS, XMAS_ELF_LOAD_ENTRY, XMAS_ELF_LOAD_IMAGE_SIZE}, 20},
    {"check_image", any_check_image, {XMAS_ELF_OK, XMAS_ELF_LINK_OBJECT_INDEX, XMAS_ELF_MANY_OBJECTS, XMAS_ELF_SHORT_PART_1, XMAS_ELF_NO_MAGIC, XMAS_ELF_INVALID_CLASS, XMAS_ELF_SHORT_HEADERS, XMAS_ELF_LINK_NO_DYNAMIC, XMAS_ELF_LINK_ADDRESS, XMAS_ELF_DATA_RANGE, XMAS_ELF_NOT_MULTIPLE, XMAS_ELF_LINK_NO_ENTRY, XMAS_ELF_SHORT_DATA, XMAS_ELF_LINK_SHORT_TABLE, XMAS_ELF_LINK_BLOOM_COUNT, XMAS_ELF_LINK_CHAIN_INDEX, XMAS_ELF_LINK_CHAIN_DATA, XMAS_ELF_LINK_SYMBOL_INDEX, XMAS_ELF_LINK_UNKNOWN_CLASS, XMAS_ELF_LINK_NOT_MULTIPLE, XMAS_ELF_LINK_RELOCATION_KIND, XMAS_ELF_SYMBOL_INDEX, XMAS_ELF_HASH_DATA, XMAS_ELF_CHAIN_INDEX, XMAS_ELF_CHAIN_SUM, XMAS_ELF_HASH_CYCLE, XMAS_ELF_LINK_SHORT_VERSION, XMAS_ELF_LINK_VERSION_COUNT, XMAS_ELF_TEXT_START, XMAS_ELF_TEXT_END, XMAS_ELF_TEXT_UTF_8, XMAS_ELF_LOAD_TYPE, XMAS_ELF_LOAD_ENTRY_SIZE, XMAS_ELF_LOAD_COUNT, XMAS_ELF_LOAD_TABLE, XMAS_ELF_LOAD_FILE_SIZE, XMAS_ELF_LOAD_EMPTY, XMAS_ELF_LOAD_MISALIGNED, XMAS_ELF_LOAD_ALIGNMENT, XMAS_ELF_LOAD_RANGE, XMAS_ELF_LOAD_DATA, XMAS_ELF_LOAD_OVERLAP, XMAS_ELF_LOAD_ZEROS, XMAS_ELF_LOAD_NO_LOAD, XMAS_ELF_LOAD_HEADERS, XMAS_ELF_LOAD_INTERPRETER, XMAS_ELF_LOAD_RELRO, XMAS_ELF_LOAD_TLS, XMAS_ELF_LOAD_ENTRY, XMAS_ELF_LOAD_DYNAMIC, XMAS_ELF_LOAD_NO_ENTRY, XMAS_ELF_LOAD_NO_ADDENDS, XMAS_ELF_LOAD_ADDENDS, XMAS_ELF_LOAD_NO_SLOTS, XMAS_ELF_LOAD_RELOCATION_SIZE, XMAS_ELF_LOAD_NOT_MULTIPLE, XMAS_ELF_LOAD_UNREADABLE, XMAS_ELF_LOAD_FIRST_PACKED, XMAS_ELF_LOAD_SLOT_KIND, XMAS_ELF_LOAD_MACHINE, XMAS_ELF_LOAD_RELATIVE_COUNT, XMAS_ELF_LOAD_SLOT_TYPE, XMAS_ELF_LOAD_FEW_MARKS, XMAS_ELF_LOAD_WORD_TYPE, XMAS_ELF_LOAD_NO_SIZE, XMAS_ELF_LOAD_COPY_KIND, XMAS_ELF_LOAD_CALL_SYMBOL, XMAS_ELF_LOAD_WORD_ADDRESS, XMAS_ELF_LOAD_READ_ONLY, XMAS_ELF_LOAD_WORDS_OVERLAP, XMAS_ELF_LOAD_WORD_IN_TABLE}, 71},
    {"relocate", any_relocate, {XMAS_ELF_OK, XMAS_ELF_LINK_OBJECT_INDEX, XMAS_ELF_MANY_OBJECTS, XMAS_ELF_SHORT_PART_1, XMAS_ELF_NO_MAGIC, XMAS_ELF_INVALID_CLASS, XMAS_ELF_SHORT_HEADERS, XMAS_ELF_LINK_NO_DYNAMIC, XMAS_ELF_LINK_ADDRESS, XMAS_ELF_DATA_RANGE, XMAS_ELF_NOT_MULTIPLE, XMAS_ELF_LINK_NO_ENTRY, XMAS_ELF_SHORT_DATA, XMAS_ELF_LINK_SHORT_TABLE, XMAS_ELF_LINK_BLOOM_COUNT, XMAS_ELF_LINK_CHAIN_INDEX, XMAS_ELF_LINK_CHAIN_DATA, XMAS_ELF_LINK_SYMBOL_INDEX, XMAS_ELF_LINK_UNKNOWN_CLASS, XMAS_ELF_LINK_NOT_MULTIPLE, XMAS_ELF_LINK_RELOCATION_KIND, XMAS_ELF_SYMBOL_INDEX, XMAS_ELF_HASH_DATA, XMAS_ELF_CHAIN_INDEX, XMAS_ELF_CHAIN_SUM, XMAS_ELF_HASH_CYCLE, XMAS_ELF_LINK_SHORT_VERSION, XMAS_ELF_LINK_VERSION_COUNT, XMAS_ELF_TEXT_START, XMAS_ELF_TEXT_END, XMAS_ELF_TEXT_UTF_8, XMAS_ELF_LOAD_TYPE, XMAS_ELF_LOAD_ENTRY_SIZE, XMAS_ELF_LOAD_COUNT, XMAS_ELF_LOAD_TABLE, XMAS_ELF_LOAD_FILE_SIZE, XMAS_ELF_LOAD_EMPTY, XMAS_ELF_LOAD_MISALIGNED, XMAS_ELF_LOAD_ALIGNMENT, XMAS_ELF_LOAD_RANGE, XMAS_ELF_LOAD_DATA, XMAS_ELF_LOAD_OVERLAP, XMAS_ELF_LOAD_ZEROS, XMAS_ELF_LOAD_NO_LOAD, XMAS_ELF_LOAD_HEADERS, XMAS_ELF_LOAD_INTERPRETER, XMAS_ELF_LOAD_RELRO, XMAS_ELF_LOAD_TLS, XMAS_ELF_LOAD_ENTRY, XMAS_ELF_LOAD_IMAGE_SIZE, XMAS_ELF_LOAD_WORD_TYPE, XMAS_ELF_LOAD_NO_SIZE, XMAS_ELF_LOAD_COPY_KIND, XMAS_ELF_LOAD_CALL_SYMBOL, XMAS_ELF_LOAD_UNRESOLVED, XMAS_ELF_LOAD_WORD_ADDRESS, XMAS_ELF_LOAD_COPY_SOURCE}, 57},
    {"relocate_all", any_relocate_all, {XMAS_ELF_OK, XMAS_ELF_LINK_OBJECT_INDEX, XMAS_ELF_MANY_OBJECTS, XMAS_ELF_SHORT_PART_1, XMAS_ELF_NO_MAGIC, XMAS_ELF_INVALID_CLASS, XMAS_ELF_SHORT_HEADERS, XMAS_ELF_LINK_NO_DYNAMIC, XMAS_ELF_LINK_ADDRESS, XMAS_ELF_DATA_RANGE, XMAS_ELF_NOT_MULTIPLE, XMAS_ELF_LINK_NO_ENTRY, XMAS_ELF_SHORT_DATA, XMAS_ELF_LINK_SHORT_TABLE, XMAS_ELF_LINK_BLOOM_COUNT, XMAS_ELF_LINK_CHAIN_INDEX, XMAS_ELF_LINK_CHAIN_DATA, XMAS_ELF_LINK_SYMBOL_INDEX, XMAS_ELF_LINK_UNKNOWN_CLASS, XMAS_ELF_LINK_NOT_MULTIPLE, XMAS_ELF_LINK_RELOCATION_KIND, XMAS_ELF_SYMBOL_INDEX, XMAS_ELF_HASH_DATA, XMAS_ELF_CHAIN_INDEX, XMAS_ELF_CHAIN_SUM, XMAS_ELF_HASH_CYCLE, XMAS_ELF_LINK_SHORT_VERSION, XMAS_ELF_LINK_VERSION_COUNT, XMAS_ELF_TEXT_START, XMAS_ELF_TEXT_END, XMAS_ELF_TEXT_UTF_8, XMAS_ELF_LOAD_TYPE, XMAS_ELF_LOAD_ENTRY_SIZE, XMAS_ELF_LOAD_COUNT, XMAS_ELF_LOAD_TABLE, XMAS_ELF_LOAD_FILE_SIZE, XMAS_ELF_LOAD_EMPTY, XMAS_ELF_LOAD_MISALIGNED, XMAS_ELF_LOAD_ALIGNMENT, XMAS_ELF_LOAD_RANGE, XMAS_ELF_LOAD_DATA, XMAS_ELF_LOAD_OVERLAP, XMAS_ELF_LOAD_ZEROS, XMAS_ELF_LOAD_NO_LOAD, XMAS_ELF_LOAD_HEADERS, XMAS_ELF_LOAD_INTERPRETER, XMAS_ELF_LOAD_RELRO, XMAS_ELF_LOAD_TLS, XMAS_ELF_LOAD_ENTRY, XMAS_ELF_LOAD_IMAGE_SIZE, XMAS_ELF_LOAD_WORD_TYPE, XMAS_ELF_LOAD_NO_SIZE, XMAS_ELF_LOAD_COPY_KIND, XMAS_ELF_LOAD_CALL_SYMBOL, XMAS_ELF_LOAD_UNRESOLVED, XMAS_ELF_LOAD_WORD_ADDRESS, XMAS_ELF_LOAD_COPY_SOURCE}, 57},
    {"message", any_message, {XMAS_ELF_OK}, 1},
    {"needed_names", any_needed_names, {XMAS_ELF_OK, XMAS_ELF_LINK_NO_DYNAMIC, XMAS_ELF_LINK_ADDRESS, XMAS_ELF_DATA_RANGE, XMAS_ELF_NOT_MULTIPLE, XMAS_ELF_NO_RECORD}, 6},
    {"last_entry", any_last_entry, {XMAS_ELF_OK, XMAS_ELF_LINK_NO_DYNAMIC, XMAS_ELF_LINK_ADDRESS, XMAS_ELF_DATA_RANGE, XMAS_ELF_NOT_MULTIPLE, XMAS_ELF_NOT_FOUND}, 6},
    {"last_text", any_last_text, {XMAS_ELF_OK, XMAS_ELF_LINK_NO_DYNAMIC, XMAS_ELF_LINK_ADDRESS, XMAS_ELF_DATA_RANGE, XMAS_ELF_NOT_MULTIPLE, XMAS_ELF_NOT_FOUND, XMAS_ELF_LINK_NO_ENTRY, XMAS_ELF_TEXT_START, XMAS_ELF_TEXT_END, XMAS_ELF_TEXT_UTF_8}, 10},
    {"fits", any_fits, {XMAS_ELF_OK, XMAS_ELF_SEARCH_SHORT_FILE, XMAS_ELF_SEARCH_MAGIC, XMAS_ELF_SEARCH_BYTE_ORDER, XMAS_ELF_SEARCH_IDENT_VERSION, XMAS_ELF_SEARCH_OS_ABI, XMAS_ELF_SEARCH_ABI_VERSION, XMAS_ELF_SEARCH_PADDING, XMAS_ELF_SEARCH_VERSION, XMAS_ELF_SEARCH_TYPE, XMAS_ELF_SEARCH_ENTRY_SIZE, XMAS_ELF_SEARCH_FILE_DATA}, 12},
    {"check_library", any_check_library, {XMAS_ELF_OK, XMAS_ELF_SEARCH_NO_LOAD, XMAS_ELF_SEARCH_EXECUTABLE, XMAS_ELF_SEARCH_NO_DYNAMIC, XMAS_ELF_LINK_NO_DYNAMIC, XMAS_ELF_LINK_ADDRESS, XMAS_ELF_DATA_RANGE, XMAS_ELF_NOT_MULTIPLE, XMAS_ELF_SEARCH_SHARED_EXECUTABLE}, 9},
    {"check_load", any_check_load, {XMAS_ELF_OK, XMAS_ELF_LOAD_BYTE_ORDER, XMAS_ELF_LOAD_IDENT_VERSION, XMAS_ELF_LOAD_OS_ABI, XMAS_ELF_LOAD_ABI_VERSION, XMAS_ELF_LOAD_PADDING, XMAS_ELF_LOAD_VERSION, XMAS_ELF_LOAD_TYPE, XMAS_ELF_LOAD_ENTRY_SIZE, XMAS_ELF_LOAD_COUNT, XMAS_ELF_LOAD_TABLE, XMAS_ELF_LOAD_MISALIGNED, XMAS_ELF_LOAD_NO_LOAD, XMAS_ELF_LOAD_EXECUTABLE, XMAS_ELF_LOAD_RANGE, XMAS_ELF_LOAD_DATA, XMAS_ELF_LOAD_OVERLAP, XMAS_ELF_LOAD_FILE_SIZE, XMAS_ELF_LOAD_INTERPRETER, XMAS_ELF_LOAD_EMPTY, XMAS_ELF_LOAD_ENTRY, XMAS_ELF_LOAD_NO_DYNAMIC, XMAS_ELF_LOAD_RELRO, XMAS_ELF_LOAD_TLS}, 24},
    {"expand", any_expand, {XMAS_ELF_OK, XMAS_ELF_SEARCH_EMPTY_TOKEN, XMAS_ELF_NO_RECORD}, 3},
    {"candidates", any_candidates, {XMAS_ELF_OK, XMAS_ELF_MANY_OBJECTS, XMAS_ELF_NO_RECORD}, 3},
    {"candidate_paths", any_candidate_paths, {XMAS_ELF_OK, XMAS_ELF_MANY_OBJECTS, XMAS_ELF_NO_RECORD}, 3},
    {"cache_path", any_cache_path, {XMAS_ELF_OK, XMAS_ELF_SEARCH_NOT_A_CACHE, XMAS_ELF_SEARCH_CACHE_COUNT, XMAS_ELF_SEARCH_CACHE_ORDER, XMAS_ELF_NOT_FOUND, XMAS_ELF_NO_RECORD}, 6},
    {"next_entry", any_next_entry, {XMAS_ELF_OK, XMAS_ELF_NO_RECORD, XMAS_ELF_SEARCH_NO_OBJECT, XMAS_ELF_SEARCH_FEW_WORDS}, 4},
    {"start_order", any_start_order, {XMAS_ELF_OK, XMAS_ELF_SEARCH_FEW_WORDS, XMAS_ELF_SEARCH_NO_OBJECT}, 3},
    {"missing_versions", any_missing_versions, {XMAS_ELF_OK, XMAS_ELF_LINK_NO_DYNAMIC, XMAS_ELF_LINK_ADDRESS, XMAS_ELF_DATA_RANGE, XMAS_ELF_NOT_MULTIPLE, XMAS_ELF_NO_RECORD}, 6},
};
