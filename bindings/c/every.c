/* every FILE: calls each export of xmas_elf.h over a program with both kinds of hash tables, packed relocations and a version of its
 * own, and tests what the header says of statuses, outputs, alignment and null pointers. It prints what it finds at fault. */
#include "xmas_elf.h"
#include <stdio.h>
#include <stdlib.h>
#include <string.h>

struct asked {
    const uint8_t *bytes;
    size_t size;
    xmas_elf_header_t header;
    const uint8_t *name; /* of a symbol or a section */
    size_t name_size;
    uint64_t section; /* the section that the row is about */
    uint64_t index;
    xmas_elf_range_t part;
    xmas_elf_symbol_table_t table; /* of the symbols for dynamic linking */
    xmas_elf_hash_table_t hash; /* GNU's table */
    xmas_elf_hash_table_t sysv; /* the standard's */
    xmas_elf_address_index_t address_index; /* of the table */
    const uint32_t *words; /* of the index */
    size_t words_count;
    const uint64_t *index_numbers;
    size_t index_numbers_count;
    uint64_t numbers[2]; /* addresses; for a row the first is that of the symbol with the name */
};

/* A row of calls.h for each export of the list. */
#include "calls.h"

/* The outputs of a call; an array has a record more than the call may write. */
struct outputs {
    union {
        xmas_elf_header_t header;
        xmas_elf_counts_t counts;
        uint32_t number;
        xmas_elf_section_t sections[3];
        xmas_elf_range_t range;
        xmas_elf_name_t names[3];
        xmas_elf_segment_t segments[3];
        xmas_elf_symbol_t symbols[3];
        xmas_elf_symbol_table_t table;
        xmas_elf_hash_table_t hash;
        xmas_elf_relocation_t relocations[3];
        xmas_elf_dynamic_t dynamics[3];
        uint64_t addresses[3];
        xmas_elf_note_t note;
        xmas_elf_answer_t results[3];
        xmas_elf_version_t versions[3];
        xmas_elf_found_symbol_t found_symbol;
        xmas_elf_address_index_t address_index;
        xmas_elf_symbol_at_t symbols_at[3];
        xmas_elf_piece_t pieces[3];
        xmas_elf_size_change_t size_changes[3];
        xmas_elf_debug_candidate_t debug_candidate;
        xmas_elf_load_plan_t load_plan;
        xmas_elf_load_mapping_t load_mappings[3];
        xmas_elf_needed_name_t needed_names[3];
        xmas_elf_candidate_path_t candidates[3];
        xmas_elf_object_entry_t entry;
        xmas_elf_lacked_version_t lacked[3];
        uint32_t starts[6];
        uint8_t text[XMAS_ELF_LONGEST_MESSAGE];
    } of;
    uint64_t count;
};

#define WORDS 4096
#define FILE_OF(asked) (asked)->bytes, (asked)->size, &(asked)->header
#define TABLE_OF(asked) (asked)->bytes, (asked)->size, &(asked)->table
#define CALL(name) static uint32_t name##_call(const struct asked *a, struct outputs *out)

/* A call for many: with no room it returns the same status, and that there are none. */
#define CALL_MANY_OF(name, array, ...) \
    CALL(name) \
    { \
        uint64_t none = 7; \
        uint32_t status = xmas_elf_##name(__VA_ARGS__, NULL, 0, &none); \
        if (none != (status == XMAS_ELF_OK ? 0 : 7)) return 999; \
        return xmas_elf_##name(__VA_ARGS__, out->of.array, 2, &out->count) == status ? status : 998; \
    }
#define CALL_MANY(name, array, ...) CALL_MANY_OF(name, array, FILE_OF(a), __VA_ARGS__)

CALL(open) { return xmas_elf_open(a->bytes, a->size < a->index ? a->size : (size_t)a->index, &out->of.header); }
CALL(check_header) { (void)out; return xmas_elf_check_header(FILE_OF(a)); }
CALL(counts) { return xmas_elf_counts(FILE_OF(a), &out->of.counts); }
CALL(names_index) { return xmas_elf_names_index(FILE_OF(a), &out->of.number); }
CALL(section) { return xmas_elf_section(FILE_OF(a), a->index, &out->of.sections[0]); }
CALL(check_section) { (void)out; return xmas_elf_check_section(FILE_OF(a), a->index); }
CALL_MANY(sections, sections, a->index)
CALL(find_section) { return xmas_elf_find_section(FILE_OF(a), a->name, a->name_size, &out->of.sections[0]); }
CALL(find_section_index) { return xmas_elf_find_section_index(FILE_OF(a), a->name, a->name_size, &out->of.addresses[0]); }
CALL(section_data) { return xmas_elf_section_data(FILE_OF(a), a->index, &out->of.range); }
CALL_MANY(section_names, names, a->index)
CALL(names) { return xmas_elf_names(FILE_OF(a), &out->of.range); }
CALL(text)
{
    const xmas_elf_range_t magic = {1, 60}; /* "ELF" and zeros follow */
    return xmas_elf_text(a->bytes, a->size, &magic, a->index, &out->of.range);
}
CALL(segment) { return xmas_elf_segment(FILE_OF(a), (uint32_t)a->index, &out->of.segments[0]); }
CALL(check_segment) { (void)out; return xmas_elf_check_segment(FILE_OF(a), (uint32_t)a->index); }
CALL_MANY(segments, segments, a->index)
CALL(segment_data) { return xmas_elf_segment_data(FILE_OF(a), (uint32_t)a->index, &out->of.range); }
CALL_MANY_OF(symbols, symbols, TABLE_OF(a), a->index)
CALL_MANY_OF(symbol_names, names, TABLE_OF(a), a->index)
CALL(symbols_open) { return xmas_elf_symbols_open(FILE_OF(a), a->index == 0 ? a->section : a->index, &out->of.table); }
CALL_MANY(relocations, relocations, a->section, a->index)
CALL_MANY(packed_relocations, addresses, a->section, a->index)
CALL_MANY(dynamics, dynamics, a->section, a->index)
CALL_MANY(dynamic_entries, dynamics, a->index)
CALL_MANY(dynamic_relocations, relocations, a->index)
CALL_MANY(dynamic_packed_relocations, addresses, a->index)
CALL(note)
{
    xmas_elf_range_t part = {a->index, 1};
    xmas_elf_section_t section;
    if (xmas_elf_section(FILE_OF(a), a->section, &section) == XMAS_ELF_OK && a->index == 0) part.offset = section.offset, part.size = section.size;
    return xmas_elf_note(FILE_OF(a), &part, 4, &out->of.note);
}
CALL(bytes_at) { return xmas_elf_bytes_at(FILE_OF(a), a->index, 1, &out->of.range); }
CALL_MANY(dynamic_texts, names, 1, a->index) /* DT_NEEDED */
CALL(dynamic_symbols_open) /* the symbols of the section for dynamic linking, with their names */
{
    xmas_elf_symbol_t symbols[2];
    xmas_elf_name_t names[2];
    uint64_t one;
    xmas_elf_symbol_table_t *table = &out->of.table;
    uint32_t status = xmas_elf_dynamic_symbols_open(FILE_OF(a), table);
    if (status != XMAS_ELF_OK) return status;
    if (table->count != a->table.count) return 999;
    for (uint64_t i = 0; i < table->count; i++) {
        if (xmas_elf_symbols(TABLE_OF(a), i, &symbols[0], 1, &one) != XMAS_ELF_OK) return 998;
        if (xmas_elf_symbols(a->bytes, a->size, table, i, &symbols[1], 1, &one) != XMAS_ELF_OK) return 997;
        if (memcmp(&symbols[0], &symbols[1], sizeof *symbols) != 0) return 996;
        if (xmas_elf_symbol_names(TABLE_OF(a), i, &names[0], 1, &one) != XMAS_ELF_OK) return 995;
        if (xmas_elf_symbol_names(a->bytes, a->size, table, i, &names[1], 1, &one) != XMAS_ELF_OK) return 994;
        if (memcmp(&names[0].range, &names[1].range, sizeof names[0].range) != 0 || names[0].status != names[1].status) return 993;
    }
    return xmas_elf_symbols(a->bytes, a->size, table, table->count, symbols, 2, &one) == XMAS_ELF_NO_RECORD ? status : 992;
}
CALL(file_symbols_open) { return xmas_elf_file_symbols_open(FILE_OF(a), &out->of.table); }
CALL_MANY(dynamic_symbol_versions, versions, a->index)
CALL_MANY(version_definitions, versions, a->index)
CALL_MANY(version_needs, versions, a->index)
CALL(find_symbol) /* by the version of the name it is the same symbol as without one */
{
    static const uint8_t version[] = "EVERY_1";
    xmas_elf_found_symbol_t plain;
    uint32_t status = xmas_elf_find_symbol(FILE_OF(a), a->name, a->name_size, NULL, 0, &plain);
    if (xmas_elf_find_symbol(FILE_OF(a), a->name, a->name_size, version, 7, &out->of.found_symbol) != status) return 999;
    if (status != XMAS_ELF_OK) return status;
    return plain.found && memcmp(&plain, &out->of.found_symbol, sizeof plain) == 0 ? status : 998;
}
CALL(hash_open) { return xmas_elf_hash_open(FILE_OF(a), a->index == 0 ? a->section : a->index, &out->of.hash); }
CALL(check_hash) /* both tables */
{
    uint32_t status = xmas_elf_check_hash(a->bytes, a->size, &a->sysv);
    (void)out;
    return xmas_elf_check_hash(a->bytes, a->size, &a->hash) == status ? status : 999;
}
CALL(look_ups) /* returns nothing: its status is that of the first result; both tables find the same symbol */
{
    const xmas_elf_range_t ranges[2] = {{0, a->name_size}, {0, a->name_size}};
    struct outputs untouched = *out;
    xmas_elf_answer_t sysv;
    xmas_elf_look_ups(a->bytes, a->size, &a->hash, a->name, a->name_size, NULL, 0, out->of.results, 2);
    xmas_elf_look_ups(a->bytes, a->size, &a->hash, a->name, a->name_size, ranges, 2, NULL, 0);
    if (memcmp(&untouched, out, sizeof untouched) != 0) return 999;
    xmas_elf_look_ups(a->bytes, a->size, &a->hash, a->name, a->name_size, ranges, 2, out->of.results, 2);
    xmas_elf_look_ups(a->bytes, a->size, &a->sysv, a->name, a->name_size, ranges, 2, &sysv, 1);
    uint32_t status = out->of.results[0].status;
    if (status != out->of.results[1].status || status != sysv.status) return 998;
    if (out->of.results[0].found != (status == XMAS_ELF_OK) || out->of.results[0].index != sysv.index) return 997;
    if (status != XMAS_ELF_OK) *out = untouched;
    return status;
}
CALL(address_index) /* without words it says how many it takes; a word less, or a number less, is an error */
{
    uint32_t words[WORDS];
    uint64_t numbers[WORDS];
    const size_t most = a->words_count, count = a->index_numbers_count;
    const xmas_elf_range_t indices = {a->index, 0};
    xmas_elf_address_index_t sized, *index = &out->of.address_index;
    uint32_t status = xmas_elf_address_index(FILE_OF(a), &a->table, &indices, 0, NULL, 0, NULL, 0, &sized);
    if (status != XMAS_ELF_OK) return xmas_elf_address_index(FILE_OF(a), &a->table, &indices, 0, words, WORDS, numbers, WORDS, index);
    if (sized.words != most || sized.numbers != count || sized.sized_count != 0 || sized.open_count != 0) return 999;
    status = xmas_elf_address_index(FILE_OF(a), &a->table, &indices, 0, words, most - 1, numbers, count, index);
    if (status != XMAS_ELF_INDEX_FEW_WORDS) return 998;
    status = xmas_elf_address_index(FILE_OF(a), &a->table, &indices, 0, words, most, numbers, count - 1, index);
    if (status != XMAS_ELF_INDEX_FEW_WORDS) return 995;
    status = xmas_elf_address_index(FILE_OF(a), &a->table, &indices, 0, words, most, numbers, count, index);
    if (memcmp(words, a->words, most * sizeof *words) != 0 || memcmp(numbers, a->index_numbers, count * sizeof *numbers) != 0) return 997;
    return 2 * out->of.address_index.sized_count + out->of.address_index.open_count == a->words_count ? status : 996;
}
CALL(symbols_at) /* the symbol of its last byte, and none where no symbol is */
{
    xmas_elf_address_index_t index = a->address_index;
    const uint64_t addresses[2] = {a->numbers[0] + 3, UINT64_MAX};
    xmas_elf_symbol_at_t *found = out->of.symbols_at;
    xmas_elf_symbol_t symbol;
    uint64_t one;
    index.indices.offset = a->index;
    const uint64_t *numbers = a->index_numbers;
    const size_t count = a->index_numbers_count;
    uint32_t status = xmas_elf_symbols_at(a->bytes, a->size, &index, a->words, a->words_count, numbers, count, addresses, 2, NULL, 0);
    if (xmas_elf_symbols_at(a->bytes, a->size, &index, a->words, a->words_count, numbers, count, addresses, 2, found, 2) != status) return 999;
    if (status != XMAS_ELF_OK) return status;
    if (found[0].found != 1 || found[0].offset != 3 || found[0].is_open != 0 || found[0].symbol.value != a->numbers[0]) return 998;
    if (xmas_elf_symbols(TABLE_OF(a), found[0].index, &symbol, 1, &one) != XMAS_ELF_OK) return 997;
    return memcmp(&symbol, &found[0].symbol, sizeof symbol) == 0 && found[1].found == 0 && found[1].symbol.value == 0 ? status : 996;
}
CALL(pieces) /* they follow each other to the end of the file; a word less, or a number less, is an error */
{
    uint32_t words[WORDS];
    uint64_t numbers[WORDS];
    xmas_elf_piece_t all[256];
    xmas_elf_piece_sizes_t sizes, again;
    uint64_t end = 0;
    uint32_t status = xmas_elf_pieces(FILE_OF(a), 0, NULL, 0, NULL, 0, NULL, 0, &sizes);
    const size_t most = (size_t)sizes.words, count = (size_t)sizes.numbers;
    if (status != XMAS_ELF_OK || most > WORDS || count > most) return 999;
    if (most > 0 && xmas_elf_pieces(FILE_OF(a), 0, words, most - 1, numbers, count, all, 256, &again) != XMAS_ELF_INDEX_FEW_WORDS) return 998;
    if (count > 0 && xmas_elf_pieces(FILE_OF(a), 0, words, most, numbers, count - 1, all, 256, &again) != XMAS_ELF_INDEX_FEW_WORDS) return 993;
    status = xmas_elf_pieces(FILE_OF(a), 0, words, most, numbers, count, all, 256, &again);
    if (status != XMAS_ELF_OK || again.words != sizes.words || again.count > 256) return 997;
    for (uint64_t i = 0; i < again.count; end = all[i++].end)
        if (all[i].begin != end || all[i].end <= end || all[i].owner > 6) return 996;
    if (end != a->size) return 995;
    status = xmas_elf_pieces(FILE_OF(a), a->index, words, a->index > again.count ? 1 : most, numbers, count, out->of.pieces, 2, &sizes);
    if (status == XMAS_ELF_OK) out->count = sizes.count;
    return status != XMAS_ELF_OK || a->size == 0 || out->of.pieces[0].begin == all[a->index].begin ? status : 994;
}
CALL(symbol_pieces) /* the addresses of a symbol are its own; a word less is an error */
{
    xmas_elf_address_index_t index = a->address_index;
    uint32_t words[WORDS];
    uint64_t numbers[WORDS];
    const size_t most = a->words_count, room = a->index_numbers_count;
    const xmas_elf_piece_t *pieces = out->of.pieces;
    xmas_elf_symbol_t symbol;
    uint64_t count, begin = a->numbers[0];
    index.indices.offset = a->index;
    uint32_t status = xmas_elf_symbol_pieces(a->bytes, a->size, &index, begin, begin + 4, 0, words, most, numbers, room, out->of.pieces, 2, &out->count);
    if (status != XMAS_ELF_OK) return status;
    if (out->count != 1 || pieces[0].begin != begin || pieces[0].end != begin + 4 || pieces[0].owner != 7) return 999;
    if (xmas_elf_symbols(TABLE_OF(a), pieces[0].index, &symbol, 1, &count) != XMAS_ELF_OK || symbol.value != begin) return 998;
    status = xmas_elf_symbol_pieces(a->bytes, a->size, &index, begin, begin + 4, 0, words, most - 1, numbers, room, NULL, 0, &count);
    return status == XMAS_ELF_INDEX_FEW_WORDS ? XMAS_ELF_OK : 997;
}
CALL(size_changes) /* a part of the old file alone, and one of both; a row less is an error */
{
    xmas_elf_size_part_t olds[2] = {{a->name, a->name_size, 1, 0, 7}, {a->name, a->name_size, 0, 1, 5}};
    xmas_elf_size_part_t news[1] = {{a->name, a->name_size, 0, 4, 9}};
    const xmas_elf_size_change_t *rows = out->of.size_changes;
    uint32_t status = xmas_elf_size_changes(olds, 2, news, 1, out->of.size_changes, a->index == 0 ? 3 : 2, &out->count);
    if (status != XMAS_ELF_OK) return olds[0].kind == 1 ? status : 999;
    if (out->count != 2 || olds[0].kind != 0 || olds[1].kind != 1) return 998;
    if (rows[0].files != 0 || rows[0].old_index != 1 || rows[0].old_size != 7 || rows[0].new_size != 0) return 997;
    return rows[1].files == 2 && rows[1].old_index == 0 && rows[1].new_index == 0 && rows[1].old_size == 5 && rows[1].new_size == 9 ? status : 996;
}
CALL(debug_path) /* by the build id, of 20 bytes */
{
    uint8_t text[60], part[13];
    xmas_elf_debug_candidate_t *one = &out->of.debug_candidate;
    uint32_t status = xmas_elf_debug_path(FILE_OF(a), NULL, 0, (const uint8_t *)"/d", 2, a->index, text, sizeof text, one);
    if (status != xmas_elf_debug_path(FILE_OF(a), NULL, 0, (const uint8_t *)"/d", 2, a->index, part, sizeof part, one)) return 999;
    if (status != XMAS_ELF_OK) return status;
    if (one->size != sizeof text || one->how != 0 || memcmp(part, "/d/.build-id/", sizeof part) != 0) return 998;
    return memcmp(text, part, sizeof part) == 0 && text[15] == '/' && memcmp(text + 54, ".debug", 6) == 0 ? status : 997;
}
CALL(check_debug) /* it has its own build id, and no link */
{
    (void)out;
    return xmas_elf_check_debug(FILE_OF(a), (uint32_t)a->index, FILE_OF(a));
}
CALL(debug_crc)
{
    uint32_t status = xmas_elf_debug_crc((const uint8_t *)"123456789", 9, &out->of.number);
    (void)a;
    return out->of.number == 0xcbf43926 ? status : 999;
}
CALL(load_plan) { return xmas_elf_load_plan(FILE_OF(a), a->index, 0, &out->of.load_plan); }
CALL_MANY(load_mappings, load_mappings, 4096, 0, 0, a->index)
#define LARGEST ((size_t)1 << 24)
static uint8_t *image, *marks; /* of the file in memory, which has them in no segment */
#define OBJECT_OF(asked) &(xmas_elf_load_object_t){.file = (asked)->bytes, .file_size = (asked)->size}, 1
CALL(load_image) /* a byte less is an error */
{
    xmas_elf_load_plan_t plan = {.span = {0, 1}};
    uint32_t status = xmas_elf_load_plan(FILE_OF(a), a->index, 0, &plan);
    size_t size = (size_t)(plan.span.end - plan.span.start);
    (void)out;
    if (status == XMAS_ELF_OK && xmas_elf_load_image(FILE_OF(a), a->index, 0, 0, image, size - 1) != XMAS_ELF_LOAD_IMAGE_SIZE) return 999;
    if (status != xmas_elf_load_image(FILE_OF(a), a->index, 0, 0, image, size)) return 998;
    return status != XMAS_ELF_OK || memcmp(image, a->bytes, 64) == 0 ? status : 997;
}
/* Whether a call for one object wrote its index in place of a 7 where it has an error, and else nothing: an index past it is no error of it. */
static int tells(uint32_t status, uint64_t failed) { return failed == (status == XMAS_ELF_OK || status == XMAS_ELF_LINK_OBJECT_INDEX ? 7 : 0); }
/* The file, and after it one that is cut off. */
#define CUT_OFF(asked) (xmas_elf_load_object_t[]){{.file = (asked)->bytes, .file_size = (asked)->size}, {.file = (asked)->bytes, .file_size = 3}}, 2
CALL(check_image)
{
    uint64_t failed = 7, none = 7, second = 7, relocation = 7;
    (void)out;
    if (a->index == 0 && a->size > 0) {
        if (xmas_elf_check_image(OBJECT_OF(a), 0, 0, 0, marks, 1, &none, &relocation) != XMAS_ELF_LOAD_FEW_MARKS || none != 7) return 999;
        if (xmas_elf_check_image(CUT_OFF(a), 0, 0, 0, marks, 1, &second, &relocation) != XMAS_ELF_SHORT_PART_1 || second != 1) return 998;
    }
    uint32_t status = xmas_elf_check_image(OBJECT_OF(a), a->index, 0, 0, marks, LARGEST / 8 + 1, &failed, &relocation);
    return tells(status, failed) && relocation == 7 ? status : 997;
}
CALL(relocate) /* without its library the program has a symbol that nothing has */
{
    xmas_elf_load_plan_t plan;
    uint32_t status = xmas_elf_load_plan(FILE_OF(a), 0, 0, &plan);
    size_t size = status == XMAS_ELF_OK ? (size_t)(plan.span.end - plan.span.start) : 0;
    if (status == XMAS_ELF_OK && xmas_elf_load_image(FILE_OF(a), 0, 0, 0, image, size) != XMAS_ELF_OK) return 999;
    uint64_t failed = 7, none = 7, second = 7, relocation = UINT64_MAX;
    if (a->index == 0 && a->size > 0) {
        if (xmas_elf_relocate(OBJECT_OF(a), 0, 0, 0, 0, image, size + 1, &out->count, &none, &relocation) != XMAS_ELF_LOAD_IMAGE_SIZE || none != 7) return 998;
        if (xmas_elf_relocate(CUT_OFF(a), 0, 0, 0, 0, image, size, &out->count, &second, &relocation) != XMAS_ELF_SHORT_PART_1 || second != 1) return 997;
    }
    status = xmas_elf_relocate(OBJECT_OF(a), a->index, 0, 0, 0, image, size, &out->count, &failed, &relocation);
    if (!tells(status, failed) || (relocation != UINT64_MAX) != (status == XMAS_ELF_LOAD_UNRESOLVED)) return 996;
    return status == XMAS_ELF_LOAD_UNRESOLVED ? XMAS_ELF_OK : status;
}
CALL(relocate_all) /* the same, by one call for all */
{
    xmas_elf_load_plan_t plan;
    uint32_t status = xmas_elf_load_plan(FILE_OF(a), a->index, 0, &plan);
    size_t size = status == XMAS_ELF_OK ? (size_t)(plan.span.end - plan.span.start) : 0;
    uint64_t failed = 7, none = 7, relocation = UINT64_MAX;
    if (status == XMAS_ELF_OK && xmas_elf_load_image(FILE_OF(a), a->index, 0, 0, image, size) != XMAS_ELF_OK) return 999;
    if (xmas_elf_relocate_all(OBJECT_OF(a), 0, a->index, 0, image, size + 1, &out->count, &none, &relocation) == XMAS_ELF_OK) return 998;
    if (xmas_elf_relocate_all(NULL, 0, 0, a->index, 0, NULL, 0, &out->count, &none, &relocation) != XMAS_ELF_LINK_OBJECT_INDEX) return 997;
    status = xmas_elf_relocate_all(OBJECT_OF(a), 0, a->index, 0, image, size, &out->count, &failed, &relocation);
    if ((status != XMAS_ELF_OK && failed != 0) || (relocation != UINT64_MAX) != (status == XMAS_ELF_LOAD_UNRESOLVED)) return 996;
    return status == XMAS_ELF_LOAD_UNRESOLVED ? XMAS_ELF_OK : status;
}
CALL_MANY(needed_names, needed_names, a->index)
CALL(last_entry) { return xmas_elf_last_entry(FILE_OF(a), a->index, &out->of.addresses[0]); }
CALL(last_text) { return xmas_elf_last_text(FILE_OF(a), a->index, &out->of.range); }
CALL(fits) { return xmas_elf_fits(a->bytes, a->index ? 3 : a->size, a->size, 2, 62, &out->of.number); }
CALL(check_library) /* this program can be loaded anywhere */
{
    uint32_t status = xmas_elf_check_library(FILE_OF(a));
    (void)out;
    return status == XMAS_ELF_SEARCH_SHARED_EXECUTABLE ? XMAS_ELF_OK : status;
}
CALL(check_load) { (void)out; return xmas_elf_check_load(FILE_OF(a), 0, 0, (uint32_t)a->index); }
static const xmas_elf_tokens_t tokens = {(const uint8_t *)"/o", 2, NULL, 0, NULL, 0};
static const xmas_elf_text_t subdirectories[] = {{(const uint8_t *)"s/", 2}, {(const uint8_t *)"", 0}};
static const xmas_elf_search_asker_t asker = {(const uint8_t *)"$ORIGIN/l", 9, NULL, 0, {(const uint8_t *)"/o", 2, NULL, 0, NULL, 0}, 0, 0};
static xmas_elf_search_for_t search_for(const struct asked *a)
{
    return (xmas_elf_search_for_t){.name = a->name, .name_size = a->name_size, .subdirectories = subdirectories, .subdirectories_count = 2};
}
CALL(expand)
{
    const uint8_t *text = (const uint8_t *)"$ORIGIN/${LIB";
    uint64_t none = 7;
    if (xmas_elf_expand((const uint8_t *)"$LIB", 4, &tokens, 0, NULL, 0, &none) != XMAS_ELF_SEARCH_EMPTY_TOKEN || none != 7) return 999;
    uint32_t status = xmas_elf_expand(text, a->size ? 13 : 0, &tokens, a->index, out->of.text, 64, &out->count);
    return status != XMAS_ELF_OK || (out->count == 8 && memcmp(out->of.text, "/o/${LIB", 8) == 0) ? status : 998;
}
CALL(candidates)
{
    const xmas_elf_search_for_t search = search_for(a);
    uint32_t status = xmas_elf_candidates(&search, &asker, 1, a->index, out->of.candidates, 3, &out->count);
    return status != XMAS_ELF_OK || (out->count == 2 && out->of.candidates[0].how == 2 && out->of.candidates[0].subdirectory_size == 2) ? status : 999;
}
CALL(candidate_paths)
{
    const xmas_elf_search_for_t search = search_for(a);
    uint32_t status = xmas_elf_candidate_paths(&search, &asker, 1, a->index, out->of.text, 64, &out->count);
    return status != XMAS_ELF_OK || memcmp(out->of.text, "/o/l/s/", 7) == 0 ? status : 999;
}
CALL(cache_path)
{
    /* A cache of one entry: its key and its value are behind it. */
    uint8_t cache[48 + 24 + 16] = "glibc-ld.so.cache1.1";
    const xmas_elf_cache_machine_t machine = {.flags = 0x303, .other_flags = 0x303, .levels = 1};
    cache[20] = 1, cache[28] = 2, cache[48] = cache[49] = 3, cache[52] = 72, cache[56] = 81;
    memcpy(cache + 72, ".dynamic\0/l/x", 14);
    if (xmas_elf_cache_path(a->bytes, a->size, a->name, a->name_size, &machine, 0, out->of.text, 8, &out->count) != XMAS_ELF_SEARCH_NOT_A_CACHE) return 999;
    uint32_t status = xmas_elf_cache_path(cache, sizeof cache, a->name, a->name_size, &machine, a->index, out->of.text, 8, &out->count);
    return status != XMAS_ELF_OK || (out->count == 4 && memcmp(out->of.text, "/l/x", 4) == 0) ? status : 998;
}
static const uint32_t numbers_found[] = {1, 0xfffffffe, 0xffffffff};
CALL(next_entry) /* the second entry of the first object was not asked for */
{
    const xmas_elf_dependencies_t objects[2] = {{numbers_found, a->index ? 1 : 2, NULL, 0}, {NULL, 0, NULL, 0}};
    uint32_t status = xmas_elf_next_entry(objects, a->size ? 2 : 0, NULL, 0, NULL, 0, &out->of.entry);
    return status != XMAS_ELF_OK || (out->of.entry.object == 0 && out->of.entry.entry == 1) ? status : 999;
}
CALL(start_order)
{
    const xmas_elf_dependencies_t objects[2] = {{numbers_found, a->index ? 2 : 1, NULL, 0}, {numbers_found + 2, 1, NULL, 0}};
    uint32_t words[8], edges[3], list[2] = {7, 7}, starts[6] = {7};
    size_t count = a->size ? 2 : 0;
    if (xmas_elf_start_order(objects, 2, words, 7, edges, 3, list, 2, starts, 6, &out->count) == XMAS_ELF_OK) return 999;
    uint32_t status = xmas_elf_start_order(objects, count, words, 8, edges, 3, list, 2, starts, 6, &out->count);
    if (status == XMAS_ELF_OK) memcpy(out->of.starts, starts, sizeof starts[0]);
    return status != XMAS_ELF_OK || (out->count == 1 && starts[0] == 1 && list[0] == 0 && list[1] == 1) ? status : 998;
}
CALL(missing_versions) /* the program lacks what it needs of the C library */
{
    uint32_t status = xmas_elf_missing_versions(FILE_OF(a), (const uint8_t *)"libc.so.6", 9, FILE_OF(a), a->index, out->of.lacked, 2, &out->count);
    return status != XMAS_ELF_OK || out->of.lacked[0].lack == 3 ? status : 999;
}
CALL(message) /* OK where the status `index` has a text */
{
    size_t whole = xmas_elf_message((uint32_t)a->index, NULL, 0);
    if (strlen(xmas_elf_status_text((uint32_t)a->index).text) != whole) return 999;
    if (xmas_elf_message((uint32_t)a->index, out->of.text, sizeof out->of.text) != whole) return 999;
    return whole > 0 && whole <= sizeof out->of.text ? XMAS_ELF_OK : XMAS_ELF_NOT_FOUND;
}

enum table { NONE, SYMBOLS = 11, RELOCATIONS = 4, DYNAMIC = 6, NOTES = 7, PACKED = 19, HASH = 5, GNU_HASH = 0x6ffffff6 };
#define FAR (UINT64_C(1) << 40)
#define SHORT XMAS_ELF_SHORT_SECTION_HEADER

/* For each export the index that is good and one that is not, and the statuses of the bad call and of a call over no
 * bytes. The bad call has a damaged header and another table and name, too. */
static const struct row {
    const char *name;
    uint32_t (*call)(const struct asked *, struct outputs *);
    enum table table;
    uint64_t good, bad;
    uint32_t bad_status, empty;
} rows[] = {
    {"open", open_call, NONE, FAR, 15, XMAS_ELF_SHORT_PART_1, XMAS_ELF_SHORT_PART_1},
    {"check_header", check_header_call, NONE, 0, 0, XMAS_ELF_HEADER_SIZE, XMAS_ELF_PH_TABLE_RANGE},
    {"counts", counts_call, NONE, 0, 0, XMAS_ELF_OK, XMAS_ELF_OK},
    {"names_index", names_index_call, NONE, 0, 0, XMAS_ELF_RESERVED_INDEX, XMAS_ELF_OK},
    {"section", section_call, NONE, 1, FAR, SHORT, SHORT},
    {"check_section", check_section_call, NONE, 1, FAR, SHORT, SHORT},
    {"sections", sections_call, NONE, 1, FAR, XMAS_ELF_NO_RECORD, XMAS_ELF_NO_RECORD},
    {"find_section", find_section_call, NONE, 0, 0, XMAS_ELF_NOT_FOUND, XMAS_ELF_NOT_FOUND},
    {"find_section_index", find_section_index_call, NONE, 0, 0, XMAS_ELF_NOT_FOUND, XMAS_ELF_NOT_FOUND},
    {"section_data", section_data_call, NONE, 1, 0, XMAS_ELF_NULL_DATA, SHORT},
    {"section_names", section_names_call, NONE, 1, FAR, XMAS_ELF_NO_RECORD, XMAS_ELF_NO_RECORD},
    {"names", names_call, NONE, 0, 0, XMAS_ELF_RESERVED_INDEX, SHORT},
    {"text", text_call, NONE, 0, 61, XMAS_ELF_TEXT_START, XMAS_ELF_DATA_RANGE},
    {"segment", segment_call, NONE, 0, 60000, XMAS_ELF_NO_PROGRAM_HEADERS, XMAS_ELF_SHORT_PROGRAM_HEADER},
    {"check_segment", check_segment_call, NONE, 0, 60000, XMAS_ELF_NO_PROGRAM_HEADERS, XMAS_ELF_SHORT_PROGRAM_HEADER},
    {"segments", segments_call, NONE, 0, FAR, XMAS_ELF_NO_RECORD, XMAS_ELF_NO_RECORD},
    {"segment_data", segment_data_call, NONE, 0, 60000, XMAS_ELF_NO_PROGRAM_HEADERS, XMAS_ELF_SHORT_PROGRAM_HEADER},
    {"symbols", symbols_call, NONE, 1, FAR, XMAS_ELF_NO_RECORD, XMAS_ELF_DATA_RANGE},
    {"symbol_names", symbol_names_call, NONE, 1, FAR, XMAS_ELF_NO_RECORD, XMAS_ELF_DATA_RANGE},
    {"symbols_open", symbols_open_call, SYMBOLS, 0, FAR, SHORT, SHORT},
    {"relocations", relocations_call, RELOCATIONS, 0, FAR, XMAS_ELF_NO_RECORD, SHORT},
    {"packed_relocations", packed_relocations_call, PACKED, 0, FAR, XMAS_ELF_NO_RECORD, SHORT},
    {"dynamics", dynamics_call, DYNAMIC, 0, FAR, XMAS_ELF_NO_RECORD, SHORT},
    {"dynamic_entries", dynamic_entries_call, NONE, 0, FAR, XMAS_ELF_NO_RECORD, XMAS_ELF_LINK_NO_DYNAMIC},
    {"dynamic_relocations", dynamic_relocations_call, NONE, 0, FAR, XMAS_ELF_NO_RECORD, XMAS_ELF_LINK_NO_DYNAMIC},
    {"dynamic_packed_relocations", dynamic_packed_relocations_call, NONE, 0, FAR, XMAS_ELF_NO_RECORD, XMAS_ELF_LINK_NO_DYNAMIC},
    {"note", note_call, NOTES, 0, FAR, XMAS_ELF_DATA_RANGE, XMAS_ELF_DATA_RANGE},
    {"bytes_at", bytes_at_call, NONE, 0, FAR, XMAS_ELF_LINK_ADDRESS, XMAS_ELF_LINK_ADDRESS},
    {"dynamic_texts", dynamic_texts_call, NONE, 0, FAR, XMAS_ELF_NO_RECORD, XMAS_ELF_LINK_NO_DYNAMIC},
    {"dynamic_symbols_open", dynamic_symbols_open_call, NONE, 0, 0, XMAS_ELF_OK, XMAS_ELF_LINK_NO_DYNAMIC},
    {"file_symbols_open", file_symbols_open_call, NONE, 0, 0, XMAS_ELF_OK, XMAS_ELF_LINK_NO_DYNAMIC},
    {"dynamic_symbol_versions", dynamic_symbol_versions_call, NONE, 1, FAR, XMAS_ELF_NO_RECORD, XMAS_ELF_LINK_NO_DYNAMIC},
    {"version_definitions", version_definitions_call, NONE, 1, FAR, XMAS_ELF_NO_RECORD, XMAS_ELF_LINK_NO_DYNAMIC},
    {"version_needs", version_needs_call, NONE, 0, FAR, XMAS_ELF_NO_RECORD, XMAS_ELF_LINK_NO_DYNAMIC},
    {"find_symbol", find_symbol_call, HASH, 0, 0, XMAS_ELF_TEXT_UTF_8, XMAS_ELF_LINK_NO_DYNAMIC},
    {"look_ups", look_ups_call, HASH, 0, 0, XMAS_ELF_TEXT_UTF_8, XMAS_ELF_DATA_RANGE},
    {"hash_open", hash_open_call, HASH, 0, FAR, SHORT, SHORT},
    {"check_hash", check_hash_call, HASH, 0, 0, XMAS_ELF_OK, XMAS_ELF_DATA_RANGE},
    {"address_index", address_index_call, NONE, 0, FAR, XMAS_ELF_DATA_RANGE, XMAS_ELF_DATA_RANGE},
    {"symbols_at", symbols_at_call, NONE, 0, FAR, XMAS_ELF_DATA_RANGE, XMAS_ELF_DATA_RANGE},
    {"pieces", pieces_call, NONE, 1, FAR, XMAS_ELF_INDEX_FEW_WORDS, XMAS_ELF_OK},
    {"symbol_pieces", symbol_pieces_call, NONE, 0, FAR, XMAS_ELF_DATA_RANGE, XMAS_ELF_DATA_RANGE},
    {"size_changes", size_changes_call, NONE, 0, 1, XMAS_ELF_INDEX_FEW_WORDS, XMAS_ELF_OK},
    {"debug_path", debug_path_call, NONE, 0, FAR, XMAS_ELF_NO_RECORD, XMAS_ELF_NO_RECORD},
    {"check_debug", check_debug_call, NONE, 0, 1, XMAS_ELF_OTHER_CHECKSUM, XMAS_ELF_NO_BUILD_ID},
    {"debug_crc", debug_crc_call, NONE, 0, 0, XMAS_ELF_OK, XMAS_ELF_OK},
    {"load_plan", load_plan_call, NONE, 0, FAR, XMAS_ELF_LOAD_OVERLAP, XMAS_ELF_LOAD_TABLE},
    {"load_mappings", load_mappings_call, NONE, 1, FAR, XMAS_ELF_NO_RECORD, XMAS_ELF_LOAD_TABLE},
    {"load_image", load_image_call, NONE, 0, FAR, XMAS_ELF_LOAD_OVERLAP, XMAS_ELF_LOAD_TABLE},
    {"check_image", check_image_call, NONE, 0, FAR, XMAS_ELF_LINK_OBJECT_INDEX, XMAS_ELF_SHORT_PART_1},
    {"relocate", relocate_call, NONE, 0, FAR, XMAS_ELF_LINK_OBJECT_INDEX, XMAS_ELF_SHORT_PART_1},
    {"relocate_all", relocate_all_call, NONE, 0, FAR, XMAS_ELF_LOAD_OVERLAP, XMAS_ELF_SHORT_PART_1},
    {"needed_names", needed_names_call, NONE, 0, FAR, XMAS_ELF_NO_RECORD, XMAS_ELF_LINK_NO_DYNAMIC},
    {"last_entry", last_entry_call, NONE, 5, FAR, XMAS_ELF_NOT_FOUND, XMAS_ELF_LINK_NO_DYNAMIC},
    {"last_text", last_text_call, NONE, 1, FAR, XMAS_ELF_NOT_FOUND, XMAS_ELF_LINK_NO_DYNAMIC},
    {"fits", fits_call, NONE, 0, 1, XMAS_ELF_SEARCH_SHORT_FILE, XMAS_ELF_SEARCH_SHORT_FILE},
    {"check_library", check_library_call, NONE, 0, 0, XMAS_ELF_OK, XMAS_ELF_SEARCH_NO_LOAD},
    {"check_load", check_load_call, NONE, 0, 1, XMAS_ELF_OK, XMAS_ELF_LOAD_TABLE},
    {"expand", expand_call, NONE, 0, FAR, XMAS_ELF_NO_RECORD, XMAS_ELF_NO_RECORD},
    {"candidates", candidates_call, NONE, 0, FAR, XMAS_ELF_NO_RECORD, XMAS_ELF_OK},
    {"candidate_paths", candidate_paths_call, NONE, 0, FAR, XMAS_ELF_NO_RECORD, XMAS_ELF_OK},
    {"cache_path", cache_path_call, NONE, 0, 0, XMAS_ELF_NOT_FOUND, XMAS_ELF_NOT_FOUND},
    {"next_entry", next_entry_call, NONE, 0, 1, XMAS_ELF_NO_RECORD, XMAS_ELF_NO_RECORD},
    {"start_order", start_order_call, NONE, 0, 1, XMAS_ELF_SEARCH_NO_OBJECT, XMAS_ELF_SEARCH_NO_OBJECT},
    {"missing_versions", missing_versions_call, NONE, 0, FAR, XMAS_ELF_NO_RECORD, XMAS_ELF_LINK_NO_DYNAMIC},
    {"message", message_call, NONE, XMAS_ELF_NOT_FOUND, 0, XMAS_ELF_NOT_FOUND, XMAS_ELF_OK},
};

static int faults;

/* A call with outputs filled by a pattern: its status is the wanted one, and a call with an error leaves the pattern. */
static void expect(const struct row *row, const char *how, const struct asked *asked, uint32_t wanted, struct outputs *out)
{
    struct outputs before;
    memset(&before, 0xa5, sizeof before);
    *out = before;
    uint32_t status = row->call(asked, out);
    int changed = memcmp(&before, out, sizeof before) != 0;
    if (status != wanted) printf("%s, %s: status %u and not %u\n", row->name, how, status, wanted), faults++;
    if (status != XMAS_ELF_OK && changed) printf("%s, %s: an error, and it wrote\n", row->name, how), faults++;
}

static uint64_t section_of_type(const struct asked *asked, uint32_t type)
{
    xmas_elf_section_t section;
    uint64_t index = 0;
    while (xmas_elf_section(FILE_OF(asked), index, &section) == XMAS_ELF_OK && section.type != type) index++;
    return index;
}

static void visit(const struct row *row, struct asked good, const uint8_t *unaligned)
{
    struct outputs out, again;
    good.index = row->good;
    good.section = row->table ? section_of_type(&good, row->table) : 0;
    /* Section 1 and the symbols have these names. */
    good.name = (const uint8_t *)(row->table ? "every_finds_this" : ".dynamic");
    good.name_size = strlen((const char *)good.name);
    expect(row, "good", &good, XMAS_ELF_OK, &out);

    struct asked moved = good;
    moved.bytes = unaligned;
    expect(row, "unaligned", &moved, XMAS_ELF_OK, &again);
    if (memcmp(&out, &again, sizeof out) != 0) printf("%s: the result depends on the address\n", row->name), faults++;

    struct asked bad = good;
    bad.index = row->bad;
    bad.header.header_size = 0;
    bad.header.sh_str_index = 0xff00;
    bad.name = (const uint8_t *)"\xff";
    bad.name_size = 1;
    expect(row, "bad", &bad, row->bad_status, &out);

    struct asked empty = good;
    empty.bytes = empty.name = NULL;
    empty.size = empty.name_size = 0;
    expect(row, "empty", &empty, row->empty, &out);
}

static int is_listed(const struct any *any, uint32_t status)
{
    for (size_t i = 0; i < any->results_count; i++)
        if (any->results[i] == status) return 1;
    return 0;
}

/* Two calls with outputs that are filled by a pattern, the second over the bytes at another address: they return the same,
 * a status of the list, and a call with an error leaves the pattern. */
static void try_any(const struct any *any, const struct asked *asked, const uint8_t *elsewhere)
{
    union output before[5], out[5], again[5];
    struct asked moved = *asked;
    moved.bytes = elsewhere;
    memset(before, 0xa5, sizeof before);
    memset(out, 0xa5, sizeof out);
    memset(again, 0xa5, sizeof again);
    uint32_t status = any->call(asked, out);
    if (!is_listed(any, status)) printf("%s: status %u is not listed\n", any->name, status), faults++;
    if (status != XMAS_ELF_OK && memcmp(before, out, sizeof out) != 0) printf("%s: an error, and it wrote\n", any->name), faults++;
    if (any->call(&moved, again) != status || memcmp(out, again, sizeof out) != 0)
        printf("%s: the result depends on the address\n", any->name), faults++;
}

/* Each export over the sections and segments of the file, over no bytes, and with indices that are past all. */
static void visit_any(const struct any *any, const struct asked *file, const uint8_t *unaligned)
{
    static const uint64_t indices[] = {0, 1, 2, 7, FAR, UINT64_MAX};
    struct asked asked = *file;
    for (asked.section = 0; asked.section < 40; asked.section++)
        for (size_t i = 0; i < sizeof indices / sizeof *indices; i++) {
            struct asked empty = asked;
            asked.index = indices[i];
            asked.part = (xmas_elf_range_t){indices[i], 64};
            asked.numbers[0] = asked.index, asked.numbers[1] = asked.section;
            asked.name = (const uint8_t *)"every_finds_this";
            asked.name_size = indices[i] == 7 ? 0 : 16;
            try_any(any, &asked, unaligned);
            empty.index = indices[i];
            empty.bytes = empty.name = NULL;
            empty.size = empty.name_size = 0;
            try_any(any, &empty, NULL);
        }
}

/* A section of packed relocations has a name and data, and its type is known. */
static void visit_packed(const struct asked *file)
{
    uint64_t index = section_of_type(file, PACKED), count = 0;
    xmas_elf_section_t header;
    xmas_elf_range_t data = {0, 0};
    xmas_elf_name_t name = {{0, 0}, XMAS_ELF_NO_RECORD};
    uint32_t status = xmas_elf_section(FILE_OF(file), index, &header);
    if (status == XMAS_ELF_OK) status = xmas_elf_check_section(FILE_OF(file), index);
    if (status == XMAS_ELF_OK) status = xmas_elf_section_data(FILE_OF(file), index, &data);
    if (status == XMAS_ELF_OK) status = xmas_elf_section_names(FILE_OF(file), index, &name, 1, &count);
    if (status != XMAS_ELF_OK || name.status != XMAS_ELF_OK) printf("packed relocations: status %u, of the name %u\n", status, name.status), faults++;
    else if (data.offset != header.offset || data.size != header.size) printf("packed relocations: other data\n"), faults++;
    else if (name.range.size != 9 || memcmp(file->bytes + name.range.offset, ".relr.dyn", 9) != 0) printf("packed relocations: another name\n"), faults++;
}

/* Exported, so that both hash tables have it. */
#ifdef __GNUC__
__attribute__((visibility("default"), used))
#endif
int every_finds_this;

int main(int argc, char **argv)
{
    struct asked file = {0};
    FILE *stream = argc == 2 ? fopen(argv[1], "rb") : NULL;
    uint8_t *bytes = malloc(2 * LARGEST + 1);
    image = malloc(LARGEST), marks = malloc(LARGEST / 8 + 1);
    if (stream == NULL || bytes == NULL || image == NULL || marks == NULL) return 2;
    file.bytes = bytes;
    file.size = fread(bytes, 1, LARGEST, stream);
    fclose(stream);
    uint8_t *unaligned = bytes + file.size + 1 + file.size % 2;
    memcpy(unaligned, bytes, file.size);
    if (xmas_elf_open(file.bytes, file.size, &file.header) != XMAS_ELF_OK) return 2;
    if (xmas_elf_symbols_open(FILE_OF(&file), section_of_type(&file, SYMBOLS), &file.table) != XMAS_ELF_OK) return 2;
    if (xmas_elf_hash_open(FILE_OF(&file), section_of_type(&file, GNU_HASH), &file.hash) != XMAS_ELF_OK) return 2;
    if (xmas_elf_hash_open(FILE_OF(&file), section_of_type(&file, HASH), &file.sysv) != XMAS_ELF_OK) return 2;
    static uint32_t words[WORDS];
    static uint64_t numbers[WORDS];
    const xmas_elf_range_t none = {0, 0};
    xmas_elf_found_symbol_t found;
    if (xmas_elf_address_index(FILE_OF(&file), &file.table, &none, 0, words, WORDS, numbers, WORDS, &file.address_index) != XMAS_ELF_OK) return 2;
    file.words = words;
    file.words_count = (size_t)file.address_index.words;
    file.index_numbers = numbers;
    file.index_numbers_count = (size_t)file.address_index.numbers;
    if (xmas_elf_find_symbol(FILE_OF(&file), (const uint8_t *)"every_finds_this", 16, NULL, 0, &found) != XMAS_ELF_OK) return 2;
    file.numbers[0] = found.symbol.value;
    for (size_t i = 0; i < sizeof rows / sizeof *rows; i++) visit(&rows[i], file, unaligned);
    for (size_t i = 0; i < sizeof every / sizeof *every; i++) visit_any(&every[i], &file, unaligned);
    visit_packed(&file);
    free(bytes), free(image), free(marks);
    if (sizeof rows / sizeof *rows != sizeof every / sizeof *every) printf("an export has no row\n"), faults++;
    printf("%zu exports, %d faults\n", sizeof every / sizeof *every, faults);
    return faults != 0;
}
