/* speed FILE: nanoseconds for an item of each pass through the exports, the least of many rounds.
 * speed --once FILE: makes each pass once, for bench/instructions.py, and says how many items it saw. */
#define _POSIX_C_SOURCE 199309L
#include "xmas_elf.h"
#include <stdbool.h>
#include <stdio.h>
#include <stdlib.h>
#include <string.h>
#include <time.h>

struct input {
    const uint8_t *bytes;
    size_t size;
    xmas_elf_header_t header;
    uint64_t sections, symbols_at, names;
    xmas_elf_range_t *name;
    xmas_elf_range_t last;
    xmas_elf_symbol_table_t table;
    xmas_elf_hash_table_t hash;
    xmas_elf_address_index_t by_address;
    uint32_t *words;
    uint64_t *numbers;
};

/* Each pass adds numbers up, and says how many items it saw. */
typedef uint64_t pass(const struct input *input, uint64_t *sum);

static uint64_t open_pass(const struct input *input, uint64_t *sum)
{
    xmas_elf_header_t header;
    if (xmas_elf_open(input->bytes, input->size, &header) == XMAS_ELF_OK) *sum += header.sh_offset;
    return 1;
}

static uint64_t sections_pass(const struct input *input, uint64_t *sum)
{
    xmas_elf_section_t section;
    for (uint64_t i = 0; i < input->sections; i++)
        if (xmas_elf_section(input->bytes, input->size, &input->header, i, &section) == XMAS_ELF_OK) *sum += section.size;
    return input->sections;
}

/* The headers and the names by one call for 64. */
static uint64_t sections_many_pass(const struct input *input, uint64_t *sum)
{
    xmas_elf_section_t sections[64];
    uint64_t first = 0, count;
    while (xmas_elf_sections(input->bytes, input->size, &input->header, first, sections, 64, &count) == XMAS_ELF_OK) {
        for (uint64_t i = 0; i < count; i++) *sum += sections[i].size;
        first += count;
    }
    return first;
}

static uint64_t names_many_pass(const struct input *input, uint64_t *sum)
{
    xmas_elf_name_t names[64];
    uint64_t first = 0, count;
    while (xmas_elf_section_names(input->bytes, input->size, &input->header, first, names, 64, &count) == XMAS_ELF_OK) {
        for (uint64_t i = 0; i < count; i++) *sum += names[i].range.size;
        first += count;
    }
    return first;
}

/* Where the bytes of each section are. */
static uint64_t data_pass(const struct input *input, uint64_t *sum)
{
    xmas_elf_range_t data;
    for (uint64_t i = 0; i < input->sections; i++)
        if (xmas_elf_section_data(input->bytes, input->size, &input->header, i, &data) == XMAS_ELF_OK) *sum += data.size;
    return input->sections;
}

static uint64_t segments_many_pass(const struct input *input, uint64_t *sum)
{
    xmas_elf_segment_t segments[64];
    uint64_t first = 0, count;
    while (xmas_elf_segments(input->bytes, input->size, &input->header, first, segments, 64, &count) == XMAS_ELF_OK) {
        for (uint64_t i = 0; i < count; i++) *sum += segments[i].file_size;
        first += count;
    }
    return first;
}

static uint64_t symbols_pass(const struct input *input, uint64_t *sum)
{
    xmas_elf_symbol_t symbol;
    uint64_t i = 0;
    uint64_t count;
    while (xmas_elf_symbols(input->bytes, input->size, &input->table, i, &symbol, 1, &count) == XMAS_ELF_OK) {
        *sum += symbol.value;
        i++;
    }
    return i;
}

static uint64_t symbols_many_pass(const struct input *input, uint64_t *sum)
{
    xmas_elf_symbol_t symbols[64];
    uint64_t first = 0, count;
    while (xmas_elf_symbols(input->bytes, input->size, &input->table, first, symbols, 64, &count) == XMAS_ELF_OK) {
        for (uint64_t i = 0; i < count; i++) *sum += symbols[i].value;
        first += count;
    }
    return first;
}

static uint64_t symbol_names_pass(const struct input *input, uint64_t *sum)
{
    xmas_elf_name_t names[64];
    uint64_t first = 0, count;
    while (xmas_elf_symbol_names(input->bytes, input->size, &input->table, first, names, 64, &count) == XMAS_ELF_OK) {
        for (uint64_t i = 0; i < count; i++) *sum += names[i].range.size;
        first += count;
    }
    return first;
}

/* The last section that has a name, by it. */
static uint64_t find_pass(const struct input *input, uint64_t *sum)
{
    xmas_elf_section_t section;
    if (xmas_elf_find_section(input->bytes, input->size, &input->header, input->bytes + input->last.offset,
                              (size_t)input->last.size, &section) == XMAS_ELF_OK)
        *sum += section.size;
    return 1;
}

/* Each name of the symbols for the dynamic linker, by GNU's hash table. */
static uint64_t look_ups_pass(const struct input *input, uint64_t *sum)
{
    xmas_elf_answer_t said;
    for (uint64_t i = 0; i < input->names; i++) {
        xmas_elf_look_ups(input->bytes, input->size, &input->hash, input->bytes, input->size, input->name + i, 1, &said, 1);
        *sum += said.index;
    }
    return input->names;
}

/* The same by one call for 64 names. */
static uint64_t look_ups_many_pass(const struct input *input, uint64_t *sum)
{
    xmas_elf_answer_t said[64];
    for (uint64_t i = 0; i < input->names; i += 64) {
        size_t count = input->names - i < 64 ? (size_t)(input->names - i) : 64;
        xmas_elf_look_ups(input->bytes, input->size, &input->hash, input->bytes, input->size, input->name + i, count, said, count);
        for (size_t k = 0; k < count; k++) *sum += said[k].index;
    }
    return input->names;
}

static uint64_t check_pass(const struct input *input, uint64_t *sum)
{
    *sum += xmas_elf_check_hash(input->bytes, input->size, &input->hash);
    return input->names;
}

/* An address in each symbol that the index has, in another order, 64 by one call. */
static uint64_t addresses_pass(const struct input *input, uint64_t *sum)
{
    const xmas_elf_address_index_t *index = &input->by_address;
    uint64_t asked = index->sized_count, addresses[64];
    xmas_elf_symbol_at_t found[64];
    for (uint64_t i = 0; i < asked; i += 64) {
        size_t count = asked - i < 64 ? (size_t)(asked - i) : 64;
        for (size_t k = 0; k < count; k++) addresses[k] = input->numbers[(i + k) * 37 % asked];
        if (xmas_elf_symbols_at(input->bytes, input->size, index, input->words, index->words, input->numbers, index->numbers, addresses, count, found, count) != XMAS_ELF_OK) continue;
        for (size_t k = 0; k < count; k++) *sum += found[k].index;
    }
    return asked;
}

static uint32_t index_addresses(struct input *input, size_t words, size_t numbers)
{
    xmas_elf_range_t none = {0};
    return xmas_elf_address_index(input->bytes, input->size, &input->header, &input->table, &none, 0, input->words, words, input->numbers, numbers, &input->by_address);
}

/* The index of the symbols by their addresses; it is empty if there is none. */
static void find_addresses(struct input *input)
{
    if (index_addresses(input, 0, 0) != XMAS_ELF_OK) return;
    size_t words = (size_t)input->by_address.words, numbers = (size_t)input->by_address.numbers;
    input->words = calloc(words + 1, sizeof *input->words);
    input->numbers = calloc(numbers + 1, sizeof *input->numbers);
    if (!input->words || !input->numbers || index_addresses(input, words, numbers) != XMAS_ELF_OK) input->by_address.sized_count = 0;
}

/* Where the names of the symbols are that GNU's hash table has. */
static void find_names(struct input *input, uint64_t table)
{
    xmas_elf_name_t name;
    uint64_t count;
    if (xmas_elf_hash_open(input->bytes, input->size, &input->header, table, &input->hash) != XMAS_ELF_OK) return;
    input->name = calloc((size_t)input->hash.symbols.count, sizeof *input->name);
    for (uint64_t i = 1; input->name && xmas_elf_symbol_names(input->bytes, input->size, &input->hash.symbols, i, &name, 1, &count) == XMAS_ELF_OK; i++)
        if (name.status == XMAS_ELF_OK) input->name[input->names++] = name.range;
}

static double now(void)
{
    struct timespec time;
    clock_gettime(CLOCK_MONOTONIC, &time);
    return (double)time.tv_sec * 1e9 + (double)time.tv_nsec;
}

static bool once;

static void measure(const char *name, pass *run, const struct input *input)
{
    uint64_t sum = 0, seen = run(input, &sum), rounds = 1000 / (seen + 1) + 1;
    if (once) {
        printf("%s\t%llu\n", name, (unsigned long long)seen);
        return;
    }
    double least = 1e300, until = now() + 5e8;
    while (now() < until) {
        uint64_t items = 0;
        double start = now();
        for (uint64_t round = 0; round < rounds; round++) items += run(input, &sum);
        double each = (now() - start) / (double)(items ? items : 1);
        if (each < least) least = each;
    }
    printf("%-40s %8.2f ns   (%llx)\n", name, least, (unsigned long long)sum);
}

int main(int argc, char **argv)
{
    struct input input = {0};
    xmas_elf_counts_t counts;
    once = argc == 3 && strcmp(argv[1], "--once") == 0;
    FILE *file = argc == 2 || once ? fopen(argv[argc - 1], "rb") : NULL;
    if (file == NULL || fseek(file, 0, SEEK_END) != 0) return 2;
    size_t size = (size_t)ftell(file);
    uint8_t *bytes = malloc(size + 1);
    rewind(file);
    if (bytes == NULL || fread(bytes, 1, size, file) != size) return 2;
    fclose(file);
    input.bytes = bytes;
    input.size = size;
    if (xmas_elf_open(bytes, size, &input.header) != XMAS_ELF_OK) return 1;
    if (xmas_elf_counts(bytes, size, &input.header, &counts) != XMAS_ELF_OK) return 1;
    input.sections = counts.sections;
    xmas_elf_section_t section;
    xmas_elf_name_t name;
    uint64_t count;
    for (uint64_t i = 0; i < input.sections; i++) {
        if (xmas_elf_section(bytes, size, &input.header, i, &section) != XMAS_ELF_OK) continue;
        if (xmas_elf_section_names(bytes, size, &input.header, i, &name, 1, &count) == XMAS_ELF_OK && name.status == XMAS_ELF_OK) input.last = name.range;
        if (section.type == 2 || (section.type == 11 && !input.symbols_at)) input.symbols_at = i;
        if (section.type == 0x6ffffff6) find_names(&input, i);
    }
    if (xmas_elf_symbols_open(bytes, size, &input.header, input.symbols_at, &input.table) != XMAS_ELF_OK) input.table.symbols.size = 0;
    find_addresses(&input);
    measure("header", open_pass, &input);
    measure("section headers one by one", sections_pass, &input);
    measure("section headers, 64 at a time", sections_many_pass, &input);
    measure("names of sections, 64 at a time", names_many_pass, &input);
    measure("the last section by its name", find_pass, &input);
    measure("data of sections one by one", data_pass, &input);
    measure("program headers, 64 at a time", segments_many_pass, &input);
    measure("symbols one by one", symbols_pass, &input);
    measure("symbols, 64 at a time", symbols_many_pass, &input);
    measure("names of symbols, 64 at a time", symbol_names_pass, &input);
    measure("symbols of addresses, 64 by one call", addresses_pass, &input);
    if (input.names) {
        measure("look-ups by GNU's hash table", look_ups_pass, &input);
        measure("the same, 64 names by one call", look_ups_many_pass, &input);
        measure("the check of that table, for a symbol", check_pass, &input);
    }
    free(input.name);
    free(input.words);
    free(input.numbers);
    free(bytes);
    return 0;
}
