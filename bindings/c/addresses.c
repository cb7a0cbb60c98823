/* addresses FILE ADDRESS..: for each address in base 16 the symbol that covers it and the offset in it, or `?`. */
#include "xmas_elf.h"
#include <errno.h>
#include <inttypes.h>
#include <stdio.h>
#include <stdlib.h>
#include <string.h>

enum { MOST = 256 };

static int failed(const char *path, uint32_t status)
{
    fprintf(stderr, "%s: %s\n", path, xmas_elf_status_text(status).text);
    return 1;
}

/* The whole file, or NULL. */
static uint8_t *read_all(FILE *stream, size_t *size)
{
    uint8_t *bytes = NULL;
    for (size_t room = 1 << 20;; room *= 2) {
        uint8_t *more = realloc(bytes, room);
        if (more == NULL) return free(bytes), NULL;
        bytes = more;
        *size += fread(bytes + *size, 1, room - *size, stream);
        if (*size < room) return bytes;
    }
}

/* The range of the first section of type SHT_SYMTAB_SHNDX (18) that is linked to one; unchanged if there is none. */
static uint32_t find_indices(const uint8_t *bytes, size_t size, const xmas_elf_header_t *header, uint64_t count, uint64_t index, xmas_elf_range_t *indices)
{
    xmas_elf_section_t section;
    for (uint64_t i = 0; i < count; i++) {
        uint32_t status = xmas_elf_section(bytes, size, header, i, &section);
        if (status != XMAS_ELF_OK) return status;
        if (section.type != 18 || section.link != index) continue;
        indices->offset = section.offset, indices->size = section.size;
        break;
    }
    return XMAS_ELF_OK;
}

/* The symbols of the section of type SHT_SYMTAB (2), or else of SHT_DYNSYM (11), or else of the dynamic segment. `indices` is
 * the range of their section indices that need more than 16 bits, empty where there are none. */
static uint32_t find_symbols(const uint8_t *bytes, size_t size, const xmas_elf_header_t *header, xmas_elf_symbol_table_t *table,
                             xmas_elf_range_t *indices)
{
    static const uint32_t types[] = {2, 11};
    xmas_elf_counts_t counts;
    xmas_elf_section_t section;
    uint32_t status = xmas_elf_counts(bytes, size, header, &counts);
    /* Section 0 has the number of sections if the ELF header has 0, and may be missing. */
    if (counts.sections == 0 && header->sh_offset != 0) counts.sections = 1;
    for (size_t i = 0; status == XMAS_ELF_OK && i < 2; i++)
        for (uint64_t index = 0; status == XMAS_ELF_OK && index < counts.sections; index++) {
            status = xmas_elf_section(bytes, size, header, index, &section);
            if (status != XMAS_ELF_OK || section.type != types[i]) continue;
            status = find_indices(bytes, size, header, counts.sections, index, indices);
            return status == XMAS_ELF_OK ? xmas_elf_symbols_open(bytes, size, header, index, table) : status;
        }
    return status == XMAS_ELF_OK ? xmas_elf_dynamic_symbols_open(bytes, size, header, table) : status;
}

static void print_symbol(const uint8_t *bytes, size_t size, const xmas_elf_symbol_table_t *table, const xmas_elf_symbol_at_t *at)
{
    xmas_elf_range_t name;
    if (!at->found || xmas_elf_text(bytes, size, &table->strings, at->symbol.name, &name) != XMAS_ELF_OK) puts("?");
    else printf("%.*s+0x%" PRIx64 "\n", (int)name.size, (const char *)bytes + name.offset, at->offset);
}

int main(int argc, char **argv)
{
    static uint64_t addresses[MOST];
    static xmas_elf_symbol_at_t found[MOST];
    xmas_elf_header_t header;
    xmas_elf_symbol_table_t table;
    xmas_elf_range_t indices = {0, 0};
    xmas_elf_address_index_t index;
    size_t size = 0, count = argc < 2 ? 0 : (size_t)argc - 2;
    FILE *stream = argc < 2 ? NULL : fopen(argv[1], "rb");
    uint8_t *bytes = stream ? read_all(stream, &size) : NULL;
    uint32_t status, *words;
    uint64_t *numbers;
    size_t words_count, numbers_count;
    if (bytes == NULL || count > MOST) return fprintf(stderr, "%s: %s\n", argc < 2 ? "usage" : argv[1], argc < 2 ? "addresses FILE ADDRESS.." : strerror(errno)), 1;
    for (size_t i = 0; i < count; i++) addresses[i] = strtoull(argv[i + 2], NULL, 16);
    if ((status = xmas_elf_open(bytes, size, &header))) return failed(argv[1], status);
    if ((status = find_symbols(bytes, size, &header, &table, &indices))) return failed(argv[1], status);
    /* A symbol without a name names no address. */
    if (table.strings_status) return failed(argv[1], table.strings_status);
    /* How many words and numbers the index takes, and then the index. */
    if ((status = xmas_elf_address_index(bytes, size, &header, &table, &indices, 0, NULL, 0, NULL, 0, &index))) return failed(argv[1], status);
    words_count = (size_t)index.words, numbers_count = (size_t)index.numbers;
    words = malloc(words_count * sizeof *words + 1), numbers = malloc(numbers_count * sizeof *numbers + 1);
    if (words == NULL || numbers == NULL) return fprintf(stderr, "%s: no memory\n", argv[1]), 1;
    if ((status = xmas_elf_address_index(bytes, size, &header, &table, &indices, 0, words, words_count, numbers, numbers_count, &index))) return failed(argv[1], status);
    if ((status = xmas_elf_symbols_at(bytes, size, &index, words, words_count, numbers, numbers_count, addresses, count, found, count))) return failed(argv[1], status);
    for (size_t i = 0; i < count; i++) print_symbol(bytes, size, &table, &found[i]);
    free(words), free(numbers);
    free(bytes);
    return 0;
}
