/* sizes FILE: for each piece of the file its size in bytes and what it belongs to; then for each symbol of .text the size of the
 * addresses that belong to it. */
#include "xmas_elf.h"
#include <errno.h>
#include <inttypes.h>
#include <stdio.h>
#include <stdlib.h>
#include <string.h>

enum { ET_REL = 1, SHT_SYMTAB = 2, SHT_DYNSYM = 11, SHT_SYMTAB_SHNDX = 18, OF_SYMBOL = 7 };

struct input {
    uint8_t *bytes;
    size_t size;
    xmas_elf_header_t header;
};

/* The words and the numbers that a call takes, and the pieces that it writes. */
struct memory {
    uint32_t *words;
    uint64_t *numbers;
    xmas_elf_piece_t *pieces;
    size_t words_count, numbers_count, pieces_count;
};

static void *room(uint64_t count, size_t size)
{
    void *memory = count < SIZE_MAX ? calloc((size_t)count + 1, size) : NULL;
    if (memory != NULL) return memory;
    fputs("sizes: no memory\n", stderr);
    exit(1);
}

/* Of n sections and segments, or of n symbols, a call takes 2 n words and 2 n numbers; there are at most 2 n + 7 pieces. */
static struct memory memory_for(uint64_t words, uint64_t numbers)
{
    struct memory memory = {room(words, sizeof(uint32_t)), room(numbers, sizeof(uint64_t)), room(words + 7, sizeof(xmas_elf_piece_t)),
                            (size_t)words, (size_t)numbers, (size_t)words + 7};
    return memory;
}

static void give_back(struct memory memory) { free(memory.words), free(memory.numbers), free(memory.pieces); }

static int is_read(const char *path, struct input *input)
{
    FILE *file = fopen(path, "rb");
    if (file != NULL && fseek(file, 0, SEEK_END) == 0) {
        long end = ftell(file);
        rewind(file);
        input->bytes = end < 0 ? NULL : malloc((size_t)end + 1);
        input->size = input->bytes == NULL ? 0 : fread(input->bytes, 1, (size_t)end, file);
    }
    int is_done = input->bytes != NULL && !ferror(file);
    if (!is_done) fprintf(stderr, "%s: %s\n", path, strerror(errno));
    if (file != NULL) fclose(file);
    return is_done;
}

static uint32_t print_pieces(const struct input *input)
{
    static const char *const owners[] = {"ELF header", "program headers", "section headers", "section", "segment", "between parts", "behind all parts"};
    xmas_elf_piece_sizes_t sizes;
    uint32_t status = xmas_elf_pieces(input->bytes, input->size, &input->header, 0, NULL, 0, NULL, 0, NULL, 0, &sizes);
    if (status != XMAS_ELF_OK) return status;
    struct memory memory = memory_for(sizes.words, sizes.numbers);
    status = xmas_elf_pieces(input->bytes, input->size, &input->header, 0, memory.words, memory.words_count, memory.numbers, memory.numbers_count,
                             memory.pieces, memory.pieces_count, &sizes);
    for (uint64_t i = 0; status == XMAS_ELF_OK && i < sizes.count; i++) {
        const xmas_elf_piece_t *piece = &memory.pieces[i];
        printf("%" PRIu64 " %s %" PRIu64 "\n", piece->end - piece->begin, owners[piece->owner], piece->index);
    }
    give_back(memory);
    return status;
}

/* The first section of a type that is linked to one, or to any where `link` is UINT64_MAX; XMAS_ELF_NOT_FOUND if there is none. */
static uint32_t find_section(const struct input *input, uint64_t count, uint32_t type, uint64_t link, uint64_t *index, xmas_elf_section_t *section)
{
    for (*index = 0; *index < count; ++*index) {
        uint32_t status = xmas_elf_section(input->bytes, input->size, &input->header, *index, section);
        if (status != XMAS_ELF_OK) return status;
        if (section->type == type && (link == UINT64_MAX || section->link == link)) return XMAS_ELF_OK;
    }
    return XMAS_ELF_NOT_FOUND;
}

/* The symbols that name addresses: those of .symtab, else of .dynsym, else of the dynamic segment; and the range of their section
 * indices that need more than 16 bits. XMAS_ELF_NOT_FOUND if the file has none. */
static uint32_t find_symbols(const struct input *input, const xmas_elf_counts_t *counts, xmas_elf_symbol_table_t *table, xmas_elf_range_t *indices)
{
    xmas_elf_section_t section;
    xmas_elf_segment_t segment;
    uint64_t index, wide;
    uint32_t status = find_section(input, counts->sections, SHT_SYMTAB, UINT64_MAX, &index, &section);
    if (status == XMAS_ELF_NOT_FOUND) status = find_section(input, counts->sections, SHT_DYNSYM, UINT64_MAX, &index, &section);
    if (status == XMAS_ELF_OK) {
        status = find_section(input, counts->sections, SHT_SYMTAB_SHNDX, index, &wide, &section);
        if (status == XMAS_ELF_OK) indices->offset = section.offset, indices->size = section.size;
        if (status != XMAS_ELF_OK && status != XMAS_ELF_NOT_FOUND) return status;
        return xmas_elf_symbols_open(input->bytes, input->size, &input->header, index, table);
    }
    if (status != XMAS_ELF_NOT_FOUND) return status;
    status = xmas_elf_dynamic_symbols_open(input->bytes, input->size, &input->header, table);
    if (status != XMAS_ELF_LINK_NO_DYNAMIC) return status;
    /* There may be a dynamic segment if the program headers can't be read. */
    if (counts->segments != 0) status = xmas_elf_segment(input->bytes, input->size, &input->header, counts->segments - 1, &segment);
    return status == XMAS_ELF_OK || counts->segments == 0 ? XMAS_ELF_NOT_FOUND : status;
}

/* Prints the sizes of the symbols of the pieces, in the order of their table. */
static uint32_t print_sizes(const struct input *input, const xmas_elf_symbol_table_t *table, const xmas_elf_piece_t *pieces, uint64_t count)
{
    uint64_t *sizes = room(table->count, sizeof *sizes), some;
    uint32_t status = XMAS_ELF_OK;
    for (uint64_t i = 0; i < count; i++)
        if (pieces[i].owner == OF_SYMBOL) sizes[pieces[i].index] += pieces[i].end - pieces[i].begin;
    for (uint64_t i = 0; status == XMAS_ELF_OK && i < table->count; i++) {
        xmas_elf_name_t name;
        if (sizes[i] == 0) continue;
        status = xmas_elf_symbol_names(input->bytes, input->size, table, i, &name, 1, &some);
        if (status != XMAS_ELF_OK) break;
        if (name.status != XMAS_ELF_OK) printf("%" PRIu64 " ?\n", sizes[i]);
        else printf("%" PRIu64 " %.*s\n", sizes[i], (int)name.range.size, (const char *)input->bytes + name.range.offset);
    }
    free(sizes);
    return status;
}

static uint32_t print_symbols(const struct input *input, const xmas_elf_counts_t *counts, uint32_t text, const xmas_elf_section_t *section)
{
    xmas_elf_symbol_table_t table;
    xmas_elf_range_t indices = {0, 0};
    xmas_elf_address_index_t index;
    uint64_t begin = input->header.type == ET_REL ? 0 : section->address, end = begin + section->size < begin ? UINT64_MAX : begin + section->size, count;
    uint32_t status = find_symbols(input, counts, &table, &indices);
    if (status == XMAS_ELF_NOT_FOUND) return XMAS_ELF_OK;
    /* A symbol without a name names no address. */
    if (status == XMAS_ELF_OK) status = table.strings_status;
    if (status == XMAS_ELF_OK)
        status = xmas_elf_address_index(input->bytes, input->size, &input->header, &table, &indices, text, NULL, 0, NULL, 0, &index);
    if (status != XMAS_ELF_OK) return status;
    struct memory memory = memory_for(index.words, index.numbers);
    status = xmas_elf_symbol_pieces(input->bytes, input->size, &index, begin, end, 0, memory.words, memory.words_count, memory.numbers, memory.numbers_count,
                                    memory.pieces, memory.pieces_count, &count);
    if (status == XMAS_ELF_OK) status = print_sizes(input, &table, memory.pieces, count);
    give_back(memory);
    return status;
}

static uint32_t print_all(struct input *input)
{
    xmas_elf_counts_t counts;
    xmas_elf_section_t section;
    xmas_elf_range_t names;
    uint64_t text;
    uint32_t status = xmas_elf_open(input->bytes, input->size, &input->header);
    if (status == XMAS_ELF_OK) status = print_pieces(input);
    if (status == XMAS_ELF_OK) status = xmas_elf_counts(input->bytes, input->size, &input->header, &counts);
    if (status != XMAS_ELF_OK) return status;
    /* Section 0 has the number of sections if the ELF header has 0, and may be missing. */
    if (counts.sections == 0 && input->header.sh_offset != 0) counts.sections = 1;
    if (counts.sections == 0) return XMAS_ELF_OK;
    if (xmas_elf_find_section_index(input->bytes, input->size, &input->header, (const uint8_t *)".text", 5, &text) != XMAS_ELF_OK) {
        /* A header or a name that can't be read may be that of .text. */
        status = xmas_elf_section(input->bytes, input->size, &input->header, counts.sections - 1, &section);
        return status == XMAS_ELF_OK ? xmas_elf_names(input->bytes, input->size, &input->header, &names) : status;
    }
    status = xmas_elf_section(input->bytes, input->size, &input->header, text, &section);
    return status == XMAS_ELF_OK ? print_symbols(input, &counts, (uint32_t)text, &section) : status;
}

int main(int argc, char **argv)
{
    struct input input = {0};
    if (argc != 2) return fputs("usage: sizes FILE\n", stderr), 2;
    if (!is_read(argv[1], &input)) return 1;
    uint32_t status = print_all(&input);
    if (status != XMAS_ELF_OK) fprintf(stderr, "%s: %s\n", argv[1], xmas_elf_status_text(status).text);
    free(input.bytes);
    return status != XMAS_ELF_OK;
}
