/* dynamic FILE: the entries of the dynamic segment, and the relocations that they name, of a file with or without section
 * headers. A line is `entry TAG VALUE`, `relocation OFFSET INFO`, with the addend where it has one, or `address ADDRESS`. */
#include "xmas_elf.h"
#include <errno.h>
#include <stdio.h>
#include <stdlib.h>
#include <string.h>

enum { PT_DYNAMIC = 2 };
enum { DT_NULL = 0, DT_PLTRELSZ = 2, DT_RELA = 7, DT_RELASZ = 8, DT_REL = 17, DT_RELSZ = 18, DT_PLTREL = 20, DT_JMPREL = 23, DT_RELRSZ = 35, DT_RELR = 36 };

struct input {
    uint8_t *bytes;
    size_t size;
    xmas_elf_header_t header;
    xmas_elf_range_t entries; /* of the dynamic segment, those before the entry of tag 0 */
};

/* Reads a file into memory, and else says why that failed. */
static int is_read(const char *path, struct input *input)
{
    FILE *file = fopen(path, "rb");
    if (file != NULL && fseek(file, 0, SEEK_END) == 0) {
        long end = ftell(file);
        rewind(file);
        input->bytes = end < 0 ? NULL : malloc((size_t)end + 1);
        input->size = input->bytes == NULL ? 0 : fread(input->bytes, 1, (size_t)end, file);
    }
    if (input->bytes == NULL || ferror(file)) fprintf(stderr, "%s: %s\n", path, strerror(errno));
    int is_done = input->bytes != NULL && !ferror(file);
    if (file != NULL) fclose(file);
    return is_done;
}

/* The size of an address in bytes. */
static uint64_t width_of(const struct input *input) { return input->header.file_class == 2 ? 8 : 4; }

/* The number at an index of a range of numbers that are as wide as an address. */
static uint64_t number_at(const struct input *input, xmas_elf_range_t part, uint64_t index)
{
    uint64_t number = 0, width = width_of(input);
    const uint8_t *bytes = input->bytes + part.offset + index * width;
    for (uint64_t i = 0; i < width; i++) number = number << 8 | bytes[input->header.encoding == 2 ? i : width - 1 - i];
    return number;
}

/* Finds the entries of the first segment of type PT_DYNAMIC; a file without one has none. */
static uint32_t find_entries(struct input *input)
{
    xmas_elf_counts_t counts = {0, 0};
    xmas_elf_segment_t segment;
    uint64_t width = width_of(input), count = 0;
    uint32_t status = xmas_elf_counts(input->bytes, input->size, &input->header, &counts);
    for (uint32_t i = 0; i < counts.segments && status == XMAS_ELF_OK; i++) {
        status = xmas_elf_segment(input->bytes, input->size, &input->header, i, &segment);
        if (status != XMAS_ELF_OK || segment.type != PT_DYNAMIC) continue;
        status = xmas_elf_segment_data(input->bytes, input->size, &input->header, i, &input->entries);
        break;
    }
    if (input->entries.size % (2 * width) != 0) return XMAS_ELF_NOT_MULTIPLE;
    while (count < input->entries.size / (2 * width) && number_at(input, input->entries, 2 * count) != DT_NULL) count++;
    input->entries.size = count * 2 * width;
    return status;
}

/* The value of the first entry with a tag. */
static int has_value(const struct input *input, uint64_t tag, uint64_t *value)
{
    uint64_t count = input->entries.size / width_of(input);
    for (uint64_t i = 0; i < count; i += 2) {
        if (number_at(input, input->entries, i) != tag) continue;
        *value = number_at(input, input->entries, i + 1);
        return 1;
    }
    return 0;
}

/* The table whose address and size in bytes two entries have, of records of `count` numbers; an empty one where no entry has
 * its address. */
static uint32_t find_table(const struct input *input, uint64_t address_tag, uint64_t size_tag, uint64_t count, xmas_elf_range_t *table)
{
    uint64_t address, size;
    table->offset = table->size = 0;
    if (!has_value(input, address_tag, &address)) return XMAS_ELF_OK;
    if (!has_value(input, size_tag, &size)) return XMAS_ELF_LINK_NO_ENTRY;
    uint32_t status = xmas_elf_bytes_at(input->bytes, input->size, &input->header, address, size, table);
    return status == XMAS_ELF_OK && table->size % (count * width_of(input)) != 0 ? XMAS_ELF_NOT_MULTIPLE : status;
}

/* The relocations of a table with addends (`kind` is DT_RELA) or without (DT_REL). */
static uint32_t print_relocations(const struct input *input, uint64_t address_tag, uint64_t size_tag, uint64_t kind)
{
    xmas_elf_range_t table;
    uint64_t count = kind == DT_RELA ? 3 : 2;
    if (kind != DT_RELA && kind != DT_REL) return XMAS_ELF_LINK_RELOCATION_KIND;
    uint32_t status = find_table(input, address_tag, size_tag, count, &table);
    for (uint64_t i = 0; status == XMAS_ELF_OK && i < table.size / width_of(input); i += count) {
        printf("relocation");
        for (uint64_t k = i; k < i + count; k++) printf(" %llx", (unsigned long long)number_at(input, table, k));
        putchar('\n');
    }
    return status;
}

/* The addresses of packed relocations (gABI, "Relative Relocation Table"): an even word is an address, and each bit of an odd one
 * but the lowest means one of the words that follow in memory. */
static uint32_t print_packed(const struct input *input)
{
    xmas_elf_range_t table;
    uint64_t width = width_of(input), next = 0, mask = width == 8 ? UINT64_MAX : UINT32_MAX;
    uint32_t status = find_table(input, DT_RELR, DT_RELRSZ, 1, &table);
    for (uint64_t i = 0; status == XMAS_ELF_OK && i < table.size / width; i++) {
        uint64_t word = number_at(input, table, i);
        int is_address = word % 2 == 0;
        uint64_t place = is_address ? word : next;
        next = place + width * (is_address ? 1 : 8 * width - 1);
        for (uint64_t bits = is_address ? 1 : word >> 1; bits != 0; bits >>= 1, place += width)
            if (bits % 2 != 0) printf("address %llx\n", (unsigned long long)(place & mask));
    }
    return status;
}

static uint32_t print_all(struct input *input)
{
    uint64_t kind = 0, address;
    uint32_t status = xmas_elf_open(input->bytes, input->size, &input->header);
    if (status == XMAS_ELF_OK) status = find_entries(input);
    if (status != XMAS_ELF_OK) return status;
    for (uint64_t i = 0; i < input->entries.size / width_of(input); i += 2)
        printf("entry %llx %llx\n", (unsigned long long)number_at(input, input->entries, i), (unsigned long long)number_at(input, input->entries, i + 1));
    status = print_relocations(input, DT_RELA, DT_RELASZ, DT_RELA);
    if (status == XMAS_ELF_OK) status = print_relocations(input, DT_REL, DT_RELSZ, DT_REL);
    if (status == XMAS_ELF_OK && has_value(input, DT_JMPREL, &address)) {
        if (!has_value(input, DT_PLTREL, &kind)) return XMAS_ELF_LINK_NO_ENTRY;
        status = print_relocations(input, DT_JMPREL, DT_PLTRELSZ, kind);
    }
    return status == XMAS_ELF_OK ? print_packed(input) : status;
}

int main(int argc, char **argv)
{
    struct input input = {NULL, 0, {0}, {0, 0}};
    if (argc != 2) return fputs("usage: dynamic FILE\n", stderr), 2;
    if (!is_read(argv[1], &input)) return 1;
    uint32_t status = print_all(&input);
    if (status != XMAS_ELF_OK) fprintf(stderr, "%s: %s\n", argv[1], xmas_elf_status_text(status).text);
    free(input.bytes);
    return status != XMAS_ELF_OK;
}
