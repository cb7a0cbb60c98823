/* nm FILE: the symbols of a file, as their value, the section index and the name. */
#include "xmas_elf.h"
#include <errno.h>
#include <stdio.h>
#include <stdlib.h>
#include <string.h>

static uint8_t *read_file(const char *path, size_t *size)
{
    FILE *file = fopen(path, "rb");
    if (file == NULL) return NULL;
    uint8_t *bytes = NULL;
    if (fseek(file, 0, SEEK_END) == 0) {
        long end = ftell(file);
        rewind(file);
        bytes = end < 0 ? NULL : malloc((size_t)end + 1);
        *size = bytes == NULL ? 0 : fread(bytes, 1, (size_t)end, file);
    }
    fclose(file);
    return bytes;
}

/* Prints the symbols of a section, none if it has other data: the status of what can't be read. */
static uint32_t print_symbols(const uint8_t *input, size_t size, const xmas_elf_header_t *header, uint64_t index)
{
    xmas_elf_symbol_table_t table;
    xmas_elf_symbol_t symbols[64];
    xmas_elf_name_t names[64];
    uint64_t first = 1, count;
    uint32_t status = xmas_elf_symbols_open(input, size, header, index, &table);
    if (xmas_elf_is_other_data(status)) return XMAS_ELF_OK;
    while (status == XMAS_ELF_OK && (status = xmas_elf_symbols(input, size, &table, first, symbols, 64, &count)) == XMAS_ELF_OK) {
        status = xmas_elf_symbol_names(input, size, &table, first, names, 64, &count);
        for (uint64_t i = 0; status == XMAS_ELF_OK && i < count; i++) {
            status = names[i].status;
            if (status == XMAS_ELF_OK)
                printf("%016llx %5u %.*s\n", (unsigned long long)symbols[i].value, symbols[i].shndx, (int)names[i].range.size,
                       (const char *)input + names[i].range.offset);
        }
        first += count;
    }
    return status == XMAS_ELF_NO_RECORD ? XMAS_ELF_OK : status;
}

int main(int argc, char **argv)
{
    size_t size = 0;
    xmas_elf_header_t header;
    xmas_elf_counts_t counts;
    if (argc != 2) {
        fprintf(stderr, "usage: nm FILE\n");
        return 2;
    }
    uint8_t *input = read_file(argv[1], &size);
    if (input == NULL) {
        fprintf(stderr, "%s: %s\n", argv[1], strerror(errno));
        return 1;
    }
    uint32_t status = xmas_elf_open(input, size, &header);
    if (status == XMAS_ELF_OK) status = xmas_elf_counts(input, size, &header, &counts);
    /* Section 0 has the number of sections if the ELF header has 0, and may be missing. */
    if (status == XMAS_ELF_OK && counts.sections == 0 && header.sh_offset != 0) counts.sections = 1;
    for (uint64_t index = 0; status == XMAS_ELF_OK && index < counts.sections; index++) status = print_symbols(input, size, &header, index);
    if (status != XMAS_ELF_OK) fprintf(stderr, "%s: %s\n", argv[1], xmas_elf_status_text(status).text);
    free(input);
    return status != XMAS_ELF_OK;
}
