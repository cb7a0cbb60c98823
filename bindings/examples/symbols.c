/* symbols FILE: the value and the name of each symbol of a file. */
#include <errno.h>
#include <inttypes.h>
#include <stdio.h>
#include <stdlib.h>
#include <string.h>
#include <xmas_elf.h>

/* The bytes of a stream up to its end; null if there is too little memory, or the stream can't be read. */
static uint8_t *read_all(FILE *stream, size_t *size)
{
    uint8_t *bytes = NULL;
    size_t room = 0;
    do {
        room = 2 * room + 65536;
        uint8_t *more = realloc(bytes, room);
        if (more == NULL) return free(bytes), NULL;
        bytes = more;
        *size += fread(bytes + *size, 1, room - *size, stream);
    } while (*size == room);
    return ferror(stream) ? free(bytes), NULL : bytes;
}

/* Prints the symbols of a section, none if it has other data: the status of what can't be read. */
static uint32_t print_symbols(const uint8_t *input, size_t size, const xmas_elf_header_t *header, uint64_t section)
{
    xmas_elf_symbol_table_t table;
    xmas_elf_symbol_t symbols[64];
    xmas_elf_name_t names[64];
    uint64_t count;
    uint32_t status = xmas_elf_symbols_open(input, size, header, section, &table);
    if (xmas_elf_is_other_data(status)) return XMAS_ELF_OK;
    if (status != XMAS_ELF_OK) return status;
    for (uint64_t first = 0; !(status = xmas_elf_symbols(input, size, &table, first, symbols, 64, &count)); first += count) {
        if ((status = xmas_elf_symbol_names(input, size, &table, first, names, 64, &count))) return status;
        for (uint64_t i = 0; i < count; i++) {
            if (names[i].status != XMAS_ELF_OK) return names[i].status;
            if (names[i].range.size)
                printf("%016" PRIx64 " %.*s\n", symbols[i].value, (int)names[i].range.size, (char *)input + names[i].range.offset);
        }
    }
    return status == XMAS_ELF_NO_RECORD ? XMAS_ELF_OK : status;
}

int main(int argc, char **argv)
{
    FILE *stream = argc == 2 ? fopen(argv[1], "rb") : NULL;
    size_t size = 0;
    uint8_t *input = stream ? read_all(stream, &size) : NULL;
    xmas_elf_header_t header;
    xmas_elf_counts_t counts;
    if (input == NULL) {
        fprintf(stderr, "symbols: %s\n", argc == 2 ? strerror(errno) : "a path is wanted");
        return 1;
    }
    uint32_t status = xmas_elf_open(input, size, &header);
    if (status == XMAS_ELF_OK) status = xmas_elf_check_header(input, size, &header);
    if (status == XMAS_ELF_OK) status = xmas_elf_counts(input, size, &header, &counts);
    /* Section 0 has the number of sections if the ELF header has 0, and may be missing. */
    if (status == XMAS_ELF_OK && counts.sections == 0 && header.sh_offset != 0) counts.sections = 1;
    for (uint64_t section = 0; status == XMAS_ELF_OK && section < counts.sections; section++)
        status = print_symbols(input, size, &header, section);
    if (status != XMAS_ELF_OK) fprintf(stderr, "symbols: %s: %s\n", argv[1], xmas_elf_status_text(status).text);
    return status != XMAS_ELF_OK;
}
