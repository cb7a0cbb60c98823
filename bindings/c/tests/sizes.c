/* sizes < FILE: for each symbol of .text the size of the addresses that belong to it, as the program in C++ prints them, by the code of
 * the page for C. tools/exports/bindings.sh builds it with the page's programs. */
#include "xmas_elf.h"
#include <stdio.h>
#include <stdlib.h>

#define LARGEST (1 << 24)

uint32_t add_sizes(const uint8_t *input, size_t size, const xmas_elf_header_t *header, const xmas_elf_symbol_table_t *table, uint64_t *sizes);

/* Prints the sizes of the symbols of a section, and their names. */
static uint32_t print_sizes(const uint8_t *input, size_t size, const xmas_elf_symbol_table_t *table, uint64_t section, const uint64_t *sizes)
{
    xmas_elf_symbol_t symbol;
    xmas_elf_name_t name;
    uint64_t index, count;
    uint32_t status;
    for (index = 0; !(status = xmas_elf_symbols(input, size, table, index, &symbol, 1, &count)); index++) {
        if (symbol.shndx != section || sizes[index] == 0) continue;
        status = xmas_elf_symbol_names(input, size, table, index, &name, 1, &count);
        if (status != XMAS_ELF_OK || name.status != XMAS_ELF_OK) return status != XMAS_ELF_OK ? status : name.status;
        printf("%llu %.*s\n", (unsigned long long)sizes[index], (int)name.range.size, (const char *)input + name.range.offset);
    }
    return status == XMAS_ELF_NO_RECORD ? XMAS_ELF_OK : status;
}

int main(void)
{
    uint8_t *input = malloc(LARGEST);
    size_t size = input == NULL ? 0 : fread(input, 1, LARGEST, stdin);
    xmas_elf_header_t header;
    xmas_elf_symbol_table_t table = {.count = 0};
    uint64_t section, *sizes = NULL;
    uint32_t status = xmas_elf_open(input, size, &header);
    if (status == XMAS_ELF_OK) status = xmas_elf_find_section_index(input, size, &header, (const uint8_t *)".text", 5, &section);
    if (status == XMAS_ELF_OK) status = xmas_elf_file_symbols_open(input, size, &header, &table);
    if (status == XMAS_ELF_OK && (sizes = calloc(table.count + 1, sizeof *sizes)) == NULL) return perror("sizes"), 1;
    if (status == XMAS_ELF_OK) status = add_sizes(input, size, &header, &table, sizes);
    if (status == XMAS_ELF_OK) status = print_sizes(input, size, &table, section, sizes);
    if (status != XMAS_ELF_OK) fprintf(stderr, "sizes: %s\n", xmas_elf_status_text(status).text);
    free(sizes), free(input);
    return status != XMAS_ELF_OK;
}
