/* find FILE NAME..: the build id of a file, and for each name, or name and version as `exp@GLIBC_2.2.5`, the symbol that the
 * dynamic linker gets: its index, its value and the first bytes there. */
#include "xmas_elf.h"
#include <errno.h>
#include <stdio.h>
#include <stdlib.h>
#include <string.h>

enum { NT_GNU_BUILD_ID = 3, PT_NOTE = 4, SHT_NOTE = 7 };

struct input {
    uint8_t *bytes;
    size_t size;
    xmas_elf_header_t header;
};

/* Reads a file into memory, and else says why that failed. */
static int is_read(const char *path, struct input *input)
{
    FILE *file = fopen(path, "rb");
    if (file != NULL && fseek(file, 0, SEEK_END) == 0) {
        long end = ftell(file);
        rewind(file);
        input->bytes = end < 0 ? NULL : malloc((size_t)end + 1);
        input->size = input->bytes == NULL ? 0 : fread(input->bytes, 1, (size_t)end, file);
    }
    if (input->bytes == NULL || ferror(file)) fprintf(stderr, "%s: %s\n", path, strerror(errno));
    int is_done = input->bytes != NULL && !ferror(file);
    if (file != NULL) fclose(file);
    return is_done;
}

/* Bytes in hexadecimal. */
static void print_range(const struct input *input, xmas_elf_range_t range)
{
    for (uint64_t i = 0; i < range.size; i++) printf("%02x", input->bytes[range.offset + i]);
    putchar('\n');
}

/* The status of the first of these notes that has a build id; XMAS_ELF_NO_RECORD where none has. */
static uint32_t id_of_notes(const struct input *input, xmas_elf_range_t notes, uint64_t align, xmas_elf_range_t *id)
{
    xmas_elf_note_t note;
    uint32_t status;
    while ((status = xmas_elf_note(input->bytes, input->size, &input->header, &notes, align, &note)) == XMAS_ELF_OK) {
        *id = note.desc;
        if (note.type == NT_GNU_BUILD_ID && note.name.size == 4 && memcmp(input->bytes + note.name.offset, "GNU", 4) == 0) break;
        notes = note.rest;
    }
    return status;
}

/* The build id of the notes in sections, or else of those in segments. */
static uint32_t find_build_id(const struct input *input, xmas_elf_range_t *id)
{
    xmas_elf_counts_t counts = {0, 0};
    xmas_elf_section_t section;
    xmas_elf_segment_t segment;
    xmas_elf_range_t data;
    uint32_t failed = XMAS_ELF_NOT_FOUND, status = xmas_elf_counts(input->bytes, input->size, &input->header, &counts);
    /* Section 0 has the number of sections if the ELF header has 0, and may be missing. */
    if (counts.sections == 0 && input->header.sh_offset != 0) counts.sections = 1;
    for (uint64_t i = 0; i < counts.sections + counts.segments && status == XMAS_ELF_OK; i++) {
        int is_section = i < counts.sections;
        uint32_t index = (uint32_t)(i - counts.sections), found;
        if (is_section) status = xmas_elf_section(input->bytes, input->size, &input->header, i, &section);
        else status = xmas_elf_segment(input->bytes, input->size, &input->header, index, &segment);
        if (status != XMAS_ELF_OK || (is_section ? section.type != SHT_NOTE : segment.type != PT_NOTE)) continue;
        if (is_section) found = xmas_elf_section_data(input->bytes, input->size, &input->header, i, &data);
        else found = xmas_elf_segment_data(input->bytes, input->size, &input->header, index, &data);
        if (found == XMAS_ELF_OK) found = id_of_notes(input, data, is_section ? section.align : segment.align, id);
        if (found == XMAS_ELF_OK) return found;
        if (found != XMAS_ELF_NO_RECORD) failed = found;
    }
    return status == XMAS_ELF_OK ? failed : status;
}

static uint32_t find(const struct input *input, const char *name)
{
    xmas_elf_found_symbol_t found;
    xmas_elf_range_t code;
    const char *at = strchr(name, '@'), *version = at == NULL ? "" : at + 1;
    size_t size = at == NULL ? strlen(name) : (size_t)(at - name);
    uint32_t status = xmas_elf_find_symbol(input->bytes, input->size, &input->header, (const uint8_t *)name, size,
                                           (const uint8_t *)version, strlen(version), &found);
    if (status != XMAS_ELF_OK) return status;
    if (!found.found) {
        printf("%s -\n", name);
        return status;
    }
    printf("%s %u %016llx ", name, found.index, (unsigned long long)found.symbol.value);
    uint32_t read = xmas_elf_bytes_at(input->bytes, input->size, &input->header, found.symbol.value, 8, &code);
    if (read == XMAS_ELF_OK) print_range(input, code);
    else printf("bytes: %s\n", xmas_elf_status_text(read).text);
    return status;
}

int main(int argc, char **argv)
{
    struct input input = {0};
    xmas_elf_range_t id;
    if (argc < 2) {
        fprintf(stderr, "usage: find FILE NAME..\n");
        return 2;
    }
    if (!is_read(argv[1], &input)) return 1;
    uint32_t status = xmas_elf_open(input.bytes, input.size, &input.header);
    if (status == XMAS_ELF_OK) {
        uint32_t found = find_build_id(&input, &id);
        printf("build id %s", found == XMAS_ELF_OK ? "" : "none\n");
        if (found == XMAS_ELF_OK) print_range(&input, id);
        else if (found != XMAS_ELF_NOT_FOUND) status = found;
    }
    for (int i = 2; i < argc && status == XMAS_ELF_OK; i++) status = find(&input, argv[i]);
    if (status != XMAS_ELF_OK) fprintf(stderr, "%s: %s\n", argv[1], xmas_elf_status_text(status).text);
    free(input.bytes);
    return status != XMAS_ELF_OK;
}
