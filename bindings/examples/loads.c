/* loads PROGRAM [LIBRARY ..]: whether a program loads with its libraries, in the order in which they are loaded: `yes`, or `no` with
 * the file and the reason. The first of these is the reason: a file has no plan, as some that Linux and glibc load; a library that a file
 * needs is not among the files; the tables or the words of a file can't be read or written; a symbol is in no file. */
#include <errno.h>
#include <stdio.h>
#include <stdlib.h>
#include <string.h>
#include <xmas_elf.h>

#define LARGEST 64 /* files of a call */
enum { PT_DYNAMIC = 2, DT_NEEDED = 1, DT_SONAME = 14, STB_LOCAL = 0, STB_WEAK = 2 };

struct file {
    const char *path;
    xmas_elf_header_t header;
    xmas_elf_load_plan_t plan;
};

static struct file files[LARGEST];
static xmas_elf_load_object_t loads[LARGEST]; /* what the archive reads of them */
static size_t count;

static _Noreturn void stop(const char *path, const char *why)
{
    fprintf(stderr, "loads: %s: %s\n", path, why);
    exit(2);
}

/* Ends the program with the reason, and with what it is about, if that is known. */
static _Noreturn void no(size_t index, uint32_t status, const char *about, size_t size)
{
    printf("no: %s: %s%s%.*s\n", files[index].path, xmas_elf_status_text(status).text, size ? ": " : "", (int)size, about);
    exit(1);
}

static void check(size_t index, uint32_t status)
{
    if (status != XMAS_ELF_OK) no(index, status, "", 0);
}

static void *given(const char *path, void *memory)
{
    if (memory == NULL) stop(path, strerror(errno));
    return memory;
}

/* Reads a file and its header. */
static void read_file(size_t index, const char *path)
{
    FILE *stream = given(path, fopen(path, "rb"));
    long size = fseek(stream, 0, SEEK_END) == 0 ? ftell(stream) : 0;
    uint8_t *bytes = given(path, malloc(size > 0 ? (size_t)size : 1));
    rewind(stream);
    files[index].path = path;
    loads[index].file = bytes, loads[index].file_size = fread(bytes, 1, size > 0 ? (size_t)size : 0, stream);
    fclose(stream);
    check(index, xmas_elf_open(bytes, loads[index].file_size, &files[index].header));
}

static void check_plan(size_t index)
{
    check(index, xmas_elf_load_plan(loads[index].file, loads[index].file_size, &files[index].header, 0, 0, &files[index].plan));
}

static int has_dynamic(size_t index)
{
    xmas_elf_segment_t segment;
    for (uint32_t i = 0; xmas_elf_segment(loads[index].file, loads[index].file_size, &files[index].header, i, &segment) == XMAS_ELF_OK; i++)
        if (segment.type == PT_DYNAMIC) return 1;
    return 0;
}

static int is_text(size_t index, xmas_elf_range_t range, const char *text, size_t size)
{
    return range.size == size && memcmp(loads[index].file + range.offset, text, size) == 0;
}

/* Whether a file has a name: as its path, the last part of it, or its own name. */
static int has_name(size_t index, const char *name, size_t size)
{
    const struct file *file = &files[index];
    const char *last = strrchr(file->path, '/');
    last = last == NULL ? file->path : last + 1;
    if ((strlen(file->path) == size && memcmp(file->path, name, size) == 0) || (strlen(last) == size && memcmp(last, name, size) == 0)) return 1;
    xmas_elf_name_t own;
    uint64_t found;
    return xmas_elf_dynamic_texts(loads[index].file, loads[index].file_size, &file->header, DT_SONAME, 0, &own, 1, &found) == XMAS_ELF_OK &&
           own.status == XMAS_ELF_OK && is_text(index, own.range, name, size);
}

/* The libraries that a file needs are among the files. */
static void check_needed(size_t index)
{
    const xmas_elf_load_object_t *load = &loads[index];
    xmas_elf_name_t name;
    uint64_t found, first;
    uint32_t status;
    for (first = 0; (status = xmas_elf_dynamic_texts(load->file, load->file_size, &files[index].header, DT_NEEDED, first, &name, 1, &found)) == XMAS_ELF_OK; first++) {
        check(index, name.status);
        const char *text = (const char *)load->file + name.range.offset;
        size_t other = 0;
        while (other < count && !has_name(other, text, name.range.size)) other++;
        if (other == count) no(index, XMAS_ELF_NOT_FOUND, text, name.range.size);
    }
    if (status != XMAS_ELF_NO_RECORD && status != XMAS_ELF_LINK_NO_DYNAMIC) check(index, status);
}

static size_t span(size_t index) { return (size_t)(files[index].plan.span.end - files[index].plan.span.start); }

/* All files can be read as objects of the program, and the words of this one can be written. */
static void check_words(size_t index)
{
    size_t size = span(index) / 8 + 1;
    uint8_t *marks = given(files[index].path, malloc(size));
    uint64_t failed = index, relocation;
    uint32_t status = xmas_elf_check_image(loads, count, index, 0, 0, marks, size, &failed, &relocation);
    check((size_t)failed, status);
    free(marks);
}

/* Whether a symbol of a file is one that must be in a file, and is in none; then its name and version, as `name@version`. */
static int is_missing(size_t index, const xmas_elf_symbol_table_t *table, uint64_t number, char *shown, size_t room)
{
    const xmas_elf_load_object_t *load = &loads[index];
    const char *text = (const char *)load->file;
    xmas_elf_symbol_t symbol;
    xmas_elf_name_t name;
    xmas_elf_version_t version;
    xmas_elf_found_symbol_t found;
    uint64_t some;
    if (xmas_elf_symbols(load->file, load->file_size, table, number, &symbol, 1, &some) != XMAS_ELF_OK || symbol.info >> 4 == STB_LOCAL || symbol.info >> 4 == STB_WEAK) return 0;
    if (xmas_elf_symbol_names(load->file, load->file_size, table, number, &name, 1, &some) != XMAS_ELF_OK || name.status != XMAS_ELF_OK || name.range.size == 0) return 0;
    if (xmas_elf_dynamic_symbol_versions(load->file, load->file_size, &files[index].header, number, &version, 1, &some) != XMAS_ELF_OK) version.name.size = 0;
    for (size_t other = 0; other < count; other++)
        if (xmas_elf_find_symbol(loads[other].file, loads[other].file_size, &files[other].header, load->file + name.range.offset, name.range.size,
                version.name.size ? load->file + version.name.offset : NULL, version.name.size, &found) == XMAS_ELF_OK && found.found)
            return 0;
    snprintf(shown, room, "%.*s%s%.*s", (int)name.range.size, text + name.range.offset, version.name.size ? "@" : "",
             (int)version.name.size, version.name.size ? text + version.name.offset : "");
    return 1;
}

/* Ends the program with the first symbol of the relocations of a file that is in no file. */
static _Noreturn void no_symbol(size_t index, uint32_t status)
{
    const xmas_elf_load_object_t *load = &loads[index];
    xmas_elf_symbol_table_t table;
    xmas_elf_relocation_t records[256];
    uint64_t first, some;
    char shown[1024] = "";
    if (xmas_elf_dynamic_symbols_open(load->file, load->file_size, &files[index].header, &table) == XMAS_ELF_OK)
        for (first = 0; xmas_elf_dynamic_relocations(load->file, load->file_size, &files[index].header, first, records, 256, &some) == XMAS_ELF_OK; first += some)
            for (uint64_t i = 0; i < some; i++)
                if (is_missing(index, &table, records[i].symbol, shown, sizeof shown)) no(index, status, shown, strlen(shown));
    no(index, status, "", 0);
}

/* Each symbol that a file asks for is in a file: the words of all are written to memory that nobody runs. */
static void check_symbols(void)
{
    uint64_t left, failed = 0, relocation;
    size_t size = 0;
    for (size_t i = 0; i < count; i++) size += span(i);
    uint8_t *images = given(files[0].path, malloc(size)), *image = images;
    for (size_t i = 0; i < count; image += span(i++))
        check(i, xmas_elf_load_image(loads[i].file, loads[i].file_size, &files[i].header, 0, 0, i > 0, image, span(i)));
    uint32_t status = xmas_elf_relocate_all(loads, count, 0, 0, 0, images, size, &left, &failed, &relocation);
    if (status == XMAS_ELF_LOAD_UNRESOLVED) no_symbol((size_t)failed, status);
    check((size_t)failed, status);
    free(images);
}

int main(int argc, char **argv)
{
    if (argc < 2 || argc > LARGEST + 1) stop("usage", "loads PROGRAM [LIBRARY ..], up to 64 files");
    count = (size_t)argc - 1;
    for (size_t i = 0; i < count; i++) read_file(i, argv[i + 1]);
    for (size_t i = 0; i < count; i++) check_plan(i);
    /* A static program relocates itself, if it does. */
    if (count > 1 || has_dynamic(0)) {
        for (size_t i = 0; i < count; i++) check_needed(i);
        for (size_t i = 0; i < count; i++) check_words(i);
        check_symbols();
    }
    puts("yes");
    return 0;
}
