/* relocate RUNS PROGRAM [LIBRARY ..]: the cycles of the time stamp counter that relocation takes for a program and its libraries, in
 * the order in which they are loaded, with all symbols bound: the call for all of them, the reading of the files in it, and the calls
 * of the check; the least of RUNS. `relocate.py` runs it. */
#include <stdio.h>
#include <stdlib.h>
#include <string.h>
#include <x86intrin.h>
#include <xmas_elf.h>

#define LARGEST 64 /* objects */

static xmas_elf_load_object_t loads[LARGEST];
static uint8_t *planned, *images, *marks; /* the images of all objects, one after another */
static size_t sizes[LARGEST], count, whole;

static void check(uint32_t status, size_t index)
{
    if (status == XMAS_ELF_OK) return;
    fprintf(stderr, "object %zu: %s\n", index, xmas_elf_status_text(status).text);
    exit(1);
}

static void read_file(size_t index, const char *path)
{
    xmas_elf_header_t header;
    xmas_elf_load_plan_t plan;
    FILE *stream = fopen(path, "rb");
    if (stream == NULL) perror(path), exit(1);
    fseek(stream, 0, SEEK_END);
    size_t size = (size_t)ftell(stream);
    uint8_t *bytes = malloc(size);
    rewind(stream);
    size = fread(bytes, 1, size, stream);
    fclose(stream);
    check(xmas_elf_open(bytes, size, &header), index);
    check(xmas_elf_load_plan(bytes, size, &header, 4096, 0, &plan), index);
    sizes[index] = plan.span.end - plan.span.start;
    planned = realloc(planned, whole + sizes[index]);
    check(xmas_elf_load_image(bytes, size, &header, 4096, 0, index != 0, planned + whole, sizes[index]), index);
    whole += sizes[index];
    uint64_t base = header.type == 2 ? 0 : (index + 1) << 40;
    loads[index] = (xmas_elf_load_object_t){bytes, size, NULL, 0, base, index + 1, -(index + 1) * 4096};
}

static uint64_t relocate(void)
{
    uint64_t left, failed = 0, relocation;
    memcpy(images, planned, whole);
    uint64_t began = __rdtsc();
    uint32_t status = xmas_elf_relocate_all(loads, count, 0, 4096, 0, images, whole, &left, &failed, &relocation);
    uint64_t ended = __rdtsc();
    check(status, failed);
    return ended - began;
}

/* Images of another size are an error after all files are read, and before words are written. */
static uint64_t read_all(void)
{
    uint64_t left, failed, relocation, began = __rdtsc();
    if (xmas_elf_relocate_all(loads, count, 0, 4096, 0, images, whole - 1, &left, &failed, &relocation) != XMAS_ELF_LOAD_IMAGE_SIZE) exit(1);
    return __rdtsc() - began;
}

static uint64_t check_all(void)
{
    uint64_t failed = 0, relocation, began = __rdtsc();
    for (size_t i = 0; i < count; i++) {
        uint32_t status = xmas_elf_check_image(loads, count, i, 4096, 0, marks, sizes[i] / 8 + 1, &failed, &relocation);
        check(status, failed);
    }
    return __rdtsc() - began;
}

int main(int argc, char **argv)
{
    uint64_t least = UINT64_MAX, reading = UINT64_MAX, checks = UINT64_MAX;
    size_t most = 0;
    if (argc < 3 || argc - 2 > LARGEST) return 2;
    count = (size_t)argc - 2;
    for (size_t i = 0; i < count; i++) read_file(i, argv[i + 2]);
    for (size_t i = 0; i < count; i++) most = sizes[i] > most ? sizes[i] : most;
    marks = malloc(most / 8 + 1), images = malloc(whole);
    for (int run = atoi(argv[1]); run > 0; run--) {
        uint64_t one = relocate(), other = read_all(), third = check_all();
        least = one < least ? one : least, reading = other < reading ? other : reading, checks = third < checks ? third : checks;
    }
    printf("%zu %llu %llu %llu\n", count, (unsigned long long)least, (unsigned long long)reading, (unsigned long long)checks);
}
