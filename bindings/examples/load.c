/* load PROGRAM [LIBRARY ..]: runs a program for x86-64 Linux with its libraries, in the order in which they are loaded. It does what
 * the kernel and the dynamic linker do for a program without thread-local storage, constructors and indirect functions: it maps the
 * files, writes their words, sets permissions and the stack, and jumps to the entry point. A static program has no libraries, and
 * relocates itself. */
#define _GNU_SOURCE
#include <elf.h>
#include <errno.h>
#include <inttypes.h>
#include <stdio.h>
#include <stdlib.h>
#include <string.h>
#include <sys/mman.h>
#include <xmas_elf.h>

#define PAGE 4096
#define LARGEST 64 /* objects */
#define STACK (1 << 20)

extern char **environ;

struct object {
    const char *path;
    xmas_elf_header_t header;
    xmas_elf_load_plan_t plan;
    uint8_t *memory; /* of the span */
    size_t size;
};

static struct object objects[LARGEST];
static xmas_elf_load_object_t loads[LARGEST]; /* what the archive reads of them */
static size_t count;

static _Noreturn void stop(const char *path, const char *why)
{
    fprintf(stderr, "load: %s: %s\n", path, why);
    exit(127);
}

static void check(const char *path, uint32_t status)
{
    if (status != XMAS_ELF_OK) stop(path, xmas_elf_status_text(status).text);
}

static void *given(const char *path, void *memory)
{
    if (memory == NULL || memory == MAP_FAILED) stop(path, strerror(errno));
    return memory;
}

static uint32_t loader(size_t index) { return index == 0 ? 0 : 1; } /* the kernel maps the program, glibc its libraries */

/* Reads a file and its plan. */
static void read_file(size_t index, const char *path)
{
    struct object *object = &objects[index];
    FILE *stream = given(path, fopen(path, "rb"));
    long size = fseek(stream, 0, SEEK_END) == 0 ? ftell(stream) : 0;
    uint8_t *bytes = given(path, malloc(size > 0 ? (size_t)size : 1));
    rewind(stream);
    size_t read = fread(bytes, 1, size > 0 ? (size_t)size : 0, stream);
    fclose(stream);
    object->path = path;
    loads[index].file = bytes, loads[index].file_size = read;
    check(path, xmas_elf_open(bytes, read, &object->header));
    if (object->header.machine != EM_X86_64) stop(path, "not for x86-64");
    check(path, xmas_elf_load_plan(bytes, read, &object->header, PAGE, 0, &object->plan));
    object->size = object->plan.span.end - object->plan.span.start;
}

/* The greatest alignment of the load segments. */
static uint64_t alignment(size_t index)
{
    xmas_elf_segment_t segment;
    uint64_t most = PAGE;
    for (uint32_t i = 0; xmas_elf_segment(loads[index].file, loads[index].file_size, &objects[index].header, i, &segment) == XMAS_ELF_OK; i++)
        if (segment.type == PT_LOAD && segment.align > most) most = segment.align;
    return most;
}

/* Chooses the base of an object, reserves the memory of its span, and writes the bytes of the plan there. */
static void place(size_t index)
{
    struct object *object = &objects[index];
    uint64_t align = alignment(index), start = object->plan.span.start;
    if (object->header.type == ET_EXEC) {
        object->memory = given(object->path, mmap((void *)start, object->size, PROT_READ | PROT_WRITE,
            MAP_PRIVATE | MAP_ANONYMOUS | MAP_FIXED_NOREPLACE, -1, 0));
    } else {
        uint8_t *room = given(object->path, mmap(NULL, object->size + align, PROT_NONE, MAP_PRIVATE | MAP_ANONYMOUS, -1, 0));
        object->memory = room + (align - ((uintptr_t)room - start) % align) % align;
        if (mprotect(object->memory, object->size, PROT_READ | PROT_WRITE) != 0) stop(object->path, strerror(errno));
    }
    loads[index].base = (uintptr_t)object->memory - start;
    check(object->path, xmas_elf_load_image(loads[index].file, loads[index].file_size, &object->header, PAGE, 0, loader(index),
        object->memory, object->size));
}

/* Writes the words of an object to its memory. */
static void relocate(size_t index)
{
    struct object *object = &objects[index];
    size_t marks_size = object->size / 8 + 1;
    uint8_t *marks = given(object->path, malloc(marks_size));
    uint64_t left, failed = index, relocation; /* the object that has the error, this one or another */
    uint32_t status = xmas_elf_check_image(loads, count, index, PAGE, 0, marks, marks_size, &failed, &relocation);
    check(objects[failed].path, status);
    free(marks);
    status = xmas_elf_relocate(loads, count, index, 0, PAGE, 0, object->memory, object->size, &left, &failed, &relocation);
    check(objects[failed].path, status);
    if (left != 0) stop(object->path, "words without a number: indirect functions or thread-local storage");
    /* From now on its bytes can be copied into the program. */
    loads[index].image = object->memory, loads[index].image_size = object->size;
}

static int rights(uint32_t flags)
{
    return (flags & PF_R ? PROT_READ : 0) | (flags & PF_W ? PROT_WRITE : 0) | (flags & PF_X ? PROT_EXEC : 0);
}

static void permit(const struct object *object, xmas_elf_span_t span, int protection)
{
    uint8_t *start = object->memory + (span.start - object->plan.span.start);
    if (span.end != span.start && mprotect(start, span.end - span.start, protection) != 0) stop(object->path, strerror(errno));
}

/* Gives each mapping of an object its permissions, and its pages that are only readable after relocation theirs. */
static void protect(size_t index, int relocated)
{
    const struct object *object = &objects[index];
    xmas_elf_load_mapping_t mappings[64];
    uint64_t first, some;
    permit(object, object->plan.span, PROT_NONE);
    for (first = 0; xmas_elf_load_mappings(loads[index].file, loads[index].file_size, &object->header, PAGE, 0, loader(index),
             first, mappings, 64, &some) == XMAS_ELF_OK; first += some)
        for (uint64_t i = 0; i < some; i++)
            permit(object, (xmas_elf_span_t){mappings[i].start, mappings[i].end}, rights(mappings[i].flags));
    if (relocated) permit(object, object->plan.relro, PROT_READ);
}

/* The address of the program headers: that of the load segment that holds them. */
static uint64_t program_headers(void)
{
    xmas_elf_segment_t segment;
    uint64_t offset = objects[0].header.ph_offset;
    for (uint32_t i = 0; xmas_elf_segment(loads[0].file, loads[0].file_size, &objects[0].header, i, &segment) == XMAS_ELF_OK; i++)
        if (segment.type == PT_LOAD && segment.offset <= offset && offset - segment.offset < segment.file_size)
            return loads[0].base + segment.virtual_addr + (offset - segment.offset);
    return 0;
}

/* What the program gets of the kernel, with its own addresses in place of those of this one. */
static uint64_t auxiliary(Elf64_auxv_t *own)
{
    switch (own->a_type) {
    case AT_PHDR: return program_headers();
    case AT_PHENT: return objects[0].header.ph_entry_size;
    case AT_PHNUM: return objects[0].header.ph_count;
    case AT_BASE: return 0;
    case AT_ENTRY: return loads[0].base + objects[0].plan.entry;
    case AT_EXECFN: return (uintptr_t)objects[0].path;
    default: return own->a_un.a_val;
    }
}

/* A stack with one argument, the environment and the auxiliary vector (System V ABI, "Process Initialization"). */
static uint64_t *stack(void)
{
    uint8_t *memory = given(objects[0].path, mmap(NULL, STACK, PROT_READ | PROT_WRITE, MAP_PRIVATE | MAP_ANONYMOUS, -1, 0));
    size_t variables = 0, pairs = 0;
    while (environ[variables] != NULL) variables++;
    Elf64_auxv_t *own = (Elf64_auxv_t *)&environ[variables + 1];
    do pairs++;
    while (own[pairs - 1].a_type != AT_NULL);
    size_t words = 1 + 2 + variables + 1 + 2 * pairs;
    if (words * 8 + 16 > STACK / 2) stop(objects[0].path, "too large an environment");
    uint64_t *top = (uint64_t *)(memory + STACK - (words * 8 + 15) / 16 * 16), *next = top;
    *next++ = 1;
    *next++ = (uintptr_t)objects[0].path;
    *next++ = 0;
    for (size_t i = 0; i < variables; i++) *next++ = (uintptr_t)environ[i];
    *next++ = 0;
    for (size_t i = 0; i < pairs; i++) *next++ = own[i].a_type, *next++ = auxiliary(&own[i]);
    return top;
}

static _Noreturn void jump(uint64_t *top, uint64_t entry)
{
    /* %rdx is what the program calls when it ends: nothing. */
    __asm__ volatile("mov %0, %%rsp\n\txor %%edx, %%edx\n\txor %%ebp, %%ebp\n\tjmp *%1" : : "r"(top), "r"(entry) : "rdx", "memory");
    __builtin_unreachable();
}

int main(int argc, char **argv)
{
    if (argc < 2 || argc > LARGEST) stop("usage", "load PROGRAM [LIBRARY ..]");
    count = (size_t)argc - 1;
    for (size_t i = 0; i < count; i++) read_file(i, argv[i + 1]);
    for (size_t i = 0; i < count; i++) place(i);
    int relocated = objects[0].plan.has_interpreter != 0; /* a static program relocates itself */
    /* The program comes last: it may copy what the libraries hold. */
    for (size_t i = count; relocated && i-- > 0;) relocate(i);
    for (size_t i = 0; i < count; i++) protect(i, relocated);
    fflush(NULL);
    jump(stack(), loads[0].base + objects[0].plan.entry);
}
