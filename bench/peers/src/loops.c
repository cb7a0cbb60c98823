/* Bare loops over files of class 64 and little order, with the range tests and nothing else: what a pass
 * costs at least. */
#include <elf.h>
#include <stdint.h>
#include <string.h>

#define NONE UINT64_MAX
#define NAME 28
#define PASS(name) uint64_t loops_##name(const uint8_t *data, size_t len, const uint8_t *text, size_t text_len)

typedef struct {
    const uint8_t *data;
    size_t len;
    const Elf64_Ehdr *header;
    const Elf64_Shdr *sections;
    uint64_t count;
    const char *names;
    size_t names_len;
} file;

static int within(const file *f, uint64_t start, uint64_t size) { return start <= f->len && size <= f->len - start; }

static uint64_t sum_of(const void *bytes, uint64_t len) { return len ? len + *(const uint8_t *)bytes : 0; }

static int open_file(file *f, const uint8_t *data, size_t len) {
    *f = (file){.data = data, .len = len, .header = (const void *)data};
    if (len < 64 || memcmp(data, ELFMAG, 4) || data[EI_CLASS] != ELFCLASS64 || data[EI_DATA] != ELFDATA2LSB) return 0;
    const Elf64_Ehdr *h = f->header;
    if (!h->e_shoff) return 1;
    if (h->e_shentsize != sizeof(Elf64_Shdr) || !within(f, h->e_shoff, sizeof(Elf64_Shdr))) return 0;
    f->sections = (const void *)(data + h->e_shoff);
    f->count = h->e_shnum ? h->e_shnum : f->sections[0].sh_size;
    if (f->count > len / sizeof(Elf64_Shdr) || !within(f, h->e_shoff, f->count * sizeof(Elf64_Shdr))) return 0;
    uint64_t names = h->e_shstrndx == SHN_XINDEX ? f->sections[0].sh_link : h->e_shstrndx;
    if (names < f->count && within(f, f->sections[names].sh_offset, f->sections[names].sh_size)) {
        f->names = (const char *)data + f->sections[names].sh_offset;
        f->names_len = f->sections[names].sh_size;
    }
    return 1;
}

#define OPEN file f; (void)text; (void)text_len; if (!open_file(&f, data, len)) return NONE
#define EACH(s) for (const Elf64_Shdr *s = f.sections, *end_ = f.sections + f.count; s < end_; s++)

static const Elf64_Shdr *of_type(const file *f, uint32_t type) {
    for (uint64_t i = 0; i < f->count; i++)
        if (f->sections[i].sh_type == type && within(f, f->sections[i].sh_offset, f->sections[i].sh_size)) return f->sections + i;
    return 0;
}

/* The text at a place of a table, by its length; 0 where there is none. */
static const char *text_in(const char *table, size_t len, uint64_t at, size_t *size) {
    if (at >= len) return 0;
    const char *end = memchr(table + at, 0, len - at);
    if (!end) return 0;
    *size = end - (table + at);
    return table + at;
}

static int text_is(const char *table, size_t len, uint64_t at, const void *text, size_t size) {
    return at < len && size < len - at && table[at + size] == 0 && !memcmp(table + at, text, size);
}

PASS(header) {
    OPEN;
    return f.header->e_entry + f.header->e_shoff + f.header->e_phoff;
}
PASS(header_fields) {
    OPEN;
    const Elf64_Ehdr *h = f.header;
    return h->e_entry + h->e_shoff + h->e_phoff + h->e_ehsize + h->e_phentsize + h->e_phnum + h->e_shentsize + h->e_shnum + h->e_shstrndx;
}
PASS(sections) {
    OPEN;
    uint64_t sum = 0;
    EACH(s) sum += s->sh_size;
    return sum;
}
PASS(section_fields) {
    OPEN;
    uint64_t sum = 0;
    EACH(s) sum += (uint64_t)s->sh_name + s->sh_type + s->sh_flags + s->sh_addr + s->sh_offset + s->sh_size + s->sh_link + s->sh_info + s->sh_addralign + s->sh_entsize;
    return sum;
}
static int unknown(uint32_t t) { return t == 12 || t == 13 || (t >= 19 && t < 0x60000000); }
PASS(section_types) {
    OPEN;
    uint64_t sum = 0;
    EACH(s) sum += s->sh_type == SHT_STRTAB ? 1 : s->sh_type == SHT_SYMTAB ? 2 : unknown(s->sh_type) ? 4 : 0;
    return sum;
}
PASS(section_names) {
    OPEN;
    uint64_t sum = 0;
    size_t size;
    EACH(s) {
        const char *name = text_in(f.names, f.names_len, s->sh_name, &size);
        if (name) sum += sum_of(name, size);
    }
    return sum;
}
PASS(find) {
    OPEN;
    EACH(s) if (text_is(f.names, f.names_len, s->sh_name, text, text_len)) return s->sh_offset;
    return 0;
}
PASS(raw_data) {
    OPEN;
    uint64_t sum = 0;
    EACH(s) if (s->sh_type != SHT_NULL && s->sh_type != SHT_NOBITS && within(&f, s->sh_offset, s->sh_size)) sum += sum_of(data + s->sh_offset, s->sh_size);
    return sum;
}
static uint64_t kind_of(const Elf64_Shdr *s) {
    uint64_t len = s->sh_size;
    switch (s->sh_type) {
    case SHT_STRTAB: return 3 + len;
    case SHT_INIT_ARRAY: case SHT_FINI_ARRAY: case SHT_PREINIT_ARRAY: return 4 + len / 8;
    case SHT_SYMTAB: return 5 + len / 24;
    case SHT_DYNSYM: return 6 + len / 24;
    case SHT_SYMTAB_SHNDX: return 7 + len / 4;
    case SHT_NOTE: return 8 + len - 12;
    case SHT_RELA: return 9 + len / 24;
    case SHT_REL: return 10 + len / 16;
    case SHT_DYNAMIC: return 11 + len / 16;
    case SHT_GROUP: return 12 + len / 4 - 1;
    case SHT_HASH: return 13;
    default: return unknown(s->sh_type) ? 100 : 2 + len;
    }
}
PASS(data) {
    OPEN;
    uint64_t sum = 0;
    EACH(s) sum += s->sh_type == SHT_NULL || s->sh_type == SHT_NOBITS ? 1 : !within(&f, s->sh_offset, s->sh_size) ? 100 : kind_of(s);
    return sum;
}
PASS(segments) {
    OPEN;
    const Elf64_Ehdr *h = f.header;
    if (h->e_phentsize != sizeof(Elf64_Phdr) || !within(&f, h->e_phoff, (uint64_t)h->e_phnum * sizeof(Elf64_Phdr))) return NONE;
    const Elf64_Phdr *p = (const void *)(data + h->e_phoff);
    uint64_t sum = 0;
    for (unsigned i = 0; i < h->e_phnum; i++) sum += p[i].p_offset + p[i].p_filesz + (p[i].p_type == PT_LOAD);
    return sum;
}

typedef struct {
    const Elf64_Sym *symbols;
    uint64_t count;
    const char *texts;
    size_t texts_len;
} table;

static int symbols_of(const file *f, uint32_t type, table *t) {
    const Elf64_Shdr *s = of_type(f, type);
    if (!s || s->sh_link >= f->count) return 0;
    const Elf64_Shdr *texts = f->sections + s->sh_link;
    if (!within(f, texts->sh_offset, texts->sh_size)) return 0;
    *t = (table){(const void *)(f->data + s->sh_offset), s->sh_size / sizeof(Elf64_Sym), (const char *)f->data + texts->sh_offset, texts->sh_size};
    return 1;
}
#define SYMBOLS OPEN; table t; if (!symbols_of(&f, SHT_SYMTAB, &t)) return NONE

PASS(symbol_values) {
    SYMBOLS;
    uint64_t sum = 0;
    for (uint64_t i = 0; i < t.count; i++) sum += t.symbols[i].st_value;
    return sum;
}
PASS(symbol_fields) {
    SYMBOLS;
    uint64_t sum = 0;
    for (const Elf64_Sym *s = t.symbols; s < t.symbols + t.count; s++) sum += s->st_value + s->st_size + s->st_name + s->st_info + s->st_shndx;
    return sum;
}
PASS(symbol_names) {
    SYMBOLS;
    uint64_t sum = 0;
    size_t size;
    for (uint64_t i = 0; i < t.count; i++) {
        const char *name = text_in(t.texts, t.texts_len, t.symbols[i].st_name, &size);
        if (name) sum += sum_of(name, size);
    }
    return sum;
}
PASS(symbol_search) {
    SYMBOLS;
    for (uint64_t i = 0; i < t.count; i++)
        if (text_is(t.texts, t.texts_len, t.symbols[i].st_name, text, text_len)) return t.symbols[i].st_value;
    return NONE;
}
PASS(dynamic) {
    OPEN;
    const Elf64_Shdr *s = of_type(&f, SHT_DYNAMIC);
    if (!s) return NONE;
    const Elf64_Dyn *entries = (const void *)(data + s->sh_offset);
    uint64_t sum = 0;
    for (uint64_t i = 0; i < s->sh_size / sizeof(Elf64_Dyn); i++) {
        sum += entries[i].d_un.d_val;
        if (!entries[i].d_tag) break;
    }
    return sum;
}
PASS(relocations) {
    OPEN;
    uint64_t sum = 0;
    EACH(s) {
        if (s->sh_type != SHT_RELA || !within(&f, s->sh_offset, s->sh_size)) continue;
        const Elf64_Rela *r = (const void *)(data + s->sh_offset);
        for (uint64_t i = 0; i < s->sh_size / sizeof(Elf64_Rela); i++)
            sum += r[i].r_offset + ELF64_R_SYM(r[i].r_info) + ELF64_R_TYPE(r[i].r_info) + r[i].r_addend;
    }
    return sum;
}
/* The first note of a section: where its description is, and how long it is. */
static const uint8_t *note(const file *f, const Elf64_Shdr *s, uint64_t *size) {
    if (s->sh_size < sizeof(Elf64_Nhdr) || !within(f, s->sh_offset, s->sh_size)) return 0;
    const Elf64_Nhdr *n = (const void *)(f->data + s->sh_offset);
    uint64_t start = sizeof *n + ((uint64_t)n->n_namesz + 3) / 4 * 4;
    if (start + n->n_descsz > s->sh_size) return 0;
    *size = n->n_descsz;
    return f->data + s->sh_offset + start;
}
PASS(notes) {
    OPEN;
    uint64_t sum = 0, size;
    EACH(s) {
        if (s->sh_type != SHT_NOTE || !note(&f, s, &size)) continue;
        const Elf64_Nhdr *n = (const void *)(data + s->sh_offset);
        sum += sum_of(n + 1, n->n_namesz ? n->n_namesz - 1 : 0) + size + n->n_type;
    }
    return sum;
}
PASS(build_id) {
    OPEN;
    uint64_t size;
    EACH(s) if (text_is(f.names, f.names_len, s->sh_name, ".note.gnu.build-id", 18)) {
        const uint8_t *id = note(&f, s, &size);
        return id ? sum_of(id, size) : 0;
    }
    return 0;
}
static uint32_t hash_number(const uint8_t *name) {
    uint32_t number = 0;
    for (int i = 0; i < NAME; i++) {
        number = (number << 4) + name[i];
        number ^= (number >> 24) & 0xf0;
    }
    return number & 0xfffffff;
}
PASS(hash_numbers) {
    uint64_t sum = 0;
    (void)data; (void)len;
    for (size_t at = 0; at + NAME <= text_len; at += NAME) sum += hash_number(text + at);
    return sum;
}
PASS(look_ups) {
    OPEN;
    table t;
    const Elf64_Shdr *s = of_type(&f, SHT_HASH);
    if (!s || s->sh_size < 8 || !symbols_of(&f, SHT_DYNSYM, &t)) return NONE;
    const uint32_t *words = (const void *)(data + s->sh_offset);
    uint64_t buckets = words[0], chains = words[1], sum = 0;
    if (!buckets || buckets + chains + 2 > s->sh_size / 4) return NONE;
    for (size_t at = 0; at + NAME <= text_len; at += NAME) {
        uint32_t i = words[2 + hash_number(text + at) % buckets];
        for (uint64_t steps = 0; i && i < t.count && i < chains && steps < chains; steps++, i = words[2 + buckets + i])
            if (text_is(t.texts, t.texts_len, t.symbols[i].st_name, text + at, NAME)) {
                sum += t.symbols[i].st_value;
                break;
            }
    }
    return sum;
}
