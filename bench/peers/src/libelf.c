/* The passes that libelf has in the same sense, from the bytes on. */
#include <gelf.h>
#include <libelf.h>
#include <stdint.h>
#include <string.h>

#define NONE UINT64_MAX
#define PASS(name) uint64_t libelf_##name(const uint8_t *data, size_t len, const uint8_t *text, size_t text_len)
#define OPEN (void)text; (void)text_len; elf_version(EV_CURRENT); Elf *elf = elf_memory((char *)data, len); if (!elf) return NONE; uint64_t sum = 0

PASS(header) {
    OPEN;
    GElf_Ehdr h;
    sum = gelf_getehdr(elf, &h) ? h.e_entry + h.e_shoff + h.e_phoff : NONE;
    elf_end(elf);
    return sum;
}
PASS(sections) {
    OPEN;
    GElf_Shdr h;
    for (Elf_Scn *s = elf_nextscn(elf, 0); s; s = elf_nextscn(elf, s))
        if (gelf_getshdr(s, &h)) sum += h.sh_size;
    /* it passes over section 0, whose size may be how many there are */
    Elf_Scn *zero = elf_getscn(elf, 0);
    if (zero && gelf_getshdr(zero, &h)) sum += h.sh_size;
    elf_end(elf);
    return sum;
}
PASS(section_names) {
    OPEN;
    GElf_Shdr h;
    size_t names;
    if (elf_getshdrstrndx(elf, &names)) names = 0;
    for (Elf_Scn *s = elf_nextscn(elf, 0); s; s = elf_nextscn(elf, s)) {
        const char *name = gelf_getshdr(s, &h) ? elf_strptr(elf, names, h.sh_name) : 0;
        if (name && *name) sum += strlen(name) + (uint8_t)*name;
    }
    elf_end(elf);
    return sum;
}
PASS(symbol_values) {
    OPEN;
    GElf_Shdr h;
    GElf_Sym symbol;
    for (Elf_Scn *s = elf_nextscn(elf, 0); s; s = elf_nextscn(elf, s)) {
        if (!gelf_getshdr(s, &h) || h.sh_type != SHT_SYMTAB) continue;
        Elf_Data *table = elf_getdata(s, 0);
        for (size_t i = 0; table && i < h.sh_size / h.sh_entsize; i++)
            if (gelf_getsym(table, i, &symbol)) sum += symbol.st_value;
        break;
    }
    elf_end(elf);
    return sum;
}
