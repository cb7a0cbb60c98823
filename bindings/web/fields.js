// The names of the fields of ELF's records and which bytes of a record each has, by class: labels for the hex view.
// A row is: the field's name in the gABI, the member of the reader's record that has its value, what it means, and the
// sizes of the field in class 32 and class 64. Fields follow each other in the order of their class.

const row = (name, member, means, size32, size64 = size32) => ({ name, member, means, sizes: { 1: size32, 2: size64 } });

const HEADER = [
  row("EI_MAG", null, "Magic number: 7f 45 4c 46", 4), row("EI_CLASS", "file_class", "Class", 1),
  row("EI_DATA", "encoding", "Byte order", 1), row("EI_VERSION", "header_version", "Version of the header", 1),
  row("EI_OSABI", "os_abi", "Operating system or ABI", 1), row("EI_ABIVERSION", "abi_version", "Version of the ABI", 1),
  row("EI_PAD", null, "Padding", 7), row("e_type", "type", "Type of the file", 2),
  row("e_machine", "machine", "Machine", 2), row("e_version", "version", "Version of the file", 4),
  row("e_entry", "entry_point", "Address where the program begins", 4, 8),
  row("e_phoff", "ph_offset", "Offset of the program headers", 4, 8),
  row("e_shoff", "sh_offset", "Offset of the section headers", 4, 8), row("e_flags", "flags", "Processor's flags", 4),
  row("e_ehsize", "header_size", "Size of this header", 2),
  row("e_phentsize", "ph_entry_size", "Size of a program header", 2),
  row("e_phnum", "ph_count", "Number of program headers", 2),
  row("e_shentsize", "sh_entry_size", "Size of a section header", 2),
  row("e_shnum", "sh_count", "Number of section headers", 2),
  row("e_shstrndx", "sh_str_index", "Section that holds the names of sections", 2),
];

const SECTION = [
  row("sh_name", "name", "Index of the name, in bytes", 4), row("sh_type", "type", "Type", 4),
  row("sh_flags", "flags", "Flags", 4, 8), row("sh_addr", "address", "Address in memory", 4, 8),
  row("sh_offset", "offset", "Offset in the file", 4, 8), row("sh_size", "size", "Size", 4, 8),
  row("sh_link", "link", "Linked section", 4), row("sh_info", "info", "More, by the type", 4),
  row("sh_addralign", "align", "Alignment", 4, 8), row("sh_entsize", "entry_size", "Size of an entry", 4, 8),
];

const SEGMENT = {
  p_type: row("p_type", "type", "Type", 4), p_flags: row("p_flags", "flags", "Flags", 4),
  p_offset: row("p_offset", "offset", "Offset in the file", 4, 8),
  p_vaddr: row("p_vaddr", "virtual_addr", "Address in memory", 4, 8),
  p_paddr: row("p_paddr", "physical_addr", "Physical address", 4, 8),
  p_filesz: row("p_filesz", "file_size", "Size in the file", 4, 8),
  p_memsz: row("p_memsz", "mem_size", "Size in memory", 4, 8), p_align: row("p_align", "align", "Alignment", 4, 8),
};

const SYMBOL = {
  st_name: row("st_name", "name", "Index of the name, in bytes", 4),
  st_info: row("st_info", "info", "Binding and type", 1), st_other: row("st_other", "other", "Visibility", 1),
  st_shndx: row("st_shndx", "shndx", "Section", 2), st_value: row("st_value", "value", "Value", 4, 8),
  st_size: row("st_size", "size", "Size", 4, 8),
};

const REL = [row("r_offset", "offset", "Where it applies", 4, 8), row("r_info", null, "Symbol and type", 4, 8)];

const pick = (rows, names) => names.split(" ").map((name) => rows[name]);
const both = (rows) => ({ 1: rows, 2: rows });

/** The fields of each record, by class. */
export const FIELDS = {
  header: both(HEADER),
  section: both(SECTION),
  segment: { 1: pick(SEGMENT, "p_type p_offset p_vaddr p_paddr p_filesz p_memsz p_flags p_align"),
    2: pick(SEGMENT, "p_type p_flags p_offset p_vaddr p_paddr p_filesz p_memsz p_align") },
  symbol: { 1: pick(SYMBOL, "st_name st_value st_size st_info st_other st_shndx"),
    2: pick(SYMBOL, "st_name st_info st_other st_shndx st_value st_size") },
  rel: both(REL),
  rela: both([...REL, row("r_addend", "addend", "Addend", 4, 8)]),
  dynamic: both([row("d_tag", "tag", "Tag", 4, 8), row("d_un", "value", "Value or address", 4, 8)]),
};

/** The fields of a record with where each begins, and the size of the record. */
export function fieldsOf(record, fileClass) {
  let at = 0;
  const place = (field) => {
    const placed = { ...field, at, size: field.sizes[fileClass] };
    at += placed.size;
    return placed;
  };
  const fields = FIELDS[record][fileClass].map(place);
  return { fields, size: at };
}
