"""A file as pyelftools reads it: the numbers behind the names that it gives them."""
import io

from elftools.elf import enums
from elftools.elf.elffile import ELFFile

# pyelftools chooses the names by the processor; the same name has one number in all of these.
TYPES_OF_SECTIONS = [getattr(enums, name) for name in dir(enums) if name.startswith("ENUM_SH_TYPE")]
TYPES_OF_SEGMENTS = [getattr(enums, name) for name in dir(enums) if name.startswith("ENUM_P_TYPE")]
TYPES_OF_NOTES = [enums.ENUM_NOTE_N_TYPE]
TAGS = [enums.ENUM_D_TAG]


def number(value, tables):
    """The number that pyelftools names."""
    if isinstance(value, int):
        return value
    return next(table[value] for table in tables if value in table)


def opened(data):
    return ELFFile(io.BytesIO(data))


def header(theirs):
    values = theirs.header
    ident = values["e_ident"]
    names = ("e_entry", "e_phoff", "e_shoff", "e_flags", "e_ehsize", "e_phentsize", "e_phnum", "e_shentsize", "e_shnum", "e_shstrndx")
    return (
        *(values[name] for name in names),
        number(values["e_type"], [enums.ENUM_E_TYPE]),
        number(values["e_machine"], [enums.ENUM_E_MACHINE]),
        number(ident["EI_OSABI"], [enums.ENUM_EI_OSABI]),
        ident["EI_ABIVERSION"],
    )


def section(theirs):
    names = ("sh_flags", "sh_addr", "sh_offset", "sh_size", "sh_addralign", "sh_entsize", "sh_name", "sh_link", "sh_info")
    return (theirs.name, number(theirs["sh_type"], TYPES_OF_SECTIONS), *(theirs[name] for name in names))


def segment(theirs):
    names = ("p_offset", "p_vaddr", "p_paddr", "p_filesz", "p_memsz", "p_align", "p_flags")
    return (number(theirs["p_type"], TYPES_OF_SEGMENTS), *(theirs[name] for name in names))


def symbol(theirs):
    return (
        theirs.name,
        theirs["st_value"],
        theirs["st_size"],
        theirs["st_name"],
        number(theirs["st_shndx"], [enums.ENUM_ST_SHNDX]),
        number(theirs["st_info"]["bind"], [enums.ENUM_ST_INFO_BIND]),
        number(theirs["st_info"]["type"], [enums.ENUM_ST_INFO_TYPE]),
        number(theirs["st_other"]["visibility"], [enums.ENUM_ST_VISIBILITY]),
    )


def relocation(theirs):
    addend = theirs["r_addend"] if theirs.is_RELA() else 0
    return (theirs["r_offset"], theirs["r_info_sym"], theirs["r_info_type"], addend, int(theirs.is_RELA()))


def dynamic(theirs):
    return (number(theirs["d_tag"], TAGS), theirs["d_val"])


def note(theirs):
    return (theirs["n_name"], number(theirs["n_type"], TYPES_OF_NOTES), theirs["n_descdata"])
