/* A proved reader of ELF files for C11 and C++: the declarations of the static library `elf_c`.
 *
 * A file is the bytes `input[0 .. input_size]`, which the caller keeps. `xmas_elf_open` reads the ELF header into a
 * struct, and the calls for parts of the file take the same bytes and that struct. A call returns a status: XMAS_ELF_OK,
 * or the number of an error, the first that applies in the order of its comment. Errors that calls share are listed once,
 * after the statuses: a comment names them by what they are of, as "those of a section header". No call allocates, keeps a
 * pointer, locks, writes anything but its outputs, or fails otherwise, whatever the bytes, the header and the indices are.
 * Any number of threads may call at the same time.
 *
 * Outputs. `*out` and `*count` may be uninitialised before the call. If the status is XMAS_ELF_OK, they are written.
 * Otherwise they keep their value, and an uninitialised one stays uninitialised: test the status first.
 *
 * Calls for many records write to the front of `out` as many records as `out_count` says, or all that follow index
 * `first`, and their number to `*count`; the rest of `out` keeps its value. With `out_count` 0 the number is 0. After
 * the last record the status is XMAS_ELF_NO_RECORD, which ends a loop:
 *     for (first = 0; xmas_elf_sections(.., first, out, 64, &count) == XMAS_ELF_OK; first += count) ..
 *
 * Pointers. A pointer with a count after it (`input`, `name`, `names`, `ranges`, an array `out`) may be null where the
 * count is 0. Every other pointer points to a value. Bytes need no alignment: `input` and `names` may begin at any
 * address. Structs have the alignment that C gives them.
 *
 * Overlap. What a call writes (`out`, `count`) may not overlap any other argument: not the input, the header, `part`,
 * `names` or `ranges`, and not each other. What it only reads may overlap, so `names` may be the input. No other thread
 * may write to any of it during the call.
 *
 * Ranges. A range that a call returns lies in the input, an empty one too: `offset + size <= input_size`. For an empty
 * section the offset is its own; for an empty segment it is 0, whatever its own is. For a name of many that can't be
 * read, offset and size are 0.
 *
 * Mapped files. The bytes may be a file that is mapped (mmap). If another program cuts it off meanwhile, a read past its
 * end raises SIGBUS, which ends the process; if it changes, results that belong together may not fit. Read a file that
 * others write to into memory (fread), as examples/symbols.c does.
 *
 * The archive is built for x86-64 Linux and processors of level x86-64-v2 (SSE4.2 and POPCNT), and is position
 * independent. It needs `memcpy`, `memmove` and `memset` of the C library, and nothing else. It has no unwind tables
 * (.eh_frame): a debugger or profiler shows no callers above a function of the archive. No call calls back, so no
 * exception passes through one.
 */
#ifndef XMAS_ELF_H
#define XMAS_ELF_H

#include <stddef.h>
#include <stdint.h>

/* The version of this header and of the archive that it belongs to. */
#define XMAS_ELF_VERSION_MAJOR 0
#define XMAS_ELF_VERSION_MINOR 1
#define XMAS_ELF_VERSION_PATCH 0
#define XMAS_ELF_VERSION "0.1.0"

/* After an error the outputs are unchanged, so read the status. C++17 and C23 warn if it isn't read. */
#if defined(__cplusplus) && __cplusplus >= 201703L
#define XMAS_ELF_NODISCARD [[nodiscard]]
#elif defined(__STDC_VERSION__) && __STDC_VERSION__ >= 202311L
#define XMAS_ELF_NODISCARD [[nodiscard]]
#else
#define XMAS_ELF_NODISCARD
#endif

#ifdef __cplusplus
#define XMAS_ELF_NOEXCEPT noexcept
extern "C" {
#else
#define XMAS_ELF_NOEXCEPT
#endif

/* The statuses, written by tools/exports/declarations.py. */
enum xmas_elf_status {
    XMAS_ELF_OK = 0,
    /* File is shorter than the first ELF header part. */
    XMAS_ELF_SHORT_PART_1 = 1,
    /* Did not find ELF magic number. */
    XMAS_ELF_NO_MAGIC = 2,
    /* Invalid ELF class. */
    XMAS_ELF_INVALID_CLASS = 3,
    /* File is shorter than ELF headers. */
    XMAS_ELF_SHORT_HEADERS = 4,
    /* Attempt to get section for a reserved index. */
    XMAS_ELF_RESERVED_INDEX = 5,
    /* File is shorter than section header offset. */
    XMAS_ELF_SHORT_SECTION_HEADER = 6,
    /* Unknown ELF class. */
    XMAS_ELF_UNKNOWN_CLASS = 7,
    /* Entry size is smaller than the record. */
    XMAS_ELF_SMALL_ENTRY = 8,
    /* There are no program headers in this file. */
    XMAS_ELF_NO_PROGRAM_HEADERS = 9,
    /* File is shorter than program header offset. */
    XMAS_ELF_SHORT_PROGRAM_HEADER = 10,
    /* Invalid sh type. */
    XMAS_ELF_INVALID_SH_TYPE = 11,
    /* Attempt to get name of null section. */
    XMAS_ELF_NULL_NAME = 12,
    /* File is shorter than section offset. */
    XMAS_ELF_SHORT_SECTION_OFFSET = 13,
    /* Text starts past the end of its data. */
    XMAS_ELF_TEXT_START = 14,
    /* Text has no terminating zero. */
    XMAS_ELF_TEXT_END = 15,
    /* Text is not valid UTF-8. */
    XMAS_ELF_TEXT_UTF_8 = 16,
    /* Attempt to get data of a null header. */
    XMAS_ELF_NULL_DATA = 17,
    /* Data is out of range. */
    XMAS_ELF_DATA_RANGE = 18,
    /* Data is not a whole number of records. */
    XMAS_ELF_NOT_MULTIPLE = 19,
    /* Data is too short. */
    XMAS_ELF_SHORT_DATA = 20,
    /* 32-bit binaries not implemented. */
    XMAS_ELF_NOTE_32 = 21,
    /* Note name does not match its size. */
    XMAS_ELF_NOTE_NAME = 22,
    /* Note description is out of range. */
    XMAS_ELF_NOTE_DESC = 23,
    /* no .strtab section. */
    XMAS_ELF_NO_STRTAB = 24,
    /* expected .strtab to be StrTab. */
    XMAS_ELF_STRTAB_TYPE = 25,
    /* no .dynstr section. */
    XMAS_ELF_NO_DYNSTR = 26,
    /* Invalid type. */
    XMAS_ELF_INVALID_PH_TYPE = 27,
    /* Invalid tag value. */
    XMAS_ELF_INVALID_TAG = 28,
    /* Invalid value. */
    XMAS_ELF_INVALID_VALUE = 29,
    /* Invalid ptr. */
    XMAS_ELF_INVALID_PTR = 30,
    /* Invalid value for binding. */
    XMAS_ELF_INVALID_BINDING = 31,
    /* Invalid value for type. */
    XMAS_ELF_INVALID_SYMBOL_TYPE = 32,
    /* Reserved section header index. */
    XMAS_ELF_RESERVED_SYMBOL_INDEX = 33,
    /* no .symtab_shndx section. */
    XMAS_ELF_NO_SH_INDEX = 34,
    /* Expected SymTabShIndex. */
    XMAS_ELF_EXPECTED_SH_INDEX = 35,
    /* Symbol index is out of range. */
    XMAS_ELF_SYMBOL_INDEX = 36,
    /* Section index does not fit in 16 bits. */
    XMAS_ELF_WIDE_INDEX = 37,
    /* bad magic number. */
    XMAS_ELF_BAD_MAGIC = 38,
    /* header_size does not match size of header. */
    XMAS_ELF_HEADER_SIZE = 39,
    /* No class. */
    XMAS_ELF_NO_CLASS = 40,
    /* Mismatch between specified and actual class. */
    XMAS_ELF_CLASS_MISMATCH = 41,
    /* no version. */
    XMAS_ELF_NO_VERSION = 42,
    /* no data format. */
    XMAS_ELF_NO_DATA_FORMAT = 43,
    /* program header table out of range. */
    XMAS_ELF_PH_TABLE_RANGE = 44,
    /* section header table out of range. */
    XMAS_ELF_SH_TABLE_RANGE = 45,
    /* program header size mismatch. */
    XMAS_ELF_PH_SIZE_MISMATCH = 46,
    /* entry point out of range. */
    XMAS_ELF_ENTRY_POINT_RANGE = 47,
    /* Shouldn't use ShLib. */
    XMAS_ELF_SH_LIB_USED = 48,
    /* Invalid combination of virtual_addr, offset, and align. */
    XMAS_ELF_BAD_ALIGN = 49,
    /* Bucket index is out of range. */
    XMAS_ELF_BUCKET_INDEX = 50,
    /* Chain index is out of range. */
    XMAS_ELF_CHAIN_INDEX = 51,
    /* Chain position does not fit in 32 bits. */
    XMAS_ELF_CHAIN_SUM = 52,
    /* Hash table data is too short. */
    XMAS_ELF_HASH_DATA = 53,
    /* Hash chain never ends. */
    XMAS_ELF_HASH_CYCLE = 54,
    /* Symbol is missing from the hash table. */
    XMAS_ELF_HASH_MISSING = 55,
    /* GNU hash table is too short. */
    XMAS_ELF_LINK_SHORT_TABLE = 101,
    /* Class is neither 1 nor 2. */
    XMAS_ELF_LINK_UNKNOWN_CLASS = 102,
    /* Number of Bloom words is not a power of two. */
    XMAS_ELF_LINK_BLOOM_COUNT = 103,
    /* Bucket index is out of range. */
    XMAS_ELF_LINK_BUCKET_INDEX = 104,
    /* Symbol index is before the first of the table. */
    XMAS_ELF_LINK_CHAIN_INDEX = 105,
    /* Chain is not in the data. */
    XMAS_ELF_LINK_CHAIN_DATA = 106,
    /* Symbol index is out of range. */
    XMAS_ELF_LINK_SYMBOL_INDEX = 107,
    /* Symbol is missing from the GNU hash table. */
    XMAS_ELF_LINK_MISSING = 108,
    /* No dynamic segment. */
    XMAS_ELF_LINK_NO_DYNAMIC = 109,
    /* Dynamic segment has no such entry. */
    XMAS_ELF_LINK_NO_ENTRY = 110,
    /* Address is in no loaded segment. */
    XMAS_ELF_LINK_ADDRESS = 111,
    /* Note is cut off. */
    XMAS_ELF_LINK_SHORT_NOTE = 112,
    /* Data is not a whole number of words. */
    XMAS_ELF_LINK_NOT_MULTIPLE = 113,
    /* Version record is cut off. */
    XMAS_ELF_LINK_SHORT_VERSION = 114,
    /* Version needs have more parts than bytes. */
    XMAS_ELF_LINK_VERSION_COUNT = 115,
    /* Kind of relocations is neither Rel nor Rela. */
    XMAS_ELF_LINK_RELOCATION_KIND = 116,
    /* Object index is out of range. */
    XMAS_ELF_LINK_OBJECT_INDEX = 117,
    /* Version records are more or fewer than told. */
    XMAS_ELF_LINK_VERSION_CHAIN = 118,
    /* A section holds other data than what is asked for. */
    XMAS_ELF_OTHER_DATA = 201,
    /* A table has no record with this index. */
    XMAS_ELF_NO_RECORD = 202,
    /* Nothing has this name. */
    XMAS_ELF_NOT_FOUND = 203,
    /* There are more than 64 objects. */
    XMAS_ELF_MANY_OBJECTS = 204,
    /* A debug file has no build id. */
    XMAS_ELF_NO_BUILD_ID = 211,
    /* A debug file has another build id. */
    XMAS_ELF_OTHER_BUILD_ID = 212,
    /* A debug file has another CRC. */
    XMAS_ELF_OTHER_CHECKSUM = 213,
    /* Type is neither executable nor shared object. */
    XMAS_ELF_LOAD_TYPE = 301,
    /* Program headers are not of the size of the class. */
    XMAS_ELF_LOAD_ENTRY_SIZE = 302,
    /* Program header table is empty or larger than a page. */
    XMAS_ELF_LOAD_COUNT = 303,
    /* Program header table is past the end of the file. */
    XMAS_ELF_LOAD_TABLE = 304,
    /* Load segment is larger in the file than in memory. */
    XMAS_ELF_LOAD_FILE_SIZE = 305,
    /* Load segment is empty. */
    XMAS_ELF_LOAD_EMPTY = 306,
    /* Address and offset of a load segment differ modulo the page size. */
    XMAS_ELF_LOAD_MISALIGNED = 307,
    /* Alignment of a load segment is not a power of two. */
    XMAS_ELF_LOAD_ALIGNMENT = 308,
    /* Load segment is past the address limit. */
    XMAS_ELF_LOAD_RANGE = 309,
    /* Load segment is past the end of the file. */
    XMAS_ELF_LOAD_DATA = 310,
    /* Load segment begins before the end of the one before it. */
    XMAS_ELF_LOAD_OVERLAP = 311,
    /* Load segment has zeros but is not readable and writable. */
    XMAS_ELF_LOAD_ZEROS = 312,
    /* No load segment. */
    XMAS_ELF_LOAD_NO_LOAD = 313,
    /* Program headers are not where the file says they are in memory. */
    XMAS_ELF_LOAD_HEADERS = 314,
    /* Path of the interpreter is not valid. */
    XMAS_ELF_LOAD_INTERPRETER = 315,
    /* Part that is read-only after relocation is in no load segment. */
    XMAS_ELF_LOAD_RELRO = 316,
    /* Thread-local storage is not valid. */
    XMAS_ELF_LOAD_TLS = 317,
    /* Image is not of the size of the span. */
    XMAS_ELF_LOAD_IMAGE_SIZE = 318,
    /* Dynamic segment is in no readable load segment. */
    XMAS_ELF_LOAD_DYNAMIC = 319,
    /* No string table or no symbols. */
    XMAS_ELF_LOAD_NO_ENTRY = 320,
    /* Size of relocations is not that of the class. */
    XMAS_ELF_LOAD_RELOCATION_SIZE = 321,
    /* Table of relocations is not a whole number of them. */
    XMAS_ELF_LOAD_NOT_MULTIPLE = 322,
    /* Table of the dynamic segment is in no readable load segment. */
    XMAS_ELF_LOAD_UNREADABLE = 323,
    /* Kind of relocations of the procedure linkage table is neither Rel nor Rela. */
    XMAS_ELF_LOAD_SLOT_KIND = 324,
    /* Machine is not supported. */
    XMAS_ELF_LOAD_MACHINE = 325,
    /* Marks have fewer bits than the load segments have bytes. */
    XMAS_ELF_LOAD_FEW_MARKS = 326,
    /* Type of a relocation is not supported. */
    XMAS_ELF_LOAD_WORD_TYPE = 327,
    /* Word is in no load segment. */
    XMAS_ELF_LOAD_WORD_ADDRESS = 328,
    /* Word is in a load segment that is not writable. */
    XMAS_ELF_LOAD_READ_ONLY = 329,
    /* Words overlap. */
    XMAS_ELF_LOAD_WORDS_OVERLAP = 330,
    /* Word is in a table of the dynamic segment. */
    XMAS_ELF_LOAD_WORD_IN_TABLE = 331,
    /* Symbol is in no object. */
    XMAS_ELF_LOAD_UNRESOLVED = 332,
    /* Bytes to copy are not in the image of their object. */
    XMAS_ELF_LOAD_COPY_SOURCE = 333,
    /* Byte order is not little-endian. */
    XMAS_ELF_LOAD_BYTE_ORDER = 334,
    /* Version in the first bytes is not 1. */
    XMAS_ELF_LOAD_IDENT_VERSION = 335,
    /* ABI of the operating system is neither System V nor GNU. */
    XMAS_ELF_LOAD_OS_ABI = 336,
    /* Version of the ABI is not known. */
    XMAS_ELF_LOAD_ABI_VERSION = 337,
    /* Bytes 9 to 15 are not zero. */
    XMAS_ELF_LOAD_PADDING = 338,
    /* Version of the file is not 1. */
    XMAS_ELF_LOAD_VERSION = 339,
    /* Program at a fixed address is no library. */
    XMAS_ELF_LOAD_EXECUTABLE = 340,
    /* No dynamic segment. */
    XMAS_ELF_LOAD_NO_DYNAMIC = 341,
    /* Entry point is past the address limit. */
    XMAS_ELF_LOAD_ENTRY = 342,
    /* Relocations without addends in a file of class 64. */
    XMAS_ELF_LOAD_NO_ADDENDS = 343,
    /* No table of the procedure linkage table for its kind of relocations. */
    XMAS_ELF_LOAD_NO_SLOTS = 344,
    /* First packed relocation is not an address. */
    XMAS_ELF_LOAD_FIRST_PACKED = 345,
    /* Fewer relative relocations than are counted. */
    XMAS_ELF_LOAD_RELATIVE_COUNT = 346,
    /* Type of a relocation is not for the procedure linkage table. */
    XMAS_ELF_LOAD_SLOT_TYPE = 347,
    /* Size of a symbol that is in no object. */
    XMAS_ELF_LOAD_NO_SIZE = 348,
    /* Symbol to copy is absolute or an indirect function. */
    XMAS_ELF_LOAD_COPY_KIND = 349,
    /* Relocation by a function that names a symbol. */
    XMAS_ELF_LOAD_CALL_SYMBOL = 350,
    /* Relocations with addends in a file of class 32. */
    XMAS_ELF_LOAD_ADDENDS = 351,
    /* Table has 2^32 symbols or more. */
    XMAS_ELF_INDEX_MANY_SYMBOLS = 401,
    /* Too few words for the index. */
    XMAS_ELF_INDEX_FEW_WORDS = 402,
    /* cannot read file data. */
    XMAS_ELF_SEARCH_FILE_DATA = 501,
    /* file too short. */
    XMAS_ELF_SEARCH_SHORT_FILE = 502,
    /* invalid ELF header. */
    XMAS_ELF_SEARCH_MAGIC = 503,
    /* ELF file data encoding not little-endian. */
    XMAS_ELF_SEARCH_BYTE_ORDER = 504,
    /* ELF file version ident does not match current one. */
    XMAS_ELF_SEARCH_IDENT_VERSION = 505,
    /* ELF file OS ABI invalid. */
    XMAS_ELF_SEARCH_OS_ABI = 506,
    /* ELF file ABI version invalid. */
    XMAS_ELF_SEARCH_ABI_VERSION = 507,
    /* nonzero padding in e_ident. */
    XMAS_ELF_SEARCH_PADDING = 508,
    /* ELF file version does not match current one. */
    XMAS_ELF_SEARCH_VERSION = 509,
    /* only ET_DYN and ET_EXEC can be loaded. */
    XMAS_ELF_SEARCH_TYPE = 510,
    /* ELF file's phentsize not the expected size. */
    XMAS_ELF_SEARCH_ENTRY_SIZE = 511,
    /* object file has no loadable segments. */
    XMAS_ELF_SEARCH_NO_LOAD = 512,
    /* cannot dynamically load executable. */
    XMAS_ELF_SEARCH_EXECUTABLE = 513,
    /* object file has no dynamic section. */
    XMAS_ELF_SEARCH_NO_DYNAMIC = 514,
    /* cannot dynamically load position-independent executable. */
    XMAS_ELF_SEARCH_SHARED_EXECUTABLE = 515,
    /* empty dynamic string token substitution. */
    XMAS_ELF_SEARCH_EMPTY_TOKEN = 516,
    /* not a cache of libraries. */
    XMAS_ELF_SEARCH_NOT_A_CACHE = 517,
    /* entries extend past the end of the cache. */
    XMAS_ELF_SEARCH_CACHE_COUNT = 518,
    /* cache is of another byte order. */
    XMAS_ELF_SEARCH_CACHE_ORDER = 519,
    /* too few words for the objects. */
    XMAS_ELF_SEARCH_FEW_WORDS = 520,
    /* no such object or entry. */
    XMAS_ELF_SEARCH_NO_OBJECT = 521,
    /* key or value past the end of the cache. */
    XMAS_ELF_SEARCH_CACHE_ENTRY = 522,
    /* number in a key of the cache is too large. */
    XMAS_ELF_SEARCH_CACHE_NUMBER = 523,
    /* entries of the cache are not in order. */
    XMAS_ELF_SEARCH_CACHE_ENTRY_ORDER = 524,
    /* extension of the cache is damaged. */
    XMAS_ELF_SEARCH_CACHE_EXTENSION = 525,
    /* name of hwcaps past the end of the cache. */
    XMAS_ELF_SEARCH_HWCAPS_NAME = 526,
    /* names of hwcaps are not in order. */
    XMAS_ELF_SEARCH_HWCAPS_ORDER = 527,
    /* file of a need of versions is no object. */
    XMAS_ELF_SEARCH_NO_PROVIDER = 530
};

/* How many bytes the longest text of a status has. */
#define XMAS_ELF_LONGEST_MESSAGE 74

/* Errors that comments of calls name by what they are of, in the order of the tests. One that a call has twice counts
 * at its first place.
 *
 * Those of the ELF header: XMAS_ELF_SHORT_PART_1, XMAS_ELF_NO_MAGIC, XMAS_ELF_INVALID_CLASS, XMAS_ELF_SHORT_HEADERS.
 * Those of a section header: XMAS_ELF_SHORT_SECTION_HEADER, XMAS_ELF_UNKNOWN_CLASS, XMAS_ELF_SMALL_ENTRY.
 * Those of a program header: XMAS_ELF_NO_PROGRAM_HEADERS, XMAS_ELF_UNKNOWN_CLASS, XMAS_ELF_SHORT_PROGRAM_HEADER,
 *     XMAS_ELF_SMALL_ENTRY.
 * Those of a section's records: XMAS_ELF_INVALID_SH_TYPE, XMAS_ELF_DATA_RANGE, XMAS_ELF_NOT_MULTIPLE,
 *     XMAS_ELF_NOTE_32, XMAS_ELF_SHORT_DATA.
 * Those of a text: XMAS_ELF_TEXT_START, XMAS_ELF_TEXT_END, XMAS_ELF_TEXT_UTF_8.
 * Those of a chain of the gABI's hash table: XMAS_ELF_HASH_DATA, XMAS_ELF_CHAIN_INDEX, XMAS_ELF_SYMBOL_INDEX,
 *     XMAS_ELF_CHAIN_SUM, XMAS_ELF_HASH_CYCLE.
 * Those of a chain of GNU's hash table: XMAS_ELF_LINK_CHAIN_INDEX, XMAS_ELF_LINK_SYMBOL_INDEX,
 *     XMAS_ELF_LINK_CHAIN_DATA.
 * Those of the dynamic segment: XMAS_ELF_LINK_NO_DYNAMIC, XMAS_ELF_LINK_ADDRESS, XMAS_ELF_DATA_RANGE,
 *     XMAS_ELF_NOT_MULTIPLE.
 * Those of the number of dynamic symbols: those of the dynamic segment, XMAS_ELF_LINK_NO_ENTRY, XMAS_ELF_SHORT_DATA,
 *     XMAS_ELF_LINK_SHORT_TABLE, XMAS_ELF_LINK_BLOOM_COUNT, XMAS_ELF_LINK_CHAIN_INDEX, XMAS_ELF_LINK_CHAIN_DATA,
 *     XMAS_ELF_LINK_SYMBOL_INDEX.
 * Those of a text of the dynamic segment: XMAS_ELF_LINK_NO_ENTRY, XMAS_ELF_LINK_ADDRESS, XMAS_ELF_DATA_RANGE,
 *     those of a text.
 * Those of a version: XMAS_ELF_LINK_SHORT_VERSION, XMAS_ELF_LINK_VERSION_COUNT,
 *     those of a text of the dynamic segment.
 * Those of a load plan: XMAS_ELF_LOAD_TYPE, XMAS_ELF_LOAD_ENTRY_SIZE, XMAS_ELF_LOAD_COUNT, XMAS_ELF_LOAD_TABLE,
 *     XMAS_ELF_LOAD_FILE_SIZE, XMAS_ELF_LOAD_EMPTY, XMAS_ELF_LOAD_MISALIGNED, XMAS_ELF_LOAD_ALIGNMENT,
 *     XMAS_ELF_LOAD_RANGE, XMAS_ELF_LOAD_DATA, XMAS_ELF_LOAD_OVERLAP, XMAS_ELF_LOAD_ZEROS, XMAS_ELF_LOAD_NO_LOAD,
 *     XMAS_ELF_LOAD_HEADERS, XMAS_ELF_LOAD_INTERPRETER, XMAS_ELF_LOAD_RELRO, XMAS_ELF_LOAD_TLS, XMAS_ELF_LOAD_ENTRY.
 * Those of the objects: XMAS_ELF_LINK_OBJECT_INDEX, XMAS_ELF_MANY_OBJECTS, those of the ELF header,
 *     those of the number of dynamic symbols, XMAS_ELF_LINK_UNKNOWN_CLASS, XMAS_ELF_LINK_NOT_MULTIPLE,
 *     XMAS_ELF_LINK_RELOCATION_KIND, XMAS_ELF_SYMBOL_INDEX, those of a chain of the gABI's hash table,
 *     XMAS_ELF_LINK_SHORT_VERSION, XMAS_ELF_LINK_VERSION_COUNT, those of a text.
 * Those of tables of relocations: XMAS_ELF_LOAD_DYNAMIC, XMAS_ELF_LOAD_NO_ENTRY, XMAS_ELF_LOAD_NO_ADDENDS,
 *     XMAS_ELF_LOAD_ADDENDS, XMAS_ELF_LOAD_NO_SLOTS, XMAS_ELF_LOAD_RELOCATION_SIZE, XMAS_ELF_LOAD_NOT_MULTIPLE,
 *     XMAS_ELF_LOAD_UNREADABLE, XMAS_ELF_LOAD_FIRST_PACKED, XMAS_ELF_LOAD_SLOT_KIND, XMAS_ELF_LOAD_MACHINE,
 *     XMAS_ELF_LOAD_RELATIVE_COUNT, XMAS_ELF_LOAD_SLOT_TYPE.
 * Those of a relocation: XMAS_ELF_LOAD_WORD_TYPE, XMAS_ELF_LOAD_NO_SIZE, XMAS_ELF_LOAD_COPY_KIND,
 *     XMAS_ELF_LOAD_CALL_SYMBOL.
 */
/* End of the statuses. */

/* A text of a list that a struct names: its bytes, without a zero byte at their end. The pointer is not null, also
 * where the size is 0. */
typedef struct xmas_elf_text_t {
    const uint8_t *bytes;
    size_t size;
} xmas_elf_text_t;

/* The structs and functions, written by tools/exports/declarations.py. */
/* The ELF header of a file (gABI, "ELF Header"). */
typedef struct xmas_elf_header_t {
    /* The address at which a program begins to run, or 0 (e_entry). */
    uint64_t entry_point;
    /* The offset of the program header table in the file, in bytes, or 0 (e_phoff). */
    uint64_t ph_offset;
    /* The offset of the section header table in the file, in bytes, or 0 (e_shoff). */
    uint64_t sh_offset;
    /* The version of the file (e_version). */
    uint32_t version;
    /* Flags of the processor (e_flags). */
    uint32_t flags;
    /* The kind of file (e_type). */
    uint16_t type;
    /* The processor that the file is for (e_machine). */
    uint16_t machine;
    /* The size of the ELF header in bytes, as the file says (e_ehsize). */
    uint16_t header_size;
    /* The size of an entry of the program header table in bytes (e_phentsize). */
    uint16_t ph_entry_size;
    /* The number of program headers, or 0xffff where it needs more than 16 bits (e_phnum). */
    uint16_t ph_count;
    /* The size of an entry of the section header table in bytes (e_shentsize). */
    uint16_t sh_entry_size;
    /* The number of section headers, or 0 where it needs more than 16 bits (e_shnum). */
    uint16_t sh_count;
    /* The index of the section with the names of sections, or 0xffff where it needs more than 16 bits (e_shstrndx). */
    uint16_t sh_str_index;
    /* 1: class 32, 2: class 64 (EI_CLASS). */
    uint8_t file_class;
    /* 2: big-endian; any other number is read as little-endian (EI_DATA). */
    uint8_t encoding;
    /* The version of the header (EI_VERSION). */
    uint8_t header_version;
    /* The operating system whose extensions the file uses (EI_OSABI). */
    uint8_t os_abi;
    /* The version of these extensions (EI_ABIVERSION). */
    uint8_t abi_version;
    /* Bytes without a meaning (EI_PAD). */
    uint8_t padding[7];
} xmas_elf_header_t;

/* The numbers of sections and segments, also those that need more than 16 bits. */
typedef struct xmas_elf_counts_t {
    /* The number of sections. */
    uint64_t sections;
    /* The number of segments. */
    uint32_t segments;
} xmas_elf_counts_t;

/* A byte range of the input: `input[offset .. offset + size]`. A range that a call returns lies in the input. */
typedef struct xmas_elf_range_t {
    /* The offset of the first byte, in bytes from the start of the input. */
    uint64_t offset;
    /* The number of bytes. */
    uint64_t size;
} xmas_elf_range_t;

/* The range of one name of many. */
typedef struct xmas_elf_name_t {
    /* The bytes of the name without the zero byte that ends it; offset and size are 0 if the name can't be read. */
    xmas_elf_range_t range;
    /* The status of this name. */
    uint32_t status;
} xmas_elf_name_t;

/* A section header (gABI, "Sections"). */
typedef struct xmas_elf_section_t {
    /* The flags of the section (sh_flags). */
    uint64_t flags;
    /* The address of the section in memory, or 0 (sh_addr). */
    uint64_t address;
    /* The offset of the section's data in the file, in bytes (sh_offset). */
    uint64_t offset;
    /* The size of the section in bytes (sh_size). */
    uint64_t size;
    /* The alignment of the section's address, in bytes (sh_addralign). */
    uint64_t align;
    /* The size of an entry of the section in bytes, or 0 (sh_entsize). */
    uint64_t entry_size;
    /* The index of the section's name in the name table, in bytes (sh_name). */
    uint32_t name;
    /* The type of the section (sh_type). */
    uint32_t type;
    /* The index of a linked section; its meaning depends on the type (sh_link). */
    uint32_t link;
    /* More about the section; its meaning depends on the type (sh_info). */
    uint32_t info;
} xmas_elf_section_t;

/* A program header (gABI, "Program Header"). */
typedef struct xmas_elf_segment_t {
    /* The offset of the segment's data in the file, in bytes (p_offset). */
    uint64_t offset;
    /* The address of the segment in memory (p_vaddr). */
    uint64_t virtual_addr;
    /* The physical address of the segment, where that matters (p_paddr). */
    uint64_t physical_addr;
    /* The size of the segment in the file, in bytes (p_filesz). */
    uint64_t file_size;
    /* The size of the segment in memory, in bytes (p_memsz). */
    uint64_t mem_size;
    /* The alignment of the segment in memory and in the file, in bytes; 0 and 1 mean none (p_align). */
    uint64_t align;
    /* The type of the segment (p_type). */
    uint32_t type;
    /* The permissions of the segment's memory (p_flags). */
    uint32_t flags;
} xmas_elf_segment_t;

/* A symbol (gABI, "Symbol Table"). */
typedef struct xmas_elf_symbol_t {
    /* The address of the symbol, or an offset in its section (st_value). */
    uint64_t value;
    /* The size of the function or object in bytes, or 0 (st_size). */
    uint64_t size;
    /* The index of the symbol's name in its string table, in bytes; 0 where it has none (st_name). */
    uint32_t name;
    /* The index of the section that the symbol belongs to, or a reserved index (st_shndx). */
    uint16_t shndx;
    /* The binding times 16, plus the type (st_info). */
    uint8_t info;
    /* The visibility: the remainder of this number by 4 (st_other). */
    uint8_t other;
} xmas_elf_symbol_t;

/* Symbols found once: the numbers that `xmas_elf_symbols_open` or `xmas_elf_dynamic_symbols_open` fills, and that
 * other calls take back. */
typedef struct xmas_elf_symbol_table_t {
    /* The bytes of the symbols. */
    xmas_elf_range_t symbols;
    /* The bytes of the string table of their names; offset and size are 0 if it can't be read. */
    xmas_elf_range_t strings;
    /* The number of symbols. */
    uint64_t count;
    /* The status of the string table. */
    uint32_t strings_status;
    /* 1: symbols of class 32, any other number: of class 64 (EI_CLASS). */
    uint16_t file_class;
    /* 2: big-endian; any other number is read as little-endian (EI_DATA). */
    uint16_t encoding;
} xmas_elf_symbol_table_t;

/* A relocation (gABI, "Relocation"). */
typedef struct xmas_elf_relocation_t {
    /* The place that is changed: an offset in its section, or an address (r_offset). */
    uint64_t offset;
    /* The addend; 32 bits of it count in class 32, and it is 0 in a table without addends (r_addend). */
    uint64_t addend;
    /* The index of the symbol (r_info). */
    uint32_t symbol;
    /* The type of the relocation, by the processor (r_info). */
    uint32_t type;
    /* 1 in a table with addends (SHT_RELA), 0 in one without (SHT_REL). */
    uint32_t has_addend;
} xmas_elf_relocation_t;

/* A dynamic entry (gABI, "Dynamic Section"). */
typedef struct xmas_elf_dynamic_t {
    /* The tag (d_tag). */
    uint64_t tag;
    /* A value or an address, by the tag (d_un). */
    uint64_t value;
} xmas_elf_dynamic_t;

/* A note (gABI, "Note Section"), and the notes that follow it. */
typedef struct xmas_elf_note_t {
    /* The name, with the zero byte that ends it (namesz bytes). */
    xmas_elf_range_t name;
    /* The description (descsz bytes). */
    xmas_elf_range_t desc;
    /* The bytes after the note and its padding: the next notes. */
    xmas_elf_range_t rest;
    /* The type of the note; its meaning depends on the name. */
    uint32_t type;
} xmas_elf_note_t;

/* The result of one look-up of many. */
typedef struct xmas_elf_answer_t {
    /* The status of this look-up; where it is not OK, the numbers after it are 0. */
    uint32_t status;
    /* 1 where a symbol is found, and else 0. */
    uint32_t found;
    /* The index of the symbol, or 0. */
    uint32_t index;
    /* The number of chain entries that the look-up read. */
    uint32_t looked_at;
} xmas_elf_answer_t;

/* A hash table of a section with its symbols, found once: the numbers that `xmas_elf_hash_open` fills, and that other
 * calls take back. */
typedef struct xmas_elf_hash_table_t {
    /* The bytes of the hash table. */
    xmas_elf_range_t table;
    /* Its symbols, with the string table in which look-ups compare their names. */
    xmas_elf_symbol_table_t symbols;
    /* The type of the section: 0x6ffffff6 (SHT_GNU_HASH) for GNU's table, any other number for the gABI's. */
    uint32_t kind;
} xmas_elf_hash_table_t;

/* The version of a symbol, or one that a file defines or needs (LSB, "Symbol Versioning"). */
typedef struct xmas_elf_version_t {
    /* The bytes of the version's name without the zero byte that ends it; offset and size are 0 where it has none. */
    xmas_elf_range_t name;
    /* The bytes of the name of the library that the version is needed of; offset and size are 0 where there is none. */
    xmas_elf_range_t file;
    /* The status of this version; where it is not OK, the other fields are 0. */
    uint32_t status;
    /* The status of the version's name. */
    uint32_t name_status;
    /* The status of the library's name. */
    uint32_t file_status;
    /* What has the number: 0 nothing, 1 a definition of the file, 2 a need. */
    uint32_t kind;
    /* The number of the version, by which symbols refer to it (vd_ndx; bits 0 to 14 of a symbol's number and of
     * vna_other): 0 is local, 1 is global. */
    uint32_t number;
    /* 1 where the symbol or the need is hidden (bit 15 of its number), and else 0. */
    uint32_t hidden;
    /* The flags of the definition or the need (vd_flags, vna_flags); the lowest marks the definition that names the
     * file itself. */
    uint32_t flags;
    /* The hash number of the version's name (vd_hash, vna_hash). */
    uint32_t hash;
} xmas_elf_version_t;

/* The symbol that a reference gets. */
typedef struct xmas_elf_found_symbol_t {
    /* The symbol; its fields are 0 where none is found. */
    xmas_elf_symbol_t symbol;
    /* 1 where a symbol is found, and else 0. */
    uint32_t found;
    /* The index of the symbol among those of the dynamic segment, or 0. */
    uint32_t index;
} xmas_elf_found_symbol_t;

/* An index of symbols by their addresses: the numbers that `xmas_elf_address_index` fills, and that
 * `xmas_elf_symbols_at` takes back. */
typedef struct xmas_elf_address_index_t {
    /* The symbols, and the string table of their names. */
    xmas_elf_symbol_table_t table;
    /* The bytes of the section of type SHT_SYMTAB_SHNDX; its size is 0 if there is none. */
    xmas_elf_range_t indices;
    /* The number of words that the index takes. */
    uint64_t words;
    /* The number of numbers of 64 bits that the index takes. */
    uint64_t numbers;
    /* The number of symbols with a size in the index; 0 if it is not built. */
    uint64_t sized_count;
    /* The number of symbols of size 0 in the index; 0 if it is not built. */
    uint64_t open_count;
    /* The index of the section whose symbols alone are asked for, or 0. */
    uint32_t within;
    /* The processor that the file is for (e_machine). */
    uint16_t machine;
} xmas_elf_address_index_t;

/* The symbol of an address. */
typedef struct xmas_elf_symbol_at_t {
    /* The symbol; its fields are 0 where none is found. */
    xmas_elf_symbol_t symbol;
    /* The index of the symbol in its table, or 0. */
    uint64_t index;
    /* The address less the value of the symbol, or 0. */
    uint64_t offset;
    /* 1 where a symbol covers the address, and else 0. */
    uint32_t found;
    /* 1 where the size of the symbol is 0, so that its end is unknown, and else 0. */
    uint32_t is_open;
} xmas_elf_symbol_at_t;

/* Addresses from `start` on and before `end`, relative to the base at which a file is loaded. */
typedef struct xmas_elf_span_t {
    /* The first address. */
    uint64_t start;
    /* The first address after the last. */
    uint64_t end;
} xmas_elf_span_t;

/* The template of thread-local storage (gABI, "Thread-Local Storage"); 0 in each field where a file has none. */
typedef struct xmas_elf_tls_template_t {
    /* The address of the bytes that the file has. */
    uint64_t address;
    /* The number of these bytes. */
    uint64_t file_size;
    /* The size of the storage in bytes; zeros follow the bytes of the file. */
    uint64_t mem_size;
    /* The alignment of the storage in bytes. */
    uint64_t align;
} xmas_elf_tls_template_t;

/* What Linux and glibc put into memory for a file. Addresses are relative to a base, which is 0 for a file of type
 * ET_EXEC. */
typedef struct xmas_elf_load_plan_t {
    /* The pages from the first of the first load segment to the last of the last one. */
    xmas_elf_span_t span;
    /* The pages that are only readable after relocation: those of the last PT_GNU_RELRO, both ends rounded down; 0
     * where there is none. */
    xmas_elf_span_t relro;
    /* The last PT_TLS that is not empty. */
    xmas_elf_tls_template_t tls;
    /* The bytes of the path of the program interpreter, up to the first zero byte of the first PT_INTERP; offset and
     * size are 0 where there is none. */
    xmas_elf_range_t interpreter;
    /* The address at which a program begins to run, or 0 (e_entry). */
    uint64_t entry;
    /* The permissions of the stack, those of the last PT_GNU_STACK; 0 where there is none: then they are those of the
     * processor. */
    uint32_t stack_flags;
    /* 1 where the file has a PT_GNU_STACK, and else 0. */
    uint32_t has_stack;
    /* 1 where the file has a PT_GNU_RELRO, and else 0. */
    uint32_t has_relro;
    /* 1 where the file has a PT_INTERP, and else 0. */
    uint32_t has_interpreter;
} xmas_elf_load_plan_t;

/* Pages that are mapped at once. */
typedef struct xmas_elf_load_mapping_t {
    /* The first address, relative to the base. */
    uint64_t start;
    /* The first address after the pages. */
    uint64_t end;
    /* The offset of the first byte in the file; 0 where the pages are not of the file. */
    uint64_t offset;
    /* The permissions: those of the load segment (p_flags), or 0. */
    uint32_t flags;
    /* What the pages hold: 0 nothing that can be read, 1 pages of the file, 2 zeros. */
    uint32_t contents;
} xmas_elf_load_mapping_t;

/* A longest run of bytes of a file, or of addresses, that belong to one part. */
typedef struct xmas_elf_piece_t {
    /* The offset of the first byte, or the first address. */
    uint64_t begin;
    /* The offset after the last byte, or the address after the last; it is above `begin`. */
    uint64_t end;
    /* The index of the section, the segment or the symbol, or 0. */
    uint64_t index;
    /* What it belongs to: 0 the ELF header, 1 the program header table, 2 the section header table, 3 a section, 4 a
     * segment and no section, 5 nothing, and a part begins after it, 6 nothing, and no part begins after it; of
     * `xmas_elf_symbol_pieces` 7 a symbol, 8 no symbol. */
    uint32_t owner;
} xmas_elf_piece_t;

/* The sizes of the pieces of a file. */
typedef struct xmas_elf_piece_sizes_t {
    /* The number of words that the call takes. */
    uint64_t words;
    /* The number of numbers of 64 bits that the call takes. */
    uint64_t numbers;
    /* The number of all pieces of the file; 0 if the call only found how many words and numbers it takes. */
    uint64_t count;
} xmas_elf_piece_sizes_t;

/* A part of a file, and its number of bytes. */
typedef struct xmas_elf_size_part_t {
    /* The bytes of its name, which may be empty. */
    const uint8_t *name;
    size_t name_size;
    /* The number of its kind, as the caller numbers kinds. */
    uint64_t kind;
    /* Its place in the file, such as an index: of parts with one kind and one name, the one with the smallest place
     * is the first. */
    uint64_t place;
    /* Its number of bytes. */
    uint64_t size;
} xmas_elf_size_part_t;

/* What became of a part from one file to another. */
typedef struct xmas_elf_size_change_t {
    /* The index of the part of the old file in its list, as the call sorts it; 0 where `files` is 1. */
    uint64_t old_index;
    /* The index of the part of the new file in its list, as the call sorts it; 0 where `files` is 0. */
    uint64_t new_index;
    /* The number of bytes in the old file; 0 if the part isn't there. */
    uint64_t old_size;
    /* The number of bytes in the new file; 0 if the part isn't there. */
    uint64_t new_size;
    /* Where it is: 0 in the old file alone, 1 in the new file alone, 2 in both. */
    uint32_t files;
} xmas_elf_size_change_t;

/* A path at which a debug file may be. */
typedef struct xmas_elf_debug_candidate_t {
    /* The number of bytes of the path. */
    uint64_t size;
    /* How the file is found: 0 by the build id, 1 by the name in the link in the folder of the file, 2 in `.debug`
     * there, 3 in the same folder under the directory. */
    uint32_t how;
} xmas_elf_debug_candidate_t;

/* An object of a process: its file, and where it is loaded. Objects are in the order in which they are loaded, the
 * program first. */
typedef struct xmas_elf_load_object_t {
    /* The bytes of the file. */
    const uint8_t *file;
    size_t file_size;
    /* Its image after relocation, where bytes of it are copied to another object; else it may be empty. */
    const uint8_t *image;
    size_t image_size;
    /* The number that is added to its addresses. */
    uint64_t base;
    /* The number of its module of thread-local storage. */
    uint64_t module;
    /* The offset of its thread-local storage from the thread pointer, modulo 2^64. */
    uint64_t thread;
} xmas_elf_load_object_t;

/* A name that an object asks for. */
typedef struct xmas_elf_needed_name_t {
    /* The bytes of the name, with its dynamic string tokens, without the zero byte that ends it; offset and size are
     * 0 if the name can't be read. */
    xmas_elf_range_t range;
    /* The status of this name. */
    uint32_t status;
    /* What the object asks for: 1 a library that it needs (DT_NEEDED), 2 one that is searched before it, if there is
     * one (DT_AUXILIARY), 3 one that is searched in its place (DT_FILTER). */
    uint32_t kind;
} xmas_elf_needed_name_t;

/* The values of the dynamic string tokens for an object. An empty value is not known. */
typedef struct xmas_elf_tokens_t {
    /* The folder of the object (`$ORIGIN`). */
    const uint8_t *origin;
    size_t origin_size;
    /* The folder of libraries for the machine, as `lib64` (`$LIB`). */
    const uint8_t *lib;
    size_t lib_size;
    /* The kind of the processor, as `x86_64` (`$PLATFORM`). */
    const uint8_t *platform;
    size_t platform_size;
} xmas_elf_tokens_t;

/* What an object says about the search for libraries. */
typedef struct xmas_elf_search_asker_t {
    /* The text of its last DT_RPATH; empty if it has none. */
    const uint8_t *r_path;
    size_t r_path_size;
    /* The text of its last DT_RUNPATH. */
    const uint8_t *run_path;
    size_t run_path_size;
    /* The values of its tokens. */
    xmas_elf_tokens_t tokens;
    /* 1 if it has a DT_RUNPATH, even an empty one: its DT_RPATH then does not count. */
    uint32_t has_run_path;
    /* 1 if it has the flag 0x800 (DF_1_NODEFLIB): no library is looked for in the default folders. */
    uint32_t no_default;
} xmas_elf_search_asker_t;

/* A name that is looked for, and what the search depends on. No text may have a zero byte. */
typedef struct xmas_elf_search_for_t {
    /* The name, with its tokens replaced. */
    const uint8_t *name;
    size_t name_size;
    /* The value of LD_LIBRARY_PATH. */
    const uint8_t *library_path;
    size_t library_path_size;
    /* The path that the cache has for the name (`xmas_elf_cache_path`); empty if it has none. */
    const uint8_t *cache;
    size_t cache_size;
    /* The folders of ld.so.conf, one in each line, where there is no cache. */
    const uint8_t *conf;
    size_t conf_size;
    /* The default folders, with colons between them. */
    const uint8_t *defaults;
    size_t defaults_size;
    /* The subdirectories of each folder that are tried, each with a slash at its end; the last is the empty text. */
    const xmas_elf_text_t *subdirectories;
    size_t subdirectories_count;
    /* The values of the tokens for the program. */
    xmas_elf_tokens_t program;
} xmas_elf_search_for_t;

/* A path at which a library is looked for. */
typedef struct xmas_elf_candidate_path_t {
    /* Why it is tried: 1 the name has a slash and is the path, 2 the DT_RPATH of an object, 3 LD_LIBRARY_PATH, 4 the
     * DT_RUNPATH of the object that asks, 5 the cache, 6 ld.so.conf, 7 the default folders. */
    uint32_t how;
    /* For a DT_RPATH the index of its object among the askers, otherwise 0. */
    uint64_t asker;
    /* The size of its subdirectory in bytes; 0 for the folder itself. */
    uint64_t subdirectory_size;
} xmas_elf_candidate_path_t;

/* What a machine can use of a cache. */
typedef struct xmas_elf_cache_machine_t {
    /* The active names of subdirectories of `glibc-hwcaps`, the best first. */
    const xmas_elf_text_t *names;
    size_t names_count;
    /* The capabilities that it has, other than platforms: on x86-64 bits 1 (x86_64), 2 (avx512_1) and 63 (tls), on
     * 32-bit x86 0 (sse2) and 63. */
    uint64_t bits;
    /* The bit of its platform, 0 if it has none: haswell is bit 50, i686 bit 49. */
    uint64_t platform;
    /* The flags of its entries: 0x303 of x86-64, 0xa03 of AArch64, 3 of 32-bit x86. */
    uint32_t flags;
    /* Other flags that it takes, of 32-bit x86 1; else the same. */
    uint32_t other_flags;
    /* The levels that it has, level k as bit k: bit 0, and on x86-64 bits 1 to 3 for the levels 2 to 4 of the
     * processor. */
    uint32_t levels;
} xmas_elf_cache_machine_t;

/* What the entries of an object ask for and found. */
typedef struct xmas_elf_dependencies_t {
    /* For each entry the number of the object that it found, 0xffffffff if that is missing, 0xfffffffe if it was not
     * asked for. */
    const uint32_t *found;
    size_t found_count;
    /* The kind of each, as in `xmas_elf_needed_name_t`; 1 for those that are left out at the end. */
    const uint32_t *kinds;
    size_t kinds_count;
} xmas_elf_dependencies_t;

/* An entry of an object. */
typedef struct xmas_elf_object_entry_t {
    /* The number of the object. */
    uint64_t object;
    /* The index of the entry among the names that it asks for. */
    uint64_t entry;
} xmas_elf_object_entry_t;

/* A version that an object lacks. */
typedef struct xmas_elf_lacked_version_t {
    /* The version that is needed. */
    xmas_elf_version_t version;
    /* Why it is missing: 1 the object has no versions, 2 it is needed weakly, 3 otherwise: then the program does not
     * start. 0 if its status is an error. */
    uint32_t lack;
} xmas_elf_lacked_version_t;

/* Reads the ELF header of a file. Errors, in the order of the tests: those of the ELF header. */
XMAS_ELF_NODISCARD uint32_t xmas_elf_open(const uint8_t *input, size_t input_size, xmas_elf_header_t *out)
    XMAS_ELF_NOEXCEPT;

/* Checks the header against the input: its own size, its class, version and byte order, and that its two tables lie
 * in the input. Errors, in the order of the tests: XMAS_ELF_HEADER_SIZE, XMAS_ELF_NO_CLASS, XMAS_ELF_CLASS_MISMATCH,
 * XMAS_ELF_NO_VERSION, XMAS_ELF_NO_DATA_FORMAT, XMAS_ELF_PH_TABLE_RANGE, XMAS_ELF_SH_TABLE_RANGE. */
XMAS_ELF_NODISCARD uint32_t xmas_elf_check_header(const uint8_t *input, size_t input_size,
    const xmas_elf_header_t *header) XMAS_ELF_NOEXCEPT;

/* The numbers of sections and segments that the file claims; its tables may be cut off before. If the ELF header has
 * the number 0 and an `sh_offset`, the number of sections is in section 0, and 0 if that is missing:
 * `xmas_elf_section` at index 0 then returns the reason. It returns no error. */
uint32_t xmas_elf_counts(const uint8_t *input, size_t input_size, const xmas_elf_header_t *header,
    xmas_elf_counts_t *out) XMAS_ELF_NOEXCEPT;

/* The index of the section with the names of sections. Errors: XMAS_ELF_RESERVED_INDEX. */
XMAS_ELF_NODISCARD uint32_t xmas_elf_names_index(const uint8_t *input, size_t input_size,
    const xmas_elf_header_t *header, uint32_t *out) XMAS_ELF_NOEXCEPT;

/* The section header at an index. The index is not compared with the number of sections: past the table the call
 * reads what bytes are there, or returns an error. Errors, in the order of the tests: those of a section header. */
XMAS_ELF_NODISCARD uint32_t xmas_elf_section(const uint8_t *input, size_t input_size, const xmas_elf_header_t *header,
    uint64_t index, xmas_elf_section_t *out) XMAS_ELF_NOEXCEPT;

/* Checks the section header at an index: that this reader knows its type, as it does 19 (SHT_RELR). Where the data
 * lie is not tested: `xmas_elf_section_data` does that. Errors, in the order of the tests: those of a section header,
 * XMAS_ELF_INVALID_SH_TYPE. */
XMAS_ELF_NODISCARD uint32_t xmas_elf_check_section(const uint8_t *input, size_t input_size,
    const xmas_elf_header_t *header, uint64_t index) XMAS_ELF_NOEXCEPT;

/* The section headers from index `first` on, up to the number of sections or the first that can't be read. If they
 * end before that number, `xmas_elf_section` at the next index returns the reason. Errors: XMAS_ELF_NO_RECORD. */
XMAS_ELF_NODISCARD uint32_t xmas_elf_sections(const uint8_t *input, size_t input_size,
    const xmas_elf_header_t *header, uint64_t first, xmas_elf_section_t *out, size_t out_count, uint64_t *count)
    XMAS_ELF_NOEXCEPT;

/* The first section with a name. A section of type 19 (SHT_RELR), or whose name can't be read, is skipped, and a name
 * that is not UTF-8 is never found. The call compares `name` with the names of the sections up to the one that it
 * finds, each as far as they are equal: in a file made to be slow the time is sections times the size of `name`.
 * Errors: XMAS_ELF_NOT_FOUND. */
XMAS_ELF_NODISCARD uint32_t xmas_elf_find_section(const uint8_t *input, size_t input_size,
    const xmas_elf_header_t *header, const uint8_t *name, size_t name_size, xmas_elf_section_t *out)
    XMAS_ELF_NOEXCEPT;

/* The index of the first section with a name: that of the section that `xmas_elf_find_section` gives, which takes
 * less time: this call reads the whole name of each section up to that one, so where sections share one long name the
 * time is their number times its size. Errors: XMAS_ELF_NOT_FOUND. */
XMAS_ELF_NODISCARD uint32_t xmas_elf_find_section_index(const uint8_t *input, size_t input_size,
    const xmas_elf_header_t *header, const uint8_t *name, size_t name_size, uint64_t *out) XMAS_ELF_NOEXCEPT;

/* The range of a section's data. A section of type SHT_NOBITS has none in the file: its range belongs to other
 * sections. XMAS_ELF_NULL_DATA is for type SHT_NULL, XMAS_ELF_INVALID_SH_TYPE for a type that this reader does not
 * know. The range of an empty section begins at its offset. Errors, in the order of the tests:
 * those of a section header, XMAS_ELF_INVALID_SH_TYPE, XMAS_ELF_NULL_DATA, XMAS_ELF_DATA_RANGE. */
XMAS_ELF_NODISCARD uint32_t xmas_elf_section_data(const uint8_t *input, size_t input_size,
    const xmas_elf_header_t *header, uint64_t index, xmas_elf_range_t *out) XMAS_ELF_NOEXCEPT;

/* The ranges of the names of sections from index `first` on, each with a status of its own, without the zero bytes
 * that end them. They are UTF-8. A section of any type has a name. The call gives as many names as
 * `xmas_elf_sections` gives headers. It reads each name to its end: where sections share one long name, the time is
 * their number times its size. Errors: XMAS_ELF_NO_RECORD. Errors of a record, in the order of the tests:
 * XMAS_ELF_RESERVED_INDEX, XMAS_ELF_SHORT_SECTION_HEADER, XMAS_ELF_SHORT_SECTION_OFFSET, those of a text. */
XMAS_ELF_NODISCARD uint32_t xmas_elf_section_names(const uint8_t *input, size_t input_size,
    const xmas_elf_header_t *header, uint64_t first, xmas_elf_name_t *out, size_t out_count, uint64_t *count)
    XMAS_ELF_NOEXCEPT;

/* The range of the name table of sections, which goes on to the end of the input. Read it once: the name of a section
 * is the text there at the section's `name`, by `xmas_elf_text`. Errors, in the order of the tests:
 * XMAS_ELF_RESERVED_INDEX, those of a section header, XMAS_ELF_SHORT_SECTION_OFFSET. */
XMAS_ELF_NODISCARD uint32_t xmas_elf_names(const uint8_t *input, size_t input_size, const xmas_elf_header_t *header,
    xmas_elf_range_t *out) XMAS_ELF_NOEXCEPT;

/* The range of the text that begins `index` bytes after the start of `part` and ends before the next zero byte of
 * `part`. It is UTF-8. Errors, in the order of the tests: XMAS_ELF_DATA_RANGE, those of a text. */
XMAS_ELF_NODISCARD uint32_t xmas_elf_text(const uint8_t *input, size_t input_size, const xmas_elf_range_t *part,
    uint64_t index, xmas_elf_range_t *out) XMAS_ELF_NOEXCEPT;

/* The program header at an index. Errors, in the order of the tests: those of a program header. */
XMAS_ELF_NODISCARD uint32_t xmas_elf_segment(const uint8_t *input, size_t input_size, const xmas_elf_header_t *header,
    uint32_t index, xmas_elf_segment_t *out) XMAS_ELF_NOEXCEPT;

/* Checks the program header at an index against the input: the size of the table's entries, that the segment ends
 * before the input does, its type, and that its address and its offset are the same modulo an alignment above 1.
 * XMAS_ELF_ENTRY_POINT_RANGE is also for a segment that ends exactly where the input does. Errors, in the order of
 * the tests: those of a program header, XMAS_ELF_PH_SIZE_MISMATCH, XMAS_ELF_ENTRY_POINT_RANGE,
 * XMAS_ELF_INVALID_PH_TYPE, XMAS_ELF_SH_LIB_USED, XMAS_ELF_BAD_ALIGN. */
XMAS_ELF_NODISCARD uint32_t xmas_elf_check_segment(const uint8_t *input, size_t input_size,
    const xmas_elf_header_t *header, uint32_t index) XMAS_ELF_NOEXCEPT;

/* The program headers from index `first` on, up to the number of segments or the first that can't be read. If they
 * end before that number, `xmas_elf_segment` at the next index returns the reason. Errors: XMAS_ELF_NO_RECORD. */
XMAS_ELF_NODISCARD uint32_t xmas_elf_segments(const uint8_t *input, size_t input_size,
    const xmas_elf_header_t *header, uint64_t first, xmas_elf_segment_t *out, size_t out_count, uint64_t *count)
    XMAS_ELF_NOEXCEPT;

/* The range of a segment's data. XMAS_ELF_NULL_DATA is for type PT_NULL, XMAS_ELF_INVALID_PH_TYPE for a type that
 * this reader does not know. For an empty segment (p_filesz 0) offset and size are 0, whatever its offset is. Errors,
 * in the order of the tests: those of a program header, XMAS_ELF_INVALID_PH_TYPE, XMAS_ELF_NULL_DATA,
 * XMAS_ELF_DATA_RANGE. */
XMAS_ELF_NODISCARD uint32_t xmas_elf_segment_data(const uint8_t *input, size_t input_size,
    const xmas_elf_header_t *header, uint32_t index, xmas_elf_range_t *out) XMAS_ELF_NOEXCEPT;

/* The symbols from index `first` on of a table that `xmas_elf_symbols_open` or `xmas_elf_dynamic_symbols_open` found.
 * Any table may be given: each call compares its range with the input, and its count is not read. XMAS_ELF_DATA_RANGE
 * is for symbols that do not lie in the input. Errors, in the order of the tests: XMAS_ELF_DATA_RANGE,
 * XMAS_ELF_NOT_MULTIPLE, XMAS_ELF_NO_RECORD. */
XMAS_ELF_NODISCARD uint32_t xmas_elf_symbols(const uint8_t *input, size_t input_size,
    const xmas_elf_symbol_table_t *table, uint64_t first, xmas_elf_symbol_t *out, size_t out_count, uint64_t *count)
    XMAS_ELF_NOEXCEPT;

/* The ranges of the names of these symbols, each with a status of its own: the texts at each symbol's `name` in the
 * string table. The call gives as many names as `xmas_elf_symbols` gives symbols. If `strings_status` of the table is
 * not 0, it is the status of each name; XMAS_ELF_DATA_RANGE is for a string table that does not lie in the input. The
 * call reads each name to its end: where symbols share one long name, the time is their number times its size.
 * Errors, in the order of the tests: XMAS_ELF_DATA_RANGE, XMAS_ELF_NOT_MULTIPLE, XMAS_ELF_NO_RECORD. Errors of a
 * record, in the order of the tests: XMAS_ELF_DATA_RANGE, those of a text. */
XMAS_ELF_NODISCARD uint32_t xmas_elf_symbol_names(const uint8_t *input, size_t input_size,
    const xmas_elf_symbol_table_t *table, uint64_t first, xmas_elf_name_t *out, size_t out_count, uint64_t *count)
    XMAS_ELF_NOEXCEPT;

/* Finds the symbols of a section of type SHT_SYMTAB or SHT_DYNSYM, and the string table that it is linked to, once
 * for many calls of `xmas_elf_symbols` and `xmas_elf_symbol_names`. For a section of another type the status is an
 * error, mostly XMAS_ELF_OTHER_DATA. If the string table can't be read, the call is OK, and `strings_status` is the
 * reason. Errors, in the order of the tests: those of a section header, those of a section's records,
 * XMAS_ELF_OTHER_DATA. */
XMAS_ELF_NODISCARD uint32_t xmas_elf_symbols_open(const uint8_t *input, size_t input_size,
    const xmas_elf_header_t *header, uint64_t section, xmas_elf_symbol_table_t *out) XMAS_ELF_NOEXCEPT;

/* The relocations from index `first` on of a section of type SHT_REL or SHT_RELA. For a section of another type the
 * status is an error, mostly XMAS_ELF_OTHER_DATA. Errors, in the order of the tests: those of a section header,
 * those of a section's records, XMAS_ELF_OTHER_DATA, XMAS_ELF_NO_RECORD. */
XMAS_ELF_NODISCARD uint32_t xmas_elf_relocations(const uint8_t *input, size_t input_size,
    const xmas_elf_header_t *header, uint64_t section, uint64_t first, xmas_elf_relocation_t *out, size_t out_count,
    uint64_t *count) XMAS_ELF_NOEXCEPT;

/* The addresses in the packed relative relocations of a section of type 19 (SHT_RELR) from index `first` on: those of
 * the words to which the load address is added. Each call reads the words from the first on, so give much room.
 * Errors, in the order of the tests: those of a section header, XMAS_ELF_OTHER_DATA, XMAS_ELF_DATA_RANGE,
 * XMAS_ELF_LINK_NOT_MULTIPLE, XMAS_ELF_NO_RECORD. */
XMAS_ELF_NODISCARD uint32_t xmas_elf_packed_relocations(const uint8_t *input, size_t input_size,
    const xmas_elf_header_t *header, uint64_t section, uint64_t first, uint64_t *out, size_t out_count,
    uint64_t *count) XMAS_ELF_NOEXCEPT;

/* The dynamic entries from index `first` on of a section of type SHT_DYNAMIC, also those after the entry with tag 0.
 * For a section of another type the status is an error, mostly XMAS_ELF_OTHER_DATA. Errors, in the order of the
 * tests: those of a section header, those of a section's records, XMAS_ELF_OTHER_DATA, XMAS_ELF_NO_RECORD. */
XMAS_ELF_NODISCARD uint32_t xmas_elf_dynamics(const uint8_t *input, size_t input_size,
    const xmas_elf_header_t *header, uint64_t section, uint64_t first, xmas_elf_dynamic_t *out, size_t out_count,
    uint64_t *count) XMAS_ELF_NOEXCEPT;

/* The dynamic entries of the last segment of type PT_DYNAMIC from index `first` on, also those after the entry with
 * tag 0. No section header is needed. Each call reads all program headers, so give room for many. Errors, in the
 * order of the tests: XMAS_ELF_LINK_NO_DYNAMIC, XMAS_ELF_LINK_ADDRESS, XMAS_ELF_DATA_RANGE, XMAS_ELF_UNKNOWN_CLASS,
 * XMAS_ELF_NOT_MULTIPLE, XMAS_ELF_NO_RECORD. */
XMAS_ELF_NODISCARD uint32_t xmas_elf_dynamic_entries(const uint8_t *input, size_t input_size,
    const xmas_elf_header_t *header, uint64_t first, xmas_elf_dynamic_t *out, size_t out_count, uint64_t *count)
    XMAS_ELF_NOEXCEPT;

/* The relocations of the dynamic segment from index `first` on: those of the table DT_RELA, then of DT_REL, then of
 * DT_JMPREL. The index of a symbol is one of `xmas_elf_dynamic_symbols_open`. No section header is needed. Each call
 * reads the relocations before `first` anew, so give much room. Errors, in the order of the tests:
 * those of the dynamic segment, XMAS_ELF_LINK_NO_ENTRY, XMAS_ELF_LINK_RELOCATION_KIND, XMAS_ELF_NO_RECORD. */
XMAS_ELF_NODISCARD uint32_t xmas_elf_dynamic_relocations(const uint8_t *input, size_t input_size,
    const xmas_elf_header_t *header, uint64_t first, xmas_elf_relocation_t *out, size_t out_count, uint64_t *count)
    XMAS_ELF_NOEXCEPT;

/* The addresses in the packed relative relocations of the dynamic segment (DT_RELR) from index `first` on;
 * XMAS_ELF_NO_RECORD also if there are none. No section header is needed. Each call reads the words from the first
 * on, so give much room. Errors, in the order of the tests: those of the dynamic segment, XMAS_ELF_LINK_NO_ENTRY,
 * XMAS_ELF_LINK_NOT_MULTIPLE, XMAS_ELF_NO_RECORD. */
XMAS_ELF_NODISCARD uint32_t xmas_elf_dynamic_packed_relocations(const uint8_t *input, size_t input_size,
    const xmas_elf_header_t *header, uint64_t first, uint64_t *out, size_t out_count, uint64_t *count)
    XMAS_ELF_NOEXCEPT;

/* The first note of a range, by the alignment of its section or segment (8, and else 4). XMAS_ELF_NO_RECORD is for an
 * empty range, XMAS_ELF_LINK_SHORT_NOTE for one that holds no whole note. The build id of a file is the description
 * of the first note of type 3 (NT_GNU_BUILD_ID) with name `GNU`, in the sections of type SHT_NOTE or the segments of
 * type PT_NOTE. Errors, in the order of the tests: XMAS_ELF_DATA_RANGE, XMAS_ELF_NO_RECORD, XMAS_ELF_LINK_SHORT_NOTE. */
XMAS_ELF_NODISCARD uint32_t xmas_elf_note(const uint8_t *input, size_t input_size, const xmas_elf_header_t *header,
    const xmas_elf_range_t *part, uint64_t align, xmas_elf_note_t *out) XMAS_ELF_NOEXCEPT;

/* The range of the file bytes for addresses `address .. address + count`: those of the last PT_LOAD segment that has
 * them all. No section header is needed. Of a segment without file bytes the offset is 0. Each call reads all program
 * headers. Errors, in the order of the tests: XMAS_ELF_LINK_ADDRESS, XMAS_ELF_DATA_RANGE. */
XMAS_ELF_NODISCARD uint32_t xmas_elf_bytes_at(const uint8_t *input, size_t input_size,
    const xmas_elf_header_t *header, uint64_t address, uint64_t count, xmas_elf_range_t *out) XMAS_ELF_NOEXCEPT;

/* The ranges of the texts that the dynamic entries with a tag name, from index `first` of them on, each with a status
 * of its own, in the order of the entries: for tag 1 (DT_NEEDED) the names of the libraries that the file needs, for
 * 14 (DT_SONAME) the name of the library, for 29 (DT_RUNPATH) and 15 (DT_RPATH) the folders where the dynamic linker
 * looks for libraries. The entries are those of the last segment of type PT_DYNAMIC before the entry with tag 0, so
 * no section header is needed. XMAS_ELF_NO_RECORD is for a tag that no more entries have. Each call reads the entries
 * from the first on, so give room for all where a file may have many. It reads each text to its end: where entries
 * share one long text, the time is their number times its size. Errors, in the order of the tests:
 * those of the dynamic segment, XMAS_ELF_NO_RECORD. Errors of a record, in the order of the tests:
 * those of a text of the dynamic segment. */
XMAS_ELF_NODISCARD uint32_t xmas_elf_dynamic_texts(const uint8_t *input, size_t input_size,
    const xmas_elf_header_t *header, uint64_t tag, uint64_t first, xmas_elf_name_t *out, size_t out_count,
    uint64_t *count) XMAS_ELF_NOEXCEPT;

/* Finds the symbols of the dynamic segment (DT_SYMTAB) and the string table of their names (DT_STRTAB), once for many
 * calls of `xmas_elf_symbols` and `xmas_elf_symbol_names`. No section header is needed. The count of the table is one
 * that no entry says: the number of chains of the gABI's hash table (DT_HASH) where the segment names one, and else
 * one more than the last index that GNU's (DT_GNU_HASH) reaches, or its first index where it reaches none; this one
 * does not count symbols after the last exported one. If the string table can't be read, the call is OK, and
 * `strings_status` is the reason. Errors, in the order of the tests: those of the number of dynamic symbols. */
XMAS_ELF_NODISCARD uint32_t xmas_elf_dynamic_symbols_open(const uint8_t *input, size_t input_size,
    const xmas_elf_header_t *header, xmas_elf_symbol_table_t *out) XMAS_ELF_NOEXCEPT;

/* Finds the symbols of a file, once for many calls of `xmas_elf_symbols` and `xmas_elf_symbol_names`: those of the
 * first section of type SHT_SYMTAB, as `xmas_elf_symbols_open` does, and of a file without such a section, as after
 * `strip`, those of the dynamic segment, as `xmas_elf_dynamic_symbols_open` does. Errors, in the order of the tests:
 * those of a section header, those of a section's records, XMAS_ELF_OTHER_DATA,
 * those of the number of dynamic symbols. */
XMAS_ELF_NODISCARD uint32_t xmas_elf_file_symbols_open(const uint8_t *input, size_t input_size,
    const xmas_elf_header_t *header, xmas_elf_symbol_table_t *out) XMAS_ELF_NOEXCEPT;

/* The versions of the symbols of the dynamic segment (DT_VERSYM) from index `first` on, each with a status of its
 * own: the first definition with the symbol's number but for the one that names the file, and else the first need
 * with it. The call gives as many versions as the table of `xmas_elf_dynamic_symbols_open` has symbols.
 * XMAS_ELF_NOT_FOUND is for a file whose symbols have no versions. Each call counts the symbols anew, so give room
 * for all. A version with a number of 64 or more is searched for among all definitions and needs, once for each
 * symbol that has it: in a file made to be slow the time is symbols times definitions and needs. Names are read to
 * their end for each symbol, also where many have one version with a long name. Errors, in the order of the tests:
 * those of the number of dynamic symbols, XMAS_ELF_NOT_FOUND, XMAS_ELF_NO_RECORD. Errors of a record, in the order of
 * the tests: those of a version. */
XMAS_ELF_NODISCARD uint32_t xmas_elf_dynamic_symbol_versions(const uint8_t *input, size_t input_size,
    const xmas_elf_header_t *header, uint64_t first, xmas_elf_version_t *out, size_t out_count, uint64_t *count)
    XMAS_ELF_NOEXCEPT;

/* The versions that the file defines (DT_VERDEF) from index `first` on, in their order, each with a status of its
 * own: a record that is cut off is the last one. No section header is needed. Each call reads the records from the
 * first on, so give room for all. It reads each name to its end: where records share one long name, the time is their
 * number times its size. Errors, in the order of the tests: those of the dynamic segment, XMAS_ELF_NO_RECORD. Errors
 * of a record, in the order of the tests: XMAS_ELF_LINK_SHORT_VERSION, those of a text of the dynamic segment. */
XMAS_ELF_NODISCARD uint32_t xmas_elf_version_definitions(const uint8_t *input, size_t input_size,
    const xmas_elf_header_t *header, uint64_t first, xmas_elf_version_t *out, size_t out_count, uint64_t *count)
    XMAS_ELF_NOEXCEPT;

/* The versions that the file needs of libraries (DT_VERNEED) from index `first` on, in their order, as
 * `xmas_elf_version_definitions` gives the others, and at the same cost. Errors, in the order of the tests:
 * those of the dynamic segment, XMAS_ELF_NO_RECORD. Errors of a record, in the order of the tests:
 * those of a version. */
XMAS_ELF_NODISCARD uint32_t xmas_elf_version_needs(const uint8_t *input, size_t input_size,
    const xmas_elf_header_t *header, uint64_t first, xmas_elf_version_t *out, size_t out_count, uint64_t *count)
    XMAS_ELF_NOEXCEPT;

/* The symbol of the dynamic segment that `dlvsym` finds by a name and a version (DT_VERSYM): the first symbol on the
 * chain of the name whose version has the name `version`; in a file without versions, the first. With `version_size`
 * 0 it is the one that `dlsym` finds: the first with a number below 2, or else the one whose version isn't hidden, if
 * there is exactly one. A symbol counts if it has a value, or is absolute or thread-local, and a type that linkers
 * use: also one that is not defined and has a value. The symbol is found only if other files can use it: its binding
 * is global, weak or unique, and its visibility the default or protected. If no symbol is found, that is no error.
 * Each call counts the symbols of the dynamic segment anew, and goes along the chain of the name; with a version it
 * finds that of each symbol with the name, which is searched for among all definitions and needs if its number is 64
 * or more. In a file made to be slow the time is symbols times definitions and needs. For many names
 * `xmas_elf_look_ups` is faster, which knows no versions. Errors, in the order of the tests: XMAS_ELF_TEXT_UTF_8,
 * those of the number of dynamic symbols, those of a chain of the gABI's hash table, XMAS_ELF_LINK_SHORT_VERSION,
 * XMAS_ELF_LINK_VERSION_COUNT, XMAS_ELF_TEXT_START, XMAS_ELF_TEXT_END. */
XMAS_ELF_NODISCARD uint32_t xmas_elf_find_symbol(const uint8_t *input, size_t input_size,
    const xmas_elf_header_t *header, const uint8_t *name, size_t name_size, const uint8_t *version,
    size_t version_size, xmas_elf_found_symbol_t *out) XMAS_ELF_NOEXCEPT;

/* Looks many names up in a hash table that `xmas_elf_hash_open` found, each a range of the bytes `names`: as many as
 * there are ranges, and as `out` has room for. Each result is the first symbol on the chain of the name, defined or
 * not; GNU's table holds the symbols from its first on that are defined and not local. If no symbol is found, that is
 * no error. In a table that does not pass `xmas_elf_check_hash`, a look-up may return an error or miss a symbol; it
 * reads no more chain entries than the table has. XMAS_ELF_DATA_RANGE is for a range that passes the end of `names`.
 * Any table may be given: the call compares its ranges with the input. `xmas_elf_symbols` gives a symbol by its
 * index, for the `symbols` of the table. `names` may be another file, and the ranges those of the names of its
 * symbols. A look-up takes time by the chain of its name: in a file made to be slow one chain has all symbols, and
 * the time of a call is names times symbols. Errors of a record, in the order of the tests: XMAS_ELF_DATA_RANGE,
 * XMAS_ELF_TEXT_UTF_8, XMAS_ELF_SHORT_DATA, XMAS_ELF_LINK_SHORT_TABLE, XMAS_ELF_LINK_BLOOM_COUNT,
 * XMAS_ELF_NOT_MULTIPLE, those of a chain of the gABI's hash table, those of a chain of GNU's hash table. */
void xmas_elf_look_ups(const uint8_t *input, size_t input_size, const xmas_elf_hash_table_t *table,
    const uint8_t *names, size_t names_size, const xmas_elf_range_t *ranges, size_t ranges_count,
    xmas_elf_answer_t *out, size_t out_count) XMAS_ELF_NOEXCEPT;

/* Finds the hash table that is a section of type SHT_HASH or 0x6ffffff6 (SHT_GNU_HASH), and the symbols of the
 * section that it is linked to, as `xmas_elf_symbols_open` finds them: once for many look-ups. Its kind is the type
 * of the section. If the string table of the symbols can't be read, the call is OK, no symbol has a name, and
 * `strings_status` is the reason. Errors, in the order of the tests: those of a section header,
 * those of a section's records, XMAS_ELF_LINK_SHORT_TABLE, XMAS_ELF_LINK_BLOOM_COUNT, XMAS_ELF_OTHER_DATA. */
XMAS_ELF_NODISCARD uint32_t xmas_elf_hash_open(const uint8_t *input, size_t input_size,
    const xmas_elf_header_t *header, uint64_t section, xmas_elf_hash_table_t *out) XMAS_ELF_NOEXCEPT;

/* Checks a hash table that `xmas_elf_hash_open` found. If it is OK, look-ups return no error for the table, and each
 * finds a symbol if one that is not local has the name; in GNU's table one from its first on that is defined. Call it
 * once before many look-ups. GNU's table takes one pass over the table and one over the symbols and their names:
 * where symbols share one long name, the time is their number times its size. So does a table of the other kind whose
 * buckets share no chain; one that was made to be slow takes a few nanoseconds times the sum of its buckets, chains
 * and symbols times the lesser of chains and symbols. Errors, in the order of the tests: XMAS_ELF_DATA_RANGE,
 * XMAS_ELF_SHORT_DATA, XMAS_ELF_LINK_SHORT_TABLE, XMAS_ELF_LINK_BLOOM_COUNT, XMAS_ELF_NOT_MULTIPLE,
 * those of a chain of the gABI's hash table, those of a chain of GNU's hash table, XMAS_ELF_HASH_MISSING,
 * XMAS_ELF_LINK_MISSING. */
XMAS_ELF_NODISCARD uint32_t xmas_elf_check_hash(const uint8_t *input, size_t input_size,
    const xmas_elf_hash_table_t *table) XMAS_ELF_NOEXCEPT;

/* Builds an index of symbols by their addresses, for many questions of `xmas_elf_symbols_at`. Without words
 * (`words_count` 0) it only finds how many words and numbers the index takes: `words` and `numbers` of the record;
 * then call it again with as many. They stay the caller's, who keeps them for the questions. `table` is a record of
 * `xmas_elf_symbols_open` or `xmas_elf_dynamic_symbols_open`; `indices` is the range of the section of type
 * SHT_SYMTAB_SHNDX that is linked to the symbols' section, of size 0 where there is none; `within` is the index of a
 * section whose symbols alone are asked for, as in an object file, where values are offsets in sections, and else 0.
 * A symbol names addresses if it is in a section, has no type or is a function or an object, and has a name; labels
 * that assemblers make and mapping symbols don't. It reads all symbols of the table, with `within` those of other
 * sections too, and takes time n log n for the n that are in the index. `words` and `numbers` are changed in no call
 * that is not OK. Errors, in the order of the tests: XMAS_ELF_DATA_RANGE, XMAS_ELF_NOT_MULTIPLE,
 * XMAS_ELF_INDEX_MANY_SYMBOLS, XMAS_ELF_INDEX_FEW_WORDS. */
XMAS_ELF_NODISCARD uint32_t xmas_elf_address_index(const uint8_t *input, size_t input_size,
    const xmas_elf_header_t *header, const xmas_elf_symbol_table_t *table, const xmas_elf_range_t *indices,
    uint32_t within, uint32_t *words, size_t words_count, uint64_t *numbers, size_t numbers_count,
    xmas_elf_address_index_t *out) XMAS_ELF_NOEXCEPT;

/* The symbols of many addresses by an index, as many as there are addresses and as `out` has room for. A symbol
 * covers `size` addresses from its `value` on, and with size 0 its value alone. Of several that cover an address, one
 * with a size comes first, then the one that begins last, the smallest, a function before an object, a global one
 * before a weak one before a local one, and the first of the table. If no symbol covers an address, that is no error.
 * The time of a question grows with the square of log n for n symbols. With other words or numbers than those of
 * `xmas_elf_address_index` it may grow with n, a symbol may be missed, and one that is found covers the address, but
 * may be one that names none. Errors, in the order of the tests: XMAS_ELF_DATA_RANGE, XMAS_ELF_NOT_MULTIPLE. */
XMAS_ELF_NODISCARD uint32_t xmas_elf_symbols_at(const uint8_t *input, size_t input_size,
    const xmas_elf_address_index_t *index, const uint32_t *words, size_t words_count, const uint64_t *numbers,
    size_t numbers_count, const uint64_t *addresses, size_t addresses_count, xmas_elf_symbol_at_t *out,
    size_t out_count) XMAS_ELF_NOEXCEPT;

/* The pieces of a file from index `first` on, in the order of their offsets, as many as `out` has room for: which
 * bytes belong to what. Every byte of the file is in exactly one piece, and the sizes of all pieces sum to the size
 * of the file. Of the parts that cover a byte it belongs to the first of these kinds: the ELF header, the program
 * header table, the section header table, sections (but those of type SHT_NULL and SHT_NOBITS), segments (but those
 * of type PT_NULL and PT_GNU_RELRO); of several of a kind to the one that begins last, then the smallest, then the
 * first of the table. Without words (`words_count` 0) it only finds how many words and numbers it takes: `words` and
 * `numbers` of `sizes`. Call it again with as many, and then with room for `count` pieces. Each call builds an index
 * in them, in time n log n for n sections and segments, so give room for all. They may hold anything before and
 * after. Errors: XMAS_ELF_INDEX_FEW_WORDS. */
XMAS_ELF_NODISCARD uint32_t xmas_elf_pieces(const uint8_t *input, size_t input_size, const xmas_elf_header_t *header,
    uint64_t first, uint32_t *words, size_t words_count, uint64_t *numbers, size_t numbers_count,
    xmas_elf_piece_t *out, size_t out_count, xmas_elf_piece_sizes_t *sizes) XMAS_ELF_NOEXCEPT;

/* The pieces of addresses `begin .. end` by symbols, from index `first` on, as many as `out` has room for; `count` is
 * the number of all. Every address is in exactly one piece: that of the symbol with a size that `xmas_elf_symbols_at`
 * finds for it, or that of no symbol. `index` is a record of `xmas_elf_address_index`, which may be called without
 * words for it, with the index of a section as `within`, and `begin` and `end` are the addresses of its first byte
 * and after its last one; in an object file, 0 and its size. The call takes `words` and `numbers` of the record, and
 * builds the index in them anew: they may hold anything before and after. Each call reads all symbols of the table: a
 * call for each section of a file takes time by sections times symbols. In a copy of the table that is sorted by
 * section it takes time by the symbols of the section alone; the page c/README.md has the code. Errors, in the order
 * of the tests: XMAS_ELF_DATA_RANGE, XMAS_ELF_NOT_MULTIPLE, XMAS_ELF_INDEX_MANY_SYMBOLS, XMAS_ELF_INDEX_FEW_WORDS. */
XMAS_ELF_NODISCARD uint32_t xmas_elf_symbol_pieces(const uint8_t *input, size_t input_size,
    const xmas_elf_address_index_t *index, uint64_t begin, uint64_t end, uint64_t first, uint32_t *words,
    size_t words_count, uint64_t *numbers, size_t numbers_count, xmas_elf_piece_t *out, size_t out_count,
    uint64_t *count) XMAS_ELF_NOEXCEPT;

/* The differences of the parts of two files, the greatest first, such as those of the sections or of the symbols of
 * two builds. The parts are the caller's: what `xmas_elf_pieces` and `xmas_elf_symbol_pieces` say of each file,
 * summed by owner, with names and kinds. Each part is in exactly one row, one of an equal size too; parts are matched
 * by kind and name, the n-th of a name with the n-th. The differences of the sizes sum to the difference of the sums.
 * The call sorts both lists by kind, name and place, and writes the rows to the front of `changes`, which has room
 * for as many as both lists have parts; `count` is their number. Without that room nothing is changed. It takes n log
 * n comparisons for n parts, each with as many bytes as two names have in common. No two of the three arrays share a
 * byte. Errors: XMAS_ELF_INDEX_FEW_WORDS. */
XMAS_ELF_NODISCARD uint32_t xmas_elf_size_changes(xmas_elf_size_part_t *olds, size_t olds_count,
    xmas_elf_size_part_t *news, size_t news_count, xmas_elf_size_change_t *changes, size_t changes_count,
    uint64_t *count) XMAS_ELF_NOEXCEPT;

/* The path at an index at which the separate debug file of the file at `path` may be, in the order in which gdb tries
 * them: by the build id in `directory`, such as /usr/lib/debug, then by the name in the section .gnu_debuglink: in
 * the folder of the file, in `.debug` there, and, if `path` begins with a slash, in the same folder under
 * `directory`. Ask from index 0 on; XMAS_ELF_NO_RECORD means that there are no more. It writes the bytes of the path
 * to the front of `text`, as many as fit, without a zero byte at the end, and the number of all to `size` of `out`. A
 * candidate that is there passes `xmas_elf_check_debug`, or is another file's. A build id or a link that can't be
 * read gives no path. Each call searches the sections of the file anew, and without the section .note.gnu.build-id
 * the notes of all segments: in a file made to be slow the time is segments times notes. Errors: XMAS_ELF_NO_RECORD. */
XMAS_ELF_NODISCARD uint32_t xmas_elf_debug_path(const uint8_t *input, size_t input_size,
    const xmas_elf_header_t *header, const uint8_t *path, size_t path_size, const uint8_t *directory,
    size_t directory_size, uint64_t index, uint8_t *text, size_t text_size, xmas_elf_debug_candidate_t *out)
    XMAS_ELF_NOEXCEPT;

/* Whether `debug`, whose header `xmas_elf_open` read, is the debug file of the file. `how` is that of the path where
 * it was found: one found by the build id (0) has the same build id; any other has the CRC that the link says, of all
 * its bytes. Without the section .note.gnu.build-id the notes of all segments are read: in a file made to be slow the
 * time is segments times notes. Errors, in the order of the tests: XMAS_ELF_NO_BUILD_ID, XMAS_ELF_OTHER_BUILD_ID,
 * XMAS_ELF_OTHER_CHECKSUM. */
XMAS_ELF_NODISCARD uint32_t xmas_elf_check_debug(const uint8_t *input, size_t input_size,
    const xmas_elf_header_t *header, uint32_t how, const uint8_t *debug, size_t debug_size,
    const xmas_elf_header_t *debug_header) XMAS_ELF_NOEXCEPT;

/* The CRC of the bytes of a debug file as .gnu_debuglink has it: CRC-32 with polynomial 0x04C11DB7, that of zlib. It
 * is always OK. */
uint32_t xmas_elf_debug_crc(const uint8_t *bytes, size_t bytes_size, uint32_t *out) XMAS_ELF_NOEXCEPT;

/* What Linux and glibc put into memory for a file, or why there is no plan. Some files that they load have none:
 * `xmas_elf_check_load` says which they load. `page` is the size of a page, a power of two; 0 means 4096. `limit` is
 * the end of the addresses that a loader may use; 0 means that of Linux: 0xffffe000 for a file of class 32,
 * 0x1000000000000 for one of class 64 for AArch64, and else 0x7ffffffff000, that of x86-64. The load segments are
 * those of type PT_LOAD. Errors, in the order of the tests: those of a load plan. */
XMAS_ELF_NODISCARD uint32_t xmas_elf_load_plan(const uint8_t *input, size_t input_size,
    const xmas_elf_header_t *header, uint64_t page, uint64_t limit, xmas_elf_load_plan_t *out) XMAS_ELF_NOEXCEPT;

/* What a loader maps for a file before relocation, from index `first` on, in the order of addresses: no mapping is
 * empty or overlaps another, and all lie in the span of `xmas_elf_load_plan`, whose `page` and `limit` they are.
 * `loader` is 1 for glibc, which maps libraries; any other number for Linux, which maps a program and its
 * interpreter. glibc maps the pages between load segments, too, without access. Each call reads the program headers
 * anew, so give room for all. Errors, in the order of the tests: those of a load plan, XMAS_ELF_NO_RECORD. */
XMAS_ELF_NODISCARD uint32_t xmas_elf_load_mappings(const uint8_t *input, size_t input_size,
    const xmas_elf_header_t *header, uint64_t page, uint64_t limit, uint32_t loader, uint64_t first,
    xmas_elf_load_mapping_t *out, size_t out_count, uint64_t *count) XMAS_ELF_NOEXCEPT;

/* Writes the bytes of a file to `image`, as a loader maps them before relocation: byte `i` is that at the start of
 * the span of `xmas_elf_load_plan` plus `i`, and 0 where nothing is mapped. The size of `image` is that of the span.
 * `page`, `limit` and `loader` are those of `xmas_elf_load_mappings`. `image` is changed in no call that is not OK.
 * Errors, in the order of the tests: those of a load plan, XMAS_ELF_LOAD_IMAGE_SIZE. */
XMAS_ELF_NODISCARD uint32_t xmas_elf_load_image(const uint8_t *input, size_t input_size,
    const xmas_elf_header_t *header, uint64_t page, uint64_t limit, uint32_t loader, uint8_t *image,
    size_t image_size) XMAS_ELF_NOEXCEPT;

/* Whether the words of the object at index `of` can be written before the program runs: the tables of its dynamic
 * segment can be read, and each word that its relocations write is in the memory of one load segment, which is
 * writable unless the file asks for writes elsewhere (DT_TEXTREL), and has no byte in common with one of these tables
 * or with another word. Of the objects only the files are read. `page` and `limit` are those of `xmas_elf_load_plan`,
 * which each file must pass. `marks` has at least a bit for each byte of the span of the object's plan: its size in
 * bytes, divided by 8, and one more. What it holds before and after has no meaning. If a call is not OK, `failed` is
 * the index of the object with the error: that of the first file that can't be read or has no plan, else `of`. It is
 * unchanged where none has it: with no object or none at `of` (XMAS_ELF_LINK_OBJECT_INDEX), with more than 64
 * (XMAS_ELF_MANY_OBJECTS), and where `marks` is too short (XMAS_ELF_LOAD_FEW_MARKS). `relocation` is the index of the
 * relocation of this object that has the error, in the order in which words are written (the packed ones of DT_RELR,
 * then those of DT_RELA, of DT_REL and of DT_JMPREL, of which those that also end DT_RELA or DT_REL count once), and
 * unchanged where the error comes before those of words, as XMAS_ELF_LOAD_SLOT_TYPE. A call takes up to 64 objects;
 * for more it returns XMAS_ELF_MANY_OBJECTS. It reads all files before it tests `of`, so XMAS_ELF_LINK_OBJECT_INDEX
 * comes before errors of the files only where there is no object. A relocation that names a symbol takes a look-up in
 * each file up to the one that has it, as `xmas_elf_find_symbol` does after its count, and each word a pass over
 * program headers: in files made to be slow the time is relocations times what these take. Errors, in the order of
 * the tests: those of the objects, those of a load plan, those of tables of relocations, XMAS_ELF_LOAD_FEW_MARKS,
 * those of a relocation, XMAS_ELF_LOAD_WORD_ADDRESS, XMAS_ELF_LOAD_READ_ONLY, XMAS_ELF_LOAD_WORDS_OVERLAP,
 * XMAS_ELF_LOAD_WORD_IN_TABLE. */
XMAS_ELF_NODISCARD uint32_t xmas_elf_check_image(const xmas_elf_load_object_t *objects, size_t objects_count,
    uint64_t of, uint64_t page, uint64_t limit, uint8_t *marks, size_t marks_size, uint64_t *failed,
    uint64_t *relocation) XMAS_ELF_NOEXCEPT;

/* Writes the words of the object at index `of` to `image`, which holds what `xmas_elf_load_image` writes. `page` and
 * `limit` are those of `xmas_elf_load_plan`, which each file must pass. `count` is the number of words without a
 * number, whose bytes stay as they are: what a function returns (the resolver of a symbol of type STT_GNU_IFUNC), and
 * descriptors of thread-local storage. The caller must write these. `lazy` is 1 where jump slots get their symbols
 * when a function is called first, and any other number where they get them now. Relocate an object whose bytes are
 * copied (R_X86_64_COPY) before the one that they are copied to, and give it its image then; `image` shares no byte
 * with the images of objects. If `xmas_elf_check_image` is OK for the object, each byte is that of the one word over
 * it, else that of the file. If a call is not OK, the words before the first that can't be written are written, and
 * `failed` is the index of the object with the error: that of the first file that can't be read or has no plan, else
 * `of`. It is unchanged where none has it: with no object or none at `of` (XMAS_ELF_LINK_OBJECT_INDEX), with more
 * than 64 (XMAS_ELF_MANY_OBJECTS), and where `image` is not of the size of the span (XMAS_ELF_LOAD_IMAGE_SIZE).
 * `relocation` is the index of the relocation of this object that has the error, in the order in which words are
 * written (the packed ones of DT_RELR, then those of DT_RELA, of DT_REL and of DT_JMPREL, of which those that also
 * end DT_RELA or DT_REL count once), and unchanged where the error comes before those of words, as
 * XMAS_ELF_LOAD_SLOT_TYPE. A call takes up to 64 objects; for more it returns XMAS_ELF_MANY_OBJECTS. It reads all
 * files before it tests `of`, so XMAS_ELF_LINK_OBJECT_INDEX comes before errors of the files only where there is no
 * object. A relocation that names a symbol takes a look-up in each file up to the one that has it, as
 * `xmas_elf_find_symbol` does after its count, and each word a pass over program headers; with `lazy` 1 a jump slot
 * takes passes over the dynamic entries too: in files made to be slow the time is relocations times what these take.
 * It needs about 200 KiB of stack. Errors, in the order of the tests: those of the objects, those of a load plan,
 * XMAS_ELF_LOAD_IMAGE_SIZE, those of a relocation, XMAS_ELF_LOAD_UNRESOLVED, XMAS_ELF_LOAD_WORD_ADDRESS,
 * XMAS_ELF_LOAD_COPY_SOURCE. */
XMAS_ELF_NODISCARD uint32_t xmas_elf_relocate(const xmas_elf_load_object_t *objects, size_t objects_count,
    uint64_t of, uint32_t lazy, uint64_t page, uint64_t limit, uint8_t *image, size_t image_size, uint64_t *count,
    uint64_t *failed, uint64_t *relocation) XMAS_ELF_NOEXCEPT;

/* Writes the words of all objects to their images, those of the last object first, as the dynamic linker does. Each
 * file is read once, so it takes less time than a call of `xmas_elf_relocate` for each object. `images` are what
 * `xmas_elf_load_image` writes for each object, one image after another in the order of the objects: its size is the
 * sum of those of all spans. Bytes are copied (R_X86_64_COPY) from the images of the objects after the own one;
 * `image` of an object is not read. `lazy`, `page` and `limit` are those of `xmas_elf_relocate`. `left` is the number
 * of words without a number of all objects. If `xmas_elf_check_image` is OK for an object, each byte of its image is
 * then that of the one word over it, else that of the file. If a call is not OK, `failed` is the index of the object
 * with the error; it is unchanged where none has it: with no object (XMAS_ELF_LINK_OBJECT_INDEX), with more than 64
 * (XMAS_ELF_MANY_OBJECTS), and where `images` is not of the size of all images (XMAS_ELF_LOAD_IMAGE_SIZE).
 * `relocation` is the index of the relocation of this object that has the error, in the order in which words are
 * written (the packed ones of DT_RELR, then those of DT_RELA, of DT_REL and of DT_JMPREL, of which those that also
 * end DT_RELA or DT_REL count once), and unchanged where the error comes before those of words, as
 * XMAS_ELF_LOAD_SLOT_TYPE. Of errors of words the last object with one counts: then the objects after it are
 * relocated, and its words before the first that can't be written are written. Otherwise `images` is unchanged. A
 * relocation that names a symbol takes a look-up in each file up to the one that has it, as `xmas_elf_find_symbol`
 * does after its count, and each word a pass over program headers; with `lazy` 1 a jump slot takes passes over the
 * dynamic entries too: in files made to be slow the time is relocations times what these take. It needs about 200 KiB
 * of stack. Errors, in the order of the tests: those of the objects, those of a load plan, XMAS_ELF_LOAD_IMAGE_SIZE,
 * those of a relocation, XMAS_ELF_LOAD_UNRESOLVED, XMAS_ELF_LOAD_WORD_ADDRESS, XMAS_ELF_LOAD_COPY_SOURCE. */
XMAS_ELF_NODISCARD uint32_t xmas_elf_relocate_all(const xmas_elf_load_object_t *objects, size_t objects_count,
    uint32_t lazy, uint64_t page, uint64_t limit, uint8_t *images, size_t images_size, uint64_t *left,
    uint64_t *failed, uint64_t *relocation) XMAS_ELF_NOEXCEPT;

/* Writes the text of a status to the front of `out`, as much as fits, and returns the size of the whole text in
 * bytes. The text is ASCII without a zero byte at its end. A status that is no error, such as 0, has an empty text. */
size_t xmas_elf_message(uint32_t status, uint8_t *out, size_t out_size) XMAS_ELF_NOEXCEPT;

/* The names of the libraries that a file asks for (DT_NEEDED, DT_AUXILIARY, DT_FILTER) from index `first` on, in the
 * order of their entries. `xmas_elf_expand` replaces their tokens. No section header is needed. Each call reads the
 * entries from the first on, so give room for all, and each name to its end: where entries share one long name, the
 * time is their number times its size. Errors, in the order of the tests: those of the dynamic segment,
 * XMAS_ELF_NO_RECORD. Errors of a record, in the order of the tests: those of a text of the dynamic segment. */
XMAS_ELF_NODISCARD uint32_t xmas_elf_needed_names(const uint8_t *input, size_t input_size,
    const xmas_elf_header_t *header, uint64_t first, xmas_elf_needed_name_t *out, size_t out_count, uint64_t *count)
    XMAS_ELF_NOEXCEPT;

/* The value of the last dynamic entry with a tag, which is the one that the loader of glibc reads of DT_SONAME (14),
 * DT_RPATH (15), DT_RUNPATH (29) and DT_FLAGS_1 (0x6ffffffb). No section header is needed. Errors, in the order of
 * the tests: those of the dynamic segment, XMAS_ELF_NOT_FOUND. */
XMAS_ELF_NODISCARD uint32_t xmas_elf_last_entry(const uint8_t *input, size_t input_size,
    const xmas_elf_header_t *header, uint64_t tag, uint64_t *out) XMAS_ELF_NOEXCEPT;

/* The range of the text that the entry of `xmas_elf_last_entry` names. Errors, in the order of the tests:
 * those of the dynamic segment, XMAS_ELF_NOT_FOUND, those of a text of the dynamic segment. */
XMAS_ELF_NODISCARD uint32_t xmas_elf_last_text(const uint8_t *input, size_t input_size,
    const xmas_elf_header_t *header, uint64_t tag, xmas_elf_range_t *out) XMAS_ELF_NOEXCEPT;

/* Whether an opened file is the library that a program of a class (1 or 2) and a machine (e_machine) looks for: 1 it
 * is taken, 0 it is passed over, and the next path is tried. With an error the loader of glibc ends the program.
 * `head` are the first 64 bytes of the file or more, or all that it has, and `len` is its size. Of a folder, which
 * opens and can't be read, the caller takes XMAS_ELF_SEARCH_FILE_DATA itself. Errors, in the order of the tests:
 * XMAS_ELF_SEARCH_SHORT_FILE, XMAS_ELF_SEARCH_MAGIC, XMAS_ELF_SEARCH_BYTE_ORDER, XMAS_ELF_SEARCH_IDENT_VERSION,
 * XMAS_ELF_SEARCH_OS_ABI, XMAS_ELF_SEARCH_ABI_VERSION, XMAS_ELF_SEARCH_PADDING, XMAS_ELF_SEARCH_VERSION,
 * XMAS_ELF_SEARCH_TYPE, XMAS_ELF_SEARCH_ENTRY_SIZE, XMAS_ELF_SEARCH_FILE_DATA. */
XMAS_ELF_NODISCARD uint32_t xmas_elf_fits(const uint8_t *head, size_t head_size, uint64_t len, uint8_t file_class,
    uint16_t machine, uint32_t *out) XMAS_ELF_NOEXCEPT;

/* Whether a file that `xmas_elf_fits` took has what a library must have, and is no executable. What a loader asks of
 * its segments is tested by `xmas_elf_check_load`. Errors, in the order of the tests: XMAS_ELF_SEARCH_NO_LOAD,
 * XMAS_ELF_SEARCH_EXECUTABLE, XMAS_ELF_SEARCH_NO_DYNAMIC, those of the dynamic segment,
 * XMAS_ELF_SEARCH_SHARED_EXECUTABLE. */
XMAS_ELF_NODISCARD uint32_t xmas_elf_check_library(const uint8_t *input, size_t input_size,
    const xmas_elf_header_t *header) XMAS_ELF_NOEXCEPT;

/* Whether one loader maps a file. `loader` is 1 for glibc, which maps libraries; any other number for Linux, which
 * maps a program. `page` and `limit` are those of `xmas_elf_load_plan`, whose list of errors is another: some files
 * that load have no plan. Errors, in the order of the tests: XMAS_ELF_LOAD_BYTE_ORDER, XMAS_ELF_LOAD_IDENT_VERSION,
 * XMAS_ELF_LOAD_OS_ABI, XMAS_ELF_LOAD_ABI_VERSION, XMAS_ELF_LOAD_PADDING, XMAS_ELF_LOAD_VERSION, XMAS_ELF_LOAD_TYPE,
 * XMAS_ELF_LOAD_ENTRY_SIZE, XMAS_ELF_LOAD_COUNT, XMAS_ELF_LOAD_TABLE, XMAS_ELF_LOAD_MISALIGNED,
 * XMAS_ELF_LOAD_NO_LOAD, XMAS_ELF_LOAD_EXECUTABLE, XMAS_ELF_LOAD_RANGE, XMAS_ELF_LOAD_DATA, XMAS_ELF_LOAD_OVERLAP,
 * XMAS_ELF_LOAD_FILE_SIZE, XMAS_ELF_LOAD_INTERPRETER, XMAS_ELF_LOAD_EMPTY, XMAS_ELF_LOAD_ENTRY,
 * XMAS_ELF_LOAD_NO_DYNAMIC, XMAS_ELF_LOAD_RELRO, XMAS_ELF_LOAD_TLS. */
XMAS_ELF_NODISCARD uint32_t xmas_elf_check_load(const uint8_t *input, size_t input_size,
    const xmas_elf_header_t *header, uint64_t page, uint64_t limit, uint32_t loader) XMAS_ELF_NOEXCEPT;

/* The bytes of a text with its dynamic string tokens replaced by their values, from byte `first` on.
 * XMAS_ELF_SEARCH_EMPTY_TOKEN if a value is not known: an element of a list then drops out, and an object whose
 * needed name has it is not loaded. Each call goes over the bytes from the first on, so give room for all: they may
 * be as many as the tokens of the text times the size of a value. Errors, in the order of the tests:
 * XMAS_ELF_SEARCH_EMPTY_TOKEN, XMAS_ELF_NO_RECORD. */
XMAS_ELF_NODISCARD uint32_t xmas_elf_expand(const uint8_t *text, size_t text_size, const xmas_elf_tokens_t *tokens,
    uint64_t first, uint8_t *out, size_t out_size, uint64_t *count) XMAS_ELF_NOEXCEPT;

/* The paths at which a library is looked for, in order, from index `first` on; `xmas_elf_candidate_paths` has their
 * texts. The first of `askers` is the object that asks; each is followed by the object that had it loaded, and the
 * last is the program. Those after the first that have no DT_RPATH may be left out. The first file that
 * `xmas_elf_fits` takes ends the search; one that can't be opened is passed over. Where, with `subdirectory_size` 0
 * and a folder that is there, opening fails otherwise than since there is no such file or for want of permission, go
 * on with the next candidate that has another `how` or `asker`. Each call goes through the candidates from the first
 * on, and the cost of a list grows with the square of its length. Errors, in the order of the tests:
 * XMAS_ELF_MANY_OBJECTS, XMAS_ELF_NO_RECORD. */
XMAS_ELF_NODISCARD uint32_t xmas_elf_candidates(const xmas_elf_search_for_t *search,
    const xmas_elf_search_asker_t *askers, size_t askers_count, uint64_t first, xmas_elf_candidate_path_t *out,
    size_t out_count, uint64_t *count) XMAS_ELF_NOEXCEPT;

/* The paths of `xmas_elf_candidates`, one after another, each with a zero byte after it, from byte `first` of all of
 * them on. Costs are those of that call, so give much room. Errors, in the order of the tests: XMAS_ELF_MANY_OBJECTS,
 * XMAS_ELF_NO_RECORD. */
XMAS_ELF_NODISCARD uint32_t xmas_elf_candidate_paths(const xmas_elf_search_for_t *search,
    const xmas_elf_search_asker_t *askers, size_t askers_count, uint64_t first, uint8_t *out, size_t out_size,
    uint64_t *count) XMAS_ELF_NOEXCEPT;

/* The path that a machine gets for a name from the cache of these bytes (/etc/ld.so.cache), from its byte `first` on.
 * Any bytes may be given. The loader of glibc goes on without a cache where it can't be read. Each call searches
 * anew, so give room for the whole path. It compares `name` with the keys of a binary search and of the entries
 * around it with an equal key, and reads a key of zeros to its end: in a cache made to be slow the time is entries
 * times the size of a key. Errors, in the order of the tests: XMAS_ELF_SEARCH_NOT_A_CACHE,
 * XMAS_ELF_SEARCH_CACHE_COUNT, XMAS_ELF_SEARCH_CACHE_ORDER, XMAS_ELF_NOT_FOUND, XMAS_ELF_NO_RECORD. */
XMAS_ELF_NODISCARD uint32_t xmas_elf_cache_path(const uint8_t *cache, size_t cache_size, const uint8_t *name,
    size_t name_size, const xmas_elf_cache_machine_t *machine, uint64_t first, uint8_t *out, size_t out_size,
    uint64_t *count) XMAS_ELF_NOEXCEPT;

/* The entry whose name is to be looked for next, by what the entries of all objects found so far. Objects have
 * numbers in the order in which they are loaded, from 0, the program: where an entry finds a new one, it gets the
 * next number, and is put at the end of `dependencies`. Without entries of kinds 2 and 3 it is the first of the first
 * object that was not asked for, so the entries of an object can be asked for one after another; `words` and `edges`
 * are not used then, and else have 4 words for each object and one for each entry. XMAS_ELF_NO_RECORD if all were
 * asked for. Each call goes through all entries, so a call for each of them takes time by the square of their number.
 * Errors, in the order of the tests: XMAS_ELF_NO_RECORD, XMAS_ELF_SEARCH_NO_OBJECT, XMAS_ELF_SEARCH_FEW_WORDS. */
XMAS_ELF_NODISCARD uint32_t xmas_elf_next_entry(const xmas_elf_dependencies_t *dependencies,
    size_t dependencies_count, uint32_t *words, size_t words_count, uint32_t *edges, size_t edges_count,
    xmas_elf_object_entry_t *out) XMAS_ELF_NOEXCEPT;

/* The order in which the initialisers of libraries run, by what the entries of all objects found: the numbers of the
 * objects but the program, which starts last, at the front of `starts`, and how many they are in `count`. Of the
 * objects with the flag 0x20 (DF_1_INITFIRST) the one with the greatest number starts before all; the call doesn't
 * move it. `list` gets the numbers of all objects in the order in which symbols are looked up. Give 4 `words` and 3
 * `starts` for each object, an edge for each entry, and a word of `list` for each object; what else they hold after
 * has no meaning. XMAS_ELF_SEARCH_NO_OBJECT if an entry was not asked for, or the numbers are not those of
 * `xmas_elf_next_entry`. Errors, in the order of the tests: XMAS_ELF_SEARCH_FEW_WORDS, XMAS_ELF_SEARCH_NO_OBJECT. */
XMAS_ELF_NODISCARD uint32_t xmas_elf_start_order(const xmas_elf_dependencies_t *dependencies,
    size_t dependencies_count, uint32_t *words, size_t words_count, uint32_t *edges, size_t edges_count,
    uint32_t *list, size_t list_count, uint32_t *starts, size_t starts_count, uint64_t *count) XMAS_ELF_NOEXCEPT;

/* The versions that a file needs of the object that its needs call `name`, and that this object lacks, from index
 * `first` on, in the order of the needs. `provider` are the bytes of the object, and `provider_header` is its header.
 * A need of another name has the status XMAS_ELF_SEARCH_NO_PROVIDER. Each call reads the needs from the first on, and
 * goes through the definitions of the object for each: the time is needs times definitions. It reads the names of
 * definitions with an equal hash number, and those of needs, to their end. Errors, in the order of the tests:
 * those of the dynamic segment, XMAS_ELF_NO_RECORD. Errors of a record, in the order of the tests:
 * XMAS_ELF_SEARCH_NO_PROVIDER, those of a version. */
XMAS_ELF_NODISCARD uint32_t xmas_elf_missing_versions(const uint8_t *input, size_t input_size,
    const xmas_elf_header_t *header, const uint8_t *name, size_t name_size, const uint8_t *provider,
    size_t provider_size, const xmas_elf_header_t *provider_header, uint64_t first, xmas_elf_lacked_version_t *out,
    size_t out_count, uint64_t *count) XMAS_ELF_NOEXCEPT;
/* End of the structs and functions. */

/* The text of a status, ended by a zero byte. */
typedef struct xmas_elf_status_text_t {
    char text[XMAS_ELF_LONGEST_MESSAGE + 1];
} xmas_elf_status_text_t;

/* Returns the text of a status: puts(xmas_elf_status_text(status).text). That of XMAS_ELF_OK is empty. */
static inline xmas_elf_status_text_t xmas_elf_status_text(uint32_t status) XMAS_ELF_NOEXCEPT
{
    xmas_elf_status_text_t text;
#ifdef __cplusplus
    size_t size = xmas_elf_message(status, reinterpret_cast<uint8_t *>(text.text), XMAS_ELF_LONGEST_MESSAGE);
#else
    size_t size = xmas_elf_message(status, (uint8_t *)text.text, XMAS_ELF_LONGEST_MESSAGE);
#endif
    for (; size <= XMAS_ELF_LONGEST_MESSAGE; size++) text.text[size] = 0;
    return text;
}

/* Whether a status of `xmas_elf_symbols_open`, `xmas_elf_relocations`, `xmas_elf_packed_relocations` or `xmas_elf_dynamics` says
 * that the section has other data, by its type. Any other error means damage. */
static inline int xmas_elf_is_other_data(uint32_t status) XMAS_ELF_NOEXCEPT
{
    return status == XMAS_ELF_OTHER_DATA || status == XMAS_ELF_INVALID_SH_TYPE || status == XMAS_ELF_NOTE_32;
}

#ifdef __cplusplus
}
#endif

#endif
