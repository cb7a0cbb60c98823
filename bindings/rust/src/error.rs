//! The errors of the archive. Written by tools/exports/declarations.py.

/// Why a file, or a part of it, can't be read.
#[derive(Clone, Copy, Debug, PartialEq, Eq, Hash)]
#[non_exhaustive]
pub enum Error {
    /// File is shorter than the first ELF header part.
    ShortPart1,
    /// Did not find ELF magic number.
    NoMagic,
    /// Invalid ELF class.
    InvalidClass,
    /// File is shorter than ELF headers.
    ShortHeaders,
    /// Attempt to get section for a reserved index.
    ReservedIndex,
    /// File is shorter than section header offset.
    ShortSectionHeader,
    /// Unknown ELF class.
    UnknownClass,
    /// Entry size is smaller than the record.
    SmallEntry,
    /// There are no program headers in this file.
    NoProgramHeaders,
    /// File is shorter than program header offset.
    ShortProgramHeader,
    /// Invalid sh type.
    InvalidShType,
    /// Attempt to get name of null section.
    NullName,
    /// File is shorter than section offset.
    ShortSectionOffset,
    /// Text starts past the end of its data.
    TextStart,
    /// Text has no terminating zero.
    TextEnd,
    /// Text is not valid UTF-8.
    TextUtf8,
    /// Attempt to get data of a null header.
    NullData,
    /// Data is out of range.
    DataRange,
    /// Data is not a whole number of records.
    NotMultiple,
    /// Data is too short.
    ShortData,
    /// 32-bit binaries not implemented.
    Note32,
    /// Note name does not match its size.
    NoteName,
    /// Note description is out of range.
    NoteDesc,
    /// no .strtab section.
    NoStrtab,
    /// expected .strtab to be StrTab.
    StrtabType,
    /// no .dynstr section.
    NoDynstr,
    /// Invalid type.
    InvalidPhType,
    /// Invalid tag value.
    InvalidTag,
    /// Invalid value.
    InvalidValue,
    /// Invalid ptr.
    InvalidPtr,
    /// Invalid value for binding.
    InvalidBinding,
    /// Invalid value for type.
    InvalidSymbolType,
    /// Reserved section header index.
    ReservedSymbolIndex,
    /// no .symtab_shndx section.
    NoShIndex,
    /// Expected SymTabShIndex.
    ExpectedShIndex,
    /// Symbol index is out of range.
    SymbolIndex,
    /// Section index does not fit in 16 bits.
    WideIndex,
    /// bad magic number.
    BadMagic,
    /// header_size does not match size of header.
    HeaderSize,
    /// No class.
    NoClass,
    /// Mismatch between specified and actual class.
    ClassMismatch,
    /// no version.
    NoVersion,
    /// no data format.
    NoDataFormat,
    /// program header table out of range.
    PhTableRange,
    /// section header table out of range.
    ShTableRange,
    /// program header size mismatch.
    PhSizeMismatch,
    /// entry point out of range.
    EntryPointRange,
    /// Shouldn't use ShLib.
    ShLibUsed,
    /// Invalid combination of virtual_addr, offset, and align.
    BadAlign,
    /// Bucket index is out of range.
    BucketIndex,
    /// Chain index is out of range.
    ChainIndex,
    /// Chain position does not fit in 32 bits.
    ChainSum,
    /// Hash table data is too short.
    HashData,
    /// Hash chain never ends.
    HashCycle,
    /// Symbol is missing from the hash table.
    HashMissing,
    /// GNU hash table is too short.
    LinkShortTable,
    /// Class is neither 1 nor 2.
    LinkUnknownClass,
    /// Number of Bloom words is not a power of two.
    LinkBloomCount,
    /// Bucket index is out of range.
    LinkBucketIndex,
    /// Symbol index is before the first of the table.
    LinkChainIndex,
    /// Chain is not in the data.
    LinkChainData,
    /// Symbol index is out of range.
    LinkSymbolIndex,
    /// Symbol is missing from the GNU hash table.
    LinkMissing,
    /// No dynamic segment.
    LinkNoDynamic,
    /// Dynamic segment has no such entry.
    LinkNoEntry,
    /// Address is in no loaded segment.
    LinkAddress,
    /// Note is cut off.
    LinkShortNote,
    /// Data is not a whole number of words.
    LinkNotMultiple,
    /// Version record is cut off.
    LinkShortVersion,
    /// Version needs have more parts than bytes.
    LinkVersionCount,
    /// Kind of relocations is neither Rel nor Rela.
    LinkRelocationKind,
    /// Object index is out of range.
    LinkObjectIndex,
    /// Version records are more or fewer than told.
    LinkVersionChain,
    /// A section holds other data than what is asked for.
    OtherData,
    /// A table has no record with this index.
    NoRecord,
    /// Nothing has this name.
    NotFound,
    /// There are more than 64 objects.
    ManyObjects,
    /// A debug file has no build id.
    NoBuildId,
    /// A debug file has another build id.
    OtherBuildId,
    /// A debug file has another CRC.
    OtherChecksum,
    /// Type is neither executable nor shared object.
    LoadType,
    /// Program headers are not of the size of the class.
    LoadEntrySize,
    /// Program header table is empty or larger than a page.
    LoadCount,
    /// Program header table is past the end of the file.
    LoadTable,
    /// Load segment is larger in the file than in memory.
    LoadFileSize,
    /// Load segment is empty.
    LoadEmpty,
    /// Address and offset of a load segment differ modulo the page size.
    LoadMisaligned,
    /// Alignment of a load segment is not a power of two.
    LoadAlignment,
    /// Load segment is past the address limit.
    LoadRange,
    /// Load segment is past the end of the file.
    LoadData,
    /// Load segment begins before the end of the one before it.
    LoadOverlap,
    /// Load segment has zeros but is not readable and writable.
    LoadZeros,
    /// No load segment.
    LoadNoLoad,
    /// Program headers are not where the file says they are in memory.
    LoadHeaders,
    /// Path of the interpreter is not valid.
    LoadInterpreter,
    /// Part that is read-only after relocation is in no load segment.
    LoadRelro,
    /// Thread-local storage is not valid.
    LoadTls,
    /// Image is not of the size of the span.
    LoadImageSize,
    /// Dynamic segment is in no readable load segment.
    LoadDynamic,
    /// No string table or no symbols.
    LoadNoEntry,
    /// Size of relocations is not that of the class.
    LoadRelocationSize,
    /// Table of relocations is not a whole number of them.
    LoadNotMultiple,
    /// Table of the dynamic segment is in no readable load segment.
    LoadUnreadable,
    /// Kind of relocations of the procedure linkage table is neither Rel nor Rela.
    LoadSlotKind,
    /// Machine is not supported.
    LoadMachine,
    /// Marks have fewer bits than the load segments have bytes.
    LoadFewMarks,
    /// Type of a relocation is not supported.
    LoadWordType,
    /// Word is in no load segment.
    LoadWordAddress,
    /// Word is in a load segment that is not writable.
    LoadReadOnly,
    /// Words overlap.
    LoadWordsOverlap,
    /// Word is in a table of the dynamic segment.
    LoadWordInTable,
    /// Symbol is in no object.
    LoadUnresolved,
    /// Bytes to copy are not in the image of their object.
    LoadCopySource,
    /// Byte order is not little-endian.
    LoadByteOrder,
    /// Version in the first bytes is not 1.
    LoadIdentVersion,
    /// ABI of the operating system is neither System V nor GNU.
    LoadOsAbi,
    /// Version of the ABI is not known.
    LoadAbiVersion,
    /// Bytes 9 to 15 are not zero.
    LoadPadding,
    /// Version of the file is not 1.
    LoadVersion,
    /// Program at a fixed address is no library.
    LoadExecutable,
    /// No dynamic segment.
    LoadNoDynamic,
    /// Entry point is past the address limit.
    LoadEntry,
    /// Relocations without addends in a file of class 64.
    LoadNoAddends,
    /// No table of the procedure linkage table for its kind of relocations.
    LoadNoSlots,
    /// First packed relocation is not an address.
    LoadFirstPacked,
    /// Fewer relative relocations than are counted.
    LoadRelativeCount,
    /// Type of a relocation is not for the procedure linkage table.
    LoadSlotType,
    /// Size of a symbol that is in no object.
    LoadNoSize,
    /// Symbol to copy is absolute or an indirect function.
    LoadCopyKind,
    /// Relocation by a function that names a symbol.
    LoadCallSymbol,
    /// Relocations with addends in a file of class 32.
    LoadAddends,
    /// Table has 2^32 symbols or more.
    IndexManySymbols,
    /// Too few words for the index.
    IndexFewWords,
    /// cannot read file data.
    SearchFileData,
    /// file too short.
    SearchShortFile,
    /// invalid ELF header.
    SearchMagic,
    /// ELF file data encoding not little-endian.
    SearchByteOrder,
    /// ELF file version ident does not match current one.
    SearchIdentVersion,
    /// ELF file OS ABI invalid.
    SearchOsAbi,
    /// ELF file ABI version invalid.
    SearchAbiVersion,
    /// nonzero padding in e_ident.
    SearchPadding,
    /// ELF file version does not match current one.
    SearchVersion,
    /// only ET_DYN and ET_EXEC can be loaded.
    SearchType,
    /// ELF file's phentsize not the expected size.
    SearchEntrySize,
    /// object file has no loadable segments.
    SearchNoLoad,
    /// cannot dynamically load executable.
    SearchExecutable,
    /// object file has no dynamic section.
    SearchNoDynamic,
    /// cannot dynamically load position-independent executable.
    SearchSharedExecutable,
    /// empty dynamic string token substitution.
    SearchEmptyToken,
    /// not a cache of libraries.
    SearchNotACache,
    /// entries extend past the end of the cache.
    SearchCacheCount,
    /// cache is of another byte order.
    SearchCacheOrder,
    /// too few words for the objects.
    SearchFewWords,
    /// no such object or entry.
    SearchNoObject,
    /// key or value past the end of the cache.
    SearchCacheEntry,
    /// number in a key of the cache is too large.
    SearchCacheNumber,
    /// entries of the cache are not in order.
    SearchCacheEntryOrder,
    /// extension of the cache is damaged.
    SearchCacheExtension,
    /// name of hwcaps past the end of the cache.
    SearchHwcapsName,
    /// names of hwcaps are not in order.
    SearchHwcapsOrder,
    /// file of a need of versions is no object.
    SearchNoProvider,
    /// A status that this crate doesn't know: the archive is of another version.
    Unknown(u32),
}

impl Error {
    /// The error with this number, which isn't 0.
    pub(crate) fn of(status: u32) -> Error {
        match status {
            1 => Error::ShortPart1,
            2 => Error::NoMagic,
            3 => Error::InvalidClass,
            4 => Error::ShortHeaders,
            5 => Error::ReservedIndex,
            6 => Error::ShortSectionHeader,
            7 => Error::UnknownClass,
            8 => Error::SmallEntry,
            9 => Error::NoProgramHeaders,
            10 => Error::ShortProgramHeader,
            11 => Error::InvalidShType,
            12 => Error::NullName,
            13 => Error::ShortSectionOffset,
            14 => Error::TextStart,
            15 => Error::TextEnd,
            16 => Error::TextUtf8,
            17 => Error::NullData,
            18 => Error::DataRange,
            19 => Error::NotMultiple,
            20 => Error::ShortData,
            21 => Error::Note32,
            22 => Error::NoteName,
            23 => Error::NoteDesc,
            24 => Error::NoStrtab,
            25 => Error::StrtabType,
            26 => Error::NoDynstr,
            27 => Error::InvalidPhType,
            28 => Error::InvalidTag,
            29 => Error::InvalidValue,
            30 => Error::InvalidPtr,
            31 => Error::InvalidBinding,
            32 => Error::InvalidSymbolType,
            33 => Error::ReservedSymbolIndex,
            34 => Error::NoShIndex,
            35 => Error::ExpectedShIndex,
            36 => Error::SymbolIndex,
            37 => Error::WideIndex,
            38 => Error::BadMagic,
            39 => Error::HeaderSize,
            40 => Error::NoClass,
            41 => Error::ClassMismatch,
            42 => Error::NoVersion,
            43 => Error::NoDataFormat,
            44 => Error::PhTableRange,
            45 => Error::ShTableRange,
            46 => Error::PhSizeMismatch,
            47 => Error::EntryPointRange,
            48 => Error::ShLibUsed,
            49 => Error::BadAlign,
            50 => Error::BucketIndex,
            51 => Error::ChainIndex,
            52 => Error::ChainSum,
            53 => Error::HashData,
            54 => Error::HashCycle,
            55 => Error::HashMissing,
            101 => Error::LinkShortTable,
            102 => Error::LinkUnknownClass,
            103 => Error::LinkBloomCount,
            104 => Error::LinkBucketIndex,
            105 => Error::LinkChainIndex,
            106 => Error::LinkChainData,
            107 => Error::LinkSymbolIndex,
            108 => Error::LinkMissing,
            109 => Error::LinkNoDynamic,
            110 => Error::LinkNoEntry,
            111 => Error::LinkAddress,
            112 => Error::LinkShortNote,
            113 => Error::LinkNotMultiple,
            114 => Error::LinkShortVersion,
            115 => Error::LinkVersionCount,
            116 => Error::LinkRelocationKind,
            117 => Error::LinkObjectIndex,
            118 => Error::LinkVersionChain,
            201 => Error::OtherData,
            202 => Error::NoRecord,
            203 => Error::NotFound,
            204 => Error::ManyObjects,
            211 => Error::NoBuildId,
            212 => Error::OtherBuildId,
            213 => Error::OtherChecksum,
            301 => Error::LoadType,
            302 => Error::LoadEntrySize,
            303 => Error::LoadCount,
            304 => Error::LoadTable,
            305 => Error::LoadFileSize,
            306 => Error::LoadEmpty,
            307 => Error::LoadMisaligned,
            308 => Error::LoadAlignment,
            309 => Error::LoadRange,
            310 => Error::LoadData,
            311 => Error::LoadOverlap,
            312 => Error::LoadZeros,
            313 => Error::LoadNoLoad,
            314 => Error::LoadHeaders,
            315 => Error::LoadInterpreter,
            316 => Error::LoadRelro,
            317 => Error::LoadTls,
            318 => Error::LoadImageSize,
            319 => Error::LoadDynamic,
            320 => Error::LoadNoEntry,
            321 => Error::LoadRelocationSize,
            322 => Error::LoadNotMultiple,
            323 => Error::LoadUnreadable,
            324 => Error::LoadSlotKind,
            325 => Error::LoadMachine,
            326 => Error::LoadFewMarks,
            327 => Error::LoadWordType,
            328 => Error::LoadWordAddress,
            329 => Error::LoadReadOnly,
            330 => Error::LoadWordsOverlap,
            331 => Error::LoadWordInTable,
            332 => Error::LoadUnresolved,
            333 => Error::LoadCopySource,
            334 => Error::LoadByteOrder,
            335 => Error::LoadIdentVersion,
            336 => Error::LoadOsAbi,
            337 => Error::LoadAbiVersion,
            338 => Error::LoadPadding,
            339 => Error::LoadVersion,
            340 => Error::LoadExecutable,
            341 => Error::LoadNoDynamic,
            342 => Error::LoadEntry,
            343 => Error::LoadNoAddends,
            344 => Error::LoadNoSlots,
            345 => Error::LoadFirstPacked,
            346 => Error::LoadRelativeCount,
            347 => Error::LoadSlotType,
            348 => Error::LoadNoSize,
            349 => Error::LoadCopyKind,
            350 => Error::LoadCallSymbol,
            351 => Error::LoadAddends,
            401 => Error::IndexManySymbols,
            402 => Error::IndexFewWords,
            501 => Error::SearchFileData,
            502 => Error::SearchShortFile,
            503 => Error::SearchMagic,
            504 => Error::SearchByteOrder,
            505 => Error::SearchIdentVersion,
            506 => Error::SearchOsAbi,
            507 => Error::SearchAbiVersion,
            508 => Error::SearchPadding,
            509 => Error::SearchVersion,
            510 => Error::SearchType,
            511 => Error::SearchEntrySize,
            512 => Error::SearchNoLoad,
            513 => Error::SearchExecutable,
            514 => Error::SearchNoDynamic,
            515 => Error::SearchSharedExecutable,
            516 => Error::SearchEmptyToken,
            517 => Error::SearchNotACache,
            518 => Error::SearchCacheCount,
            519 => Error::SearchCacheOrder,
            520 => Error::SearchFewWords,
            521 => Error::SearchNoObject,
            522 => Error::SearchCacheEntry,
            523 => Error::SearchCacheNumber,
            524 => Error::SearchCacheEntryOrder,
            525 => Error::SearchCacheExtension,
            526 => Error::SearchHwcapsName,
            527 => Error::SearchHwcapsOrder,
            530 => Error::SearchNoProvider,
            other => Error::Unknown(other),
        }
    }

    /// The number of the error.
    pub fn status(&self) -> u32 {
        match self {
            Error::ShortPart1 => 1,
            Error::NoMagic => 2,
            Error::InvalidClass => 3,
            Error::ShortHeaders => 4,
            Error::ReservedIndex => 5,
            Error::ShortSectionHeader => 6,
            Error::UnknownClass => 7,
            Error::SmallEntry => 8,
            Error::NoProgramHeaders => 9,
            Error::ShortProgramHeader => 10,
            Error::InvalidShType => 11,
            Error::NullName => 12,
            Error::ShortSectionOffset => 13,
            Error::TextStart => 14,
            Error::TextEnd => 15,
            Error::TextUtf8 => 16,
            Error::NullData => 17,
            Error::DataRange => 18,
            Error::NotMultiple => 19,
            Error::ShortData => 20,
            Error::Note32 => 21,
            Error::NoteName => 22,
            Error::NoteDesc => 23,
            Error::NoStrtab => 24,
            Error::StrtabType => 25,
            Error::NoDynstr => 26,
            Error::InvalidPhType => 27,
            Error::InvalidTag => 28,
            Error::InvalidValue => 29,
            Error::InvalidPtr => 30,
            Error::InvalidBinding => 31,
            Error::InvalidSymbolType => 32,
            Error::ReservedSymbolIndex => 33,
            Error::NoShIndex => 34,
            Error::ExpectedShIndex => 35,
            Error::SymbolIndex => 36,
            Error::WideIndex => 37,
            Error::BadMagic => 38,
            Error::HeaderSize => 39,
            Error::NoClass => 40,
            Error::ClassMismatch => 41,
            Error::NoVersion => 42,
            Error::NoDataFormat => 43,
            Error::PhTableRange => 44,
            Error::ShTableRange => 45,
            Error::PhSizeMismatch => 46,
            Error::EntryPointRange => 47,
            Error::ShLibUsed => 48,
            Error::BadAlign => 49,
            Error::BucketIndex => 50,
            Error::ChainIndex => 51,
            Error::ChainSum => 52,
            Error::HashData => 53,
            Error::HashCycle => 54,
            Error::HashMissing => 55,
            Error::LinkShortTable => 101,
            Error::LinkUnknownClass => 102,
            Error::LinkBloomCount => 103,
            Error::LinkBucketIndex => 104,
            Error::LinkChainIndex => 105,
            Error::LinkChainData => 106,
            Error::LinkSymbolIndex => 107,
            Error::LinkMissing => 108,
            Error::LinkNoDynamic => 109,
            Error::LinkNoEntry => 110,
            Error::LinkAddress => 111,
            Error::LinkShortNote => 112,
            Error::LinkNotMultiple => 113,
            Error::LinkShortVersion => 114,
            Error::LinkVersionCount => 115,
            Error::LinkRelocationKind => 116,
            Error::LinkObjectIndex => 117,
            Error::LinkVersionChain => 118,
            Error::OtherData => 201,
            Error::NoRecord => 202,
            Error::NotFound => 203,
            Error::ManyObjects => 204,
            Error::NoBuildId => 211,
            Error::OtherBuildId => 212,
            Error::OtherChecksum => 213,
            Error::LoadType => 301,
            Error::LoadEntrySize => 302,
            Error::LoadCount => 303,
            Error::LoadTable => 304,
            Error::LoadFileSize => 305,
            Error::LoadEmpty => 306,
            Error::LoadMisaligned => 307,
            Error::LoadAlignment => 308,
            Error::LoadRange => 309,
            Error::LoadData => 310,
            Error::LoadOverlap => 311,
            Error::LoadZeros => 312,
            Error::LoadNoLoad => 313,
            Error::LoadHeaders => 314,
            Error::LoadInterpreter => 315,
            Error::LoadRelro => 316,
            Error::LoadTls => 317,
            Error::LoadImageSize => 318,
            Error::LoadDynamic => 319,
            Error::LoadNoEntry => 320,
            Error::LoadRelocationSize => 321,
            Error::LoadNotMultiple => 322,
            Error::LoadUnreadable => 323,
            Error::LoadSlotKind => 324,
            Error::LoadMachine => 325,
            Error::LoadFewMarks => 326,
            Error::LoadWordType => 327,
            Error::LoadWordAddress => 328,
            Error::LoadReadOnly => 329,
            Error::LoadWordsOverlap => 330,
            Error::LoadWordInTable => 331,
            Error::LoadUnresolved => 332,
            Error::LoadCopySource => 333,
            Error::LoadByteOrder => 334,
            Error::LoadIdentVersion => 335,
            Error::LoadOsAbi => 336,
            Error::LoadAbiVersion => 337,
            Error::LoadPadding => 338,
            Error::LoadVersion => 339,
            Error::LoadExecutable => 340,
            Error::LoadNoDynamic => 341,
            Error::LoadEntry => 342,
            Error::LoadNoAddends => 343,
            Error::LoadNoSlots => 344,
            Error::LoadFirstPacked => 345,
            Error::LoadRelativeCount => 346,
            Error::LoadSlotType => 347,
            Error::LoadNoSize => 348,
            Error::LoadCopyKind => 349,
            Error::LoadCallSymbol => 350,
            Error::LoadAddends => 351,
            Error::IndexManySymbols => 401,
            Error::IndexFewWords => 402,
            Error::SearchFileData => 501,
            Error::SearchShortFile => 502,
            Error::SearchMagic => 503,
            Error::SearchByteOrder => 504,
            Error::SearchIdentVersion => 505,
            Error::SearchOsAbi => 506,
            Error::SearchAbiVersion => 507,
            Error::SearchPadding => 508,
            Error::SearchVersion => 509,
            Error::SearchType => 510,
            Error::SearchEntrySize => 511,
            Error::SearchNoLoad => 512,
            Error::SearchExecutable => 513,
            Error::SearchNoDynamic => 514,
            Error::SearchSharedExecutable => 515,
            Error::SearchEmptyToken => 516,
            Error::SearchNotACache => 517,
            Error::SearchCacheCount => 518,
            Error::SearchCacheOrder => 519,
            Error::SearchFewWords => 520,
            Error::SearchNoObject => 521,
            Error::SearchCacheEntry => 522,
            Error::SearchCacheNumber => 523,
            Error::SearchCacheEntryOrder => 524,
            Error::SearchCacheExtension => 525,
            Error::SearchHwcapsName => 526,
            Error::SearchHwcapsOrder => 527,
            Error::SearchNoProvider => 530,
            Error::Unknown(status) => *status,
        }
    }
}

// How many bytes the longest text has.
pub(crate) const LONGEST: usize = 74;
