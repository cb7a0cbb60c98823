//! The texts of errors, which the archive has.

use xmas_elf_proved::{ElfFile, Error};

#[test]
fn errors_have_the_texts_of_the_library() {
    let error = ElfFile::new(&[]).err();
    assert_eq!(error, Some(Error::ShortPart1));
    assert_eq!(error.map(|error| error.to_string()).as_deref(), Some("File is shorter than the first ELF header part"));
    let error = ElfFile::new(&[0; 64]).err();
    assert_eq!(error.map(|error| format!("{error:>32}")).as_deref(), Some("   Did not find ELF magic number"));
    assert_eq!(&*Error::BadAlign.message(), "Invalid combination of virtual_addr, offset, and align");
    assert_eq!(&*Error::LinkAddress.message(), "Address is in no loaded segment");
    assert_eq!(&*Error::NotFound.message(), "Nothing has this name");
    assert_eq!(&*Error::Unknown(9999).message(), "Unknown status");
}
