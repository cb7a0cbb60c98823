//! The relocations of a file: those of its sections, or else those of the dynamic segment.

use crate::batch::Batch;
use crate::constants::{SHT_REL, SHT_RELA, SHT_RELR};
use crate::dynamic::begun;
use crate::{ffi, ElfFile, Error, Relocation};

// Each call for those of the dynamic segment reads them from the first on, so many are asked for at once.
const ROOM: usize = 512;

impl ElfFile<'_> {
    /// The relocations of all sections of type SHT_RELA or SHT_REL, in their order: a symbol's index is one of the section
    /// `link`. Of a file without such sections those of the dynamic segment (DT_RELA, DT_REL, DT_JMPREL), whose symbols are
    /// [`ElfFile::dynamic_symbols`]. Those of the dynamic segment are read 512 at a time, each time from the first on: the
    /// time grows with the square of their number.
    pub fn relocations(&self) -> Result<impl Iterator<Item = Relocation> + '_, Error> {
        let tables = self.sections()?.filter(|section| [SHT_RELA, SHT_REL].contains(&section.type_));
        tables.clone().try_for_each(|section| section.relocations().map(|_| ()))?;
        let ask = |first: u64, out: &mut [Relocation]| ffi::dynamic_relocations(self.input, &self.header, first, out);
        let has_sections = tables.clone().next().is_some();
        if !has_sections {
            begun(self, ask(0, &mut []))?;
        }
        // Each table was read above.
        let of_sections = tables.flat_map(|section| section.relocations().into_iter().flatten());
        let of_segment = (!has_sections).then(|| Batch::<Relocation, ROOM>::items(ask));
        Ok(of_sections.chain(of_segment.into_iter().flatten()))
    }

    /// The addresses in the packed relative relocations of all sections of type SHT_RELR; of a file without such sections
    /// those of the dynamic segment (DT_RELR), whose time grows with the square of their number, as that of `relocations`.
    pub fn packed_relocations(&self) -> Result<impl Iterator<Item = u64> + '_, Error> {
        let tables = self.sections()?.filter(|section| section.type_ == SHT_RELR);
        tables.clone().try_for_each(|section| section.packed_relocations().map(|_| ()))?;
        let ask = |first: u64, out: &mut [u64]| ffi::dynamic_packed_relocations(self.input, &self.header, first, out);
        let has_sections = tables.clone().next().is_some();
        if !has_sections {
            begun(self, ask(0, &mut []))?;
        }
        let of_sections = tables.flat_map(|section| section.packed_relocations().into_iter().flatten());
        let of_segment = (!has_sections).then(|| Batch::<u64, ROOM>::items(ask));
        Ok(of_sections.chain(of_segment.into_iter().flatten()))
    }
}
