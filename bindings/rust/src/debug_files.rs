//! Separate debug files, in which the symbols of a stripped file are (gdb's manual, "Separate Debug Files").

use crate::records::DebugCandidate;
use crate::{ffi, ElfFile, Error};

/// How a debug file is found.
#[derive(Clone, Copy, Debug, PartialEq, Eq, Hash)]
pub enum DebugHow {
    /// By the build id, in the directory.
    BuildId,
    /// By the name in `.gnu_debuglink`, in the folder of the file.
    Folder,
    /// By that name in `.debug` in the folder of the file.
    Subfolder,
    /// By that name in the same folder under the directory.
    Directory,
}

impl DebugHow {
    fn of(number: u32) -> DebugHow {
        match number {
            0 => DebugHow::BuildId,
            1 => DebugHow::Folder,
            2 => DebugHow::Subfolder,
            _ => DebugHow::Directory,
        }
    }
}

/// The CRC-32 of the bytes of a debug file, which `.gnu_debuglink` has.
pub fn debug_crc(bytes: &[u8]) -> u32 {
    ffi::debug_crc(bytes).unwrap_or_default()
}

impl ElfFile<'_> {
    /// The path at an index at which the debug file of the file at `path` may be, in the order in which gdb tries them: how it is
    /// found, and the size of the path, whose bytes are written to the front of `text`, as many as fit. `directory` is that of
    /// debug files, such as `/usr/lib/debug`. None if there are no more. A build id or a link that can't be read gives no path:
    /// `build_id`, `sections` and `data` of a section return the error.
    pub fn debug_path(&self, path: &[u8], directory: &[u8], index: u64, text: &mut [u8]) -> Option<(DebugHow, u64)> {
        let DebugCandidate { size, how } = ffi::debug_path(self.input, &self.header, path, directory, index, text).ok()?;
        Some((DebugHow::of(how), size))
    }

    /// Whether another file, which was found in some way, is the debug file of this one: an error says what differs.
    pub fn check_debug(&self, how: DebugHow, debug: &ElfFile<'_>) -> Result<(), Error> {
        ffi::check_debug(self.input, &self.header, how as u32, debug.input, &debug.header)
    }

    /// All paths of [`ElfFile::debug_path`].
    #[cfg(feature = "alloc")]
    pub fn debug_paths(&self, path: &[u8], directory: &[u8]) -> alloc::vec::Vec<(DebugHow, alloc::vec::Vec<u8>)> {
        let whole = |index| {
            let (how, size) = self.debug_path(path, directory, index, &mut [])?;
            let mut text = alloc::vec![0; size as usize];
            self.debug_path(path, directory, index, &mut text).map(|_| (how, text))
        };
        (0..).map_while(whole).collect()
    }
}
