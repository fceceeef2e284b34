//! The ids by which symbol servers know a module.

use crate::ffi;
use crate::records::{IdKind, Module, Place, SummaryModule};
use std::fmt::Write as _;

/// A module that [`Dump::ids`](crate::Dump::ids) takes: a [`Module`], or a [`SummaryModule`].
pub trait Identified: sealed::Sealed {
    /// Its CodeView record.
    fn codeview(&self) -> Place;
    /// TimeDateStamp, in seconds since 1970.
    fn time_date_stamp(&self) -> u32;
    /// SizeOfImage, in bytes.
    fn size_of_image(&self) -> u32;
}

mod sealed {
    pub trait Sealed {}
}

macro_rules! identified {
    ($($record:ident)*) => {
        $(impl sealed::Sealed for $record {}

        impl Identified for $record {
            fn codeview(&self) -> Place {
                self.codeview
            }

            fn time_date_stamp(&self) -> u32 {
                self.time_date_stamp
            }

            fn size_of_image(&self) -> u32 {
                self.size_of_image
            }
        })*
    };
}

identified! { Module SummaryModule }

/// The ids by which symbol servers know a module.
#[derive(Clone, Copy, Debug, PartialEq, Eq)]
pub struct ModuleIds(pub(crate) ffi::ModuleIds);

impl ModuleIds {
    /// Which kind of CodeView record the debug id is from.
    pub fn kind(&self) -> IdKind {
        self.0.kind.into()
    }

    /// The debug id as Breakpad writes it. RSDS: the digits of the GUID and the age. NB10: the time and the age. ELF: the
    /// first 16 bytes of the build id as a GUID, and 0. `None` for another kind.
    pub fn debug_id(&self) -> Option<String> {
        match self.kind() {
            IdKind::Rsds | IdKind::Elf => {
                let guid = u128::from_be_bytes(self.0.guid);
                Some(format!("{guid:032X}{:x}", self.0.age))
            }
            IdKind::Pdb20 => Some(format!("{:08X}{:x}", self.0.signature, self.0.age)),
            _ => None,
        }
    }

    /// ELF: the bytes of the build id as digits in lower case. Else TimeDateStamp and SizeOfImage of the module, or `None`
    /// if the time is 0.
    pub fn code_id(&self) -> Option<String> {
        if let Some(bytes) = self.build_id() {
            return Some(bytes.iter().fold(String::new(), |mut digits, byte| {
                let _ = write!(digits, "{byte:02x}");
                digits
            }));
        }
        self.image_id()
    }

    /// The code id of a PE file.
    fn image_id(&self) -> Option<String> {
        let (time, size) = (self.0.time_date_stamp, self.0.size_of_image);
        (time != 0).then(|| format!("{time:08X}{size:x}"))
    }

    /// ELF: the build id, of which at most 20 bytes are read. `None` for another kind.
    pub fn build_id(&self) -> Option<&[u8]> {
        (self.kind() == IdKind::Elf)
            .then(|| self.0.build_id.get(..self.0.build_id_size as usize))
            .flatten()
    }

    /// ELF: whether the record has more bytes of the build id.
    pub fn is_build_id_cut(&self) -> bool {
        self.0.build_id_cut == 1
    }

    /// RSDS: the path of the PDB file at a symbol server, as in app.pdb/GUIDAGE/app.pdb. `name` is that of the symbol file,
    /// with folders or without. `None` for another kind, or if the file name should not be part of a path: it is not
    /// UTF-8, empty, `.` or `..`, or has control characters.
    pub fn symbol_path(&self, name: &[u8]) -> Option<String> {
        if self.kind() != IdKind::Rsds {
            return None;
        }
        path(std::str::from_utf8(name).ok()?, &self.debug_id()?)
    }

    /// The path of the PE file at a symbol server, as in app.exe/TIMESIZE/app.exe. `name` is that of the module, with
    /// folders or without. `None` for an ELF file, without a time, or if the file name should not be part of a path.
    pub fn image_path(&self, name: &str) -> Option<String> {
        if self.kind() == IdKind::Elf {
            return None;
        }
        path(name, &self.image_id()?)
    }
}

/// The path of a file at a symbol server.
fn path(name: &str, key: &str) -> Option<String> {
    let file = name.rsplit(['/', '\\']).next().unwrap_or_default();
    let is_plain = !matches!(file, "" | "." | "..") && !file.contains(char::is_control);
    is_plain.then(|| format!("{file}/{key}/{file}"))
}
