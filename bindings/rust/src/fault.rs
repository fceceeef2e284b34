//! Errors in a file.

use crate::ffi;
use crate::records::{FaultKind, Part};
use std::fmt;

/// An error in a file, and where it is. It prints the message of the command.
///
/// ```
/// let error = mdmp::Dump::new(b"MDMP").header().unwrap_err();
/// let fault = error.fault().unwrap();
/// assert_eq!(fault.to_string(), "file of 4 bytes is too short");
/// assert_eq!(fault.kind(), mdmp::FaultKind::FileTooShort);
/// ```
#[derive(Clone, Copy, PartialEq, Eq)]
pub struct Fault(pub(crate) ffi::Fault);

impl Fault {
    /// Which error it is.
    pub fn kind(&self) -> FaultKind {
        self.0.kind.into()
    }

    /// The number of the directory entry, from 0, or `None` if the error is not in an entry.
    pub fn entry(&self) -> Option<u32> {
        (16..=33).contains(&self.0.kind).then_some(self.0.entry)
    }

    /// The number of the record in its stream, from 0, or `None` if the error is not in one record.
    pub fn index(&self) -> Option<u64> {
        (self.0.has_index == 1).then_some(self.0.index)
    }

    /// An offset from the start of the file, or 0 if the kind has none.
    pub fn offset(&self) -> u128 {
        self.wide(&[FaultKind::PartOutside], self.0.offset)
    }

    /// A number of bytes, or what the kind says.
    pub fn size(&self) -> u128 {
        let wide = [
            FaultKind::TooManyRanges,
            FaultKind::MemoryLimit,
            FaultKind::CopyBudget,
        ];
        self.wide(&wide, self.0.size)
    }

    /// Which part of the record has the error, or `None` if the error is not in a part.
    pub fn part(&self) -> Option<Part> {
        (self.0.part != 0).then(|| self.0.part.into())
    }

    /// A number that has an upper half if the error is of one of these kinds.
    fn wide(&self, kinds: &[FaultKind], lower: u64) -> u128 {
        let upper = if kinds.contains(&self.kind()) {
            self.0.high
        } else {
            0
        };
        u128::from(upper) << 64 | u128::from(lower)
    }
}

impl fmt::Display for Fault {
    fn fmt(&self, f: &mut fmt::Formatter<'_>) -> fmt::Result {
        let (mut text, mut size) = ([0; 256], 0);
        ffi::mdmp_fault_text(&self.0, &mut text, &mut size);
        let length = text.len().min(size as usize);
        f.write_str(std::str::from_utf8(&text[..length]).unwrap_or_default())
    }
}

impl fmt::Debug for Fault {
    fn fmt(&self, f: &mut fmt::Formatter<'_>) -> fmt::Result {
        write!(f, "Fault({:?}, \"{self}\")", self.kind())
    }
}

impl std::error::Error for Fault {}
