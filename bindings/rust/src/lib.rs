//! Windows minidump files, read by a proved library.
//!
//! A [`Dump`] borrows the bytes of a file, which the program has read or mapped. Records own their values. An error in
//! the file is an [`Error::Fault`], which has what precedes the error. A dump begins with the limits for files from
//! strangers, [`Limits::untrusted`]. If a call reaches a limit, it returns an [`Error::Limit`] or an
//! [`Error::OutputLimit`].
//!
//! ```
//! # fn main() -> Result<(), Box<dyn std::error::Error>> {
//! # std::env::set_current_dir(concat!(env!("CARGO_MANIFEST_DIR"), "/../../crates/mdmp_samples/data"))?;
//! let bytes = std::fs::read("crashpad-one.dmp")?;
//! let dump = mdmp::Dump::new(&bytes);
//! for module in dump.modules()? {
//!     let name = dump.name(&module.name)?.unwrap_or_default();
//!     println!("{:#x} {name}", module.base_of_image);
//! }
//! let thread = dump.threads()?[0];
//! let stack = dump.memory()?.bytes(thread.stack_start, 64);
//! assert_eq!(stack.map(|bytes| bytes.len()), Some(64));
//! # Ok(())
//! # }
//! ```
//!
//! The library has no state: any number of threads may use a `Dump`.
#![deny(unsafe_code, unsafe_op_in_unsafe_fn)]
#![warn(missing_docs)]

mod dump;
mod error;
mod fault;
#[allow(unsafe_code, dead_code)]
// unsafe is only here; each call of the header is declared, used or not
mod ffi;
mod ids;
mod limits;
mod memory;
mod records;
mod summary;

pub use dump::SymbolFile;
pub use dump::{Dump, Verdict};
pub use error::Error;
pub use fault::Fault;
pub use ids::{Identified, ModuleIds};
pub use limits::Limits;
pub use memory::Memory;
pub use records::{
    Access, Counts, ExceptionRecord, Extent, FaultKind, Header, IdKind, Module, NamePlace,
    NameState, Part, Place, Range, Region, Registers, Stream, SummaryModule, SymbolKind, System,
    Thread, ThreadName, UnloadedModule,
};
pub use summary::{Crash, PlaceInModule, Reached, Summary, SummarySystem};

/// The library's version: major, minor and patch.
pub fn version() -> (u32, u32, u32) {
    let number = ffi::mdmp_version();
    (number >> 16, number >> 8 & 0xff, number & 0xff)
}

#[cfg(test)]
mod tests {
    #[test]
    fn library_belongs_to_this_crate() {
        assert_eq!(crate::ffi::mdmp_abi(), crate::ffi::ABI);
        assert_eq!(crate::version(), (0, 1, 0));
    }

    #[test]
    fn dump_is_shared_by_threads() {
        fn is_shared<T: Send + Sync>() {}
        is_shared::<crate::Dump<'_>>();
        is_shared::<crate::Memory<'_>>();
        is_shared::<crate::Error<Vec<crate::Module>>>();
    }
}
