//! A minidump over the bytes of a file.

use crate::error::{ended, Error};
use crate::fault::Fault;
use crate::ffi;
use crate::ids::{Identified, ModuleIds};
use crate::limits::Limits;
use crate::memory::Memory;
use crate::records::{
    ExceptionRecord, Extent, FaultKind, Header, Module, NamePlace, NameState, Place, Range, Region,
    Stream, SymbolKind, System, Thread, ThreadName, UnloadedModule,
};
use crate::summary::{Crash, Summary};
use std::io;
use std::mem::size_of;

const BUFFER_TOO_SHORT: u32 = 4;
const PART: usize = 64 << 20;

/// A minidump over the bytes of a file.
#[derive(Clone, Copy)]
pub struct Dump<'a> {
    file: &'a [u8],
    limits: Limits,
    plain: ffi::Limits,
}

/// The result of checking an entry of the directory.
#[derive(Clone, Copy, Debug, PartialEq, Eq)]
#[non_exhaustive]
pub struct Verdict {
    /// The number of the entry in the directory, from 0.
    pub entry: u32,
    /// The first error of the entry, or `None` if the entry is good.
    pub fault: Option<Fault>,
}

/// The CodeView record of a module, which names its symbol file.
#[derive(Clone, Copy, Debug, PartialEq, Eq)]
#[non_exhaustive]
pub struct SymbolFile<'a> {
    /// Which kind of record it is. A field that this kind does not have is 0, `false` or empty.
    pub kind: SymbolKind,
    /// RSDS: the identity of the symbol file, in the order in which it is printed.
    pub guid: [u8; 16],
    /// RSDS: how often the symbol file was written since it got its identity.
    pub age: u32,
    /// RSDS: the name, in no known encoding. It has at most as many bytes as `name` of the dump's limits.
    pub name: &'a [u8],
    /// RSDS: `true` if a zero byte ends the name, `false` if the record or the limit ends it.
    pub name_ended: bool,
    /// Another kind: the first four bytes of the record.
    pub signature: [u8; 4],
}

/// What a call returned that fills a buffer. If there are more items than `output` allows, `cut` is that limit.
struct Filled<T> {
    status: u32,
    items: Vec<T>,
    fault: ffi::Fault,
    cut: Option<u64>,
}

impl<T> Filled<T> {
    fn ended<U>(self, made: impl FnOnce(Vec<T>) -> U) -> Result<U, Error<U>> {
        match self.cut {
            Some(most) => Err(Error::OutputLimit(most, made(self.items))),
            None => ended(self.status, self.fault, made(self.items)),
        }
    }
}

impl Filled<u8> {
    /// The text; if it is cut, only its whole lines. The texts of the library and its names are UTF-8.
    fn text(mut self) -> Result<String, Error<String>> {
        if self.cut.is_some() {
            let lines = self.items.iter().rposition(|byte| *byte == b'\n');
            self.items.truncate(lines.map_or(0, |at| at + 1));
        }
        self.ended(|bytes| String::from_utf8(bytes).expect("the library gives UTF-8"))
    }
}

impl Filled<ffi::Fault> {
    /// The rows of a check. That entries are bad is no error of the call.
    fn judged<T>(self, row: impl Fn(ffi::Fault) -> T) -> Result<Vec<T>, Error<Vec<T>>> {
        let has_all = FaultKind::from(self.fault.kind) == FaultKind::BadEntries;
        match self.ended(|rows| rows.into_iter().map(row).collect()) {
            Err(Error::Fault(_, rows)) if has_all => Ok(rows),
            other => other,
        }
    }
}

/// Calls with a buffer for so many items. If the buffer is too short, calls again with one of the length that the call
/// asks for, up to the items that `output` of the limits allows.
fn fill<T: Copy + Default>(
    room: usize,
    limits: &Limits,
    call: impl Fn(&mut [T], &mut u64, &mut ffi::Fault) -> u32,
) -> Filled<T> {
    let most = limits.room_for(size_of::<T>()).unwrap_or(usize::MAX);
    let mut room = room.min(most);
    loop {
        let (mut items, mut count, mut fault) =
            (vec![T::default(); room], 0, ffi::Fault::default());
        let status = call(&mut items, &mut count, &mut fault);
        let cut = limits
            .output
            .filter(|_| status == BUFFER_TOO_SHORT && room == most);
        if status != BUFFER_TOO_SHORT || cut.is_some() {
            items.truncate(count as usize);
            return Filled {
                status,
                items,
                fault,
                cut,
            };
        }
        room = (count as usize).min(most);
    }
}

macro_rules! tables {
    ($($(#[$doc:meta])* $method:ident: $call:ident gives $record:ident;)*) => {
        impl Dump<'_> {
            $($(#[$doc])*
            pub fn $method(&self) -> Result<Vec<$record>, Error<Vec<$record>>> {
                fill(self.room(), &self.limits, |out: &mut [ffi::$record], count, fault| {
                    ffi::$call(self.file, &self.plain, out, count, fault)
                })
                    .ended(|rows| rows.into_iter().map($record::from).collect())
            })*
        }
    };
}

tables! {
    /// The threads.
    threads: mdmp_threads gives Thread;
    /// The modules: [`Dump::name`] returns the text of a name, and [`Dump::symbols`] the CodeView record.
    modules: mdmp_modules gives Module;
    /// The unloaded modules.
    unloaded: mdmp_unloaded gives UnloadedModule;
    /// The exceptions. Most dumps of a crash have one.
    exceptions: mdmp_exceptions gives ExceptionRecord;
    /// The systems. Most dumps have one.
    systems: mdmp_systems gives System;
    /// The regions of memory.
    regions: mdmp_regions gives Region;
    /// The names of threads: [`Dump::name`] returns the text of a name.
    thread_names: mdmp_thread_names gives ThreadName;
    /// The ranges of memory whose bytes the file may have.
    ranges: mdmp_ranges gives Range;
}

impl<'a> Dump<'a> {
    /// A dump over the bytes of a file, with the limits for files from strangers: [`Limits::untrusted`].
    pub fn new(file: &'a [u8]) -> Self {
        let limits = Limits::untrusted();
        Dump {
            file,
            limits,
            plain: limits.plain(),
        }
    }

    /// The dump with these limits: `Limits::none()` lifts all.
    pub fn with_limits(mut self, limits: Limits) -> Self {
        self.limits = limits;
        self.plain = limits.plain();
        self
    }

    /// The limits of this dump.
    pub fn limits(&self) -> Limits {
        self.limits
    }

    /// The dump with another `window` in its limits.
    pub fn with_window(self, window: u32) -> Self {
        self.with_limits(Limits {
            window,
            ..self.limits
        })
    }

    /// The dump with another `name` in its limits: the longest name, in bytes.
    pub fn with_longest_name(self, name: u32) -> Self {
        self.with_limits(Limits {
            name,
            ..self.limits
        })
    }

    /// The dump with another `budget` in its limits. 0 is no byte.
    pub fn with_budget(self, bytes: u64) -> Self {
        self.with_limits(Limits {
            budget: Some(bytes),
            ..self.limits
        })
    }

    /// A guess of how many records of a kind the file has: most have at least 24 bytes.
    fn room(&self) -> usize {
        (self.file.len() / 24).clamp(16, 8192)
    }

    /// A guess of how many bytes a text of the file has.
    fn text_room(&self) -> usize {
        (2 * self.file.len()).clamp(1 << 14, 1 << 20)
    }

    /// The header.
    pub fn header(&self) -> Result<Header, Error> {
        let (mut out, mut fault) = (ffi::Header::default(), ffi::Fault::default());
        let status = ffi::mdmp_header(self.file, &mut out, &mut fault);
        ended(status, fault, ()).map(|()| out.into())
    }

    /// The entries of the directory. The streams that they name are not checked.
    pub fn streams(&self) -> Result<Vec<Stream>, Error> {
        fill(
            self.room(),
            &self.limits,
            |out: &mut [ffi::Stream], count, fault| ffi::mdmp_streams(self.file, out, count, fault),
        )
        .ended(|rows| rows.into_iter().map(Stream::from).collect())
        .map_err(Error::without_partial)
    }

    /// The result of checking each entry of the directory. It is an error only if the file cannot be opened, a limit is
    /// wrong or reached, or memory runs out.
    pub fn verdicts(&self) -> Result<Vec<Verdict>, Error<Vec<Verdict>>> {
        fill(self.room(), &self.limits, |out, count, fault| {
            ffi::mdmp_verdicts(self.file, &self.plain, out, count, fault)
        })
        .judged(|raw| Verdict {
            entry: raw.entry,
            fault: (raw.kind != 0).then_some(Fault(raw)),
        })
    }

    /// The parts of records, such as stacks, that are not inside the file, as `mdmp check --parts` prints them. Each
    /// entry is read up to its own error, so an error in an entry is no error of the call.
    ///
    /// ```
    /// # fn main() -> Result<(), Box<dyn std::error::Error>> {
    /// # std::env::set_current_dir(concat!(env!("CARGO_MANIFEST_DIR"), "/../../crates/mdmp_samples/data"))?;
    /// let bytes = std::fs::read("crashpad-one.dmp")?;
    /// let cut = mdmp::Dump::new(&bytes[..4708]);
    /// let parts = cut.parts_outside()?;
    /// assert_eq!(parts[0].part(), Some(mdmp::Part::Stack));
    /// let told = "entry 2 item 0: stack outside the file: offset 4720 size 7264";
    /// assert_eq!(parts[0].to_string(), told);
    /// # Ok(())
    /// # }
    /// ```
    pub fn parts_outside(&self) -> Result<Vec<Fault>, Error<Vec<Fault>>> {
        fill(self.room(), &self.limits, |out, count, fault| {
            ffi::mdmp_parts_outside(self.file, &self.plain, out, count, fault)
        })
        .judged(Fault)
    }

    /// What the dump says of a crash and of itself. It covers all entries, each up to its own error, so an error in an entry
    /// hides nothing of the others. If a limit is reached, there is no summary.
    ///
    /// ```
    /// # fn main() -> Result<(), Box<dyn std::error::Error>> {
    /// # std::env::set_current_dir(concat!(env!("CARGO_MANIFEST_DIR"), "/../../crates/mdmp_samples/data"))?;
    /// let bytes = std::fs::read("crashpad-one.dmp")?;
    /// let dump = mdmp::Dump::new(&bytes);
    /// let crash = dump.crash()?.expect("a crash");
    /// let place = crash.module.expect("a module has the address");
    /// let name = dump.name(&place.module.name)?.unwrap_or_default();
    /// assert_eq!(format!("{name}+{:#x}", place.offset), "/usr/sample/cpad+0x14d8");
    /// # Ok(())
    /// # }
    /// ```
    pub fn summary(&self) -> Result<Summary, Error> {
        let (mut out, mut fault) = (ffi::Summary::default(), ffi::Fault::default());
        let status = ffi::mdmp_summary(self.file, &self.plain, &mut out, &mut fault);
        ended(status, fault, ()).map(|()| out.into())
    }

    /// The crash: the first exception that is one, or `None` if no exception is one.
    pub fn crash(&self) -> Result<Option<Crash>, Error> {
        self.summary().map(|summary| summary.crash)
    }

    /// The ids by which symbol servers know a module: a [`Module`] or a [`SummaryModule`](crate::SummaryModule).
    pub fn ids(&self, module: &impl Identified) -> ModuleIds {
        let place = module.codeview();
        let row = ffi::Module {
            codeview: ffi::Place {
                size: place.size,
                rva: place.rva,
                ..ffi::Place::default()
            },
            time_date_stamp: module.time_date_stamp(),
            size_of_image: module.size_of_image(),
            ..ffi::Module::default()
        };
        let mut out = ffi::ModuleIds::default();
        ffi::mdmp_ids(self.file, &row, &mut out); // it always returns MDMP_OK
        ModuleIds(out)
    }

    /// The text of `mdmp check`: a line for each entry. If an entry is bad, an [`Error::Fault`] has the whole text.
    pub fn check(&self) -> Result<String, Error<String>> {
        fill(self.text_room(), &self.limits, |out, size, fault| {
            ffi::mdmp_check(self.file, &self.plain, out, size, fault)
        })
        .text()
    }

    /// The text of `mdmp check --json`: a JSON object for each entry, one a line. If an entry is bad, an
    /// [`Error::Fault`] has the whole text.
    pub fn check_json(&self) -> Result<String, Error<String>> {
        fill(self.text_room(), &self.limits, |out, size, fault| {
            ffi::mdmp_check_json(self.file, &self.plain, out, size, fault)
        })
        .text()
    }

    /// The text of `mdmp list`. An error has the lines before it.
    pub fn list(&self) -> Result<String, Error<String>> {
        self.listed(false)
    }

    /// The text of `mdmp list --pdb`, which has one more line for each CodeView record inside the file.
    pub fn list_with_symbols(&self) -> Result<String, Error<String>> {
        self.listed(true)
    }

    fn listed(&self, pdb: bool) -> Result<String, Error<String>> {
        fill(self.text_room(), &self.limits, |out, size, fault| {
            ffi::mdmp_list(self.file, &self.plain, pdb, out, size, fault)
        })
        .text()
    }

    /// The text of `mdmp list --json`: a JSON object in the place of each line.
    pub fn list_json(&self) -> Result<String, Error<String>> {
        self.listed_json(false)
    }

    /// The text of `mdmp list --json --pdb`, which has one more object for each CodeView record inside the file.
    pub fn list_json_with_symbols(&self) -> Result<String, Error<String>> {
        self.listed_json(true)
    }

    fn listed_json(&self, pdb: bool) -> Result<String, Error<String>> {
        fill(self.text_room(), &self.limits, |out, size, fault| {
            ffi::mdmp_list_json(self.file, &self.plain, pdb, out, size, fault)
        })
        .text()
    }

    /// Writes the text of `mdmp list`, of any length. The file is listed once for each 64 MiB of the text, mostly once.
    /// At most 64 MiB of the text are in memory. If there is an error, the text before it is written, and the
    /// `io::Error` has the [`Error`].
    pub fn write_list(&self, out: &mut impl io::Write) -> io::Result<()> {
        let mut part = vec![0; PART];
        let mut skip = 0;
        loop {
            let (mut left, mut fault) = (0, ffi::Fault::default());
            let status = ffi::mdmp_list_part(
                self.file,
                &self.plain,
                false,
                skip,
                &mut part,
                &mut left,
                &mut fault,
            );
            let given = part.len().min(left as usize);
            out.write_all(&part[..given])?;
            if status != BUFFER_TOO_SHORT {
                return ended(status, fault, ()).map_err(io::Error::other);
            }
            skip += given as u64;
        }
    }

    /// The bytes of a new file: the streams of 1 to 16 types, and all that their records name.
    pub fn copy(&self, types: &[u32]) -> Result<Vec<u8>, Error> {
        fill(self.text_room(), &Limits::none(), |out, size, fault| {
            ffi::mdmp_copy(self.file, &self.plain, types, out, size, fault)
        })
        .ended(|bytes| bytes)
        .map_err(Error::without_partial)
    }

    /// Memory of the dumped process, by address.
    pub fn memory(&self) -> Result<Memory<'a>, Error> {
        fill(self.room(), &self.limits, |out, count, fault| {
            ffi::mdmp_ranges(self.file, &self.plain, out, count, fault)
        })
        .ended(|ranges| Memory::new(self.file, &ranges))
        .map_err(Error::without_partial)
    }

    /// The text of a name, or `None` if there is none within the limit.
    pub fn name(&self, place: &NamePlace) -> Result<Option<String>, Error> {
        if place.state != NameState::Given {
            return Ok(None);
        }
        fill(512, &Limits::none(), |out, size, fault| {
            ffi::mdmp_name(self.file, place.rva, self.limits.name, out, size, fault)
        })
        .text()
        .map(Some)
        .map_err(Error::without_partial)
    }

    /// The CodeView record at a place, the `codeview` of a module. `None` if the record is not inside the file.
    pub fn symbols(&self, place: &Place) -> Result<Option<SymbolFile<'a>>, Error> {
        if place.extent != Extent::Inside {
            return Ok(None);
        }
        let raw = ffi::Place {
            size: place.size,
            rva: place.rva,
            ..ffi::Place::default()
        };
        let (mut out, mut fault) = (ffi::SymbolFile::default(), ffi::Fault::default());
        let status = ffi::mdmp_symbols(self.file, &self.plain, &raw, &mut out, &mut fault);
        ended(status, fault, ())?;
        let start = out.name_offset as usize;
        Ok(Some(SymbolFile {
            kind: out.kind.into(),
            guid: out.guid,
            age: out.age,
            name: self
                .file
                .get(start..start + out.name_size as usize)
                .unwrap_or_default(),
            name_ended: out.name_ended == 1,
            signature: out.signature,
        }))
    }
}

impl std::fmt::Debug for Dump<'_> {
    fn fmt(&self, f: &mut std::fmt::Formatter<'_>) -> std::fmt::Result {
        write!(f, "Dump over {} bytes", self.file.len())
    }
}
