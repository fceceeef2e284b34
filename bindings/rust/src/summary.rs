//! What a dump says of a crash and of itself.

use crate::fault::Fault;
use crate::ffi;
use crate::records::{
    Access, Counts, ExceptionRecord, Header, NamePlace, Registers, SummaryModule,
};

/// What a dump says of a crash and of itself. It covers all entries, each up to its own error.
#[derive(Clone, Copy, Debug, PartialEq, Eq)]
#[non_exhaustive]
pub struct Summary {
    /// The header.
    pub header: Header,
    /// The first system.
    pub system: Option<SummarySystem>,
    /// The first module: the program.
    pub program: Option<SummaryModule>,
    /// The crash, or `None` if no exception is one.
    pub crash: Option<Crash>,
    /// How many records of each kind there are.
    pub counts: Counts,
    /// How many entries have an error: those that `check` calls bad.
    pub bad_entries: u64,
    /// The first of these errors, in the order of the directory.
    pub first_error: Option<Fault>,
    /// How many parts of records are not inside the file.
    pub parts_outside: u64,
    /// The first of these parts, as a fault of the kind `PartOutside`.
    pub first_outside: Option<Fault>,
}

/// The system of a summary: MINIDUMP_SYSTEM_INFO.
#[derive(Clone, Copy, Debug, PartialEq, Eq)]
#[non_exhaustive]
pub struct SummarySystem {
    /// The name at CSDVersionRva: the service pack.
    pub csd_version: NamePlace,
    /// ProcessorArchitecture.
    pub processor_architecture: u32,
    /// ProcessorLevel.
    pub processor_level: u32,
    /// ProcessorRevision.
    pub processor_revision: u32,
    /// NumberOfProcessors.
    pub number_of_processors: u32,
    /// ProductType.
    pub product_type: u32,
    /// MajorVersion.
    pub major_version: u32,
    /// MinorVersion.
    pub minor_version: u32,
    /// BuildNumber.
    pub build_number: u32,
    /// PlatformId.
    pub platform_id: u32,
    /// SuiteMask.
    pub suite_mask: u32,
    /// Cpu.
    pub cpu: [u8; 24],
}

/// The crash: the first exception that is one.
#[derive(Clone, Copy, Debug, PartialEq, Eq)]
#[non_exhaustive]
pub struct Crash {
    /// The record.
    pub exception: ExceptionRecord,
    /// The first name of the thread: [`Dump::name`](crate::Dump::name) returns its text.
    pub thread_name: NamePlace,
    /// The address that ran: on Windows ExceptionAddress; on other systems the instruction pointer, or ExceptionAddress
    /// if there are no registers.
    pub address: u64,
    /// The registers of the thread, or `None` if the context is not inside the file or its layout is not known.
    pub registers: Option<Registers>,
    /// The first module that has the address.
    pub module: Option<PlaceInModule>,
    /// If no module has the address: the module with the greatest base at or below it.
    pub near: Option<PlaceInModule>,
    /// The address that the thread tried to reach, if the code says it.
    pub reached: Option<Reached>,
}

/// The place of an address: a module, and the offset from its base.
#[derive(Clone, Copy, Debug, PartialEq, Eq)]
#[non_exhaustive]
pub struct PlaceInModule {
    /// The module.
    pub module: SummaryModule,
    /// How many bytes the address is above the base of the module.
    pub offset: u64,
}

/// The address that a thread tried to reach when it crashed.
#[derive(Clone, Copy, Debug, PartialEq, Eq)]
#[non_exhaustive]
pub struct Reached {
    /// An address of the dumped process.
    pub address: u64,
    /// What the thread tried to do there. It is never `Access::None`.
    pub access: Access,
}

impl From<ffi::SummarySystem> for SummarySystem {
    fn from(raw: ffi::SummarySystem) -> Self {
        SummarySystem {
            csd_version: raw.csd_version.into(),
            processor_architecture: raw.processor_architecture,
            processor_level: raw.processor_level,
            processor_revision: raw.processor_revision,
            number_of_processors: raw.number_of_processors,
            product_type: raw.product_type,
            major_version: raw.major_version,
            minor_version: raw.minor_version,
            build_number: raw.build_number,
            platform_id: raw.platform_id,
            suite_mask: raw.suite_mask,
            cpu: raw.cpu,
        }
    }
}

impl From<ffi::PlaceInModule> for PlaceInModule {
    fn from(raw: ffi::PlaceInModule) -> Self {
        PlaceInModule {
            module: raw.module.into(),
            offset: raw.offset,
        }
    }
}

impl From<ffi::Crash> for Crash {
    fn from(raw: ffi::Crash) -> Self {
        let access = Access::from(raw.access);
        Crash {
            exception: raw.exception.into(),
            thread_name: raw.thread_name.into(),
            address: raw.address,
            registers: (raw.has_registers == 1).then(|| raw.registers.into()),
            module: (raw.has_module == 1).then(|| raw.module.into()),
            near: (raw.has_near == 1).then(|| raw.near.into()),
            reached: (access != Access::None).then_some(Reached {
                address: raw.reached,
                access,
            }),
        }
    }
}

impl From<ffi::Summary> for Summary {
    fn from(raw: ffi::Summary) -> Self {
        Summary {
            header: raw.header.into(),
            system: (raw.has_system == 1).then(|| raw.system.into()),
            program: (raw.has_program == 1).then(|| raw.program.into()),
            crash: (raw.has_crash == 1).then(|| raw.crash.into()),
            counts: raw.counts.into(),
            bad_entries: raw.bad_entries,
            first_error: (raw.first_error.kind != 0).then_some(Fault(raw.first_error)),
            parts_outside: raw.parts_outside,
            first_outside: (raw.first_outside.kind != 0).then_some(Fault(raw.first_outside)),
        }
    }
}
