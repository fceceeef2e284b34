//! Records and numbers as programs see them. Made by bindings/generate from bindings/interface.toml.

use crate::ffi;

/// What a call returns. 0 to 3 are also exit statuses of the command; for 5, the command exits with 3.
#[derive(Clone, Copy, Debug, PartialEq, Eq, Hash)]
#[non_exhaustive]
pub enum Status {
    /// Success.
    Ok,
    /// The file has an error.
    Fault,
    /// An argument is wrong: limits, types of streams, lengths.
    BadArgument,
    /// Out of memory.
    NoMemory,
    /// The buffer is too short.
    BufferTooShort,
    /// A limit is reached, and the kind of `fault` says which.
    Limit,
    /// A number that this crate has no name for.
    Unknown(u32),
}

impl From<u32> for Status {
    fn from(number: u32) -> Self {
        match number {
            0 => Status::Ok,
            1 => Status::Fault,
            2 => Status::BadArgument,
            3 => Status::NoMemory,
            4 => Status::BufferTooShort,
            5 => Status::Limit,
            other => Status::Unknown(other),
        }
    }
}

/// Which error it is. The comment of each kind names the fields of mdmp_fault that the kind uses.
#[derive(Clone, Copy, Debug, PartialEq, Eq, Hash)]
#[non_exhaustive]
pub enum FaultKind {
    /// No error.
    None,
    /// Size: the bytes of the file, which are fewer than 32.
    FileTooShort,
    /// The file does not begin with MDMP.
    BadSignature,
    /// Size: the low 16 bits of Version, which are not 0xa793.
    BadVersion,
    /// Offset, size: the directory, which is not inside the file.
    DirectoryOutside,
    /// Size (high: its upper 64 bits): the number of memory ranges, over 2^28.
    TooManyRanges,
    /// Entry, offset, size: the stream is not inside the file.
    StreamOutside,
    /// Entry, offset, size: the stream is shorter than its head or its record.
    ShortStream,
    /// Entry, offset, size: SizeOfHeader.
    BadHeaderSize,
    /// Entry, offset, size: SizeOfEntry.
    BadEntrySize,
    /// Entry, offset, size: the count of records.
    BadCount,
    /// Entry, index, offset, size (4): a name's length is not inside the file.
    NameLengthOutside,
    /// Entry, index, offset, size: a name's length is odd.
    NameOdd,
    /// Entry, index, offset, size: a name is not inside the file.
    NameOutside,
    /// Entry, index, part, offset (high: its upper 64 bits), size: outside the file.
    PartOutside,
    /// Entry, index, size: a name's length, which is over the limit.
    NameTooLong,
    /// No call returns this.
    RawKnownType,
    /// The copy would be longer than the format allows.
    CopyTooLarge,
    /// Size: the number of directory entries that have an error, or lose a part.
    BadEntries,
    /// Size: a type of stream that is not copied.
    NotCopied,
    /// Out of memory: malloc or realloc returned NULL.
    NoMemory,
    /// A limit is out of its bounds.
    BadLimits,
    /// There are no types to copy, or more than 16.
    BadTypes,
    /// No call returns this.
    Store,
    /// Two lengths that must be equal differ.
    LengthsDiffer,
    /// Offset, size: bytes that were not read, as they would pass `budget`.
    Budget,
    /// Size (high: its upper 64 bits): the bytes that the lists would take.
    MemoryLimit,
    /// Offset, size: a CodeView record that was not read, as it would pass `aside`.
    AsideLimit,
    /// Size (high: its upper 64 bits): the bytes that the copy needs.
    CopyBudget,
    /// A number that this crate has no name for.
    Unknown(u32),
}

impl From<u32> for FaultKind {
    fn from(number: u32) -> Self {
        match number {
            0 => FaultKind::None,
            1 => FaultKind::FileTooShort,
            2 => FaultKind::BadSignature,
            3 => FaultKind::BadVersion,
            4 => FaultKind::DirectoryOutside,
            5 => FaultKind::TooManyRanges,
            16 => FaultKind::StreamOutside,
            17 => FaultKind::ShortStream,
            18 => FaultKind::BadHeaderSize,
            19 => FaultKind::BadEntrySize,
            20 => FaultKind::BadCount,
            21 => FaultKind::NameLengthOutside,
            22 => FaultKind::NameOdd,
            23 => FaultKind::NameOutside,
            32 => FaultKind::PartOutside,
            33 => FaultKind::NameTooLong,
            48 => FaultKind::RawKnownType,
            49 => FaultKind::CopyTooLarge,
            64 => FaultKind::BadEntries,
            65 => FaultKind::NotCopied,
            66 => FaultKind::NoMemory,
            67 => FaultKind::BadLimits,
            68 => FaultKind::BadTypes,
            69 => FaultKind::Store,
            70 => FaultKind::LengthsDiffer,
            71 => FaultKind::Budget,
            72 => FaultKind::MemoryLimit,
            73 => FaultKind::AsideLimit,
            74 => FaultKind::CopyBudget,
            other => FaultKind::Unknown(other),
        }
    }
}

/// Which part of a record has the error.
#[derive(Clone, Copy, Debug, PartialEq, Eq, Hash)]
#[non_exhaustive]
pub enum Part {
    /// The stack of a thread.
    Stack,
    /// The registers of a thread or an exception.
    Context,
    /// The CodeView record of a module.
    Codeview,
    /// The miscellaneous record of a module.
    Misc,
    /// The bytes of a range of memory.
    Memory,
    /// A number that this crate has no name for.
    Unknown(u32),
}

impl From<u32> for Part {
    fn from(number: u32) -> Self {
        match number {
            1 => Part::Stack,
            2 => Part::Context,
            3 => Part::Codeview,
            4 => Part::Misc,
            5 => Part::Memory,
            other => Part::Unknown(other),
        }
    }
}

/// What is at the place that a record names.
#[derive(Clone, Copy, Debug, PartialEq, Eq, Hash)]
#[non_exhaustive]
pub enum Extent {
    /// No bytes.
    Empty,
    /// Bytes that the producer did not keep.
    Absent,
    /// Bytes of the file.
    Inside,
    /// Bytes that are not all inside the file.
    Outside,
    /// A number that this crate has no name for.
    Unknown(u32),
}

impl From<u32> for Extent {
    fn from(number: u32) -> Self {
        match number {
            0 => Extent::Empty,
            1 => Extent::Absent,
            2 => Extent::Inside,
            3 => Extent::Outside,
            other => Extent::Unknown(other),
        }
    }
}

/// Whether a record has a name.
#[derive(Clone, Copy, Debug, PartialEq, Eq, Hash)]
#[non_exhaustive]
pub enum NameState {
    /// No name.
    None,
    /// A name within the limit.
    Given,
    /// A name longer than the limit.
    Long,
    /// A number that this crate has no name for.
    Unknown(u32),
}

impl From<u32> for NameState {
    fn from(number: u32) -> Self {
        match number {
            0 => NameState::None,
            1 => NameState::Given,
            2 => NameState::Long,
            other => NameState::Unknown(other),
        }
    }
}

/// Which kind of CodeView record a module has.
#[derive(Clone, Copy, Debug, PartialEq, Eq, Hash)]
#[non_exhaustive]
pub enum SymbolKind {
    /// RSDS: identity, age and name of a PDB file.
    Rsds,
    /// Another kind.
    Other,
    /// A record that is too short for its kind.
    Short,
    /// A number that this crate has no name for.
    Unknown(u32),
}

impl From<u32> for SymbolKind {
    fn from(number: u32) -> Self {
        match number {
            0 => SymbolKind::Rsds,
            1 => SymbolKind::Other,
            2 => SymbolKind::Short,
            other => SymbolKind::Unknown(other),
        }
    }
}

/// Which kind of CodeView record the ids of a module are from.
#[derive(Clone, Copy, Debug, PartialEq, Eq, Hash)]
#[non_exhaustive]
pub enum IdKind {
    /// No record inside the file, or one that is too short for its kind.
    None,
    /// RSDS: identity and age of a PDB file.
    Rsds,
    /// NB10: time and age of a file of PDB 2.0.
    Pdb20,
    /// The bytes 4c 45 70 42: the build id of an ELF file.
    Elf,
    /// Another kind.
    Other,
    /// A number that this crate has no name for.
    Unknown(u32),
}

impl From<u32> for IdKind {
    fn from(number: u32) -> Self {
        match number {
            0 => IdKind::None,
            1 => IdKind::Rsds,
            2 => IdKind::Pdb20,
            3 => IdKind::Elf,
            4 => IdKind::Other,
            other => IdKind::Unknown(other),
        }
    }
}

/// What a thread tried to do at an address when it crashed.
#[derive(Clone, Copy, Debug, PartialEq, Eq, Hash)]
#[non_exhaustive]
pub enum Access {
    /// The exception does not say that the thread tried to reach an address.
    None,
    /// To read.
    Read,
    /// To write.
    Write,
    /// To execute.
    Execute,
    /// The exception does not say what.
    NotSaid,
    /// A number that this crate has no name for.
    Unknown(u32),
}

impl From<u32> for Access {
    fn from(number: u32) -> Self {
        match number {
            0 => Access::None,
            1 => Access::Read,
            2 => Access::Write,
            3 => Access::Execute,
            4 => Access::NotSaid,
            other => Access::Unknown(other),
        }
    }
}

/// The place of a part of a record: MINIDUMP_LOCATION_DESCRIPTOR, and what is there.
#[derive(Clone, Copy, Debug, PartialEq, Eq)]
#[non_exhaustive]
pub struct Place {
    /// DataSize, in bytes.
    pub size: u32,
    /// Rva, an offset from the start of the file.
    pub rva: u32,
    /// What is there.
    pub extent: Extent,
}

impl From<ffi::Place> for Place {
    fn from(raw: ffi::Place) -> Self {
        Place {
            size: raw.size,
            rva: raw.rva,
            extent: raw.extent.into(),
        }
    }
}

/// The place of a name, a MINIDUMP_STRING: mdmp_name returns its text.
#[derive(Clone, Copy, Debug, PartialEq, Eq)]
#[non_exhaustive]
pub struct NamePlace {
    /// The offset of its Length from the start of the file; 0 for no name.
    pub rva: u64,
    /// Bytes of its UTF-16 units, which follow the 4 bytes of Length.
    pub size: u32,
    /// Whether there is a name.
    pub state: NameState,
}

impl From<ffi::NamePlace> for NamePlace {
    fn from(raw: ffi::NamePlace) -> Self {
        NamePlace {
            rva: raw.rva,
            size: raw.size,
            state: raw.state.into(),
        }
    }
}

/// The header: MINIDUMP_HEADER.
#[derive(Clone, Copy, Debug, PartialEq, Eq)]
#[non_exhaustive]
pub struct Header {
    /// Flags.
    pub flags: u64,
    /// Signature.
    pub signature: u32,
    /// Version: the low 16 bits are 0xa793, the high 16 bits are the producer's own.
    pub version: u32,
    /// NumberOfStreams.
    pub number_of_streams: u32,
    /// StreamDirectoryRva, an offset from the start of the file.
    pub stream_directory_rva: u32,
    /// CheckSum, which is not checked.
    pub checksum: u32,
    /// TimeDateStamp, in seconds since 1970.
    pub time_date_stamp: u32,
}

impl From<ffi::Header> for Header {
    fn from(raw: ffi::Header) -> Self {
        Header {
            flags: raw.flags,
            signature: raw.signature,
            version: raw.version,
            number_of_streams: raw.number_of_streams,
            stream_directory_rva: raw.stream_directory_rva,
            checksum: raw.checksum,
            time_date_stamp: raw.time_date_stamp,
        }
    }
}

/// An entry of the directory: MINIDUMP_DIRECTORY.
#[derive(Clone, Copy, Debug, PartialEq, Eq)]
#[non_exhaustive]
pub struct Stream {
    /// The number of the entry in the directory, from 0.
    pub entry: u32,
    /// StreamType.
    pub stream_type: u32,
    /// Location.DataSize, in bytes.
    pub size: u32,
    /// Location.Rva, an offset from the start of the file.
    pub rva: u32,
}

impl From<ffi::Stream> for Stream {
    fn from(raw: ffi::Stream) -> Self {
        Stream {
            entry: raw.entry,
            stream_type: raw.stream_type,
            size: raw.size,
            rva: raw.rva,
        }
    }
}

/// A thread: MINIDUMP_THREAD.
#[derive(Clone, Copy, Debug, PartialEq, Eq)]
#[non_exhaustive]
pub struct Thread {
    /// The number of the record in its stream, from 0.
    pub index: u64,
    /// Teb, an address of the dumped process.
    pub teb: u64,
    /// Stack.StartOfMemoryRange, an address of the dumped process.
    pub stack_start: u64,
    /// The number of the directory entry, from 0.
    pub entry: u32,
    /// ThreadId.
    pub thread_id: u32,
    /// SuspendCount.
    pub suspend_count: u32,
    /// PriorityClass.
    pub priority_class: u32,
    /// Priority.
    pub priority: u32,
    /// Stack.Memory.
    pub stack: Place,
    /// ThreadContext, the registers.
    pub context: Place,
}

impl From<ffi::Thread> for Thread {
    fn from(raw: ffi::Thread) -> Self {
        Thread {
            index: raw.index,
            teb: raw.teb,
            stack_start: raw.stack_start,
            entry: raw.entry,
            thread_id: raw.thread_id,
            suspend_count: raw.suspend_count,
            priority_class: raw.priority_class,
            priority: raw.priority,
            stack: raw.stack.into(),
            context: raw.context.into(),
        }
    }
}

/// A module: MINIDUMP_MODULE.
#[derive(Clone, Copy, Debug, PartialEq, Eq)]
#[non_exhaustive]
pub struct Module {
    /// The number of the record in its stream, from 0.
    pub index: u64,
    /// BaseOfImage, an address of the dumped process.
    pub base_of_image: u64,
    /// The number of the directory entry, from 0.
    pub entry: u32,
    /// SizeOfImage, in bytes.
    pub size_of_image: u32,
    /// CheckSum.
    pub checksum: u32,
    /// TimeDateStamp, in seconds since 1970.
    pub time_date_stamp: u32,
    /// VersionInfo.dwFileVersionMS: the first two of the four numbers of the version.
    pub file_version_ms: u32,
    /// VersionInfo.dwFileVersionLS: the last two numbers.
    pub file_version_ls: u32,
    /// VersionInfo.dwProductVersionMS.
    pub product_version_ms: u32,
    /// VersionInfo.dwProductVersionLS.
    pub product_version_ls: u32,
    /// The name at ModuleNameRva.
    pub name: NamePlace,
    /// CvRecord: `mdmp_symbols` reads the record that is there.
    pub codeview: Place,
    /// MiscRecord.
    pub misc: Place,
}

impl From<ffi::Module> for Module {
    fn from(raw: ffi::Module) -> Self {
        Module {
            index: raw.index,
            base_of_image: raw.base_of_image,
            entry: raw.entry,
            size_of_image: raw.size_of_image,
            checksum: raw.checksum,
            time_date_stamp: raw.time_date_stamp,
            file_version_ms: raw.file_version_ms,
            file_version_ls: raw.file_version_ls,
            product_version_ms: raw.product_version_ms,
            product_version_ls: raw.product_version_ls,
            name: raw.name.into(),
            codeview: raw.codeview.into(),
            misc: raw.misc.into(),
        }
    }
}

/// An exception: MINIDUMP_EXCEPTION_STREAM.
#[derive(Clone, Copy, Debug, PartialEq, Eq)]
#[non_exhaustive]
pub struct ExceptionRecord {
    /// The number of the record in its stream: 0.
    pub index: u64,
    /// ExceptionRecord, an address of the dumped process.
    pub exception_record: u64,
    /// ExceptionAddress, an address of the dumped process.
    pub exception_address: u64,
    /// ExceptionInformation.
    pub information: [u64; 15],
    /// The number of the directory entry, from 0.
    pub entry: u32,
    /// ThreadId.
    pub thread_id: u32,
    /// ExceptionCode.
    pub exception_code: u32,
    /// ExceptionFlags.
    pub exception_flags: u32,
    /// NumberParameters: how many elements of information are used; may be over 15.
    pub number_parameters: u32,
    /// ThreadContext, the registers.
    pub context: Place,
}

impl From<ffi::ExceptionRecord> for ExceptionRecord {
    fn from(raw: ffi::ExceptionRecord) -> Self {
        ExceptionRecord {
            index: raw.index,
            exception_record: raw.exception_record,
            exception_address: raw.exception_address,
            information: raw.information,
            entry: raw.entry,
            thread_id: raw.thread_id,
            exception_code: raw.exception_code,
            exception_flags: raw.exception_flags,
            number_parameters: raw.number_parameters,
            context: raw.context.into(),
        }
    }
}

/// The system: MINIDUMP_SYSTEM_INFO.
#[derive(Clone, Copy, Debug, PartialEq, Eq)]
#[non_exhaustive]
pub struct System {
    /// The number of the record in its stream: 0.
    pub index: u64,
    /// The name at CSDVersionRva: the service pack.
    pub csd_version: NamePlace,
    /// The number of the directory entry, from 0.
    pub entry: u32,
    /// ProcessorArchitecture: 0 is x86, 9 is x64, 12 is ARM64.
    pub processor_architecture: u32,
    /// ProcessorLevel.
    pub processor_level: u32,
    /// ProcessorRevision.
    pub processor_revision: u32,
    /// NumberOfProcessors.
    pub number_of_processors: u32,
    /// ProductType.
    pub product_type: u32,
    /// MajorVersion.
    pub major_version: u32,
    /// MinorVersion.
    pub minor_version: u32,
    /// BuildNumber.
    pub build_number: u32,
    /// PlatformId.
    pub platform_id: u32,
    /// SuiteMask.
    pub suite_mask: u32,
    /// Cpu.
    pub cpu: [u8; 24],
}

impl From<ffi::System> for System {
    fn from(raw: ffi::System) -> Self {
        System {
            index: raw.index,
            csd_version: raw.csd_version.into(),
            entry: raw.entry,
            processor_architecture: raw.processor_architecture,
            processor_level: raw.processor_level,
            processor_revision: raw.processor_revision,
            number_of_processors: raw.number_of_processors,
            product_type: raw.product_type,
            major_version: raw.major_version,
            minor_version: raw.minor_version,
            build_number: raw.build_number,
            platform_id: raw.platform_id,
            suite_mask: raw.suite_mask,
            cpu: raw.cpu,
        }
    }
}

/// An unloaded module: MINIDUMP_UNLOADED_MODULE.
#[derive(Clone, Copy, Debug, PartialEq, Eq)]
#[non_exhaustive]
pub struct UnloadedModule {
    /// The number of the record in its stream, from 0.
    pub index: u64,
    /// BaseOfImage, an address of the dumped process.
    pub base_of_image: u64,
    /// The number of the directory entry, from 0.
    pub entry: u32,
    /// SizeOfImage, in bytes.
    pub size_of_image: u32,
    /// CheckSum.
    pub checksum: u32,
    /// TimeDateStamp, in seconds since 1970.
    pub time_date_stamp: u32,
    /// The name at ModuleNameRva.
    pub name: NamePlace,
}

impl From<ffi::UnloadedModule> for UnloadedModule {
    fn from(raw: ffi::UnloadedModule) -> Self {
        UnloadedModule {
            index: raw.index,
            base_of_image: raw.base_of_image,
            entry: raw.entry,
            size_of_image: raw.size_of_image,
            checksum: raw.checksum,
            time_date_stamp: raw.time_date_stamp,
            name: raw.name.into(),
        }
    }
}

/// A region of memory: MINIDUMP_MEMORY_INFO.
#[derive(Clone, Copy, Debug, PartialEq, Eq)]
#[non_exhaustive]
pub struct Region {
    /// The number of the record in its stream, from 0.
    pub index: u64,
    /// BaseAddress, an address of the dumped process.
    pub base_address: u64,
    /// AllocationBase, an address of the dumped process.
    pub allocation_base: u64,
    /// RegionSize, in bytes.
    pub region_size: u64,
    /// The number of the directory entry, from 0.
    pub entry: u32,
    /// AllocationProtect.
    pub allocation_protect: u32,
    /// State.
    pub state: u32,
    /// Protect.
    pub protect: u32,
    /// Type.
    pub memory_type: u32,
}

impl From<ffi::Region> for Region {
    fn from(raw: ffi::Region) -> Self {
        Region {
            index: raw.index,
            base_address: raw.base_address,
            allocation_base: raw.allocation_base,
            region_size: raw.region_size,
            entry: raw.entry,
            allocation_protect: raw.allocation_protect,
            state: raw.state,
            protect: raw.protect,
            memory_type: raw.memory_type,
        }
    }
}

/// The name of a thread: MINIDUMP_THREAD_NAME.
#[derive(Clone, Copy, Debug, PartialEq, Eq)]
#[non_exhaustive]
pub struct ThreadName {
    /// The number of the record in its stream, from 0.
    pub index: u64,
    /// The number of the directory entry, from 0.
    pub entry: u32,
    /// ThreadId.
    pub thread_id: u32,
    /// The name at RvaOfThreadName, an offset of 64 bits.
    pub name: NamePlace,
}

impl From<ffi::ThreadName> for ThreadName {
    fn from(raw: ffi::ThreadName) -> Self {
        ThreadName {
            index: raw.index,
            entry: raw.entry,
            thread_id: raw.thread_id,
            name: raw.name.into(),
        }
    }
}

/// A range of memory: MINIDUMP_MEMORY_DESCRIPTOR or MINIDUMP_MEMORY_DESCRIPTOR64.
#[derive(Clone, Copy, Debug, PartialEq, Eq)]
#[non_exhaustive]
pub struct Range {
    /// The number of the record in its stream, from 0.
    pub index: u64,
    /// StartOfMemoryRange, an address of the dumped process.
    pub start: u64,
    /// DataSize, in bytes.
    pub size: u64,
    /// The offset of its bytes from the start of the file.
    pub offset: u128,
    /// The number of the directory entry, from 0.
    pub entry: u32,
    /// Whether its bytes are in the file.
    pub extent: Extent,
}

impl From<ffi::Range> for Range {
    fn from(raw: ffi::Range) -> Self {
        Range {
            index: raw.index,
            start: raw.start,
            size: raw.size,
            offset: u128::from(raw.offset) | u128::from(raw.offset_high) << 64,
            entry: raw.entry,
            extent: raw.extent.into(),
        }
    }
}

/// Where a thread was, by its CPU context.
#[derive(Clone, Copy, Debug, PartialEq, Eq)]
#[non_exhaustive]
pub struct Registers {
    /// The instruction pointer: Eip, Rip, Pc.
    pub instruction: u64,
    /// The stack pointer: Esp, Rsp, Sp.
    pub stack: u64,
    /// The frame pointer: Ebp, Rbp, Fp of ARM64; of ARM the register r11.
    pub frame: u64,
}

impl From<ffi::Registers> for Registers {
    fn from(raw: ffi::Registers) -> Self {
        Registers {
            instruction: raw.instruction,
            stack: raw.stack,
            frame: raw.frame,
        }
    }
}

/// A module of a summary: MINIDUMP_MODULE, without its number in the list of modules.
#[derive(Clone, Copy, Debug, PartialEq, Eq)]
#[non_exhaustive]
pub struct SummaryModule {
    /// BaseOfImage, an address of the dumped process.
    pub base_of_image: u64,
    /// The name at ModuleNameRva.
    pub name: NamePlace,
    /// SizeOfImage, in bytes.
    pub size_of_image: u32,
    /// CheckSum.
    pub checksum: u32,
    /// TimeDateStamp, in seconds since 1970.
    pub time_date_stamp: u32,
    /// VersionInfo.dwFileVersionMS: the first two of four numbers.
    pub file_version_ms: u32,
    /// VersionInfo.dwFileVersionLS: the last two.
    pub file_version_ls: u32,
    /// VersionInfo.dwProductVersionMS.
    pub product_version_ms: u32,
    /// VersionInfo.dwProductVersionLS.
    pub product_version_ls: u32,
    /// CvRecord: what it says about its symbol file.
    pub codeview: Place,
}

impl From<ffi::SummaryModule> for SummaryModule {
    fn from(raw: ffi::SummaryModule) -> Self {
        SummaryModule {
            base_of_image: raw.base_of_image,
            name: raw.name.into(),
            size_of_image: raw.size_of_image,
            checksum: raw.checksum,
            time_date_stamp: raw.time_date_stamp,
            file_version_ms: raw.file_version_ms,
            file_version_ls: raw.file_version_ls,
            product_version_ms: raw.product_version_ms,
            product_version_ls: raw.product_version_ls,
            codeview: raw.codeview.into(),
        }
    }
}

/// How many records the entries have, each entry up to its own error.
#[derive(Clone, Copy, Debug, PartialEq, Eq)]
#[non_exhaustive]
pub struct Counts {
    /// Entries of the directory.
    pub streams: u64,
    /// Threads.
    pub threads: u64,
    /// Modules.
    pub modules: u64,
    /// Exceptions.
    pub exceptions: u64,
    /// Ranges of memory, of both kinds of memory list.
    pub ranges: u64,
    /// Bytes of these ranges that are inside the file.
    pub memory: u128,
}

impl From<ffi::Counts> for Counts {
    fn from(raw: ffi::Counts) -> Self {
        Counts {
            streams: raw.streams,
            threads: raw.threads,
            modules: raw.modules,
            exceptions: raw.exceptions,
            ranges: raw.ranges,
            memory: u128::from(raw.memory) | u128::from(raw.memory_high) << 64,
        }
    }
}
