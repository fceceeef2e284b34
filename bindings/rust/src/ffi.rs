//! The plain structures of mdmp.h, and its calls over slices. Made by bindings/generate from bindings/interface.toml.

use std::mem::{offset_of, size_of};

/// What `mdmp_abi` returns for the library of this crate.
pub const ABI: u32 = 2;

/// The window and the longest name of `MDMP_LIMITS_DEFAULT`.
pub const WINDOW: u32 = 65536;
pub const NAME: u32 = 4096;
/// Each limit of `MDMP_LIMITS_UNTRUSTED`.
pub const UNTRUSTED: u64 = 67_108_864;
/// As a limit: no limit.
pub const NO_LIMIT: u64 = u64::MAX;

/// `mdmp_limits`
#[repr(C)]
#[derive(Clone, Copy, Debug, Default, PartialEq, Eq)]
pub struct Limits {
    pub window: u32,
    pub name: u32,
    pub budget: u64,
    pub memory: u64,
    pub aside: u64,
}

/// `mdmp_fault`
#[repr(C)]
#[derive(Clone, Copy, Debug, Default, PartialEq, Eq)]
pub struct Fault {
    pub kind: u32,
    pub entry: u32,
    pub index: u64,
    pub offset: u64,
    pub size: u64,
    pub high: u64,
    pub part: u32,
    pub has_index: u32,
    pub reserved: [u32; 4],
}

/// `mdmp_place`
#[repr(C)]
#[derive(Clone, Copy, Debug, Default, PartialEq, Eq)]
pub struct Place {
    pub size: u32,
    pub rva: u32,
    pub extent: u32,
    pub reserved: u32,
}

/// `mdmp_name_place`
#[repr(C)]
#[derive(Clone, Copy, Debug, Default, PartialEq, Eq)]
pub struct NamePlace {
    pub rva: u64,
    pub size: u32,
    pub state: u32,
}

/// `mdmp_header_record`
#[repr(C)]
#[derive(Clone, Copy, Debug, Default, PartialEq, Eq)]
pub struct Header {
    pub flags: u64,
    pub signature: u32,
    pub version: u32,
    pub number_of_streams: u32,
    pub stream_directory_rva: u32,
    pub checksum: u32,
    pub time_date_stamp: u32,
    pub reserved: [u32; 2],
}

/// `mdmp_stream`
#[repr(C)]
#[derive(Clone, Copy, Debug, Default, PartialEq, Eq)]
pub struct Stream {
    pub entry: u32,
    pub stream_type: u32,
    pub size: u32,
    pub rva: u32,
    pub reserved: [u32; 2],
}

/// `mdmp_thread`
#[repr(C)]
#[derive(Clone, Copy, Debug, Default, PartialEq, Eq)]
pub struct Thread {
    pub index: u64,
    pub teb: u64,
    pub stack_start: u64,
    pub entry: u32,
    pub thread_id: u32,
    pub suspend_count: u32,
    pub priority_class: u32,
    pub priority: u32,
    pub stack: Place,
    pub context: Place,
    pub reserved: [u32; 3],
}

/// `mdmp_module`
#[repr(C)]
#[derive(Clone, Copy, Debug, Default, PartialEq, Eq)]
pub struct Module {
    pub index: u64,
    pub base_of_image: u64,
    pub entry: u32,
    pub size_of_image: u32,
    pub checksum: u32,
    pub time_date_stamp: u32,
    pub file_version_ms: u32,
    pub file_version_ls: u32,
    pub product_version_ms: u32,
    pub product_version_ls: u32,
    pub name: NamePlace,
    pub codeview: Place,
    pub misc: Place,
    pub reserved: [u32; 2],
}

/// `mdmp_exception`
#[repr(C)]
#[derive(Clone, Copy, Debug, Default, PartialEq, Eq)]
pub struct ExceptionRecord {
    pub index: u64,
    pub exception_record: u64,
    pub exception_address: u64,
    pub information: [u64; 15],
    pub entry: u32,
    pub thread_id: u32,
    pub exception_code: u32,
    pub exception_flags: u32,
    pub number_parameters: u32,
    pub context: Place,
    pub reserved: [u32; 3],
}

/// `mdmp_system`
#[repr(C)]
#[derive(Clone, Copy, Debug, Default, PartialEq, Eq)]
pub struct System {
    pub index: u64,
    pub csd_version: NamePlace,
    pub entry: u32,
    pub processor_architecture: u32,
    pub processor_level: u32,
    pub processor_revision: u32,
    pub number_of_processors: u32,
    pub product_type: u32,
    pub major_version: u32,
    pub minor_version: u32,
    pub build_number: u32,
    pub platform_id: u32,
    pub suite_mask: u32,
    pub cpu: [u8; 24],
    pub reserved: [u32; 3],
}

/// `mdmp_unloaded_module`
#[repr(C)]
#[derive(Clone, Copy, Debug, Default, PartialEq, Eq)]
pub struct UnloadedModule {
    pub index: u64,
    pub base_of_image: u64,
    pub entry: u32,
    pub size_of_image: u32,
    pub checksum: u32,
    pub time_date_stamp: u32,
    pub name: NamePlace,
    pub reserved: [u32; 2],
}

/// `mdmp_region`
#[repr(C)]
#[derive(Clone, Copy, Debug, Default, PartialEq, Eq)]
pub struct Region {
    pub index: u64,
    pub base_address: u64,
    pub allocation_base: u64,
    pub region_size: u64,
    pub entry: u32,
    pub allocation_protect: u32,
    pub state: u32,
    pub protect: u32,
    pub memory_type: u32,
    pub reserved: [u32; 3],
}

/// `mdmp_thread_name`
#[repr(C)]
#[derive(Clone, Copy, Debug, Default, PartialEq, Eq)]
pub struct ThreadName {
    pub index: u64,
    pub entry: u32,
    pub thread_id: u32,
    pub name: NamePlace,
    pub reserved: [u32; 2],
}

/// `mdmp_range`
#[repr(C)]
#[derive(Clone, Copy, Debug, Default, PartialEq, Eq)]
pub struct Range {
    pub index: u64,
    pub start: u64,
    pub size: u64,
    pub offset: u64,
    pub offset_high: u64,
    pub entry: u32,
    pub extent: u32,
    pub reserved: [u32; 2],
}

/// `mdmp_slot`
#[repr(C)]
#[derive(Clone, Copy, Debug, Default, PartialEq, Eq)]
pub struct Slot {
    pub start: u64,
    pub length: u64,
    pub offset: u64,
    pub owner: u64,
}

/// `mdmp_symbol_file`
#[repr(C)]
#[derive(Clone, Copy, Debug, Default, PartialEq, Eq)]
pub struct SymbolFile {
    pub name_offset: u64,
    pub kind: u32,
    pub age: u32,
    pub name_size: u32,
    pub name_ended: u32,
    pub guid: [u8; 16],
    pub signature: [u8; 4],
    pub reserved: [u32; 3],
}

/// `mdmp_module_ids`
#[repr(C)]
#[derive(Clone, Copy, Debug, Default, PartialEq, Eq)]
pub struct ModuleIds {
    pub kind: u32,
    pub age: u32,
    pub guid: [u8; 16],
    pub signature: u32,
    pub build_id_size: u32,
    pub build_id_cut: u32,
    pub time_date_stamp: u32,
    pub size_of_image: u32,
    pub build_id: [u8; 20],
}

/// `mdmp_registers`
#[repr(C)]
#[derive(Clone, Copy, Debug, Default, PartialEq, Eq)]
pub struct Registers {
    pub instruction: u64,
    pub stack: u64,
    pub frame: u64,
}

/// `mdmp_summary_module`
#[repr(C)]
#[derive(Clone, Copy, Debug, Default, PartialEq, Eq)]
pub struct SummaryModule {
    pub base_of_image: u64,
    pub name: NamePlace,
    pub size_of_image: u32,
    pub checksum: u32,
    pub time_date_stamp: u32,
    pub file_version_ms: u32,
    pub file_version_ls: u32,
    pub product_version_ms: u32,
    pub product_version_ls: u32,
    pub codeview: Place,
    pub reserved: u32,
}

/// `mdmp_place_in_module`
#[repr(C)]
#[derive(Clone, Copy, Debug, Default, PartialEq, Eq)]
pub struct PlaceInModule {
    pub module: SummaryModule,
    pub offset: u64,
}

/// `mdmp_summary_system`
#[repr(C)]
#[derive(Clone, Copy, Debug, Default, PartialEq, Eq)]
pub struct SummarySystem {
    pub csd_version: NamePlace,
    pub processor_architecture: u32,
    pub processor_level: u32,
    pub processor_revision: u32,
    pub number_of_processors: u32,
    pub product_type: u32,
    pub major_version: u32,
    pub minor_version: u32,
    pub build_number: u32,
    pub platform_id: u32,
    pub suite_mask: u32,
    pub cpu: [u8; 24],
    pub reserved: [u32; 2],
}

/// `mdmp_counts`
#[repr(C)]
#[derive(Clone, Copy, Debug, Default, PartialEq, Eq)]
pub struct Counts {
    pub streams: u64,
    pub threads: u64,
    pub modules: u64,
    pub exceptions: u64,
    pub ranges: u64,
    pub memory: u64,
    pub memory_high: u64,
}

/// `mdmp_crash`
#[repr(C)]
#[derive(Clone, Copy, Debug, Default, PartialEq, Eq)]
pub struct Crash {
    pub exception: ExceptionRecord,
    pub thread_name: NamePlace,
    pub address: u64,
    pub registers: Registers,
    pub module: PlaceInModule,
    pub near: PlaceInModule,
    pub reached: u64,
    pub access: u32,
    pub has_registers: u32,
    pub has_module: u32,
    pub has_near: u32,
}

/// `mdmp_summary_record`
#[repr(C)]
#[derive(Clone, Copy, Debug, Default, PartialEq, Eq)]
pub struct Summary {
    pub header: Header,
    pub counts: Counts,
    pub bad_entries: u64,
    pub first_error: Fault,
    pub parts_outside: u64,
    pub first_outside: Fault,
    pub crash: Crash,
    pub program: SummaryModule,
    pub system: SummarySystem,
    pub has_crash: u32,
    pub has_program: u32,
    pub has_system: u32,
    pub reserved: u32,
}

// The layout of the library: no padding, and each field at its offset.
const _: () = {
    assert!(size_of::<Limits>() == 32);
    assert!(offset_of!(Limits, window) == 0);
    assert!(offset_of!(Limits, name) == 4);
    assert!(offset_of!(Limits, budget) == 8);
    assert!(offset_of!(Limits, memory) == 16);
    assert!(offset_of!(Limits, aside) == 24);
    assert!(size_of::<Fault>() == 64);
    assert!(offset_of!(Fault, kind) == 0);
    assert!(offset_of!(Fault, entry) == 4);
    assert!(offset_of!(Fault, index) == 8);
    assert!(offset_of!(Fault, offset) == 16);
    assert!(offset_of!(Fault, size) == 24);
    assert!(offset_of!(Fault, high) == 32);
    assert!(offset_of!(Fault, part) == 40);
    assert!(offset_of!(Fault, has_index) == 44);
    assert!(offset_of!(Fault, reserved) == 48);
    assert!(size_of::<Place>() == 16);
    assert!(offset_of!(Place, size) == 0);
    assert!(offset_of!(Place, rva) == 4);
    assert!(offset_of!(Place, extent) == 8);
    assert!(offset_of!(Place, reserved) == 12);
    assert!(size_of::<NamePlace>() == 16);
    assert!(offset_of!(NamePlace, rva) == 0);
    assert!(offset_of!(NamePlace, size) == 8);
    assert!(offset_of!(NamePlace, state) == 12);
    assert!(size_of::<Header>() == 40);
    assert!(offset_of!(Header, flags) == 0);
    assert!(offset_of!(Header, signature) == 8);
    assert!(offset_of!(Header, version) == 12);
    assert!(offset_of!(Header, number_of_streams) == 16);
    assert!(offset_of!(Header, stream_directory_rva) == 20);
    assert!(offset_of!(Header, checksum) == 24);
    assert!(offset_of!(Header, time_date_stamp) == 28);
    assert!(offset_of!(Header, reserved) == 32);
    assert!(size_of::<Stream>() == 24);
    assert!(offset_of!(Stream, entry) == 0);
    assert!(offset_of!(Stream, stream_type) == 4);
    assert!(offset_of!(Stream, size) == 8);
    assert!(offset_of!(Stream, rva) == 12);
    assert!(offset_of!(Stream, reserved) == 16);
    assert!(size_of::<Thread>() == 88);
    assert!(offset_of!(Thread, index) == 0);
    assert!(offset_of!(Thread, teb) == 8);
    assert!(offset_of!(Thread, stack_start) == 16);
    assert!(offset_of!(Thread, entry) == 24);
    assert!(offset_of!(Thread, thread_id) == 28);
    assert!(offset_of!(Thread, suspend_count) == 32);
    assert!(offset_of!(Thread, priority_class) == 36);
    assert!(offset_of!(Thread, priority) == 40);
    assert!(offset_of!(Thread, stack) == 44);
    assert!(offset_of!(Thread, context) == 60);
    assert!(offset_of!(Thread, reserved) == 76);
    assert!(size_of::<Module>() == 104);
    assert!(offset_of!(Module, index) == 0);
    assert!(offset_of!(Module, base_of_image) == 8);
    assert!(offset_of!(Module, entry) == 16);
    assert!(offset_of!(Module, size_of_image) == 20);
    assert!(offset_of!(Module, checksum) == 24);
    assert!(offset_of!(Module, time_date_stamp) == 28);
    assert!(offset_of!(Module, file_version_ms) == 32);
    assert!(offset_of!(Module, file_version_ls) == 36);
    assert!(offset_of!(Module, product_version_ms) == 40);
    assert!(offset_of!(Module, product_version_ls) == 44);
    assert!(offset_of!(Module, name) == 48);
    assert!(offset_of!(Module, codeview) == 64);
    assert!(offset_of!(Module, misc) == 80);
    assert!(offset_of!(Module, reserved) == 96);
    assert!(size_of::<ExceptionRecord>() == 192);
    assert!(offset_of!(ExceptionRecord, index) == 0);
    assert!(offset_of!(ExceptionRecord, exception_record) == 8);
    assert!(offset_of!(ExceptionRecord, exception_address) == 16);
    assert!(offset_of!(ExceptionRecord, information) == 24);
    assert!(offset_of!(ExceptionRecord, entry) == 144);
    assert!(offset_of!(ExceptionRecord, thread_id) == 148);
    assert!(offset_of!(ExceptionRecord, exception_code) == 152);
    assert!(offset_of!(ExceptionRecord, exception_flags) == 156);
    assert!(offset_of!(ExceptionRecord, number_parameters) == 160);
    assert!(offset_of!(ExceptionRecord, context) == 164);
    assert!(offset_of!(ExceptionRecord, reserved) == 180);
    assert!(size_of::<System>() == 104);
    assert!(offset_of!(System, index) == 0);
    assert!(offset_of!(System, csd_version) == 8);
    assert!(offset_of!(System, entry) == 24);
    assert!(offset_of!(System, processor_architecture) == 28);
    assert!(offset_of!(System, processor_level) == 32);
    assert!(offset_of!(System, processor_revision) == 36);
    assert!(offset_of!(System, number_of_processors) == 40);
    assert!(offset_of!(System, product_type) == 44);
    assert!(offset_of!(System, major_version) == 48);
    assert!(offset_of!(System, minor_version) == 52);
    assert!(offset_of!(System, build_number) == 56);
    assert!(offset_of!(System, platform_id) == 60);
    assert!(offset_of!(System, suite_mask) == 64);
    assert!(offset_of!(System, cpu) == 68);
    assert!(offset_of!(System, reserved) == 92);
    assert!(size_of::<UnloadedModule>() == 56);
    assert!(offset_of!(UnloadedModule, index) == 0);
    assert!(offset_of!(UnloadedModule, base_of_image) == 8);
    assert!(offset_of!(UnloadedModule, entry) == 16);
    assert!(offset_of!(UnloadedModule, size_of_image) == 20);
    assert!(offset_of!(UnloadedModule, checksum) == 24);
    assert!(offset_of!(UnloadedModule, time_date_stamp) == 28);
    assert!(offset_of!(UnloadedModule, name) == 32);
    assert!(offset_of!(UnloadedModule, reserved) == 48);
    assert!(size_of::<Region>() == 64);
    assert!(offset_of!(Region, index) == 0);
    assert!(offset_of!(Region, base_address) == 8);
    assert!(offset_of!(Region, allocation_base) == 16);
    assert!(offset_of!(Region, region_size) == 24);
    assert!(offset_of!(Region, entry) == 32);
    assert!(offset_of!(Region, allocation_protect) == 36);
    assert!(offset_of!(Region, state) == 40);
    assert!(offset_of!(Region, protect) == 44);
    assert!(offset_of!(Region, memory_type) == 48);
    assert!(offset_of!(Region, reserved) == 52);
    assert!(size_of::<ThreadName>() == 40);
    assert!(offset_of!(ThreadName, index) == 0);
    assert!(offset_of!(ThreadName, entry) == 8);
    assert!(offset_of!(ThreadName, thread_id) == 12);
    assert!(offset_of!(ThreadName, name) == 16);
    assert!(offset_of!(ThreadName, reserved) == 32);
    assert!(size_of::<Range>() == 56);
    assert!(offset_of!(Range, index) == 0);
    assert!(offset_of!(Range, start) == 8);
    assert!(offset_of!(Range, size) == 16);
    assert!(offset_of!(Range, offset) == 24);
    assert!(offset_of!(Range, offset_high) == 32);
    assert!(offset_of!(Range, entry) == 40);
    assert!(offset_of!(Range, extent) == 44);
    assert!(offset_of!(Range, reserved) == 48);
    assert!(size_of::<Slot>() == 32);
    assert!(offset_of!(Slot, start) == 0);
    assert!(offset_of!(Slot, length) == 8);
    assert!(offset_of!(Slot, offset) == 16);
    assert!(offset_of!(Slot, owner) == 24);
    assert!(size_of::<SymbolFile>() == 56);
    assert!(offset_of!(SymbolFile, name_offset) == 0);
    assert!(offset_of!(SymbolFile, kind) == 8);
    assert!(offset_of!(SymbolFile, age) == 12);
    assert!(offset_of!(SymbolFile, name_size) == 16);
    assert!(offset_of!(SymbolFile, name_ended) == 20);
    assert!(offset_of!(SymbolFile, guid) == 24);
    assert!(offset_of!(SymbolFile, signature) == 40);
    assert!(offset_of!(SymbolFile, reserved) == 44);
    assert!(size_of::<ModuleIds>() == 64);
    assert!(offset_of!(ModuleIds, kind) == 0);
    assert!(offset_of!(ModuleIds, age) == 4);
    assert!(offset_of!(ModuleIds, guid) == 8);
    assert!(offset_of!(ModuleIds, signature) == 24);
    assert!(offset_of!(ModuleIds, build_id_size) == 28);
    assert!(offset_of!(ModuleIds, build_id_cut) == 32);
    assert!(offset_of!(ModuleIds, time_date_stamp) == 36);
    assert!(offset_of!(ModuleIds, size_of_image) == 40);
    assert!(offset_of!(ModuleIds, build_id) == 44);
    assert!(size_of::<Registers>() == 24);
    assert!(offset_of!(Registers, instruction) == 0);
    assert!(offset_of!(Registers, stack) == 8);
    assert!(offset_of!(Registers, frame) == 16);
    assert!(size_of::<SummaryModule>() == 72);
    assert!(offset_of!(SummaryModule, base_of_image) == 0);
    assert!(offset_of!(SummaryModule, name) == 8);
    assert!(offset_of!(SummaryModule, size_of_image) == 24);
    assert!(offset_of!(SummaryModule, checksum) == 28);
    assert!(offset_of!(SummaryModule, time_date_stamp) == 32);
    assert!(offset_of!(SummaryModule, file_version_ms) == 36);
    assert!(offset_of!(SummaryModule, file_version_ls) == 40);
    assert!(offset_of!(SummaryModule, product_version_ms) == 44);
    assert!(offset_of!(SummaryModule, product_version_ls) == 48);
    assert!(offset_of!(SummaryModule, codeview) == 52);
    assert!(offset_of!(SummaryModule, reserved) == 68);
    assert!(size_of::<PlaceInModule>() == 80);
    assert!(offset_of!(PlaceInModule, module) == 0);
    assert!(offset_of!(PlaceInModule, offset) == 72);
    assert!(size_of::<SummarySystem>() == 88);
    assert!(offset_of!(SummarySystem, csd_version) == 0);
    assert!(offset_of!(SummarySystem, processor_architecture) == 16);
    assert!(offset_of!(SummarySystem, processor_level) == 20);
    assert!(offset_of!(SummarySystem, processor_revision) == 24);
    assert!(offset_of!(SummarySystem, number_of_processors) == 28);
    assert!(offset_of!(SummarySystem, product_type) == 32);
    assert!(offset_of!(SummarySystem, major_version) == 36);
    assert!(offset_of!(SummarySystem, minor_version) == 40);
    assert!(offset_of!(SummarySystem, build_number) == 44);
    assert!(offset_of!(SummarySystem, platform_id) == 48);
    assert!(offset_of!(SummarySystem, suite_mask) == 52);
    assert!(offset_of!(SummarySystem, cpu) == 56);
    assert!(offset_of!(SummarySystem, reserved) == 80);
    assert!(size_of::<Counts>() == 56);
    assert!(offset_of!(Counts, streams) == 0);
    assert!(offset_of!(Counts, threads) == 8);
    assert!(offset_of!(Counts, modules) == 16);
    assert!(offset_of!(Counts, exceptions) == 24);
    assert!(offset_of!(Counts, ranges) == 32);
    assert!(offset_of!(Counts, memory) == 40);
    assert!(offset_of!(Counts, memory_high) == 48);
    assert!(size_of::<Crash>() == 424);
    assert!(offset_of!(Crash, exception) == 0);
    assert!(offset_of!(Crash, thread_name) == 192);
    assert!(offset_of!(Crash, address) == 208);
    assert!(offset_of!(Crash, registers) == 216);
    assert!(offset_of!(Crash, module) == 240);
    assert!(offset_of!(Crash, near) == 320);
    assert!(offset_of!(Crash, reached) == 400);
    assert!(offset_of!(Crash, access) == 408);
    assert!(offset_of!(Crash, has_registers) == 412);
    assert!(offset_of!(Crash, has_module) == 416);
    assert!(offset_of!(Crash, has_near) == 420);
    assert!(size_of::<Summary>() == 840);
    assert!(offset_of!(Summary, header) == 0);
    assert!(offset_of!(Summary, counts) == 40);
    assert!(offset_of!(Summary, bad_entries) == 96);
    assert!(offset_of!(Summary, first_error) == 104);
    assert!(offset_of!(Summary, parts_outside) == 168);
    assert!(offset_of!(Summary, first_outside) == 176);
    assert!(offset_of!(Summary, crash) == 240);
    assert!(offset_of!(Summary, program) == 664);
    assert!(offset_of!(Summary, system) == 736);
    assert!(offset_of!(Summary, has_crash) == 824);
    assert!(offset_of!(Summary, has_program) == 828);
    assert!(offset_of!(Summary, has_system) == 832);
    assert!(offset_of!(Summary, reserved) == 836);
};

/// What the library exports. The pointers of a call must be of live values, aligned and not NULL. A
/// length must be that of its pointer. What is written to must not overlap anything else. Slices and
/// references are so, also empty ones. Their content may be anything.
mod symbols {
    use super::*;

    extern "C" {
        pub fn mdmp_abi() -> u32;
        pub fn mdmp_version() -> u32;
        pub fn mdmp_header_(
            file: *const u8,
            file_size: usize,
            out: *mut Header,
            fault: *mut Fault,
        ) -> u32;
        pub fn mdmp_streams_(
            file: *const u8,
            file_size: usize,
            out: *mut Stream,
            room: usize,
            count: *mut u64,
            fault: *mut Fault,
        ) -> u32;
        pub fn mdmp_check_(
            file: *const u8,
            file_size: usize,
            limits: *const Limits,
            out: *mut u8,
            room: usize,
            size: *mut u64,
            fault: *mut Fault,
        ) -> u32;
        pub fn mdmp_check_json_(
            file: *const u8,
            file_size: usize,
            limits: *const Limits,
            out: *mut u8,
            room: usize,
            size: *mut u64,
            fault: *mut Fault,
        ) -> u32;
        pub fn mdmp_verdicts_(
            file: *const u8,
            file_size: usize,
            limits: *const Limits,
            out: *mut Fault,
            room: usize,
            count: *mut u64,
            fault: *mut Fault,
        ) -> u32;
        pub fn mdmp_parts_outside_(
            file: *const u8,
            file_size: usize,
            limits: *const Limits,
            out: *mut Fault,
            room: usize,
            count: *mut u64,
            fault: *mut Fault,
        ) -> u32;
        pub fn mdmp_list_(
            file: *const u8,
            file_size: usize,
            limits: *const Limits,
            pdb: bool,
            out: *mut u8,
            room: usize,
            size: *mut u64,
            fault: *mut Fault,
        ) -> u32;
        pub fn mdmp_list_json_(
            file: *const u8,
            file_size: usize,
            limits: *const Limits,
            pdb: bool,
            out: *mut u8,
            room: usize,
            size: *mut u64,
            fault: *mut Fault,
        ) -> u32;
        pub fn mdmp_list_part_(
            file: *const u8,
            file_size: usize,
            limits: *const Limits,
            pdb: bool,
            skip: u64,
            out: *mut u8,
            room: usize,
            size: *mut u64,
            fault: *mut Fault,
        ) -> u32;
        pub fn mdmp_copy_(
            file: *const u8,
            file_size: usize,
            limits: *const Limits,
            types: *const u32,
            types_count: usize,
            out: *mut u8,
            room: usize,
            size: *mut u64,
            fault: *mut Fault,
        ) -> u32;
        pub fn mdmp_threads_(
            file: *const u8,
            file_size: usize,
            limits: *const Limits,
            out: *mut Thread,
            room: usize,
            count: *mut u64,
            fault: *mut Fault,
        ) -> u32;
        pub fn mdmp_modules_(
            file: *const u8,
            file_size: usize,
            limits: *const Limits,
            out: *mut Module,
            room: usize,
            count: *mut u64,
            fault: *mut Fault,
        ) -> u32;
        pub fn mdmp_exceptions_(
            file: *const u8,
            file_size: usize,
            limits: *const Limits,
            out: *mut ExceptionRecord,
            room: usize,
            count: *mut u64,
            fault: *mut Fault,
        ) -> u32;
        pub fn mdmp_systems_(
            file: *const u8,
            file_size: usize,
            limits: *const Limits,
            out: *mut System,
            room: usize,
            count: *mut u64,
            fault: *mut Fault,
        ) -> u32;
        pub fn mdmp_unloaded_(
            file: *const u8,
            file_size: usize,
            limits: *const Limits,
            out: *mut UnloadedModule,
            room: usize,
            count: *mut u64,
            fault: *mut Fault,
        ) -> u32;
        pub fn mdmp_regions_(
            file: *const u8,
            file_size: usize,
            limits: *const Limits,
            out: *mut Region,
            room: usize,
            count: *mut u64,
            fault: *mut Fault,
        ) -> u32;
        pub fn mdmp_thread_names_(
            file: *const u8,
            file_size: usize,
            limits: *const Limits,
            out: *mut ThreadName,
            room: usize,
            count: *mut u64,
            fault: *mut Fault,
        ) -> u32;
        pub fn mdmp_ranges_(
            file: *const u8,
            file_size: usize,
            limits: *const Limits,
            out: *mut Range,
            room: usize,
            count: *mut u64,
            fault: *mut Fault,
        ) -> u32;
        pub fn mdmp_memory_(
            file: *const u8,
            file_size: usize,
            limits: *const Limits,
            address: u64,
            out: *mut u8,
            room: usize,
            known: *mut bool,
            known_size: usize,
            fault: *mut Fault,
        ) -> u32;
        pub fn mdmp_read_(
            file: *const u8,
            file_size: usize,
            ranges: *const Range,
            ranges_count: usize,
            address: u64,
            out: *mut u8,
            room: usize,
            known: *mut bool,
            known_size: usize,
            fault: *mut Fault,
        ) -> u32;
        pub fn mdmp_index_(
            file: *const u8,
            file_size: usize,
            ranges: *const Range,
            ranges_count: usize,
            out: *mut Slot,
            room: usize,
            count: *mut u64,
            fault: *mut Fault,
        ) -> u32;
        pub fn mdmp_index_modules_(
            modules: *const Module,
            modules_count: usize,
            out: *mut Slot,
            room: usize,
            count: *mut u64,
            fault: *mut Fault,
        ) -> u32;
        pub fn mdmp_read_index_(
            file: *const u8,
            file_size: usize,
            slots: *const Slot,
            slots_count: usize,
            address: u64,
            out: *mut u8,
            room: usize,
            known: *mut bool,
            known_size: usize,
            fault: *mut Fault,
        ) -> u32;
        pub fn mdmp_where_(
            slots: *const Slot,
            slots_count: usize,
            address: u64,
            owner: *mut u64,
        ) -> u32;
        pub fn mdmp_name_(
            file: *const u8,
            file_size: usize,
            rva: u64,
            limit: u32,
            out: *mut u8,
            room: usize,
            size: *mut u64,
            fault: *mut Fault,
        ) -> u32;
        pub fn mdmp_symbols_(
            file: *const u8,
            file_size: usize,
            limits: *const Limits,
            place: *const Place,
            out: *mut SymbolFile,
            fault: *mut Fault,
        ) -> u32;
        pub fn mdmp_summary_(
            file: *const u8,
            file_size: usize,
            limits: *const Limits,
            out: *mut Summary,
            fault: *mut Fault,
        ) -> u32;
        pub fn mdmp_ids_(
            file: *const u8,
            file_size: usize,
            module: *const Module,
            out: *mut ModuleIds,
        ) -> u32;
        pub fn mdmp_fault_text_(
            fault: *const Fault,
            out: *mut u8,
            room: usize,
            size: *mut u64,
        ) -> u32;
    }
}

/// `mdmp_abi` of mdmp.h
pub fn mdmp_abi() -> u32 {
    // SAFETY: as `symbols` says.
    unsafe { symbols::mdmp_abi() }
}

/// `mdmp_version` of mdmp.h
pub fn mdmp_version() -> u32 {
    // SAFETY: as `symbols` says.
    unsafe { symbols::mdmp_version() }
}

/// `mdmp_header` of mdmp.h
pub fn mdmp_header(file: &[u8], out: &mut Header, fault: &mut Fault) -> u32 {
    // SAFETY: as `symbols` says.
    unsafe { symbols::mdmp_header_(file.as_ptr(), file.len(), out, fault) }
}

/// `mdmp_streams` of mdmp.h
pub fn mdmp_streams(file: &[u8], out: &mut [Stream], count: &mut u64, fault: &mut Fault) -> u32 {
    // SAFETY: as `symbols` says.
    unsafe {
        symbols::mdmp_streams_(
            file.as_ptr(),
            file.len(),
            out.as_mut_ptr(),
            out.len(),
            count,
            fault,
        )
    }
}

/// `mdmp_check` of mdmp.h
pub fn mdmp_check(
    file: &[u8],
    limits: &Limits,
    out: &mut [u8],
    size: &mut u64,
    fault: &mut Fault,
) -> u32 {
    // SAFETY: as `symbols` says.
    unsafe {
        symbols::mdmp_check_(
            file.as_ptr(),
            file.len(),
            limits,
            out.as_mut_ptr(),
            out.len(),
            size,
            fault,
        )
    }
}

/// `mdmp_check_json` of mdmp.h
pub fn mdmp_check_json(
    file: &[u8],
    limits: &Limits,
    out: &mut [u8],
    size: &mut u64,
    fault: &mut Fault,
) -> u32 {
    // SAFETY: as `symbols` says.
    unsafe {
        symbols::mdmp_check_json_(
            file.as_ptr(),
            file.len(),
            limits,
            out.as_mut_ptr(),
            out.len(),
            size,
            fault,
        )
    }
}

/// `mdmp_verdicts` of mdmp.h
pub fn mdmp_verdicts(
    file: &[u8],
    limits: &Limits,
    out: &mut [Fault],
    count: &mut u64,
    fault: &mut Fault,
) -> u32 {
    // SAFETY: as `symbols` says.
    unsafe {
        symbols::mdmp_verdicts_(
            file.as_ptr(),
            file.len(),
            limits,
            out.as_mut_ptr(),
            out.len(),
            count,
            fault,
        )
    }
}

/// `mdmp_parts_outside` of mdmp.h
pub fn mdmp_parts_outside(
    file: &[u8],
    limits: &Limits,
    out: &mut [Fault],
    count: &mut u64,
    fault: &mut Fault,
) -> u32 {
    // SAFETY: as `symbols` says.
    unsafe {
        symbols::mdmp_parts_outside_(
            file.as_ptr(),
            file.len(),
            limits,
            out.as_mut_ptr(),
            out.len(),
            count,
            fault,
        )
    }
}

/// `mdmp_list` of mdmp.h
pub fn mdmp_list(
    file: &[u8],
    limits: &Limits,
    pdb: bool,
    out: &mut [u8],
    size: &mut u64,
    fault: &mut Fault,
) -> u32 {
    // SAFETY: as `symbols` says.
    unsafe {
        symbols::mdmp_list_(
            file.as_ptr(),
            file.len(),
            limits,
            pdb,
            out.as_mut_ptr(),
            out.len(),
            size,
            fault,
        )
    }
}

/// `mdmp_list_json` of mdmp.h
pub fn mdmp_list_json(
    file: &[u8],
    limits: &Limits,
    pdb: bool,
    out: &mut [u8],
    size: &mut u64,
    fault: &mut Fault,
) -> u32 {
    // SAFETY: as `symbols` says.
    unsafe {
        symbols::mdmp_list_json_(
            file.as_ptr(),
            file.len(),
            limits,
            pdb,
            out.as_mut_ptr(),
            out.len(),
            size,
            fault,
        )
    }
}

/// `mdmp_list_part` of mdmp.h
pub fn mdmp_list_part(
    file: &[u8],
    limits: &Limits,
    pdb: bool,
    skip: u64,
    out: &mut [u8],
    size: &mut u64,
    fault: &mut Fault,
) -> u32 {
    // SAFETY: as `symbols` says.
    unsafe {
        symbols::mdmp_list_part_(
            file.as_ptr(),
            file.len(),
            limits,
            pdb,
            skip,
            out.as_mut_ptr(),
            out.len(),
            size,
            fault,
        )
    }
}

/// `mdmp_copy` of mdmp.h
pub fn mdmp_copy(
    file: &[u8],
    limits: &Limits,
    types: &[u32],
    out: &mut [u8],
    size: &mut u64,
    fault: &mut Fault,
) -> u32 {
    // SAFETY: as `symbols` says.
    unsafe {
        symbols::mdmp_copy_(
            file.as_ptr(),
            file.len(),
            limits,
            types.as_ptr(),
            types.len(),
            out.as_mut_ptr(),
            out.len(),
            size,
            fault,
        )
    }
}

/// `mdmp_threads` of mdmp.h
pub fn mdmp_threads(
    file: &[u8],
    limits: &Limits,
    out: &mut [Thread],
    count: &mut u64,
    fault: &mut Fault,
) -> u32 {
    // SAFETY: as `symbols` says.
    unsafe {
        symbols::mdmp_threads_(
            file.as_ptr(),
            file.len(),
            limits,
            out.as_mut_ptr(),
            out.len(),
            count,
            fault,
        )
    }
}

/// `mdmp_modules` of mdmp.h
pub fn mdmp_modules(
    file: &[u8],
    limits: &Limits,
    out: &mut [Module],
    count: &mut u64,
    fault: &mut Fault,
) -> u32 {
    // SAFETY: as `symbols` says.
    unsafe {
        symbols::mdmp_modules_(
            file.as_ptr(),
            file.len(),
            limits,
            out.as_mut_ptr(),
            out.len(),
            count,
            fault,
        )
    }
}

/// `mdmp_exceptions` of mdmp.h
pub fn mdmp_exceptions(
    file: &[u8],
    limits: &Limits,
    out: &mut [ExceptionRecord],
    count: &mut u64,
    fault: &mut Fault,
) -> u32 {
    // SAFETY: as `symbols` says.
    unsafe {
        symbols::mdmp_exceptions_(
            file.as_ptr(),
            file.len(),
            limits,
            out.as_mut_ptr(),
            out.len(),
            count,
            fault,
        )
    }
}

/// `mdmp_systems` of mdmp.h
pub fn mdmp_systems(
    file: &[u8],
    limits: &Limits,
    out: &mut [System],
    count: &mut u64,
    fault: &mut Fault,
) -> u32 {
    // SAFETY: as `symbols` says.
    unsafe {
        symbols::mdmp_systems_(
            file.as_ptr(),
            file.len(),
            limits,
            out.as_mut_ptr(),
            out.len(),
            count,
            fault,
        )
    }
}

/// `mdmp_unloaded` of mdmp.h
pub fn mdmp_unloaded(
    file: &[u8],
    limits: &Limits,
    out: &mut [UnloadedModule],
    count: &mut u64,
    fault: &mut Fault,
) -> u32 {
    // SAFETY: as `symbols` says.
    unsafe {
        symbols::mdmp_unloaded_(
            file.as_ptr(),
            file.len(),
            limits,
            out.as_mut_ptr(),
            out.len(),
            count,
            fault,
        )
    }
}

/// `mdmp_regions` of mdmp.h
pub fn mdmp_regions(
    file: &[u8],
    limits: &Limits,
    out: &mut [Region],
    count: &mut u64,
    fault: &mut Fault,
) -> u32 {
    // SAFETY: as `symbols` says.
    unsafe {
        symbols::mdmp_regions_(
            file.as_ptr(),
            file.len(),
            limits,
            out.as_mut_ptr(),
            out.len(),
            count,
            fault,
        )
    }
}

/// `mdmp_thread_names` of mdmp.h
pub fn mdmp_thread_names(
    file: &[u8],
    limits: &Limits,
    out: &mut [ThreadName],
    count: &mut u64,
    fault: &mut Fault,
) -> u32 {
    // SAFETY: as `symbols` says.
    unsafe {
        symbols::mdmp_thread_names_(
            file.as_ptr(),
            file.len(),
            limits,
            out.as_mut_ptr(),
            out.len(),
            count,
            fault,
        )
    }
}

/// `mdmp_ranges` of mdmp.h
pub fn mdmp_ranges(
    file: &[u8],
    limits: &Limits,
    out: &mut [Range],
    count: &mut u64,
    fault: &mut Fault,
) -> u32 {
    // SAFETY: as `symbols` says.
    unsafe {
        symbols::mdmp_ranges_(
            file.as_ptr(),
            file.len(),
            limits,
            out.as_mut_ptr(),
            out.len(),
            count,
            fault,
        )
    }
}

/// `mdmp_memory` of mdmp.h
pub fn mdmp_memory(
    file: &[u8],
    limits: &Limits,
    address: u64,
    out: &mut [u8],
    known: &mut [bool],
    fault: &mut Fault,
) -> u32 {
    // SAFETY: as `symbols` says.
    unsafe {
        symbols::mdmp_memory_(
            file.as_ptr(),
            file.len(),
            limits,
            address,
            out.as_mut_ptr(),
            out.len(),
            known.as_mut_ptr(),
            known.len(),
            fault,
        )
    }
}

/// `mdmp_read` of mdmp.h
pub fn mdmp_read(
    file: &[u8],
    ranges: &[Range],
    address: u64,
    out: &mut [u8],
    known: &mut [bool],
    fault: &mut Fault,
) -> u32 {
    // SAFETY: as `symbols` says.
    unsafe {
        symbols::mdmp_read_(
            file.as_ptr(),
            file.len(),
            ranges.as_ptr(),
            ranges.len(),
            address,
            out.as_mut_ptr(),
            out.len(),
            known.as_mut_ptr(),
            known.len(),
            fault,
        )
    }
}

/// `mdmp_index` of mdmp.h
pub fn mdmp_index(
    file: &[u8],
    ranges: &[Range],
    out: &mut [Slot],
    count: &mut u64,
    fault: &mut Fault,
) -> u32 {
    // SAFETY: as `symbols` says.
    unsafe {
        symbols::mdmp_index_(
            file.as_ptr(),
            file.len(),
            ranges.as_ptr(),
            ranges.len(),
            out.as_mut_ptr(),
            out.len(),
            count,
            fault,
        )
    }
}

/// `mdmp_index_modules` of mdmp.h
pub fn mdmp_index_modules(
    modules: &[Module],
    out: &mut [Slot],
    count: &mut u64,
    fault: &mut Fault,
) -> u32 {
    // SAFETY: as `symbols` says.
    unsafe {
        symbols::mdmp_index_modules_(
            modules.as_ptr(),
            modules.len(),
            out.as_mut_ptr(),
            out.len(),
            count,
            fault,
        )
    }
}

/// `mdmp_read_index` of mdmp.h
pub fn mdmp_read_index(
    file: &[u8],
    slots: &[Slot],
    address: u64,
    out: &mut [u8],
    known: &mut [bool],
    fault: &mut Fault,
) -> u32 {
    // SAFETY: as `symbols` says.
    unsafe {
        symbols::mdmp_read_index_(
            file.as_ptr(),
            file.len(),
            slots.as_ptr(),
            slots.len(),
            address,
            out.as_mut_ptr(),
            out.len(),
            known.as_mut_ptr(),
            known.len(),
            fault,
        )
    }
}

/// `mdmp_where` of mdmp.h
pub fn mdmp_where(slots: &[Slot], address: u64, owner: &mut u64) -> u32 {
    // SAFETY: as `symbols` says.
    unsafe { symbols::mdmp_where_(slots.as_ptr(), slots.len(), address, owner) }
}

/// `mdmp_name` of mdmp.h
pub fn mdmp_name(
    file: &[u8],
    rva: u64,
    limit: u32,
    out: &mut [u8],
    size: &mut u64,
    fault: &mut Fault,
) -> u32 {
    // SAFETY: as `symbols` says.
    unsafe {
        symbols::mdmp_name_(
            file.as_ptr(),
            file.len(),
            rva,
            limit,
            out.as_mut_ptr(),
            out.len(),
            size,
            fault,
        )
    }
}

/// `mdmp_symbols` of mdmp.h
pub fn mdmp_symbols(
    file: &[u8],
    limits: &Limits,
    place: &Place,
    out: &mut SymbolFile,
    fault: &mut Fault,
) -> u32 {
    // SAFETY: as `symbols` says.
    unsafe { symbols::mdmp_symbols_(file.as_ptr(), file.len(), limits, place, out, fault) }
}

/// `mdmp_summary` of mdmp.h
pub fn mdmp_summary(file: &[u8], limits: &Limits, out: &mut Summary, fault: &mut Fault) -> u32 {
    // SAFETY: as `symbols` says.
    unsafe { symbols::mdmp_summary_(file.as_ptr(), file.len(), limits, out, fault) }
}

/// `mdmp_ids` of mdmp.h
pub fn mdmp_ids(file: &[u8], module: &Module, out: &mut ModuleIds) -> u32 {
    // SAFETY: as `symbols` says.
    unsafe { symbols::mdmp_ids_(file.as_ptr(), file.len(), module, out) }
}

/// `mdmp_fault_text` of mdmp.h
pub fn mdmp_fault_text(fault: &Fault, out: &mut [u8], size: &mut u64) -> u32 {
    // SAFETY: as `symbols` says.
    unsafe { symbols::mdmp_fault_text_(fault, out.as_mut_ptr(), out.len(), size) }
}
