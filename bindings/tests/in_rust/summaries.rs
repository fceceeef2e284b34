//! Summaries, crashes and the ids of modules, over a dump of the folder that `MDMP_STORED` names and small files.

use mdmp::{Access, Crash, Dump, Error, FaultKind, IdKind, ModuleIds, NamePlace, Part};

fn sample() -> Vec<u8> {
    let folder = std::env::var_os("MDMP_STORED")
        .expect("MDMP_STORED names a folder that bindings/run makes");
    std::fs::read(std::path::Path::new(&folder).join("crashpad-one.dmp")).unwrap()
}

fn named(dump: &Dump, place: &NamePlace) -> String {
    dump.name(place).unwrap().unwrap_or_default()
}

fn assert_crash(dump: &Dump, crash: &Crash) {
    assert_eq!(crash.exception.thread_id, 22570);
    assert_eq!(crash.exception.exception_code, 11);
    assert_eq!(named(dump, &crash.thread_name), "cpad");
    assert_eq!(crash.address, 0x55c6e269e4d8);
    assert_eq!(crash.registers.unwrap().instruction, crash.address);
    let place = crash.module.unwrap();
    assert_eq!(place.module.base_of_image, 0x55c6e269d000);
    assert_eq!(place.offset, 0x14d8);
    assert_eq!(named(dump, &place.module.name), "/usr/sample/cpad");
    assert_eq!(crash.near, None);
    assert_eq!(crash.reached.unwrap().access, Access::NotSaid);
}

#[test]
fn sample_has_a_crash() {
    let bytes = sample();
    let dump = Dump::new(&bytes);
    let summary = dump.summary().unwrap();
    assert_crash(&dump, &summary.crash.unwrap());
    assert_eq!(dump.crash().unwrap(), summary.crash);
    assert_eq!(summary.header, dump.header().unwrap());
    assert_eq!(
        summary.crash.unwrap().exception,
        dump.exceptions().unwrap()[0]
    );
    assert_eq!(summary.system.unwrap().platform_id, 0x8201);
    assert_eq!(summary.counts.modules, 4);
    let (program, first) = (summary.program.unwrap(), dump.modules().unwrap()[0]);
    assert_eq!(program.name, first.name);
    assert_eq!(dump.ids(&program), dump.ids(&first));
    assert_eq!((summary.bad_entries, summary.first_error), (0, None));
    assert_eq!((summary.parts_outside, summary.first_outside), (0, None));
}

#[test]
fn cut_sample_has_parts_outside() {
    let bytes = sample();
    assert_eq!(Dump::new(&bytes).parts_outside().unwrap(), []);
    let dump = Dump::new(&bytes[..4708]);
    let parts = dump.parts_outside().unwrap();
    let told: Vec<String> = parts.iter().map(ToString::to_string).collect();
    let of = |place| format!("entry {place} outside the file: offset 4720 size 7264");
    assert_eq!(told, [of("2 item 0: stack"), of("7 item 0: memory")]);
    assert_eq!(parts[1].part(), Some(Part::Memory));
    let summary = dump.summary().unwrap();
    assert_eq!(summary.parts_outside, parts.len() as u64);
    assert_eq!(summary.first_outside, Some(parts[0]));
    let error = Dump::new(&bytes[..40]).parts_outside().unwrap_err();
    let kind = error.fault().unwrap().kind();
    assert_eq!(kind, FaultKind::DirectoryOutside);
}

#[test]
fn cut_sample_lacks_a_stack() {
    let bytes = sample();
    let dump = Dump::new(&bytes[..4708]);
    let summary = dump.summary().unwrap();
    assert_crash(&dump, &summary.crash.unwrap());
    let found = summary.first_outside.unwrap();
    assert_eq!(found.kind(), FaultKind::PartOutside);
    assert_eq!((found.entry(), found.index()), (Some(2), Some(0)));
    assert_eq!(found.part(), Some(Part::Stack));
    assert_eq!((found.offset(), found.size()), (4720, 7264));
}

#[test]
fn limits_end_a_summary() {
    let bytes = sample();
    let dump = Dump::new(&bytes).with_budget(31);
    match dump.summary() {
        Err(Error::Limit(fault, ())) => assert_eq!(fault.kind(), FaultKind::Budget),
        other => panic!("{other:?}"),
    }
    match Dump::new(b"MDMP").crash() {
        Err(Error::Fault(fault, ())) => assert_eq!(fault.kind(), FaultKind::FileTooShort),
        other => panic!("{other:?}"),
    }
}

/// The ids of a module with this CodeView record, time and size.
fn ids(record: &[u8], time: u32, size: u32) -> ModuleIds {
    let mut file = b"MDMP\x93\xa7\0\0\x01\0\0\0\x20\0\0\0".to_vec();
    file.resize(32, 0);
    for number in [4u32, 112, 44, 1] {
        file.extend(number.to_le_bytes());
    }
    file.extend(0x10000u64.to_le_bytes());
    for number in [size, 0, time, 0] {
        file.extend(number.to_le_bytes());
    }
    file.resize(file.len() + 52, 0);
    for number in [record.len() as u32, 156, 0, 0] {
        file.extend(number.to_le_bytes());
    }
    file.resize(156, 0);
    file.extend(record);
    let dump = Dump::new(&file);
    let modules = dump.modules().unwrap();
    dump.ids(&modules[0])
}

#[test]
fn records_of_each_kind_have_ids() {
    let guid: Vec<u8> = (0..16).collect();
    let digits = "030201000504070608090A0B0C0D0E0F";
    let rsds = [b"RSDS", &guid[..], b"\x1a\0\0\0", b"D:\\out/a.pdb\0"].concat();
    let found = ids(&rsds, 0x5f3759df, 0x1a000);
    assert_eq!(found.kind(), IdKind::Rsds);
    assert_eq!(found.debug_id(), Some(format!("{digits}1a")));
    assert_eq!(found.code_id().as_deref(), Some("5F3759DF1a000"));
    let path = found.symbol_path(b"D:\\out/a.pdb");
    assert_eq!(path, Some(format!("a.pdb/{digits}1a/a.pdb")));
    let path = found.image_path("C:\\x\\a.exe");
    assert_eq!(path.as_deref(), Some("a.exe/5F3759DF1a000/a.exe"));
    for name in ["", ".", "C:\\..", "a\nb", "/"] {
        assert_eq!(found.symbol_path(name.as_bytes()), None);
        assert_eq!(found.image_path(name), None);
    }
    assert_eq!(found.symbol_path(b"\xe9.pdb"), None);
    assert_eq!(ids(&rsds, 0, 1).code_id(), None);

    let nb10 = ids(b"NB10\0\0\0\0\xb0\x84\x7d\x3b\x1a\0\0\0b.pdb\0", 0, 0);
    assert_eq!(nb10.kind(), IdKind::Pdb20);
    assert_eq!(nb10.debug_id().as_deref(), Some("3B7D84B01a"));

    let elf = ids(
        &[b"LEpB", &guid[..], b"\xaa\xbb\xcc\xdd\xee"].concat(),
        7,
        8,
    );
    assert_eq!(elf.kind(), IdKind::Elf);
    assert_eq!(elf.debug_id(), Some(format!("{digits}0")));
    assert_eq!(
        elf.code_id().as_deref(),
        Some("000102030405060708090a0b0c0d0e0faabbccdd")
    );
    assert!(elf.is_build_id_cut() && elf.build_id().unwrap().len() == 20);
    assert_eq!(elf.image_path("libc.so.6"), None);

    let other = ids(b"else", 0, 0);
    assert_eq!((other.kind(), other.debug_id()), (IdKind::Other, None));
    assert_eq!(ids(b"", 0, 0).kind(), IdKind::None);
}
