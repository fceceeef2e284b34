//! What each limit refuses at its edge, and what stands before it.

use mdmp::{Dump, Error, FaultKind, Limits};

/// A system, whose name is that of its service pack: 136 bytes, of which a listing fetches 132.
fn system() -> Vec<u8> {
    let mut file = b"MDMP\x93\xa7\0\0".to_vec();
    // What is left of the header, and the directory.
    for number in [1u32, 32, 0, 0, 0, 0, 7, 56, 44] {
        file.extend(number.to_le_bytes());
    }
    file.extend(b"\x09\0\x06\0\x03\0\x04\x01");
    for number in [6u32, 1, 7601, 2, 100, 256] {
        file.extend(number.to_le_bytes());
    }
    file.extend([0; 24]);
    file.extend(28u32.to_le_bytes());
    file.extend("Service Pack 1".encode_utf16().flat_map(u16::to_le_bytes));
    file.extend([0; 4]);
    file
}

#[test]
fn budget_is_kept() {
    let file = system();
    assert_eq!(file.len(), 136);
    let dump = Dump::new(&file);
    let whole = dump.list().unwrap();
    // Before the directory is read.
    let error = dump.with_budget(43).list().unwrap_err();
    assert!(matches!(error, Error::Limit(..)));
    let fault = *error.fault().unwrap();
    assert_eq!(fault.kind(), FaultKind::Budget);
    assert_eq!((fault.offset(), fault.size()), (32, 12));
    assert_eq!(error.to_string(), "fetch budget reached: offset 32 size 12");
    assert_eq!(error.into_partial().unwrap(), "");
    // Before the name is read.
    let error = dump.with_budget(131).list().unwrap_err();
    let fault = *error.fault().unwrap();
    assert_eq!((fault.offset(), fault.size()), (104, 28));
    let lines: Vec<&str> = whole.split_inclusive('\n').collect();
    assert_eq!(error.into_partial().unwrap(), lines[..2].concat());
    let error = dump.with_budget(0).systems().unwrap_err();
    assert_eq!(error.to_string(), "fetch budget reached: offset 0 size 32");
    let within = dump.with_budget(132);
    assert_eq!(within.list().unwrap(), whole);
    assert_eq!(within.verdicts().unwrap()[0].fault, None);
    let systems = within.systems().unwrap();
    assert_eq!(
        within.name(&systems[0].csd_version).unwrap().as_deref(),
        Some("Service Pack 1")
    );
    assert_eq!(dump.with_budget(u64::MAX).list().unwrap(), whole);
}

/// A file of one entry: the header, the directory, and a list of these records.
fn one_list(stream_type: u32, records: &[Vec<u8>], rest: &[u8]) -> Vec<u8> {
    let size = 4 + records.iter().map(Vec::len).sum::<usize>();
    let mut file = b"MDMP\x93\xa7\0\0".to_vec();
    for number in [1, 32, 0, 0, 0, 0, stream_type, size as u32, 44] {
        file.extend(u32::to_le_bytes(number));
    }
    file.extend((records.len() as u32).to_le_bytes());
    file.extend(records.concat());
    file.extend(rest);
    file
}

/// So many ranges of one byte, which all have the first byte of the file.
fn ranges(count: u64) -> Vec<u8> {
    let record = |at: u64| [&(0x1000 + at).to_le_bytes()[..], &[1, 0, 0, 0, 0, 0, 0, 0]].concat();
    one_list(5, &(0..count).map(record).collect::<Vec<_>>(), b"")
}

/// Three modules that have one CodeView record of 40 bytes.
fn modules() -> Vec<u8> {
    let mut record = vec![0; 108];
    record[76..80].copy_from_slice(&40u32.to_le_bytes());
    record[80..84].copy_from_slice(&(48u32 + 3 * 108).to_le_bytes());
    let mut codeview = b"RSDS".to_vec();
    codeview.extend([0; 20]);
    codeview.extend([b'p'; 15]);
    codeview.push(0);
    one_list(4, &[record.clone(), record.clone(), record], &codeview)
}

/// The limits of a dump without any but this.
fn only(change: impl Fn(&mut Limits)) -> Limits {
    let mut limits = Limits::none();
    change(&mut limits);
    limits
}

#[test]
fn a_dump_begins_with_the_limits_of_strangers() {
    let dump = Dump::new(b"");
    assert_eq!(dump.limits(), Limits::untrusted());
    let most = Some(64 << 20);
    let limits = Limits::untrusted();
    assert_eq!((limits.budget, limits.memory), (most, most));
    assert_eq!((limits.aside, limits.output), (most, most));
    assert_eq!((limits.window, limits.name), (65536, 4096));
    assert_eq!(dump.with_budget(7).limits().budget, Some(7));
}

#[test]
fn memory_is_limited() {
    let held = 65536 + 4096 + 12;
    let file = system();
    let dump = |most| Dump::new(&file).with_limits(only(|limits| limits.memory = Some(most)));
    let error = dump(held - 1).systems().unwrap_err();
    assert!(matches!(error, Error::Limit(..)));
    assert_eq!(error.fault().unwrap().kind(), FaultKind::MemoryLimit);
    assert_eq!(error.to_string(), format!("memory limit reached: {held}"));
    assert_eq!(error.into_partial().unwrap(), Vec::new());
    assert_eq!(dump(held).systems().unwrap().len(), 1);
    let (file, held) = (ranges(100), held + 24 * 100);
    let dump = |most| Dump::new(&file).with_limits(only(|limits| limits.memory = Some(most)));
    assert_eq!(dump(held).ranges().unwrap().len(), 100);
    let error = dump(held - 1).memory().unwrap_err();
    assert_eq!(error.fault().unwrap().size(), u128::from(held));
}

#[test]
fn codeview_records_are_limited() {
    let file = modules();
    let whole = Dump::new(&file).list_with_symbols().unwrap();
    let dump = |most| Dump::new(&file).with_limits(only(|limits| limits.aside = Some(most)));
    assert_eq!(dump(120).list_with_symbols().unwrap(), whole);
    let error = dump(119).list_with_symbols().unwrap_err();
    let fault = *error.fault().unwrap();
    assert_eq!((fault.kind(), fault.size()), (FaultKind::AsideLimit, 40));
    let mut lines: Vec<&str> = whole.split_inclusive('\n').collect();
    lines.pop();
    assert_eq!(error.into_partial().unwrap(), lines.concat());
    assert_eq!(dump(0).list().unwrap(), Dump::new(&file).list().unwrap());
}

#[test]
fn names_of_symbol_files_are_limited() {
    let file = modules();
    let named = |most| {
        let dump = Dump::new(&file).with_limits(only(|limits| limits.name = most));
        let module = dump.modules().unwrap()[0];
        let symbols = dump.symbols(&module.codeview).unwrap().unwrap();
        (symbols.name, symbols.name_ended)
    };
    let name: &[u8] = &[b'p'; 15];
    assert_eq!(named(4096), (name, true));
    // The zero byte is the last that is read.
    assert_eq!(named(16), (name, true));
    assert_eq!(named(15), (name, false));
    assert_eq!(named(14), (&name[..14], false));
    assert_eq!(named(0), (&name[..0], false));
}

#[test]
fn copies_are_limited() {
    let file = system();
    let dump = Dump::new(&file);
    let refused = |budget| dump.with_budget(budget).copy(&[7]).unwrap_err();
    // While the file is opened, the budget refuses a single read.
    let error = (43..)
        .map(refused)
        .find(|error| error.fault().unwrap().kind() != FaultKind::Budget)
        .unwrap();
    let fault = *error.fault().unwrap();
    assert_eq!(fault.kind(), FaultKind::CopyBudget);
    assert_eq!(
        error.to_string(),
        format!("copy needs {} bytes", fault.size())
    );
    let needed = fault.size() as u64;
    assert_eq!(dump.with_budget(needed).copy(&[7]).unwrap(), file);
    assert!(matches!(
        dump.with_budget(needed - 1).copy(&[7]),
        Err(Error::Limit(..))
    ));
    assert_eq!(dump.with_limits(Limits::none()).copy(&[7]).unwrap(), file);
}

#[test]
fn a_name_that_is_not_copied_has_its_entry() {
    let file = system();
    let copied = |name| Dump::new(&file).with_longest_name(name).copy(&[7]);
    let error = copied(27).unwrap_err();
    let fault = error.fault().unwrap();
    assert_eq!((fault.kind(), fault.size()), (FaultKind::NameTooLong, 28));
    assert_eq!((fault.entry(), fault.index()), (Some(0), Some(0)));
    assert_eq!(copied(28).unwrap(), file);
}

#[test]
fn rows_are_limited() {
    let file = ranges(100);
    let rows = Dump::new(&file).ranges().unwrap();
    let dump = |most| Dump::new(&file).with_limits(only(|limits| limits.output = Some(most)));
    assert_eq!(dump(5600).ranges().unwrap(), rows);
    for (most, given) in [(5599, 99), (56, 1), (55, 0), (0, 0)] {
        let error = dump(most).ranges().unwrap_err();
        assert!(matches!(error, Error::OutputLimit(..)));
        assert_eq!(error.into_partial().unwrap(), rows[..given]);
    }
    assert!(matches!(
        dump(5599).memory(),
        Err(Error::OutputLimit(5599, ()))
    ));
    let (stream, verdict) = (24, 64);
    assert_eq!(dump(stream).streams().unwrap().len(), 1);
    assert!(dump(stream - 1).streams().is_err());
    assert_eq!(dump(verdict).verdicts().unwrap().len(), 1);
    let error = dump(verdict - 1).verdicts().unwrap_err();
    assert_eq!(error.into_partial().unwrap(), Vec::new());
}

#[test]
fn texts_are_limited() {
    let file = modules();
    let whole = Dump::new(&file).list().unwrap();
    let first = whole.find('\n').unwrap() + 1;
    let dump = |most: usize| {
        Dump::new(&file).with_limits(only(|limits| limits.output = Some(most as u64)))
    };
    assert_eq!(dump(whole.len()).list().unwrap(), whole);
    let last = whole[..whole.len() - 1].rfind('\n').unwrap() + 1;
    for (most, given) in [
        (whole.len() - 1, last),
        (first, first),
        (first - 1, 0),
        (0, 0),
    ] {
        let error = dump(most).list().unwrap_err();
        assert_eq!(
            error.to_string(),
            format!("output limit of {most} bytes reached: Limits::none() lifts all limits")
        );
        assert_eq!(error.into_partial().unwrap(), whole[..given]);
    }
    let mut written = Vec::new();
    dump(0).write_list(&mut written).unwrap();
    assert_eq!(written, whole.into_bytes());
}
