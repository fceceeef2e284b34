//! Each dump of the folder that `MDMP_STORED` names, against what is stored of it there.

use mdmp::{Dump, Error, Extent, FaultKind, NamePlace, Place};
use std::fmt::Write as _;
use std::path::{Path, PathBuf};

fn folder() -> PathBuf {
    std::env::var_os("MDMP_STORED")
        .expect("MDMP_STORED names a folder that bindings/run makes")
        .into()
}

/// Calls with each dump and where it stands.
fn each_dump(test: impl Fn(&Dump, &[u8], &Path)) {
    let mut count = 0;
    for found in std::fs::read_dir(folder()).unwrap() {
        let path = found.unwrap().path();
        if path.extension().is_some_and(|extension| extension == "dmp") {
            let bytes = std::fs::read(&path).unwrap();
            test(&Dump::new(&bytes), &bytes, &path);
            count += 1;
        }
    }
    assert_eq!(count, 7, "six samples and one that was made");
}

fn stored(path: &Path, extension: &str) -> String {
    std::fs::read_to_string(path.with_extension(extension)).unwrap()
}

include!("tables.rs");

/// The records of a table, each with its names and its symbol file.
macro_rules! put_table {
    ($out:ident, $dump:ident, $table:ident, [$($name:ident)*], [$($codeview:ident)*]) => {
        put(&mut $out, &$dump.$table().unwrap(), |_out, _row| {
            $(put_name(_out, $dump, &_row.$name);)*
            $(put_symbols(_out, $dump, &_row.$codeview);)*
        });
    };
}

/// The records in the lines that bindings/tests/in_c/records.c prints: each member by its name.
fn lines(dump: &Dump) -> String {
    let mut out = format!("{:?}\n", dump.header().unwrap());
    put(&mut out, &dump.streams().unwrap(), |_, _| {});
    each_table!(put_table, out, dump);
    out
}

/// A line for each row, and what follows it.
fn put<T: std::fmt::Debug>(out: &mut String, rows: &[T], more: impl Fn(&mut String, &T)) {
    for row in rows {
        writeln!(out, "{row:?}").unwrap();
        more(out, row);
    }
}

fn put_name(out: &mut String, dump: &Dump, place: &NamePlace) {
    let name = dump.name(place).unwrap();
    writeln!(out, "{:?}", name.as_ref().map(|name| name.as_bytes())).unwrap();
}

fn put_symbols(out: &mut String, dump: &Dump, place: &Place) {
    if let Some(symbols) = dump.symbols(place).unwrap() {
        writeln!(out, "{symbols:?}").unwrap();
    }
}

#[test]
fn texts_are_as_stored() {
    each_dump(|dump, _, path| {
        assert!(dump.list().unwrap() == stored(path, "list"), "{path:?}");
        assert!(
            dump.list_with_symbols().unwrap() == stored(path, "pdb"),
            "{path:?}"
        );
        assert!(dump.check().unwrap() == stored(path, "check"), "{path:?}");
        let mut written = Vec::new();
        dump.write_list(&mut written).unwrap();
        assert!(written == stored(path, "list").into_bytes(), "{path:?}");
    });
}

#[test]
fn objects_are_as_stored() {
    each_dump(|dump, _, path| {
        let objects = stored(path, "pdb.jsonl");
        assert!(
            dump.list_json_with_symbols().unwrap() == objects,
            "{path:?}"
        );
        let without: String = objects
            .split_inclusive('\n')
            .filter(|line| !line.starts_with("{\"line\":\"pdb\""))
            .collect();
        assert!(dump.list_json().unwrap() == without, "{path:?}");
        assert!(
            dump.check_json().unwrap() == stored(path, "check.jsonl"),
            "{path:?}"
        );
    });
}

#[test]
fn records_are_those_of_c() {
    each_dump(|dump, _, path| {
        for (line, wanted) in lines(dump).lines().zip(stored(path, "records").lines()) {
            assert_eq!(line, wanted, "{path:?}");
        }
        assert_eq!(lines(dump), stored(path, "records"), "{path:?}");
    });
}

#[test]
fn copies_are_as_stored() {
    each_dump(|dump, _, path| {
        let Ok(copied) = std::fs::read(path.with_extension("copied")) else {
            return;
        };
        let types = stored(path, "copy");
        let types: Vec<u32> = types
            .lines()
            .next()
            .unwrap()
            .split(' ')
            .map(|word| word.parse().unwrap())
            .collect();
        assert!(dump.copy(&types).unwrap() == copied, "{path:?}");
    });
}

#[test]
fn memory_is_that_of_the_file() {
    each_dump(|dump, bytes, _| {
        let memory = dump.memory().unwrap();
        let ranges = dump.ranges().unwrap();
        let held = ranges.iter().filter(|range| range.extent == Extent::Inside);
        // The first range that holds an address gives its byte.
        if let Some(range) = held.clone().next() {
            let (offset, size) = (range.offset as usize, range.size as usize);
            let size = size.min((u64::MAX - range.start) as usize);
            assert_eq!(
                memory.bytes(range.start, size).as_deref(),
                Some(&bytes[offset..offset + size])
            );
        }
        for range in held.take(100) {
            assert!(memory.byte(range.start).is_some());
        }
        assert_eq!(memory.byte(0), None);
        assert_eq!(memory.bytes(0, 0), Some(Vec::new()));
    });
}

#[test]
fn faults_are_told() {
    let path = folder().join("llvm-all-kinds.dmp");
    let bytes = std::fs::read(path).unwrap();
    let cut = Dump::new(&bytes[..1334]);
    let verdicts = cut.verdicts().unwrap();
    let bad: Vec<String> = verdicts
        .iter()
        .filter_map(|verdict| verdict.fault)
        .map(|fault| fault.to_string())
        .collect();
    assert_eq!(bad.len(), 4);
    assert_eq!(
        bad[0],
        "entry 7: stream outside the file: offset 1321 size 14"
    );
    assert_eq!(verdicts[7].fault.unwrap().entry(), Some(7));
    assert_eq!(verdicts[7].fault.unwrap().index(), None);
    let error = cut.check().unwrap_err();
    assert_eq!(error.to_string(), "4 bad entries");
    assert_eq!(error.fault().unwrap().kind(), FaultKind::BadEntries);
    assert_eq!(error.into_partial().unwrap().lines().count(), 12);
    let error = cut.check_json().unwrap_err();
    assert_eq!(error.to_string(), "4 bad entries");
    assert_eq!(error.into_partial().unwrap().lines().count(), 12);
    let error = cut.list().unwrap_err();
    assert_eq!(error.to_string(), bad[0]);
    let text = error.into_partial().unwrap();
    assert!(Dump::new(&bytes).list().unwrap().starts_with(&text));
    let mut written = Vec::new();
    assert_eq!(
        cut.write_list(&mut written).unwrap_err().to_string(),
        bad[0]
    );
    assert_eq!(written, text.into_bytes());
    assert!(matches!(
        Dump::new(&bytes).with_window(167).threads(),
        Err(Error::BadArgument(_))
    ));
    assert!(matches!(
        Dump::new(&bytes).with_longest_name(u32::MAX).threads(),
        Err(Error::BadArgument(_))
    ));
    assert_eq!(
        Dump::new(&bytes).copy(&[12]).unwrap_err().to_string(),
        "type 12 is not copied"
    );
    assert_eq!(
        Dump::new(&[]).header().unwrap_err().to_string(),
        "file of 0 bytes is too short"
    );
    let long = Dump::new(&bytes).with_longest_name(3);
    assert_eq!(long.name(&long.modules().unwrap()[0].name).unwrap(), None);
}

#[test]
fn one_dump_serves_threads() {
    each_dump(|dump, _, path| {
        let wanted = stored(path, "check");
        std::thread::scope(|scope| {
            for _ in 0..4 {
                scope.spawn(|| assert!(dump.check().unwrap() == wanted));
            }
        });
    });
}
