//! Copies of the dumps that `bindings/tests/large` makes are those of the command.

use std::fs::File;
use std::io::{Read as _, Write as _};
use std::path::Path;
use std::process::{Command, Stdio};

/// The SHA-256 of some bytes, by coreutils.
fn sha256(bytes: &[u8]) -> String {
    let mut child = Command::new("sha256sum")
        .stdin(Stdio::piped())
        .stdout(Stdio::piped())
        .spawn()
        .unwrap();
    child.stdin.take().unwrap().write_all(bytes).unwrap();
    let told = child.wait_with_output().unwrap().stdout;
    String::from_utf8(told).unwrap()[..64].to_string()
}

/// The bytes of a file. Blocks of zeros are left as they were allocated, and take no memory.
fn sparse(path: &Path) -> Vec<u8> {
    let mut file = File::open(path).unwrap();
    let mut bytes = vec![0; file.metadata().unwrap().len() as usize];
    let (mut block, zeros) = (vec![0; 1 << 20], vec![0; 1 << 20]);
    for part in bytes.chunks_mut(block.len()) {
        let read = &mut block[..part.len()];
        file.read_exact(read).unwrap();
        if *read != zeros[..part.len()] {
            part.copy_from_slice(read);
        }
    }
    bytes
}

#[test]
fn copies() {
    let Some(folder) = std::env::var_os("MDMP_LARGE") else {
        println!("skipped: bindings/tests/large made no dumps, and said why");
        return;
    };
    for name in ["2.25", "4.5"] {
        let path = Path::new(&folder).join(format!("{name}.dmp"));
        let wanted =
            std::fs::read_to_string(Path::new(&folder).join(format!("{name}.copy"))).unwrap();
        let lines: Vec<&str> = wanted.lines().collect();
        let types: Vec<u32> = lines[0]
            .split(' ')
            .map(|word| word.parse().unwrap())
            .collect();
        let bytes = sparse(&path);
        let dump = mdmp::Dump::new(&bytes).with_limits(mdmp::Limits::none());
        let copied = dump.copy(&types).unwrap();
        assert_eq!(copied.len().to_string(), lines[1]);
        assert_eq!(sha256(&copied), lines[2]);
    }
}
