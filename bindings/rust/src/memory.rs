//! Memory of the dumped process.

use crate::ffi;

/// Memory of the dumped process, by address. It has an index of the memory lists, which were read once.
#[derive(Clone)]
pub struct Memory<'a> {
    file: &'a [u8],
    ranges: usize,
    slots: Vec<ffi::Slot>,
}

impl<'a> Memory<'a> {
    pub(crate) fn new(file: &'a [u8], ranges: &[ffi::Range]) -> Self {
        let mut slots = vec![ffi::Slot::default(); 2 * ranges.len()];
        let (mut count, mut fault) = (0, ffi::Fault::default());
        let status = ffi::mdmp_index(file, ranges, &mut slots, &mut count, &mut fault);
        assert_eq!(status, 0, "two slots for each range are enough");
        slots.truncate(count as usize);
        Memory {
            file,
            ranges: ranges.len(),
            slots,
        }
    }

    /// Reads memory from an address on. If `known[i]` becomes true, `out[i]` is the byte at `address + i`; else `out[i]`
    /// is 0.
    ///
    /// # Panics
    /// If `out` and `known` differ in length.
    pub fn read(&self, address: u64, out: &mut [u8], known: &mut [bool]) {
        let mut fault = ffi::Fault::default();
        let status = ffi::mdmp_read_index(self.file, &self.slots, address, out, known, &mut fault);
        assert_eq!(status, 0, "out and known have one length");
    }

    /// The `size` bytes from an address on, or `None` if the file lacks any of them.
    pub fn bytes(&self, address: u64, size: usize) -> Option<Vec<u8>> {
        let (mut out, mut known) = (vec![0; size], vec![false; size]);
        self.read(address, &mut out, &mut known);
        known.iter().all(|known| *known).then_some(out)
    }

    /// The byte at an address, or `None` if the file lacks it.
    pub fn byte(&self, address: u64) -> Option<u8> {
        let (mut out, mut known) = ([0], [false]);
        self.read(address, &mut out, &mut known);
        known[0].then_some(out[0])
    }
}

impl std::fmt::Debug for Memory<'_> {
    fn fmt(&self, f: &mut std::fmt::Formatter<'_>) -> std::fmt::Result {
        write!(f, "Memory of {} ranges", self.ranges)
    }
}
