//! How much of a file a dump reads, and how much memory it uses.

use crate::ffi;

/// How much of a file a dump reads, and how much memory it uses. `None` is no limit, and 0 is no byte.
///
/// [`Dump::new`](crate::Dump::new) begins with [`Limits::untrusted`], which is also the default.
///
/// ```
/// use mdmp::{Dump, Limits};
/// let dump = Dump::new(b"").with_limits(Limits {
///     name: 8192,
///     output: None,
///     ..Limits::untrusted()
/// });
/// assert_eq!(dump.limits().budget, Some(64 << 20));
/// ```
#[derive(Clone, Copy, Debug, PartialEq, Eq)]
pub struct Limits {
    /// The size of the buffer for records, in bytes: 168 to 2^30.
    pub window: u32,
    /// The longest name that is read, in bytes: at most 2^30.
    pub name: u32,
    /// The most bytes of the file that one listing or one copy reads. Each call is a listing of its own. If its first
    /// buffer is too short, the listing is made again, and counts from 0 again.
    pub budget: Option<u64>,
    /// The most bytes that the lists of one listing or copy take: window, directory, ranges of memory, name.
    pub memory: Option<u64>,
    /// The most bytes of CodeView records that one text with symbols reads. `budget` does not count them.
    pub aside: Option<u64>,
    /// The most bytes of the rows of one call, by the sizes of the structures in mdmp.h, and the most bytes of one text.
    /// It does not limit [`Dump::write_list`](crate::Dump::write_list), [`Dump::copy`](crate::Dump::copy) and
    /// [`Dump::name`](crate::Dump::name).
    pub output: Option<u64>,
}

impl Limits {
    /// The limits for files from strangers: 64 MiB each for `budget`, `memory`, `aside` and `output`.
    pub fn untrusted() -> Self {
        let most = Some(ffi::UNTRUSTED);
        Limits {
            budget: most,
            memory: most,
            aside: most,
            output: most,
            ..Limits::none()
        }
    }

    /// The window and the longest name of the command, and no other limit.
    pub fn none() -> Self {
        Limits {
            window: ffi::WINDOW,
            name: ffi::NAME,
            budget: None,
            memory: None,
            aside: None,
            output: None,
        }
    }

    /// The limits as the library takes them.
    pub(crate) fn plain(&self) -> ffi::Limits {
        let most = |limit: Option<u64>| limit.unwrap_or(ffi::NO_LIMIT);
        ffi::Limits {
            window: self.window,
            name: self.name,
            budget: most(self.budget),
            memory: most(self.memory),
            aside: most(self.aside),
        }
    }

    /// How many items of a size `output` allows, or `None` if it is no limit.
    pub(crate) fn room_for(&self, item: usize) -> Option<usize> {
        self.output
            .map(|most| usize::try_from(most).unwrap_or(usize::MAX) / item)
    }
}

impl Default for Limits {
    /// [`Limits::untrusted`].
    fn default() -> Self {
        Limits::untrusted()
    }
}

#[cfg(test)]
mod tests {
    use super::*;

    #[test]
    fn none_is_no_limit_and_zero_is_no_byte() {
        let plain = Limits {
            budget: Some(0),
            aside: Some(7),
            ..Limits::none()
        }
        .plain();
        assert_eq!(
            (plain.budget, plain.memory, plain.aside),
            (0, ffi::NO_LIMIT, 7)
        );
        assert_eq!(Limits::none().room_for(8), None);
        assert_eq!(Limits::untrusted().room_for(64), Some(1 << 20));
        assert_eq!(Limits::default(), Limits::untrusted());
    }
}
