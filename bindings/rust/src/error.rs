//! Why a call returned nothing, or not everything.

use crate::fault::Fault;
use crate::ffi;
use crate::records::Status;
use std::fmt;

/// Why a call returned nothing, or not everything. `T` is what precedes the error.
#[non_exhaustive]
pub enum Error<T = ()> {
    /// An error in the file, and what precedes it.
    Fault(Fault, T),
    /// A limit is reached, and what precedes it. The kind says which limit: `Budget`, `MemoryLimit`, `AsideLimit` or
    /// `CopyBudget`.
    Limit(Fault, T),
    /// The next row or line would pass this `output` of the limits, and the rows or lines before it.
    OutputLimit(u64, T),
    /// An argument is wrong: limits, or types of streams.
    BadArgument(Fault),
    /// The library is out of memory.
    NoMemory,
}

impl<T> Error<T> {
    /// The numbers of the error, or `None` for `OutputLimit` and `NoMemory`.
    pub fn fault(&self) -> Option<&Fault> {
        match self {
            Error::Fault(fault, _) | Error::Limit(fault, _) | Error::BadArgument(fault) => {
                Some(fault)
            }
            Error::OutputLimit(..) | Error::NoMemory => None,
        }
    }

    /// What precedes the error, or `None` for `BadArgument` and `NoMemory`.
    pub fn into_partial(self) -> Option<T> {
        match self {
            Error::Fault(_, partial)
            | Error::Limit(_, partial)
            | Error::OutputLimit(_, partial) => Some(partial),
            Error::BadArgument(_) | Error::NoMemory => None,
        }
    }

    /// The error without what precedes it.
    pub fn without_partial(self) -> Error {
        match self {
            Error::Fault(fault, _) => Error::Fault(fault, ()),
            Error::Limit(fault, _) => Error::Limit(fault, ()),
            Error::OutputLimit(most, _) => Error::OutputLimit(most, ()),
            Error::BadArgument(fault) => Error::BadArgument(fault),
            Error::NoMemory => Error::NoMemory,
        }
    }
}

impl<T> fmt::Display for Error<T> {
    fn fmt(&self, f: &mut fmt::Formatter<'_>) -> fmt::Result {
        match (self, self.fault()) {
            (_, Some(fault)) => fault.fmt(f),
            (Error::OutputLimit(most, _), _) => write!(
                f,
                "output limit of {most} bytes reached: Limits::none() lifts all limits"
            ),
            _ => f.write_str("out of memory"),
        }
    }
}

impl<T> fmt::Debug for Error<T> {
    // What precedes the error may be long, and is left out.
    fn fmt(&self, f: &mut fmt::Formatter<'_>) -> fmt::Result {
        match self {
            Error::Fault(fault, _) => write!(f, "Fault({fault:?}, ..)"),
            Error::Limit(fault, _) => write!(f, "Limit({fault:?}, ..)"),
            Error::OutputLimit(most, _) => write!(f, "OutputLimit({most}, ..)"),
            Error::BadArgument(fault) => f.debug_tuple("BadArgument").field(fault).finish(),
            Error::NoMemory => f.write_str("NoMemory"),
        }
    }
}

impl<T> std::error::Error for Error<T> {}

/// What a call returned, as a result. If the library is out of memory, it returns nothing.
pub(crate) fn ended<T>(status: u32, fault: ffi::Fault, given: T) -> Result<T, Error<T>> {
    match Status::from(status) {
        Status::Ok => Ok(given),
        Status::BadArgument => Err(Error::BadArgument(Fault(fault))),
        Status::Limit => Err(Error::Limit(Fault(fault), given)),
        Status::NoMemory => Err(Error::NoMemory),
        _ => Err(Error::Fault(Fault(fault), given)),
    }
}

#[cfg(test)]
mod tests {
    use super::*;

    #[test]
    fn want_of_memory_is_told() {
        let error = ended(3, ffi::Fault::default(), Vec::<u8>::new()).unwrap_err();
        assert_eq!(
            (error.to_string().as_str(), error.fault()),
            ("out of memory", None)
        );
        assert_eq!(format!("{error:?}"), "NoMemory");
        assert_eq!(error.into_partial(), None);
    }

    #[test]
    fn limits_are_told_apart() {
        let raw = ffi::Fault {
            kind: 72,
            size: 5,
            high: 1,
            ..ffi::Fault::default()
        };
        let error = ended(5, raw, vec![1]).unwrap_err();
        assert!(matches!(error, Error::Limit(..)));
        assert_eq!(error.fault().unwrap().size(), (1 << 64) + 5);
        assert_eq!(error.into_partial(), Some(vec![1]));
        let error = Error::OutputLimit(9, "one\n");
        assert_eq!(
            error.to_string(),
            "output limit of 9 bytes reached: Limits::none() lifts all limits"
        );
        assert_eq!(format!("{error:?}"), "OutputLimit(9, ..)");
        assert_eq!(error.fault(), None);
        assert_eq!(error.into_partial(), Some("one\n"));
    }
}
