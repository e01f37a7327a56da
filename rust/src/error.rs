use core::fmt;

/// The values that a call accepts for an argument. The `Display` text follows "must be".
#[derive(Clone, Copy, Debug, PartialEq, Eq, Hash)]
#[non_exhaustive]
pub enum Bounds {
    /// A number from `min` to `max`, with both.
    Range {
        /// The least number.
        min: u64,
        /// The largest number.
        max: u64,
    },
    /// A multiple of this number, or 0.
    Multiple(u64),
    /// A multiple of this number, and not 0.
    PositiveMultiple(u64),
}

impl Bounds {
    fn accept(&self, value: u64) -> bool {
        match *self {
            Bounds::Range { min, max } => (min..=max).contains(&value),
            Bounds::Multiple(of) => value % of == 0,
            Bounds::PositiveMultiple(of) => value != 0 && value % of == 0,
        }
    }
}

impl fmt::Display for Bounds {
    fn fmt(&self, f: &mut fmt::Formatter<'_>) -> fmt::Result {
        match self {
            Bounds::Range { min, max } if min == max => write!(f, "{min}"),
            Bounds::Range { min, max } => write!(f, "{min} to {max}"),
            Bounds::Multiple(of) => write!(f, "a multiple of {of}"),
            Bounds::PositiveMultiple(of) => write!(f, "a positive multiple of {of}"),
        }
    }
}

/// The error of an argument that a call does not accept. If several are wrong, it names one.
///
/// It holds no byte of a key or a message. With the feature `std`, `?` also converts it to a
/// [`std::io::Error`] of the kind `InvalidInput`.
///
/// ```
/// use vulfsjor::{Bounds, Params};
///
/// let error = Params::new().output_size(65).blake2b().unwrap_err();
/// assert_eq!(error.to_string(), "output_size is 65, and must be 1 to 64");
/// assert_eq!((error.argument(), error.value()), ("output_size", 65));
/// assert_eq!(error.bounds(), Bounds::Range { min: 1, max: 64 });
/// ```
#[derive(Clone, Copy, Debug, PartialEq, Eq, Hash)]
pub struct InvalidArgument {
    argument: &'static str,
    value: u64,
    bounds: Bounds,
}

impl InvalidArgument {
    /// Returns the name of the argument: `output_size`, `key.len()`, `salt.len()`,
    /// `persona.len()`, `leaf_length`, `tree.depth` and so on.
    #[must_use]
    #[inline]
    pub fn argument(&self) -> &'static str {
        self.argument
    }

    /// Returns the number that was passed. A flag is 1 if it was set.
    #[must_use]
    #[inline]
    pub fn value(&self) -> u64 {
        self.value
    }

    /// Returns the numbers that the call accepts, given its other arguments.
    #[must_use]
    #[inline]
    pub fn bounds(&self) -> Bounds {
        self.bounds
    }

    // The result of a call of the library that returned this status. `explain` finds the argument
    // that was refused.
    pub(crate) fn ok_if_status_is_zero(
        status: i32,
        explain: impl FnOnce() -> Result<(), Self>,
    ) -> Result<(), Self> {
        match status {
            0 => Ok(()),
            _ => Err(explain().expect_err("the library refuses nothing else")),
        }
    }
}

impl fmt::Display for InvalidArgument {
    fn fmt(&self, f: &mut fmt::Formatter<'_>) -> fmt::Result {
        let InvalidArgument {
            argument,
            value,
            bounds,
        } = self;
        write!(f, "{argument} is {value}, and must be {bounds}")
    }
}

#[cfg(feature = "std")]
impl std::error::Error for InvalidArgument {}

#[cfg(feature = "std")]
impl From<InvalidArgument> for std::io::Error {
    #[inline]
    fn from(error: InvalidArgument) -> Self {
        std::io::Error::new(std::io::ErrorKind::InvalidInput, error)
    }
}

/// The error of text that is not the hexadecimal digits of a digest.
///
/// ```
/// use vulfsjor::{Digest, HexError};
///
/// let error = Digest::from_hex("a0b").unwrap_err();
/// assert_eq!(error, HexError::Length(3));
/// assert_eq!(error.to_string(), "3 hexadecimal digits, and not an even number from 2 to 128");
/// let error = "0x".parse::<Digest>().unwrap_err();
/// assert_eq!(error, HexError::Digit { index: 1, byte: b'x' });
/// assert_eq!(error.to_string(), "the byte 0x78 at index 1 is not a hexadecimal digit");
/// ```
#[derive(Clone, Copy, Debug, PartialEq, Eq, Hash)]
#[non_exhaustive]
pub enum HexError {
    /// The number of bytes in the text is odd, 0 or more than 128.
    Length(usize),
    /// A byte of the text is not a hexadecimal digit. It is the first such byte.
    Digit {
        /// Its index in the text, from 0.
        index: usize,
        /// Its value.
        byte: u8,
    },
}

impl fmt::Display for HexError {
    fn fmt(&self, f: &mut fmt::Formatter<'_>) -> fmt::Result {
        match self {
            HexError::Length(length) => write!(
                f,
                "{length} hexadecimal digits, and not an even number from 2 to 128"
            ),
            HexError::Digit { index, byte } => write!(
                f,
                "the byte {byte:#04x} at index {index} is not a hexadecimal digit"
            ),
        }
    }
}

#[cfg(feature = "std")]
impl std::error::Error for HexError {}

/// The error of a tag that is not the message's.
#[derive(Clone, Copy, Debug, PartialEq, Eq, Hash)]
pub struct MacError;

impl fmt::Display for MacError {
    fn fmt(&self, f: &mut fmt::Formatter<'_>) -> fmt::Result {
        f.write_str("a wrong tag")
    }
}

#[cfg(feature = "std")]
impl std::error::Error for MacError {}

/// The error of saving a hasher that has a key: the bytes would be as good as the key.
#[derive(Clone, Copy, Debug, PartialEq, Eq, Hash)]
pub struct KeyedState;

impl fmt::Display for KeyedState {
    fn fmt(&self, f: &mut fmt::Formatter<'_>) -> fmt::Result {
        f.write_str("a hasher with a key is not saved")
    }
}

#[cfg(feature = "std")]
impl std::error::Error for KeyedState {}

/// The error of bytes that are not a saved state of the hash.
#[derive(Clone, Copy, Debug, PartialEq, Eq, Hash)]
pub struct InvalidState;

impl fmt::Display for InvalidState {
    fn fmt(&self, f: &mut fmt::Formatter<'_>) -> fmt::Result {
        f.write_str("not a saved state of this hash")
    }
}

#[cfg(feature = "std")]
impl std::error::Error for InvalidState {}

// An error unless the argument is within these bounds.
pub(crate) fn check(
    argument: &'static str,
    value: u64,
    bounds: Bounds,
) -> Result<(), InvalidArgument> {
    let error = InvalidArgument {
        argument,
        value,
        bounds,
    };
    bounds.accept(value).then_some(()).ok_or(error)
}

pub(crate) fn check_range(
    argument: &'static str,
    value: u64,
    min: u64,
    max: u64,
) -> Result<(), InvalidArgument> {
    check(argument, value, Bounds::Range { min, max })
}

pub(crate) fn check_equal(
    argument: &'static str,
    value: u64,
    wanted: u64,
) -> Result<(), InvalidArgument> {
    check_range(argument, value, wanted, wanted)
}
