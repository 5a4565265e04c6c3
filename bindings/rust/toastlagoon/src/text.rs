use std::fmt;

use toastlagoon_sys as sys;

use crate::error::Error;

/// The text that a call writes to an output of so many bytes. What it returns is a length where it is 0 or at least `least`,
/// and a refusal else.
pub(crate) fn written(size: usize, least: usize, call: impl FnOnce(*mut u8, usize) -> u32) -> Result<String, Error> {
    let mut out = vec![0; size];
    let returned = call(out.as_mut_ptr(), out.len());
    let length = returned as usize;
    if length != 0 && length < least {
        return Err(Error::of(returned));
    }
    out.truncate(length);
    Ok(String::from_utf8_lossy(&out).into_owned())
}

/// What a call returns that is shown too little room: that is said only where the memory is well-formed.
pub(crate) fn well_formed(answer: u32) -> Result<(), Error> {
    match answer {
        sys::TL_OUTPUT_TOO_SMALL => Ok(()),
        refused => Err(Error::of(refused)),
    }
}

macro_rules! text {
    ($(#[$doc:meta])* $name:ident) => {
        $(#[$doc])*
        #[derive(Clone, Debug, PartialEq, Eq, Hash)]
        pub struct $name(pub(crate) String);

        impl $name {
            /// The text, in ASCII.
            pub fn as_str(&self) -> &str {
                &self.0
            }

            /// Whether the text has no byte.
            pub fn is_empty(&self) -> bool {
                self.0.is_empty()
            }
        }

        impl AsRef<str> for $name {
            fn as_ref(&self) -> &str {
                &self.0
            }
        }

        impl fmt::Display for $name {
            fn fmt(&self, f: &mut fmt::Formatter<'_>) -> fmt::Result {
                f.write_str(&self.0)
            }
        }
    };
}

text! {
    /// The board of a register: its transmissions and their fixes, a line each. Empty where none is shown.
    Board
}
text! {
    /// The map of a register: a FeatureCollection of GeoJSON in one line, without a line feed at its end.
    Map
}
text! {
    /// The listing of a track.
    Listing
}
