//! The capture that a name on the command line stands for.

use std::borrow::Cow;
use std::ffi::OsStr;
use std::fs::File;
use std::io::{self, Read};

/// The name that stands for standard input.
pub const STANDARD_INPUT: &str = "-";

/// Opens the capture.
pub fn open(name: &OsStr) -> io::Result<Box<dyn Read>> {
    if name == STANDARD_INPUT {
        Ok(Box::new(io::stdin().lock()))
    } else {
        Ok(Box::new(File::open(name)?))
    }
}

/// What a message calls the capture.
pub fn called(name: &OsStr) -> Cow<'_, str> {
    if name == STANDARD_INPUT {
        "standard input".into()
    } else {
        name.to_string_lossy()
    }
}

#[cfg(test)]
mod tests {
    use super::*;

    #[test]
    fn names() {
        assert_eq!(called("-".as_ref()), "standard input");
        assert!(open("-".as_ref()).is_ok());
        for name in ["", "--", "./-", "no such capture"] {
            assert_eq!(called(name.as_ref()), name);
            assert!(open(name.as_ref()).is_err());
        }
    }
}
