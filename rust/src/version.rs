//! The version of the package, held against the archive's before the archive is called.

use crate::archive;
use crate::refusal::{Refusal, BAD_VERSION};

/// The version of this package as one number: 10,000 times its first part, 100 times its second and its third. 0.6.0 is 600.
pub const VERSION: u32 = 10_000 * number(env!("CARGO_PKG_VERSION_MAJOR"))
    + 100 * number(env!("CARGO_PKG_VERSION_MINOR"))
    + number(env!("CARGO_PKG_VERSION_PATCH"));

const fn number(digits: &str) -> u32 {
    let (digits, mut value, mut i) = (digits.as_bytes(), 0, 0);
    while i < digits.len() {
        value = 10 * value + (digits[i] - b'0') as u32;
        i += 1;
    }
    value
}

/// Whether lists and answers mean the same in both: the third part alone may differ.
const fn fits(archive: u32, package: u32) -> bool {
    archive / 100 == package / 100
}

/// The version of the archive that is linked, as one number, like [`VERSION`].
///
/// ```
/// println!("archive {}, package {}", juplatsk::archive_version(), juplatsk::VERSION);
/// ```
pub fn archive_version() -> u32 {
    archive::version()
}

/// Refused by 101 if the archive that is linked is of another version than this package, but for the third part.
///
/// Every function looks itself before it calls the archive; this one tells at once.
///
/// ```
/// juplatsk::check_version()?;
/// assert_eq!(juplatsk::archive_version() / 100, juplatsk::VERSION / 100);
/// # Ok::<(), juplatsk::Refusal>(())
/// ```
pub fn check_version() -> Result<(), Refusal> {
    match archive_version() {
        archive if fits(archive, VERSION) => Ok(()),
        archive => Err(Refusal::new(BAD_VERSION, archive, VERSION)),
    }
}

#[cfg(test)]
mod tests {
    use super::*;

    #[test]
    fn parts() {
        assert_eq!((number("0"), number("10"), number("207")), (0, 10, 207));
        assert!(fits(200, 200) && fits(207, 200) && fits(10_000, 10_099));
        assert!(!fits(199, 200) && !fits(300, 200) && !fits(10_200, 200));
    }
}
