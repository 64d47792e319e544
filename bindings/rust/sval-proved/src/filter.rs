//! JSON with fields dropped or kept by their paths.

use crate::error::Error;
use crate::ffi;
use crate::in_vec;

/// What becomes of the fields that paths name.
#[derive(Clone, Copy, Debug, PartialEq, Eq)]
pub enum Rule {
    /// They are dropped, and the others stay.
    Drop,
    /// They stay, and the others are dropped.
    Keep,
}

/// JSON without white space, with fields dropped or kept. A path is the names of fields from the outermost in, with dots
/// between them.
///
/// ```
/// use sval_proved::{filter, Rule};
///
/// let json = br#"{"user": {"name": "a", "key": 1}}"#;
/// assert_eq!(filter(json, Rule::Drop, &["user.key"])?, br#"{"user":{"name":"a"}}"#);
/// # Ok::<(), sval_proved::Error>(())
/// ```
///
/// # Errors
///
/// [`Error::BadPath`], and those of [`check`](crate::check).
pub fn filter(input: &[u8], rule: Rule, paths: &[&str]) -> Result<Vec<u8>, Error> {
    let lines = lines_of(paths)?;
    let call = |input: &[u8], out: &mut [u8]| ffi::filter(input, rule, &lines, out);
    in_vec(call, input, input.len())
}

/// Does what [`filter`] does, and answers how many bytes of `out` were written.
///
/// # Errors
///
/// Those of [`filter`], and [`Error::TooShort`]. Any error leaves `out` as it was.
pub fn filter_into(
    input: &[u8],
    rule: Rule,
    paths: &[&str],
    out: &mut [u8],
) -> Result<usize, Error> {
    ffi::filter(input, rule, &lines_of(paths)?, out)
}

/// The paths, each on a line. A path with a line feed would be two.
fn lines_of(paths: &[&str]) -> Result<Vec<u8>, Error> {
    let mut lines = Vec::new();
    for (at, path) in paths.iter().enumerate() {
        if path.contains('\n') {
            return Err(Error::BadPath {
                path: at as u64 + 1,
            });
        }
        lines.extend_from_slice(path.as_bytes());
        lines.push(b'\n');
    }
    Ok(lines)
}
