//! The two proved calls, and what makes them safe to use from Rust.

use crate::Refusal;

/// The most bytes that a listing may have: the answer of a call tells its length below 65,536.
pub const LONGEST_LISTING: usize = 65_535;

/// Answers from here on are refusals: this much and the refusal's number.
const REFUSED: u32 = 65_536;

// A slice crosses as a pointer and then a length.
unsafe extern "C" {
    fn rowlist_check(file_ptr: *const u8, file_len: usize) -> u32;

    fn rowlist_compare(
        left_ptr: *const u8,
        left_len: usize,
        right_ptr: *const u8,
        right_len: usize,
        listing_ptr: *mut u8,
        listing_len: usize,
    ) -> u32;
}

/// Is this a good filter file? The first byte says of which family; all three are taken.
///
/// ```
/// use rowlist_host::{Refusal, check};
///
/// // No clause; everything is accepted.
/// assert_eq!(check(&[1, 0, 1]), Ok(()));
/// // One clause is announced, and the file ends.
/// assert_eq!(check(&[1, 1]), Err(Refusal::Short));
/// ```
///
/// # Errors
///
/// The first fault of the file, one of 12 to 18.
///
/// # Panics
///
/// If the linked library answers what the proved one never does.
pub fn check(file: &[u8]) -> Result<(), Refusal> {
    // SAFETY: pointer and length are those of a slice that is borrowed until the call is over, and the call only reads.
    match unsafe { rowlist_check(file.as_ptr(), file.len()) } {
        0 => Ok(()),
        answer => Err(refusal(answer)),
    }
}

/// The routes that two filters of prefix ranges treat unlike: the listing, as `docs/FORMATS.md` describes it.
///
/// ```
/// use rowlist_host::compare;
///
/// // Both reject routes under 20.0.0.0/8, the left one with lengths 8 to 24, the right one with lengths 8 to 16, and accept
/// // all others.
/// let left = [1, 1, 0x0B, 20, 0, 0, 0, 8, 24, 0, 1];
/// let right = [1, 1, 0x0B, 20, 0, 0, 0, 8, 16, 0, 1];
/// assert_eq!(compare(&left, &right)?, "rows 1\n0 d 20.0.0.0/8 8-24 - 20.0.0.0/8 8-16\n");
///
/// assert_eq!(compare(&left, &left)?, "rows 0\n");
/// # Ok::<(), rowlist_host::Refusal>(())
/// ```
///
/// # Errors
///
/// The first fault of the left file; then that of the right file; then why the comparison was declined; then 19 if the listing
/// is longer than [`LONGEST_LISTING`]. Files of other families than prefix ranges are refused with 13.
///
/// # Panics
///
/// If the linked library answers what the proved one never does.
pub fn compare(left: &[u8], right: &[u8]) -> Result<String, Refusal> {
    let mut listing = vec![0; LONGEST_LISTING];
    let length = compare_into(left, right, &mut listing)?;
    listing.truncate(length);
    Ok(String::from_utf8(listing).expect("the proved call writes ASCII"))
}

/// The same as [`compare`], into a buffer of the caller: the listing is put to its front and its length is answered. Bytes behind
/// the listing stay as they were, and if the call refuses, all of them do.
///
/// # Errors
///
/// As [`compare`], and 19 also if the listing is longer than the buffer.
///
/// # Panics
///
/// If the linked library answers what the proved one never does.
pub fn compare_into(left: &[u8], right: &[u8], listing: &mut [u8]) -> Result<usize, Refusal> {
    // SAFETY: pointers and lengths are those of slices that are borrowed until the call is over; the call reads two of
    // them and writes to the third, which is borrowed as mutable and so overlaps neither.
    let answer = unsafe {
        rowlist_compare(left.as_ptr(), left.len(), right.as_ptr(), right.len(), listing.as_mut_ptr(), listing.len())
    };
    match usize::try_from(answer) {
        Ok(length) if answer < REFUSED && length <= listing.len() => Ok(length),
        _ => Err(refusal(answer)),
    }
}

/// The refusal that an answer tells.
fn refusal(answer: u32) -> Refusal {
    answer
        .checked_sub(REFUSED)
        .and_then(Refusal::from_number)
        .unwrap_or_else(|| panic!("the linked library answered {answer}, which the proved one never does"))
}
