//! Images of format 2 gathered for a tape store, and back.

use crate::calls;
use crate::refusal::Refusal;

/// Gathers an image of 2,064 bytes a sector for a tape store. Of its whole sectors `out` gets all heads
/// (12 bytes each), then all data (2,048), then all tails (4), each in the sectors' order; the rest of the
/// image, shorter than a sector, stays in its place. Any bytes are such an image, of any length, and all of
/// `out` is written.
///
/// Refused by 20 if `out` is not as long as the image; then it is left as it was.
///
/// ```
/// use scarletbook::{Refusal, gather};
///
/// let sector = |head, data, tail| [vec![head; 12], vec![data; 2048], vec![tail; 4]].concat();
/// let image = [sector(1, 2, 3), sector(4, 5, 6), vec![7; 100]].concat();
/// let mut out = vec![0; image.len()];
/// assert_eq!(gather(&image, &mut out), Ok(()));
/// let heads = [[1; 12], [4; 12]].concat();
/// let data = [[2; 2048], [5; 2048]].concat();
/// let tails = [[3; 4], [6; 4]].concat();
/// assert_eq!(out, [heads, data, tails, vec![7; 100]].concat());
///
/// let mut short = [9; 10];
/// assert_eq!(gather(&image, &mut short), Err(Refusal::UnequalLengths));
/// assert_eq!(short, [9; 10]);
/// ```
pub fn gather(image: &[u8], out: &mut [u8]) -> Result<(), Refusal> {
    Refusal::check(calls::gather_sectors(image, out))
}

/// The way back: `out` gets the image whose gathered bytes these are. Any bytes are, of just one image, so
/// [`gather`] and this each undo the other. All of `out` is written.
///
/// Refused by 20 if `out` is not as long as the bytes; then it is left as it was.
///
/// ```
/// use scarletbook::{Refusal, gather, scatter};
///
/// // Two sectors and a rest of 100 bytes.
/// let image: Vec<u8> = (0..2 * 2064 + 100).map(|at| (at % 251) as u8).collect();
/// let (mut gathered, mut back) = (vec![0; image.len()], vec![0; image.len()]);
/// gather(&image, &mut gathered)?;
/// scatter(&gathered, &mut back)?;
/// assert_eq!(back, image);
///
/// let mut long = vec![9; image.len() + 1];
/// assert_eq!(scatter(&gathered, &mut long), Err(Refusal::UnequalLengths));
/// assert_eq!(long, vec![9; image.len() + 1]);
/// # Ok::<(), Refusal>(())
/// ```
pub fn scatter(bytes: &[u8], out: &mut [u8]) -> Result<(), Refusal> {
    Refusal::check(calls::scatter_sectors(bytes, out))
}
