use crate::request::unpack_answer;
use crate::sys;
use crate::{Answer, Block, Geometry};
use core::fmt;

/// The most tenants in a list of shares.
pub const MAX_TENANTS: usize = 40;

/// The share of one tenant: a range of block numbers that is its own, and how many of them it may have
/// stored. It may be in a list if the range has a block and all its numbers are blocks'.
#[derive(Clone, Copy, Debug, PartialEq, Eq, Hash)]
// Three numbers in this order, without a gap: so a list of shares is the list of numbers that the library takes.
#[repr(C)]
pub struct Share {
    /// The first block number of the range.
    pub first: u32,
    /// The last, which is still in it.
    pub last: u32,
    /// How many blocks of the range may be stored. 0 is allowed, and more than the range has too.
    pub quota: u32,
}

/// The store as one tenant sees it: its own blocks alone. Whoever is handed it can neither read, write
/// nor delete another tenant's block.
///
/// Of an image that was written only in this way, with one list of shares, since a format: a new block
/// is refused as [`Full`](Answer::Full) exactly when the tenant's own quota is used; and without a loss
/// of power nothing that others do shows in what it answers, as long as no tenant was answered
/// [`Worn`](Answer::Worn): the chip is one. So there is no step budget, and no count of steps and no
/// place come back. After a loss of power comes a [recovery](Geometry::recover), as ever; until then a
/// request may answer [`Unfinished`](Answer::Unfinished).
///
/// Refusals come in the order that [`Answer`] has.
///
#[cfg_attr(qbx_lib, doc = "```")]
#[cfg_attr(not(qbx_lib), doc = "```no_run")]
/// use qanbillox::{Answer, Block, Geometry, Share, MAX_CONTENTS, UNLIMITED};
///
/// # fn main() -> Result<(), Answer> {
/// let chip = Geometry { segments: 4, slots: 15 };
/// let mut image = vec![0; chip.image_len().unwrap()];
/// chip.format(&mut image, UNLIMITED).into_result()?;
/// let shares = [
///     Share { first: 1, last: 100, quota: 2 },
///     Share { first: 101, last: 200, quota: 42 },
/// ];
/// let mut buffer = [0; MAX_CONTENTS];
///
/// let mut first = chip.tenant(&mut image, &shares, 1);
/// first.put(Block(7), b"A1")?;
/// first.put(Block(8), b"B2")?;
/// assert_eq!(first.put(Block(9), b"C3"), Err(Answer::Full));
/// first.put(Block(8), b"C3")?;
/// assert_eq!(first.put(Block(101), b"D4"), Err(Answer::Foreign));
///
/// let mut second = chip.tenant(&mut image, &shares, 2);
/// assert_eq!(second.read(Block(7), &mut buffer), Err(Answer::Foreign));
/// second.put(Block(101), b"D4")?;
/// assert_eq!(second.read(Block(101), &mut buffer), Ok(&b"D4"[..]));
/// assert_eq!(second.read(Block(102), &mut buffer), Err(Answer::Absent));
/// # Ok(())
/// # }
/// ```
pub struct Tenant<'a> {
    chip: Geometry,
    image: &'a mut [u8],
    shares: &'a [Share],
    number: u32,
}

/// Without the image, which is long and others' too, and without their shares.
impl fmt::Debug for Tenant<'_> {
    fn fmt(&self, f: &mut fmt::Formatter<'_>) -> fmt::Result {
        let mut shown = f.debug_struct("Tenant");
        shown.field("number", &self.number).finish_non_exhaustive()
    }
}

/// Tenants.
impl Geometry {
    /// The view of the tenant at this place in the list of shares, from 1. It asks nothing of the
    /// list or the number: a request on a wrong list answers [`Shares`](Answer::Shares), one of a
    /// tenant that is not in it [`Foreign`](Answer::Foreign).
    ///
    /// A list is right if it has at most [`MAX_TENANTS`] shares, each range is from 1 to 65,534 and not
    /// empty, no two overlap, and the quotas add up to at most [`capacity`](Geometry::capacity).
    #[inline]
    pub fn tenant<'a>(self, image: &'a mut [u8], shares: &'a [Share], number: u32) -> Tenant<'a> {
        Tenant {
            chip: self,
            image,
            shares,
            number,
        }
    }
}

/// Done, or any other answer as the error.
#[inline]
fn done(packed: u64) -> Result<(), Answer> {
    match unpack_answer(packed) {
        Answer::Done => Ok(()),
        other => Err(other),
    }
}

impl Tenant<'_> {
    /// How many numbers the list of shares has: three for each tenant.
    #[inline]
    fn numbers(&self) -> usize {
        3 * self.shares.len()
    }

    /// Stores `contents`, 1 to [`MAX_CONTENTS`](crate::MAX_CONTENTS) bytes, under `block`, in place of
    /// what is stored there. A block that is stored can be rewritten whatever the quota is.
    #[inline]
    pub fn put(&mut self, block: Block, contents: &[u8]) -> Result<(), Answer> {
        // SAFETY: pointers and lengths are those of three slices that are borrowed for the call; the one
        // that is written is borrowed alone. A share is three numbers of 32 bits, without a gap.
        done(unsafe {
            sys::qbx_share_put(
                self.image.as_mut_ptr(),
                self.image.len(),
                self.chip.segments,
                self.chip.slots,
                self.shares.as_ptr().cast(),
                self.numbers(),
                self.number,
                block.0,
                contents.as_ptr(),
                contents.len(),
            )
        })
    }

    /// Removes the block.
    #[inline]
    pub fn delete(&mut self, block: Block) -> Result<(), Answer> {
        // SAFETY: as in `put`.
        done(unsafe {
            sys::qbx_share_delete(
                self.image.as_mut_ptr(),
                self.image.len(),
                self.chip.segments,
                self.chip.slots,
                self.shares.as_ptr().cast(),
                self.numbers(),
                self.number,
                block.0,
            )
        })
    }

    /// The contents of a block, copied to the front of a buffer that is lent. One that is shorter than
    /// the contents stays untouched, and the answer is [`ShortBuffer`](Answer::ShortBuffer);
    /// [`MAX_CONTENTS`](crate::MAX_CONTENTS) bytes are always enough.
    #[inline]
    pub fn read<'b>(&self, block: Block, buffer: &'b mut [u8]) -> Result<&'b [u8], Answer> {
        // SAFETY: as in `put`; the buffer is borrowed alone, so that it overlaps no other.
        let packed = unsafe {
            sys::qbx_share_read(
                self.image.as_ptr(),
                self.image.len(),
                self.chip.segments,
                self.chip.slots,
                self.shares.as_ptr().cast(),
                self.numbers(),
                self.number,
                block.0,
                buffer.as_mut_ptr(),
                buffer.len(),
            )
        };
        done(packed)?;
        Ok(&buffer[..(packed >> 8) as usize])
    }
}
