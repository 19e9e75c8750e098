use crate::request::unpack_answer;
use crate::sys;
use crate::{Answer, Block, Geometry, Outcome, Read};
use core::fmt;

/// The entries that a table of places has at least: one for each block number, 256 KiB in all.
pub const PLACES: usize = 65_536;

/// A store that is mounted: an image together with a table of places, which says where each block
/// is. Requests on it answer, count and write as those of [`Geometry`] do, but do not go over the
/// whole image: a [`read`](Mounted::read) looks at a few bytes, whatever the size of the chip.
///
/// [`Geometry::mount`] makes it. It borrows the image and the table until it is dropped, so that
/// nobody else writes to either, and the table stays right. Image and table are lent; it allocates
/// nothing and has no other state.
///
/// # After a power cut
///
/// Once a request has answered [`Cut`](Answer::Cut), also with a budget of 0, the table is unusable.
/// All further requests answer [`Unfinished`](Answer::Unfinished) (where no wrong number or length
/// comes before it) and change nothing. Drop the store, recover, and mount again. After a loss of
/// power that took the program with it, begin with a recovery and a mount as well, whatever the
/// table still holds:
///
#[cfg_attr(qbx_lib, doc = "```")]
#[cfg_attr(not(qbx_lib), doc = "```no_run")]
/// use qanbillox::{Answer, Block, Geometry, PLACES, UNLIMITED};
///
/// # fn main() -> Result<(), Answer> {
/// let chip = Geometry { segments: 4, slots: 15 };
/// let mut image = vec![0; chip.image_len().unwrap()];
/// let mut places = vec![0; PLACES];
/// chip.format(&mut image, UNLIMITED).into_result()?;
///
/// let mut store = chip.mount(&mut image, &mut places)?;
/// assert_eq!(store.put(Block(7), b"A1", UNLIMITED).into_result()?, 7);
///
/// // The power goes after three steps of a rewrite.
/// assert_eq!(store.put(Block(7), b"B2", 3).answer, Answer::Cut);
/// assert_eq!(store.read(Block(7)).answer, Answer::Unfinished);
/// assert_eq!(store.put(Block(8), b"C3", UNLIMITED).answer, Answer::Unfinished);
///
/// // The store is not used any more, so that the image is free again.
/// assert_eq!(chip.recover(&mut image, UNLIMITED).into_result()?, 1);
/// let store = chip.mount(&mut image, &mut places)?;
/// assert_eq!(store.read(Block(7)).into_result()?, b"A1");
/// # Ok(())
/// # }
/// ```
pub struct Mounted<'a> {
    chip: Geometry,
    image: &'a mut [u8],
    places: &'a mut [u32],
}

/// The chip alone: image and table are long.
impl fmt::Debug for Mounted<'_> {
    fn fmt(&self, f: &mut fmt::Formatter<'_>) -> fmt::Result {
        let mut shown = f.debug_struct("Mounted");
        shown.field("chip", &self.chip).finish_non_exhaustive()
    }
}

/// Mounting.
impl Geometry {
    /// Fills the table of places from the image and gives the store that uses both. It goes over the
    /// image once to see its state, and once over the slots in use.
    ///
    /// `places` may hold anything before; entries past the first [`PLACES`] stay as they are. A
    /// table with fewer answers [`ShortTable`](Answer::ShortTable). The image has to be clean:
    /// otherwise the answer is [`Damaged`](Answer::Damaged) or [`Unfinished`](Answer::Unfinished),
    /// and the table's contents mean nothing. The image is not written.
    ///
    #[cfg_attr(qbx_lib, doc = "```")]
    #[cfg_attr(not(qbx_lib), doc = "```no_run")]
    /// use qanbillox::{Answer, Block, Geometry, PLACES, UNLIMITED};
    ///
    /// # fn main() -> Result<(), Answer> {
    /// let chip = Geometry { segments: 16, slots: 255 };
    /// let mut image = vec![0xFF; chip.image_len().unwrap()];
    /// let mut places = vec![0; PLACES];
    /// assert_eq!(chip.mount(&mut image, &mut places).err(), Some(Answer::Damaged));
    ///
    /// chip.format(&mut image, UNLIMITED).into_result()?;
    /// let mut store = chip.mount(&mut image, &mut places)?;
    /// for tenant in 1..=40 {
    ///     store.put(Block(tenant), b"a shelf", UNLIMITED).into_result()?;
    /// }
    /// assert_eq!(store.delete(Block(31), UNLIMITED).into_result()?, 1);
    /// assert_eq!(store.read(Block(12)).into_result()?, b"a shelf");
    /// assert_eq!(store.read(Block(31)).answer, Answer::Absent);
    ///
    /// // The image is what the requests without a table would have made.
    /// assert_eq!(chip.read(&image, Block(12)).into_result()?, b"a shelf");
    /// assert_eq!(chip.mount(&mut image, &mut places[1..]).err(), Some(Answer::ShortTable));
    /// # Ok(())
    /// # }
    /// ```
    pub fn mount<'a>(
        self,
        image: &'a mut [u8],
        places: &'a mut [u32],
    ) -> Result<Mounted<'a>, Answer> {
        // SAFETY: pointers and lengths are those of two slices that are borrowed for the call; the
        // one that is written is borrowed alone.
        let packed = unsafe {
            sys::qbx_mount(
                image.as_ptr(),
                image.len(),
                self.segments,
                self.slots,
                places.as_mut_ptr(),
                places.len(),
            )
        };
        match unpack_answer(packed) {
            Answer::Done => Ok(Mounted {
                chip: self,
                image,
                places,
            }),
            refused => Err(refused),
        }
    }
}

impl Mounted<'_> {
    /// Stores `contents` under `block`, as [`Geometry::put`] does.
    ///
    #[cfg_attr(qbx_lib, doc = "```")]
    #[cfg_attr(not(qbx_lib), doc = "```no_run")]
    /// # use qanbillox::{Answer, Block, Geometry, PLACES, UNLIMITED};
    /// # fn main() -> Result<(), Answer> {
    /// # let chip = Geometry { segments: 2, slots: 2 };
    /// # let (mut image, mut places) = (vec![0; chip.image_len().unwrap()], vec![0; PLACES]);
    /// # chip.format(&mut image, UNLIMITED).into_result()?;
    /// let mut store = chip.mount(&mut image, &mut places)?;
    /// assert_eq!(store.put(Block(7), b"a", UNLIMITED).into_result()?, 6);
    /// assert_eq!(store.put(Block(8), b"b", UNLIMITED).answer, Answer::Full);
    /// # Ok(())
    /// # }
    /// ```
    #[inline]
    pub fn put(&mut self, block: Block, contents: &[u8], budget: u64) -> Outcome {
        // SAFETY: pointers and lengths are those of three slices that are borrowed for the call; the
        // two that are written are borrowed alone.
        Outcome::unpack(unsafe {
            sys::qbx_mounted_put(
                self.image.as_mut_ptr(),
                self.image.len(),
                self.chip.segments,
                self.chip.slots,
                self.places.as_mut_ptr(),
                self.places.len(),
                block.0,
                contents.as_ptr(),
                contents.len(),
                budget,
            )
        })
    }

    /// Removes the block, as [`Geometry::delete`] does.
    ///
    #[cfg_attr(qbx_lib, doc = "```")]
    #[cfg_attr(not(qbx_lib), doc = "```no_run")]
    /// # use qanbillox::{Answer, Block, Geometry, PLACES, UNLIMITED};
    /// # fn main() -> Result<(), Answer> {
    /// # let chip = Geometry { segments: 2, slots: 2 };
    /// # let (mut image, mut places) = (vec![0; chip.image_len().unwrap()], vec![0; PLACES]);
    /// # chip.format(&mut image, UNLIMITED).into_result()?;
    /// let mut store = chip.mount(&mut image, &mut places)?;
    /// store.put(Block(7), b"a", UNLIMITED).into_result()?;
    /// assert_eq!(store.delete(Block(7), UNLIMITED).into_result()?, 1);
    /// assert_eq!(store.delete(Block(7), UNLIMITED).answer, Answer::Absent);
    /// # Ok(())
    /// # }
    /// ```
    #[inline]
    pub fn delete(&mut self, block: Block, budget: u64) -> Outcome {
        // SAFETY: pointers and lengths are those of two slices that are borrowed alone for the call.
        Outcome::unpack(unsafe {
            sys::qbx_mounted_delete(
                self.image.as_mut_ptr(),
                self.image.len(),
                self.chip.segments,
                self.chip.slots,
                self.places.as_mut_ptr(),
                self.places.len(),
                block.0,
                budget,
            )
        })
    }

    /// Finds the contents of the block, as [`Geometry::read`] does. They are a piece of the image.
    ///
    #[cfg_attr(qbx_lib, doc = "```")]
    #[cfg_attr(not(qbx_lib), doc = "```no_run")]
    /// # use qanbillox::{Answer, Block, Geometry, PLACES, UNLIMITED};
    /// # fn main() -> Result<(), Answer> {
    /// # let chip = Geometry { segments: 2, slots: 2 };
    /// # let (mut image, mut places) = (vec![0; chip.image_len().unwrap()], vec![0; PLACES]);
    /// # chip.format(&mut image, UNLIMITED).into_result()?;
    /// let mut store = chip.mount(&mut image, &mut places)?;
    /// store.put(Block(7), b"a", UNLIMITED).into_result()?;
    /// assert_eq!(store.read(Block(7)).into_result()?, b"a");
    /// assert_eq!(store.read(Block(8)).answer, Answer::Absent);
    /// # Ok(())
    /// # }
    /// ```
    #[inline]
    pub fn read(&self, block: Block) -> Read<'_> {
        // SAFETY: pointers and lengths are those of two slices that are borrowed for the call.
        let packed = unsafe {
            sys::qbx_mounted_read(
                self.image.as_ptr(),
                self.image.len(),
                self.chip.segments,
                self.chip.slots,
                self.places.as_ptr(),
                self.places.len(),
                block.0,
            )
        };
        Read::unpack(packed, self.image)
    }

    /// The image, to be looked at or copied to the chip.
    pub fn image(&self) -> &[u8] {
        self.image
    }
}
