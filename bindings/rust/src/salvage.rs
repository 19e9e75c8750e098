use crate::request::unpack_answer;
use crate::sys;
use crate::{Answer, Geometry, Outcome};
#[cfg(feature = "alloc")]
use alloc::{string::String, vec, vec::Vec};

/// What a salvage into a buffer gives back.
#[derive(Clone, Copy, Debug, PartialEq, Eq, Hash)]
#[must_use = "the salvage may be refused"]
pub struct Salvage {
    /// [`Done`](Answer::Done), [`Size`](Answer::Size) or [`ShortBuffer`](Answer::ShortBuffer), never
    /// another.
    pub answer: Answer,
    /// How many bytes the text has, from the buffer's first on; 0 if the salvage is refused.
    pub length: usize,
}

impl Salvage {
    /// The length of a text that is written; a refusal is the error.
    pub fn into_result(self) -> Result<usize, Answer> {
        match self.answer {
            Answer::Done => Ok(self.length),
            other => Err(other),
        }
    }

    /// From `answer + 256 × length`.
    fn unpack(packed: u64) -> Salvage {
        Salvage {
            answer: unpack_answer(packed),
            length: (packed >> 8) as usize,
        }
    }
}

/// Salvage: what can still be found in a damaged image, for people and for tools.
///
/// Looked at is every slot of live form in a segment whose header is in use, of either version, and
/// whatever else is wrong with the image; but where the segment with the largest number of all in use
/// still owes an erase, the one at the index after it is left aside. Of several slots with one block
/// number the one in the segment with the largest number is given, within a segment the last.
///
/// Which contents of a damaged image were acknowledged cannot be told: the report's first line is
/// `salvage promises nothing`. Then comes a line for each block number, by rising number, as
/// `block 7 len 2 seg 0 slot 1 same`, with the segment's index; `differs` stands for `same` where
/// another of the slots with this number has other contents, in length or bytes. Each line ends with
/// 0A.
///
/// Of a clean image this is what is stored, all `same`, and of an unfinished one what
/// [`recover`](Geometry::recover) would leave.
impl Geometry {
    /// Writes the report to the front of `text`. What follows it there is untouched, and so is all of
    /// the buffer if the salvage is refused: with [`Size`](Answer::Size), or with
    /// [`ShortBuffer`](Answer::ShortBuffer) if the report is longer than the buffer.
    /// [`salvage_len`](Geometry::salvage_len) bytes are always enough.
    ///
    /// It takes some 390 KiB of stack, for tables that put the blocks in order.
    ///
    #[cfg_attr(qbx_lib, doc = "```")]
    #[cfg_attr(not(qbx_lib), doc = "```no_run")]
    /// use qanbillox::{Answer, Geometry};
    ///
    /// // Nothing is found on a chip that was never formatted.
    /// let chip = Geometry { segments: 4, slots: 15 };
    /// let image = vec![0xFF; chip.image_len().unwrap()];
    /// let mut text = *b"...........................";
    /// let salvage = chip.salvage_into(&image, &mut text);
    /// assert_eq!((salvage.answer, salvage.length), (Answer::Done, 25));
    /// assert_eq!(&text, b"salvage promises nothing\n..");
    ///
    /// let salvage = chip.salvage_into(&image, &mut text[..24]);
    /// assert_eq!((salvage.answer, salvage.length), (Answer::ShortBuffer, 0));
    /// let salvage = chip.salvage_into(&image[1..], &mut text[..24]);
    /// assert_eq!((salvage.answer, salvage.length), (Answer::Size, 0));
    /// ```
    pub fn salvage_into(self, image: &[u8], text: &mut [u8]) -> Salvage {
        // SAFETY: pointers and lengths are those of two slices that are borrowed for the call; the
        // one that is written is borrowed alone.
        Salvage::unpack(unsafe {
            sys::qbx_salvage(
                image.as_ptr(),
                image.len(),
                self.segments,
                self.slots,
                text.as_mut_ptr(),
                text.len(),
            )
        })
    }

    /// The report as a string; [`Size`](Answer::Size) is the only error. It allocates
    /// [`salvage_len`](Geometry::salvage_len) bytes for it, and keeps as many as the text has.
    ///
    #[cfg_attr(qbx_lib, doc = "```")]
    #[cfg_attr(not(qbx_lib), doc = "```no_run")]
    /// use qanbillox::{Answer, Block, Geometry, UNLIMITED};
    ///
    /// # fn main() -> Result<(), Answer> {
    /// let chip = Geometry { segments: 2, slots: 15 };
    /// let mut image = vec![0; chip.image_len().unwrap()];
    /// chip.format(&mut image, UNLIMITED).into_result()?;
    /// for contents in ["A1", "B2"] {
    ///     chip.put(&mut image, Block(7), contents.as_bytes(), UNLIMITED).into_result()?;
    /// }
    /// chip.put(&mut image, Block(8), b"C", UNLIMITED).into_result()?;
    ///
    /// // A fault sets a bit of a slot that was replaced: block 7 is there twice, and no recovery helps.
    /// image[256] |= 0x20;
    /// assert_eq!(chip.recover(&mut image, UNLIMITED).answer, Answer::Damaged);
    /// assert_eq!(
    ///     chip.salvage(&image)?,
    ///     "salvage promises nothing\n\
    ///      block 7 len 2 seg 0 slot 2 differs\n\
    ///      block 8 len 1 seg 0 slot 3 same\n"
    /// );
    ///
    /// assert_eq!(chip.salvage(&image[1..]), Err(Answer::Size));
    /// # Ok(())
    /// # }
    /// ```
    #[cfg(feature = "alloc")]
    pub fn salvage(self, image: &[u8]) -> Result<String, Answer> {
        // A geometry that the store does not take is refused before any buffer is.
        let mut text: Vec<u8> = vec![0; self.salvage_len().unwrap_or(0)];
        let length = self.salvage_into(image, &mut text).into_result()?;
        text.truncate(length);
        text.shrink_to_fit();
        Ok(String::from_utf8(text).expect("ASCII characters"))
    }

    /// Builds in `target` a fresh image of the geometry `wanted`, of version 2, with the contents that
    /// a [salvage](Geometry::salvage_into) of `source`, an image of this geometry in any state, gives
    /// for each block number. The source is not written; `target` may hold anything before. The two
    /// geometries may be the same.
    ///
    /// The target is built as by a [move](Geometry::move_to): formatted, and then each block is stored
    /// in it by rising number, also one of 0 bytes. Where nothing is found it is as after a format.
    /// What it holds is promised no more than the salvage is: see which blocks differ before it is
    /// taken for the store.
    ///
    /// The answers, in their order: [`Size`](Answer::Size) for either image, [`Full`](Answer::Full) if
    /// there are more block numbers than `wanted` has [`capacity`](Geometry::capacity),
    /// [`Cut`](Answer::Cut). After a cut nothing is promised of the target, and a recovery does not
    /// help: the rebuild is begun again.
    ///
    /// It takes some 390 KiB of stack, for tables that put the blocks in order.
    ///
    #[cfg_attr(qbx_lib, doc = "```")]
    #[cfg_attr(not(qbx_lib), doc = "```no_run")]
    /// use qanbillox::{Answer, Block, Geometry, UNLIMITED};
    ///
    /// # fn main() -> Result<(), Answer> {
    /// let old = Geometry { segments: 4, slots: 15 };
    /// let mut source = vec![0; old.image_len().unwrap()];
    /// old.format(&mut source, UNLIMITED).into_result()?;
    /// for (block, contents) in [(31, "tenant 31"), (7, "tenant 7")] {
    ///     old.put(&mut source, Block(block), contents.as_bytes(), UNLIMITED).into_result()?;
    /// }
    ///
    /// // A bit of the chip has gone, in a slot that nothing was written to.
    /// source[4 * 256] = 0xFE;
    /// assert_eq!(old.read(&source, Block(31)).answer, Answer::Damaged);
    ///
    /// let new = Geometry { segments: 8, slots: 2 };
    /// let mut target = vec![0; new.image_len().unwrap()];
    /// let steps = old.rebuild(&source, new, &mut target, UNLIMITED).into_result()?;
    /// assert_eq!(steps, 8 + 21 + (5 + 9) + (5 + 8));
    /// assert_eq!(new.read(&target, Block(31)).into_result()?, b"tenant 31");
    ///
    /// // Two blocks are too many for the smallest chip, which holds one.
    /// let small = Geometry { segments: 2, slots: 2 };
    /// let mut lent = vec![0; small.image_len().unwrap()];
    /// assert_eq!(old.rebuild(&source, small, &mut lent, UNLIMITED).answer, Answer::Full);
    /// assert!(lent.iter().all(|&byte| byte == 0));
    ///
    /// // The power goes on the way: the rebuild is begun again.
    /// assert_eq!(old.rebuild(&source, new, &mut target, 30).answer, Answer::Cut);
    /// assert_eq!(old.rebuild(&source, new, &mut target, UNLIMITED).into_result()?, steps);
    /// # Ok(())
    /// # }
    /// ```
    pub fn rebuild(
        self,
        source: &[u8],
        wanted: Geometry,
        target: &mut [u8],
        budget: u64,
    ) -> Outcome {
        // SAFETY: pointers and lengths are those of two slices that are borrowed for the call; the
        // one that is written is borrowed alone, so that they do not overlap.
        Outcome::unpack(unsafe {
            sys::qbx_rebuild(
                source.as_ptr(),
                source.len(),
                self.segments,
                self.slots,
                target.as_mut_ptr(),
                target.len(),
                wanted.segments,
                wanted.slots,
                budget,
            )
        })
    }
}

#[cfg(test)]
mod tests {
    use super::{Answer, Salvage};

    const ANSWERS: [Answer; 3] = [Answer::Done, Answer::Size, Answer::ShortBuffer];

    #[test]
    fn salvages_are_unpacked() {
        for answer in ANSWERS {
            // The last is the longest text, on the largest chip.
            for length in [0, 25, 255, 256, 65_536, 2_665_505] {
                let packed = u64::from(answer.number()) + 256 * length as u64;
                assert_eq!(Salvage::unpack(packed), Salvage { answer, length });
            }
        }
    }

    #[test]
    fn only_done_is_a_success() {
        for answer in ANSWERS {
            let result = Salvage { answer, length: 25 }.into_result();
            assert_eq!(result.is_ok(), answer == Answer::Done);
        }
    }
}
