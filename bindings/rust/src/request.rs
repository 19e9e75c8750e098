use crate::sys;
use crate::{Answer, Geometry};

/// A step budget that no request can spend.
pub const UNLIMITED: u64 = u64::MAX;

/// The number of a block. 1 to 65,534 can be stored; 0 and 65,535 answer
/// [`Number`](Answer::Number).
#[derive(Clone, Copy, Debug, PartialEq, Eq, PartialOrd, Ord, Hash)]
pub struct Block(pub u16);

/// A request that writes the image, as a value: to queue, to log or to replay.
///
/// [`Geometry::perform`] carries it out; [`Geometry::format`], [`put`](Geometry::put),
/// [`delete`](Geometry::delete) and [`recover`](Geometry::recover) say the same directly.
#[derive(Clone, Copy, Debug, PartialEq, Eq, Hash)]
pub enum Request<'a> {
    /// Erase the whole image and start an empty store.
    Format,
    /// Store the contents under the block number, in place of what is stored there.
    Put {
        /// Where to store.
        block: Block,
        /// What to store, 1 to [`MAX_CONTENTS`](crate::MAX_CONTENTS) bytes.
        contents: &'a [u8],
    },
    /// Remove the block.
    Delete {
        /// What to remove.
        block: Block,
    },
    /// Finish or undo what a power cut interrupted.
    Recover,
}

/// What a request that writes gives back.
#[derive(Clone, Copy, Debug, PartialEq, Eq, Hash)]
#[must_use = "a request may be refused or cut"]
pub struct Outcome {
    /// The answer.
    pub answer: Answer,
    /// How many flash steps were done: bytes programmed and segments erased. 0 for a refusal.
    pub steps: u64,
}

impl Outcome {
    /// The steps of a request that is done; any other answer is the error.
    pub fn into_result(self) -> Result<u64, Answer> {
        match self.answer {
            Answer::Done => Ok(self.steps),
            other => Err(other),
        }
    }

    /// From `answer + 256 × steps`.
    #[inline]
    pub(crate) fn unpack(packed: u64) -> Outcome {
        Outcome {
            answer: unpack_answer(packed),
            steps: packed >> 8,
        }
    }
}

/// What a read gives back.
#[derive(Clone, Copy, Debug, PartialEq, Eq, Hash)]
#[must_use = "a read may be refused"]
pub struct Read<'a> {
    /// The answer.
    pub answer: Answer,
    /// Where in the image the contents begin; 0 for a refusal.
    pub offset: usize,
    /// The contents, as they lie in the image; empty for a refusal, and for a record of 0 bytes from
    /// before puts of 0 bytes were refused.
    pub contents: &'a [u8],
}

impl<'a> Read<'a> {
    /// From `answer + 256 × length + 65,536 × offset`, and the image that was read.
    #[inline]
    pub(crate) fn unpack(packed: u64, image: &'a [u8]) -> Read<'a> {
        let length = (packed >> 8 & 0xFF) as usize;
        let offset = (packed >> 16) as usize;
        Read {
            answer: unpack_answer(packed),
            offset,
            contents: &image[offset..offset + length],
        }
    }

    /// The contents of a block that is stored; any other answer is the error.
    pub fn into_result(self) -> Result<&'a [u8], Answer> {
        match self.answer {
            Answer::Done => Ok(self.contents),
            other => Err(other),
        }
    }
}

/// The answer in the lowest byte of what the library returns.
#[inline]
pub(crate) fn unpack_answer(packed: u64) -> Answer {
    // The library is proved to answer these; another number means a library of another version.
    Answer::from_number((packed & 0xFF) as u8).expect("an answer from 0 to 14")
}

/// The requests. Each works on an image that the caller lends for the call; the store keeps nothing
/// between calls, and the image may be moved, copied or written to the chip in between.
///
/// The methods that write take a **step budget**. A request stops when its budget is spent, exactly
/// as if the power had gone after that step, and answers [`Cut`](Answer::Cut). With [`UNLIMITED`]
/// it runs to its end. Refusals do not depend on the budget and change no byte.
impl Geometry {
    /// Erases the whole image and starts an empty store, of version 2. The image may hold anything
    /// before.
    ///
    /// A format that was cut has to be run again.
    ///
    #[cfg_attr(qbx_lib, doc = "```")]
    #[cfg_attr(not(qbx_lib), doc = "```no_run")]
    /// use qanbillox::{Answer, Geometry, UNLIMITED};
    ///
    /// let chip = Geometry { segments: 4, slots: 15 };
    /// let mut image = vec![0; chip.image_len().unwrap()];
    ///
    /// let outcome = chip.format(&mut image, UNLIMITED);
    /// assert_eq!((outcome.answer, outcome.steps), (Answer::Done, 4 + 21));
    /// assert!(image.starts_with(b"SLT\x02\x00\x3F\x0F\x04"));
    /// ```
    pub fn format(self, image: &mut [u8], budget: u64) -> Outcome {
        // SAFETY: pointer and length are those of a slice that is borrowed for the call.
        Outcome::unpack(unsafe {
            sys::qbx_format(
                image.as_mut_ptr(),
                image.len(),
                self.segments,
                self.slots,
                budget,
            )
        })
    }

    /// Stores `contents`, 1 to [`MAX_CONTENTS`](crate::MAX_CONTENTS) bytes, under `block`, in place
    /// of what is stored there. To have nothing stored there is to [`delete`](Geometry::delete).
    ///
    /// An image of version 1, from a store before the erases of recoveries were counted, answers
    /// [`FormerVersion`](Answer::FormerVersion).
    ///
    #[cfg_attr(qbx_lib, doc = "```")]
    #[cfg_attr(not(qbx_lib), doc = "```no_run")]
    /// use qanbillox::{Answer, Block, Geometry, UNLIMITED};
    ///
    /// # fn main() -> Result<(), Answer> {
    /// let chip = Geometry { segments: 4, slots: 15 };
    /// let mut image = vec![0; chip.image_len().unwrap()];
    /// chip.format(&mut image, UNLIMITED).into_result()?;
    ///
    /// // A new block of two bytes takes 7 steps; a rewrite has its old slot to mark as well.
    /// assert_eq!(chip.put(&mut image, Block(7), b"A1", UNLIMITED).into_result()?, 7);
    /// assert_eq!(chip.put(&mut image, Block(7), b"B2", UNLIMITED).into_result()?, 8);
    ///
    /// for contents in [&[][..], &[0; 249]] {
    ///     let refused = chip.put(&mut image, Block(7), contents, UNLIMITED);
    ///     assert_eq!(refused.answer, Answer::Length);
    /// }
    /// # Ok(())
    /// # }
    /// ```
    pub fn put(self, image: &mut [u8], block: Block, contents: &[u8], budget: u64) -> Outcome {
        // SAFETY: pointers and lengths are those of two slices that are borrowed for the call; the
        // one that is written is borrowed alone.
        Outcome::unpack(unsafe {
            sys::qbx_put(
                image.as_mut_ptr(),
                image.len(),
                self.segments,
                self.slots,
                block.0,
                contents.as_ptr(),
                contents.len(),
                budget,
            )
        })
    }

    /// Removes the block.
    ///
    #[cfg_attr(qbx_lib, doc = "```")]
    #[cfg_attr(not(qbx_lib), doc = "```no_run")]
    /// use qanbillox::{Answer, Block, Geometry, UNLIMITED};
    ///
    /// # fn main() -> Result<(), Answer> {
    /// # let chip = Geometry { segments: 4, slots: 15 };
    /// # let mut image = vec![0; chip.image_len().unwrap()];
    /// # chip.format(&mut image, UNLIMITED).into_result()?;
    /// chip.put(&mut image, Block(7), b"A1", UNLIMITED).into_result()?;
    /// assert_eq!(chip.delete(&mut image, Block(7), UNLIMITED).into_result()?, 1);
    /// assert_eq!(chip.delete(&mut image, Block(7), UNLIMITED).answer, Answer::Absent);
    /// # Ok(())
    /// # }
    /// ```
    pub fn delete(self, image: &mut [u8], block: Block, budget: u64) -> Outcome {
        // SAFETY: pointer and length are those of a slice that is borrowed for the call.
        Outcome::unpack(unsafe {
            sys::qbx_delete(
                image.as_mut_ptr(),
                image.len(),
                self.segments,
                self.slots,
                block.0,
                budget,
            )
        })
    }

    /// Finishes or undoes what a power cut interrupted. To be called after every start of the
    /// device: on an image where nothing is unfinished it takes no step. An erase that it makes is
    /// counted in the newest segment's header first, in an image of version 2.
    ///
    #[cfg_attr(qbx_lib, doc = "```")]
    #[cfg_attr(not(qbx_lib), doc = "```no_run")]
    /// use qanbillox::{Answer, Block, Geometry, UNLIMITED};
    ///
    /// # fn main() -> Result<(), Answer> {
    /// # let chip = Geometry { segments: 4, slots: 15 };
    /// # let mut image = vec![0; chip.image_len().unwrap()];
    /// # chip.format(&mut image, UNLIMITED).into_result()?;
    /// chip.put(&mut image, Block(7), b"A1", UNLIMITED).into_result()?;
    ///
    /// // The power goes after three steps of a rewrite.
    /// assert_eq!(chip.put(&mut image, Block(7), b"B2", 3).answer, Answer::Cut);
    /// assert_eq!(chip.read(&image, Block(7)).answer, Answer::Unfinished);
    ///
    /// // Recovery shows the old contents: the rewrite has not begun.
    /// assert_eq!(chip.recover(&mut image, UNLIMITED).into_result()?, 1);
    /// assert_eq!(chip.read(&image, Block(7)).into_result()?, b"A1");
    /// # Ok(())
    /// # }
    /// ```
    pub fn recover(self, image: &mut [u8], budget: u64) -> Outcome {
        // SAFETY: pointer and length are those of a slice that is borrowed for the call.
        Outcome::unpack(unsafe {
            sys::qbx_recover(
                image.as_mut_ptr(),
                image.len(),
                self.segments,
                self.slots,
                budget,
            )
        })
    }

    /// Carries out a request that writes.
    ///
    #[cfg_attr(qbx_lib, doc = "```")]
    #[cfg_attr(not(qbx_lib), doc = "```no_run")]
    /// use qanbillox::{Answer, Block, Geometry, Request, UNLIMITED};
    ///
    /// let chip = Geometry { segments: 2, slots: 2 };
    /// let mut image = vec![0; chip.image_len().unwrap()];
    /// let log = [
    ///     (Request::Format, Answer::Done),
    ///     (Request::Put { block: Block(7), contents: b"a" }, Answer::Done),
    ///     (Request::Put { block: Block(8), contents: b"b" }, Answer::Full),
    ///     (Request::Delete { block: Block(8) }, Answer::Absent),
    ///     (Request::Recover, Answer::Done),
    /// ];
    /// for (request, answer) in log {
    ///     assert_eq!(chip.perform(&mut image, request, UNLIMITED).answer, answer);
    /// }
    /// ```
    pub fn perform(self, image: &mut [u8], request: Request<'_>, budget: u64) -> Outcome {
        match request {
            Request::Format => self.format(image, budget),
            Request::Put { block, contents } => self.put(image, block, contents, budget),
            Request::Delete { block } => self.delete(image, block, budget),
            Request::Recover => self.recover(image, budget),
        }
    }

    /// Finds the contents of the block. Nothing is copied: they are a piece of the image.
    ///
    #[cfg_attr(qbx_lib, doc = "```")]
    #[cfg_attr(not(qbx_lib), doc = "```no_run")]
    /// use qanbillox::{Answer, Block, Geometry, UNLIMITED};
    ///
    /// # fn main() -> Result<(), Answer> {
    /// # let chip = Geometry { segments: 4, slots: 15 };
    /// # let mut image = vec![0; chip.image_len().unwrap()];
    /// # chip.format(&mut image, UNLIMITED).into_result()?;
    /// chip.put(&mut image, Block(7), b"A1", UNLIMITED).into_result()?;
    /// assert_eq!(chip.read(&image, Block(7)).into_result()?, b"A1");
    /// assert_eq!(chip.read(&image, Block(8)).answer, Answer::Absent);
    /// # Ok(())
    /// # }
    /// ```
    pub fn read(self, image: &[u8], block: Block) -> Read<'_> {
        // SAFETY: pointer and length are those of a slice that is borrowed for the call.
        let packed = unsafe {
            sys::qbx_read(
                image.as_ptr(),
                image.len(),
                self.segments,
                self.slots,
                block.0,
            )
        };
        Read::unpack(packed, image)
    }

    /// Finds the contents of the block or, if it is not stored, gives the default record that is
    /// lent beside the image (document 01's factory record). Other refusals give an empty piece of
    /// the image. Nothing is copied.
    ///
    #[cfg_attr(qbx_lib, doc = "```")]
    #[cfg_attr(not(qbx_lib), doc = "```no_run")]
    /// use qanbillox::{Answer, Block, Geometry, UNLIMITED};
    ///
    /// # fn main() -> Result<(), Answer> {
    /// # let chip = Geometry { segments: 4, slots: 15 };
    /// # let mut image = vec![0; chip.image_len().unwrap()];
    /// # chip.format(&mut image, UNLIMITED).into_result()?;
    /// chip.put(&mut image, Block(7), b"A1", UNLIMITED).into_result()?;
    /// assert_eq!(chip.read_or(&image, Block(7), b"none"), (Answer::Done, &b"A1"[..]));
    /// assert_eq!(chip.read_or(&image, Block(8), b"none"), (Answer::Absent, &b"none"[..]));
    /// assert_eq!(chip.read_or(&image, Block(0), b"none"), (Answer::Number, &b""[..]));
    /// # Ok(())
    /// # }
    /// ```
    pub fn read_or<'a>(
        self,
        image: &'a [u8],
        block: Block,
        default: &'a [u8],
    ) -> (Answer, &'a [u8]) {
        let read = self.read(image, block);
        match read.answer {
            Answer::Absent => (read.answer, default),
            _ => (read.answer, read.contents),
        }
    }
}

#[cfg(test)]
mod tests {
    use super::{Answer, Outcome, Read};

    #[test]
    fn outcomes_are_unpacked() {
        for answer in Answer::ALL {
            // The last is the longest put, on the largest chip.
            for steps in [0, 1, 255, 256, 16_392_907] {
                let packed = u64::from(answer.number()) + 256 * steps;
                assert_eq!(Outcome::unpack(packed), Outcome { answer, steps });
            }
        }
    }

    #[test]
    fn reads_are_unpacked() {
        let image: [u8; 1_000] = core::array::from_fn(|i| i as u8);
        for answer in Answer::ALL {
            for (offset, length) in [(0, 0), (264, 0), (264, 1), (264, 248), (776, 224)] {
                let packed = u64::from(answer.number()) + 256 * length + 65_536 * offset;
                let contents = &image[offset as usize..][..length as usize];
                let offset = offset as usize;
                let read = Read {
                    answer,
                    offset,
                    contents,
                };
                assert_eq!(Read::unpack(packed, &image), read);
            }
        }
    }

    #[test]
    fn only_done_is_a_success() {
        for answer in Answer::ALL {
            let result = Outcome { answer, steps: 5 }.into_result();
            assert_eq!(result.is_ok(), answer == Answer::Done);
        }
    }
}
