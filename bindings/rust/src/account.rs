use crate::request::unpack_answer;
use crate::sys;
use crate::{Answer, Geometry};
#[cfg(feature = "alloc")]
use alloc::{string::String, vec};

/// What an account into a buffer gives back.
#[derive(Clone, Copy, Debug, PartialEq, Eq, Hash)]
#[must_use = "the buffer may be too short"]
pub struct Account {
    /// [`Done`](Answer::Done) or [`ShortBuffer`](Answer::ShortBuffer), never another.
    pub answer: Answer,
    /// How many bytes the text has, from the buffer's first on; 0 if the buffer is too short.
    pub length: usize,
}

impl Account {
    /// The length of a text that is written; [`ShortBuffer`](Answer::ShortBuffer) is the error.
    pub fn into_result(self) -> Result<usize, Answer> {
        match self.answer {
            Answer::Done => Ok(self.length),
            other => Err(other),
        }
    }

    /// From `answer + 256 × length`.
    fn unpack(packed: u64) -> Account {
        Account {
            answer: unpack_answer(packed),
            length: (packed >> 8) as usize,
        }
    }
}

/// The account of an image: a text for people, and for tools that read it. Each line ends with 0A.
///
/// - A line for each segment, by index. In use: `seg 0 used num 4 live 2 dead 12 cut 1 empty 0`,
///   with the segment's number and its slots: `dead` are those that were replaced or deleted, `cut`
///   those whose writing lost its power, once recovery has marked them, in an image that the store has
///   written since a finished format; torn and wrong ones are in no count. `owing` stands for `used`
///   where the segment after it is still to be erased. All bytes 255: `seg 1 blank`. Neither: `seg 1 torn`.
/// - A line for each live slot of the segments in use, by rising block number, equal ones by the
///   segment's number and then the slot: `block 7 len 2 seg 0 slot 1`, with the segment's index.
/// - What [`recover`](Geometry::recover) would answer and how many steps it would take, as
///   `recover 0 steps 2`; for a damaged image `fails 3`, the place, 1 to 8, of the first condition of
///   a clean image that fails (document 01, "Clean").
///
/// Unfinished images are shown as they are. Where a compaction still owes the erase of the old
/// segment, that one is `torn`, or `blank`, without its slots; but in a damaged image it is shown as
/// any other. A geometry that the store does not take, or an image of another length, is no refusal:
/// the text is `fails 0`.
impl Geometry {
    /// Writes the account to the front of `text`. What follows it there is untouched, and so is all
    /// of a buffer that is too short. [`account_len`](Geometry::account_len) bytes are always enough.
    ///
    /// It takes 348,424 bytes of stack, for tables that put the blocks in order.
    ///
    #[cfg_attr(qbx_lib, doc = "```")]
    #[cfg_attr(not(qbx_lib), doc = "```no_run")]
    /// use qanbillox::{Answer, Geometry};
    ///
    /// // An image of the wrong length: the text is that alone.
    /// let chip = Geometry { segments: 4, slots: 15 };
    /// let mut text = *b"..........";
    /// let account = chip.account_into(&[0xFF; 100], &mut text);
    /// assert_eq!((account.answer, account.length), (Answer::Done, 8));
    /// assert_eq!(&text, b"fails 0\n..");
    ///
    /// let account = chip.account_into(&[0xFF; 100], &mut text[..7]);
    /// assert_eq!((account.answer, account.length), (Answer::ShortBuffer, 0));
    /// ```
    pub fn account_into(self, image: &[u8], text: &mut [u8]) -> Account {
        // SAFETY: pointers and lengths are those of two slices that are borrowed for the call; the
        // one that is written is borrowed alone.
        Account::unpack(unsafe {
            sys::qbx_account(
                image.as_ptr(),
                image.len(),
                self.segments,
                self.slots,
                text.as_mut_ptr(),
                text.len(),
            )
        })
    }

    /// The account as a string. It allocates [`account_len`](Geometry::account_len) bytes for it,
    /// and keeps as many as the text has.
    ///
    #[cfg_attr(qbx_lib, doc = "```")]
    #[cfg_attr(not(qbx_lib), doc = "```no_run")]
    /// use qanbillox::{Answer, Block, Geometry, UNLIMITED};
    ///
    /// # fn main() -> Result<(), Answer> {
    /// let chip = Geometry { segments: 2, slots: 15 };
    /// let mut image = vec![0; chip.image_len().unwrap()];
    /// chip.format(&mut image, UNLIMITED).into_result()?;
    /// chip.put(&mut image, Block(7), b"A1", UNLIMITED).into_result()?;
    /// assert_eq!(
    ///     chip.account(&image),
    ///     "seg 0 used num 0 live 1 dead 0 cut 0 empty 14\n\
    ///      seg 1 blank\n\
    ///      block 7 len 2 seg 0 slot 1\n\
    ///      recover 0 steps 0\n"
    /// );
    ///
    /// // The power goes in a rewrite: recovery would take a step.
    /// assert_eq!(chip.put(&mut image, Block(7), b"B2", 3).answer, Answer::Cut);
    /// assert!(chip.account(&image).ends_with("recover 0 steps 1\n"));
    ///
    /// assert_eq!(chip.account(&image[1..]), "fails 0\n");
    /// # Ok(())
    /// # }
    /// ```
    #[cfg(feature = "alloc")]
    pub fn account(self, image: &[u8]) -> String {
        let most = self.account_len().unwrap_or("fails 0\n".len());
        let mut text = vec![0; most];
        let length = self.account_into(image, &mut text).into_result();
        // No text of this geometry is longer, and each is of ASCII characters.
        text.truncate(length.expect("a buffer that is long enough"));
        text.shrink_to_fit();
        String::from_utf8(text).expect("ASCII characters")
    }
}

#[cfg(test)]
mod tests {
    use super::{Account, Answer};

    #[test]
    fn accounts_are_unpacked() {
        for answer in [Answer::Done, Answer::ShortBuffer] {
            // The last is the longest text, on the largest chip.
            for length in [0, 8, 255, 256, 65_536, 2_364_768] {
                let packed = u64::from(answer.number()) + 256 * length as u64;
                assert_eq!(Account::unpack(packed), Account { answer, length });
            }
        }
    }

    #[test]
    fn only_done_is_a_success() {
        let length = 8;
        for answer in [Answer::Done, Answer::ShortBuffer] {
            let result = Account { answer, length }.into_result();
            assert_eq!(result.is_ok(), answer == Answer::Done);
        }
    }
}
