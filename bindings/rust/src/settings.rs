use crate::sys;
use crate::SettingsError;

/// Settings on a board with the older partition format, in an image of their own.
///
/// It has P partitions of equal length, and each is one erase unit of the chip. A partition is a status
/// byte and then the items of the layout table, in its order and without a gap: an identifier byte, and
/// data of a fixed length. The newest partition has all the settings; a write that finds no room for its
/// item there goes to the next partition, with all that is written. A board whose status bytes are all
/// 255 has nothing written yet.
///
/// P and the layout are not kept in the image: they are to be the same each time.
///
/// A loss of power between two flash steps needs no recovery: until its last step is done, every item
/// reads as before the write that was cut, and after it the written one as new. That write is begun
/// again, or left. Of a loss inside a step, which the store stands, nothing is promised here.
///
#[cfg_attr(qbx_lib, doc = "```")]
#[cfg_attr(not(qbx_lib), doc = "```no_run")]
/// use qanbillox::{Settings, SettingsError, UNLIMITED};
///
/// # fn main() -> Result<(), SettingsError> {
/// // Two items: 1 has two bytes, and 7 has one.
/// let board = Settings { partitions: 4, layout: &[1, 2, 7, 1] };
/// let mut image = vec![0xFF; 4 * 256];
/// assert_eq!(board.read(&image, 1), Err(SettingsError::Unwritten));
///
/// // The first write erases a partition and sets its status: two steps, and three for the item.
/// assert_eq!(board.write(&mut image, 1, b"A1", UNLIMITED)?, 5);
/// // There is room for item 7: its byte, and then its identifier.
/// assert_eq!(board.write(&mut image, 7, b"x", UNLIMITED)?, 2);
/// assert_eq!(board.read(&image, 1)?, b"A1");
///
/// // There is none for item 1 any more: both go to the next partition. The power goes on the way.
/// assert_eq!(board.write(&mut image, 1, b"B2", 6), Err(SettingsError::Cut));
/// assert_eq!(board.read(&image, 1)?, b"A1");
/// assert_eq!(board.write(&mut image, 1, b"B2", UNLIMITED)?, 7);
/// assert_eq!(board.read(&image, 1)?, b"B2");
/// assert_eq!(board.read(&image, 7)?, b"x");
/// # Ok(())
/// # }
/// ```
#[derive(Clone, Copy, Debug, PartialEq, Eq, Hash)]
pub struct Settings<'a> {
    /// The number of partitions, P: a power of two from 2 to 128.
    pub partitions: usize,
    /// The layout table, as byte pairs: identifier, 0 to 254 and none twice, and length, 1 to 255. A
    /// partition begins with its status, so the items have one byte less than it for their identifiers
    /// and data. A table without items is right.
    pub layout: &'a [u8],
}

impl Settings<'_> {
    /// The data of an item. Nothing is copied: it is a piece of the image.
    ///
    #[cfg_attr(qbx_lib, doc = "```")]
    #[cfg_attr(not(qbx_lib), doc = "```no_run")]
    /// use qanbillox::{Settings, SettingsError};
    ///
    /// // Partition 1 is the newest: its status follows that of partition 0.
    /// let image = [[254, 7, 0x41, 0xFF], [0, 7, 0x42, 0xFF]];
    /// let image = image.as_flattened();
    /// let board = Settings { partitions: 2, layout: &[7, 1] };
    /// assert_eq!(board.read(image, 7), Ok(&b"B"[..]));
    /// assert_eq!(board.read(image, 8), Err(SettingsError::Mismatch));
    /// ```
    #[inline]
    pub fn read<'i>(&self, image: &'i [u8], item: u8) -> Result<&'i [u8], SettingsError> {
        // SAFETY: pointers and lengths are those of two slices that are borrowed for the call.
        let packed = unsafe {
            sys::qbx_settings_read(
                image.as_ptr(),
                image.len(),
                self.partitions,
                self.layout.as_ptr(),
                self.layout.len(),
                item,
            )
        };
        piece(packed, image)
    }

    /// Writes an item, with data of the length that the layout table says, and gives the number of flash
    /// steps done. It stops when its **step budget** is spent, exactly as if the power had gone after that
    /// step, and answers [`Cut`](SettingsError::Cut); [`UNLIMITED`](crate::UNLIMITED) is never spent.
    ///
    /// In the newest partition it goes in place if all bytes of the item there are 255: a step for each
    /// byte, the identifier last. Otherwise the next partition is erased, what is written is carried
    /// there with the new data, and the status comes last. So bits are only cleared, but for an erase of
    /// one whole partition at most, and that is never the newest.
    ///
    #[cfg_attr(qbx_lib, doc = "```")]
    #[cfg_attr(not(qbx_lib), doc = "```no_run")]
    /// use qanbillox::{Settings, SettingsError, UNLIMITED};
    ///
    /// let board = Settings { partitions: 2, layout: &[7, 3] };
    /// let mut image = [0xFF; 16];
    /// assert_eq!(board.write(&mut image, 7, b"abc", UNLIMITED), Ok(6));
    /// assert_eq!(image[..8], *b"\x00\x07abc\xFF\xFF\xFF");
    /// assert_eq!(board.write(&mut image, 7, b"ab", UNLIMITED), Err(SettingsError::Mismatch));
    /// ```
    #[inline]
    pub fn write(
        &self,
        image: &mut [u8],
        item: u8,
        data: &[u8],
        budget: u64,
    ) -> Result<u64, SettingsError> {
        // SAFETY: pointers and lengths are those of three slices that are borrowed for the call; the
        // one that is written is borrowed alone, so that it overlaps no other.
        let packed = unsafe {
            sys::qbx_settings_write(
                image.as_mut_ptr(),
                image.len(),
                self.partitions,
                self.layout.as_ptr(),
                self.layout.len(),
                item,
                data.as_ptr(),
                data.len(),
                budget,
            )
        };
        done(packed).map(|()| packed >> 8)
    }
}

/// Done, or why not, by the lowest byte of what the library returns.
#[inline]
fn done(packed: u64) -> Result<(), SettingsError> {
    match (packed & 0xFF) as u8 {
        0 => Ok(()),
        // The library is proved to answer these; another number means a library of another version.
        number => Err(SettingsError::from_number(number).expect("an answer of request #109")),
    }
}

/// From `answer + 256 × length + 65,536 × offset`, and the image that was read.
#[inline]
fn piece(packed: u64, image: &[u8]) -> Result<&[u8], SettingsError> {
    done(packed)?;
    let length = (packed >> 8 & 0xFF) as usize;
    Ok(&image[(packed >> 16) as usize..][..length])
}

#[cfg(test)]
mod tests {
    use super::{done, piece, SettingsError};

    #[test]
    fn answers_are_unpacked() {
        // The last is the longest write: 255 items of 255 bytes.
        for steps in [0, 1, 255, 256, 2 + 255 * 256] {
            assert_eq!(done(256 * steps), Ok(()));
            for error in SettingsError::ALL {
                assert_eq!(done(u64::from(error.number()) + 256 * steps), Err(error));
            }
        }
    }

    #[test]
    fn pieces_are_unpacked() {
        let image: [u8; 1_000] = core::array::from_fn(|i| i as u8);
        for (offset, length) in [(2, 1), (2, 255), (745, 255), (999, 1)] {
            let found = piece(256 * length + 65_536 * offset, &image);
            let expected = &image[offset as usize..][..length as usize];
            assert_eq!(found, Ok(expected));
        }
        for error in SettingsError::ALL {
            assert_eq!(piece(u64::from(error.number()), &image), Err(error));
        }
    }
}
