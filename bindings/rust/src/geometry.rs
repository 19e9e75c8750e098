/// Bytes in a page.
pub const PAGE: usize = 256;
/// The longest contents of a block, in bytes. The shortest that a put takes have one.
pub const MAX_CONTENTS: usize = 248;

/// The shape of a chip: N segments of one header page and B slot pages each.
///
/// A segment is what one erase clears, and a slot holds one block. The store takes 2 to 255 segments
/// of 2 to 255 slots, and answers [`Size`](crate::Answer::Size) to any other geometry.
///
/// ```
/// use qanbillox::Geometry;
///
/// // A chip of 1 MiB: sixteen segments of 64 KiB.
/// let chip = Geometry { segments: 16, slots: 255 };
/// assert_eq!(chip.image_len(), Some(1_048_576));
/// assert_eq!(chip.capacity(), Some(3_824));
///
/// // The largest: 255 of the 256 segments of a chip of 16 MiB.
/// let largest = Geometry { segments: 255, slots: 255 };
/// assert_eq!(largest.image_len(), Some(16_711_680));
/// assert_eq!(largest.capacity(), Some(64_769));
///
/// assert_eq!(Geometry { segments: 256, slots: 255 }.image_len(), None);
/// ```
#[derive(Clone, Copy, Debug, PartialEq, Eq, Hash)]
pub struct Geometry {
    /// The number of segments, N.
    pub segments: usize,
    /// The number of slots in a segment, B.
    pub slots: usize,
}

impl Geometry {
    /// Whether the store takes this geometry.
    pub const fn is_valid(self) -> bool {
        2 <= self.segments && self.segments <= 255 && 2 <= self.slots && self.slots <= 255
    }

    /// The length in bytes that an image of this geometry has, or `None` for a geometry that the
    /// store does not take.
    pub const fn image_len(self) -> Option<usize> {
        if self.is_valid() {
            Some(self.segments * (self.slots + 1) * PAGE)
        } else {
            None
        }
    }

    /// How many blocks the store holds at most, or `None` for a geometry that it does not take.
    ///
    /// One segment is kept free for compaction, and one slot for a rewrite.
    pub const fn capacity(self) -> Option<usize> {
        if self.is_valid() {
            Some((self.segments - 1) * self.slots - 1)
        } else {
            None
        }
    }

    /// A length in bytes that the [account](Geometry::account_into) of no image of this geometry
    /// exceeds, or `None` for a geometry that the store does not take.
    ///
    /// ```
    /// let board = qanbillox::Geometry { segments: 4, slots: 15 };
    /// assert_eq!(board.account_len(), Some(2_490)); // the longest there is has 2,220
    /// ```
    pub const fn account_len(self) -> Option<usize> {
        // These are as long as lines get: a segment's, a slot's and the last.
        const SEGMENT: usize =
            "seg 254 owing num 25499999 live 255 dead 255 cut 255 empty 255\n".len();
        const SLOT: usize = "block 65534 len 248 seg 254 slot 255\n".len();
        const LAST: usize = "recover 0 steps 3\n".len();
        if self.is_valid() {
            Some(self.segments * (SEGMENT + self.slots * SLOT) + LAST)
        } else {
            None
        }
    }

    /// A length in bytes that the [salvage](Geometry::salvage_into) of no image of this geometry
    /// exceeds, or `None` for a geometry that the store does not take.
    ///
    /// ```
    /// let board = qanbillox::Geometry { segments: 4, slots: 15 };
    /// assert_eq!(board.salvage_len(), Some(2_545)); // the longest there is has 2,329
    /// ```
    pub const fn salvage_len(self) -> Option<usize> {
        // The first line, and one for each slot. A line that differs is longer by three bytes, but
        // stands for two slots at least.
        const FIRST: usize = "salvage promises nothing\n".len();
        const SLOT: usize = "block 65534 len 248 seg 254 slot 255 same\n".len();
        if self.is_valid() {
            Some(FIRST + self.segments * self.slots * SLOT)
        } else {
            None
        }
    }
}

#[cfg(test)]
mod tests {
    use super::Geometry;

    #[test]
    fn corners() {
        let size = |segments, slots| Geometry { segments, slots }.image_len();
        assert_eq!(size(2, 2), Some(1_536));
        assert_eq!(size(64, 255), Some(4_194_304));
        assert_eq!(size(65, 2), Some(49_920));
        assert_eq!(size(255, 2), Some(195_840));
        assert_eq!(size(255, 255), Some(16_711_680));
        for (segments, slots) in [(1, 2), (256, 2), (2, 1), (2, 256), (0, 0)] {
            assert_eq!(size(segments, slots), None);
        }
        assert_eq!(size(usize::MAX, usize::MAX), None);
        let capacity = |segments, slots| Geometry { segments, slots }.capacity();
        assert_eq!(capacity(2, 2), Some(1));
        assert_eq!(capacity(255, 255), Some(64_769));
        assert_eq!(capacity(256, 255), None);
        // Each is above the longest account of its geometry.
        let account = |segments, slots| Geometry { segments, slots }.account_len();
        assert!(account(4, 15) >= Some(2_220));
        assert!(account(64, 255) >= Some(581_576));
        assert!(account(255, 255) >= Some(2_364_768));
        assert_eq!(account(255, 256), None);
        assert_eq!(account(usize::MAX, usize::MAX), None);
        // And of the salvage.
        let salvage = |segments, slots| Geometry { segments, slots }.salvage_len();
        assert!(salvage(4, 15) >= Some(2_329));
        assert!(salvage(64, 255) >= Some(659_683));
        assert!(salvage(255, 255) >= Some(2_665_505));
        assert_eq!(salvage(255, 256), None);
        assert_eq!(salvage(usize::MAX, usize::MAX), None);
    }
}
