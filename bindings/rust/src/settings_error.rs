use core::error::Error;
use core::fmt;

/// Why a request for [`Settings`](crate::Settings) is not done. The numbers are those of request #109:
/// this part has its own refusals, and where several apply it gives the smallest. They are no
/// [`Answer`](crate::Answer)s, whose numbers mean other things.
#[derive(Clone, Copy, Debug, PartialEq, Eq, PartialOrd, Ord, Hash)]
#[repr(u8)]
pub enum SettingsError {
    /// 1: the number of partitions is no power of two from 2 to 128, or does not divide the length of
    /// the image.
    Partitions = 1,
    /// 2: the layout table has a byte left over, an identifier that is 255 or comes twice, or a length
    /// of 0; or the status and the items are longer than a partition.
    Layout = 2,
    /// 3: the identifier is not in the layout table, or the data to be written has another length.
    Mismatch = 3,
    /// 4: the statuses of the partitions are no single run, so that none is the newest.
    Statuses = 4,
    /// 5: the item to be read is not written.
    Unwritten = 5,
    /// 9: the step budget ended before the write did. As many steps as it allows are done, and no item
    /// is lost: the write is begun again, or left.
    Cut = 9,
}

impl SettingsError {
    /// All of them by rising number.
    pub const ALL: [SettingsError; 6] = [
        SettingsError::Partitions,
        SettingsError::Layout,
        SettingsError::Mismatch,
        SettingsError::Statuses,
        SettingsError::Unwritten,
        SettingsError::Cut,
    ];

    /// Its number.
    ///
    /// ```
    /// assert_eq!(qanbillox::SettingsError::Cut.number(), 9);
    /// ```
    pub const fn number(self) -> u8 {
        self as u8
    }

    /// The one with this number; 0, which is done, has none.
    ///
    /// ```
    /// use qanbillox::SettingsError;
    /// assert_eq!(SettingsError::from_number(4), Some(SettingsError::Statuses));
    /// assert_eq!(SettingsError::from_number(0), None);
    /// assert_eq!(SettingsError::from_number(6), None);
    /// ```
    #[inline]
    pub const fn from_number(number: u8) -> Option<SettingsError> {
        match number {
            1 => Some(SettingsError::Partitions),
            2 => Some(SettingsError::Layout),
            3 => Some(SettingsError::Mismatch),
            4 => Some(SettingsError::Statuses),
            5 => Some(SettingsError::Unwritten),
            9 => Some(SettingsError::Cut),
            _ => None,
        }
    }

    /// Whether this is a refusal, 1 to 5. A refused request has changed no byte.
    pub const fn is_refusal(self) -> bool {
        !matches!(self, SettingsError::Cut)
    }
}

impl fmt::Display for SettingsError {
    fn fmt(&self, f: &mut fmt::Formatter<'_>) -> fmt::Result {
        f.write_str(match self {
            SettingsError::Partitions => "number of partitions or image length out of range",
            SettingsError::Layout => "layout table broken",
            SettingsError::Mismatch => "no such item, or data of another length",
            SettingsError::Statuses => "statuses that are no single run",
            SettingsError::Unwritten => "item not written",
            SettingsError::Cut => "step budget spent",
        })
    }
}

impl Error for SettingsError {}

#[cfg(test)]
mod tests {
    use super::SettingsError;

    #[test]
    fn numbers_and_errors_match() {
        for number in 0..=u8::MAX {
            match SettingsError::from_number(number) {
                Some(error) => assert_eq!(error.number(), number),
                None => assert!(!matches!(number, 1..=5 | 9)),
            }
        }
        let numbers = SettingsError::ALL.map(SettingsError::number);
        assert_eq!(numbers, [1, 2, 3, 4, 5, 9]);
    }

    #[test]
    fn a_cut_alone_is_no_refusal() {
        for error in SettingsError::ALL {
            assert_eq!(error.is_refusal(), error.number() <= 5);
        }
    }
}
