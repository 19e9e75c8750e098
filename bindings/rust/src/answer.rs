use core::error::Error;
use core::fmt;

/// What a request answers. The numbers are those of document 01, "What comes back", and of the later
/// requests. Where several apply, the store gives the smallest; but 10 and 13 come right after 1, 12
/// right after 2, and 11 right after 5. 10 is for the mounted form alone, 12 and 13 for a
/// [`Tenant`](crate::Tenant), 14 for the account, the salvage and a tenant's read.
#[derive(Clone, Copy, Debug, PartialEq, Eq, PartialOrd, Ord, Hash)]
#[repr(u8)]
pub enum Answer {
    /// 0: the request is done.
    Done = 0,
    /// 1: the number of segments, the number of slots or the length of the image is out of range; of
    /// either image in a [move](crate::Geometry::move_to) or a [rebuild](crate::Geometry::rebuild).
    Size = 1,
    /// 2: the block number is 0 or 65,535.
    Number = 2,
    /// 3: the contents of a put have 0 bytes or over 248.
    Length = 3,
    /// 4: the image is damaged; only a format makes a store of it again. What can be found in it, a
    /// [salvage](crate::Geometry::salvage_into) tells and a [rebuild](crate::Geometry::rebuild) takes
    /// along, without a promise. A format never answers 4, nor do these two.
    Damaged = 4,
    /// 5: a power cut left something unfinished; recover first. On a [`Mounted`](crate::Mounted)
    /// store: it was cut, and is to be recovered and mounted again.
    Unfinished = 5,
    /// 6: the block to be read or deleted is not stored.
    Absent = 6,
    /// 7: a put of a block that is not stored while [`Geometry::capacity`](crate::Geometry::capacity)
    /// blocks are, or a [move](crate::Geometry::move_to) or [rebuild](crate::Geometry::rebuild) of more
    /// blocks than the target's capacity. For a [`Tenant`](crate::Tenant): its own quota is used.
    Full = 7,
    /// 8: the put needs a new segment, and the chip is worn, in one of two cases: the largest
    /// number that the put would give a segment, divided by the number of segments (the whole
    /// part), plus the tally of erases that recoveries have set about since the format, reaches
    /// 100,000; or the newest segment's header has none of its 1,792 bits left to count one more.
    /// A put that finds room in the newest segment is never refused so.
    Worn = 8,
    /// 9: the step budget ended before the request did. The image is as after a power cut: some
    /// first steps of the request are done, and [`recover`](crate::Geometry::recover) comes next; but
    /// a format, a [move](crate::Geometry::move_to) or a [rebuild](crate::Geometry::rebuild) is begun
    /// again.
    Cut = 9,
    /// 10: the table lent to a [`mount`](crate::Geometry::mount) has fewer than
    /// [`PLACES`](crate::PLACES) entries. It is untouched.
    ShortTable = 10,
    /// 11: a put on an image of version 1. It can be read, deleted from and recovered, but not put
    /// to. To go on writing, [move](crate::Geometry::move_to) it to a second buffer, of the same
    /// geometry or another: that one is of version 2 and has all its records. A format loses them.
    FormerVersion = 11,
    /// 12: the block is not in the range of the [`Tenant`](crate::Tenant) that asks, or there is no
    /// tenant of that number.
    Foreign = 12,
    /// 13: the list of [`Share`](crate::Share)s breaks a rule: more than 40 tenants, a range that is
    /// empty or has a number that is no block's, two that overlap, or quotas that add up to more than
    /// [`Geometry::capacity`](crate::Geometry::capacity).
    Shares = 13,
    /// 14: the buffer is too short for the text of an account or a salvage, or for the contents that a
    /// [`Tenant`](crate::Tenant) reads. It is untouched, and the length is 0.
    ShortBuffer = 14,
}

/// The answers by their numbers: every call looks one up, and a mounted read takes a few nanoseconds.
const BY_NUMBER: [Option<Answer>; 256] = {
    let mut answers = [None; 256];
    let mut i = 0;
    while i < Answer::ALL.len() {
        let answer = Answer::ALL[i];
        answers[answer.number() as usize] = Some(answer);
        i += 1;
    }
    answers
};

impl Answer {
    /// All answers by rising number.
    pub const ALL: [Answer; 15] = [
        Answer::Done,
        Answer::Size,
        Answer::Number,
        Answer::Length,
        Answer::Damaged,
        Answer::Unfinished,
        Answer::Absent,
        Answer::Full,
        Answer::Worn,
        Answer::Cut,
        Answer::ShortTable,
        Answer::FormerVersion,
        Answer::Foreign,
        Answer::Shares,
        Answer::ShortBuffer,
    ];

    /// The number of the answer.
    ///
    /// ```
    /// assert_eq!(qanbillox::Answer::Full.number(), 7);
    /// ```
    pub const fn number(self) -> u8 {
        self as u8
    }

    /// The answer with this number.
    ///
    /// ```
    /// use qanbillox::Answer;
    /// assert_eq!(Answer::from_number(7), Some(Answer::Full));
    /// assert_eq!(Answer::from_number(11), Some(Answer::FormerVersion));
    /// assert_eq!(Answer::from_number(15), None);
    /// ```
    #[inline]
    pub const fn from_number(number: u8) -> Option<Answer> {
        BY_NUMBER[number as usize]
    }

    /// Whether this is a refusal, 1 to 8 or 10 to 14. A refused request has changed no byte, of the
    /// image or of a buffer lent for text or contents.
    pub const fn is_refusal(self) -> bool {
        !matches!(self, Answer::Done | Answer::Cut)
    }
}

impl fmt::Display for Answer {
    fn fmt(&self, f: &mut fmt::Formatter<'_>) -> fmt::Result {
        f.write_str(match self {
            Answer::Done => "done",
            Answer::Size => "geometry or image length out of range",
            Answer::Number => "block number out of range",
            Answer::Length => "no contents, or too long",
            Answer::Damaged => "image damaged",
            Answer::Unfinished => "recovery needed first",
            Answer::Absent => "block not stored",
            Answer::Full => "store full",
            Answer::Worn => "chip worn out",
            Answer::Cut => "step budget spent",
            Answer::ShortTable => "table of places too short",
            Answer::FormerVersion => "image of a former version: no puts",
            Answer::Foreign => "another tenant's block, or no such tenant",
            Answer::Shares => "list of shares broken",
            Answer::ShortBuffer => "buffer too short",
        })
    }
}

impl Error for Answer {}

#[cfg(test)]
mod tests {
    use super::Answer;

    #[test]
    fn numbers_and_answers_match() {
        for number in 0..=u8::MAX {
            match Answer::from_number(number) {
                Some(answer) => assert_eq!(answer.number(), number),
                None => assert!(number > 14),
            }
        }
        let numbers = Answer::ALL.map(Answer::number);
        assert_eq!(numbers, [0, 1, 2, 3, 4, 5, 6, 7, 8, 9, 10, 11, 12, 13, 14]);
    }

    #[test]
    fn done_and_cut_alone_are_no_refusals() {
        for answer in Answer::ALL {
            let refusal = matches!(answer.number(), 1..=8 | 10..=14);
            assert_eq!(answer.is_refusal(), refusal);
        }
    }
}
