//! Request #109, settings on boards with the older partition format, from the papers alone: the list of
//! steps byte by byte, of which as many are done as the allowance has.

use crate::reference::{ReadReply, Reply, CUT, DONE};

// This part has its own refusals, in this order.
pub const PARTITIONS: u8 = 1;
pub const LAYOUT: u8 = 2;
pub const MISMATCH: u8 = 3;
pub const STATUSES: u8 = 4;
pub const UNWRITTEN: u8 = 5;

/// The status of a partition that has none, and any byte after an erase.
pub const BLANK: u8 = 0xFF;

/// An item of the layout table: where its identifier byte stands in a partition, and right after it the
/// data.
#[derive(Clone, Copy, Debug, PartialEq, Eq)]
pub struct Item {
    pub identifier: u8,
    pub length: usize,
    pub at: usize,
}

/// What one flash step does: programming clears bits of one byte, an erase takes a whole partition.
#[derive(Clone, Copy, Debug, PartialEq, Eq)]
pub enum Step {
    Program { at: usize, byte: u8 },
    Erase { partition: usize },
}

/// "P a power of two from 2 to 128", and the partitions' length.
pub fn partition_len(image_len: usize, partitions: usize) -> Option<usize> {
    let is_right = (1..=7).any(|power| partitions == 1 << power);
    (is_right && image_len % partitions == 0).then(|| image_len / partitions)
}

/// The items of a table that keeps the rules, in partitions of this length.
pub fn items_of(layout: &[u8], size: usize) -> Option<Vec<Item>> {
    let mut items: Vec<Item> = Vec::new();
    let mut end = 1;
    for pair in layout.chunks(2) {
        let &[identifier, length] = pair else {
            return None; // a byte is left over
        };
        let comes_twice = items.iter().any(|item| item.identifier == identifier);
        if identifier == 255 || comes_twice || length == 0 {
            return None;
        }
        let length = usize::from(length);
        items.push(Item {
            identifier,
            length,
            at: end,
        });
        end += 1 + length;
    }
    (end <= size).then_some(items)
}

/// "Status runs 0 to 254 and back to 0."
pub fn next_status(status: u8) -> u8 {
    match status {
        254 => 0,
        status => status + 1,
    }
}

/// What the statuses say.
#[derive(Clone, Copy, Debug, PartialEq, Eq)]
pub enum Newest {
    Nothing,
    At(usize),
    NoRun,
}

/// "The newest is the run's last": the run is walked from its first partition on. A first one has a status
/// that does not follow that of the partition before it; where there are several, or none, there is no
/// single run.
pub fn newest(statuses: &[u8]) -> Newest {
    let count = statuses.len();
    let follows = |before: usize, p: usize| {
        statuses[before] != BLANK && statuses[p] == next_status(statuses[before])
    };
    let in_use: Vec<usize> = (0..count).filter(|&p| statuses[p] != BLANK).collect();
    if in_use.is_empty() {
        return Newest::Nothing;
    }
    let is_first = |&p: &usize| !follows((p + count - 1) % count, p);
    let firsts: Vec<usize> = in_use.into_iter().filter(is_first).collect();
    let &[mut last] = &firsts[..] else {
        return Newest::NoRun;
    };
    while follows(last, (last + 1) % count) {
        last = (last + 1) % count;
    }
    Newest::At(last)
}

pub fn statuses(image: &[u8], size: usize) -> Vec<u8> {
    image.iter().step_by(size).copied().collect()
}

/// A board whose P, length and table are right, and an item of it.
struct Board {
    partitions: usize,
    size: usize,
    items: Vec<Item>,
    item: Item,
    newest: Option<usize>,
}

impl Board {
    /// Refusals 1 to 4; a read hands over no length.
    fn new(
        image: &[u8],
        partitions: usize,
        layout: &[u8],
        item: u8,
        length: Option<usize>,
    ) -> Result<Board, u8> {
        let size = partition_len(image.len(), partitions).ok_or(PARTITIONS)?;
        let items = items_of(layout, size).ok_or(LAYOUT)?;
        let found = items.iter().find(|found| found.identifier == item);
        let item = *found.ok_or(MISMATCH)?;
        if length.is_some_and(|length| length != item.length) {
            return Err(MISMATCH);
        }
        let newest = match newest(&statuses(image, size)) {
            Newest::Nothing => None,
            Newest::At(partition) => Some(partition),
            Newest::NoRun => return Err(STATUSES),
        };
        Ok(Board {
            partitions,
            size,
            items,
            item,
            newest,
        })
    }

    /// Where an item's data is in this partition; its identifier is the byte before.
    fn data_at(&self, partition: usize, item: Item) -> usize {
        partition * self.size + item.at + 1
    }

    /// "An item is written exactly if that byte is its identifier."
    fn is_written(&self, image: &[u8], partition: usize, item: Item) -> bool {
        image[self.data_at(partition, item) - 1] == item.identifier
    }

    fn data<'a>(&self, image: &'a [u8], partition: usize, item: Item) -> &'a [u8] {
        &image[self.data_at(partition, item)..][..item.length]
    }

    /// The data, and then the identifier.
    fn write_item(&self, list: &mut Vec<Step>, partition: usize, item: Item, data: &[u8]) {
        let start = self.data_at(partition, item);
        for (i, &byte) in data.iter().enumerate() {
            let at = start + i;
            list.push(Step::Program { at, byte });
        }
        list.push(Step::Program {
            at: start - 1,
            byte: item.identifier,
        });
    }

    /// The steps of a write.
    fn steps(&self, image: &[u8], data: &[u8]) -> Vec<Step> {
        let mut list = Vec::new();
        if let Some(newest) = self.newest {
            let identifier = self.data_at(newest, self.item) - 1;
            let whole = &image[identifier..][..1 + self.item.length];
            if whole.iter().all(|&byte| byte == BLANK) {
                self.write_item(&mut list, newest, self.item, data);
                return list;
            }
        }
        let (to, status) = match self.newest {
            None => (0, 0),
            Some(newest) => (
                (newest + 1) % self.partitions,
                next_status(image[newest * self.size]),
            ),
        };
        list.push(Step::Erase { partition: to });
        for &item in &self.items {
            if item == self.item {
                self.write_item(&mut list, to, item, data);
            } else if let Some(newest) = self.newest {
                if self.is_written(image, newest, item) {
                    self.write_item(&mut list, to, item, self.data(image, newest, item));
                }
            }
        }
        list.push(Step::Program {
            at: to * self.size,
            byte: status,
        });
        list
    }
}

/// The steps of a write, or why it is refused.
pub fn steps_of(
    image: &[u8],
    partitions: usize,
    layout: &[u8],
    item: u8,
    data: &[u8],
) -> Result<Vec<Step>, u8> {
    let board = Board::new(image, partitions, layout, item, Some(data.len()))?;
    Ok(board.steps(image, data))
}

pub fn write(
    image: &mut [u8],
    partitions: usize,
    layout: &[u8],
    item: u8,
    data: &[u8],
    allowance: u64,
) -> Reply {
    let list = match steps_of(image, partitions, layout, item, data) {
        Ok(list) => list,
        Err(code) => return Reply { code, steps: 0 },
    };
    let size = image.len() / partitions;
    let steps = allowance.min(list.len() as u64);
    for step in &list[..steps as usize] {
        match *step {
            Step::Program { at, byte } => image[at] &= byte,
            Step::Erase { partition } => image[partition * size..][..size].fill(BLANK),
        }
    }
    let is_whole = steps == list.len() as u64;
    Reply {
        code: if is_whole { DONE } else { CUT },
        steps,
    }
}

pub fn read(image: &[u8], partitions: usize, layout: &[u8], item: u8) -> ReadReply {
    let refused = |code| ReadReply {
        code,
        offset: 0,
        length: 0,
    };
    let board = match Board::new(image, partitions, layout, item, None) {
        Ok(board) => board,
        Err(code) => return refused(code),
    };
    match board.newest {
        Some(newest) if board.is_written(image, newest, board.item) => ReadReply {
            code: DONE,
            offset: board.data_at(newest, board.item),
            length: board.item.length,
        },
        _ => refused(UNWRITTEN),
    }
}
