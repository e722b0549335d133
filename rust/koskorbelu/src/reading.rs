//! The tree of a line that was read.

use crate::MOST_LINE_OF_VERSION_1;

/// What a reading stored: one record for each successful use of a rule.
///
/// Only a reading with the code READ makes one, so its bytes are well formed.
#[derive(Clone, Debug, PartialEq, Eq)]
pub struct Reading<Bytes> {
    stored: Bytes,
}

/// One successful use of a rule.
#[derive(Clone, Copy, Debug, PartialEq, Eq)]
pub struct Record {
    pub rule: usize,
    pub start: usize,
    pub end: usize,
    /// How many of the newest records not yet taken are its children.
    pub children: usize,
}

/// One successful use of a rule, with those made inside it.
#[derive(Clone, Debug, PartialEq, Eq)]
pub struct Tree {
    pub rule: usize,
    pub start: usize,
    pub end: usize,
    pub children: Vec<Tree>,
}

/// The version of a line's stored reading, 1 or 2. It goes by the line's length,
/// however little of it matches.
pub const fn stored_version(line_length: usize) -> u8 {
    if line_length <= MOST_LINE_OF_VERSION_1 {
        1
    } else {
        2
    }
}

/// The length of a line's stored reading with so many records.
pub const fn stored_length(records: usize, line_length: usize) -> usize {
    HEAD + record_size(width(stored_version(line_length))) * records
}

/// Bytes before the first record: version, length and number of records.
const HEAD: usize = 5;

/// Bytes of a position: one in version 1, two in version 2.
const fn width(version: u8) -> usize {
    version as usize
}

/// Bytes of a record: rule, start, end, number of children.
const fn record_size(width: usize) -> usize {
    1 + 2 * width + 2
}

/// The number in these bytes, the high one first.
fn number(bytes: &[u8]) -> usize {
    let longer = |number, &byte| number << 8 | usize::from(byte);
    bytes.iter().fold(0, longer)
}

impl<Bytes: AsRef<[u8]>> Reading<Bytes> {
    /// The stored bytes have to be those of a reading with the code READ.
    #[cfg(any(test, feature = "proved"))]
    pub(crate) fn new(stored: Bytes) -> Reading<Bytes> {
        Reading { stored }
    }

    /// The stored bytes.
    pub fn stored(&self) -> &[u8] {
        self.stored.as_ref()
    }

    /// The version of the stored bytes. The records are alike in both.
    pub fn version(&self) -> u8 {
        self.stored()[0]
    }

    /// The records as stored: children before their parent, in order, the
    /// root last.
    pub fn records(&self) -> impl ExactSizeIterator<Item = Record> + '_ {
        let width = width(self.version());
        let records = self.stored()[HEAD..].chunks_exact(record_size(width));
        records.map(move |record| Record::from_bytes(record, width))
    }

    /// The same nested: the use of rule 0 with all that is inside it.
    pub fn tree(&self) -> Tree {
        let mut untaken: Vec<Tree> = Vec::new();
        for record in self.records() {
            let children = untaken.split_off(untaken.len() - record.children);
            untaken.push(Tree {
                rule: record.rule,
                start: record.start,
                end: record.end,
                children,
            });
        }
        untaken.pop().expect("a stored reading has a record")
    }
}

impl Record {
    /// The record in these bytes, with so many for a position.
    fn from_bytes(record: &[u8], width: usize) -> Record {
        let (rule, rest) = record.split_at(1);
        let (start, rest) = rest.split_at(width);
        let (end, children) = rest.split_at(width);
        Record {
            rule: number(rule),
            start: number(start),
            end: number(end),
            children: number(children),
        }
    }
}

impl Tree {
    /// The part of the line that it spans.
    pub fn part<'line>(&self, line: &'line [u8]) -> &'line [u8] {
        &line[self.start..self.end]
    }

    /// Itself and all inside it.
    pub fn records(&self) -> usize {
        1 + self.children.iter().map(Tree::records).sum::<usize>()
    }
}

#[cfg(test)]
mod tests {
    use super::*;

    /// Sheet A on `7+2`, as the worked lines have it.
    const STORED: [u8; 25] = [
        1, 0, 0x19, 0, 4, 1, 0, 1, 0, 0, 0, 0, 1, 0, 1, 1, 2, 3, 0, 0, 0, 0, 3, 0, 2,
    ];

    /// The same match on a line of over 255 bytes.
    const LONGER: [u8; 33] = [
        2, 0, 33, 0, 4, //
        1, 0, 0, 0, 1, 0, 0, //
        0, 0, 0, 0, 1, 0, 1, //
        1, 0, 2, 0, 3, 0, 0, //
        0, 0, 0, 0, 3, 0, 2,
    ];

    /// Positions on both sides of 256, to the end of the longest line.
    const FAR: [u8; 26] = [
        2, 0, 26, 0, 3, //
        1, 0, 255, 1, 0, 0, 0, //
        2, 1, 2, 15, 160, 0, 0, //
        0, 0, 0, 15, 160, 0, 2,
    ];

    /// Rule, start, end and number of children of each record.
    fn fields(stored: &[u8]) -> Vec<[usize; 4]> {
        let records = Reading::new(stored).records().collect::<Vec<_>>();
        let fields = records.iter().map(|r| [r.rule, r.start, r.end, r.children]);
        fields.collect()
    }

    fn leaf(rule: usize, start: usize, end: usize) -> Tree {
        Tree {
            rule,
            start,
            end,
            children: vec![],
        }
    }

    #[test]
    fn records_in_stored_order() {
        let records = [[1, 0, 1, 0], [0, 0, 1, 1], [1, 2, 3, 0], [0, 0, 3, 2]];
        assert_eq!(fields(&STORED), records);
        assert_eq!(fields(&LONGER), records);
        assert_eq!(
            fields(&FAR),
            [[1, 255, 256, 0], [2, 258, 4_000, 0], [0, 0, 4_000, 2]]
        );
        assert_eq!(Reading::new(STORED).records().len(), 4);
        assert_eq!(Reading::new(FAR).records().len(), 3);
    }

    /// Both bytes of a number count, of the children too.
    #[test]
    fn many_children() {
        let leaves = (0..0x0102).flat_map(|_| [1, 3, 4, 3, 4, 0, 0]);
        let root = [0, 3, 4, 3, 4, 1, 2];
        let stored: Vec<u8> = [2, 7, 26, 1, 3]
            .into_iter()
            .chain(leaves)
            .chain(root)
            .collect();
        assert_eq!(stored.len(), stored_length(0x0103, 4_000));
        assert_eq!(fields(&stored)[0x0102], [0, 0x0304, 0x0304, 0x0102]);
        let tree = Reading::new(stored).tree();
        assert_eq!((tree.records(), tree.children.len()), (0x0103, 0x0102));
        assert_eq!(tree.children[0], leaf(1, 0x0304, 0x0304));
    }

    /// The line's length gives the version, and the version the size of a record.
    #[test]
    fn versions() {
        for (line_length, version, length) in [
            (0, 1, 25),
            (3, 1, 25),
            (255, 1, 25),
            (256, 2, 33),
            (4_000, 2, 33),
        ] {
            assert_eq!(stored_version(line_length), version, "{line_length}");
            assert_eq!(stored_length(4, line_length), length, "{line_length}");
            assert_eq!(stored_length(0, line_length), 5, "{line_length}");
        }
        assert_eq!((Reading::new(STORED).version(), STORED.len()), (1, 25));
        assert_eq!((Reading::new(LONGER).version(), LONGER.len()), (2, 33));
        assert_eq!(crate::MOST_STORED, 7_005);
    }

    #[test]
    fn the_tree_nests_them() {
        let tree = Tree {
            children: vec![
                Tree {
                    children: vec![leaf(1, 0, 1)],
                    ..leaf(0, 0, 1)
                },
                leaf(1, 2, 3),
            ],
            ..leaf(0, 0, 3)
        };
        assert_eq!(Reading::new(STORED).tree(), tree);
        assert_eq!(Reading::new(LONGER).tree(), tree);
        assert_eq!(tree.records(), 4);
        assert_eq!(tree.children[1].part(b"7+2"), b"2");
        let far = Tree {
            children: vec![leaf(1, 255, 256), leaf(2, 258, 4_000)],
            ..leaf(0, 0, 4_000)
        };
        assert_eq!(Reading::new(FAR).tree(), far);
        assert_eq!(far.children[1].part(&[b'a'; 4_000]).len(), 3_742);
    }
}
