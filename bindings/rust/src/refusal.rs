//! The refusals: numbers, names and texts.

use core::fmt;

/// Why a call was refused. The numbers are the library's; 4 is withdrawn and not given. Later versions may have more.
#[derive(Clone, Copy, Debug, PartialEq, Eq, Hash)]
#[non_exhaustive]
pub enum Refusal {
    /// 1: the number of input inks is outside 1..=15.
    InputInks,
    /// 2: the number of output inks is outside 1..=15, or for a cube method neither 3 nor 4.
    OutputInks,
    /// 3: a size in use is 0.
    ZeroSize,
    /// 5: the table would have more than 4,294,967,295 entries.
    LargeTotal,
    /// 6: the table is shorter than the layout asks.
    ShortTable,
    /// 7: the number of inputs, or of node coordinates, is not that of the input inks.
    InputCount,
    /// 8: a buffer to be written is too short: shorter than the number of output inks, for a CLUT, a slab or a table file than its table,
    /// for values than their count, for a table file to be written than the file.
    ShortAnswer,
    /// 9: a layout record is not one that an accepted layout gives. No function here takes a record.
    ForeignRecord,
    /// 10: a node, of a cell or of the coordinates, is past the last line of its axis.
    OutsideGrid,
    /// 11: the ink to cut is not one of the input inks, counted from 1, or there is only one.
    NoSuchInk,
    /// 12: the line to cut at is not below the size of the ink to cut.
    NoSuchLine,
    /// 13: a CLUT element has under 20 bytes.
    ShortElement,
    /// 14: the precision, the bytes of a value, is neither 1 nor 2.
    Precision,
    /// 15: there is too little data, for the table of a CLUT element or for the count of values.
    ShortData,
    /// 16: an input of a lookup is a NaN.
    NanInput,
    /// 17: a table file is not exactly block 0 and the blocks that its table needs.
    FileLength,
    /// 18: the check of a table file's block is not the sum of the words before it.
    BlockCheck,
    /// 19: the number of a table file's block is not its place, counted from 0.
    BlockNumber,
    /// 20: a table file's filling, or a size that is not in use, is not 0.
    BlockFilling,
    /// A number that this binding does not know: the archive is of another version.
    Other(u32),
}

/// Each refusal with its number and its text, which is the C header's.
const KNOWN: [(Refusal, u32, &str); 19] = [
    (
        Refusal::InputInks,
        1,
        "the number of input inks is outside 1..15",
    ),
    (
        Refusal::OutputInks,
        2,
        "the number of output inks is outside 1..15, or for a cube method not 3 or 4",
    ),
    (Refusal::ZeroSize, 3, "a grid size in use is 0"),
    (
        Refusal::LargeTotal,
        5,
        "the table would have more than 4,294,967,295 entries",
    ),
    (
        Refusal::ShortTable,
        6,
        "the table is shorter than the sizes ask",
    ),
    (
        Refusal::InputCount,
        7,
        "the number of inputs or coordinates is not that of the input inks",
    ),
    (
        Refusal::ShortAnswer,
        8,
        "a buffer to be written is too short",
    ),
    (
        Refusal::ForeignRecord,
        9,
        "the record is not one that an accepted layout gives",
    ),
    (Refusal::OutsideGrid, 10, "a node is outside the grid"),
    (
        Refusal::NoSuchInk,
        11,
        "the ink to cut is not an ink, or it is the only one",
    ),
    (
        Refusal::NoSuchLine,
        12,
        "the line to cut at is not one of the ink",
    ),
    (
        Refusal::ShortElement,
        13,
        "the CLUT element has under 20 bytes",
    ),
    (Refusal::Precision, 14, "the precision is neither 1 nor 2"),
    (Refusal::ShortData, 15, "there is too little data"),
    (Refusal::NanInput, 16, "an input is not a number"),
    (
        Refusal::FileLength,
        17,
        "the table file is not as long as its layout asks",
    ),
    (
        Refusal::BlockCheck,
        18,
        "a block's check is not the sum of its words",
    ),
    (
        Refusal::BlockNumber,
        19,
        "a block's number is not its place in the table file",
    ),
    (
        Refusal::BlockFilling,
        20,
        "the table file's filling or an unused size is not 0",
    ),
];

impl Refusal {
    /// The library's number for it.
    pub fn number(self) -> u32 {
        match self {
            Refusal::Other(number) => number,
            known => KNOWN
                .iter()
                .find(|row| row.0 == known)
                .map_or(0, |row| row.1),
        }
    }

    /// The refusal with a number that is not 0.
    fn of(number: u32) -> Refusal {
        let known = KNOWN.iter().find(|row| row.1 == number);
        known.map_or(Refusal::Other(number), |row| row.0)
    }
}

impl fmt::Display for Refusal {
    fn fmt(&self, f: &mut fmt::Formatter<'_>) -> fmt::Result {
        let text = KNOWN.iter().find(|row| row.0 == *self).map(|row| row.2);
        f.write_str(text.unwrap_or("no refusal of this version"))
    }
}

impl core::error::Error for Refusal {}

/// 0 is done; any other number is a refusal's.
pub(crate) fn told(number: u32) -> Result<(), Refusal> {
    match number {
        0 => Ok(()),
        other => Err(Refusal::of(other)),
    }
}
