//! Why a call is refused.
use std::fmt;

macro_rules! refusals {
    ($($name:ident = $number:literal, $cause:literal;)*) => {
        /// The causes of a refusal, with the numbers of documents 01 and 02.
        #[derive(Clone, Copy, Debug, PartialEq, Eq, PartialOrd, Ord, Hash)]
        #[repr(u64)]
        pub enum Refusal {
            $(#[doc = $cause] $name = $number,)*
        }

        impl Refusal {
            /// The refusal of a number, if there is one.
            pub fn of(number: u64) -> Option<Self> {
                match number {
                    $($number => Some(Self::$name),)*
                    _ => None,
                }
            }

            pub fn cause(self) -> &'static str {
                match self {
                    $(Self::$name => $cause,)*
                }
            }
        }
    };
}

refusals! {
    IndexRuleBroken = 1, "lent memory breaks the index rule";
    RecordAfterFinish = 2, "record after finish";
    BeforeFinish = 3, "search or save before finish";
    DataTooLong = 4, "data over 4,096 bytes";
    NoLife = 5, "created_at >= destroyed_at";
    AddressTooHigh = 6, "address + length > 2^64 - 1";
    TooManyNodes = 7, "node charge over capacity (load: nodes)";
    TooManyEntries = 8, "entry charge over capacity (load: entries)";
    QueryTooLong = 9, "query over 256 bytes";
    ScratchTooSmall = 10, "more places than scratch holds";
    TooManyRows = 11, "more rows than the row buffer";
    SaveBufferTooShort = 12, "save buffer too short";
    CutShort = 13, "stream or image ends inside a field";
    UnknownKind = 14, "space kind over 4, node kind unknown";
    ImageBroken = 15, "image layout or index rule broken, bytes left over";
    CapacityRefused = 16, "opening with 0 or over 1,048,576 nodes or entries, or with more than the lent memory holds";
    NoForm = 17, "program line is no form";
    Conflict = 18, "a block shares a byte address and a live tick with a piece held (load: two pieces do)";
    WrongNumber = 19, "no donation number with its check character: the length, a character or the check is wrong";
}

impl Refusal {
    pub fn number(self) -> u64 {
        self as u64
    }
}

impl fmt::Display for Refusal {
    fn fmt(&self, f: &mut fmt::Formatter<'_>) -> fmt::Result {
        write!(f, "refused {}: {}", self.number(), self.cause())
    }
}

impl std::error::Error for Refusal {}

/// A stream that a refusal stopped. The blocks before it were taken, so many of them, and stay recorded.
#[derive(Clone, Copy, Debug, PartialEq, Eq, PartialOrd, Ord, Hash)]
pub struct Stopped {
    pub taken: u64,
    pub refusal: Refusal,
}

impl fmt::Display for Stopped {
    fn fmt(&self, f: &mut fmt::Formatter<'_>) -> fmt::Result {
        write!(f, "stopped after {} blocks, {}", self.taken, self.refusal)
    }
}

impl std::error::Error for Stopped {}

/// The calls promise that every answer is 0 or one of these numbers.
pub(crate) fn answer(number: u64) -> Result<(), Refusal> {
    match number {
        0 => Ok(()),
        n => Err(Refusal::of(n).expect("a number of document 01 or 02")),
    }
}
