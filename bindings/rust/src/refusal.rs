//! Document 01, "Numbers given back": every refusal, in the order of its number.

use core::fmt;

macro_rules! refusals {
    ($($number:literal $name:ident $(($need:ident))? $what:literal,)*) => {
        /// Why a call refused. A case that names a need holds it: how much would have been enough.
        #[derive(Clone, Copy, Debug, PartialEq, Eq, Hash)]
        #[non_exhaustive]
        pub enum Refusal {
            $(#[doc = concat!(stringify!($number), ": ", $what)] $name $(($need))?,)*
            /// A number that this crate does not know, of a newer library, and its detail.
            Unknown { number: u8, detail: usize },
        }

        impl Refusal {
            /// Document 01's number, 1 to 28, or the one that is unknown.
            pub fn number(self) -> u8 {
                match self {
                    $(refusals!(@pattern $name $($need)?) => $number,)*
                    Refusal::Unknown { number, .. } => number,
                }
            }

            /// Document 01's name, or `Unknown`.
            pub fn name(self) -> &'static str {
                match self {
                    $(refusals!(@pattern $name $($need)?) => stringify!($name),)*
                    Refusal::Unknown { .. } => "Unknown",
                }
            }

            fn what(self) -> &'static str {
                match self {
                    $(refusals!(@pattern $name $($need)?) => $what,)*
                    Refusal::Unknown { .. } => "this crate does not know the number; take one that is as new as the library",
                }
            }

            fn of(number: u8, detail: usize) -> Refusal {
                match number {
                    $($number => refusals!(@value detail $name $($need)?),)*
                    _ => Refusal::Unknown { number, detail },
                }
            }
        }
    };
    (@pattern $name:ident) => { Refusal::$name };
    (@pattern $name:ident $need:ident) => { Refusal::$name(_) };
    (@value $is:ident $name:ident) => { Refusal::$name };
    (@value $is:ident $name:ident $need:ident) => { Refusal::$name($is) };
}

refusals! {
    1 UnexpectedEnd "the input ends too early, or a `#` begins no bit vector; give one whole S-expression",
    2 Utf8Error "a symbol is not UTF-8; give symbols as UTF-8",
    3 StringParseError "a string has an escape of D800 to DFFF, which no text can hold; leave that character out",
    4 ParseIntError "a number has no digit, a byte that is no digit, or more than 128 bits; give one below 2^128",
    5 UnclosedSExpr "a bracket closes that was not opened; take it out",
    6 TrailingTokens "something follows the first S-expression; give one at a time",
    7 IntegerOverflow "a number does not fit its width, or a width 32 bits; give a smaller one",
    8 ZeroWidthBitVec "a bit vector has the width 0; give at least 1",
    9 InputTooLong "an input has more than 16,777,216 elements, or a text of tables more than 65,536 bytes; give a shorter one",
    10 NodeRoom(usize) "lend room for as many nodes, of four words each, and call again",
    11 TextRoom(usize) "lend as many bytes for the text, and call again",
    12 DepthRoom(usize) "lend as many entries of the bracket stack, and call again",
    13 UnexpectedModel "the reply is no list of definitions; give the answer to get-model alone",
    14 UnknownType "a sort is written in no known form; name it in the table of sorts",
    15 UnknownLiteral "an atom is no value; list it among the enum members, or ask the solver for values",
    16 UnmatchedType "a value has another sort than its place; compare the tables with the script",
    17 UnmatchedFieldType "a record's field has another sort than its row says; compare the row with the script",
    18 UnmatchedRecordType "a record has other fields than its row says; compare the row with the script",
    19 InvalidOptionType "an option's value has a sort that is no option; compare the tables with the script",
    20 InvalidSetType "a set's value has a sort that is no set; compare the tables with the script",
    21 UnexpectedForm "a test in a function is no equation with its argument; ask the solver for a table",
    22 NotCovered "a value is written by an operator that is not read; ask the solver for plain values",
    23 NoSortRow "a sort has no row; add it to the table of sorts",
    24 TooNested "a value or a sort is more than 1,023 levels deep; ask for a flatter one",
    25 BadTable "a table, or a list of ends, breaks a rule; mend it",
    26 OutRoom(usize) "lend as many bytes, or words of a table, for the output, and call again",
    27 BadArena "the words and the text are no tree's arena; pass them as the reader left them",
    28 SetUnionNonLiterals "a set is a union of what are no literal sets; ask the solver for plain values",
}

impl Refusal {
    /// The exact need for 10, 11, 12 and 26, what the library told with an unknown number, else 0.
    pub fn detail(self) -> usize {
        match self {
            Refusal::NodeRoom(need) | Refusal::TextRoom(need) | Refusal::DepthRoom(need) | Refusal::OutRoom(need) => {
                need
            }
            Refusal::Unknown { detail, .. } => detail,
            _ => 0,
        }
    }

    /// The refusal of a word that is not 0: the number in the low byte, the detail in the seven above it.
    pub(crate) fn from_word(word: u64) -> Refusal {
        Refusal::of((word & 255) as u8, (word >> 8) as usize)
    }
}

/// Document 01's name, or `Unknown` and the number; the detail where it is not 0; and what to do.
impl fmt::Display for Refusal {
    fn fmt(&self, f: &mut fmt::Formatter<'_>) -> fmt::Result {
        f.write_str(self.name())?;
        if let Refusal::Unknown { number, .. } = self {
            write!(f, " {number}")?;
        }
        match self.detail() {
            0 => write!(f, ": {}", self.what()),
            detail => write!(f, " ({detail}): {}", self.what()),
        }
    }
}

impl core::error::Error for Refusal {}

#[cfg(test)]
mod tests {
    use alloc::string::ToString;

    use super::*;

    /// Every number comes back from its word, and no word has another refusal's number.
    #[test]
    fn words_and_back() {
        for number in 1..=28 {
            let refusal = Refusal::from_word(number + 256 * 7);
            assert_eq!(u64::from(refusal.number()), number);
            assert_eq!(refusal.detail(), if [10, 11, 12, 26].contains(&number) { 7 } else { 0 });
            assert_ne!(refusal.name(), "Unknown");
        }
    }

    /// Any other number, with the largest detail, is told as it is.
    #[test]
    fn unknown_numbers() {
        for number in (29..=255).chain([0]) {
            let refusal = Refusal::from_word(u64::from(number) + (u64::MAX << 8));
            assert_eq!(refusal, Refusal::Unknown { number, detail: (1 << 56) - 1 });
            assert_eq!((refusal.number(), refusal.name(), refusal.detail()), (number, "Unknown", (1 << 56) - 1));
        }
        let told = Refusal::from_word(29 + 256 * 7).to_string();
        assert!(told.starts_with("Unknown 29 (7): this crate does not know the number"), "{told}");
        assert!(Refusal::from_word(255).to_string().starts_with("Unknown 255: "));
    }
}
