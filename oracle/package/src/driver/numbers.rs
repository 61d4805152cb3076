//! Document 01's numbers for the crate's errors.

use crate::symcc::decoder::sexpr::SExprParseError;
use crate::symcc::decoder::DecodeError;

pub fn of_reading(error: &SExprParseError) -> String {
    refused(number_of_reading(error))
}

pub fn number_of_reading(error: &SExprParseError) -> u8 {
    match error {
        SExprParseError::UnexpectedEnd => 1,
        SExprParseError::Utf8Error(_) => 2,
        SExprParseError::StringParseError(_) => 3,
        SExprParseError::ParseIntError(_) => 4,
        SExprParseError::UnclosedSExpr => 5,
        SExprParseError::TrailingTokens => 6,
        SExprParseError::IntegerOverflow => 7,
        SExprParseError::ZeroWidthBitVec => 8,
    }
}

/// Three errors of the crate have no number in document 01, for a model never brings them about: they show as they are.
pub fn of_decoding(error: &DecodeError) -> String {
    refused(match error {
        DecodeError::SExprParse(error) => return of_reading(error),
        DecodeError::ParseIntError(_) => 4,
        DecodeError::IntegerOverflow => 7,
        DecodeError::ZeroWidthBitVec => 8,
        DecodeError::UnexpectedModel => 13,
        DecodeError::UnknownType(_) => 14,
        DecodeError::UnknownLiteral(_) => 15,
        DecodeError::UnmatchedType(..) => 16,
        DecodeError::UnmatchedFieldType(..) => 17,
        DecodeError::UnmatchedRecordType => 18,
        DecodeError::InvalidOptionType(_) => 19,
        DecodeError::InvalidSetType(_) => 20,
        DecodeError::UnexpectedUnaryFunctionForm(_) => 21,
        DecodeError::SetUnionNonLiterals(..) => 28,
        DecodeError::UnknownVariable(_) | DecodeError::UnknownUUF(_) | DecodeError::BitVecError(_) => {
            return format!("unnumbered={error:?}")
        }
    })
}

/// The text of a refusal by its number.
pub fn refused(number: u8) -> String {
    format!("refused={number}")
}
