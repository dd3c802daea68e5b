//! The numbers (docs/REFERENCE.md, 6) of the refusals that the reference's compiler gives.
use crate::errors::ErrorCode;

/// The number, nothing for an error that the compiler doesn't give.
pub fn number(code: &ErrorCode) -> Option<usize> {
    Some(match code {
        ErrorCode::ExpressionLimit => 4,
        ErrorCode::InvalidInput => 5,
        ErrorCode::UnknownSymbol => 6,
        ErrorCode::Type => 7,
        ErrorCode::Unsupported => 8,
        ErrorCode::Domain => 9,
        _ => return None,
    })
}
