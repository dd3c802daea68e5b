// Changed from the source document qspquest-core/src/lib.rs (Apache-2.0); CHANGES.md lists each change.
/// Stable failure categories. No partial scientific output accompanies an error.
#[derive(Clone, Debug, PartialEq)]
pub enum ErrorCode {
    InvalidInput,
    Unit,
    UnknownUnit,
    Type,
    UnknownSymbol,
    ExpressionLimit,
    Unsupported,
    Domain,
    Invariant,
    Solver,
    WorkBudget,
    OutputBudget,
}
#[derive(Clone, Debug, PartialEq)]
pub struct Error {
    pub code: ErrorCode,
    pub message: String,
    pub time: Option<f64>,
    pub expression: Option<String>,
}
impl Error {
    pub fn new(code: ErrorCode, message: impl Into<String>) -> Self {
        Self {
            code,
            message: message.into(),
            time: None,
            expression: None,
        }
    }
}
