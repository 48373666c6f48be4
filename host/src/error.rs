//! Stands in for the original's errors: of one it keeps the message.

pub enum ErrorLevel {
    Warning,
    Error,
}

pub enum ValidationErrorType {
    IdentityConstraint,
}

pub struct StructuredError {
    pub message: String,
}

impl StructuredError {
    pub fn with_level(self, _: ErrorLevel) -> Self {
        self
    }
}
