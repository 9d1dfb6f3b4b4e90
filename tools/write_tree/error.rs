//! What is wrong with a program text, and at which byte of it.

pub struct Error {
    pub place: usize,
    pub message: String,
}

pub fn error<T>(place: usize, message: impl Into<String>) -> Result<T, Error> {
    Err(Error { place, message: message.into() })
}

impl Error {
    /// Line, column and message. Both count from 1; a column is a byte.
    pub fn show(&self, text: &str) -> String {
        let before = &text.as_bytes()[..self.place];
        let line = 1 + before.iter().filter(|byte| **byte == b'\n').count();
        let column = 1 + before.iter().rev().take_while(|byte| **byte != b'\n').count();
        format!("{line}:{column}: {}", self.message)
    }
}
