//! Shim for `crate::diagnostic`: messages for end users, which are not carried.

use crate::spans::Span;

#[derive(Debug, Clone)]
pub struct Diagnostic;

impl Diagnostic {
    pub fn new_error(_message: impl Into<String>, _span: Option<Span>) -> Self {
        Self
    }

    pub fn add_note(&mut self, _message: impl Into<String>, _span: Option<Span>) {}
}
