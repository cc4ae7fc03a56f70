//! What was measured, in words (`words`) and for programs (`json`).

pub mod json;
pub mod words;
