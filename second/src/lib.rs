//! The second program: the job engine once more, written from document 01
//! and the requests after it alone. It shares no code with the engine it is
//! held against.

pub mod alone;
pub mod book;
pub mod check;
pub mod compare;
pub mod engine;
pub mod files;
pub mod generate;
pub mod job;
pub mod plain;
pub mod program;
pub mod script;
