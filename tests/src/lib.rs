//! Another implementation of documents 01 and 02, written from their sentences alone, and the verified library to test
//! and time against it.

pub mod both;
pub mod built;
pub mod cases;
pub mod files;
pub mod given;
pub mod guarded;
pub mod library;
pub mod lists;
pub mod mzk;
pub mod oracle;
pub mod progress;
