//! The yardstick of Mazurlot's library: a plain Rust reader that makes the same checks and lists the same leaves, and the segments that
//! both are measured on. The program of this package measures; it needs the library, this part does not.

pub mod plain;
pub mod segments;
