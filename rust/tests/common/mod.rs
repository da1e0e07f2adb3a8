//! What the tests share: a plain second implementation, and seeded random files.

#[allow(dead_code)]
pub mod plain;
#[allow(dead_code)]
pub mod random;
