//! What the harness's programs share: the library's calls, the other program,
//! the tables and recipes that all are given, and the checks of what they answer.

pub mod bandrolt;
pub mod checks;
pub mod collisions;
pub mod other;
pub mod random;
pub mod recipes;
pub mod report;
pub mod tables;
pub mod timing;
pub mod walks;
