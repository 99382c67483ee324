//! The same traffic through the proved shelf and through this program, timed.

pub mod child;
pub mod clock;
pub mod plan;
pub mod report;
pub mod rust;
pub mod stack;
