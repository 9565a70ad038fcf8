//! The proved library beside the second program: between their types, and images that a host should not lend.

pub mod convert;
pub mod hostile;
