//! The proved library, by way of the binding `furlazon`, held against the
//! reference program; and a baseline for times.

pub mod image;
pub mod operations;
pub mod plain;
