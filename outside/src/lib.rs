//! The independent side of the checker of pen-arm jobs: another implementation, a notation, jobs and vectors.
#![deny(unsafe_code)]

pub mod coverage;
pub mod exchange;
#[allow(unsafe_code)]
#[cfg(all(feature = "linked", not(feature = "piped")))]
pub mod ffi;
#[cfg(feature = "piped")]
#[path = "piped.rs"]
pub mod ffi;
pub mod generate;
pub mod plain;
pub mod text;
pub mod vectors;
