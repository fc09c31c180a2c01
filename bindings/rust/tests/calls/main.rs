//! The crate held to document 01, on accepted files, refusals and damaged bytes.

mod common;
mod damaged;
mod files;
mod refusals;
