//! Copies of the second implementation, each with one mistake of `edits.txt`.
//!
//! They stand in a package of their own, which needs no library, since they
//! take long to build.

include!(concat!(env!("OUT_DIR"), "/copies.rs"));
