//! Compares the proved library, through its C calls, with a second
//! implementation of the same rules, on many made-up inputs.
//!
//! Each case is made from a seed and its number alone, so that it can be run
//! again by itself.

pub mod agreement;
pub mod asking;
pub mod borderline;
pub mod cases;
pub mod compiling;
pub mod crowd;
pub mod difference;
pub mod edges;
pub mod family;
pub mod fields;
pub mod guarded;
pub mod hostile;
pub mod independent;
pub mod index;
pub mod joining;
pub mod joins;
pub mod likeness;
pub mod lines;
pub mod marks;
pub mod meaning;
pub mod moments;
pub mod names;
pub mod near_keys;
pub mod pairs;
pub mod parts;
pub mod questions;
pub mod random;
pub mod reading;
pub mod sources;
pub mod speakers;
pub mod standing;
pub mod tally;
pub mod telling;
pub mod town_lines;
pub mod towns;
pub mod walk;
pub mod worked;
pub mod zones;
