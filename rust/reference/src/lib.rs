//! A second implementation of the rules for tinydns data, written from the
//! rules alone. It exists to be compared with the proved library and shares
//! no code with it or with its wrapper.
//!
//! * [`compile()`] turns a source into record bytes;
//! * [`joined()`] tells from several sources what they answer as one;
//! * [`ask()`] answers a question over record bytes;
//! * [`meaning::told`] answers it from the lines themselves, without bytes;
//! * [`towns`] and [`index`] say what an answer doesn't depend on.

pub mod ask;
pub mod compile;
pub mod fault;
pub mod fields;
pub mod index;
pub mod joining;
pub mod line;
pub mod meaning;
pub mod name;
pub mod near;
pub mod outcome;
pub mod question;
pub mod record;
pub mod source;
pub mod stream;
pub mod towns;
pub mod values;

pub use ask::{ask, AskAnswer};
pub use compile::{compile, CompileAnswer};
pub use joining::joined;
pub use outcome::Outcome;
pub use question::Question;
pub use source::records;
