//! Compiles tinydns data into records and answers questions about them.
//!
//! The work is done by a proved library, which is linked in; this crate hands
//! it slices and turns its numbers into Rust values. Nothing here panics or
//! reads out of bounds, whatever source, records or question it is given.
//!
//! A name server compiles its source once, keeps the bytes, and asks them. The
//! reply says which response to send:
//!
//! ```
//! use vahmizar::{compile_to_vec, Moment, Question, Records, Reply};
//!
//! let bytes = compile_to_vec(b".b:192.0.2.1:a\n+h.b:192.0.2.2\n+h.b:192.0.2.3\n", 1)?;
//! let name = b"\x01h\x01b\x00";
//! let question = Question::new(name, 1, [192, 0, 2, 9], Moment::now());
//! match Records::new(&bytes).ask(&question)? {
//!     Reply::Records(answers) => {
//!         let addresses: Vec<_> = answers.iter().map(|answer| answer.data).collect();
//!         assert_eq!(addresses, [[192, 0, 2, 2], [192, 0, 2, 3]]);
//!     }
//!     Reply::Referral { zone, servers, .. } => panic!("to {servers:?} for {zone:?}"),
//!     Reply::NoSuchType => panic!("NOERROR without answers"),
//!     Reply::NoSuchName => panic!("NXDOMAIN"),
//!     _ => panic!("REFUSED"),
//! }
//! # Ok::<(), Box<dyn std::error::Error>>(())
//! ```
//!
//! A source with a bad line is refused as a whole, with the line and the field:
//!
//! ```
//! let refusal = vahmizar::compile_to_vec(b"+a.b:192.0.2.256", 1).unwrap_err();
//! assert_eq!((refusal.line, refusal.field), (1, 2));
//! assert_eq!(refusal.to_string(), "line 1, field 2: refused 6: address or prefix");
//! ```

mod compiling;
mod moment;
mod question;
mod records;
mod refusal;
mod reply;
pub mod sys;
mod walk;
mod zones;

pub use compiling::{check, compile, compile_to_vec, LONGEST_SOURCE};
pub use moment::Moment;
pub use question::{Question, ALL_TYPES};
pub use records::Records;
pub use refusal::{AskRefusal, Fault, Refusal};
pub use reply::{Answer, Outcome, Reply, Told};

/// The program of README.md, run as a test.
#[cfg(doctest)]
#[doc = include_str!("../../../README.md")]
struct Readme;
