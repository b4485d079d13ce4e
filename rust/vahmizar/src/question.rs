//! Questions.

use std::net::IpAddr;

use crate::moment::Moment;

/// The record type of a question for records of all types.
pub const ALL_TYPES: u16 = 255;

/// A question of a client.
#[derive(Clone, Copy, Debug, PartialEq, Eq, Hash)]
#[non_exhaustive]
pub struct Question<'q> {
    /// The name on the wire, as it stands in a packet without compression.
    /// Letter case doesn't count.
    pub name: &'q [u8],
    /// The record type; [`ALL_TYPES`] for all.
    pub record_type: u16,
    /// The client's address, which decides its location. An IPv4 address
    /// mapped to IPv6 counts as IPv6; turn it back first.
    pub client: IpAddr,
    /// When the question is asked.
    pub moment: Moment,
}

impl<'q> Question<'q> {
    /// A question of all its parts.
    ///
    /// ```
    /// use vahmizar::{Moment, Question};
    ///
    /// let question = Question::new(b"\x01b\x00", 15, [192, 0, 2, 9], Moment::now());
    /// assert!(question.client.is_ipv4());
    /// ```
    pub fn new(
        name: &'q [u8],
        record_type: u16,
        client: impl Into<IpAddr>,
        moment: Moment,
    ) -> Question<'q> {
        Question {
            name,
            record_type,
            client: client.into(),
            moment,
        }
    }
}
