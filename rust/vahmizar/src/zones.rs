//! The zone that holds a name.

use crate::question::Question;
use crate::records::Records;
use crate::refusal::AskRefusal;
use crate::reply::{Answer, Outcome};
use crate::walk::Walk;

/// The type of NS records.
const NS: u16 = 2;

impl<'a> Records<'a> {
    /// The name, on the wire and in lower case, of the zone that decides a
    /// question: the nearest of the asked name and its ancestors with NS
    /// records of its own. `None` for [`Reply::NotOurs`](crate::Reply::NotOurs).
    ///
    /// RFC 2308 wants the zone's SOA record with a negative answer:
    ///
    /// ```
    /// use vahmizar::{compile_to_vec, Moment, Question, Records, Reply};
    ///
    /// let bytes = compile_to_vec(b".b:192.0.2.1:a\n+h.b:192.0.2.2", 1)?;
    /// let records = Records::new(&bytes);
    /// let mut question = Question::new(b"\x01x\x01b\x00", 1, [192, 0, 2, 9], Moment::now());
    /// assert_eq!(records.ask(&question)?, Reply::NoSuchName);
    ///
    /// question.name = records.zone(&question)?.expect("one of ours");
    /// question.record_type = 6;
    /// assert_eq!(question.name, b"\x01b\x00");
    /// assert!(matches!(records.ask(&question)?, Reply::Records(_)));
    /// # Ok::<(), Box<dyn std::error::Error>>(())
    /// ```
    ///
    /// It takes a call of the library for each name on the way.
    pub fn zone(&self, question: &Question<'_>) -> Result<Option<&'a [u8]>, AskRefusal> {
        let mut asked = *question;
        asked.record_type = NS;
        loop {
            let told = self.ask_nth(&asked, 0)?;
            let key = told.answer.map_or(&[][..], |answer| self.key_of(&answer));
            match told.outcome {
                Outcome::NotOurs => return Ok(None),
                Outcome::Referral => return Ok(Some(key)),
                // A wildcard's key is shorter than the names it answers for.
                Outcome::Records if key.len() == asked.name.len() => return Ok(Some(key)),
                _ => (),
            }
            match parent(asked.name) {
                Some(parent) => asked.name = parent,
                None => return Ok(None),
            }
        }
    }

    /// The key of the record that an answer was taken from: the one that ends
    /// where its data do. Bytes that were answered from have it.
    pub(crate) fn key_of(&self, answer: &Answer<'_>) -> &'a [u8] {
        let mut left = answer.place + answer.data.len();
        for record in Walk::new(self.bytes()) {
            match left.checked_sub(record.whole.len()) {
                Some(0) => return record.key,
                Some(behind) => left = behind,
                None => break,
            }
        }
        &[]
    }
}

/// The name without its first label; the root has none.
fn parent(name: &[u8]) -> Option<&[u8]> {
    let (&length, behind) = name.split_first()?;
    behind.get(length.into()..).filter(|_| length > 0)
}

#[cfg(test)]
mod tests {
    use super::*;
    use crate::{compile_to_vec, Moment};

    #[test]
    fn parents() {
        assert_eq!(parent(b"\x01a\x01b\x00"), Some(&b"\x01b\x00"[..]));
        assert_eq!(parent(b"\x01b\x00"), Some(&b"\x00"[..]));
        for none in [&b"\x00"[..], b"", b"\x02b"] {
            assert_eq!(parent(none), None);
        }
    }

    #[test]
    fn zones() {
        // A SOA without NS records and a wildcard's NS records make no zone.
        let source = b".b\nZs.b:m:r\n&*.w.b::x.y\nZ*.w.b:m:r\n.Z.b\n&d.z.b::x.y\n+c:192.0.2.1";
        let bytes = compile_to_vec(source, 1).unwrap();
        let records = Records::new(&bytes);
        let zone = |name| {
            let question = Question::new(name, 1, [192, 0, 2, 9], Moment::from_unix(0));
            records.zone(&question)
        };
        assert_eq!(zone(b"\x01b\x00"), Ok(Some(&b"\x01b\x00"[..])));
        assert_eq!(zone(b"\x01h\x01s\x01b\x00"), Ok(Some(&b"\x01b\x00"[..])));
        assert_eq!(zone(b"\x01h\x01w\x01b\x00"), Ok(Some(&b"\x01b\x00"[..])));
        assert_eq!(
            zone(b"\x01Q\x01Z\x01B\x00"),
            Ok(Some(&b"\x01z\x01b\x00"[..]))
        );
        let handed_on = &b"\x01d\x01z\x01b\x00"[..];
        assert_eq!(zone(b"\x01q\x01d\x01z\x01b\x00"), Ok(Some(handed_on)));
        assert_eq!(zone(b"\x01c\x00"), Ok(None));
        assert_eq!(zone(b"\x00"), Ok(None));
        assert_eq!(zone(b"\x01c"), Err(AskRefusal::Name));
    }
}
