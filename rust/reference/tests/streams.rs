//! Record bytes that compiling didn't write: what the reader takes and refuses.

mod support;
use reference::Question;
use support::NOW;

fn number(bytes: &[u8]) -> u64 {
    ask(&ours(bytes), b"\x01q\x00", &[0; 4], NOW)
}

/// The bytes behind a zone of the root, so that every name is ours.
fn ours(bytes: &[u8]) -> Vec<u8> {
    [&support::compiled(b"."), bytes].concat()
}

fn ask(bytes: &[u8], name: &[u8], client: &[u8], moment: u64) -> u64 {
    let question = Question {
        name,
        record_type: 255,
        client,
        moment,
    };
    reference::ask(bytes, &question, 0).number
}

fn record(key: &[u8], data: &[u8]) -> Vec<u8> {
    let mut bytes = (key.len() as u32).to_le_bytes().to_vec();
    bytes.extend_from_slice(&(data.len() as u32).to_le_bytes());
    bytes.extend_from_slice(key);
    bytes.extend_from_slice(data);
    bytes
}

/// Data of a record: the flag with its lo, ttl and time.
fn data(flag: &[u8], ttl: u32, time: u64) -> Vec<u8> {
    let mut bytes = vec![0, 1];
    bytes.extend_from_slice(flag);
    bytes.extend_from_slice(&ttl.to_be_bytes());
    bytes.extend_from_slice(&time.to_be_bytes());
    bytes
}

fn plain() -> Vec<u8> {
    data(b"=", 5, 0)
}

#[test]
fn questions_are_judged_in_order_and_before_the_bytes() {
    let bad = b"\x01";
    assert_eq!(ask(bad, b"", &[], u64::MAX), 15);
    assert_eq!(ask(bad, b"\x00", &[], 1 << 63), 16);
    assert_eq!(ask(bad, b"\x00", &[0; 5], (1 << 63) - 1), 17);
    assert_eq!(ask(bad, b"\x00", &[0; 16], 0), 14);
    assert_eq!(ask(b"", b"\x00", &[0; 16], 0), 18);
    let long = [&b"\x3fa"[..], &[b'a'; 62]].concat().repeat(4);
    let name = |cut: usize| {
        let mut name = long.clone();
        name[192] = 63 - cut as u8;
        name.truncate(256 - cut);
        name.push(0);
        name
    };
    assert_eq!(name(2).len(), 255);
    assert_eq!(ask(b"", &name(2), &[0; 4], 0), 18);
    assert_eq!(ask(b"", &name(1), &[0; 4], 0), 15);
    assert_eq!(ask(b"", b"\x01a\x00\x00", &[0; 4], 0), 15);
}

#[test]
fn lengths_that_do_not_fit() {
    let whole = record(b"\x01q\x00", &plain());
    assert_eq!(number(&whole), 0);
    for cut in 1..whole.len() {
        assert_eq!(number(&whole[..cut]), 14, "{cut}");
    }
    for more in 1..8 {
        let bytes = [&whole[..], &[0; 8][..more]].concat();
        assert_eq!(number(&bytes), 14, "{more}");
    }
    let mut wrapped = whole.clone();
    wrapped[..8].copy_from_slice(&[0xff, 0xff, 0xff, 0xff, 19, 0, 0, 0]);
    assert_eq!(number(&wrapped), 14);
}

#[test]
fn keys() {
    let judged = |key: &[u8], flag: &[u8]| number(&record(key, &data(flag, 5, 0)));
    assert_eq!(judged(b"\x01q\x00", b"="), 0);
    assert_eq!(judged(b"\x00", b"="), 18);
    assert_eq!(judged(b"", b"="), 14);
    assert_eq!(judged(b"\x01Q\x00", b"="), 14);
    assert_eq!(judged(b"\x01\xc1\x00", b"="), 18);
    assert_eq!(judged(b"\x02[ \x00", b"="), 18);
    assert_eq!(judged(b"\x01q", b"="), 14);
    assert_eq!(judged(b"\x01q\x00\x00", b"="), 14);
    assert_eq!(judged(b"\x01*\x00", b"="), 14);
    assert_eq!(judged(b"\x01*\x00", b">in"), 14);
    assert_eq!(judged(b"\x01*\x00", b"*"), 18);
    assert_eq!(judged(b"\x02**\x00", b"="), 18);
    assert_eq!(judged(b"\x01a\x01*\x00", b"="), 18);
    assert_eq!(judged(b"\x00", b"*"), 0);
    let key = |length: usize| {
        let mut key = [&b"\x3f"[..], &[b'a'; 63]].concat().repeat(4);
        key[192] = (length - 194) as u8;
        key.truncate(length - 1);
        key.push(0);
        key
    };
    assert_eq!(judged(&key(253), b"*"), 18);
    assert_eq!(judged(&key(254), b"*"), 14);
    assert_eq!(judged(&key(255), b"="), 18);
}

#[test]
fn location_keys() {
    let judged = |key: &[u8], lo: &[u8]| number(&record(key, lo));
    assert_eq!(judged(b"\0%", b"in"), 18);
    assert_eq!(judged(b"\0%1234", b"i\0"), 18);
    assert_eq!(judged(b"\0%12345", b"in"), 14);
    assert_eq!(judged(b"\0#", b"in"), 14);
    assert_eq!(judged(b"\0\0", &plain()), 14);
    for lo in [&b""[..], b"i", b"inn", b"\0\0", b"\0a", b"1a", b"a1"] {
        assert_eq!(judged(b"\0%", lo), 14, "{lo:?}");
    }
}

#[test]
fn fixed_fields() {
    let judged = |data: &[u8]| number(&record(b"\x01q\x00", data));
    for flag in 0..=255u8 {
        let expected = if flag == b'=' { 0 } else { 14 };
        if !b">*+".contains(&flag) {
            assert_eq!(judged(&data(&[flag], 5, 0)), expected, "{flag}");
        }
    }
    let with_lo = data(b">in", 5, 0);
    for cut in 0..17 {
        assert_eq!(judged(&with_lo[..cut]), 14, "{cut}");
    }
    assert_eq!(judged(&with_lo), 18);
    for lo in [b">\0\0", b">\0a", b">1\0", b">a1"] {
        assert_eq!(judged(&data(lo, 5, 0)), 14);
    }
    assert_eq!(judged(&data(b"=", 0x7fff_ffff, 0)), 0);
    assert_eq!(judged(&data(b"=", 0x8000_0000, 0)), 14);
    assert_eq!(judged(&data(b"=", 0, (1 << 63) - 1)), 0);
    assert_eq!(judged(&data(b"=", 0, 1 << 63)), 14);
}

#[test]
fn a_bad_record_behind_the_answer_refuses_all() {
    let mut bytes = record(b"\x01q\x00", &plain());
    assert_eq!(number(&bytes), 0);
    bytes.extend(record(b"\x01q\x00", &data(b"=", u32::MAX, 0)));
    assert_eq!(number(&bytes), 14);
}

#[test]
fn ancestors_go_by_labels() {
    let wildcard = ours(&record(b"\x01b\x00", &data(b"*", 5, 0)));
    assert_eq!(ask(&wildcard, b"\x01a\x01b\x00", &[0; 4], NOW), 0);
    assert_eq!(ask(&wildcard, b"\x03a\x01b\x00", &[0; 4], NOW), 18);
}
