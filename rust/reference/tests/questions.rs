//! Questions at the edges of the rules: levels, wildcards, times, locations.

mod support;
use support::*;

fn addresses(source: &str, name: &str) -> Vec<u8> {
    let handed = asked_as(source.as_bytes(), name, 1, &[127, 0, 0, 1], NOW);
    handed.into_iter().map(|(_, _, data)| data[3]).collect()
}

#[test]
fn letter_case_of_names_is_ignored_and_kept_in_data() {
    let source = "=HoSt.B:1.2.3.4";
    assert_eq!(addresses(source, "hOsT.b"), [4]);
    let pointer = asked(source.as_bytes(), "4.3.2.1.IN-ADDR.arpa");
    assert_eq!(pointer[0].2, wire("HoSt.B"));
    assert_eq!(addresses("+a[:1.2.3.4", "a{"), []);
}

#[test]
fn wildcards_answer_for_all_below_and_never_for_their_own_name() {
    let source = "+*.b:1.1.1.1\n+*:2.2.2.2";
    assert_eq!(addresses(source, "a.b"), [1]);
    assert_eq!(addresses(source, "*.b"), [1]);
    assert_eq!(addresses(source, "x.y.z.b"), [1]);
    assert_eq!(addresses(source, "b"), [2]);
    assert_eq!(addresses(source, ""), []);
    assert_eq!(addresses("+*a.b:1.1.1.1", "xa.b"), []);
    assert_eq!(addresses("+**.b:1.1.1.1", "x.b"), []);
}

#[test]
fn only_the_first_star_is_dropped() {
    let source = "+*.*.b:1.1.1.1";
    assert_eq!(addresses(source, "x.*.b"), [1]);
    assert_eq!(addresses(source, "x.y.b"), []);
    assert_eq!(addresses(source, "*.b"), []);
    assert_eq!(addresses("+a.*:1.1.1.1", "a.*"), [1]);
    assert_eq!(addresses("+a.*:1.1.1.1", "a.b"), []);
}

#[test]
fn stars_stay_in_names_put_together() {
    let source = b"&*.b:1.2.3.4:a";
    let server = wire("a.ns.*.b");
    assert_eq!(asked(source, "x.b"), [(2, 259_200, server)]);
    assert_eq!(asked(source, "a.ns.*.b"), [(1, 259_200, vec![1, 2, 3, 4])]);
    let source = b".b:1.2.3.4:*";
    assert_eq!(asked(source, "b")[1].2, wire("*.ns.b"));
    assert_eq!(asked(source, "q.ns.b"), [(1, 259_200, vec![1, 2, 3, 4])]);
    let source = b"=*.b:1.2.3.4";
    assert_eq!(asked(source, "4.3.2.1.in-addr.arpa")[0].2, wire("*.b"));
}

#[test]
fn the_level_is_chosen_before_the_type() {
    let source = "'a.b:x\n+*.b:1.1.1.1\n'*.c:x\n+*:2.2.2.2";
    assert_eq!(addresses(source, "a.b"), []);
    assert_eq!(addresses(source, "z.b"), [1]);
    assert_eq!(addresses(source, "z.c"), []);
    assert_eq!(addresses(source, "z"), [2]);
}

#[test]
fn what_cannot_be_seen_holds_no_level() {
    let source = "+a.b:3.3.3.3:::xx\n+*.b:1.1.1.1";
    assert_eq!(addresses(source, "a.b"), [1]);
    let source = "+a.b:3.3.3.3::7000000000000000\n+*.b:1.1.1.1";
    assert_eq!(addresses(source, "a.b"), [1]);
}

#[test]
fn nothing_between_blocks_a_wildcard() {
    let source = "+q.floyd.u:3.3.3.3\n'floyd.u:x\n+*.u:1.1.1.1";
    assert_eq!(addresses(source, "sally.floyd.u"), [1]);
}

#[test]
fn aliases_and_authorities_are_records_like_others() {
    let source = b"Ca:b\n.a\n.a";
    assert_eq!(asked_as(source, "a", 1, &[0; 4], NOW), []);
    assert_eq!(asked_as(source, "a", 6, &[0; 4], NOW).len(), 2);
    let types: Vec<_> = asked(source, "a").iter().map(|handed| handed.0).collect();
    assert_eq!(types, [5, 6, 2, 6, 2]);
}

#[test]
fn a_record_of_type_255_comes_with_all_only() {
    let source = b":a:255:x\n:a:99:y";
    assert_eq!(asked_as(source, "a", 255, &[0; 4], NOW).len(), 2);
    assert_eq!(asked_as(source, "a", 99, &[0; 4], NOW).len(), 1);
}

#[test]
fn times() {
    let time = 0x4000_0000_0001_0000;
    let at = |ttl: &str, moment: u64| -> Option<u32> {
        let source = format!("+a:1.2.3.4:{ttl}:{time:016x}");
        let handed = asked_as(source.as_bytes(), "a", 1, &[0; 4], moment);
        handed.first().map(|handed| handed.1)
    };
    assert_eq!(at("5", time - 1), None);
    assert_eq!(at("5", time), Some(5));
    assert_eq!(at("5", time + 1), Some(5));
    assert_eq!(at("0", time), None);
    for (left, lifetime) in [(1, 2), (2, 2), (3, 3), (3_600, 3_600), (3_601, 3_600)] {
        assert_eq!(at("0", time - left), Some(lifetime));
    }
    assert_eq!(at("0", 0), Some(3_600));
    assert_eq!(asked(b"+a:1.2.3.4:0", "a")[0].1, 0);
    assert_eq!(asked(b"+a:1.2.3.4:1", "a")[0].1, 1);
}

#[test]
fn locations() {
    let source = "%aa:10\n%bb:10.1\n%cc:10.1\n%dd\n%ee
+x:0.0.0.1:::aa\n+x:0.0.0.2:::bb\n+x:0.0.0.3:::cc\n+x:0.0.0.4:::dd\n+x:0.0.0.5";
    let from = |client: &[u8]| -> Vec<u8> {
        let handed = asked_as(source.as_bytes(), "x", 1, client, NOW);
        handed.into_iter().map(|handed| handed.2[3]).collect()
    };
    assert_eq!(from(&[10, 2, 0, 0]), [1, 5]);
    assert_eq!(from(&[10, 1, 0, 0]), [2, 5]);
    assert_eq!(from(&[11, 1, 0, 0]), [4, 5]);
    assert_eq!(from(&[10; 16]), [4, 5]);
    let mapped = [0, 0, 0, 0, 0, 0, 0, 0, 0, 0, 255, 255, 10, 1, 0, 0];
    assert_eq!(from(&mapped), [4, 5]);
}

#[test]
fn locations_are_compared_by_their_bytes() {
    let source = "%in\n+x:0.0.0.1:::IN\n+x:0.0.0.2:::i\n+x:0.0.0.3:::in";
    assert_eq!(addresses(source, "x"), [3]);
    assert_eq!(addresses("%i\n+x:0.0.0.1:::in\n+x:0.0.0.2:::i", "x"), [2]);
    assert_eq!(addresses("+x:0.0.0.1:::in", "x"), []);
}

#[test]
fn place_of_data_behind_a_location_and_of_no_data() {
    let bytes = compiled(b"%in\n.\n'x::::in");
    let question = reference::Question {
        name: b"\x01x\x00",
        record_type: 16,
        client: &[0; 4],
        moment: NOW,
    };
    let end = bytes.len() as u64;
    let answer = reference::ask(&bytes, &question, 0);
    assert_eq!(answer.numbers(), [0, 16, 86_400, end, 0, 3]);
    let zone = compiled(b".").len() as u64;
    assert_eq!(end, 12 + zone + 8 + 3 + 17);
}
