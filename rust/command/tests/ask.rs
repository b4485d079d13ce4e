//! `vahmizar ask`, run as a command: records, moments, clients, names.

mod support;

use support::Folder;

const SOURCE: &str = r#"
.panic.mil:1.8.7.55:a
.7.8.1.in-addr.arpa:1.8.7.55:a
=button.panic.mil:1.8.7.108
+six.panic.mil:3fff_0_1978_0308_1980_0125_0000_0000
@panic.mil:1.8.7.88:mail.panic.mil:10
S_sip._udp.panic.mil::a:5060:10:20
'panic.mil:say "hi" \072 \377
'empty.panic.mil
Cwww.panic.mil:button.panic.mil
:gen.panic.mil:999:\000\253x
+*.wild.panic.mil:1.8.7.200
+w.panic.mil:192.0.2.234:0:4000000038af1379
+w.panic.mil:192.0.2.235::4000000038af1379
%in:192.168
%ex
+place.panic.mil:192.168.1.2:::in
+place.panic.mil:1.2.3.4:::ex
"#;

fn records(test: &str) -> Folder {
    Folder::compiled(test, SOURCE)
}

#[test]
fn records_are_shown_as_people_write_them() {
    let folder = records("records_are_shown");
    for (name, record_type, said) in [
        ("button.panic.mil", "A", "A 1.8.7.108"),
        ("six.panic.mil", "AAAA", "AAAA 3fff:0:1978:308:1980:125::"),
        (
            "_sip._udp.panic.mil",
            "SRV",
            "SRV 10 20 5060 a.srv._sip._udp.panic.mil",
        ),
        ("108.7.8.1.in-addr.arpa", "PTR", "PTR button.panic.mil"),
        ("www.panic.mil", "CNAME", "CNAME button.panic.mil"),
        ("gen.panic.mil", "TYPE999", "TYPE999 \\# 3 00ab78"),
        ("empty.panic.mil", "ANY", "TXT \"\""),
        ("Any.Wild.Panic.Mil", "A", "A 1.8.7.200"),
    ] {
        let said = format!("{name} {record_type}: 1 record\n{name} 86400 {said}\n");
        assert_eq!(folder.good(&["ask", "out", name, record_type]), said);
    }
    assert_eq!(
        folder.good(&["ask", "out", "panic.mil", "any"]),
        "panic.mil ANY: 4 records\n\
         panic.mil 2560 SOA a.ns.panic.mil hostmaster.panic.mil 42 16384 2048 1048576 2560\n\
         panic.mil 259200 NS a.ns.panic.mil\n\
         panic.mil 86400 MX 10 mail.panic.mil\n\
         panic.mil 86400 TXT \"say \\034hi\\034 : \\255\"\n"
    );
}

#[test]
fn the_question_is_named_as_it_was_understood() {
    let folder = records("the_question_is_named");
    let asked = |name, record_type| {
        let said = folder.good(&["ask", "out", name, record_type]);
        said.lines().next().unwrap().to_owned()
    };
    assert_eq!(
        asked("six.panic.mil.", "aaaa"),
        "six.panic.mil AAAA: 1 record"
    );
    assert_eq!(
        asked("_sip._udp.panic.mil", "33"),
        "_sip._udp.panic.mil SRV: 1 record"
    );
    assert_eq!(
        asked("empty.panic.mil", "255"),
        "empty.panic.mil ANY: 1 record"
    );
    assert_eq!(asked("W.Panic.Mil", "type1"), "W.Panic.Mil A: 1 record");
}

#[test]
fn moments() {
    let folder = records("moments");
    let at = |moment| {
        let said = folder.good(&["ask", "out", "w.panic.mil", "A", "--at", moment]);
        said.lines().nth(1).unwrap().to_owned()
    };
    let first = "w.panic.mil 2 A 192.0.2.234";
    let second = "w.panic.mil 86400 A 192.0.2.235";
    for (moment, said) in [
        ("4000000038af1378", first),
        ("@4000000038af1379", second),
        ("950997870", first),
        ("950997871", second),
        ("2000-02-19T22:04:30", first),
        ("2000-02-19T22:04:31", second),
        ("2000-02-19T22:04:31Z", second),
        ("2000-02-19 22:04:31", second),
        ("2000-02-19T22:05", second),
        ("2000-02-20", second),
        ("now", second),
        ("-5", "w.panic.mil 3600 A 192.0.2.234"),
        ("2000-02-19", "w.panic.mil 3600 A 192.0.2.234"),
    ] {
        assert_eq!(at(moment), said, "{moment}");
    }
    let said = folder.fails(&["ask", "out", "w", "A", "--at", "8000000000000000"], 1);
    assert_eq!(said, "question: refused 16: moment 2^63 or more\n");
}

#[test]
fn clients() {
    let folder = records("clients");
    let from = |client| {
        let said = folder.good(&["ask", "out", "place.panic.mil", "A", "--client", client]);
        said.trim_end().rsplit(' ').next().unwrap().to_owned()
    };
    assert_eq!(from("192.168.7.7"), "192.168.1.2");
    assert_eq!(from("192.0.2.9"), "1.2.3.4");
    assert_eq!(from("2001:db8::1"), "1.2.3.4");
    assert_eq!(from("::ffff:192.168.7.7"), "1.2.3.4");
    let said = folder.good(&["ask", "out", "place.panic.mil", "A"]);
    assert!(
        said.ends_with("\nplace.panic.mil 86400 A 1.2.3.4\n"),
        "{said}"
    );
}

#[test]
fn names_with_odd_bytes() {
    let folder = Folder::new("names_with_odd_bytes");
    folder.write("data", ".c\n+a@b.c:1.2.3.4\n");
    folder.good(&["compile", "data", "out"]);
    let said = folder.good(&["ask", "out", "a@b.c", "A"]);
    assert_eq!(said, "a\\064b.c A: 1 record\na\\064b.c 86400 A 1.2.3.4\n");
    assert_eq!(folder.good(&["ask", "out", "a\\064b.c", "A"]), said);
    let said = folder.says(&["ask", "out", "a\\.b.c", "A"], 5);
    assert_eq!(said, "a\\046b.c A: no such name in our zone c\n");
}

#[test]
fn wrong_questions() {
    let folder = records("wrong_questions");
    let at = |moment| ["ask", "out", "a", "A", "--at", moment];
    for (words, said) in [
        (&["ask"][..], "RECORDS is missing"),
        (&["ask", "out"], "NAME is missing"),
        (&["ask", "out", "a"], "TYPE is missing"),
        (
            &["ask", "out", "a", "B"],
            "B: this is no record type: write A",
        ),
        (
            &["ask", "out", "a", "65536"],
            "65536: this is no record type",
        ),
        (&["ask", "out", "a..b", "A"], "a..b: an empty label"),
        (
            &["ask", "out", "a", "A", "--client", "1.2.3"],
            "1.2.3: this is no address: write it as 192.0.2.1",
        ),
        (&at("soon"), "soon: this is no moment: write now, a date"),
        (&at("2026-13-01"), "2026-13-01: there is no month 13: write"),
        (&at("2026-02-29"), "month 02 of 2026 has 28 days: write"),
        (&at("2026-11-17T24:00"), "there is no hour 24: write"),
        (&at("2026-11-17T03:00:60"), "there is no second 60: write"),
        (&at("2026-11-17T03:00+01:00"), "write the time in UTC"),
        (
            &["ask", "out", "a", "A", "--serial", "1"],
            "--serial has no meaning here",
        ),
        (&["ask", "none", "a", "A"], "none: "),
        (&["ask", ".", "a", "A"], ".: "),
    ] {
        let message = folder.fails(words, 2);
        assert!(message.contains(said), "{words:?}: {message}");
    }
}
