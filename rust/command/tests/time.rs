//! `vahmizar time`, run as a command.

mod support;

use support::Folder;

#[test]
fn there_and_back() {
    let folder = Folder::new("time_there_and_back");
    for when in [
        "2000-02-19T22:04:31Z",
        "2000-02-19T22:04:31",
        "2000-02-19 22:04:31",
        "4000000038af1379",
        "@4000000038AF1379",
        "950997871",
    ] {
        let said = folder.good(&["time", when]);
        assert_eq!(said, "4000000038af1379 2000-02-19T22:04:31Z\n", "{when}");
    }
}

#[test]
fn a_line_for_each() {
    let folder = Folder::new("time_a_line_for_each");
    let said = folder.good(&["time", "2026-11-17", "-10", "0", "2026-11-17T03:00"]);
    assert_eq!(
        said,
        "400000006afb990a 2026-11-17T00:00:00Z\n\
         4000000000000000 1969-12-31T23:59:50Z\n\
         400000000000000a 1970-01-01T00:00:00Z\n\
         400000006afbc33a 2026-11-17T03:00:00Z\n"
    );
}

#[test]
fn now_is_a_time_of_a_line() {
    let folder = Folder::new("time_now");
    let now = folder.good(&["time", "now"]);
    let (field, _) = now.split_once(' ').expect("field and date");
    assert_eq!(folder.good(&["time", field]), now);
    folder.write("data", format!(".b\n+h.b:192.0.2.1::{field}\n"));
    folder.good(&["compile", "data", "out"]);
    folder.good(&["ask", "out", "h.b", "A"]);
}

#[test]
fn years_that_have_not_four_digits() {
    let folder = Folder::new("time_years");
    for (when, said) in [
        ("0000-01-01", "3ffffff1868b840a 0000-01-01T00:00:00Z\n"),
        (
            "9999-12-31T23:59:59Z",
            "4000003afff44189 9999-12-31T23:59:59Z\n",
        ),
        ("4000003afff4418a", "4000003afff4418a 253402300800\n"),
        ("7fffffffffffffff", "7fffffffffffffff 4611686018427387893\n"),
        (
            "0000000000000001",
            "0000000000000001 -4611686018427387913\n",
        ),
    ] {
        assert_eq!(folder.good(&["time", when]), said);
        let (_, shown) = said.trim_end().split_once(' ').unwrap();
        assert_eq!(folder.good(&["time", shown]), said);
    }
}

#[test]
fn the_good_ones_come_first_and_each_bad_one_is_told() {
    let folder = Folder::new("time_bad_ones");
    let words = ["time", "soon", "0", "2026-02-29", "-1", "0000000000000000"];
    let run = folder.run(&words);
    assert_eq!(run.status, 2);
    assert_eq!(
        run.out,
        "400000000000000a 1970-01-01T00:00:00Z\n4000000000000009 1969-12-31T23:59:59Z\n"
    );
    assert_eq!(
        run.err,
        "vahmizar: soon: this is no moment: write now, a date in UTC as 2026-11-17T03:00:00Z, \
         seconds of Unix time, or 16 hex digits\n\
         vahmizar: 2026-02-29: month 02 of 2026 has 28 days: write 01 to 28\n\
         vahmizar: 0000000000000000: no line can have this time; for none leave the field empty\n\
         Try: vahmizar --help\n"
    );
}

#[test]
fn wrong_calls() {
    let folder = Folder::new("time_wrong_calls");
    for (words, said) in [
        (&["time"][..], "WHEN is missing"),
        (&["time", "--at", "now"], "--at has no meaning here"),
        (&["time", "-x"], "no such option: -x"),
        (&["time", ""], "this is no moment"),
        (
            &["time", "8000000000000000"],
            "no line can have this time; the last one is 7fffffffffffffff",
        ),
        (&["time", "4611686018427387894"], "the last one is"),
        (&["time", "-4611686018427387915"], "before the first moment"),
        (&["time", "2026-11-17T03:00-05:00"], "write the time in UTC"),
    ] {
        let message = folder.fails(words, 2);
        assert!(message.contains(said), "{words:?}: {message}");
    }
}
