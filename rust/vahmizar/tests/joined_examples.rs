//! The worked examples of joined files, `crates/rules/specs/JoiningExamples.antt`,
//! through the C call.

use vahmizar::sys;

/// A file of three lines, one of them empty, whose record takes 30 bytes.
const NORTH: &str = "+a:192.0.2.1\n# north\n\n";

/// As long a record, without a line end behind it.
const SOUTH: &str = "+b:192.0.2.2";

/// Files, and their bytes joined.
const BYTES: &[(&[&str], &str)] = &[
    (&[], ""),
    (&[SOUTH], "+b:192.0.2.2"),
    (&[SOUTH, ""], "+b:192.0.2.2\n"),
    (&["", SOUTH], "+b:192.0.2.2"),
    (&[NORTH, SOUTH], "+a:192.0.2.1\n# north\n\n+b:192.0.2.2"),
    (&[SOUTH, NORTH], "+b:192.0.2.2\n+a:192.0.2.1\n# north\n\n"),
    (
        &[NORTH, SOUTH, SOUTH],
        "+a:192.0.2.1\n# north\n\n+b:192.0.2.2\n+b:192.0.2.2",
    ),
];

/// Files, the room lent for all, and the numbers that the joined source answers.
const ANSWERS: &[(&[&str], usize, [u64; 4])] = &[
    (&[], 0, [0, 0, 0, 0]),
    (&[NORTH, SOUTH], 60, [0, 0, 0, 60]),
    (&[NORTH, SOUTH], 59, [13, 0, 0, 60]),
    (&[NORTH, SOUTH, NORTH], 90, [0, 0, 0, 90]),
    (&[NORTH, "+b:192.0.2.2\n+c:192.0.2\n"], 60, [6, 5, 2, 0]),
    (&[SOUTH, "+c:192.0.2"], 60, [6, 2, 2, 0]),
    (&["", "!"], 60, [3, 1, 0, 0]),
    (&["\n", "", "!"], 60, [3, 2, 0, 0]),
    (&[NORTH, "!", "+c:192.0.2"], 60, [3, 4, 0, 0]),
    (&["!", NORTH], 0, [3, 1, 0, 0]),
    (&[SOUTH, " "], 30, [0, 0, 0, 30]),
    (&["+b:192.0.2.2+b:192.0.2.2"], 60, [6, 1, 2, 0]),
];

/// Files put together; one in front of others gets the line end that it lacks.
fn joined(files: &[&str]) -> String {
    let Some((last, before)) = files.split_last() else {
        return String::new();
    };
    let closed = before.iter().map(|file| match file.ends_with('\n') {
        false if !file.is_empty() => format!("{file}\n"),
        _ => file.to_string(),
    });
    closed.collect::<String>() + last
}

#[test]
fn the_bytes_of_joined_files() {
    for (files, bytes) in BYTES {
        assert_eq!(joined(files), *bytes, "{files:?}");
    }
}

#[test]
fn the_answers_for_joined_files() {
    for &(files, room, wanted) in ANSWERS {
        let mut out = vec![170; room];
        let mut answer = [0; sys::COMPILE_ANSWER];
        let number = sys::compile(joined(files).as_bytes(), 7, &mut out, &mut answer);
        let numbers = [0, 1, 2, 3].map(|place| sys::answer_number(&answer, place));
        assert_eq!((number, numbers), (wanted[0], wanted), "{files:?}");
        if number != 0 {
            assert_eq!(out, vec![170; room], "{files:?}");
        }
    }
}

#[test]
fn the_records_of_joined_files_are_theirs_in_turn() {
    for (files, ..) in ANSWERS.iter().filter(|(_, _, answer)| answer[0] == 0) {
        let alone = files.iter().map(|file| file.as_bytes());
        let alone = alone.map(|file| vahmizar::compile_to_vec(file, 7).unwrap());
        let in_turn: Vec<u8> = alone.flatten().collect();
        let whole = vahmizar::compile_to_vec(joined(files).as_bytes(), 7);
        assert_eq!(whole, Ok(in_turn), "{files:?}");
    }
}
