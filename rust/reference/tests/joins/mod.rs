//! Sources joined, with the answers that the rules give. The comparison holds
//! the library to the same ones.

/// Parts, and what they are answered as one source.
pub struct Join {
    /// The parts; each but the last is empty or ends in byte 10.
    pub parts: Vec<Vec<u8>>,
    /// Number, line, field and bytes, with room for all records.
    pub answer: [u64; 4],
}

/// All of them.
pub fn joins() -> Vec<Join> {
    let short = SHORT.iter().map(|&(parts, answer)| Join {
        parts: parts.iter().map(|&part| part.into()).collect(),
        answer,
    });
    let long = long().into_iter().map(|(parts, answer)| Join {
        parts: parts.into_iter().map(String::into_bytes).collect(),
        answer,
    });
    short.chain(long).collect()
}

/// Lines of 1,023 bytes: this one, filled with blanks, and comments.
fn lines(first: &str, count: usize) -> String {
    let comment = "#".repeat(1_023) + "\n";
    format!("{first:1023}\n") + &comment.repeat(count - 1)
}

/// Lines and sources at the limits; 1,024 such lines are as long as a source
/// may be.
fn long() -> Vec<(Vec<String>, [u64; 4])> {
    let text = |text: &str| text.to_owned();
    let name = |last| (("n".repeat(63) + ".").repeat(3)) + &"n".repeat(last);
    let a = || lines("+a:1.2.3.4", 512);
    let b = || lines("+b:1.2.3.4", 512);
    let comments = || lines("", 511);
    let last = |kind: &str| format!("{kind:1024}");
    vec![
        (vec![lines("!", 2), text("!")], [3, 1, 0, 0]),
        (vec![lines("", 2), text("!")], [3, 3, 0, 0]),
        (vec![last("#") + "\n", last("+a:1.2.3.4")], [0, 0, 0, 30]),
        (
            vec![last("#") + "\n", last("'a:") + "\n", last("-")],
            [0, 0, 0, 26],
        ),
        (vec![text("\n"), last("#") + " \n", text("!")], [2, 2, 0, 0]),
        (vec![text("#\n"), text(""), last("") + "!"], [2, 2, 0, 0]),
        (vec![text("\n"), format!("&{}\n!", name(58))], [3, 3, 0, 0]),
        (vec![text("\n"), format!("&{}\n!", name(59))], [5, 2, 0, 0]),
        (vec![a(), b()], [0, 0, 0, 60]),
        (vec![a(), b(), text("")], [0, 0, 0, 60]),
        (vec![a(), b(), text("\n")], [1, 0, 0, 0]),
        (vec![text("\n"), a(), b()], [1, 0, 0, 0]),
        (vec![text("!\n"), a(), b()], [1, 0, 0, 0]),
        (vec![a(), lines("!", 512)], [3, 513, 0, 0]),
        (vec![a(), comments(), last("+b:1.2.3.4")], [0, 0, 0, 60]),
        (
            vec![a(), comments(), last("+b:1.2.3.4") + "\n"],
            [1, 0, 0, 0],
        ),
        (vec![a(), comments(), last("!")], [3, 1_024, 0, 0]),
        (vec![a(), comments(), last("!") + " "], [1, 0, 0, 0]),
    ]
}

type Short = (&'static [&'static str], [u64; 4]);

const SHORT: &[Short] = &[
    (&[], [0, 0, 0, 0]),
    (&[""], [0, 0, 0, 0]),
    (&["", "", ""], [0, 0, 0, 0]),
    (&["\n\n", "\n", ""], [0, 0, 0, 0]),
    (&["# a\n-b\n", " \t\n", "#"], [0, 0, 0, 0]),
    (&["+a.b:192.0.2.1"], [0, 0, 0, 32]),
    (&["+a:1.2.3.4\n", "+b:1.2.3.4"], [0, 0, 0, 60]),
    (&["+b:1.2.3.4\n", "+a:1.2.3.4\n"], [0, 0, 0, 60]),
    (&["", "+a:1.2.3.4\n", "", "\n", "+b:1.2.3.4"], [0, 0, 0, 60]),
    (
        &["+a:1.2.3.4\n", "+a:1.2.3.4\n", "+a:1.2.3.4\n"],
        [0, 0, 0, 90],
    ),
    (&["+a:1.2.3.4 \t\n", " \n", "+b:1.2.3.4 "], [0, 0, 0, 60]),
    // Nothing is taken over from the part before.
    (&["+a.b:1.2.3.4:5::in\n", "+:1.2.3.4"], [0, 0, 0, 62]),
    // The first refused part counts, whatever stands behind it.
    (&["+a:1.2.3.256\n", "!"], [6, 1, 2, 0]),
    (&["+a:1.2.3.4\n", "#\n!\n", "+b:1.2.3.4\n"], [3, 3, 0, 0]),
    (&["#\n", "+a:1.2.3.256\n", "!\n", "%"], [6, 2, 2, 0]),
    (
        &["\n\n\n", "+a:1.2.3.4\n\n", "'a:x\n+a:1.2.3.4:x"],
        [7, 7, 3, 0],
    ),
    (&["", "", "!"], [3, 1, 0, 0]),
    (&["", "\n", "", "\n\n", "", "S\n", ""], [12, 4, 4, 0]),
    (&["+a:1.2.3.4:::\n", "+a:1.2.3.4::::\n"], [4, 2, 0, 0]),
    (&["-!\n", ":a:1:x\n:a:2:x\n"], [11, 3, 2, 0]),
    // Carriage returns end nothing.
    (&["#\r\n", "'a:x\r\n"], [0, 0, 0, 29]),
    (&["'a:x\r\n", "+a:1.2.3.4\r\n"], [6, 2, 2, 0]),
    (&["\n\n", "\r\n"], [3, 3, 0, 0]),
    (&["#\r\r\n", "!"], [3, 2, 0, 0]),
    (&["+a:1.2.3.4:::in\n", "%in:192.168\n%ex\n"], [0, 0, 0, 58]),
    (&[".a\n", "Zb:m:r\n", "Zc:m:r:5"], [0, 0, 0, 202]),
    (&[".a\n", ".a"], [0, 0, 0, 196]),
];
