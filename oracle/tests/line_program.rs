//! A line of each question, and malformed lines, through the program itself.

use std::io::Write;
use std::process::{Command, Stdio};

fn answers(questions: &str) -> String {
    let mut program = Command::new(env!("CARGO_BIN_EXE_oracle"))
        .stdin(Stdio::piped())
        .stdout(Stdio::piped())
        .spawn()
        .expect("the program starts");
    let mut input = program.stdin.take().expect("its input is piped");
    input.write_all(questions.as_bytes()).expect("it reads");
    drop(input);
    let output = program.wait_with_output().expect("it ends");
    String::from_utf8(output.stdout).expect("it answers in text")
}

fn assert_answers(pairs: &[(String, &str)]) {
    let questions: String = pairs.iter().map(|(question, _)| format!("{question}\n")).collect();
    let expected: String = pairs.iter().map(|(_, answer)| format!("{answer}\n")).collect();
    assert_eq!(answers(&questions), expected);
}

const ONE: &str = "3ff0000000000000";
const ZERO: &str = "0000000000000000";
const NAN: &str = "7ff8000000000000";

#[test]
fn every_question() {
    let identities = |count| ["0 0 65536 0 0 65536"; 7][..count].join(" ");
    let flat = "9 ".repeat(2 * 16 * 16);
    let solved =
        format!("solve 3 {ONE} {ZERO} {ZERO} {ZERO} {ONE} {ZERO} {ZERO} {ZERO} {ONE} {ONE} {ZERO} fff8000000000001");
    assert_answers(&[
        (format!("search 16 16 {flat}"), "1 401e000000000000 401e000000000000 0000000000000000 0000000000000000"),
        ("search 0 16".into(), "0"),
        (format!("words 16 16 {flat}"), "1 457596"),
        ("half 2 3 1 2 3 4 5 6".into(), "1 3"),
        ("sample 457596".into(), "401e000000000000 401e000000000000 0000000000000000 0000000000000000"),
        ("fit 1 words".into(), &format!("{NAN} {NAN} {ONE} {ZERO} {ZERO} {ONE}")),
        ("fit 2 words".into(), "none"),
        (format!("fit 1 samples {ZERO} {ZERO} {ONE} {ONE}"), &format!("{ONE} {ONE} {ONE} {ZERO} {ZERO} {ONE}")),
        (format!("elect 1 words {}", "457612 ".repeat(4)), &format!("1 {ZERO} 0 32768 65536 0 0 65536")),
        ("elect 0 words".into(), &format!("0 {ZERO} 0 0 65536 0 0 65536")),
        (format!("elect 0 samples {}", [NAN; 16].join(" ")), "none"),
        (solved, &format!("{NAN} {NAN} {NAN}")),
        (format!("score 0 0 65536 0 0 65536 samples {ZERO} {ZERO} {ONE} {ZERO}"), ONE),
        (format!("grid_number {ONE}"), "65536"),
        (format!("quantize_model 3 1 {ZERO} {ZERO} {ONE} {ONE} {ONE} {ONE} words"), "0 0 65536 8192 8192 65536"),
        ("quantize 1 1 0 -4096".into(), "-8192"),
        (
            format!("write 1 0 1 0 0 0 0 0 0 8192 -8192 65536 0 0 65536 {} {}", identities(6), identities(7)),
            "17 .a42000",
        ),
        (
            format!("write 1 3 1 0 0 0 0 0 0 8192 -8192 65536 0 0 65536 {} {}", identities(6), identities(7)),
            "17 .148400",
        ),
        (
            format!("read 1 0 {} .a42000", identities(7)),
            &format!("17 1 0 0 0 0 0 0 8192 -8192 65536 0 0 65536 {}", identities(6)),
        ),
        (format!("read 1 8 {} .", identities(7)), "none"),
        ("coefficient 1 1 0 0 8192".into(), "0010"),
    ]);
}

#[test]
fn malformed_lines() {
    let lines = "\nquestion\nquantize 1 1 0\nquantize 1 1 0 1 1\nquantize 4 1 0 1\nquantize 1 2 0 1\nquantize 1 1 6 1\n\
        quantize 1 1 0 2147483648\nfit 0 words\nfit 2\nfit 2 samples 0\nfit 1 samples 0000000000000000\nsolve 5\n\
        search 1025 0\nsearch 1 1 65536 0\nread 1 0\ngrid_number +ff0000000000000\n";
    let answers = answers(lines);
    assert_eq!(answers.lines().count(), lines.lines().count());
    for (line, answer) in lines.lines().zip(answers.lines()) {
        assert!(answer.starts_with("error "), "{line}: {answer}");
    }
}
