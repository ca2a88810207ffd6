//! Names that the caller gives on top of the sheet's: by the same rules, for what is there.

use tools::names::Names;
use tools::recording::subject::Subject;

#[test]
fn names_of_the_caller() {
    let mut names = Names::default();
    for text in ["t4=guard", "w0=a-b", "b1=x"] {
        names.add(text).unwrap();
    }
    assert_eq!(names.of(Subject::Task(4)), "t4 guard");
    assert_eq!(names.of(Subject::Word(0)), "w0 a-b");
    assert_eq!(names.of(Subject::Word(1)), "w1");
    assert_eq!(names.name(Subject::Block(1)), Some("x"));
    assert_eq!(names.name(Subject::Block(4)), None);
    let cases = [
        ("guard", "'guard' gives no name, as t4=guard does"),
        ("r1=x", "'r1=x' gives no name, as t4=guard does"),
        ("t=x", "'t=x' gives no name, as t4=guard does"),
        ("t99999999999999999999=x", "'t99999999999999999999=x' gives no name, as t4=guard does"),
        ("", "'' gives no name, as t4=guard does"),
        ("t5=", "'' is no name: it must begin with a letter, a to z or A to Z"),
        ("t5==1", "'=1' is no name: it must begin with a letter, a to z or A to Z"),
        ("t5=t1", "'t1' is no name: it is the number of a task"),
        (
            "t5=guard 1",
            "'guard 1' is no name: ' ' may not stand in it, only a to z, A to Z, digits, - and _",
        ),
        ("t5=\u{1b}", "'\u{fffd}' is no name: it must begin with a letter, a to z or A to Z"),
        ("t4=guard-2", "t4 is named twice"),
    ];
    for (text, reason) in cases {
        assert_eq!(names.add(text).unwrap_err(), reason);
    }
    let long = names.add(&"x".repeat(1000)).unwrap_err();
    assert_eq!(long, format!("'{}…' gives no name, as t4=guard does", "x".repeat(40)));
}

/// A given name takes the place of the text's, and may not be another's.
#[test]
fn given_names_over_those_of_the_text() {
    let mut names = Names::default();
    names.set(Subject::Task(0), "low");
    names.set(Subject::Task(1), "high");
    names.set(Subject::Word(0), "high");
    assert_eq!(names.check(1, 0, 2), Ok(()));
    let mut given = Names::default();
    given.add("t0=high").unwrap();
    names.take(given);
    assert_eq!(names.name(Subject::Task(0)), Some("high"));
    assert_eq!(names.check(1, 0, 2).unwrap_err(), "'high' is the name of t0 and of t1");
}

#[test]
fn names_of_what_is_not_there() {
    let check = |text: &str| {
        let mut names = Names::default();
        names.add(text).unwrap();
        names.check(1, 0, 5)
    };
    assert_eq!(check("w0=x"), Ok(()));
    assert_eq!(check("t4=x"), Ok(()));
    assert_eq!(check("t7=x").unwrap_err(), "there is no task t7, the sheet has 5 (t0 to t4)");
    assert_eq!(check("w1=x").unwrap_err(), "there is no word w1, the sheet has 1 (w0)");
    assert_eq!(check("b0=x").unwrap_err(), "there is no block b0, the sheet has none");
}
