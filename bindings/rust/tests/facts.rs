//! A small program, with values by hand.

use std::fmt::Write;
use std::thread;
use tacflow::{Analysis, Definition, Error, Expression, Limits, Operand, Program, Query, Table, report_part};

const ANALYSES: [Analysis; 4] = [Analysis::Reach, Analysis::Live, Analysis::Avail, Analysis::Busy];

const TEXT: &str = "proc main\n  x = y + 1\n  print x\nend\n";

#[test]
fn what_a_program_is() {
    let program = Program::read(TEXT).expect("a program");
    assert_eq!(program.procedures(), ["main"]);
    assert_eq!(program.variables(), ["x", "y"]);
    let lines: Vec<u32> = program.points().iter().map(|point| point.line).collect();
    assert_eq!(lines, [2, 3, 0]);
    assert_eq!(program.points()[1].span().map(|span| &TEXT[span]), Some("print x"));
    assert_eq!(program.points()[2].span(), None);
    assert_eq!(program.definitions()[1], Definition { variable: 1, point: None });
    assert_eq!(program.definitions()[2], Definition { variable: 0, point: Some(0) });
    let sum = Expression { left: Some(Operand::Variable(1)), operator: "+", right: Operand::Number(1) };
    assert_eq!(program.expressions(), [sum]);
}

#[test]
fn what_holds() {
    let program = Program::read(TEXT).expect("a program");
    let sets = |analysis| -> Vec<Vec<u32>> {
        let table = program.facts(analysis).expect("facts");
        (0..3).map(|point| table.set(point).collect()).collect()
    };
    assert_eq!(sets(Analysis::Reach), [vec![0, 1], vec![1, 2], vec![1, 2]]);
    assert_eq!(sets(Analysis::Live), [vec![1], vec![0], vec![]]);
    assert_eq!(sets(Analysis::Avail), [vec![], vec![0], vec![0]]);
    assert_eq!(sets(Analysis::Busy), [vec![0], vec![], vec![]]);
}

#[test]
fn a_range_of_bits() {
    let program = Program::read(TEXT).expect("a program");
    let table = program.facts_of(Analysis::Reach, 1..2).expect("facts");
    assert!(table.has_path(2) && table.contains(1, 1));
    assert!(!table.contains(1, 2), "a bit outside the range");
    assert_eq!(program.facts_of(Analysis::Reach, 1..4).err(), Some(Error::BadRange));
    assert_eq!(program.facts_of(Analysis::Live, 0..0).expect("no bits").set(0).count(), 0);
}

#[test]
fn a_range_of_points() {
    let program = Program::within(TEXT, Limits::Large).expect("a program");
    assert_eq!(program.limits(), Limits::Large);
    let table = program.facts_at(1..3, Analysis::Reach, 0..3).expect("facts");
    assert_eq!(table.points(), 1..3);
    assert!(table.has_path(1) && table.set(1).eq([1, 2]) && table.set(2).eq([1, 2]));
    assert_eq!(program.facts_at(1..4, Analysis::Reach, 0..3).err(), Some(Error::BadRange));
    assert_eq!(program.facts_at(4..4, Analysis::Reach, 0..3).err(), Some(Error::BadRange));
    assert_eq!(program.facts_at(0..3, Analysis::Reach, 0..4).err(), Some(Error::BadRange));
    assert_eq!(program.facts_at(3..3, Analysis::Live, 0..2).expect("no points").points().len(), 0);
    assert_eq!((program.points_of(0), program.points_of(1)), (0..3, 3..3));
}

// main calls each of 300 procedures, and each sets its own variable by the next one and prints it.
fn large_text() -> String {
    let mut text = String::from("proc main\n");
    (0..300).for_each(|n| writeln!(text, "  call p{n}").expect("a line"));
    text += "end\n";
    for n in 0..300 {
        writeln!(text, "proc p{n}\n  v{n} = v{} * {n}", (n + 1) % 300).expect("a line");
        (0..98).for_each(|_| writeln!(text, "  print v{n}").expect("a line"));
        text += "end\n";
    }
    text
}

#[test]
fn within_the_large_limits() {
    let refused = Program::read(large_text()).err();
    assert_eq!(refused, Some(Error::Refused { number: 12, line: 26_058, column: 6 }), "the 257th procedure");
    let program = Program::within(large_text(), Limits::Large).expect("a program");
    assert_eq!(program.sizes().points, 301 + 300 * 100);
    for analysis in ANALYSES {
        let all = program.facts(analysis).expect("all facts");
        for procedure in [0, 150, 300] {
            let points = program.points_of(procedure);
            let some = program.facts_at(points.clone(), analysis, 0..program.bits(analysis)).expect("some facts");
            assert_eq!(some.points(), points);
            for point in points {
                assert_eq!((some.has_path(point), some.words(point)), (all.has_path(point), all.words(point)));
            }
        }
    }
    assert!(program.report().expect("a report").starts_with(b"points 30301, variables 300, definitions 600, expressions 300\n"));
    assert!(program.listing().expect("a listing").starts_with(b"proc main\n  call p0\n"));
}

#[test]
fn what_is_refused_and_written() {
    let refused = Program::read("proc main\n  x = = 1\nend\n").err();
    assert_eq!(refused, Some(Error::Refused { number: 4, line: 2, column: 7 }));
    let program = Program::read(TEXT).expect("a program");
    assert_eq!(program.listing().expect("a listing"), TEXT.as_bytes());
    let report = "points 3, variables 2, definitions 3, expressions 1\n2: y may be used before it is set\n";
    assert_eq!(program.report().expect("a report"), report.as_bytes());
}

#[test]
fn parts_of_the_report() {
    let part = |part, count| report_part(TEXT.as_bytes(), Limits::Standard, part, count);
    let counts = "9f9a495b9c2a199b447754f073a21e8ea2c4e6f0\npoints 3, variables 2, definitions 3, expressions 1\n";
    assert_eq!(part(1, 2), Ok(format!("part 1 of 2 of {counts}end 1\n").into_bytes()));
    let told = "2: y may be used before it is set\n";
    assert_eq!(part(2, 2), Ok(format!("part 2 of 2 of {counts}{told}end 2\n").into_bytes()));
    for (which, count) in [(0, 1), (2, 1), (1, 4_097)] {
        assert_eq!(part(which, count), Err(Error::BadRange));
    }
    assert_eq!(report_part(b"proc main\n", Limits::Large, 1, 1), Err(Error::Refused { number: 5, line: 2, column: 1 }));
    let text = (0..4_000).fold("proc main\n".to_owned(), |text, n| text + &format!("x = {n}\n")) + "end\n";
    let report = Program::read(text.as_str()).expect("a program").report().expect("a report");
    let whole = report_part(text.as_bytes(), Limits::Standard, 1, 1).expect("a part");
    assert!(report.len() > 65_536 && whole.ends_with(&[report, b"end 1\n".to_vec()].concat()));
}

#[test]
fn what_bits_are_called() {
    let program = Program::read(TEXT).expect("a program");
    let names = |analysis| (0..program.bits(analysis)).map(|bit| program.name(analysis, bit).to_string()).collect::<Vec<_>>();
    assert_eq!(names(Analysis::Reach), ["x@entry", "y@entry", "x@2"]);
    assert_eq!(names(Analysis::Live), ["x", "y"]);
    assert_eq!(names(Analysis::Busy), ["y + 1"]);
    let unary = Program::read("proc main\n  x = ~y\nend\n").expect("a program");
    assert_eq!(unary.name(Analysis::Avail, 0).to_string(), "~y");
}

#[test]
#[should_panic(expected = "Live has no bit 2")]
fn no_such_bit() {
    let _ = Program::read(TEXT).expect("a program").name(Analysis::Live, 2);
}

#[test]
fn errors_are_errors() {
    let told = |text: &str| -> Box<dyn std::error::Error + Send + Sync> { Program::read(text).expect_err("a refusal").into() };
    assert_eq!(told("proc main\n  x = = 1\nend\n").to_string(), "2:7: refusal 4: Syntax");
    assert_eq!(told("").to_string(), "1:1: refusal 6: NoMain");
    let points = "proc main\n".to_owned() + &"skip\n".repeat(16_384) + "end\n";
    assert_eq!(Program::read(points).err(), Some(Error::TooManyPoints));
    let bits = (0..2_049).fold("proc main\n".to_owned(), |text, n| text + &format!("read v{n}\n")) + "end\n";
    assert_eq!(told(&bits).to_string(), "an analysis of the program has too many bits");
}

#[test]
fn words_that_are_asked_for() {
    let program = Program::read(TEXT).expect("a program");
    let query = |analysis, point, word| Query { analysis, point, word };
    // before `x = y + 1` y is live; behind it y's value at the beginning and the new x have come, and y + 1 is available
    let queries = [query(Analysis::Reach, 1, 0), query(Analysis::Live, 0, 0), query(Analysis::Avail, 1, 0), query(Analysis::Live, 1, 0)];
    assert_eq!(program.ask(&queries), Ok(vec![6, 2, 1, 1]));
    assert_eq!(program.ask(&[]), Ok(vec![]));
    assert_eq!(program.ask(&[queries[0], query(Analysis::Live, 3, 0)]), Err(Error::BadRange));
    assert_eq!(program.ask(&[query(Analysis::Busy, 0, 1)]), Err(Error::BadRange));
}

// All that a program tells.
fn all(program: &Program) -> (Vec<Table>, Vec<u8>, Vec<u8>) {
    let tables = ANALYSES.map(|analysis| program.facts(analysis).expect("facts"));
    (tables.into(), program.report().expect("a report"), program.listing().expect("a listing"))
}

#[test]
fn threads_ask_one_program() {
    fn is_for_threads<T: Send + Sync + 'static>(_: &T) {}
    let program = Program::within(large_text(), Limits::Large).expect("a program");
    is_for_threads(&program);
    let wanted = all(&program);
    thread::scope(|scope| {
        for _ in 0..8 {
            scope.spawn(|| assert!(all(&program) == wanted));
        }
    });
    let clone = program.clone();
    drop(program);
    let told = thread::spawn(move || all(&clone)).join().expect("a thread");
    assert!(told == wanted);
}
