//! Points, statements, edges, remarks, what stands around these and the paths of facts as data, by hand.

use tacflow::{
    Analysis, Built, BuiltProcedure, Edge, EdgeKind, Effect, Error, Hop, HopKind, Limits, Nearby, Operand, Program, Remark, Says,
    Statement, StatementKind,
};

const CALLS: &str =
    "proc main\n  a = b + 1\n  call p\n  print a\nend\nproc p\n  if a goto L\n  call p\n  b = a * a\nL:\nend\n";

const ENDLESS: &str =
    "proc main\n  read a\n  goto M\n  x = a\nM:\n  if a goto M\n  call q\n  print a\nend\nproc q\nN:\n  goto N\nend\n";

#[test]
fn statements() {
    let program = Program::read(CALLS).expect("a program");
    let statements = program.statements();
    let sum = Statement {
        kind: StatementKind::Binary,
        target: Some(0),
        operator: Some("+"),
        label: None,
        goes_to: None,
        expression: Some(0),
        left: Some(Operand::Variable(1)),
        right: Some(Operand::Number(1)),
    };
    let test = Statement {
        kind: StatementKind::If,
        target: None,
        operator: None,
        label: Some(0),
        goes_to: Some(7),
        expression: None,
        left: None,
        right: Some(Operand::Variable(0)),
    };
    assert_eq!((statements[0], statements[4], statements[7]), (Some(sum), Some(test), None));
    let kinds: Vec<_> = statements.iter().flatten().map(|statement| statement.kind).collect();
    use StatementKind::{Binary, Call, If, Print};
    assert_eq!(kinds, [Binary, Call, Print, If, Call, Binary]);
}

#[test]
fn edges() {
    let program = Program::read(CALLS).expect("a program");
    let edge = |kind, from, to| Edge { kind, from, to };
    let wanted = [
        edge(EdgeKind::Step, 0, 1),
        edge(EdgeKind::Call(1), 1, 4),
        edge(EdgeKind::Step, 2, 3),
        edge(EdgeKind::Step, 4, 5),
        edge(EdgeKind::Step, 4, 7),
        edge(EdgeKind::Call(5), 5, 4),
        edge(EdgeKind::Step, 6, 7),
        edge(EdgeKind::Return(1), 7, 2),
        edge(EdgeKind::Return(5), 7, 6),
    ];
    assert_eq!(program.edges(0..8).expect("edges"), wanted);
    assert_eq!(program.edges(4..5).expect("edges"), wanted[3..5]);
    assert_eq!(program.edges(8..8), Ok(vec![]));
    assert_eq!(program.edges(0..9), Err(Error::BadRange));
}

#[test]
fn flags() {
    let program = Program::read(ENDLESS).expect("a program");
    let is = |flags: [u8; 9]| Ok(flags.map(|flag| flag == 1).to_vec());
    assert_eq!(program.has_path(Analysis::Avail, 0..9), is([1, 1, 0, 1, 1, 0, 0, 1, 0]));
    assert_eq!(program.has_path(Analysis::Live, 0..9), is([0, 0, 0, 0, 0, 1, 1, 0, 1]));
    assert_eq!(program.doubtful(0..9), is([1, 1, 1, 1, 1, 0, 0, 1, 0]));
    assert_eq!(program.doubtful(4..8), Ok(vec![true, false, false, true]));
    assert_eq!(program.doubtful(4..10), Err(Error::BadRange));
}

#[test]
fn remarks() {
    let remark = |point, says| Remark { point, says };
    let calls = Program::read(CALLS).expect("a program");
    assert_eq!(calls.remarks(), Ok(vec![remark(0, Says::Unset(1)), remark(6, Says::Dead(1))]));
    let endless = Program::read(ENDLESS).expect("a program");
    assert_eq!(endless.remarks(), Ok(vec![remark(2, Says::NeverReached), remark(5, Says::NeverReached)]));
    let again = Program::read("proc main\n  read a\n  if a goto L\n  b = a * a\n  print b\nL:\n  c = a * a\n  d = a * a\n  print d\nend\n");
    let wanted = vec![remark(1, Says::VeryBusy(0)), remark(4, Says::Dead(2)), remark(5, Says::AlreadyComputed(0))];
    assert_eq!(again.expect("a program").remarks(), Ok(wanted));
}

// The variables are a, b, t, s, x and y, the expressions a + b and a * b; L is point 8, M 10, N 13.
const REMARKED: &str = "proc main\n  read a\n  read b\n  t = a + b\n  s = a + b\n  x = 1\n  if s goto L\n  x = a * b\n\
  goto M\nL:\n  y = a * b\n  x = 2\nM:\n  print x\n  goto N\n  print t\nN:\nend\n";

// An endless loop on one side: L is point 4, K 5.
const ONE_SIDE: &str = "proc main\n  read c\n  if c goto L\n  print c\n  return\nL:\n  skip\nK:\n  goto K\nend\n";

#[test]
fn arounds() {
    let program = Program::read(REMARKED).expect("a program");
    use Nearby::{EndUnwritten, Holder, LastEvaluation, LastReached, NextEvaluation, NextWrite};
    let rows = [
        (2, Says::Dead(2), vec![EndUnwritten]),
        (3, Says::AlreadyComputed(0), vec![LastEvaluation(2), Holder(2)]),
        (4, Says::Dead(4), vec![NextWrite(6), NextWrite(9)]),
        (5, Says::VeryBusy(1), vec![NextEvaluation(6), NextEvaluation(8)]),
        (8, Says::Dead(5), vec![EndUnwritten]),
        (12, Says::NeverReached, vec![LastReached(11)]),
        (0, Says::NeverReached, vec![]),
        (10, Says::Unset(4), vec![]),
        (10, Says::AlreadyComputed(1), vec![LastEvaluation(6), LastEvaluation(8)]),
    ];
    let remarks: Vec<Remark> = rows.iter().map(|&(point, says, _)| Remark { point, says }).collect();
    assert_eq!(program.remarks().as_deref(), Ok(&remarks[..6]));
    for (remark, (_, _, wanted)) in remarks.into_iter().zip(rows) {
        assert_eq!(program.around(remark), Ok(wanted), "{remark:?}");
    }
    for (point, says) in [(14, Says::NeverReached), (13, Says::Dead(0)), (0, Says::Dead(6)), (0, Says::VeryBusy(2))] {
        assert_eq!(program.around(Remark { point, says }), Err(Error::BadRange), "{point} {says:?}");
    }
}

#[test]
fn origins_of_doubt() {
    let program = Program::read(ONE_SIDE).expect("a program");
    let origins: Vec<_> = (0..7).map(|point| program.doubt_origin(point).expect("an answer")).collect();
    assert_eq!(origins, [Some(4), Some(4), None, None, Some(4), Some(5), None]);
    assert_eq!(program.doubt_origin(7), Err(Error::BadRange));
}

#[test]
fn whys() {
    let program = Program::read(CALLS).expect("a program");
    let step = |from, to| Hop { kind: HopKind::Step, from, to };
    let enter = |site, from, to| Hop { kind: HopKind::Enter { site }, from, to };
    let pass = |site, from, to, effect| Hop { kind: HopKind::Pass { site, callee: 1, effect }, from, to };
    use Effect::{Generates, Preserves, Reaches};
    let rows = [
        (Analysis::Reach, 7, 3, Some(vec![step(0, 1), enter(1, 1, 4), step(4, 5), pass(5, 5, 6, Reaches), step(6, 7)])),
        (Analysis::Reach, 2, 1, Some(vec![step(0, 1), pass(1, 1, 2, Preserves)])),
        (Analysis::Live, 0, 1, Some(vec![step(3, 2), pass(1, 2, 1, Reaches), step(1, 0)])),
        (Analysis::Live, 6, 0, Some(vec![step(3, 2), enter(1, 2, 7), step(7, 6)])),
        (Analysis::Avail, 2, 0, Some(vec![step(0, 1), pass(1, 1, 2, Generates)])),
        (Analysis::Avail, 1, 0, None),
        (Analysis::Reach, 0, 0, Some(vec![])),
        (Analysis::Reach, 0, 2, None),
    ];
    for analysis in [Analysis::Reach, Analysis::Live, Analysis::Avail] {
        let own = || rows.iter().filter(|row| row.0 == analysis);
        let bits: Vec<_> = own().map(|row| (row.1, row.2)).collect();
        assert_eq!(program.whys(analysis, &bits), Ok(own().map(|row| row.3.clone()).collect()), "{analysis:?}");
    }
    for (analysis, point, bit, wanted) in rows {
        assert_eq!(program.why(analysis, point, bit), Ok(wanted), "{analysis:?} {point} {bit}");
    }
    assert_eq!(program.whys(Analysis::Busy, &[]), Ok(vec![]));
    assert_eq!(program.whys(Analysis::Busy, &[(0, 1), (0, 2)]), Err(Error::BadRange));
    assert_eq!(program.why(Analysis::Reach, 8, 0), Err(Error::BadRange));
    assert_eq!(program.why(Analysis::Busy, 0, 2), Err(Error::BadRange));
    let long = Program::read(format!("proc main\n  read x\n{}  print x\nend\n", "  skip\n".repeat(5_000))).expect("a program");
    let hops = long.why(Analysis::Reach, 5_001, 1).expect("an answer").expect("a path");
    assert!(hops.iter().copied().eq((0..5_001).map(|point| step(point, point + 1))));
    let twice = long.whys(Analysis::Reach, &[(5_001, 1), (0, 1), (5_001, 1)]);
    assert_eq!(twice, Ok(vec![Some(hops.clone()), None, Some(hops)]));
}

// The program of `CALLS` without a text.
fn built(change: impl Fn(&mut [Built; 3], &mut [Built; 3])) -> Result<Program, Error> {
    use StatementKind::{Binary, Call, If, Print};
    let (a, b) = (Some(Operand::Variable(0)), Some(Operand::Variable(1)));
    let mut main = [
        Built { operator: "+", left: b, right: Some(Operand::Number(1)), line: 2, ..Built::new(Binary) },
        Built { callees: &[1], line: 3, ..Built::new(Call) },
        Built { right: a, line: 4, ..Built::new(Print) },
    ];
    let mut p = [
        Built { right: a, label: 0, line: 7, ..Built::new(If) },
        Built { callees: &[1], line: 8, ..Built::new(Call) },
        Built { target: 1, operator: "*", left: a, right: a, line: 9, ..Built::new(Binary) },
    ];
    change(&mut main, &mut p);
    let procedures = [
        BuiltProcedure { name: "main", statements: &main, labels: &[] },
        BuiltProcedure { name: "p", statements: &p, labels: &[3] },
    ];
    Program::build(&procedures, &["a", "b"], Limits::Standard)
}

#[test]
fn without_a_text() {
    let (program, built) = (Program::read(CALLS).expect("a program"), built(|_, _| {}).expect("a program"));
    assert_eq!(built.report(), program.report());
    assert_eq!(built.statements(), program.statements());
    assert_eq!(built.edges(0..8), program.edges(0..8));
    assert_eq!(built.variables(), program.variables());
    for analysis in [Analysis::Reach, Analysis::Live, Analysis::Avail, Analysis::Busy] {
        assert_eq!(built.facts(analysis), program.facts(analysis));
    }
    assert_eq!((built.points()[0].span(), built.text()), (Some(0..0), [].as_slice()));
}

#[test]
fn what_is_not_built() {
    let refused = |change: fn(&mut [Built; 3], &mut [Built; 3])| built(change).err();
    let statement = |number| Some(Error::NotBuilt { fault: 1, number });
    assert_eq!(refused(|main, _| main[0].target = 2), statement(0));
    assert_eq!(refused(|main, _| main[0].operator = "~"), statement(0));
    assert_eq!(refused(|main, _| main[1].callees = &[1, 1]), statement(1));
    assert_eq!(refused(|_, p| p[0].label = 1), statement(3));
    assert_eq!(refused(|_, p| p[2].left = None), statement(5));
    let unnamed = Program::build(&[], &[], Limits::Standard).err();
    assert_eq!(unnamed, Some(Error::NotBuilt { fault: 7, number: 0 }));
}
