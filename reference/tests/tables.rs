//! The cases of `tables`: each answered as its maker meant, and as the plain check answers.

mod naive;
#[allow(dead_code)]
#[path = "../src/bin/tables.rs"]
mod tables;

use reference::check::check;
use reference::rows::{kind, lent, Row};
use reference::LIMIT;
use tables::Case;

const READ: &str = "read from documents";
const RANDOM: &str = "random words";

fn is_right(case: &Case) -> bool {
    match check(&case.table, case.n as usize, &case.data) {
        Ok(()) => true,
        Err(refusal) => {
            assert_eq!((refusal.number(), refusal.beside), (12, 0));
            false
        }
    }
}

fn all() -> Vec<Case> {
    tables::groups().into_iter().flat_map(|(_, cases)| cases).collect()
}

#[test]
fn each_answer_is_the_one_meant() {
    for (group, cases) in tables::groups() {
        for case in cases {
            match case.right {
                Some(right) => assert_eq!(is_right(&case), right, "{group}: {case:02x?}"),
                None => assert_eq!(group, RANDOM),
            }
        }
    }
}

#[test]
fn each_answer_is_that_of_the_plainest_check() {
    for case in all() {
        let n = case.n as usize;
        let rows = lent(&case.table).get(..n).filter(|_| (1..=LIMIT as usize).contains(&n));
        assert_eq!(is_right(&case), rows.is_some_and(|rows| naive::check(rows, &case.data)), "{case:02x?}");
    }
}

#[test]
fn both_answers_are_met_often() {
    for (group, cases) in tables::groups() {
        let right = cases.iter().filter(|case| is_right(case)).count();
        let broken = cases.len() - right;
        println!("{group}: {right} right, {broken} broken");
        assert!(right >= 200 && (group == READ || broken >= 200), "{group}: {right}, {broken}");
        assert!(group != READ || broken == 0, "{broken}");
    }
}

#[test]
fn cases_fit_their_bounds_and_meet_every_kind() {
    let cases = all();
    assert!(cases.len() <= 10_000, "{}", cases.len());
    assert!(tables::inputs().len() < 2_000_000, "{}", tables::inputs().len());
    assert_eq!(tables::expected().lines().count(), cases.len());
    assert!(cases.iter().all(|case| case.table.len() <= 1_536 && case.data.len() <= 4_096));
    assert!(cases.iter().any(|case| case.table.len() == 1_536) && cases.iter().any(|case| case.data.len() == 4_096));
    let right: Vec<&Case> = cases.iter().filter(|case| is_right(case)).collect();
    let met = |is: &dyn Fn(&Row) -> bool| {
        right.iter().filter(|case| lent(&case.table)[..case.n as usize].iter().any(is)).count()
    };
    for kind in kind::FALSE..=kind::KEY {
        assert!(met(&|row| row[0] == kind) >= 30, "{kind}");
    }
    for verdict in 2..=10 {
        assert!(met(&|row| row[0] == kind::FOREIGN && row[4] == verdict) >= 10, "{verdict}");
    }
}
