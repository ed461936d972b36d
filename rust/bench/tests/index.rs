//! The engine with the perfect index gives the same replies, places and figures as the plain one, over random policies and
//! requests.

use bench::Index;
use differential::{compare, plain, Case, Coverage, Panel};
use plain::{Engine, OrderLists};

fn panel() -> Panel {
    Panel::of(vec![
        plain("lists", Engine::<OrderLists>::new()),
        Box::new(Index::new()),
    ])
}

#[test]
fn random_cases_are_answered_alike() {
    let mut coverage = Coverage::default();
    for number in 0..150 {
        let fill = number % 50 == 0;
        match compare(&panel(), &Case::random(1, number), fill) {
            Ok(covered) => coverage.join(&covered),
            Err(failure) => panic!("case {number}: {}", failure.report()),
        }
    }
    // A few pairs of kind and reply are too rare to occur in these cases.
    let missing = coverage.missing();
    assert!(missing.len() <= 5, "{missing:?}");
}
