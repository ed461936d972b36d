//! All engines over the default cases: they agree, and every kind gets every reply that is possible.

use differential::{compare, Case, Coverage, Panel, CASES, SEED};
use records::Reply;

#[test]
fn all_engines_agree_and_every_reply_comes_up() {
    let panel = Panel::all();
    let mut coverage = Coverage::default();
    for number in 0..CASES {
        let case = Case::random(SEED, number);
        match compare(&panel, &case, number % 20 == 0) {
            Ok(seen) => coverage.join(&seen),
            Err(failure) => panic!("case {number} differs:\n{}", failure.report()),
        }
    }
    assert_eq!(coverage.missing(), [], "\n{}", coverage.table());
    assert_eq!(coverage.surprising(), [], "\n{}", coverage.table());
    assert_eq!(coverage.missing_places(), [], "\n{}", coverage.table());
    assert_eq!(coverage.missing_piles(), [], "\n{}", coverage.table());
    assert_eq!(coverage.missing_questions(), [], "\n{}", coverage.table());
    assert_eq!(coverage.missing_figures(), [""; 0]);
    assert_eq!(coverage.missing_files(), [""; 0], "\n{}", coverage.table());
    assert_eq!(coverage.surprising_reports(), [0; 0]);
    assert_eq!(
        coverage.surprising_questions(),
        [],
        "\n{}",
        coverage.table()
    );
    assert_eq!(coverage.surprising_places(), [], "\n{}", coverage.table());
}

/// The kinds that the lower part answers.
fn of_the_lower_part(kind: u8) -> bool {
    kind < 48 || kind == 56
}

#[test]
fn the_lower_part_agrees_and_every_reply_of_it_comes_up() {
    let panel = Panel::lower();
    let mut coverage = Coverage::default();
    for number in 0..CASES {
        match compare(&panel, &Case::random(SEED, number), false) {
            Ok(seen) => coverage.join(&seen),
            Err(failure) => panic!("case {number} differs:\n{}", failure.report()),
        }
    }
    // Without entries no subject holds a task.
    let missing = coverage.missing().into_iter();
    let missing = missing
        .filter(|&(kind, reply)| of_the_lower_part(kind) && (kind, reply) != (41, Reply::InUse));
    assert_eq!(missing.collect::<Vec<_>>(), [], "\n{}", coverage.table());
}

#[cfg(mishantral_engine)]
#[test]
fn the_proved_library_answers_over_garbage() {
    for number in 0..100 {
        if let Err(report) = differential::garbage(SEED, number) {
            panic!("case {number}: {report}");
        }
    }
}

#[cfg(mishantral_engine)]
#[test]
fn the_proved_library_reads_links_as_they_are() {
    let (mut sound, mut broken) = (0, std::collections::BTreeSet::new());
    for number in 0..500 {
        match differential::links(SEED, number) {
            Ok(links) if links.sound => sound += 1,
            Ok(links) => drop(broken.insert(links.damage)),
            Err(report) => panic!("{report}"),
        }
    }
    assert!(sound > 50, "{sound}");
    // A changed bit is often one that is never read.
    for damage in differential::damages().filter(|name| !name.starts_with("a bit")) {
        assert!(broken.contains(&Some(damage)), "{damage} broke nothing");
    }
}
