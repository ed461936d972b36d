//! A listing with its requests in words, and listings that do not fit their requests.

use notation::reader::Line;
use notation::{read, Error, Names};

fn explain(policy: Option<&[u8]>, requests: &[u8], listing: &str) -> Result<String, Error> {
    let requests: Vec<Line> = requests.chunks(16).map(Line::of).collect();
    notation::explain(policy, &requests, listing, &Names::default())
}

fn records(text: &str) -> Vec<u8> {
    read(text.as_bytes()).unwrap()
}

#[test]
fn each_request_with_its_reply() {
    let requests = records("claim 5 0 1\nend order 0\nbytes 01 02");
    let listing = "load 0 0\n1 14 1\n2 6 0\n3 2 0\n";
    let text = "\
load 0 GRANTED
    1  14 BEFORE        claim 5 0 1
       14 BEFORE  (rule 1 of its kind)
    2   6 IN USE        end order 0
    3   2 SHAPE         bytes 01 02
";
    assert_eq!(explain(None, &requests, listing).unwrap(), text);
}

#[test]
fn a_refused_claim_shows_its_rule_where_the_policy_is_given() {
    let policy = records(
        "task set 1 of 4 5\ntask 2 before task 3\ntask set 1 of 0 1\nblock of partitioning 7: 0\n\
         block of partitioning 2: 1\ntask 0 bound to task 1\ntask 0 before task 1",
    );
    let requests = records("claim 5 0 1\nclaim 5 0 1\nclaim 5 0 1\nclaim 5 0 1\nclaim 5 0 1");
    let listing = "load 0 0\n1 14 2\n2 15 2\n3 16 1\n4 18 1\n5 19 0\n";
    let text = "\
load 0 GRANTED
    1  14 BEFORE        claim 5 0 1
       14 BEFORE  task 0 before task 1 (rule 2 of its kind)
    2  15 SEPARATION    claim 5 0 1
       15 SEPARATION  task set 1 of 0 1 (rule 2 of its kind)
    3  16 BLOCK         claim 5 0 1
       16 BLOCK  block of partitioning 7: 0 (rule 1 of its kind)
    4  18 BOUND         claim 5 0 1
       18 BOUND  task 0 bound to task 1 (rule 1 of its kind)
    5  19 COUNT         claim 5 0 1
";
    let shown = explain(Some(&policy), &requests, listing).unwrap();
    assert_eq!(shown, text);
}

#[test]
fn a_place_that_no_rule_has() {
    let policy = records("task 0 before task 1");
    let requests = records("claim 5 0 1");
    let refused = |policy: Option<&[u8]>, line: &str, message: &str| {
        let error = explain(policy, &requests, &format!("load 0 0\n{line}\n"));
        assert_eq!(error.unwrap_err().to_string(), message, "{line:?}");
    };
    let of_kind_16 = |found: &str| {
        format!("line 2, column 6: expected the place of a rule of kind 16, 1 to 1, found {found}")
    };
    refused(Some(&policy), "1 14 2", &of_kind_16("\"2\""));
    refused(Some(&policy), "1 14 0", &of_kind_16("\"0\""));
    refused(Some(&policy), "1 14 x", &of_kind_16("\"x\""));
    refused(
        None,
        "1 14 0",
        "line 2, column 6: expected the place of a rule, from 1, found \"0\"",
    );
    refused(
        Some(&policy),
        "1 19 1",
        "line 2, column 6: expected place 0, found \"1\"",
    );
    refused(
        None,
        "1 0",
        "line 2, column 4: expected place 0, found the end of the line",
    );
}

#[test]
fn a_refused_load_shows_the_record_where_the_policy_is_given() {
    let policy = records("user 3\nuser 3");
    let requests = records("claim 5 0 1");
    let plain = explain(None, &requests, "load 5 2\n").unwrap();
    assert_eq!(plain, "load 5 TAKEN at record 2\n");
    let shown = explain(Some(&policy), &requests, "load 5 2\n").unwrap();
    assert_eq!(shown, "load 5 TAKEN at record 2: user 3\n");
    let room = explain(Some(&policy), &requests, "load 1 0").unwrap();
    assert_eq!(room, "load 1 ROOM\n");
}

#[test]
fn a_listing_that_does_not_fit() {
    let requests = records("claim 5 0 1\nend order 0");
    let refused = |listing: &str, message: &str| {
        let error = explain(None, &requests, listing).unwrap_err();
        assert_eq!(error.to_string(), message, "{listing:?}");
    };
    refused(
        "",
        "line 1, column 1: expected \"load\", found the end of the line",
    );
    refused(
        "load 0",
        "line 1, column 7: expected the place of a record, found the end of the line",
    );
    refused(
        "load 25 0",
        "line 1, column 6: expected a reply, 0 to 24, found \"25\"",
    );
    refused(
        "load 0 0\n1 0 0\n",
        "line 3, column 1: expected \"2\", found the end of the line",
    );
    refused(
        "load 0 0\n1 0 0\n3 0 0\n",
        "line 3, column 1: expected \"2\", found \"3\"",
    );
    refused(
        "load 0 0\n1 0 0 7\n2 0 0\n",
        "line 2, column 7: expected the end of the line, found \"7\"",
    );
    refused(
        "load 0 0\n1 0 0\n2 0 0\n3 0 0\n",
        "line 4, column 1: expected the end of the listing, found \"3 0 0\"",
    );
    refused(
        "load 5 1\n1 0 0\n",
        "line 2, column 1: expected the end of the listing, found \"1 0 0\"",
    );
}

#[test]
fn names_are_shown_from_where_they_are_granted() {
    let text = "create subject 1 am for user 300 with roles none\ncreate subject 1 pm for user 300 with roles none\ndestroy subject 1\n";
    let requests = notation::reader::read(text.as_bytes(), &Names::default(), false).unwrap();
    let requests: Vec<Line> = requests.lines.into_iter().map(|(_, line)| line).collect();
    let listing = "load 0 0\n1 0 0\n2 5 0\n3 0 0\n";
    let shown = notation::explain(None, &requests, listing, &Names::default()).unwrap();
    let last = shown.lines().last().unwrap();
    assert!(
        last.ends_with("GRANTED       destroy subject am"),
        "{shown}"
    );
}

#[test]
fn a_granted_question_shows_its_figures_where_the_policy_is_given() {
    let policy = records(
        "user 300\nrole 0\nuser 300 has role 0\ntask 0 of template 0\ntask 3 of template 0\ntask 0 open to role 0\n\
         task 3 open to role 0",
    );
    let requests = records(
        "create subject 5 for user 300 with roles 0\nopen order 7 of template 0\nentries of order 7\nclaim 5 7 3\n\
         entries of order 7\ndone 5 7 3\nclaim 5 7 0\nentries of order 7\nentries of order 8",
    );
    let listing = "load 0 0\n1 0 0\n2 0 0\n3 0 0\n4 0 0\n5 0 0\n6 0 0\n7 0 0\n8 0 0\n9 4 0\n";
    let shown = explain(Some(&policy), &requests, listing).unwrap();
    let text = "\
load 0 GRANTED
    1   0 GRANTED       create subject 5 for user 300 with roles 0
    2   0 GRANTED       open order 7 of template 0
    3   0 GRANTED       entries of order 7
       0 entries, done none
    4   0 GRANTED       claim 5 7 3
    5   0 GRANTED       entries of order 7
       1 entry, done none
    6   0 GRANTED       done 5 7 3
    7   0 GRANTED       claim 5 7 0
    8   0 GRANTED       entries of order 7
       2 entries, done 3
    9   4 UNKNOWN       entries of order 8
";
    assert_eq!(shown, text);
    // If another desk answered differently, no figures are given from there on.
    let other = listing.replace("4 0 0\n", "4 5 0\n");
    let shown = explain(Some(&policy), &requests, &other).unwrap();
    let told = shown.lines().filter(|line| line.contains("done none"));
    assert_eq!(told.count(), 1);
    assert!(!explain(None, &requests, listing).unwrap().contains("none"));
}

#[test]
fn stuck_tasks_are_told_in_the_order_of_the_free_ones() {
    let policy = records(
        "task 1 of template 2\ntask 2 of template 2\ntask 3 of template 2\ntask 4 of template 2\ntask 3 before task 4\n\
         task 4 before task 3\ntask 2 before task 1",
    );
    let requests = records("stuck tasks of template 2\nstuck tasks of template 3");
    let shown = explain(Some(&policy), &requests, "load 0 0\n1 0 0\n2 4 0\n").unwrap();
    let text = "\
load 0 GRANTED
    1   0 GRANTED       stuck tasks of template 2
       stuck 3 4, free 2 1
    2   4 UNKNOWN       stuck tasks of template 3
";
    assert_eq!(shown, text);
    let mut names = notation::Names::default();
    names.give(notation::Sort::Task, 3, b"task:sign");
    let told = [
        "template 2: prerequisites leave tasks waiting for ever: stuck \"task:sign\" 4, free 2 1",
    ];
    assert_eq!(notation::stuck(&policy, &names), told);
    let finite = records("task 1 of template 2\ntask 2 of template 2\ntask 2 before task 1");
    assert_eq!(notation::stuck(&finite, &names), [""; 0]);
    let refused = records("task 1 of template 2\ntask 1 of template 2");
    assert_eq!(notation::stuck(&refused, &names), [""; 0]);
}
