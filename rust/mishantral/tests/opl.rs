//! The proved reader of OPL/XML through the wrapper: the loan of document 000, refusals as values, and lent buffers of every
//! length.
#![cfg(mishantral_opl)]

use mishantral::opl::{scratch_words, translate, Answer, Text};
use mishantral::{Engine, Policy, Record, Reply, Set, Space};

const LOAN: &[u8] = include_bytes!("../../../examples/opl_loan/policy.xml");
const TASKS: &[u8] = include_bytes!("../../../examples/opl_loan/tasks.txt");

/// The number of records of the loan.
const RECORDS: usize = 98;

#[test]
fn the_loan_loads_and_is_asked_by_its_names() {
    let policy = Policy::from_opl(LOAN, TASKS).unwrap();
    assert_eq!(policy.records().count(), RECORDS);
    assert_eq!(policy.bytes().len(), 16 * RECORDS);
    let mut engine = Engine::new();
    engine.load(policy.bytes()).unwrap();

    let number = |space, name: &str| policy.number(space, name.as_bytes()).unwrap();
    let klaus = number(Space::User, "user:klaus_meier");
    let supervisor = number(Space::Role, "role:supervisor");
    assert_eq!((klaus, supervisor), (0, 2));
    let create = Record::create_subject(0, klaus, Set::of(&[supervisor as u8]));
    assert_eq!(engine.request(&create), Reply::Granted);
    let names = policy.names(Space::Task).len();
    assert_eq!((names, policy.names(Space::Template).len()), (14, 1));
    let operation = policy.name(Space::Operation, 5);
    assert_eq!(operation, Some(&b"query_avail_prod()"[..]));
    assert_eq!(policy.name(Space::Task, 14), None);
    assert_eq!(policy.number(Space::Role, b"user:klaus_meier"), None);
}

#[test]
fn a_refusal_has_its_byte_its_line_and_its_column() {
    let xml = b"<policy_object>\n  <!-- \xc3\xa9 --><users/>\n</policy_object>";
    let refused = Policy::from_opl(xml, b"").unwrap_err();
    let place = refused.place.unwrap();
    assert_eq!(refused.reply, Reply::Text);
    assert_eq!((place.text, place.byte), (Text::Policy, 30));
    assert_eq!((place.line, place.column), (2, 13));
    let words = "21 TEXT in the policy text, line 2, column 13";
    assert_eq!(refused.to_string(), words);

    let refused = Policy::from_opl(LOAN, b"a b\nc\n").unwrap_err();
    let words = "21 TEXT in the task lines, line 2, column 2";
    assert_eq!(refused.to_string(), words);
    let refused = Policy::from_opl(LOAN, b"").unwrap_err();
    assert_eq!((refused.reply, refused.place), (Reply::Names, None));
    assert_eq!(refused.to_string(), "22 NAMES");
}

/// Team leads and price books of examples/opl_leads: senior roles and walls. The call for Ask 4's sections refuses them at their
/// module.
#[cfg(mishantral_opl_all)]
mod all_sections {
    use super::*;
    use mishantral::opl::Sections;

    const LEADS: &[u8] = include_bytes!("../../../examples/opl_leads/policy.xml");
    const TASKS: &[u8] = include_bytes!("../../../examples/opl_leads/tasks.txt");

    #[test]
    fn senior_roles_and_walls_are_read_and_hold() {
        let policy = Policy::from_opl_sections(LEADS, TASKS, Sections::All).unwrap();
        let of_kind = |kind: u8| policy.records().filter(|r| r.kind() == kind).count();
        assert_eq!((of_kind(9), of_kind(10)), (1, 1));
        assert_eq!((of_kind(17), of_kind(18)), (2, 5));
        // Objects are numbered in text order; here those of permissions come first.
        let objects: Vec<&[u8]> = policy.names(Space::Object).collect();
        let expected = [
            "PriceBookNorth",
            "PriceBookSouth",
            "PublicList",
            "TermsEast",
            "MailsNorth",
        ];
        assert_eq!(objects, expected.map(str::as_bytes));

        let number = |space, name: &str| policy.number(space, name.as_bytes()).unwrap();
        let mut engine = Engine::new();
        engine.load(policy.bytes()).unwrap();
        let (lena, lead) = (
            number(Space::User, "user:lena"),
            number(Space::Role, "role:team_lead"),
        );
        let create = Record::create_subject(1, lena, Set::of(&[lead as u8]));
        assert_eq!(engine.request(&create), Reply::Granted);
        let open = number(Space::Operation, "open()");
        let south = number(Space::Object, "PriceBookSouth");
        let north = number(Space::Object, "PriceBookNorth");
        assert_eq!(
            engine.request(&Record::commit(1, open, south)),
            Reply::Granted
        );
        assert_eq!(engine.request(&Record::check(1, open, north)), Reply::Wall);
    }

    #[test]
    fn the_first_call_refuses_the_module() {
        let refused = Policy::from_opl(LEADS, TASKS).unwrap_err();
        let module = b"<module_role_hierarchy_policy>";
        let place = LEADS.windows(module.len()).position(|w| w == module);
        assert_eq!(refused.place.map(|p| p.byte - 1), place);
    }

    #[test]
    fn what_the_first_call_accepts_is_read_alike() {
        let loan = |sections| Policy::from_opl_sections(LOAN, super::TASKS, sections).unwrap();
        assert_eq!(loan(Sections::All), loan(Sections::Asked));
    }
}

/// The answer, and the output, which was filled with threes before.
fn told(xml: &[u8], tasks: &[u8], room: usize, scratch: usize) -> (Answer, Vec<u8>) {
    let mut output = vec![3; room];
    let mut scratch = vec![u64::MAX; scratch];
    let answer = translate(xml, tasks, &mut output, &mut scratch);
    (answer, output)
}

const ROOM: Answer = Answer {
    reply: Reply::Room,
    text: None,
    figure: 0,
};

#[test]
fn an_output_too_short_is_room_and_stays() {
    let words = scratch_words();
    let needed = 16 * RECORDS;
    for room in [0, 16, needed - 16, needed - 1] {
        assert_eq!(told(LOAN, TASKS, room, words), (ROOM, vec![3; room]));
    }
    let records = Policy::from_opl(LOAN, TASKS).unwrap().bytes().to_vec();
    for more in [0, 1, 16, 1000] {
        let (answer, output) = told(LOAN, TASKS, needed + more, words);
        let accepted = Answer {
            reply: Reply::Granted,
            text: None,
            figure: RECORDS as u64,
        };
        assert_eq!(answer, accepted);
        assert_eq!(output[..needed], records);
        assert_eq!(output[needed..], vec![3; more]);
    }
}

#[test]
fn a_scratch_of_another_length_is_room_behind_text() {
    let words = scratch_words();
    let text = |text, figure| Answer {
        reply: Reply::Text,
        text: Some(text),
        figure,
    };
    for scratch in [0, 1, words - 1, words + 1] {
        let room = 16 * RECORDS;
        let written = vec![3; room];
        assert_eq!(told(LOAN, TASKS, room, scratch), (ROOM, written.clone()));
        assert_eq!(told(LOAN, b"", room, scratch).0, ROOM);
        let policy = told(b"<", TASKS, room, scratch);
        assert_eq!(policy, (text(Text::Policy, 2), written.clone()));
        let tasks = told(LOAN, b"a", room, scratch);
        assert_eq!(tasks, (text(Text::Tasks, 2), written));
    }
}
