//! The readers agree over random and damaged texts, and every possible answer occurs.

use opl::Sections;
use opl_differential::{readers, readers_of, run, run_sections, Reader};
use std::slice::{from_raw_parts, from_raw_parts_mut};

#[test]
fn the_readers_agree() {
    let met = run(&readers(), 7, 100_000).unwrap_or_else(|difference| panic!("{difference}"));
    assert!(met.everything(Sections::Asked), "{met}");
}

/// The readers of all sections that the engine supports.
#[test]
fn the_readers_of_all_sections_agree() {
    let readers = readers_of(Sections::All);
    let met = run_sections(&readers, 17, 100_000, Sections::All);
    let met = met.unwrap_or_else(|difference| panic!("{difference}"));
    assert!(met.everything(Sections::All), "{met}");
}

/// The plain reader as a library would export it; it overwrites its scratch buffer.
unsafe extern "C" fn exported(
    policy: *const u8,
    policy_bytes: usize,
    tasks: *const u8,
    tasks_bytes: usize,
    output: *mut u8,
    output_bytes: usize,
    scratch: *mut u64,
    scratch_words: usize,
) -> u64 {
    // SAFETY: the caller passes pointers and lengths of slices.
    unsafe {
        let (policy, tasks) = (
            from_raw_parts(policy, policy_bytes),
            from_raw_parts(tasks, tasks_bytes),
        );
        from_raw_parts_mut(scratch, scratch_words).fill(7);
        let output = from_raw_parts_mut(output, output_bytes);
        opl::translate(policy, tasks, output).number()
    }
}

/// The sections for which the library has a call, as the plain reader and as the wrapper name them.
#[cfg(mishantral_opl)]
fn choices() -> Vec<(Sections, mishantral::opl::Sections)> {
    vec![
        (Sections::Asked, mishantral::opl::Sections::Asked),
        #[cfg(mishantral_opl_all)]
        (Sections::All, mishantral::opl::Sections::All),
    ]
}

/// A scratch buffer of another length is answered with ROOM, unless TEXT applies; the output does not change.
#[cfg(mishantral_opl)]
#[test]
fn the_scratch_has_one_length() {
    for (sections, same) in choices() {
        the_scratch_of(sections, same);
    }
}

#[cfg(mishantral_opl)]
fn the_scratch_of(sections: Sections, same: mishantral::opl::Sections) {
    use mishantral::opl::translate_sections;
    use opl_differential::{mangled, Texts};
    let mut random = random::Random::new(13);
    let words = mishantral::opl::scratch_words();
    let mut scratch = vec![0x5a5a_5a5a_5a5a_5a5a; words + 1];
    for turn in 0..4_000 {
        let mut texts = Texts::of_sections(&mut random, sections);
        if turn % 2 == 1 {
            texts.policy = mangled(&mut random, &texts.policy);
        }
        let mut output = vec![3; random.below(400)];
        let length = random.pick(&[0, 1, 1_000, words - 1, words + 1]);
        let lent = &mut scratch[..length];
        let told = translate_sections(&texts.policy, &texts.tasks, &mut output, lent, same);
        let plain = opl::translate_sections(&texts.policy, &texts.tasks, &mut [], sections);
        let expected = match plain.reply {
            opl::TEXT => plain.number(),
            _ => opl::ROOM.into(),
        };
        let text = told.text.map_or(0, |text| text as u64);
        let number = u64::from(told.reply.number()) + 256 * (text + 4 * told.figure);
        assert_eq!(number, expected, "{texts:?}");
        assert!(output.iter().all(|&byte| byte == 3));
    }
}

/// Texts with more start tags than the scratch buffer lists, with the list ending at various places of the loan example: after
/// the last listed tag the text itself is read.
#[cfg(mishantral_opl)]
#[test]
fn more_tags_than_the_scratch_lists() {
    const LOAN: &str = include_str!("../../../examples/opl_loan/policy.xml");
    const TASKS: &[u8] = include_bytes!("../../../examples/opl_loan/tasks.txt");
    const ONE: &str =
        "<user_assignment user_id=\"user:karla_meier\" role_id=\"role:clerk_preprocessor\"/>";
    let begin = LOAN.find("</user_assignments>").unwrap();
    let mut scratch = vec![u64::MAX; mishantral::opl::scratch_words()];
    for short in (0..240).step_by(16) {
        let times = 262_144 - short;
        let policy = [&LOAN[..begin], &ONE.repeat(times), &LOAN[begin..]].concat();
        let room = 16 * (times + 98);
        let (mut expected, mut output) = (vec![3; room], vec![3; room]);
        let plain = opl::translate(policy.as_bytes(), TASKS, &mut expected);
        assert_eq!(plain.reply, 0);
        for (_, same) in choices() {
            output.fill(3);
            let told = mishantral::opl::translate_sections(
                policy.as_bytes(),
                TASKS,
                &mut output,
                &mut scratch,
                same,
            );
            assert_eq!((told.reply.number(), told.figure), (0, plain.figure));
            assert!(output == expected, "{short}");
        }
    }
}

#[test]
fn a_library_takes_part() {
    let mut all = readers();
    // SAFETY: the function uses only its arguments.
    all.push(unsafe { Reader::exported("exported", exported, 10) });
    let met = run(&all, 9, 1_000).unwrap_or_else(|difference| panic!("{difference}"));
    assert!(met.accepted > 0, "{met}");
}
