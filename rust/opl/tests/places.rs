//! The place of each refusal. In these texts a `|` marks the byte that the refusal must name.

use opl::{translate, Answer, NAMES, ROOM, TEXT};

const HEAD: &str = "<policy_object><policy_object_attributes/><active_modules/>";

/// A policy with one module, or with other text in its place.
fn with(module: &str) -> String {
    format!("{HEAD}<policy_object_modules>{module}</policy_object_modules></policy_object>")
}

fn answer(policy: &str, tasks: &str) -> Answer {
    translate(policy.as_bytes(), tasks.as_bytes(), &mut [0; 1024])
}

#[track_caller]
fn refused_at(text: u8, place: usize, found: Answer) {
    let expected = Answer {
        reply: TEXT,
        text,
        figure: place as u64,
    };
    assert_eq!(found, expected);
}

/// Checks that the text without its mark is refused at the mark.
#[track_caller]
fn marked(text: &str) {
    let place = text.find('|').expect("a mark") + 1;
    refused_at(1, place, answer(&text.replacen('|', "", 1), ""));
}

#[track_caller]
fn module(text: &str) {
    marked(&with(text));
}

#[track_caller]
fn users(text: &str) {
    let rest = "<roles/><permissions/><user_assignments/><permission_assignments/>";
    let core = "module_rbac_core_policy";
    module(&format!("<{core}><users>{text}</users>{rest}</{core}>"));
}

#[track_caller]
fn cardinalities(text: &str) {
    let name = "module_wf_cardinality_policy";
    module(&format!(
        "<{name}><task_cardinalities>{text}</task_cardinalities></{name}>"
    ));
}

#[track_caller]
fn accepted(policy: &str) {
    let found = answer(policy, "t w\n");
    assert_eq!((found.reply, found.text), (0, 0), "{found:?}");
}

const SMALL: &str = "<module_sep_duty_policy/>";

#[test]
fn forms_that_are_accepted() {
    for text in [
        with(SMALL),
        format!("<?xml version='1.0'?>{}", with(SMALL)),
        format!("\u{feff}{}", with(SMALL)),
        format!("\u{feff} {}", with(SMALL)),
        format!(
            "\u{feff}<?xml version=\"1.0\" encoding=\"utf-8\" standalone=\"yes\"?>\r\n{}",
            with(SMALL)
        ),
        format!("<?xml version='1.0' standalone = 'no' ?>{}", with(SMALL)),
        format!("<?xml version='1.0' encoding='Utf-8'?>{}", with(SMALL)),
        format!(
            "<?xml  version = \"1.0\"\n encoding='UTF-8' ?>\n{}\r\n\t",
            with(SMALL)
        ),
        format!(
            "<!----><!-- - -> <&> --><!DOCTYPE policy_object SYSTEM 'x'>{}<!--e-->",
            with(SMALL)
        ),
        format!(
            "<?xml version=\"1.0\"?> <!DOCTYPE\tpolicy_object  SYSTEM \"\" > {}",
            with(SMALL)
        ),
        with("<module_sep_duty_policy><!-- nothing --></module_sep_duty_policy >"),
        with(
            "<module_wf_cardinality_policy><task_cardinalities>
             <task_cardinality cardinality='0' task_id='t'><!-- a --> </task_cardinality>
             <task_cardinality cardinality=\"00255\" task_id='t'/></task_cardinalities>
             </module_wf_cardinality_policy>",
        ),
    ] {
        accepted(&text);
    }
}

#[test]
fn the_text_ends_too_early() {
    marked("|");
    marked(" |");
    marked("<policy_object|");
    marked("<policy_object |");
    marked("<policy_object>|");
    marked("<policy_object><!-- a|");
    marked("<policy_object><!-- a -|");
    marked("<policy_object><!-- a --|");
    marked("<?xml |");
    marked("<?xml version=\"1.|");
    marked("<?xml version=\"1.0\"?|");
    marked("<!DOCTYPE|");
    marked("<!DOCTYPE policy_object SYSTEM 'a'|");
    marked(&(with(SMALL) + "<!--|"));
    for cut in [
        "<module_sep_duty_policy/",
        "<module_sep_duty_policy></module_sep_duty_policy",
        "<module_rbac_core_policy><users><user user_id",
        "<module_rbac_core_policy><users><user user_i",
        "<module_rbac_core_policy><users><user x=",
        "<module_rbac_core_policy><users><user x='a",
        "<module_rbac_core_policy><users><user user_id='a' user_id",
        "<module_rbac_core_policy><users><user user_id='a' user_id='b",
        "<module_rbac_core_policy><users><user user_id=",
        "<module_rbac_core_policy><users><user user_id='",
        "<module_rbac_core_policy><users><user user_id='a",
        "<module_rbac_core_policy><users><user user_id='a'",
    ] {
        marked(&format!("{HEAD}<policy_object_modules>{cut}|"));
    }
}

#[test]
fn a_byte_that_cannot_stand_there() {
    marked("\u{feff}|\u{feff}<policy_object>");
    marked(" |\u{feff}<policy_object>");
    marked("|x<policy_object>");
    marked("<policy_object|=>");
    marked("<policy_object>|text</policy_object>");
    marked("<policy_object>|&amp;</policy_object>");
    marked("<policy_object>|\u{1}</policy_object>");
    marked("<policy_object>|></policy_object>");
    marked(&(with(SMALL) + "|x"));
    marked(&(with(SMALL) + "|&"));
    users("<user user_id|'a'/>");
    users("<user user_id |'a'/>");
    users("<user user_id=|a/>");
    users("<user user_id=|>");
    users("<user |='a'/>");
    users("<user |\"/>");
    users("<user user_id='a'|user_id='b'/>");
    users("<user user_id='a'/|/>");
    users("<user user_id='a'/| >");
    users("<user user_id='a'|?>");
    users("<user user_id='a|<b'/>");
    users("<user user_id='a|&lt;b'/>");
    users("<user user_id='a|\u{b}b'/>");
    users("<user user_id='a\t\r\n\"\u{7f}\u{e9}>b|\u{1f}'/>");
    users("<!-- a|\u{8}-->");
    users("<user user_id='a'></user|<>");
    users("<user user_id='a'></user |x>");
}

#[test]
fn markup_that_is_no_element() {
    marked("|<!x><policy_object>");
    marked("|<!-x><policy_object>");
    marked("|<!-");
    marked("|<!DOCTYP policy_object>");
    marked("|<!doctype policy_object>");
    marked("|<?xm version='1.0'?>");
    marked("|<?xml");
    marked("|<?xml?>");
    marked("|<?xmlx version='1.0'?>");
    marked(" |<?xml version='1.0'?>");
    marked("<!---->|<?xml version='1.0'?>");
    let doctype = "<!DOCTYPE policy_object SYSTEM 'a'>";
    marked(&format!("{doctype}|{doctype}"));
    marked("<policy_object>|<![CDATA[a]]></policy_object>");
    marked("<policy_object>|<?php?></policy_object>");
    marked("<policy_object>|<!DOCTYPE policy_object SYSTEM 'a'></policy_object>");
    marked(&(with(SMALL) + "|<policy_object/>"));
    marked(&(with(SMALL) + "|<?a?>"));
    marked(&(with(SMALL) + "|<!-a"));
}

#[test]
fn prolog_pieces_that_go_wrong() {
    marked("<?xml |encoding='UTF-8'?>");
    marked("<?xml ver|x='1.0'?>");
    marked("<?xml version|:='1.0'?>");
    marked("<?xml version='|1.1'?>");
    marked("<?xml version='|'?>");
    marked("<?xml version='1.0|<'?>");
    marked("<?xml version='1.0'|encoding='UTF-8'?>");
    marked("<?xml version='1.0' enc|?>");
    marked("<?xml version='1.0' encoding='UTF-8' standalone='|Yes'?>");
    marked("<?xml version='1.0' encoding='UTF-8' standalone='|'?>");
    marked("<?xml version='1.0' encoding='UTF-8'|standalone='yes'?>");
    marked("<?xml version='1.0' standalone='yes' |encoding='UTF-8'?>");
    marked("<?xml version='1.0' st|op='yes'?>");
    marked("\u{feff}<?xml version='|1.1'?>");
    marked("\u{feff}|<?xml?>");
    marked("<?xml version='1.0' encoding='|utf8'?>");
    marked("<?xml version='1.0' encoding='|UTF-16'?>");
    marked("<?xml version='1.0' ?|?>");
    marked("<!DOCTYPE|x policy_object SYSTEM 'a'>");
    marked("<!DOCTYPE policy|-object SYSTEM 'a'>");
    marked("<!DOCTYPE policy_object|s SYSTEM 'a'>");
    marked("<!DOCTYPE policy_object |PUBLIC 'a' 'b'>");
    marked("<!DOCTYPE policy_object |[ ]>");
    marked("<!DOCTYPE policy_object SYSTEM|'a'>");
    marked("<!DOCTYPE policy_object SYSTEM 'a|&'>");
    marked("<!DOCTYPE policy_object SYSTEM 'a' |[ ]>");
}

#[test]
fn start_tags() {
    marked("|<policy_objects>");
    marked("|<module_rbac_core_policy/>");
    marked("<policy_object>|<active_modules/>");
    marked("<policy_object><policy_object_attributes/>|<policy_object_attributes/>");
    marked("<policy_object>|<policy_object_att");
    module("|<module_role_hierarchy_policy/>");
    module("|<module_rbac_core_policy_/>");
    module("|<a:module_sep_duty_policy/>");
    module("<module_sep_duty_policy>|<strict_static_separation_of_duty/></module_sep_duty_policy>");
    let duties = "<dynamic_separation_of_duty><critical_role_sets/></dynamic_separation_of_duty>";
    let statics = "<static_separation_of_duty><critical_role_sets/></static_separation_of_duty>";
    module(&format!(
        "<module_sep_duty_policy>{duties}|{statics}</module_sep_duty_policy>"
    ));
    module(&format!(
        "<module_sep_duty_policy>{duties}|{duties}</module_sep_duty_policy>"
    ));
    users("|<users/>");
    users("<user user_id='a'>|<user user_id='a'/></user>");
}

#[test]
fn tags_without_a_name() {
    marked("<|");
    marked("<|<policy_object>");
    marked("<|/policy_object>");
    marked("<|>");
    marked("<| policy_object>");
    marked("<policy_object><|");
    marked("<policy_object><|<policy_object_attributes/>");
    marked("<policy_object><| policy_object_attributes/>");
    marked("<policy_object><|&");
    marked("<policy_object><|\u{1}");
    marked("<policy_object></|");
    marked("<policy_object></|>");
    marked("<policy_object></| policy_object>");
    marked("<policy_object></|</policy_object>");
    marked("<policy_object></|!");
    marked(&(with(SMALL) + "|<"));
    marked(&(with(SMALL) + "|< x"));
    users("<|='a'/>");
    users("<user user_id='a'><|\n");
    users("<user user_id='a'></|\nuser>");
}

#[test]
fn end_tags() {
    marked("<policy_object>|</policy_objects>");
    marked("<policy_object>|</policy_object>");
    marked("<policy_object>|</p");
    marked(&format!(
        "{HEAD}<policy_object_modules>|</policy_object_modules>"
    ));
    marked(&format!("{HEAD}<policy_object_modules|/>"));
    module("<module_rbac_core_policy><users/><roles/><permissions/>|</module_rbac_core_policy>");
    module("<module_rbac_core_policy|/>");
    module("<module_rbac_core_policy/|x");
    module("<module_wf_prereq_step_policy|/>");
    users("<user user_id='a'>|</users>");
}

#[test]
fn attributes() {
    users("<user |id='a'/>");
    users("<user |User_id='a'/>");
    users("<user |user_id_='a'/>");
    users("<user user_id='a' |user_id='b'/>");
    users("<user user_id='a' |xmlns='b'/>");
    users("<user|/>");
    users("<user |>");
    users("<user|/x>");
    users("<user user_id='|'/>");
    marked("<policy_object |version='1'>");
}

#[test]
fn attributes_judged_when_their_value_has_been_read() {
    users("<user id|");
    users("<user id|>");
    users("<user x |y");
    users("<user id=|a/>");
    users("<user id='|<'/>");
    users("<user |user_i\u{e9}='a'/>");
    users("<user |id = \"a\"y/>");
    users("<user user_id='a' user|'b'/>");
    users("<user user_id='a' user_id|/>");
    users("<user user_id='a' user_id=|b/>");
    users("<user user_id='a' user_id='|&'/>");
    users("<user user_id='a'\n|user_id=''/>");
    cardinalities("<task_cardinality cardinality='1' |cardinality='x'/>");
}

#[test]
fn cardinality() {
    for wrong in [
        "", "256", "1000", "-1", "+1", " 1", "1 ", "0x1", "one", "1.0",
    ] {
        cardinalities(&format!(
            "<task_cardinality task_id='t' cardinality='|{wrong}'/>"
        ));
    }
    cardinalities("<task_cardinality cardinality='x|<'/>");
    cardinalities("<task_cardinality cardinality='|x'/>");
    cardinalities("<task_cardinality cardinality='1'|/>");
}

#[test]
fn comments() {
    marked("<!-- a |-- b --><policy_object>");
    marked("<!-- a |---><policy_object>");
    marked("<!--|--a><policy_object>");
    marked("<!--->|--a");
}

#[test]
fn task_lines() {
    let policy = with(SMALL);
    for (lines, reply) in [
        ("", 0),
        ("a b", 0),
        ("a b\n", 0),
        ("a b\na c\nd c", 0),
        ("a b\r\n", 0),
        ("a b\r\na c\nd c", 0),
        ("a b\na c\r\n", 0),
        ("\u{feff}", 0),
        ("\u{feff}a b\r\n", 0),
    ] {
        assert_eq!(answer(&policy, lines).reply, reply, "{lines:?}");
    }
    for marked in [
        "|\n",
        "| a b",
        "a|",
        "a|\n",
        "a |",
        "a |\n",
        "a | b",
        "a b| ",
        "a b\r|",
        "\u{feff}a|",
        "\u{feff}|\n",
        "a b\r|\r\n",
        "a b\r|c d",
        "a b\r\n|\r\n",
        "|\r\n",
        "a|\r\n",
        "a|\tb",
        "a b\n|\n",
        "a b\n|\nc d",
        "a b\nc|",
        "|\u{0}",
        "a b c".replacen(" c", "| c", 1).as_str(),
    ] {
        let place = marked.find('|').unwrap() + 1;
        refused_at(2, place, answer(&policy, &marked.replacen('|', "", 1)));
    }
    refused_at(1, 1, answer("", "\n"));
}

#[test]
fn names_come_after_both_texts_and_room_last() {
    let users = |names: &[&str]| {
        let elements: String = names
            .iter()
            .map(|name| format!("<user user_id='{name}'/>"))
            .collect();
        with(&format!(
            "<module_rbac_core_policy><users>{elements}</users><roles/><permissions/>\
             <user_assignments/><permission_assignments/></module_rbac_core_policy>"
        ))
    };
    let long = "u".repeat(65);
    let refused = |reply| Answer {
        reply,
        text: 0,
        figure: 0,
    };
    assert_eq!(answer(&users(&[&long]), ""), refused(NAMES));
    assert_eq!(answer(&users(&[&long[1..]]), "").reply, 0);
    refused_at(2, 1, answer(&users(&[&long]), "\n"));
    let two = users(&["a", "b"]);
    let mut output = [7; 40];
    let room = |output: &mut [u8]| translate(two.as_bytes(), b"", output);
    assert_eq!(room(&mut output[..31]), refused(ROOM));
    assert_eq!(output, [7; 40]);
    assert_eq!((room(&mut output).reply, room(&mut output).figure), (0, 2));
    assert_eq!(output[32..], [7; 8]);
    let refused_first = translate(users(&[&long]).as_bytes(), b"", &mut []);
    assert_eq!(refused_first, refused(NAMES));
}
