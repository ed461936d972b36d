//! SHAPE and RANGE of every kind: each length, each kind in each call, each unused field, each limit.

mod common;
use common::*;
use plain::Reply::{self, *};

/// The limit of a field that may have any value.
const ANY: u16 = u16::MAX;

/// A kind's fields as docs/RULES.md lists them ("Numbers"): the largest value of each of a, b and c.
struct Form {
    kind: u8,
    n: bool,
    abc: &'static [u16],
    m: bool,
}

const fn form(kind: u8, n: bool, abc: &'static [u16], m: bool) -> Form {
    Form { kind, n, abc, m }
}

#[rustfmt::skip]
const FORMS: [Form; 38] = [
    form(1, false, &[1023], false), form(2, false, &[63], false), form(3, false, &[255, ANY, ANY], false),
    form(4, false, &[1023, 63], false), form(5, false, &[63, 255], false), form(6, false, &[63, 15], false),
    form(7, false, &[63, 63], false), form(8, false, &[63, 255], false), form(9, true, &[], true),
    form(10, true, &[], true), form(11, true, &[], true), form(12, false, &[15], true),
    form(13, false, &[15], false), form(14, true, &[63], false), form(15, false, &[63, 63], false),
    form(16, false, &[63, 63], false), form(17, false, &[63, 63], false),
    form(18, false, &[15, 15, ANY], false),
    form(32, false, &[1023], true), form(33, false, &[1023], false), form(34, false, &[1023, 63], false),
    form(35, false, &[1023, 63], false), form(36, false, &[63, 255], false), form(37, false, &[63, 255], false),
    form(40, false, &[127, 1023], true), form(41, false, &[127], false), form(42, false, &[127, 63], false),
    form(43, false, &[127, 63], false), form(48, false, &[63, 15], false), form(49, false, &[63], false),
    form(50, false, &[127, 63, 63], false), form(51, false, &[127, 63, 63], false),
    form(52, false, &[127, 63, 63], false), form(56, false, &[127, ANY, ANY], false),
    form(57, false, &[127, 63, 63], true), form(58, false, &[63], false),
    form(59, false, &[127, ANY, ANY], false),
    form(60, false, &[15], false),
];

impl Form {
    fn is_policy(&self) -> bool {
        self.kind <= 18
    }

    /// The reply of the call that takes this kind.
    fn reply(&self, record: &[u8]) -> Reply {
        let mut both = Both::new();
        if self.is_policy() {
            let (reply, place) = both.load(&[record.to_vec()]);
            assert_eq!(place, usize::from(reply != Granted));
            reply
        } else {
            both.request(record)
        }
    }

    fn record(&self, n: u8, abc: [u16; 3], m: u64) -> Bytes {
        record(self.kind, n, abc[0], abc[1], abc[2], m)
    }
}

#[test]
fn other_lengths_are_shape() {
    for form in FORMS {
        let whole = form.record(0, [0; 3], 0);
        for length in (1..40).filter(|&l| l != 16) {
            let bytes: Bytes = whole.iter().copied().cycle().take(length).collect();
            if !form.is_policy() {
                assert_eq!(form.reply(&bytes), Shape, "kind {}", form.kind);
            } else if length < 16 {
                assert_eq!(Both::new().load(&[bytes]), (Shape, 1));
            }
        }
    }
    assert_eq!(Both::new().request(&[]), Shape);
}

#[test]
fn a_cut_record_is_shape_at_its_place_unless_an_earlier_one_is_refused() {
    let cut = user(3)[..5].to_vec();
    let mut both = Both::new();
    assert_eq!(both.load(&[user(1), user(2), cut.clone()]), (Shape, 3));
    assert_eq!(both.load(&[user(1), user(1), cut]), (Taken, 2));
}

#[test]
fn kinds_of_no_call_or_of_the_other_are_shape() {
    for kind in 0..=255 {
        let bytes = record(kind, 0, 9999, 9999, 9999, 0);
        let known = FORMS.iter().find(|form| form.kind == kind);
        if !known.is_some_and(Form::is_policy) {
            assert_eq!(Both::new().load(std::slice::from_ref(&bytes)), (Shape, 1));
        }
        if known.is_none_or(Form::is_policy) {
            assert_eq!(Both::new().request(&bytes), Shape, "kind {kind}");
        }
    }
}

#[test]
fn each_unused_field_must_be_zero_in_every_bit() {
    for form in FORMS {
        let refused = |n, abc, m| {
            let bytes = form.record(n, abc, m);
            assert_eq!(form.reply(&bytes), Shape, "{bytes:?}");
        };
        for bit in (0..8).filter(|_| !form.n) {
            refused(1 << bit, [0; 3], 0);
        }
        for (field, bit) in (form.abc.len()..3).flat_map(|f| (0..16).map(move |b| (f, b))) {
            let mut abc = [0; 3];
            abc[field] = 1 << bit;
            refused(0, abc, 0);
        }
        for bit in (0..64).filter(|&b| !form.m || form.kind == 57 && b >= 32) {
            refused(0, [0; 3], 1 << bit);
        }
    }
}

#[test]
fn the_last_number_of_each_field_is_in_range_and_the_next_is_not() {
    for form in FORMS {
        let (n, m) = (u8::from(form.n), if form.m { 1 } else { 0 });
        for (field, &last) in form.abc.iter().enumerate() {
            let mut abc = [0; 3];
            abc[field] = last;
            let reply = form.reply(&form.record(n, abc, m));
            assert!(![Shape, Range].contains(&reply), "kind {}", form.kind);
            if last == ANY {
                continue;
            }
            for beyond in [last + 1, last + 256, 0x8000, ANY] {
                abc[field] = beyond;
                let bytes = form.record(n, abc, m);
                assert_eq!(form.reply(&bytes), Range, "{bytes:?}");
            }
        }
    }
}

#[test]
fn shape_comes_before_range() {
    for form in FORMS.iter().filter(|f| f.abc.iter().any(|&l| l != ANY)) {
        let mut abc = [0; 3];
        abc[..form.abc.len()].fill(ANY);
        let mut shaped = form.record(0, abc, 0);
        assert_eq!(form.reply(&shaped), Range, "kind {}", form.kind);
        if form.n {
            shaped[15] = 1;
        } else {
            shaped[1] = 1;
        }
        assert_eq!(form.reply(&shaped), Shape, "kind {}", form.kind);
    }
}
