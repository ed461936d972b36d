//! The sixteen bytes of a record, and the two checks that need no table: SHAPE and RANGE.

use crate::reply::{Refusal, Reply};

/// The call that receives a record.
#[derive(Clone, Copy, PartialEq, Eq)]
pub(crate) enum Call {
    Load,
    Request,
}

#[derive(Clone, Copy)]
pub(crate) struct Record {
    pub kind: u8,
    pub n: u8,
    pub a: u16,
    pub b: u16,
    pub c: u16,
    pub m: u64,
}

/// A record's bytes: kind, n, a, b, c, m, little-endian, without a header.
pub fn encode(kind: u8, n: u8, a: u16, b: u16, c: u16, m: u64) -> [u8; 16] {
    let mut bytes = [0; 16];
    bytes[0] = kind;
    bytes[1] = n;
    bytes[2..4].copy_from_slice(&a.to_le_bytes());
    bytes[4..6].copy_from_slice(&b.to_le_bytes());
    bytes[6..8].copy_from_slice(&c.to_le_bytes());
    bytes[8..16].copy_from_slice(&m.to_le_bytes());
    bytes
}

/// The record in `bytes` if its form fits `call`; otherwise SHAPE, then RANGE.
///
/// Inlined, because returning a record through memory costs as much as an access check.
#[inline(always)]
pub(crate) fn decode(bytes: &[u8], call: Call) -> Result<Record, Refusal> {
    let bytes: &[u8; 16] = bytes.try_into().map_err(|_| Reply::Shape)?;
    let (low, high) = bytes.split_at(8);
    let fields = u64::from_le_bytes(low.try_into().unwrap());
    let m = u64::from_le_bytes(high.try_into().unwrap());
    let record = Record {
        kind: fields as u8,
        n: (fields >> 8) as u8,
        a: (fields >> 16) as u16,
        b: (fields >> 32) as u16,
        c: (fields >> 48) as u16,
        m,
    };
    let form = FORMS
        .get(usize::from(record.kind))
        .and_then(|form| form.as_ref())
        .filter(|form| form.call == call)
        .ok_or(Reply::Shape)?;
    if fields & form.zero_fields | m & form.zero_m != 0 {
        return Err(Reply::Shape.into());
    }
    if record.a > form.last_a || record.b > form.last_b || record.c > form.last_c {
        return Err(Reply::Range.into());
    }
    Ok(record)
}

/// Which bits of a kind's record must be zero, and the largest values of a, b and c.
#[derive(Clone, Copy)]
struct Form {
    call: Call,
    zero_fields: u64,
    zero_m: u64,
    last_a: u16,
    last_b: u16,
    last_c: u16,
}

const USER: u16 = 1023;
const ROLE: u16 = 63;
const PERMISSION: u16 = 255;
const TASK: u16 = 63;
const TEMPLATE: u16 = 15;
const PARTITIONING: u16 = 15;
const WALL: u16 = 15;
const BLOCK: u16 = 15;
const SUBJECT: u16 = 127;
const INSTANCE: u16 = 63;
const ANY: u16 = u16::MAX;

impl Form {
    const fn of(call: Call) -> Form {
        Form {
            call,
            zero_fields: !0xff,
            zero_m: !0,
            last_a: ANY,
            last_b: ANY,
            last_c: ANY,
        }
    }

    const fn n(mut self) -> Form {
        self.zero_fields &= !0xff00;
        self
    }

    const fn a(mut self, last: u16) -> Form {
        self.zero_fields &= !(0xffff << 16);
        self.last_a = last;
        self
    }

    const fn b(mut self, last: u16) -> Form {
        self.zero_fields &= !(0xffff << 32);
        self.last_b = last;
        self
    }

    const fn c(mut self, last: u16) -> Form {
        self.zero_fields &= !(0xffff << 48);
        self.last_c = last;
        self
    }

    /// Allows these bits of m.
    const fn m(mut self, bits: u64) -> Form {
        self.zero_m &= !bits;
        self
    }
}

static FORMS: [Option<Form>; 64] = forms();

const fn forms() -> [Option<Form>; 64] {
    let load = Form::of(Call::Load);
    let request = Form::of(Call::Request);
    let mut f = [None; 64];
    f[1] = Some(load.a(USER));
    f[2] = Some(load.a(ROLE));
    f[3] = Some(load.a(PERMISSION).b(ANY).c(ANY));
    f[4] = Some(load.a(USER).b(ROLE));
    f[5] = Some(load.a(ROLE).b(PERMISSION));
    f[6] = Some(load.a(TASK).b(TEMPLATE));
    f[7] = Some(load.a(TASK).b(ROLE));
    f[8] = Some(load.a(TASK).b(PERMISSION));
    f[9] = Some(load.n().m(!0));
    f[10] = Some(load.n().m(!0));
    f[11] = Some(load.n().m(!0));
    f[12] = Some(load.a(PARTITIONING).m(!0));
    f[13] = Some(load.a(TEMPLATE));
    f[14] = Some(load.n().a(TASK));
    f[15] = Some(load.a(TASK).b(TASK));
    f[16] = Some(load.a(TASK).b(TASK));
    f[17] = Some(load.a(ROLE).b(ROLE));
    f[18] = Some(load.a(WALL).b(BLOCK).c(ANY));
    f[32] = Some(request.a(USER).m(!0));
    f[33] = Some(request.a(USER));
    f[34] = Some(request.a(USER).b(ROLE));
    f[35] = Some(request.a(USER).b(ROLE));
    f[36] = Some(request.a(ROLE).b(PERMISSION));
    f[37] = Some(request.a(ROLE).b(PERMISSION));
    f[40] = Some(request.a(SUBJECT).b(USER).m(!0));
    f[41] = Some(request.a(SUBJECT));
    f[42] = Some(request.a(SUBJECT).b(ROLE));
    f[43] = Some(request.a(SUBJECT).b(ROLE));
    f[48] = Some(request.a(INSTANCE).b(TEMPLATE));
    f[49] = Some(request.a(INSTANCE));
    f[50] = Some(request.a(SUBJECT).b(INSTANCE).c(TASK));
    f[51] = Some(request.a(SUBJECT).b(INSTANCE).c(TASK));
    f[52] = Some(request.a(SUBJECT).b(INSTANCE).c(TASK));
    f[56] = Some(request.a(SUBJECT).b(ANY).c(ANY));
    f[57] = Some(request.a(SUBJECT).b(INSTANCE).c(TASK).m(0xffff_ffff));
    f[58] = Some(request.a(INSTANCE));
    f[59] = Some(request.a(SUBJECT).b(ANY).c(ANY));
    f[60] = Some(request.a(TEMPLATE));
    f
}
