//! Records, and the two checks that need no table: SHAPE and RANGE, by masks only.

use super::reply::*;

/// A record as two words: kind, n, a, b and c in the first, m in the second.
#[derive(Clone, Copy)]
pub struct Record(u64, u64);

impl Record {
    pub fn kind(self) -> u8 {
        self.0 as u8
    }

    pub fn n(self) -> u8 {
        (self.0 >> 8) as u8
    }

    pub fn a(self) -> usize {
        (self.0 >> 16) as u16 as usize
    }

    pub fn b(self) -> usize {
        (self.0 >> 32) as u16 as usize
    }

    pub fn c(self) -> usize {
        (self.0 >> 48) as usize
    }

    /// b and c together: the operation and the object of kinds 3, 56 and 59.
    pub fn pair(self) -> u32 {
        (self.0 >> 32) as u32
    }

    pub fn m(self) -> u64 {
        self.1
    }
}

/// The bits that must be 0 in a kind's record: those of fields that it does not use, and those of numbers above a limit.
#[derive(Clone, Copy)]
struct Form {
    unused: u64,
    too_large: u64,
    unused_m: u64,
}

const fn of(bits: u32, at: u32) -> u64 {
    ((1 << bits) - 1) << at
}

impl Form {
    /// The form of a kind that the call does not take: no record fits it.
    const NONE: Form = Form {
        unused: !0,
        too_large: !0,
        unused_m: !0,
    };
    /// A kind without fields.
    const BARE: Form = Form {
        unused: !0xff,
        too_large: !0xff,
        unused_m: !0,
    };

    const fn field(mut self, at: u32, wide: u32, bits: u32) -> Form {
        self.unused &= !of(wide, at);
        self.too_large &= !of(bits, at);
        self
    }

    const fn n(self) -> Form {
        self.field(8, 8, 8)
    }

    const fn a(self, bits: u32) -> Form {
        self.field(16, 16, bits)
    }

    const fn b(self, bits: u32) -> Form {
        self.field(32, 16, bits)
    }

    const fn c(self, bits: u32) -> Form {
        self.field(48, 16, bits)
    }

    const fn m(mut self, used: u64) -> Form {
        self.unused_m = !used;
        self
    }
}

const USER: u32 = 10;
const SUBJECT: u32 = 7;
const ROLE: u32 = 6;
const TASK: u32 = 6;
const ORDER: u32 = 6;
const PERMISSION: u32 = 8;
const TEMPLATE: u32 = 4;
const PARTITIONING: u32 = 4;
const WALL: u32 = 4;
const ANY: u32 = 16;

/// The forms of all kinds that a call takes.
pub struct Forms([Form; 256]);

pub static POLICY: Forms = Forms(policy());
pub static REQUESTS: Forms = Forms(requests());

const fn policy() -> [Form; 256] {
    let bare = Form::BARE;
    let mut f = [Form::NONE; 256];
    f[1] = bare.a(USER);
    f[2] = bare.a(ROLE);
    f[3] = bare.a(PERMISSION).b(ANY).c(ANY);
    f[4] = bare.a(USER).b(ROLE);
    f[5] = bare.a(ROLE).b(PERMISSION);
    f[6] = bare.a(TASK).b(TEMPLATE);
    f[7] = bare.a(TASK).b(ROLE);
    f[8] = bare.a(TASK).b(PERMISSION);
    f[9] = bare.n().m(!0);
    f[10] = bare.n().m(!0);
    f[11] = bare.n().m(!0);
    f[12] = bare.a(PARTITIONING).m(!0);
    f[13] = bare.a(TEMPLATE);
    f[14] = bare.n().a(TASK);
    f[15] = bare.a(TASK).b(TASK);
    f[16] = bare.a(TASK).b(TASK);
    f[17] = bare.a(ROLE).b(ROLE);
    f[18] = bare.a(WALL).b(WALL).c(ANY);
    f
}

const fn requests() -> [Form; 256] {
    let bare = Form::BARE;
    let mut f = [Form::NONE; 256];
    f[32] = bare.a(USER).m(!0);
    f[33] = bare.a(USER);
    f[34] = bare.a(USER).b(ROLE);
    f[35] = bare.a(USER).b(ROLE);
    f[36] = bare.a(ROLE).b(PERMISSION);
    f[37] = bare.a(ROLE).b(PERMISSION);
    f[40] = bare.a(SUBJECT).b(USER).m(!0);
    f[41] = bare.a(SUBJECT);
    f[42] = bare.a(SUBJECT).b(ROLE);
    f[43] = bare.a(SUBJECT).b(ROLE);
    f[48] = bare.a(ORDER).b(TEMPLATE);
    f[49] = bare.a(ORDER);
    f[50] = bare.a(SUBJECT).b(ORDER).c(TASK);
    f[51] = bare.a(SUBJECT).b(ORDER).c(TASK);
    f[52] = bare.a(SUBJECT).b(ORDER).c(TASK);
    f[56] = bare.a(SUBJECT).b(ANY).c(ANY);
    f[57] = bare.a(SUBJECT).b(ORDER).c(TASK).m(0xffff_ffff);
    f[58] = bare.a(ORDER);
    f[59] = bare.a(SUBJECT).b(ANY).c(ANY);
    f[60] = bare.a(TEMPLATE);
    f
}

impl Forms {
    /// The record, or the refusal SHAPE or RANGE.
    #[inline(always)]
    pub fn judge(&self, bytes: &[u8]) -> Result<Record, u32> {
        let bytes: &[u8; 16] = bytes.try_into().map_err(|_| SHAPE)?;
        let (first, second) = bytes.split_at(8);
        let head = u64::from_le_bytes(first.try_into().unwrap());
        let m = u64::from_le_bytes(second.try_into().unwrap());
        let form = &self.0[usize::from(bytes[0])];
        if head & form.too_large | m & form.unused_m != 0 {
            return Err(form.fault(head, m));
        }
        // An all-zero record has no bit that a mask could find; the dispatch on the kind refuses it.
        Ok(Record(head, m))
    }
}

impl Form {
    #[cold]
    fn fault(&self, head: u64, m: u64) -> u32 {
        if head & self.unused | m & self.unused_m != 0 {
            SHAPE
        } else {
            RANGE
        }
    }
}
