//! Reads a text with libxml2, if the system has it. The reader subscribes to no events, so it only checks that the text is
//! well-formed.

use std::ffi::{c_char, c_int, c_void, CStr};
use std::mem::transmute;

#[cfg_attr(target_os = "linux", link(name = "dl"))]
extern "C" {
    fn dlopen(file: *const c_char, flags: c_int) -> *mut c_void;
    fn dlsym(library: *mut c_void, name: *const c_char) -> *mut c_void;
}

const NOW: c_int = 2;

type Parse = unsafe extern "C" fn(*mut Handler, *mut c_void, *const c_char, c_int) -> c_int;

/// `xmlSAXHandler`: 27 functions, a flag and four pointers, with some space after them.
#[repr(C)]
struct Handler {
    functions: [usize; 27],
    mark: u32,
    more: [usize; 16],
}

const NO_FUNCTIONS: Handler = Handler {
    functions: [0; 27],
    mark: 0xDEED_BEAF,
    more: [0; 16],
};

/// The file names of the library's versions.
const FILES: [&CStr; 2] = [c"libxml2.so.2", c"libxml2.so.16"];

/// The loaded library.
pub struct Libxml2(Parse);

impl Libxml2 {
    /// The library, if it is installed.
    pub fn find() -> Option<Libxml2> {
        // SAFETY: the names end with a zero byte, and loading this library runs no code that affects this program.
        let open = |file: &&CStr| unsafe { dlopen(file.as_ptr(), NOW) };
        let library = FILES.iter().map(open).find(|library| !library.is_null())?;
        // SAFETY: as above; the library is never unloaded.
        let parse = unsafe { dlsym(library, c"xmlSAXUserParseMemory".as_ptr()) };
        if parse.is_null() {
            return None;
        }
        // SAFETY: the function of this name has this type.
        Some(Libxml2(unsafe { transmute::<*mut c_void, Parse>(parse) }))
    }

    /// Whether the text is well-formed.
    pub fn reads(&self, text: &[u8]) -> bool {
        let Ok(length) = c_int::try_from(text.len()) else {
            return false;
        };
        let mut handler = NO_FUNCTIONS;
        let nobody = std::ptr::null_mut();
        // SAFETY: the text has this length, and all arguments outlive the call.
        let error = unsafe { (self.0)(&mut handler, nobody, text.as_ptr().cast(), length) };
        error == 0
    }
}

#[cfg(test)]
mod tests {
    use super::Libxml2;

    #[test]
    fn well_formed_texts_are_told_from_others() {
        let Some(library) = Libxml2::find() else {
            return;
        };
        assert!(library.reads(b"<a b='c'><d/><!-- e --></a>"));
        assert!(!library.reads(b"<a><b></a></b>"));
    }
}
