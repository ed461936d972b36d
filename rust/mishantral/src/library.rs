//! The proved library's functions (include/mishantral.h), each declared once and called with slices.
//!
//! In C a slice is two arguments: its pointer and its length in elements. The macro declares a function that way, and defines a
//! safe function of the same name that takes the slice itself.

#[cfg(mishantral_mend)]
use crate::Entry;

/// A slice that a call borrows.
trait Lent {
    type Pointer;

    /// Its pointer and its length.
    fn arguments(self) -> (Self::Pointer, usize);
}

impl<T> Lent for &[T] {
    type Pointer = *const T;

    fn arguments(self) -> (*const T, usize) {
        (self.as_ptr(), self.len())
    }
}

impl<T> Lent for &mut [T] {
    type Pointer = *mut T;

    fn arguments(self) -> (*mut T, usize) {
        (self.as_mut_ptr(), self.len())
    }
}

/// Declares functions that take slices; one may also take a number, between two semicolons.
macro_rules! functions {
    ($(
        $(#[$attribute:meta])*
        fn $name:ident($($slice:ident: $type:ty),* $(; $number:ident; $($further:ident: $rest:ty),*)?);
    )*) => {
        mod declared {
            #[allow(unused_imports)]
            use super::*;

            extern "C" {
                $(
                    $(#[$attribute])*
                    pub fn $name(
                        $($slice: <$type as Lent>::Pointer, _: usize,)*
                        $($number: u64, $($further: <$rest as Lent>::Pointer, _: usize),*)?
                    ) -> u64;
                )*
            }
        }
        $(
            $(#[$attribute])*
            pub(crate) fn $name($($slice: $type,)* $($number: u64, $($further: $rest),*)?) -> u64 {
                $(let $slice = $slice.arguments();)*
                $($(let $further = $further.arguments();)*)?
                // SAFETY: each pointer and length come from one slice; a slice that is written to is borrowed mutably and so
                // overlaps no other; and the library keeps no pointer after the call.
                unsafe {
                    declared::$name(
                        $($slice.0, $slice.1,)*
                        $($number, $($further.0, $further.1),*)?
                    )
                }
            }
        )*
    };
}

functions! {
    #[cfg(mishantral_engine)]
    fn mishantral_words(; group;);
    #[cfg(mishantral_engine)]
    fn mishantral_load(bytes: &[u8], policy: &mut [u64], sessions: &mut [u64], orders: &mut [u64]);
    #[cfg(mishantral_engine)]
    fn mishantral_request(bytes: &[u8], policy: &mut [u64], sessions: &mut [u64], orders: &mut [u64]);
    #[cfg(mishantral_settled_request)]
    fn mishantral_settle(policy: &mut [u64], sessions: &mut [u64], orders: &mut [u64]);
    #[cfg(mishantral_settled_request)]
    fn mishantral_settled_request(bytes: &[u8], policy: &mut [u64], sessions: &mut [u64], orders: &mut [u64]);
    #[cfg(mishantral_engine)]
    fn mishantral_question(record: &[u8], answer: &mut [u64], policy: &[u64], sessions: &[u64], orders: &[u64]);
    #[cfg(mishantral_pile)]
    fn mishantral_pile(records: &[u8], answers: &mut [u8]; at; policy: &mut [u64], sessions: &mut [u64], orders: &mut [u64]);
    #[cfg(mishantral_write)]
    fn mishantral_write(output: &mut [u8], policy: &[u64], sessions: &[u64], orders: &[u64]);
    // An entry has the layout of the two words that the library writes (`repr(C)`).
    #[cfg(mishantral_mend)]
    fn mishantral_mend(bytes: &[u8], output: &mut [u8], report: &mut [Entry], policy: &mut [u64], sessions: &mut [u64], orders: &mut [u64]);
    #[cfg(mishantral_opl)]
    fn mishantral_opl(policy_text: &[u8], task_lines: &[u8], output: &mut [u8], scratch: &mut [u64]);
    #[cfg(mishantral_opl_all)]
    fn mishantral_opl_all(policy_text: &[u8], task_lines: &[u8], output: &mut [u8], scratch: &mut [u64]);
    #[cfg(mishantral_lower)]
    fn mishantral_lower_words(; group;);
    #[cfg(mishantral_lower)]
    fn mishantral_lower_load(bytes: &[u8], policy: &mut [u64], sessions: &mut [u64]);
    #[cfg(mishantral_lower)]
    fn mishantral_lower_request(bytes: &[u8], policy: &mut [u64], sessions: &mut [u64]);
    #[cfg(mishantral_lower_write)]
    fn mishantral_lower_write(output: &mut [u8], policy: &[u64], sessions: &[u64]);
}
