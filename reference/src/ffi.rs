//! The C entries: of the library (`include/sst.h`, feature `lib`) and of the plain C walker (`c/walker.c`).
#![allow(unsafe_code)]

use crate::carry::Carrier;
use crate::figures::Figures;
use crate::files::Files;
use crate::parts::Parts;
use crate::quiet::Measurer;
use crate::rights::Rights;
use crate::screen::Screens;
use crate::side::{Folder, Inputs, Processor, Side};
use crate::walker::Done;
use std::ffi::c_void;

// Padding before the code of this crate: none, unless the build asks for it (build.rs).
std::arch::global_asm!(include_str!(concat!(env!("OUT_DIR"), "/padding.s")));

/// What the numbers to be written hold before a call; no call may leave it there.
const UNSET: u64 = 0xDEAD_BEEF_DEAD_BEEF;

/// A C entry as a function over slices: those that it reads, numbers, those that it is lent to write, then the numbers that it writes,
/// which come back in an array.
macro_rules! entry {
    ($entry:ident($($read:ident)*; $($number:ident: $type:ty),*; $($lent:ident)*; $($written:ident)*)) => {
        fn $entry(
            $($read: &[u8],)* $($number: $type,)* $($lent: &mut [u8],)*
        ) -> (u16, [u64; [$(stringify!($written)),*].len()]) {
            unsafe extern "C" {
                fn $entry(
                    $($read: *const u8, _: usize,)* $($number: $type,)* $($lent: *mut u8, _: usize,)* $($written: *mut u64,)*
                ) -> u16;
            }
            $(let mut $written = $crate::ffi::UNSET;)*
            // Each pointer comes with the length of its own slice, is not null, and nothing of a call overlaps.
            let number = unsafe {
                $entry(
                    $($read.as_ptr(), $read.len(),)* $($number,)* $($lent.as_mut_ptr(), $lent.len(),)* $(&mut $written,)*
                )
            };
            (number, [$($written),*])
        }
    };
}

/// A C entry that makes bytes fresh or changes a part of them: a lent slice, then numbers.
macro_rules! setter {
    ($entry:ident($lent:ident; $($number:ident: $type:ty),*)) => {
        fn $entry($lent: &mut [u8], $($number: $type),*) -> u16 {
            unsafe extern "C" {
                fn $entry($lent: *mut u8, _: usize, $($number: $type),*) -> u16;
            }
            // The pointer comes with the length of its slice and is not null.
            unsafe { $entry($lent.as_mut_ptr(), $lent.len(), $($number),*) }
        }
    };
}

/// A C entry that answers with a part of a walk.
macro_rules! part {
    ($entry:ident -> $type:ty) => {
        fn $entry(walk: &[u8]) -> $type {
            unsafe extern "C" {
                fn $entry(walk: *const u8, _: usize) -> $type;
            }
            // The pointer comes with the length of its slice and is not null.
            unsafe { $entry(walk.as_ptr(), walk.len()) }
        }
    };
}

macro_rules! side {
    ($(#[$doc:meta])* $side:ident $name:literal $fresh:ident $whole:ident $paused:ident
     $phase:ident $reason:ident $location:ident $read:ident $used:ident $allowance:ident) => {
        setter!($fresh(walk; allowance: u16));
        entry!($whole(table tokens answers; budget: u64; walk events; written steps));
        entry!($paused(table tokens; given: u16, answer: u16, budget: u64; walk events; written steps));
        part!($phase -> u16);
        part!($reason -> u16);
        part!($location -> u16);
        part!($read -> u64);
        part!($used -> u64);
        part!($allowance -> u16);

        $(#[$doc])*
        pub struct $side;

        impl Side for $side {
            fn name(&self) -> &'static str {
                $name
            }

            fn fresh(&self, walk: &mut [u8], allowance: u16) -> u16 {
                $fresh(walk, allowance)
            }

            fn whole(&self, inputs: Inputs, budget: u64, walk: &mut [u8], events: &mut [u8]) -> Done {
                done($whole(inputs.table, inputs.tokens, inputs.answers, budget, walk, events))
            }

            fn paused(
                &self,
                inputs: Inputs,
                given: u16,
                answer: u16,
                budget: u64,
                walk: &mut [u8],
                events: &mut [u8],
            ) -> Done {
                done($paused(inputs.table, inputs.tokens, given, answer, budget, walk, events))
            }

            fn phase(&self, walk: &[u8]) -> u16 {
                $phase(walk)
            }

            fn reason(&self, walk: &[u8]) -> u16 {
                $reason(walk)
            }

            fn location(&self, walk: &[u8]) -> u16 {
                $location(walk)
            }

            fn read(&self, walk: &[u8]) -> u64 {
                $read(walk)
            }

            fn used(&self, walk: &[u8]) -> u64 {
                $used(walk)
            }

            fn allowance(&self, walk: &[u8]) -> u16 {
                $allowance(walk)
            }
        }
    };
}

/// What a walk call answers.
fn done((number, [written, steps]): (u16, [u64; 2])) -> Done {
    Done { number, written, steps }
}

side! {
    /// The walker in `c/walker.c`.
    Plain "c" cw_fresh cw_whole cw_paused cw_phase cw_reason cw_location cw_read cw_used cw_allowance
}

#[cfg(feature = "lib")]
side! {
    /// The library.
    Library "lib" sst_fresh sst_whole sst_paused sst_phase sst_reason sst_location sst_read sst_used sst_allowance
}

#[cfg(all(feature = "lib", feature = "carry"))]
mod carry;
#[cfg(feature = "lib")]
mod figures;
#[cfg(feature = "lib")]
mod files;
#[cfg(feature = "lib")]
mod filter;
#[cfg(all(feature = "lib", feature = "parts"))]
mod parts;
#[cfg(feature = "lib")]
mod quiet;
#[cfg(feature = "lib")]
mod rights;
#[cfg(feature = "lib")]
mod screen;

/// The library by one of its traits; nothing where it is not linked.
macro_rules! linked {
    ($($(#[$doc:meta])* $name:ident: $side:ident;)*) => {
        $(
            $(#[$doc])*
            pub fn $name() -> Option<&'static (dyn $side + Sync)> {
                #[cfg(feature = "lib")]
                return Some(&Library);
                #[cfg(not(feature = "lib"))]
                return None;
            }
        )*
    };
}

linked! {
    /// The library's walker, where it is linked.
    library: Side;
    /// The library's processor, where it is linked.
    processor: Processor;
    /// The library's processor with figures of programs, where it is linked.
    measurer: Measurer;
    /// The library's loader and writer, where they are linked.
    files: Files;
    /// The library's admission, where it is linked.
    rights: Rights;
    /// The library's character filter, where it is linked.
    folder: Folder;
    /// The library's turns of two books, where they are linked.
    screens: Screens;
    /// The library's figures over a shelf, where they are linked.
    figures: Figures;
}

/// The library's carrying of a walk to new rules, where it is linked.
pub fn carrier() -> Option<&'static (dyn Carrier + Sync)> {
    #[cfg(all(feature = "lib", feature = "carry"))]
    return Some(&Library);
    #[cfg(not(all(feature = "lib", feature = "carry")))]
    return None;
}

/// The library's translation of parts and its linker, where they are linked.
pub fn parts() -> Option<&'static (dyn Parts + Sync)> {
    #[cfg(all(feature = "lib", feature = "parts"))]
    return Some(&Library);
    #[cfg(not(all(feature = "lib", feature = "parts")))]
    return None;
}

unsafe extern "C" {
    fn clock() -> std::ffi::c_long;
    fn cs_used(run: extern "C" fn(*mut c_void), context: *mut c_void, stack: *mut u8, size: usize) -> u64;
}

/// The seconds of processor time that this process has had, in units of a microsecond.
pub fn cpu_seconds() -> f64 {
    let ticks = unsafe { clock() };
    ticks as f64 * 1e-6
}

/// The bytes of stack that a function needs, measured in a thread of its own with a painted stack of that size.
pub fn stack_used<F: FnMut() + Send>(mut function: F, size: usize) -> Option<u64> {
    extern "C" fn run<F: FnMut()>(context: *mut c_void) {
        // The thread ends before `stack_used` does, and nothing else uses the function meanwhile.
        let function = unsafe { &mut *context.cast::<F>() };
        function();
    }
    let mut stack = vec![0u8; size];
    let used = unsafe { cs_used(run::<F>, (&raw mut function).cast(), stack.as_mut_ptr(), stack.len()) };
    (used != 0).then_some(used)
}
