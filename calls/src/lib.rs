//! The calls of the proved archive, as include/scoap.h declares and describes them, for callers in Rust. Their declarations stand
//! here once; tests/header holds them to the source. What links an archive says `linked!` with the word before its calls'
//! names, `"scoap_"` or, of a larger analyser, `"scoap_4000_"`. This crate itself needs no archive.

/// Hands the declarations to a macro of the caller, after the words that are for it.
#[doc(hidden)]
#[macro_export]
macro_rules! declared {
    ($($to:ident)::+, $($words:tt)*) => {
        $($to)::+! {
            $($words)*
            fn report(
                lib: *const u8,
                lib_len: usize,
                net: *const u8,
                net_len: usize,
                report: *mut u8,
                report_len: usize,
            ) -> u64;
            fn plan(
                lib: *const u8,
                lib_len: usize,
                net: *const u8,
                net_len: usize,
                line: u64,
                value: u64,
                kind: u64,
                text: *mut u8,
                text_len: usize,
            ) -> u64;
            fn cell(line: *const u8, line_len: usize, entry: *mut u8, entry_len: usize) -> u64;
            fn built_in(text: *mut u8, text_len: usize) -> u64;
            fn qualifies(lib: *const u8, lib_len: usize, net: *const u8, net_len: usize) -> u64;
            fn stand(
                lib: *const u8,
                lib_len: usize,
                net: *const u8,
                net_len: usize,
                standing: *mut u32,
                standing_len: usize,
                report: *mut u8,
                report_len: usize,
            ) -> u64;
            fn ask(
                lib: *const u8,
                lib_len: usize,
                net: *const u8,
                net_len: usize,
                standing: *const u32,
                standing_len: usize,
                line: u64,
                answer: *mut u32,
                answer_len: usize,
            ) -> u64;
            fn commit(
                lib: *const u8,
                lib_len: usize,
                net: *const u8,
                net_len: usize,
                standing: *mut u32,
                standing_len: usize,
                line: u64,
                count: u64,
            ) -> u64;
            fn change(
                lib: *const u8,
                lib_len: usize,
                new_lib: *const u8,
                new_lib_len: usize,
                net: *const u8,
                net_len: usize,
                standing: *mut u32,
                standing_len: usize,
            ) -> u64;
            fn best(
                lib: *const u8,
                lib_len: usize,
                net: *const u8,
                net_len: usize,
                budget: u64,
                best: *mut u32,
                best_len: usize,
            ) -> u64;
            fn advise(
                lib: *const u8,
                lib_len: usize,
                net: *const u8,
                net_len: usize,
                forbidden: *const u32,
                forbidden_len: usize,
                answer: *mut u32,
                answer_len: usize,
            ) -> u64;
            fn rank(
                lib: *const u8,
                lib_len: usize,
                net: *const u8,
                net_len: usize,
                forbidden: *const u32,
                forbidden_len: usize,
                ranks: *mut u32,
                ranks_len: usize,
            ) -> u64;
        }
    };
}

macro_rules! held {
    ($(fn $name:ident($($given:ident: $kind:ty),* $(,)?) -> u64;)*) => {
        /// The calls of one archive. `linked!` makes it, and nothing else should.
        pub struct Calls {
            $(#[doc(hidden)] pub $name: unsafe extern "C" fn($($given: $kind),*) -> u64,)*
        }
    };
}
declared!(held,);

/// The calls of an archive that is linked, by the word before their names: an expression for a constant.
#[macro_export]
macro_rules! linked {
    ($before:literal) => {
        $crate::declared!($crate::linked, $before)
    };
    ($before:literal $(fn $name:ident($($given:ident: $kind:ty),* $(,)?) -> u64;)*) => {{
        extern "C" {
            $(
                #[link_name = concat!($before, stringify!($name))]
                fn $name($($given: $kind),*) -> u64;
            )*
        }
        $crate::Calls { $($name,)* }
    }};
}

/// Each call by slices. Every slice is valid for its length, and no slice that is written overlaps another: what the
/// header asks for, and what Rust gives.
impl Calls {
    pub fn report(&self, lib: &[u8], net: &[u8], report: &mut [u8]) -> u64 {
        unsafe { (self.report)(lib.as_ptr(), lib.len(), net.as_ptr(), net.len(), report.as_mut_ptr(), report.len()) }
    }

    pub fn plan(&self, lib: &[u8], net: &[u8], line: u64, value: u64, kind: u64, text: &mut [u8]) -> u64 {
        let (to, room) = (text.as_mut_ptr(), text.len());
        unsafe { (self.plan)(lib.as_ptr(), lib.len(), net.as_ptr(), net.len(), line, value, kind, to, room) }
    }

    pub fn cell(&self, line: &[u8], entry: &mut [u8]) -> u64 {
        unsafe { (self.cell)(line.as_ptr(), line.len(), entry.as_mut_ptr(), entry.len()) }
    }

    pub fn built_in(&self, text: &mut [u8]) -> u64 {
        unsafe { (self.built_in)(text.as_mut_ptr(), text.len()) }
    }

    pub fn qualifies(&self, lib: &[u8], net: &[u8]) -> u64 {
        unsafe { (self.qualifies)(lib.as_ptr(), lib.len(), net.as_ptr(), net.len()) }
    }

    pub fn stand(&self, lib: &[u8], net: &[u8], standing: &mut [u32], report: &mut [u8]) -> u64 {
        let (table, numbers) = (standing.as_mut_ptr(), standing.len());
        let (to, room) = (report.as_mut_ptr(), report.len());
        unsafe { (self.stand)(lib.as_ptr(), lib.len(), net.as_ptr(), net.len(), table, numbers, to, room) }
    }

    pub fn ask(&self, lib: &[u8], net: &[u8], standing: &[u32], line: u64, answer: &mut [u32]) -> u64 {
        let (table, numbers) = (standing.as_ptr(), standing.len());
        let (to, room) = (answer.as_mut_ptr(), answer.len());
        unsafe { (self.ask)(lib.as_ptr(), lib.len(), net.as_ptr(), net.len(), table, numbers, line, to, room) }
    }

    pub fn commit(&self, lib: &[u8], net: &[u8], standing: &mut [u32], line: u64, count: u64) -> u64 {
        let (table, numbers) = (standing.as_mut_ptr(), standing.len());
        unsafe { (self.commit)(lib.as_ptr(), lib.len(), net.as_ptr(), net.len(), table, numbers, line, count) }
    }

    pub fn change(&self, lib: &[u8], new_lib: &[u8], net: &[u8], standing: &mut [u32]) -> u64 {
        let (table, numbers) = (standing.as_mut_ptr(), standing.len());
        let (new, bytes) = (new_lib.as_ptr(), new_lib.len());
        unsafe { (self.change)(lib.as_ptr(), lib.len(), new, bytes, net.as_ptr(), net.len(), table, numbers) }
    }

    pub fn best(&self, lib: &[u8], net: &[u8], budget: u64, best: &mut [u32]) -> u64 {
        let (to, room) = (best.as_mut_ptr(), best.len());
        unsafe { (self.best)(lib.as_ptr(), lib.len(), net.as_ptr(), net.len(), budget, to, room) }
    }

    pub fn advise(&self, lib: &[u8], net: &[u8], forbidden: &[u32], answer: &mut [u32]) -> u64 {
        let (list, lines) = (forbidden.as_ptr(), forbidden.len());
        let (to, room) = (answer.as_mut_ptr(), answer.len());
        unsafe { (self.advise)(lib.as_ptr(), lib.len(), net.as_ptr(), net.len(), list, lines, to, room) }
    }

    pub fn rank(&self, lib: &[u8], net: &[u8], forbidden: &[u32], ranks: &mut [u32]) -> u64 {
        let (list, lines) = (forbidden.as_ptr(), forbidden.len());
        let (to, room) = (ranks.as_mut_ptr(), ranks.len());
        unsafe { (self.rank)(lib.as_ptr(), lib.len(), net.as_ptr(), net.len(), list, lines, to, room) }
    }
}
