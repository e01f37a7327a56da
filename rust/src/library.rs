//! The states and the functions of the proved library, as `c/include/vulfsjor.h` declares them.
//! The functions are the assembly text in `dist/`, which becomes a part of this crate, or for other
//! targets what is translated there to Rust. Only the other modules call what is here.

with_assembly! {
    use core::arch::global_asm;

    #[cfg(target_arch = "x86_64")]
    use crate::processor::{detect_processor, level};

    // Panics if the processor can run none of the builds. A hasher is made after this call, since a
    // later panic would drop it, and the wipe of the drop would be a second panic.
    #[inline(never)]
    pub(crate) fn panic_without_build() {
        #[cfg(target_arch = "x86_64")]
        if level() == 0 {
            detect_processor();
        }
    }

    // The text that runs, by its name in `dist/`.
    pub(crate) fn text_name() -> &'static str {
        panic_without_build();
        #[cfg(target_arch = "x86_64")]
        return ["x86_64/vulfsjor-v2.s", "x86_64/vulfsjor-v3.s", "x86_64/vulfsjor-v4.s"]
            [usize::from(level()) - 2];
        #[cfg(target_arch = "aarch64")]
        return "aarch64/vulfsjor.s";
    }
}
without_assembly! {
    #[path = "../../dist/rust/vulfsjor.rs"]
    mod portable;

    // Every processor can run it.
    pub(crate) fn panic_without_build() {}

    pub(crate) fn text_name() -> &'static str {
        "rust/vulfsjor.rs"
    }
}

// A state of this many words, which only the library reads and writes. All functions below accept
// a state with any content, as long as its bytes are initialized.
macro_rules! state {
    ($state:ident, $words:literal) => {
        #[repr(C)]
        pub(crate) struct $state(pub(crate) [u64; $words]);

        impl $state {
            // The zeroed state, which every call refuses except the inits and the wipe.
            pub(crate) const ZEROS: Self = Self([0; $words]);
        }
    };
}

state!(Blake2bState, 43);
state!(Blake2sState, 22);
state!(Blake2bpState, 204);
state!(Blake2spState, 200);
state!(Blake2xbState, 58);
state!(Blake2xsState, 31);
state!(TreeState, 94);

// One of several messages: `vulfsjor_message` of the header.
#[repr(C)]
#[derive(Clone, Copy)]
pub(crate) struct Text {
    bytes: *const u8,
    length: usize,
}

impl Text {
    #[inline]
    pub(crate) fn of(bytes: &[u8]) -> Self {
        Text {
            bytes: bytes.as_ptr(),
            length: bytes.len(),
        }
    }
}

// The position of a node in a tree of hashes: `vulfsjor_tree` of the header.
#[repr(C)]
#[derive(Clone, Copy)]
pub(crate) struct Tree {
    pub(crate) node_offset: u64,
    pub(crate) leaf_length: u32,
    pub(crate) fanout: u8,
    pub(crate) depth: u8,
    pub(crate) node_depth: u8,
    pub(crate) inner_length: u8,
}

// What a plan depends on, a plan and a part of it, as the header has them. All are numbers of
// bytes, or offsets, except where the names say otherwise.
#[cfg(feature = "std")]
#[repr(C)]
#[derive(Clone, Copy)]
pub(crate) struct Limits {
    pub(crate) threads: u64,
    pub(crate) least_bytes: u64,
    pub(crate) part_bytes: u64,
    pub(crate) most_bytes: u64,
}

#[cfg(feature = "std")]
#[repr(C)]
#[derive(Clone, Copy, Default)]
pub(crate) struct Plan {
    pub(crate) start: u64,
    pub(crate) end: u64,
    rest_length: u64,
    pub(crate) leaf_length: u64,
    pub(crate) part_length: u64,
    pub(crate) part_count: u64,
    pub(crate) threads: u64,
    pub(crate) digests_length: u64,
    ends: u64,
}

#[cfg(feature = "std")]
#[repr(C)]
#[derive(Clone, Copy, Default)]
pub(crate) struct Part {
    pub(crate) first: u64,
    pub(crate) start: u64,
    pub(crate) length: u64,
    digests_start: u64,
    pub(crate) digests_length: u64,
    pub(crate) ends: u64,
}

// The name of a function of a build within a program. The version keeps two versions of the crate
// apart, and the first word keeps the crate apart from the library for C. The name in the assembly
// of `dist/` follows. It includes the number of the code (`CODE` in c/choose.c), as all names and
// labels there do, since lto = "fat" makes one assembly of those of two versions.
macro_rules! symbol {
    ($text_name:expr) => {
        concat!("vulfsjor_", env!("CARGO_PKG_VERSION"), "_", $text_name)
    };
}

// What differs between the object formats of Linux (ELF), macOS (Mach-O) and Windows (COFF): the
// macros of `dist/`, how the section of code begins and ends, what comes before a name of C, and
// how a name is hidden. A program for Windows exports only what it lists, so there the name follows
// a comment.
#[cfg(target_os = "linux")]
#[rustfmt::skip]
macro_rules! object {
    (macros) => { "elf.inc" };
    (begin) => { ".pushsection .text" };
    (end) => { ".popsection" };
    (name) => { "" };
    (hidden) => { ".hidden " };
}
#[cfg(target_os = "macos")]
#[rustfmt::skip]
macro_rules! object {
    (macros) => { "macho.inc" };
    (begin) => { ".pushsection __TEXT,__text,regular,pure_instructions" };
    (end) => { ".popsection" };
    (name) => { "_" };
    (hidden) => { ".private_extern " };
}
#[cfg(windows)]
#[rustfmt::skip]
macro_rules! object {
    (macros) => { "coff.inc" };
    (begin) => { ".text" };
    (end) => { ".text" };
    (name) => { "" };
    (hidden) => { "// " };
}

// What a file of `dist/` holds.
macro_rules! dist {
    ($processor:literal, $name:expr) => {
        include_str!(concat!("../../dist/", $processor, "/", $name))
    };
}

// Functions with the calling convention of the assembly, which on x86-64 is System V's everywhere.
#[cfg(not(all(windows, target_arch = "x86_64")))]
#[rustfmt::skip]
macro_rules! of_text { ($($function:tt)+) => { extern "C" { $($function)+ } }; }
#[cfg(all(windows, target_arch = "x86_64"))]
#[rustfmt::skip]
macro_rules! of_text { ($($function:tt)+) => { extern "sysv64" { $($function)+ } }; }

// The text of one build, and a module with its functions. While the assembler reads the text,
// `vj_export` is another macro: the name of an exported function stays local to the object file,
// and the function gets one of `symbol!` too. That is hidden: only the program, or the shared
// library, that the crate is linked into sees it. No macro stays: other texts may follow in the
// same assembly.
//
// The text is in this module, as the functions of `calls!` are, so rustc compiles it together with
// them. They are `#[inline(never)]`: LLVM reads the text again for each part of the crate into
// which it may inline a function that was compiled together with the text.
macro_rules! build {
    (
        $build:ident, $processor:literal, $file:literal, ($($option:ident),+),
        $(
            $(#[$attribute:meta])*
            fn $name:ident($($argument:ident: $type:ty),* $(,)?) $(-> $answer:ty)?;
        )+
    ) => {
        global_asm!(
            object!(begin),
            dist!($processor, object!(macros)),
            ".purgem vj_export",
            ".macro vj_export name",
            concat!(".globl \"", object!(name), symbol!("\\name"), "\""),
            concat!(object!(hidden), "\"", object!(name), symbol!("\\name"), "\""),
            concat!(".set \"", object!(name), symbol!("\\name"), "\", ", object!(name), "\\name"),
            concat!("vj_function ", object!(name), "\\name"),
            ".endm",
            dist!($processor, $file),
            dist!($processor, "purge_macros.inc"),
            object!(end),
            options($($option),+)
        );

        pub(crate) mod $build {
            use super::*;

            of_text! {
                $(
                    $(#[$attribute])*
                    #[link_name = symbol!(concat!(
                        "vulfsjor_ffi_", stringify!($name), "_1_", stringify!($build)
                    ))]
                    pub(crate) fn $name($($argument: $type),*) $(-> $answer)?;
                )+
            }
        }
    };
}

// The functions by which the crate calls the build that the processor runs. All builds have the
// same states. These functions are never inlined: a program that links a Rust `dylib` with this
// crate would have them in its own objects, and the hidden names are not visible there.
macro_rules! calls {
    ($(
        $(#[$attribute:meta])*
        fn $name:ident($($argument:ident: $type:ty),* $(,)?) $(-> $answer:ty)?;
    )+) => {
        $(
            $(#[$attribute])*
            #[inline(never)]
            #[allow(clippy::too_many_arguments)] // those of the header
            pub(crate) unsafe fn $name($($argument: $type),*) $(-> $answer)? {
                // The first call, in a separate function: later calls then need not save their
                // arguments.
                #[cfg(target_arch = "x86_64")]
                #[cold]
                #[inline(never)]
                #[allow(clippy::too_many_arguments)]
                unsafe fn first_call($($argument: $type),*) $(-> $answer)? {
                    detect_processor();
                    // Safety: as below.
                    unsafe { $name($($argument),*) }
                }

                // Safety: the caller guarantees what the header requires, which is the same for
                // each build.
                unsafe {
                    #[cfg(target_arch = "x86_64")]
                    match level() {
                        4.. => v4::$name($($argument),*),
                        3 => v3::$name($($argument),*),
                        2 => v2::$name($($argument),*),
                        _ => first_call($($argument),*),
                    }
                    #[cfg(target_arch = "aarch64")]
                    arm::$name($($argument),*)
                }
            }
        )+
    };
}

with_assembly! {
    macro_rules! functions {
        ($($function:tt)+) => {
            #[cfg(target_arch = "x86_64")]
            build!(v2, "x86_64", "vulfsjor-v2.s", (att_syntax, raw), $($function)+);
            #[cfg(target_arch = "x86_64")]
            build!(v3, "x86_64", "vulfsjor-v3.s", (att_syntax, raw), $($function)+);
            #[cfg(target_arch = "x86_64")]
            build!(v4, "x86_64", "vulfsjor-v4.s", (att_syntax, raw), $($function)+);
            #[cfg(target_arch = "aarch64")]
            build!(arm, "aarch64", "vulfsjor.s", (raw), $($function)+);
            calls!($($function)+);
        };
    }
}
without_assembly! {
    macro_rules! functions {
        ($(
            $(#[$attribute:meta])*
            fn $name:ident($($argument:ident: $type:ty),* $(,)?) $(-> $answer:ty)?;
        )+) => {
            $(
                $(#[$attribute])*
                pub(crate) use portable::$name;
            )+
        };
    }
}

// The functions of the header. tools/exports.py compares them with it, and the structs above.
functions! {
    fn blake2b(
        out: *mut u8,
        out_length: usize,
        input: *const u8,
        input_length: usize,
        key: *const u8,
        key_length: usize,
    ) -> i32;
    fn blake2b_many(
        out: *mut u8,
        out_length: usize,
        output_size: usize,
        messages: *const Text,
        count: usize,
        key: *const u8,
        key_length: usize,
        salt: *const u8,
        salt_length: usize,
        persona: *const u8,
        persona_length: usize,
    ) -> i32;
    fn blake2b_init_tree(
        state: &mut Blake2bState,
        output_size: usize,
        key: *const u8,
        key_length: usize,
        salt: *const u8,
        salt_length: usize,
        persona: *const u8,
        persona_length: usize,
        tree: &Tree,
    ) -> i32;
    fn blake2b_update(state: &mut Blake2bState, input: *const u8, input_length: usize) -> i32;
    fn blake2b_update_many(
        states: *mut Blake2bState,
        state_count: usize,
        inputs: *const Text,
        input_count: usize,
    ) -> i32;
    fn blake2b_final(state: &mut Blake2bState, out: *mut u8, out_length: usize) -> i32;
    fn blake2b_verify(state: &mut Blake2bState, tag: *const u8, tag_length: usize) -> i32;
    fn blake2b_set_last_node(state: &mut Blake2bState, on: u32) -> i32;
    fn blake2b_reset(state: &mut Blake2bState) -> i32;
    fn blake2b_save(state: &Blake2bState, out: *mut u8, out_length: usize) -> i32;
    fn blake2b_load(state: &mut Blake2bState, saved: *const u8, saved_length: usize) -> i32;
    fn blake2b_wipe(state: &mut Blake2bState);
    fn blake2b_digest_size(state: &Blake2bState) -> usize;
    fn blake2b_count(state: &Blake2bState) -> u64;
    #[cfg(test)]
    fn blake2b_state_size() -> usize;

    fn blake2s(
        out: *mut u8,
        out_length: usize,
        input: *const u8,
        input_length: usize,
        key: *const u8,
        key_length: usize,
    ) -> i32;
    fn blake2s_many(
        out: *mut u8,
        out_length: usize,
        output_size: usize,
        messages: *const Text,
        count: usize,
        key: *const u8,
        key_length: usize,
        salt: *const u8,
        salt_length: usize,
        persona: *const u8,
        persona_length: usize,
    ) -> i32;
    fn blake2s_init_tree(
        state: &mut Blake2sState,
        output_size: usize,
        key: *const u8,
        key_length: usize,
        salt: *const u8,
        salt_length: usize,
        persona: *const u8,
        persona_length: usize,
        tree: &Tree,
    ) -> i32;
    fn blake2s_update(state: &mut Blake2sState, input: *const u8, input_length: usize) -> i32;
    fn blake2s_update_many(
        states: *mut Blake2sState,
        state_count: usize,
        inputs: *const Text,
        input_count: usize,
    ) -> i32;
    fn blake2s_final(state: &mut Blake2sState, out: *mut u8, out_length: usize) -> i32;
    fn blake2s_verify(state: &mut Blake2sState, tag: *const u8, tag_length: usize) -> i32;
    fn blake2s_set_last_node(state: &mut Blake2sState, on: u32) -> i32;
    fn blake2s_reset(state: &mut Blake2sState) -> i32;
    fn blake2s_save(state: &Blake2sState, out: *mut u8, out_length: usize) -> i32;
    fn blake2s_load(state: &mut Blake2sState, saved: *const u8, saved_length: usize) -> i32;
    fn blake2s_wipe(state: &mut Blake2sState);
    fn blake2s_digest_size(state: &Blake2sState) -> usize;
    fn blake2s_count(state: &Blake2sState) -> u64;
    #[cfg(test)]
    fn blake2s_state_size() -> usize;

    fn blake2bp(
        out: *mut u8,
        out_length: usize,
        input: *const u8,
        input_length: usize,
        key: *const u8,
        key_length: usize,
    ) -> i32;
    fn blake2bp_init_salt_personal(
        state: &mut Blake2bpState,
        output_size: usize,
        key: *const u8,
        key_length: usize,
        salt: *const u8,
        salt_length: usize,
        persona: *const u8,
        persona_length: usize,
    ) -> i32;
    fn blake2bp_update(state: &mut Blake2bpState, input: *const u8, input_length: usize) -> i32;
    fn blake2bp_final(state: &mut Blake2bpState, out: *mut u8, out_length: usize) -> i32;
    fn blake2bp_verify(state: &mut Blake2bpState, tag: *const u8, tag_length: usize) -> i32;
    fn blake2bp_reset(state: &mut Blake2bpState) -> i32;
    fn blake2bp_wipe(state: &mut Blake2bpState);
    fn blake2bp_digest_size(state: &Blake2bpState) -> usize;
    fn blake2bp_count(state: &Blake2bpState) -> u64;
    #[cfg(test)]
    fn blake2bp_state_size() -> usize;

    fn blake2sp(
        out: *mut u8,
        out_length: usize,
        input: *const u8,
        input_length: usize,
        key: *const u8,
        key_length: usize,
    ) -> i32;
    fn blake2sp_init_salt_personal(
        state: &mut Blake2spState,
        output_size: usize,
        key: *const u8,
        key_length: usize,
        salt: *const u8,
        salt_length: usize,
        persona: *const u8,
        persona_length: usize,
    ) -> i32;
    fn blake2sp_update(state: &mut Blake2spState, input: *const u8, input_length: usize) -> i32;
    fn blake2sp_final(state: &mut Blake2spState, out: *mut u8, out_length: usize) -> i32;
    fn blake2sp_verify(state: &mut Blake2spState, tag: *const u8, tag_length: usize) -> i32;
    fn blake2sp_reset(state: &mut Blake2spState) -> i32;
    fn blake2sp_wipe(state: &mut Blake2spState);
    fn blake2sp_digest_size(state: &Blake2spState) -> usize;
    fn blake2sp_count(state: &Blake2spState) -> u64;
    #[cfg(test)]
    fn blake2sp_state_size() -> usize;

    fn blake2xb_derive_key(
        out: *mut u8,
        out_length: usize,
        key: *const u8,
        key_length: usize,
        context: *const u8,
        context_length: usize,
    ) -> i32;
    fn blake2xb_init_salt_personal(
        state: &mut Blake2xbState,
        xof_length: u64,
        key: *const u8,
        key_length: usize,
        salt: *const u8,
        salt_length: usize,
        persona: *const u8,
        persona_length: usize,
    ) -> i32;
    fn blake2xb_update(state: &mut Blake2xbState, input: *const u8, input_length: usize) -> i32;
    fn blake2xb_squeeze(state: &mut Blake2xbState, out: *mut u8, out_length: usize) -> i32;
    fn blake2xb_reset(state: &mut Blake2xbState) -> i32;
    fn blake2xb_wipe(state: &mut Blake2xbState);
    fn blake2xb_left(state: &Blake2xbState) -> u64;
    fn blake2xb_count(state: &Blake2xbState) -> u64;
    #[cfg(test)]
    fn blake2xb_state_size() -> usize;

    fn blake2xs_derive_key(
        out: *mut u8,
        out_length: usize,
        key: *const u8,
        key_length: usize,
        context: *const u8,
        context_length: usize,
    ) -> i32;
    fn blake2xs_init_salt_personal(
        state: &mut Blake2xsState,
        xof_length: u64,
        key: *const u8,
        key_length: usize,
        salt: *const u8,
        salt_length: usize,
        persona: *const u8,
        persona_length: usize,
    ) -> i32;
    fn blake2xs_update(state: &mut Blake2xsState, input: *const u8, input_length: usize) -> i32;
    fn blake2xs_squeeze(state: &mut Blake2xsState, out: *mut u8, out_length: usize) -> i32;
    fn blake2xs_reset(state: &mut Blake2xsState) -> i32;
    fn blake2xs_wipe(state: &mut Blake2xsState);
    fn blake2xs_left(state: &Blake2xsState) -> u64;
    fn blake2xs_count(state: &Blake2xsState) -> u64;
    #[cfg(test)]
    fn blake2xs_state_size() -> usize;

    fn memcmp(a: *const u8, a_length: usize, b: *const u8, b_length: usize) -> i32;

    fn tree_root(
        out: *mut u8,
        out_length: usize,
        input: *const u8,
        input_length: usize,
        salt: *const u8,
        salt_length: usize,
        persona: *const u8,
        persona_length: usize,
        leaf_length: u32,
    ) -> i32;
    fn tree_init(
        state: &mut TreeState,
        output_size: usize,
        salt: *const u8,
        salt_length: usize,
        persona: *const u8,
        persona_length: usize,
        leaf_length: u32,
    ) -> i32;
    fn tree_update(state: &mut TreeState, input: *const u8, input_length: usize) -> i32;
    fn tree_final(state: &mut TreeState, out: *mut u8, out_length: usize) -> i32;
    fn tree_wipe(state: &mut TreeState);
    fn tree_digest_size(state: &TreeState) -> usize;
    fn tree_count(state: &TreeState) -> u64;
    fn tree_leaf_length(state: &TreeState) -> u32;
    fn tree_leaves_ahead(
        state: &TreeState,
        out: *mut u8,
        out_length: usize,
        skip: u64,
        input: *const u8,
        input_length: usize,
    ) -> i32;
    fn tree_update_leaves(
        state: &mut TreeState,
        digests: *const u8,
        digests_length: usize,
        input: *const u8,
        input_length: usize,
    ) -> i32;
    #[cfg(test)]
    fn tree_state_size() -> usize;
    fn tree_leaf_count(message_length: u64, leaf_length: u32) -> u64;
    fn tree_leaves(
        out: *mut u8,
        out_length: usize,
        first: u64,
        ends: u32,
        input: *const u8,
        input_length: usize,
        salt: *const u8,
        salt_length: usize,
        persona: *const u8,
        persona_length: usize,
        leaf_length: u32,
    ) -> i32;
    fn tree_root_of_leaves(
        out: *mut u8,
        out_length: usize,
        digests: *const u8,
        digests_length: usize,
        salt: *const u8,
        salt_length: usize,
        persona: *const u8,
        persona_length: usize,
        leaf_length: u32,
    ) -> i32;
    #[cfg(feature = "std")]
    fn tree_check(
        output_size: usize,
        salt_length: usize,
        persona_length: usize,
        leaf_length: u32,
    ) -> i32;
    #[cfg(feature = "std")]
    fn tree_init_leaf(
        state: &mut Blake2bState,
        i: u64,
        last: u32,
        salt: *const u8,
        salt_length: usize,
        persona: *const u8,
        persona_length: usize,
        leaf_length: u32,
    ) -> i32;
    #[cfg(feature = "std")]
    fn tree_init_root(
        state: &mut Blake2bState,
        output_size: usize,
        salt: *const u8,
        salt_length: usize,
        persona: *const u8,
        persona_length: usize,
        leaf_length: u32,
    ) -> i32;
    #[cfg(feature = "std")]
    fn tree_plan(
        plan: &mut Plan,
        start: u64,
        length: u64,
        leaf_length: u32,
        limits: &Limits,
    ) -> i32;
    #[cfg(feature = "std")]
    fn tree_plan_update(
        plan: &mut Plan,
        state: &TreeState,
        length: u64,
        limits: &Limits,
    ) -> i32;
    #[cfg(feature = "std")]
    fn tree_part(part: &mut Part, plan: &Plan, i: u64) -> i32;
}
