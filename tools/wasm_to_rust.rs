// ---- head
// BLAKE2b and BLAKE2s for processors without assembly in dist/: the functions of the header, in Rust.
//
// Do not edit. tools/wasm_to_rust.py translates the WebAssembly module that the proved crate
// blake2_ffi compiles to, instruction by instruction. The translator and your compiler are tested,
// not proved. The comment above a function has its name in the crates; docs/PORTABLE.md says how the
// text is read, and where it is more than a translation.
//
// Addresses and lengths are 64-bit numbers. Numbers in memory are little-endian on every processor,
// also in states.
#![allow(dead_code, non_snake_case, unused_assignments, unused_mut, unused_parens)]
#![allow(unsafe_op_in_unsafe_fn)]
#![allow(clippy::all)]

use super::*;

macro_rules! address {
    ($place:expr) => {
        core::ptr::addr_of_mut!($place) as u64
    };
}

// Sums, differences and products without the bits that their type has no room for.
trait Number {
    fn plus(self, other: Self) -> Self;
    fn minus(self, other: Self) -> Self;
    fn times(self, other: Self) -> Self;
}

macro_rules! number {
    ($type:ident) => {
        impl Number for $type {
            #[inline(always)]
            fn plus(self, other: Self) -> Self {
                self.wrapping_add(other)
            }

            #[inline(always)]
            fn minus(self, other: Self) -> Self {
                self.wrapping_sub(other)
            }

            #[inline(always)]
            fn times(self, other: Self) -> Self {
                self.wrapping_mul(other)
            }
        }
    };
}

number!(u32);
number!(u64);

// Never called: what the module does not reach.
#[cold]
fn abort() -> ! {
    unreachable!()
}

// Numbers in memory, at any address.
macro_rules! memory {
    ($load:ident, $store:ident, $type:ident, $result:ident) => {
        #[inline(always)]
        unsafe fn $load(address: u64) -> $result {
            $type::from_le((address as *const $type).read_unaligned()) as $result
        }

        #[inline(always)]
        unsafe fn $store(address: u64, number: u64) {
            (address as *mut $type).write_unaligned((number as $type).to_le())
        }
    };
}

memory!(load8, store8, u8, u32);
memory!(load16, store16, u16, u32);
memory!(load32, store32, u32, u32);
memory!(load64, store64, u64, u64);

#[inline(always)]
unsafe fn copy(to: u64, from: u64, length: u64) {
    core::ptr::copy(from as *const u8, to as *mut u8, length as usize)
}

#[inline(always)]
unsafe fn fill(to: u64, byte: u32, length: u64) {
    core::ptr::write_bytes(to as *mut u8, byte as u8, length as usize)
}

macro_rules! operators {
    ($type:ident, $signed:ident, $rotl:ident, $rotr:ident, $shr_s:ident, $sign:ident, $div_u:ident, $rem_u:ident) => {
        #[inline(always)]
        fn $rotl(x: $type, by: $type) -> $type {
            x.rotate_left(by as u32 % $type::BITS)
        }

        #[inline(always)]
        fn $rotr(x: $type, by: $type) -> $type {
            x.rotate_right(by as u32 % $type::BITS)
        }

        #[inline(always)]
        fn $shr_s(x: $type, by: $type) -> $type {
            (x as $signed).wrapping_shr(by as u32) as $type
        }

        // The bits below and with `top`, whose bit is that of the sign.
        #[inline(always)]
        fn $sign(x: $type, top: $type) -> $type {
            ((x & (top.wrapping_mul(2).wrapping_sub(1))) ^ top).wrapping_sub(top)
        }

        // A divisor of 0 panics.
        #[inline(always)]
        fn $div_u(a: $type, b: $type) -> $type {
            a / b
        }

        #[inline(always)]
        fn $rem_u(a: $type, b: $type) -> $type {
            a % b
        }
    };
}

operators!(u32, i32, rotl32, rotr32, shr_s32, sign32, div_u32, rem_u32);
operators!(u64, i64, rotl64, rotr64, shr_s64, sign64, div_u64, rem_u64);
// ---- scrub
// Overwrites the stack below the caller.
#[inline(never)]
unsafe fn @NAME@() {
    let mut room = [0_u64; @WORDS@];
    for word in room.iter_mut() {
        core::ptr::write_volatile(word, 0);
    }
}
// ---- pairs
// Messages as the module has them, two 64-bit numbers each. The crate passes at most PART.
unsafe fn pairs_of(messages: *const Text, count: usize) -> [u64; 2 * crate::family::PART] {
    let mut pairs = [0_u64; 2 * crate::family::PART];
    for (i, message) in core::slice::from_raw_parts(messages, count).iter().enumerate() {
        pairs[2 * i] = (message.bytes as u64).to_le();
        pairs[2 * i + 1] = (message.length as u64).to_le();
    }
    pairs
}
// ---- many
@HEAD@
    let mut pairs = pairs_of(messages, count);
    @INNER@(out as u64, out_length as u64, output_size as u64, address!(pairs), count as u64,
        key as u64, key_length as u64, salt as u64, salt_length as u64, personal as u64,
        personal_length as u64) as i32
}
// ---- update_many
@HEAD@
    let mut pairs = pairs_of(inputs, input_count);
    @INNER@(states as u64, state_count as u64, address!(pairs), input_count as u64) as i32
}
