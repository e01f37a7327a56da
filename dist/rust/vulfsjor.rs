// BLAKE2b and BLAKE2s for processors without assembly in dist/: the functions of the header, in Rust.
//
// Do not edit. tools/wasm_to_rust.py translates the WebAssembly module that the proved crate
// blake2_ffi compiles to, instruction by instruction. The translator and your compiler are tested,
// not proved. The comment above a function has its name in the crates; docs/PORTABLE.md says how the
// text is read, and where it is more than a translation.
//
// Addresses and lengths are 64-bit numbers. Numbers in memory are little-endian on every processor,
// also in states.
#![allow(dead_code, non_snake_case, unused_assignments, unused_mut, unused_parens)]
#![allow(unsafe_op_in_unsafe_fn)]
#![allow(clippy::all)]

use super::*;

macro_rules! address {
    ($place:expr) => {
        core::ptr::addr_of_mut!($place) as u64
    };
}

// Sums, differences and products without the bits that their type has no room for.
trait Number {
    fn plus(self, other: Self) -> Self;
    fn minus(self, other: Self) -> Self;
    fn times(self, other: Self) -> Self;
}

macro_rules! number {
    ($type:ident) => {
        impl Number for $type {
            #[inline(always)]
            fn plus(self, other: Self) -> Self {
                self.wrapping_add(other)
            }

            #[inline(always)]
            fn minus(self, other: Self) -> Self {
                self.wrapping_sub(other)
            }

            #[inline(always)]
            fn times(self, other: Self) -> Self {
                self.wrapping_mul(other)
            }
        }
    };
}

number!(u32);
number!(u64);

// Never called: what the module does not reach.
#[cold]
fn abort() -> ! {
    unreachable!()
}

// Numbers in memory, at any address.
macro_rules! memory {
    ($load:ident, $store:ident, $type:ident, $result:ident) => {
        #[inline(always)]
        unsafe fn $load(address: u64) -> $result {
            $type::from_le((address as *const $type).read_unaligned()) as $result
        }

        #[inline(always)]
        unsafe fn $store(address: u64, number: u64) {
            (address as *mut $type).write_unaligned((number as $type).to_le())
        }
    };
}

memory!(load8, store8, u8, u32);
memory!(load16, store16, u16, u32);
memory!(load32, store32, u32, u32);
memory!(load64, store64, u64, u64);

#[inline(always)]
unsafe fn copy(to: u64, from: u64, length: u64) {
    core::ptr::copy(from as *const u8, to as *mut u8, length as usize)
}

#[inline(always)]
unsafe fn fill(to: u64, byte: u32, length: u64) {
    core::ptr::write_bytes(to as *mut u8, byte as u8, length as usize)
}

macro_rules! operators {
    ($type:ident, $signed:ident, $rotl:ident, $rotr:ident, $shr_s:ident, $sign:ident, $div_u:ident, $rem_u:ident) => {
        #[inline(always)]
        fn $rotl(x: $type, by: $type) -> $type {
            x.rotate_left(by as u32 % $type::BITS)
        }

        #[inline(always)]
        fn $rotr(x: $type, by: $type) -> $type {
            x.rotate_right(by as u32 % $type::BITS)
        }

        #[inline(always)]
        fn $shr_s(x: $type, by: $type) -> $type {
            (x as $signed).wrapping_shr(by as u32) as $type
        }

        // The bits below and with `top`, whose bit is that of the sign.
        #[inline(always)]
        fn $sign(x: $type, top: $type) -> $type {
            ((x & (top.wrapping_mul(2).wrapping_sub(1))) ^ top).wrapping_sub(top)
        }

        // A divisor of 0 panics.
        #[inline(always)]
        fn $div_u(a: $type, b: $type) -> $type {
            a / b
        }

        #[inline(always)]
        fn $rem_u(a: $type, b: $type) -> $type {
            a % b
        }
    };
}

operators!(u32, i32, rotl32, rotr32, shr_s32, sign32, div_u32, rem_u32);
operators!(u64, i64, rotl64, rotr64, shr_s64, sign64, div_u64, rem_u64);

// Messages as the module has them, two 64-bit numbers each. The crate passes at most PART.
unsafe fn pairs_of(messages: *const Text, count: usize) -> [u64; 2 * crate::family::PART] {
    let mut pairs = [0_u64; 2 * crate::family::PART];
    for (i, message) in core::slice::from_raw_parts(messages, count).iter().enumerate() {
        pairs[2 * i] = (message.bytes as u64).to_le();
        pairs[2 * i + 1] = (message.length as u64).to_le();
    }
    pairs
}

// rattle::export vulfsjor_ffi_memcmp
#[inline(never)]
unsafe fn exported_memcmp(mut v0: u64, mut v1: u64, mut v2: u64, mut v3: u64) -> u32 {
 let mut v4: u32;
 let mut v5: u64;
 let mut v6: u64;
 let mut v7: u64;
 let mut v8: u32;
 let mut v9: u64;
 let mut v10: u64;
 let mut v11: u64;
 let mut v12: u64;
 v4 = 0xffffffff;
 'l2: loop {
 if v1 != v3 { break 'l2; }
 'l3: loop {
 if v1 == 0 { break 'l3; }
 v5 = if v2 == 0 { 4096_u64 } else { 0 };
 v6 = if v0 == 0 { 4096_u64 } else { 0 };
 v7 = v1 & 3;
 'l4: loop {
 'l5: loop {
 'l6: loop {
 if v1 >= 4 { break 'l6; }
 v3 = 0;
 v8 = 0;
 break 'l5;
 }
 v9 = v2.plus(v5);
 v10 = v0.plus(v6);
 v11 = v1 & 0xfffffffffffffffc;
 v3 = 0;
 v8 = 0;
 'l7: loop {
 v1 = v9.plus(v3);
 v12 = v10.plus(v3);
 v8 = (load8(v1.plus(3)) ^ load8(v12.plus(3))) | ((load8(v1.plus(2)) ^ load8(v12.plus(2))) |
   ((load8(v1.plus(1)) ^ load8(v12.plus(1))) | ((load8(v1) ^ load8(v12)) | v8)));
 v3 = v3.plus(4);
 if v11 != v3 { continue 'l7; }
 break 'l7; }
 if v7 == 0 { break 'l4; }
 break 'l5; }
 v1 = v0.plus(v6.plus(v3));
 v3 = v2.plus(v5.plus(v3));
 'l8: loop {
 v8 = (load8(v3) ^ load8(v1)) | v8;
 v1 = v1.plus(1);
 v3 = v3.plus(1);
 v7 = v7.minus(1);
 if v7 != 0 { continue 'l8; }
 break 'l8; }
 break 'l4; }
 if (v8 & 255) != 0 { break 'l2; }
 break 'l3; }
 v4 = 0;
 break 'l2; }
 return v4;
}

// rattle::export vulfsjor_ffi_wipe
#[inline(never)]
unsafe fn exported_wipe(mut v0: u64, mut v1: u64) {
 let mut v2: u32;
 'l2: loop {
 if v1 == 0 { break 'l2; }
 v0 = v0.plus(if v0 == 0 { 4096_u64 } else { 0 });
 'l3: loop {
 v1 = v1.minus(1);
 v2 = (v1 == 0) as u32;
 if v2 != 0 { break 'l3; }
 if v2 != 0 { break 'l3; }
 fill(v0, 0, v1);
 break 'l3; }
 store8(v0.plus(v1), 0);
 break 'l2; }
 return;
}

// blake2_compress::compress::blake2b::compress
#[inline(never)]
unsafe fn compress_compress_blake2b_compress(mut v0: u64, mut v1: u64, mut v2: u64, mut v3: u32, mut
        v4: u32) {
 let mut v5: u64;
 let mut v6: u64;
 let mut v7: u64;
 let mut v8: u64;
 let mut v9: u64;
 let mut v10: u64;
 let mut v11: u64;
 let mut v12: u64;
 let mut v13: u64;
 let mut v14: u64;
 let mut v15: u64;
 let mut v16: u64;
 let mut v17: u64;
 let mut v18: u64;
 let mut v19: u64;
 let mut v20: u64;
 let mut v21: u64;
 let mut v22: u64;
 let mut v23: u64;
 let mut v24: u64;
 let mut v25: u64;
 let mut v26: u64;
 let mut v27: u64;
 let mut v28: u64;
 let mut v29: u64;
 let mut v30: u64;
 let mut v31: u64;
 let mut v32: u64;
 let mut v33: u64;
 let mut v34: u64;
 let mut v35: u64;
 let mut v36: u64;
 let mut v37: u64;
 let mut v38: u64;
 let mut v39: u64;
 let mut v40: u64;
 let mut v41: u64;
 let mut v42: u64;
 let mut v43: u64;
 let mut v44: u64;
 let mut v45: u64;
 let mut t0: u64;
 let mut t1: u64;
 let mut t2: u64;
 let mut t3: u64;
 let mut t4: u64;
 let mut t5: u64;
 let mut t6: u64;
 let mut t7: u64;
 let mut t8: u64;
 let mut t9: u64;
 let mut t10: u64;
 let mut t11: u64;
 let mut t12: u64;
 let mut t13: u64;
 let mut t14: u64;
 let mut t15: u64;
 let mut t16: u64;
 let mut t17: u64;
 let mut t18: u64;
 let mut t19: u64;
 let mut t20: u64;
 let mut t21: u64;
 let mut t22: u64;
 let mut t23: u64;
 let mut t24: u64;
 let mut t25: u64;
 let mut t26: u64;
 let mut t27: u64;
 let mut t28: u64;
 let mut t29: u64;
 let mut t30: u64;
 let mut t31: u64;
 let mut t32: u64;
 let mut t33: u64;
 let mut t34: u64;
 let mut t35: u64;
 let mut t36: u64;
 let mut t37: u64;
 let mut t38: u64;
 let mut t39: u64;
 let mut t40: u64;
 let mut t41: u64;
 let mut t42: u64;
 let mut t43: u64;
 let mut t44: u64;
 let mut t45: u64;
 let mut t46: u64;
 let mut t47: u64;
 let mut t48: u64;
 let mut t49: u64;
 let mut t50: u64;
 let mut t51: u64;
 let mut t52: u64;
 let mut t53: u64;
 let mut t54: u64;
 let mut t55: u64;
 let mut t56: u64;
 let mut t57: u64;
 let mut t58: u64;
 let mut t59: u64;
 let mut t60: u64;
 let mut t61: u64;
 let mut t62: u64;
 let mut t63: u64;
 let mut t64: u64;
 let mut t65: u64;
 let mut t66: u64;
 let mut t67: u64;
 let mut t68: u64;
 let mut t69: u64;
 let mut t70: u64;
 let mut t71: u64;
 let mut t72: u64;
 let mut t73: u64;
 let mut t74: u64;
 let mut t75: u64;
 let mut t76: u64;
 let mut t77: u64;
 let mut t78: u64;
 let mut t79: u64;
 let mut t80: u64;
 v5 = load64(v0 + 16);
 v6 = load64(v1.plus(32));
 v7 = load64(v0 + 48);
 v8 = v5.plus(v6).plus(v7);
 v9 = load64(v1.plus(40));
 v10 = rotl64((if (v3 & 1) != 0 { 0xffffffffffffffff_u64 } else { 0 }) ^ v8 ^ 0x1f83d9abfb41bd6b,
   32);
 v11 = v10.plus(0x3c6ef372fe94f82b);
 v12 = rotl64(v11 ^ v7, 40);
 v13 = v8.plus(v9).plus(v12);
 v8 = load64(v1.plus(96));
 v14 = load64(v0 + 24);
 v15 = load64(v1.plus(48));
 v16 = load64(v0 + 56);
 v17 = v14.plus(v15).plus(v16);
 v18 = load64(v1.plus(56));
 t0 = v17.plus(v18);
 v17 = rotl64((if (v4 & 1) != 0 { 0xffffffffffffffff_u64 } else { 0 }) ^ v17 ^ 0x5be0cd19137e2179,
   32);
 v19 = v17.plus(0xa54ff53a5f1d36f1);
 v20 = rotl64(v19 ^ v16, 40);
 v21 = t0.plus(v20);
 v22 = rotl64(v21 ^ v17, 48);
 v23 = v22.plus(v19);
 v24 = rotl64(v23 ^ v20, 1);
 v25 = v13.plus(v8).plus(v24);
 v17 = load64(v1.plus(104));
 v26 = load64(v0 + 8);
 v19 = load64(v1 + 16);
 v27 = load64(v0 + 40);
 v28 = v26.plus(v19).plus(v27);
 v20 = load64(v1 + 24);
 t1 = v28.plus(v20);
 v28 = rotl64(v28 ^ 0x9b05688c2b3e6c1f, 32);
 v29 = v28.plus(0xbb67ae8584caa73b);
 v30 = rotl64(v29 ^ v27, 40);
 v31 = t1.plus(v30);
 v32 = rotl64(v31 ^ v28, 48);
 v33 = rotl64(v25 ^ v32, 32);
 v34 = load64(v0);
 t2 = v25.plus(v17);
 v25 = load64(v1);
 v35 = load64(v0 + 32);
 v36 = v34.plus(v25).plus(v35);
 v28 = load64(v1 + 8);
 v2 = rotl64(v2 ^ v36 ^ 0x510e527fade682d1, 32);
 t3 = v36.plus(v28);
 v36 = v2.plus(0x6a09e667f3bcc908);
 v37 = rotl64(v36 ^ v35, 40);
 v38 = t3.plus(v37);
 v39 = rotl64(v38 ^ v2, 48);
 v36 = v39.plus(v36);
 v40 = v33.plus(v36);
 v41 = rotl64(v40 ^ v24, 40);
 v42 = t2.plus(v41);
 v2 = load64(v1.plus(72));
 v24 = load64(v1.plus(80));
 v13 = rotl64(v13 ^ v10, 48);
 t4 = v31.plus(v24);
 v31 = v13.plus(v11);
 v11 = rotl64(v31 ^ v12, 1);
 v12 = t4.plus(v11);
 v10 = load64(v1.plus(88));
 t5 = v12.plus(v10);
 v12 = rotl64(v12 ^ v39, 32);
 v23 = v12.plus(v23);
 v11 = rotl64(v23 ^ v11, 40);
 v39 = t5.plus(v11);
 v43 = rotl64(v39 ^ v12, 48);
 v23 = v43.plus(v23);
 v44 = rotl64(v23 ^ v11, 1);
 v45 = v42.plus(v2).plus(v44);
 v11 = load64(v1.plus(120));
 v12 = load64(v1.plus(112));
 t6 = v21.plus(v12);
 v21 = rotl64(v36 ^ v37, 1);
 v36 = t6.plus(v21);
 v13 = rotl64(v36 ^ v13, 32);
 v29 = v32.plus(v29);
 v32 = v13.plus(v29);
 v21 = rotl64(v32 ^ v21, 40);
 v36 = v36.plus(v11).plus(v21);
 v13 = rotl64(v36 ^ v13, 48);
 v37 = rotl64(v45 ^ v13, 32);
 v1 = load64(v1.plus(64));
 v29 = rotl64(v29 ^ v30, 1);
 v30 = v38.plus(v1).plus(v29);
 v22 = rotl64(v30 ^ v22, 32);
 t7 = v30.plus(v2);
 v30 = v22.plus(v31);
 v29 = rotl64(v30 ^ v29, 40);
 v31 = t7.plus(v29);
 v22 = rotl64(v31 ^ v22, 48);
 v30 = v22.plus(v30);
 v38 = v37.plus(v30);
 v44 = rotl64(v38 ^ v44, 40);
 v45 = v45.plus(v11).plus(v44);
 v33 = rotl64(v42 ^ v33, 48);
 t8 = v36.plus(v17);
 v36 = v33.plus(v40);
 v40 = rotl64(v36 ^ v41, 1);
 v41 = t8.plus(v40);
 v22 = rotl64(v41 ^ v22, 32);
 v23 = v22.plus(v23);
 v40 = rotl64(v23 ^ v40, 40);
 v41 = v41.plus(v15).plus(v40);
 v22 = rotl64(v41 ^ v22, 48);
 v23 = v22.plus(v23);
 v40 = rotl64(v23 ^ v40, 1);
 v42 = v45.plus(v10).plus(v40);
 v29 = rotl64(v30 ^ v29, 1);
 v30 = v39.plus(v6).plus(v29);
 t9 = v30.plus(v1);
 v30 = rotl64(v30 ^ v33, 32);
 v13 = v13.plus(v32);
 v32 = v30.plus(v13);
 v29 = rotl64(v32 ^ v29, 40);
 v33 = t9.plus(v29);
 v30 = rotl64(v33 ^ v30, 48);
 v39 = rotl64(v42 ^ v30, 32);
 v13 = rotl64(v13 ^ v21, 1);
 v21 = v31.plus(v12).plus(v13);
 t10 = v21.plus(v24);
 v21 = rotl64(v21 ^ v43, 32);
 v31 = v21.plus(v36);
 v13 = rotl64(v31 ^ v13, 40);
 v36 = t10.plus(v13);
 v21 = rotl64(v36 ^ v21, 48);
 v31 = v21.plus(v31);
 t11 = v42.plus(v18);
 v42 = v39.plus(v31);
 v40 = rotl64(v42 ^ v40, 40);
 v43 = t11.plus(v40);
 t12 = v33.plus(v25);
 v33 = rotl64(v45 ^ v37, 48);
 v37 = v33.plus(v38);
 v38 = rotl64(v37 ^ v44, 1);
 v44 = t12.plus(v38);
 v21 = rotl64(v44 ^ v21, 32);
 v23 = v21.plus(v23);
 v38 = rotl64(v23 ^ v38, 40);
 v44 = v44.plus(v19).plus(v38);
 v21 = rotl64(v44 ^ v21, 48);
 v23 = v21.plus(v23);
 v38 = rotl64(v23 ^ v38, 1);
 v45 = v43.plus(v9).plus(v38);
 v13 = rotl64(v31 ^ v13, 1);
 v31 = v41.plus(v9).plus(v13);
 t13 = v31.plus(v20);
 v31 = rotl64(v31 ^ v33, 32);
 v30 = v30.plus(v32);
 v32 = v31.plus(v30);
 v13 = rotl64(v32 ^ v13, 40);
 v33 = t13.plus(v13);
 v31 = rotl64(v33 ^ v31, 48);
 v41 = rotl64(v45 ^ v31, 32);
 v29 = rotl64(v30 ^ v29, 1);
 v30 = v36.plus(v28).plus(v29);
 v22 = rotl64(v30 ^ v22, 32);
 t14 = v30.plus(v8);
 v30 = v22.plus(v37);
 v29 = rotl64(v30 ^ v29, 40);
 v36 = t14.plus(v29);
 v22 = rotl64(v36 ^ v22, 48);
 v30 = v22.plus(v30);
 v37 = v41.plus(v30);
 v38 = rotl64(v37 ^ v38, 40);
 v45 = v45.plus(v19).plus(v38);
 t15 = v33.plus(v11);
 v33 = rotl64(v43 ^ v39, 48);
 v39 = v33.plus(v42);
 v40 = rotl64(v39 ^ v40, 1);
 v42 = t15.plus(v40);
 v22 = rotl64(v42 ^ v22, 32);
 v23 = v22.plus(v23);
 v40 = rotl64(v23 ^ v40, 40);
 v42 = v42.plus(v17).plus(v40);
 v22 = rotl64(v42 ^ v22, 48);
 v23 = v22.plus(v23);
 v40 = rotl64(v23 ^ v40, 1);
 v43 = v45.plus(v18).plus(v40);
 v29 = rotl64(v30 ^ v29, 1);
 v30 = v44.plus(v8).plus(v29);
 t16 = v30.plus(v25);
 v30 = rotl64(v30 ^ v33, 32);
 v31 = v31.plus(v32);
 v32 = v30.plus(v31);
 v29 = rotl64(v32 ^ v29, 40);
 v33 = t16.plus(v29);
 v30 = rotl64(v33 ^ v30, 48);
 t17 = v43.plus(v28);
 v43 = rotl64(v43 ^ v30, 32);
 v13 = rotl64(v31 ^ v13, 1);
 v31 = v36.plus(v10).plus(v13);
 v21 = rotl64(v31 ^ v21, 32);
 t18 = v31.plus(v1);
 v31 = v21.plus(v39);
 v13 = rotl64(v31 ^ v13, 40);
 v36 = t18.plus(v13);
 v21 = rotl64(v36 ^ v21, 48);
 v31 = v21.plus(v31);
 v39 = v43.plus(v31);
 v40 = rotl64(v39 ^ v40, 40);
 v44 = t17.plus(v40);
 t19 = v33.plus(v20);
 v33 = rotl64(v45 ^ v41, 48);
 v37 = v33.plus(v37);
 v38 = rotl64(v37 ^ v38, 1);
 v41 = t19.plus(v38);
 v21 = rotl64(v41 ^ v21, 32);
 v23 = v21.plus(v23);
 v38 = rotl64(v23 ^ v38, 40);
 v41 = v41.plus(v15).plus(v38);
 v21 = rotl64(v41 ^ v21, 48);
 v23 = v21.plus(v23);
 v38 = rotl64(v23 ^ v38, 1);
 v45 = v44.plus(v17).plus(v38);
 v13 = rotl64(v31 ^ v13, 1);
 v31 = v42.plus(v2).plus(v13);
 t20 = v31.plus(v6);
 v31 = rotl64(v31 ^ v33, 32);
 v30 = v30.plus(v32);
 v32 = v31.plus(v30);
 v13 = rotl64(v32 ^ v13, 40);
 v33 = t20.plus(v13);
 v31 = rotl64(v33 ^ v31, 48);
 v42 = rotl64(v45 ^ v31, 32);
 v29 = rotl64(v30 ^ v29, 1);
 v30 = v36.plus(v24).plus(v29);
 v22 = rotl64(v30 ^ v22, 32);
 t21 = v30.plus(v12);
 v30 = v22.plus(v37);
 v29 = rotl64(v30 ^ v29, 40);
 v36 = t21.plus(v29);
 v22 = rotl64(v36 ^ v22, 48);
 v30 = v22.plus(v30);
 v37 = v42.plus(v30);
 v38 = rotl64(v37 ^ v38, 40);
 v45 = v45.plus(v8).plus(v38);
 t22 = v33.plus(v10);
 v33 = rotl64(v44 ^ v43, 48);
 v39 = v33.plus(v39);
 v40 = rotl64(v39 ^ v40, 1);
 v43 = t22.plus(v40);
 v22 = rotl64(v43 ^ v22, 32);
 v23 = v22.plus(v23);
 v40 = rotl64(v23 ^ v40, 40);
 v43 = v43.plus(v12).plus(v40);
 v22 = rotl64(v43 ^ v22, 48);
 v23 = v22.plus(v23);
 v40 = rotl64(v23 ^ v40, 1);
 v44 = v45.plus(v6).plus(v40);
 v29 = rotl64(v30 ^ v29, 1);
 v30 = v41.plus(v20).plus(v29);
 t23 = v30.plus(v28);
 v30 = rotl64(v30 ^ v33, 32);
 v31 = v31.plus(v32);
 v32 = v30.plus(v31);
 v29 = rotl64(v32 ^ v29, 40);
 v33 = t23.plus(v29);
 v30 = rotl64(v33 ^ v30, 48);
 v41 = rotl64(v44 ^ v30, 32);
 v13 = rotl64(v31 ^ v13, 1);
 v31 = v36.plus(v18).plus(v13);
 v21 = rotl64(v31 ^ v21, 32);
 t24 = v31.plus(v2);
 v31 = v21.plus(v39);
 v13 = rotl64(v31 ^ v13, 40);
 v36 = t24.plus(v13);
 v21 = rotl64(v36 ^ v21, 48);
 v31 = v21.plus(v31);
 v39 = v41.plus(v31);
 v40 = rotl64(v39 ^ v40, 40);
 v44 = v44.plus(v25).plus(v40);
 t25 = v33.plus(v9);
 v33 = rotl64(v45 ^ v42, 48);
 v37 = v33.plus(v37);
 v38 = rotl64(v37 ^ v38, 1);
 v42 = t25.plus(v38);
 v21 = rotl64(v42 ^ v21, 32);
 v23 = v21.plus(v23);
 v38 = rotl64(v23 ^ v38, 40);
 v42 = v42.plus(v24).plus(v38);
 v21 = rotl64(v42 ^ v21, 48);
 v23 = v21.plus(v23);
 v38 = rotl64(v23 ^ v38, 1);
 v45 = v44.plus(v19).plus(v38);
 v13 = rotl64(v31 ^ v13, 1);
 v31 = v43.plus(v11).plus(v13);
 t26 = v31.plus(v1);
 v31 = rotl64(v31 ^ v33, 32);
 v30 = v30.plus(v32);
 v32 = v31.plus(v30);
 v13 = rotl64(v32 ^ v13, 40);
 v33 = t26.plus(v13);
 v31 = rotl64(v33 ^ v31, 48);
 v43 = rotl64(v45 ^ v31, 32);
 v29 = rotl64(v30 ^ v29, 1);
 v30 = v36.plus(v19).plus(v29);
 v22 = rotl64(v30 ^ v22, 32);
 t27 = v30.plus(v15);
 v30 = v22.plus(v37);
 v29 = rotl64(v30 ^ v29, 40);
 v36 = t27.plus(v29);
 v22 = rotl64(v36 ^ v22, 48);
 v30 = v22.plus(v30);
 v37 = v43.plus(v30);
 v38 = rotl64(v37 ^ v38, 40);
 v45 = v45.plus(v6).plus(v38);
 t28 = v33.plus(v24);
 v33 = rotl64(v44 ^ v41, 48);
 v39 = v33.plus(v39);
 v40 = rotl64(v39 ^ v40, 1);
 v41 = t28.plus(v40);
 v22 = rotl64(v41 ^ v22, 32);
 v23 = v22.plus(v23);
 v40 = rotl64(v23 ^ v40, 40);
 v41 = v41.plus(v11).plus(v40);
 v22 = rotl64(v41 ^ v22, 48);
 v23 = v22.plus(v23);
 v40 = rotl64(v23 ^ v40, 1);
 v44 = v45.plus(v15).plus(v40);
 v29 = rotl64(v30 ^ v29, 1);
 v30 = v42.plus(v9).plus(v29);
 t29 = v30.plus(v18);
 v30 = rotl64(v30 ^ v33, 32);
 v31 = v31.plus(v32);
 v32 = v30.plus(v31);
 v29 = rotl64(v32 ^ v29, 40);
 v33 = t29.plus(v29);
 v30 = rotl64(v33 ^ v30, 48);
 v42 = rotl64(v44 ^ v30, 32);
 v13 = rotl64(v31 ^ v13, 1);
 v31 = v36.plus(v2).plus(v13);
 v21 = rotl64(v31 ^ v21, 32);
 t30 = v31.plus(v25);
 v31 = v21.plus(v39);
 v13 = rotl64(v31 ^ v13, 40);
 v36 = t30.plus(v13);
 v21 = rotl64(v36 ^ v21, 48);
 v31 = v21.plus(v31);
 v39 = v42.plus(v31);
 v40 = rotl64(v39 ^ v40, 40);
 v44 = v44.plus(v1).plus(v40);
 t31 = v33.plus(v10);
 v33 = rotl64(v45 ^ v43, 48);
 v37 = v33.plus(v37);
 v38 = rotl64(v37 ^ v38, 1);
 v43 = t31.plus(v38);
 v21 = rotl64(v43 ^ v21, 32);
 v23 = v21.plus(v23);
 v38 = rotl64(v23 ^ v38, 40);
 v43 = v43.plus(v8).plus(v38);
 v21 = rotl64(v43 ^ v21, 48);
 v23 = v21.plus(v23);
 v38 = rotl64(v23 ^ v38, 1);
 v45 = v44.plus(v25).plus(v38);
 v13 = rotl64(v31 ^ v13, 1);
 v31 = v41.plus(v20).plus(v13);
 t32 = v31.plus(v17);
 v31 = rotl64(v31 ^ v33, 32);
 v30 = v30.plus(v32);
 v32 = v31.plus(v30);
 v13 = rotl64(v32 ^ v13, 40);
 v33 = t32.plus(v13);
 v31 = rotl64(v33 ^ v31, 48);
 v41 = rotl64(v45 ^ v31, 32);
 v29 = rotl64(v30 ^ v29, 1);
 v30 = v36.plus(v12).plus(v29);
 v22 = rotl64(v30 ^ v22, 32);
 t33 = v30.plus(v28);
 v30 = v22.plus(v37);
 v29 = rotl64(v30 ^ v29, 40);
 v36 = t33.plus(v29);
 v22 = rotl64(v36 ^ v22, 48);
 v30 = v22.plus(v30);
 v37 = v41.plus(v30);
 v38 = rotl64(v37 ^ v38, 40);
 v45 = v45.plus(v10).plus(v38);
 t34 = v33.plus(v1);
 v33 = rotl64(v44 ^ v42, 48);
 v39 = v33.plus(v39);
 v40 = rotl64(v39 ^ v40, 1);
 v42 = t34.plus(v40);
 v22 = rotl64(v42 ^ v22, 32);
 v23 = v22.plus(v23);
 v40 = rotl64(v23 ^ v40, 40);
 v42 = v42.plus(v20).plus(v40);
 v22 = rotl64(v42 ^ v22, 48);
 v23 = v22.plus(v23);
 v40 = rotl64(v23 ^ v40, 1);
 v44 = v45.plus(v11).plus(v40);
 v29 = rotl64(v30 ^ v29, 1);
 v30 = v43.plus(v15).plus(v29);
 t35 = v30.plus(v24);
 v30 = rotl64(v30 ^ v33, 32);
 v31 = v31.plus(v32);
 v32 = v30.plus(v31);
 v29 = rotl64(v32 ^ v29, 40);
 v33 = t35.plus(v29);
 v30 = rotl64(v33 ^ v30, 48);
 v43 = rotl64(v44 ^ v30, 32);
 v13 = rotl64(v31 ^ v13, 1);
 v31 = v36.plus(v19).plus(v13);
 v21 = rotl64(v31 ^ v21, 32);
 t36 = v31.plus(v8);
 v31 = v21.plus(v39);
 v13 = rotl64(v31 ^ v13, 40);
 v36 = t36.plus(v13);
 v21 = rotl64(v36 ^ v21, 48);
 v31 = v21.plus(v31);
 v39 = v43.plus(v31);
 v40 = rotl64(v39 ^ v40, 40);
 v44 = v44.plus(v12).plus(v40);
 t37 = v33.plus(v18);
 v33 = rotl64(v45 ^ v41, 48);
 v37 = v33.plus(v37);
 v38 = rotl64(v37 ^ v38, 1);
 v41 = t37.plus(v38);
 v21 = rotl64(v41 ^ v21, 32);
 v23 = v21.plus(v23);
 v38 = rotl64(v23 ^ v38, 40);
 v41 = v41.plus(v9).plus(v38);
 v21 = rotl64(v41 ^ v21, 48);
 v23 = v21.plus(v23);
 v38 = rotl64(v23 ^ v38, 1);
 v45 = v44.plus(v12).plus(v38);
 v13 = rotl64(v31 ^ v13, 1);
 v31 = v42.plus(v28).plus(v13);
 t38 = v31.plus(v2);
 v31 = rotl64(v31 ^ v33, 32);
 v30 = v30.plus(v32);
 v32 = v31.plus(v30);
 v13 = rotl64(v32 ^ v13, 40);
 v33 = t38.plus(v13);
 v31 = rotl64(v33 ^ v31, 48);
 v42 = rotl64(v45 ^ v31, 32);
 v29 = rotl64(v30 ^ v29, 1);
 v30 = v36.plus(v6).plus(v29);
 v22 = rotl64(v30 ^ v22, 32);
 t39 = v30.plus(v17);
 v30 = v22.plus(v37);
 v29 = rotl64(v30 ^ v29, 40);
 v36 = t39.plus(v29);
 v22 = rotl64(v36 ^ v22, 48);
 v30 = v22.plus(v30);
 v37 = v42.plus(v30);
 v38 = rotl64(v37 ^ v38, 40);
 v45 = v45.plus(v17).plus(v38);
 t40 = v33.plus(v6);
 v33 = rotl64(v44 ^ v43, 48);
 v39 = v33.plus(v39);
 v40 = rotl64(v39 ^ v40, 1);
 v43 = t40.plus(v40);
 v22 = rotl64(v43 ^ v22, 32);
 v23 = v22.plus(v23);
 v40 = rotl64(v23 ^ v40, 40);
 v43 = v43.plus(v24).plus(v40);
 v22 = rotl64(v43 ^ v22, 48);
 v23 = v22.plus(v23);
 v40 = rotl64(v23 ^ v40, 1);
 v44 = v45.plus(v2).plus(v40);
 v29 = rotl64(v30 ^ v29, 1);
 v30 = v41.plus(v28).plus(v29);
 t41 = v30.plus(v11);
 v30 = rotl64(v30 ^ v33, 32);
 v31 = v31.plus(v32);
 v32 = v30.plus(v31);
 v29 = rotl64(v32 ^ v29, 40);
 v33 = t41.plus(v29);
 v30 = rotl64(v33 ^ v30, 48);
 v41 = rotl64(v44 ^ v30, 32);
 v13 = rotl64(v31 ^ v13, 1);
 v31 = v36.plus(v8).plus(v13);
 v21 = rotl64(v31 ^ v21, 32);
 t42 = v31.plus(v9);
 v31 = v21.plus(v39);
 v13 = rotl64(v31 ^ v13, 40);
 v36 = t42.plus(v13);
 v21 = rotl64(v36 ^ v21, 48);
 v31 = v21.plus(v31);
 v39 = v41.plus(v31);
 v40 = rotl64(v39 ^ v40, 40);
 v44 = v44.plus(v19).plus(v40);
 t43 = v33.plus(v15);
 v33 = rotl64(v45 ^ v42, 48);
 v37 = v33.plus(v37);
 v38 = rotl64(v37 ^ v38, 1);
 v42 = t43.plus(v38);
 v21 = rotl64(v42 ^ v21, 32);
 v23 = v21.plus(v23);
 v38 = rotl64(v23 ^ v38, 40);
 v42 = v42.plus(v20).plus(v38);
 v21 = rotl64(v42 ^ v21, 48);
 v23 = v21.plus(v23);
 v38 = rotl64(v23 ^ v38, 1);
 v45 = v44.plus(v8).plus(v38);
 v13 = rotl64(v31 ^ v13, 1);
 v31 = v43.plus(v1).plus(v13);
 t44 = v31.plus(v10);
 v31 = rotl64(v31 ^ v33, 32);
 v30 = v30.plus(v32);
 v32 = v31.plus(v30);
 v13 = rotl64(v32 ^ v13, 40);
 v33 = t44.plus(v13);
 v31 = rotl64(v33 ^ v31, 48);
 v43 = rotl64(v45 ^ v31, 32);
 v29 = rotl64(v30 ^ v29, 1);
 v30 = v36.plus(v25).plus(v29);
 v22 = rotl64(v30 ^ v22, 32);
 t45 = v30.plus(v18);
 v30 = v22.plus(v37);
 v29 = rotl64(v30 ^ v29, 40);
 v36 = t45.plus(v29);
 v22 = rotl64(v36 ^ v22, 48);
 v30 = v22.plus(v30);
 v37 = v43.plus(v30);
 v38 = rotl64(v37 ^ v38, 40);
 v45 = v45.plus(v28).plus(v38);
 t46 = v33.plus(v20);
 v33 = rotl64(v44 ^ v41, 48);
 v39 = v33.plus(v39);
 v40 = rotl64(v39 ^ v40, 1);
 v41 = t46.plus(v40);
 v22 = rotl64(v41 ^ v22, 32);
 v23 = v22.plus(v23);
 v40 = rotl64(v23 ^ v40, 40);
 v41 = v41.plus(v2).plus(v40);
 v22 = rotl64(v41 ^ v22, 48);
 v23 = v22.plus(v23);
 v40 = rotl64(v23 ^ v40, 1);
 v44 = v45.plus(v1).plus(v40);
 v29 = rotl64(v30 ^ v29, 1);
 v30 = v42.plus(v18).plus(v29);
 t47 = v30.plus(v12);
 v30 = rotl64(v30 ^ v33, 32);
 v31 = v31.plus(v32);
 v32 = v30.plus(v31);
 v29 = rotl64(v32 ^ v29, 40);
 v33 = t47.plus(v29);
 v30 = rotl64(v33 ^ v30, 48);
 v42 = rotl64(v44 ^ v30, 32);
 v13 = rotl64(v31 ^ v13, 1);
 v31 = v36.plus(v17).plus(v13);
 v21 = rotl64(v31 ^ v21, 32);
 t48 = v31.plus(v10);
 v31 = v21.plus(v39);
 v13 = rotl64(v31 ^ v13, 40);
 v36 = t48.plus(v13);
 v21 = rotl64(v36 ^ v21, 48);
 v31 = v21.plus(v31);
 v39 = v42.plus(v31);
 v40 = rotl64(v39 ^ v40, 40);
 v44 = v44.plus(v15).plus(v40);
 t49 = v33.plus(v11);
 v33 = rotl64(v45 ^ v43, 48);
 v37 = v33.plus(v37);
 v38 = rotl64(v37 ^ v38, 1);
 v43 = t49.plus(v38);
 v21 = rotl64(v43 ^ v21, 32);
 v23 = v21.plus(v23);
 v38 = rotl64(v23 ^ v38, 40);
 v43 = v43.plus(v6).plus(v38);
 v21 = rotl64(v43 ^ v21, 48);
 v23 = v21.plus(v23);
 v38 = rotl64(v23 ^ v38, 1);
 v45 = v44.plus(v10).plus(v38);
 v13 = rotl64(v31 ^ v13, 1);
 v31 = v41.plus(v19).plus(v13);
 t50 = v31.plus(v24);
 v31 = rotl64(v31 ^ v33, 32);
 v30 = v30.plus(v32);
 v32 = v31.plus(v30);
 v13 = rotl64(v32 ^ v13, 40);
 v33 = t50.plus(v13);
 v31 = rotl64(v33 ^ v31, 48);
 v41 = rotl64(v45 ^ v31, 32);
 v29 = rotl64(v30 ^ v29, 1);
 v30 = v36.plus(v9).plus(v29);
 v22 = rotl64(v30 ^ v22, 32);
 t51 = v30.plus(v25);
 v30 = v22.plus(v37);
 v29 = rotl64(v30 ^ v29, 40);
 v36 = t51.plus(v29);
 v22 = rotl64(v36 ^ v22, 48);
 v30 = v22.plus(v30);
 v37 = v41.plus(v30);
 v38 = rotl64(v37 ^ v38, 40);
 v45 = v45.plus(v20).plus(v38);
 t52 = v33.plus(v25);
 v33 = rotl64(v44 ^ v42, 48);
 v39 = v33.plus(v39);
 v40 = rotl64(v39 ^ v40, 1);
 v42 = t52.plus(v40);
 v22 = rotl64(v42 ^ v22, 32);
 v23 = v22.plus(v23);
 v40 = rotl64(v23 ^ v40, 40);
 v42 = v42.plus(v1).plus(v40);
 v22 = rotl64(v42 ^ v22, 48);
 v23 = v22.plus(v23);
 v40 = rotl64(v23 ^ v40, 1);
 v44 = v45.plus(v28).plus(v40);
 v29 = rotl64(v30 ^ v29, 1);
 v30 = v43.plus(v12).plus(v29);
 t53 = v30.plus(v2);
 v30 = rotl64(v30 ^ v33, 32);
 v31 = v31.plus(v32);
 v32 = v30.plus(v31);
 v29 = rotl64(v32 ^ v29, 40);
 v33 = t53.plus(v29);
 v30 = rotl64(v33 ^ v30, 48);
 v43 = rotl64(v44 ^ v30, 32);
 v13 = rotl64(v31 ^ v13, 1);
 v31 = v36.plus(v15).plus(v13);
 v21 = rotl64(v31 ^ v21, 32);
 t54 = v31.plus(v11);
 v31 = v21.plus(v39);
 v13 = rotl64(v31 ^ v13, 40);
 v36 = t54.plus(v13);
 v21 = rotl64(v36 ^ v21, 48);
 v31 = v21.plus(v31);
 v39 = v43.plus(v31);
 v40 = rotl64(v39 ^ v40, 40);
 v44 = v44.plus(v6).plus(v40);
 t55 = v33.plus(v17);
 v33 = rotl64(v45 ^ v41, 48);
 v37 = v33.plus(v37);
 v38 = rotl64(v37 ^ v38, 1);
 v41 = t55.plus(v38);
 v21 = rotl64(v41 ^ v21, 32);
 v23 = v21.plus(v23);
 v38 = rotl64(v23 ^ v38, 40);
 v41 = v41.plus(v18).plus(v38);
 v21 = rotl64(v41 ^ v21, 48);
 v23 = v21.plus(v23);
 v38 = rotl64(v23 ^ v38, 1);
 v45 = v44.plus(v18).plus(v38);
 v13 = rotl64(v31 ^ v13, 1);
 v31 = v42.plus(v24).plus(v13);
 t56 = v31.plus(v9);
 v31 = rotl64(v31 ^ v33, 32);
 v30 = v30.plus(v32);
 v32 = v31.plus(v30);
 v13 = rotl64(v32 ^ v13, 40);
 v33 = t56.plus(v13);
 v31 = rotl64(v33 ^ v31, 48);
 v42 = rotl64(v45 ^ v31, 32);
 v29 = rotl64(v30 ^ v29, 1);
 v30 = v36.plus(v8).plus(v29);
 v22 = rotl64(v30 ^ v22, 32);
 t57 = v30.plus(v19);
 v30 = v22.plus(v37);
 v29 = rotl64(v30 ^ v29, 40);
 v36 = t57.plus(v29);
 v22 = rotl64(v36 ^ v22, 48);
 v30 = v22.plus(v30);
 v37 = v42.plus(v30);
 v38 = rotl64(v37 ^ v38, 40);
 v45 = v45.plus(v15).plus(v38);
 t58 = v33.plus(v28);
 v33 = rotl64(v44 ^ v43, 48);
 v39 = v33.plus(v39);
 v40 = rotl64(v39 ^ v40, 1);
 v43 = t58.plus(v40);
 v22 = rotl64(v43 ^ v22, 32);
 v23 = v22.plus(v23);
 v40 = rotl64(v23 ^ v40, 40);
 v43 = v43.plus(v9).plus(v40);
 v22 = rotl64(v43 ^ v22, 48);
 v23 = v22.plus(v23);
 v40 = rotl64(v23 ^ v40, 1);
 v44 = v45.plus(v20).plus(v40);
 v29 = rotl64(v30 ^ v29, 1);
 v30 = v41.plus(v1).plus(v29);
 t59 = v30.plus(v6);
 v30 = rotl64(v30 ^ v33, 32);
 v31 = v31.plus(v32);
 v32 = v30.plus(v31);
 v29 = rotl64(v32 ^ v29, 40);
 v33 = t59.plus(v29);
 v30 = rotl64(v33 ^ v30, 48);
 v41 = rotl64(v44 ^ v30, 32);
 v13 = rotl64(v31 ^ v13, 1);
 v31 = v36.plus(v24).plus(v13);
 v21 = rotl64(v31 ^ v21, 32);
 t60 = v31.plus(v19);
 v31 = v21.plus(v39);
 v13 = rotl64(v31 ^ v13, 40);
 v36 = t60.plus(v13);
 v21 = rotl64(v36 ^ v21, 48);
 v31 = v21.plus(v31);
 v39 = v41.plus(v31);
 v40 = rotl64(v39 ^ v40, 40);
 v44 = v44.plus(v8).plus(v40);
 t61 = v33.plus(v2);
 v33 = rotl64(v45 ^ v42, 48);
 v37 = v33.plus(v37);
 v38 = rotl64(v37 ^ v38, 1);
 v42 = t61.plus(v38);
 v21 = rotl64(v42 ^ v21, 32);
 v23 = v21.plus(v23);
 v38 = rotl64(v23 ^ v38, 40);
 v42 = v42.plus(v12).plus(v38);
 v21 = rotl64(v42 ^ v21, 48);
 v23 = v21.plus(v23);
 v38 = rotl64(v23 ^ v38, 1);
 v45 = v44.plus(v6).plus(v38);
 v13 = rotl64(v31 ^ v13, 1);
 v31 = v43.plus(v17).plus(v13);
 t62 = v31.plus(v25);
 v31 = rotl64(v31 ^ v33, 32);
 v30 = v30.plus(v32);
 v32 = v31.plus(v30);
 v13 = rotl64(v32 ^ v13, 40);
 v33 = t62.plus(v13);
 v31 = rotl64(v33 ^ v31, 48);
 v43 = rotl64(v45 ^ v31, 32);
 v29 = rotl64(v30 ^ v29, 1);
 v30 = v36.plus(v11).plus(v29);
 v22 = rotl64(v30 ^ v22, 32);
 t63 = v30.plus(v10);
 v30 = v22.plus(v37);
 v29 = rotl64(v30 ^ v29, 40);
 v36 = t63.plus(v29);
 v22 = rotl64(v36 ^ v22, 48);
 v30 = v22.plus(v30);
 v37 = v43.plus(v30);
 v38 = rotl64(v37 ^ v38, 40);
 v45 = v45.plus(v9).plus(v38);
 t64 = v33.plus(v15);
 v33 = rotl64(v44 ^ v41, 48);
 v39 = v33.plus(v39);
 v40 = rotl64(v39 ^ v40, 1);
 v41 = t64.plus(v40);
 v22 = rotl64(v41 ^ v22, 32);
 v23 = v22.plus(v23);
 v40 = rotl64(v23 ^ v40, 40);
 v41 = v41.plus(v18).plus(v40);
 v22 = rotl64(v41 ^ v22, 48);
 v23 = v22.plus(v23);
 v40 = rotl64(v23 ^ v40, 1);
 v44 = v45.plus(v8).plus(v40);
 v29 = rotl64(v30 ^ v29, 1);
 v30 = v42.plus(v19).plus(v29);
 t65 = v30.plus(v20);
 v30 = rotl64(v30 ^ v33, 32);
 v31 = v31.plus(v32);
 v32 = v30.plus(v31);
 v29 = rotl64(v32 ^ v29, 40);
 v33 = t65.plus(v29);
 v30 = rotl64(v33 ^ v30, 48);
 v42 = rotl64(v44 ^ v30, 32);
 v13 = rotl64(v31 ^ v13, 1);
 v31 = v36.plus(v25).plus(v13);
 v21 = rotl64(v31 ^ v21, 32);
 t66 = v31.plus(v28);
 v31 = v21.plus(v39);
 v13 = rotl64(v31 ^ v13, 40);
 v36 = t66.plus(v13);
 v21 = rotl64(v36 ^ v21, 48);
 v31 = v21.plus(v31);
 v39 = v42.plus(v31);
 v40 = rotl64(v39 ^ v40, 40);
 v44 = v44.plus(v17).plus(v40);
 t67 = v33.plus(v24);
 v33 = rotl64(v45 ^ v43, 48);
 v37 = v33.plus(v37);
 v38 = rotl64(v37 ^ v38, 1);
 v43 = t67.plus(v38);
 v21 = rotl64(v43 ^ v21, 32);
 v23 = v21.plus(v23);
 v38 = rotl64(v23 ^ v38, 40);
 v43 = v43.plus(v10).plus(v38);
 v21 = rotl64(v43 ^ v21, 48);
 v23 = v21.plus(v23);
 v38 = rotl64(v23 ^ v38, 1);
 v45 = v44.plus(v2).plus(v38);
 v13 = rotl64(v31 ^ v13, 1);
 v31 = v41.plus(v12).plus(v13);
 t68 = v45.plus(v11);
 t69 = v31.plus(v11);
 v11 = rotl64(v31 ^ v33, 32);
 v30 = v30.plus(v32);
 v31 = v11.plus(v30);
 v13 = rotl64(v31 ^ v13, 40);
 v32 = t69.plus(v13);
 v11 = rotl64(v32 ^ v11, 48);
 v33 = rotl64(v45 ^ v11, 32);
 v29 = rotl64(v30 ^ v29, 1);
 v30 = v36.plus(v1).plus(v29);
 t70 = v30.plus(v2);
 v2 = rotl64(v30 ^ v22, 32);
 v22 = v2.plus(v37);
 v29 = rotl64(v22 ^ v29, 40);
 v30 = t70.plus(v29);
 v2 = rotl64(v30 ^ v2, 48);
 v22 = v2.plus(v22);
 v36 = v33.plus(v22);
 v37 = rotl64(v36 ^ v38, 40);
 v38 = t68.plus(v37);
 t71 = v32.plus(v17);
 v17 = rotl64(v44 ^ v42, 48);
 t72 = v38.plus(v10);
 v10 = v17.plus(v39);
 v32 = rotl64(v10 ^ v40, 1);
 v39 = t71.plus(v32);
 t73 = v39.plus(v15);
 v15 = rotl64(v39 ^ v2, 32);
 v2 = v15.plus(v23);
 v23 = rotl64(v2 ^ v32, 40);
 v32 = t73.plus(v23);
 v15 = rotl64(v32 ^ v15, 48);
 v2 = v15.plus(v2);
 v23 = rotl64(v2 ^ v23, 1);
 v39 = t72.plus(v23);
 t74 = v43.plus(v6);
 v6 = rotl64(v22 ^ v29, 1);
 t75 = v39.plus(v18);
 v18 = t74.plus(v6);
 t76 = v18.plus(v1);
 v1 = rotl64(v18 ^ v17, 32);
 v18 = v11.plus(v31);
 v17 = v1.plus(v18);
 v6 = rotl64(v17 ^ v6, 40);
 v11 = t76.plus(v6);
 v1 = rotl64(v11 ^ v1, 48);
 v22 = rotl64(v39 ^ v1, 32);
 v18 = rotl64(v18 ^ v13, 1);
 v12 = v30.plus(v12).plus(v18);
 t77 = v12.plus(v24);
 v24 = rotl64(v12 ^ v21, 32);
 v10 = v24.plus(v10);
 v18 = rotl64(v10 ^ v18, 40);
 v12 = t77.plus(v18);
 v24 = rotl64(v12 ^ v24, 48);
 v10 = v24.plus(v10);
 v13 = v22.plus(v10);
 v21 = rotl64(v13 ^ v23, 40);
 v23 = t75.plus(v21);
 v1 = v1.plus(v17);
 v6 = rotl64(v1 ^ v6, 1);
 v17 = v12.plus(v28).plus(v6);
 t78 = v17.plus(v8);
 v8 = rotl64(v17 ^ v15, 32);
 v15 = rotl64(v38 ^ v33, 48);
 v17 = v15.plus(v36);
 v28 = v8.plus(v17);
 v6 = rotl64(v28 ^ v6, 40);
 v12 = t78.plus(v6);
 v8 = rotl64(v12 ^ v8, 48);
 v28 = v8.plus(v28);
 store64(v0 + 16, v23 ^ v28 ^ v5);
 v17 = rotl64(v17 ^ v37, 1);
 v25 = v11.plus(v25).plus(v17);
 t79 = v19.plus(v25);
 v19 = rotl64(v25 ^ v24, 32);
 v25 = v19.plus(v2);
 v17 = rotl64(v25 ^ v17, 40);
 v2 = t79.plus(v17);
 t80 = v32.plus(v9);
 v9 = rotl64(v10 ^ v18, 1);
 v18 = t80.plus(v9);
 v15 = rotl64(v18 ^ v15, 32);
 v1 = v15.plus(v1);
 v9 = rotl64(v1 ^ v9, 40);
 v18 = v20.plus(v18).plus(v9);
 v15 = rotl64(v18 ^ v15, 48);
 v1 = v15.plus(v1);
 store64(v0 + 8, v26 ^ (v2 ^ v1));
 v19 = rotl64(v2 ^ v19, 48);
 v20 = v19.plus(v25);
 store64(v0 + 24, v14 ^ (v18 ^ v20));
 v18 = rotl64(v23 ^ v22, 48);
 v25 = v18.plus(v13);
 store64(v0, v34 ^ (v12 ^ v25));
 store64(v0 + 40, v27 ^ (v18 ^ rotl64(v28 ^ v6, 1)));
 store64(v0 + 32, v35 ^ (v19 ^ rotl64(v1 ^ v9, 1)));
 store64(v0 + 56, v16 ^ (v8 ^ rotl64(v25 ^ v21, 1)));
 store64(v0 + 48, v7 ^ (v15 ^ rotl64(v20 ^ v17, 1)));
 return;
}

// blake2_compress::whole::blake2b::absorb_keyed
#[inline(never)]
unsafe fn compress_whole_blake2b_absorb_keyed(mut v0: u64, mut v1: u64, mut v2: u64, mut v3: u64,
        mut v4: u64) {
 let mut v5: u64;
 let mut v6: u64;
 let mut frame = [0_u64; 34];
 let top = (address!(frame)).plus(272) & !15;
 v5 = top.minus(256);
 'l1: loop {
 v6 = v5;
 fill(v6, 0, 128);
 'l3: loop {
 if v2 == 0 { break 'l3; }
 copy(v6, v1, v2);
 break 'l3; }
 'l4: loop {
 if !(v4 == 0) { break 'l4; }
 compress_compress_blake2b_compress(v0, v6, 128, 1, 0);
 break 'l1;
 }
 compress_compress_blake2b_compress(v0, v6, 128, 0, 0);
 'l5: loop {
 v1 = v4.minus(1);
 v5 = v1 >> 7;
 if v5 == 0 { break 'l5; }
 v2 = 256;
 'l6: loop {
 compress_compress_blake2b_compress(v0, v3.plus(v2).minus(256), v2, 0, 0);
 v2 = v2.plus(128);
 v5 = v5.minus(1);
 if v5 != 0 { continue 'l6; }
 break 'l6; }
 break 'l5; }
 fill(v6.plus(128), 0, 128);
 'l7: loop {
 v2 = v1 & 0xffffffffffffff80;
 v5 = v4.minus(v2);
 if v5 == 0 { break 'l7; }
 copy(v6.plus(128), v3.plus(v2), v5);
 break 'l7; }
 compress_compress_blake2b_compress(v0, v6.plus(128), v4.plus(128), 1, 0);
 break 'l1;
 }
}

// blake2_ffi::blake2b::write_digest
#[inline(never)]
unsafe fn ffi_blake2b_write_digest(mut v0: u64, mut v1: u64, mut v2: u64, mut v3: u64, mut v4: u64)
        {
 let mut v5: u64;
 let mut v6: u64;
 let mut v7: u64;
 let mut v8: u32;
 let mut frame = [0_u64; 34];
 let top = (address!(frame)).plus(272) & !15;
 v5 = top.minus(256);
 v6 = load64(v4.plus(16));
 v7 = load64(v4.plus(8));
 fill(v5, 0, 64);
 v8 = load8(v4);
 store64(v5 + 120, 0x5be0cd19137e2179);
 store64(v5 + 112, 0x1f83d9abfb41bd6b);
 store64(v5 + 104, 0x9b05688c2b3e6c1f);
 store64(v5 + 96, 0x510e527fade682d1);
 store64(v5 + 88, 0xa54ff53a5f1d36f1);
 store64(v5 + 80, 0x3c6ef372fe94f82b);
 store64(v5 + 72, 0xbb67ae8584caa73b);
 store64(v5 + 64, (((if v8 != 0 { ((((v6 as u32) << 8) & 0xff00) | 0x1010000) } else { 0x1010000 })
   | ((v1 as u32) & 255)) as u64) ^ 0x6a09e667f3bcc908);
 'l2: loop {
 'l3: loop {
 if v8 != 0 { break 'l3; }
 'l4: loop {
 v7 = v3.minus(((v3 != 0) as u32) as u64);
 v6 = v7 >> 7;
 if v6 == 0 { break 'l4; }
 v4 = 128;
 'l5: loop {
 compress_compress_blake2b_compress(v5.plus(64), v2.plus(v4).minus(128), v4, 0, 0);
 v4 = v4.plus(128);
 v6 = v6.minus(1);
 if v6 != 0 { continue 'l5; }
 break 'l5; }
 break 'l4; }
 fill(v5.plus(128), 0, 128);
 'l6: loop {
 v4 = v7 & 0xffffffffffffff80;
 v6 = v3.minus(v4);
 if v6 == 0 { break 'l6; }
 copy(v5.plus(128), v2.plus(v4), v6);
 break 'l6; }
 compress_compress_blake2b_compress(v5.plus(64), v5.plus(128), v3, 1, 0);
 break 'l2;
 }
 compress_whole_blake2b_absorb_keyed(v5.plus(64), v7, v6, v2, v3);
 break 'l2; }
 store64(v5 + 56, load64(v5 + 120));
 store64(v5 + 48, load64(v5 + 112));
 store64(v5 + 40, load64(v5 + 104));
 store64(v5 + 32, load64(v5 + 96));
 store64(v5 + 24, load64(v5 + 88));
 store64(v5 + 16, load64(v5 + 80));
 store64(v5 + 8, load64(v5 + 72));
 store64(v5, load64(v5 + 64));
 'l7: loop {
 if v1 == 0 { break 'l7; }
 copy(v0, v5, v1);
 break 'l7; }
 return;
}

// blake2_ffi::blake2b::write_keyed
#[inline(never)]
unsafe fn ffi_blake2b_write_keyed(mut v0: u64, mut v1: u64, mut v2: u64, mut v3: u64, mut v4: u64,
        mut v5: u64) -> u32 {
 let mut v6: u64;
 let mut v7: u32;
 let mut frame = [0_u64; 6];
 let top = (address!(frame)).plus(48) & !15;
 v6 = top.minus(32);
 v7 = 0xffffffff;
 'l2: loop {
 if v3 > 0xffffffffffffff7f { break 'l2; }
 if v1.minus(65) < 0xffffffffffffffc0 { break 'l2; }
 if v5 >= 65 { break 'l2; }
 store64(v6 + 24, v5);
 store64(v6 + 16, v4);
 store64(v6 + 8, 1);
 ffi_blake2b_write_digest(v0, v1, v2, v3, v6.plus(8));
 v7 = 0;
 break 'l2; }
 return v7;
}

// Overwrites the stack below the caller.
#[inline(never)]
unsafe fn digest_wiping_scrub_stack_1536() {
    let mut room = [0_u64; 448];
    for word in room.iter_mut() {
        core::ptr::write_volatile(word, 0);
    }
}

// rattle::export vulfsjor_ffi_blake2b
#[inline(never)]
unsafe fn exported_blake2b(mut v0: u64, mut v1: u64, mut v2: u64, mut v3: u64, mut v4: u64, mut v5:
        u64) -> u32 {
 let mut v6: u64;
 let mut v7: u64;
 let mut v8: u64;
 let mut v9: u32;
 let mut frame = [0_u64; 30];
 let top = (address!(frame)).plus(240) & !15;
 v6 = top.minus(224);
 'l1: loop {
 'l2: loop {
 v7 = v2.plus(if v2 == 0 { 4096_u64 } else { 0 });
 v8 = v0.plus(if v0 == 0 { 4096_u64 } else { 0 });
 fill(v6 + 16, 0, 16);
 'l4: loop {
 if v5 == 0 { break 'l4; }
 v9 = ffi_blake2b_write_keyed(v8, v1, v7, v3, v4.plus(if v4 == 0 { 4096_u64 } else { 0 }), v5);
 digest_wiping_scrub_stack_1536();
 break 'l1;
 }
 v9 = 0xffffffff;
 if v1.minus(1) > 63 { break 'l1; }
 if v1 != 64 { break 'l2; }
 store64(v6 + 88, 0x5be0cd19137e2179);
 store64(v6 + 80, 0x1f83d9abfb41bd6b);
 store64(v6 + 72, 0x9b05688c2b3e6c1f);
 store64(v6 + 64, 0x510e527fade682d1);
 store64(v6 + 56, 0xa54ff53a5f1d36f1);
 store64(v6 + 48, 0x3c6ef372fe94f82b);
 store64(v6 + 40, 0xbb67ae8584caa73b);
 store64(v6 + 32, 0x6a09e667f2bdc948);
 'l5: loop {
 v5 = v3.minus(((v3 != 0) as u32) as u64);
 v0 = v5 >> 7;
 if v0 == 0 { break 'l5; }
 v2 = 128;
 'l6: loop {
 compress_compress_blake2b_compress(v6.plus(32), v7.plus(v2).minus(128), v2, 0, 0);
 v2 = v2.plus(128);
 v0 = v0.minus(1);
 if v0 != 0 { continue 'l6; }
 break 'l6; }
 break 'l5; }
 v9 = 0;
 fill(v6.plus(96), 0, 128);
 'l7: loop {
 v2 = v5 & 0xffffffffffffff80;
 v0 = v3.minus(v2);
 if v0 == 0 { break 'l7; }
 copy(v6.plus(96), v7.plus(v2), v0);
 break 'l7; }
 compress_compress_blake2b_compress(v6.plus(32), v6.plus(96), v3, 1, 0);
 v2 = load64(v6 + 32);
 v0 = load64(v6 + 40);
 v7 = load64(v6 + 48);
 v5 = load64(v6 + 56);
 v1 = load64(v6 + 64);
 v4 = load64(v6 + 72);
 v3 = load64(v6 + 80);
 store64(v8 + 56, load64(v6 + 88));
 store64(v8 + 48, v3);
 store64(v8 + 40, v4);
 store64(v8 + 32, v1);
 store64(v8 + 24, v5);
 store64(v8 + 16, v7);
 store64(v8 + 8, v0);
 store64(v8, v2);
 break 'l1;
 }
 store64(v6 + 8, 0);
 ffi_blake2b_write_digest(v8, v1, v7, v3, v6.plus(8));
 v9 = 0;
 break 'l1; }
 return v9;
}

// __multi3
#[inline(never)]
unsafe fn multi3(mut v0: u64, mut v1: u64, mut v2: u64, mut v3: u64, mut v4: u64) {
 let mut v5: u64;
 let mut v6: u64;
 let mut t0: u64;
 v5 = v3 >> 32;
 v6 = v1 >> 32;
 t0 = v5.times(v6).plus(v2.times(v3)).plus(v4.times(v1));
 v3 &= 0xffffffff;
 v1 &= 0xffffffff;
 v2 = v3.times(v1);
 v3 = (v2 >> 32).plus(v3.times(v6));
 v1 = (v3 & 0xffffffff).plus(v5.times(v1));
 store64(v0 + 8, t0.plus(v3 >> 32).plus(v1 >> 32));
 store64(v0, (v1 << 32) | (v2 & 0xffffffff));
}

// Overwrites the stack below the caller.
#[inline(never)]
unsafe fn digest_wiping_scrub_stack_9216() {
    let mut room = [0_u64; 1408];
    for word in room.iter_mut() {
        core::ptr::write_volatile(word, 0);
    }
}

// blake2_state::blake2b::State::write_digest
#[inline(never)]
unsafe fn state_blake2b_State_write_digest(mut v0: u64, mut v1: u64) {
 let mut v2: u64;
 let mut v3: u64;
 let mut frame = [0_u64; 34];
 let top = (address!(frame)).plus(272) & !15;
 v2 = top.minus(256);
 fill(v2, 0, 64);
 store64(v2 + 120, load64(v0 + 56));
 store64(v2 + 112, load64(v0 + 48));
 store64(v2 + 104, load64(v0 + 40));
 store64(v2 + 96, load64(v0 + 32));
 store64(v2 + 88, load64(v0 + 24));
 store64(v2 + 80, load64(v0 + 16));
 store64(v2 + 72, load64(v0 + 8));
 store64(v2 + 64, load64(v0));
 v3 = load32(v0.plus(136)) as u64;
 fill(v2.plus(128), 0, 128);
 'l2: loop {
 if v3 == 0 { break 'l2; }
 copy(v2.plus(128), v0.plus(152), v3);
 break 'l2; }
 compress_compress_blake2b_compress(v2.plus(64), v2.plus(128), load64(v0.plus(128)).plus(v3), 1,
   (load32(v0.plus(148)) != 0) as u32);
 store64(v2 + 56, load64(v2 + 120));
 store64(v2 + 48, load64(v2 + 112));
 store64(v2 + 40, load64(v2 + 104));
 store64(v2 + 32, load64(v2 + 96));
 store64(v2 + 24, load64(v2 + 88));
 store64(v2 + 16, load64(v2 + 80));
 store64(v2 + 8, load64(v2 + 72));
 store64(v2, load64(v2 + 64));
 'l3: loop {
 v0 = load32(v0.plus(144)) as u64;
 if v0 == 0 { break 'l3; }
 copy(v1, v2, v0);
 break 'l3; }
 return;
}

// blake2_digest::buffer::digest_into::<#33c1e97afcdf8a5d>
#[inline(never)]
unsafe fn digest_buffer_digest_into_33c1e97afcdf8a5d(mut v0: u64, mut v1: u64, mut v2: u64, mut v3:
        u64, mut v4: u64) -> u64 {
 let mut v6: u64;
 let mut v7: u64;
 let mut v8: u64;
 let mut v9: u64;
 let mut v10: u64;
 let mut v11: u64;
 let mut v12: u64;
 let mut t0: u64;
 let mut t1: u64;
 'l1: loop {
 'l2: loop {
 'l3: loop {
 'l5: loop {
 'l6: loop {
 'l7: loop {
 'l8: loop {
 v6 = 128_u64.minus(v1);
 if v3 <= v6 { break 'l8; }
 if v1 == 0 { break 'l5; }
 v7 = v0.plus(v1);
 if v7.minus(v2) >= v6 { break 'l7; }
 v8 = v6 & 3;
 v9 = 0;
 'l9: loop {
 if v1.minus(125) < 3 { break 'l9; }
 v10 = v6 & 0xfffffffffffffffc;
 v9 = 0;
 'l10: loop {
 v11 = v7.plus(v9);
 v12 = v2.plus(v9);
 store8(v11, load8(v12) as u64);
 store8(v11.plus(1), load8(v12.plus(1)) as u64);
 store8(v11.plus(2), load8(v12.plus(2)) as u64);
 store8(v11.plus(3), load8(v12.plus(3)) as u64);
 v9 = v9.plus(4);
 if v10 != v9 { continue 'l10; }
 break 'l10; }
 if v8 == 0 { break 'l6; }
 break 'l9; }
 v11 = v2.plus(v9);
 v9 = v0.plus(v9.plus(v1));
 'l11: loop {
 store8(v9, load8(v11) as u64);
 v9 = v9.plus(1);
 v11 = v11.plus(1);
 v8 = v8.minus(1);
 if v8 != 0 { continue 'l11; }
 break 'l6;
 }
 }
 'l12: loop {
 'l13: loop {
 v8 = v0.plus(v1);
 if v8.minus(v2) >= v3 { break 'l13; }
 v12 = v3 & 3;
 v4 = 0;
 'l14: loop {
 if v3 < 4 { break 'l14; }
 v7 = v3 & 0xfffffffffffffffc;
 v4 = 0;
 'l15: loop {
 v11 = v8.plus(v4);
 v9 = v2.plus(v4);
 store8(v11, load8(v9) as u64);
 store8(v11.plus(1), load8(v9.plus(1)) as u64);
 store8(v11.plus(2), load8(v9.plus(2)) as u64);
 store8(v11.plus(3), load8(v9.plus(3)) as u64);
 v4 = v4.plus(4);
 if v7 != v4 { continue 'l15; }
 break 'l15; }
 if v12 == 0 { break 'l12; }
 break 'l14; }
 v11 = v2.plus(v4);
 v4 = v0.plus(v4.plus(v1));
 'l16: loop {
 store8(v4, load8(v11) as u64);
 v4 = v4.plus(1);
 v11 = v11.plus(1);
 v12 = v12.minus(1);
 if v12 != 0 { continue 'l16; }
 break 'l12;
 }
 }
 if v3 == 0 { break 'l12; }
 copy(v8, v2, v3);
 break 'l12; }
 return v3.plus(v1);
 }
 if v6 == 0 { break 'l6; }
 copy(v7, v2, v6);
 break 'l6; }
 v3 = v3.minus(v6);
 v2 = v2.plus(v6);
 v11 = v4.plus(128);
 t0 = v11;
 v11 = load64(v11).plus(128);
 store64(t0, v11);
 compress_compress_blake2b_compress(v4, v0, v11, 0, 0);
 break 'l5; }
 v11 = v3.minus(((v3 != 0) as u32) as u64);
 v1 = v11 & 0xffffffffffffff80;
 'l17: loop {
 v9 = v11 >> 7;
 if v9 == 0 { break 'l17; }
 v11 = v2;
 'l18: loop {
 v12 = v4.plus(128);
 t1 = v12;
 v12 = load64(v12).plus(128);
 store64(t1, v12);
 compress_compress_blake2b_compress(v4, v11, v12, 0, 0);
 v11 = v11.plus(128);
 v9 = v9.minus(1);
 if v9 != 0 { continue 'l18; }
 break 'l18; }
 break 'l17; }
 fill(v0, 0, 128);
 'l19: loop {
 v8 = v2.plus(v1);
 v7 = v3.minus(v1);
 if v0.minus(v8) >= v7 { break 'l19; }
 v12 = v3 & 3;
 v4 = 0;
 if v1.minus(v3) > 0xfffffffffffffffc { break 'l2; }
 v3 = (v3 & 0xfffffffffffffffc).minus(v1);
 v4 = 0;
 'l20: loop {
 v11 = v0.plus(v4);
 v9 = v8.plus(v4);
 store8(v11, load8(v9) as u64);
 store8(v11.plus(1), load8(v9.plus(1)) as u64);
 store8(v11.plus(2), load8(v9.plus(2)) as u64);
 store8(v11.plus(3), load8(v9.plus(3)) as u64);
 v4 = v4.plus(4);
 if v3 != v4 { continue 'l20; }
 break 'l3;
 }
 }
 if v7 == 0 { break 'l1; }
 copy(v0, v8, v7);
 return v7;
 }
 if v12 == 0 { break 'l1; }
 break 'l2; }
 v11 = v0.plus(v4);
 v4 = v2.plus(v4.plus(v1));
 'l21: loop {
 store8(v11, load8(v4) as u64);
 v11 = v11.plus(1);
 v4 = v4.plus(1);
 v12 = v12.minus(1);
 if v12 != 0 { continue 'l21; }
 break 'l21; }
 break 'l1; }
 return v7;
}

// blake2_state::blake2b::State::absorb_blocks
#[inline(never)]
unsafe fn state_blake2b_State_absorb_blocks(mut v0: u64, mut v1: u64, mut v2: u64) {
 let mut v3: u64;
 let mut v4: u64;
 let mut v5: u32;
 let mut v6: u64;
 let mut v7: u64;
 let mut v8: u64;
 let mut v9: u64;
 let mut v10: u64;
 let mut v11: u64;
 let mut v12: u64;
 let mut v13: u64;
 let mut v14: u64;
 let mut v15: u64;
 let mut v16: u64;
 let mut v17: u64;
 let mut v18: u64;
 let mut v19: u64;
 let mut v20: u64;
 let mut v21: u64;
 let mut v22: u64;
 let mut v23: u64;
 let mut t0: u64;
 let mut frame = [0_u64; 20];
 let top = (address!(frame)).plus(160) & !15;
 v3 = top.minus(144);
 v4 = v3;
 'l2: loop {
 'l3: loop {
 v3 = v0.plus(136);
 v5 = load32(v3);
 v6 = v5 as u64;
 if v2 > 128_u64.minus(v6) { break 'l3; }
 'l4: loop {
 'l5: loop {
 v7 = v0.plus(v6);
 v3 = v7.plus(152);
 if v3.minus(v1) >= v2 { break 'l5; }
 v8 = v2 & 3;
 v9 = 0;
 'l6: loop {
 if v2 < 4 { break 'l6; }
 v10 = v2 & 0xfffffffffffffffc;
 v9 = 0;
 'l7: loop {
 v3 = v7.plus(v9);
 v11 = v1.plus(v9);
 store8(v3.plus(152), load8(v11) as u64);
 store8(v3.plus(153), load8(v11.plus(1)) as u64);
 store8(v3.plus(154), load8(v11.plus(2)) as u64);
 store8(v3.plus(155), load8(v11.plus(3)) as u64);
 v9 = v9.plus(4);
 if v10 != v9 { continue 'l7; }
 break 'l7; }
 if v8 == 0 { break 'l4; }
 break 'l6; }
 v3 = v1.plus(v9);
 v9 = v9.plus(v6).plus(v0).plus(152);
 'l8: loop {
 store8(v9, load8(v3) as u64);
 v9 = v9.plus(1);
 v3 = v3.plus(1);
 v8 = v8.minus(1);
 if v8 != 0 { continue 'l8; }
 break 'l4;
 }
 }
 if v2 == 0 { break 'l4; }
 copy(v3, v1, v2);
 break 'l4; }
 store32(v0.plus(136), v5.plus(v2 as u32) as u64);
 break 'l2;
 }
 v5 = load32(v0.plus(148));
 v9 = v0.plus(128);
 v11 = load64(v9);
 v8 = load64(v0.plus(64));
 v7 = load64(v0.plus(72));
 v10 = load64(v0.plus(80));
 v12 = load64(v0.plus(88));
 v13 = load64(v0.plus(96));
 v14 = load64(v0.plus(104));
 v15 = load64(v0.plus(112));
 v16 = load64(v0);
 v17 = load64(v0 + 8);
 v18 = load64(v0 + 16);
 v19 = load64(v0 + 24);
 v20 = load64(v0 + 32);
 v21 = load64(v0 + 40);
 v22 = load64(v0 + 48);
 v23 = load64(v0 + 56);
 store64(v4 + 120, load64(v0.plus(120)));
 store64(v4 + 112, v15);
 store64(v4 + 104, v14);
 store64(v4 + 96, v13);
 store64(v4 + 88, v12);
 store64(v4 + 80, v10);
 store64(v4 + 72, v7);
 store64(v4 + 64, v8);
 store64(v4 + 56, v23);
 store64(v4 + 48, v22);
 store64(v4 + 40, v21);
 store64(v4 + 32, v20);
 store64(v4 + 24, v19);
 store64(v4 + 16, v18);
 store64(v4 + 8, v17);
 store64(v4, v16);
 store64(v4 + 128, v11);
 store64(v4 + 136, ((v5 != 0) as u32) as u64);
 t0 = digest_buffer_digest_into_33c1e97afcdf8a5d(v0.plus(152), v6, v1, v2, v4);
 store32(v3, t0);
 store64(v0 + 56, load64(v4 + 56));
 store64(v0 + 48, load64(v4 + 48));
 store64(v0 + 40, load64(v4 + 40));
 store64(v0 + 32, load64(v4 + 32));
 store64(v0 + 24, load64(v4 + 24));
 store64(v0 + 16, load64(v4 + 16));
 store64(v0 + 8, load64(v4 + 8));
 store64(v0, load64(v4));
 store64(v9, load64(v4 + 128));
 break 'l2; }
 return;
}

// blake2_ffi::blake2b::many::write_all
#[inline(never)]
unsafe fn ffi_blake2b_many_write_all(mut v0: u64, mut v1: u64, mut v2: u64, mut v3: u64, mut v4:
        u64) {
 let mut v5: u64;
 let mut v7: u64;
 let mut v8: u64;
 let mut v9: u64;
 let mut v10: u64;
 let mut v11: u64;
 let mut v12: u64;
 let mut v13: u64;
 let mut v14: u64;
 let mut v15: u64;
 let mut v16: u64;
 let mut v17: u64;
 let mut v18: u64;
 let mut v19: u64;
 let mut v20: u64;
 let mut v21: u32;
 let mut v22: u32;
 let mut v23: u64;
 let mut v24: u64;
 let mut frame = [0_u64; 74];
 let top = (address!(frame)).plus(592) & !15;
 let _ = v1;
 v5 = top;
 v5 = v5.minus(544) & 0xffffffffffffffe0;
 'l2: loop {
 if v4 == 0 { break 'l2; }
 v7 = v5.plus(352) | 16;
 v8 = v5.plus(480);
 v9 = v5.plus(288);
 v10 = v5.plus(160);
 v11 = 0;
 'l3: loop {
 'l4: loop {
 v12 = load64(v2);
 if v12.minus(1) > 63 { break 'l4; }
 v13 = load64(v2.plus(16));
 if v13 > 64 { break 'l4; }
 v14 = load64(v2.plus(32));
 if v14 > 16 { break 'l4; }
 v15 = load64(v2.plus(48));
 if v15 > 16 { break 'l4; }
 v16 = v12.times(v11);
 v17 = load64(v3.plus(8));
 v18 = load64(v3);
 v19 = load64(v2.plus(40));
 v20 = load64(v2.plus(24));
 'l5: loop {
 'l6: loop {
 if v13 != 0 { break 'l6; }
 fill(v5 + 352, 0, 32);
 'l7: loop {
 if v14 == 0 { break 'l7; }
 copy(v5.plus(352), v20, v14);
 break 'l7; }
 'l8: loop {
 if v15 == 0 { break 'l8; }
 copy(v7, v19, v15);
 break 'l8; }
 v20 = load64(v5 + 352);
 v19 = load64(v5 + 360);
 v15 = load64(v5 + 368);
 v14 = load64(v5 + 376);
 v21 = 0;
 fill(v5.plus(416), 0, 128);
 fill(v5 + 352, 0, 64);
 v22 = v12 as u32;
 v12 = ((v22 | 0x1010000) as u64) ^ 0x6a09e667f3bcc908;
 v14 ^= 0x5be0cd19137e2179;
 v15 ^= 0x1f83d9abfb41bd6b;
 v19 ^= 0x9b05688c2b3e6c1f;
 v20 ^= 0x510e527fade682d1;
 break 'l5;
 }
 v23 = load64(v2.plus(8));
 fill(v5 + 352, 0, 32);
 'l9: loop {
 if v14 == 0 { break 'l9; }
 copy(v5.plus(352), v20, v14);
 break 'l9; }
 'l10: loop {
 if v15 == 0 { break 'l10; }
 copy(v7, v19, v15);
 break 'l10; }
 v20 = load64(v5 + 352);
 v19 = load64(v5 + 360);
 v15 = load64(v5 + 368);
 v14 = load64(v5 + 376);
 'l11: loop {
 v24 = if v13 > 63 { 0 } else { 64_u64.minus(v13) };
 if v24 == 0 { break 'l11; }
 fill(v5.plus(352).plus(v13), 0, v24);
 break 'l11; }
 'l12: loop {
 if v13 == 0 { break 'l12; }
 copy(v5.plus(352), v23, v13);
 break 'l12; }
 fill(v8, 0, 64);
 store64(v5 + 416, load64(v5 + 352));
 store64(v5 + 424, load64(v5 + 360));
 store64(v5 + 432, load64(v5 + 368));
 store64(v5 + 440, load64(v5 + 376));
 store64(v5 + 448, load64(v5 + 384));
 store64(v5 + 456, load64(v5 + 392));
 store64(v5 + 464, load64(v5 + 400));
 store64(v5 + 472, load64(v5 + 408));
 v22 = v12 as u32;
 v12 = ((((v13 as u32) << 8) | v22 | 0x1010000) as u64) ^ 0x6a09e667f3bcc908;
 v14 ^= 0x5be0cd19137e2179;
 v15 ^= 0x1f83d9abfb41bd6b;
 v19 ^= 0x9b05688c2b3e6c1f;
 v20 ^= 0x510e527fade682d1;
 v21 = 128;
 break 'l5; }
 v16 = v0.plus(v16);
 store32(v5 + 156, 0);
 store32(v5 + 152, v22 as u64);
 store32(v5 + 148, v21 as u64);
 store32(v5 + 144, v21 as u64);
 store64(v5 + 136, 0);
 store64(v5 + 128, v14);
 store64(v5 + 120, v15);
 store64(v5 + 112, v19);
 store64(v5 + 104, v20);
 store64(v5 + 96, 0xa54ff53a5f1d36f1);
 store64(v5 + 88, 0x3c6ef372fe94f82b);
 store64(v5 + 80, 0xbb67ae8584caa73b);
 store64(v5 + 72, v12);
 store64(v5 + 64, v14);
 store64(v5 + 56, v15);
 store64(v5 + 48, v19);
 store64(v5 + 40, v20);
 store64(v5 + 32, 0xa54ff53a5f1d36f1);
 store64(v5 + 24, 0x3c6ef372fe94f82b);
 store64(v5 + 16, 0xbb67ae8584caa73b);
 store64(v5 + 8, v12);
 copy(v10, v5.plus(416), 128);
 store64(v9 + 56, load64(v5 + 408));
 store64(v9 + 48, load64(v5 + 400));
 store64(v9 + 40, load64(v5 + 392));
 store64(v9 + 32, load64(v5 + 384));
 store64(v9 + 24, load64(v5 + 376));
 store64(v9 + 16, load64(v5 + 368));
 store64(v9 + 8, load64(v5 + 360));
 store64(v9, load64(v5 + 352));
 'l13: loop {
 'l14: loop {
 if v17 == 1 { break 'l14; }
 state_blake2b_State_absorb_blocks(v5.plus(8), v18, v17);
 break 'l13;
 }
 'l15: loop {
 if v13 == 0 { break 'l15; }
 state_blake2b_State_absorb_blocks(v5.plus(8), v18, 1);
 break 'l13;
 }
 store8(v10.plus(v21 as u64), load8(v18) as u64);
 store32(v5 + 144, (v21 | 1) as u64);
 break 'l13; }
 state_blake2b_State_write_digest(v5.plus(8), v16);
 break 'l4; }
 v3 = v3.plus(16);
 v11 = v11.plus(1);
 if v4 != v11 { continue 'l3; }
 break 'l3; }
 break 'l2; }
 return;
}

// rattle::export vulfsjor_ffi_blake2b_many
#[inline(never)]
unsafe fn exported_blake2b_many(mut v0: u64, mut v1: u64, mut v2: u64, mut v3: u64, mut v4: u64, mut
        v5: u64, mut v6: u64, mut v7: u64, mut v8: u64, mut v9: u64, mut v10: u64) -> u32 {
 let mut v11: u64;
 let mut v12: u32;
 let mut frame = [0_u64; 12];
 let top = (address!(frame)).plus(96) & !15;
 v11 = top.minus(80);
 'l1: loop {
 'l2: loop {
 'l3: loop {
 store64(v11 + 72, v10);
 store64(v11 + 56, v8);
 store64(v11 + 40, v6);
 store64(v11 + 64, v9.plus(if v9 == 0 { 4096_u64 } else { 0 }));
 store64(v11 + 48, v7.plus(if v7 == 0 { 4096_u64 } else { 0 }));
 store64(v11 + 32, v5.plus(if v5 == 0 { 4096_u64 } else { 0 }));
 store64(v11 + 24, v2);
 v12 = 0xffffffff;
 if v2.minus(1) > 63 { break 'l1; }
 if v6 > 64 { break 'l1; }
 if v8 > 16 { break 'l1; }
 if v10 > 16 { break 'l1; }
 multi3(v11, v4, 0, v2, 0);
 if ((load64(v11) ^ v1) | load64(v11 + 8)) != 0 { break 'l1; }
 v7 = v3.plus(if v3 == 0 { 4096_u64 } else { 0 });
 v5 = v0.plus(if v0 == 0 { 4096_u64 } else { 0 });
 if v6 == 0 { break 'l3; }
 v2 = v7.plus(8);
 v6 = 0xffffffffffffffff;
 'l5: loop {
 'l6: loop {
 v6 = v6.plus(1);
 if v4 == v6 { break 'l5; }
 v9 = load64(v2);
 v2 = v2.plus(16);
 if v9 <= 0xffffffffffffff7f { continue 'l6; }
 break 'l1;
 }
 }
 ffi_blake2b_many_write_all(v5, v1, v11.plus(24), v7, v4);
 digest_wiping_scrub_stack_9216();
 break 'l2;
 }
 ffi_blake2b_many_write_all(v5, v1, v11.plus(24), v7, v4);
 break 'l2; }
 v12 = 0;
 break 'l1; }
 return v12;
}

// blake2_ffi::blake2b::initialize
#[inline(never)]
unsafe fn ffi_blake2b_initialize(mut v0: u64, mut v1: u64, mut v2: u64) -> u32 {
 let mut v3: u64;
 let mut v5: u64;
 let mut v6: u64;
 let mut v7: u64;
 let mut v8: u64;
 let mut v9: u32;
 let mut v10: u32;
 let mut v11: u64;
 let mut v12: u64;
 let mut v13: u32;
 let mut v14: u32;
 let mut v15: u32;
 let mut v16: u32;
 let mut v17: u32;
 let mut v18: u32;
 let mut v19: u32;
 let mut v20: u32;
 let mut v21: u32;
 let mut t0: u32;
 let mut t1: u32;
 let mut frame = [0_u64; 58];
 let top = (address!(frame)).plus(464) & !15;
 v3 = top;
 v3 = v3.minus(416) & 0xffffffffffffffe0;
 'l2: loop {
 v5 = load64(v1);
 if v5.minus(1) > 63 { break 'l2; }
 v6 = load64(v1.plus(16));
 if v6 > 64 { break 'l2; }
 v7 = load64(v1.plus(32));
 if v7 > 16 { break 'l2; }
 v8 = load64(v1.plus(48));
 if v8 > 16 { break 'l2; }
 v9 = load8(v2 + 1);
 if v9 == 0 { break 'l2; }
 v10 = load8(v2 + 17);
 if (v10 & 255) > 64 { break 'l2; }
 v11 = load64(v1.plus(40));
 v12 = load64(v1.plus(24));
 v13 = load16(v2 + 14);
 v14 = load16(v2 + 12);
 v15 = load16(v2 + 10);
 v16 = load16(v2 + 8);
 v17 = load16(v2 + 6);
 v18 = load16(v2 + 4);
 v19 = load8(v2 + 16);
 v20 = load8(v2);
 'l3: loop {
 'l4: loop {
 if v6 != 0 { break 'l4; }
 fill(v3 + 192, 0, 32);
 'l5: loop {
 if v7 == 0 { break 'l5; }
 copy(v3.plus(192), v12, v7);
 break 'l5; }
 'l6: loop {
 if v8 == 0 { break 'l6; }
 copy(v3.plus(192) | 16, v11, v8);
 break 'l6; }
 v11 = load64(v3 + 192);
 v12 = load64(v3 + 200);
 v8 = load64(v3 + 208);
 v7 = load64(v3 + 216);
 v21 = 0;
 fill(v3.plus(64), 0, 128);
 fill(v3, 0, 64);
 t0 = (v20 << 16) | (v9 << 24);
 v9 = v5 as u32;
 v2 = (((t0 | v9) as u64) | ((((v18 & 0xffff) | (v17 << 16)) as u64) << 32)) ^ 0x6a09e667f3bcc908;
 v1 = ((((v16 & 0xffff) | (v15 << 16)) as u64) | ((((v14 & 0xffff) | (v13 << 16)) as u64) << 32)) ^
   0xbb67ae8584caa73b;
 v6 = ((((v10 << 8) | (v19 & 255)) & 0xffff) as u64) ^ 0x3c6ef372fe94f82b;
 v7 ^= 0x5be0cd19137e2179;
 v8 ^= 0x1f83d9abfb41bd6b;
 v5 = v12 ^ 0x9b05688c2b3e6c1f;
 v11 ^= 0x510e527fade682d1;
 break 'l3;
 }
 v2 = load64(v1.plus(8));
 fill(v3 + 192, 0, 32);
 'l7: loop {
 if v7 == 0 { break 'l7; }
 copy(v3.plus(192), v12, v7);
 break 'l7; }
 'l8: loop {
 if v8 == 0 { break 'l8; }
 copy(v3.plus(192) | 16, v11, v8);
 break 'l8; }
 v11 = load64(v3 + 192);
 v12 = load64(v3 + 200);
 v8 = load64(v3 + 208);
 v7 = load64(v3 + 216);
 'l9: loop {
 v1 = if v6 > 63 { 0 } else { 64_u64.minus(v6) };
 if v1 == 0 { break 'l9; }
 fill(v3.plus(224).plus(v6), 0, v1);
 break 'l9; }
 'l10: loop {
 if v6 == 0 { break 'l10; }
 copy(v3.plus(224), v2, v6);
 break 'l10; }
 fill(v3 + 352, 0, 64);
 store64(v3 + 288, load64(v3 + 224));
 store64(v3 + 296, load64(v3 + 232));
 store64(v3 + 304, load64(v3 + 240));
 store64(v3 + 312, load64(v3 + 248));
 store64(v3 + 320, load64(v3 + 256));
 store64(v3 + 328, load64(v3 + 264));
 store64(v3 + 336, load64(v3 + 272));
 store64(v3 + 344, load64(v3 + 280));
 copy(v3.plus(64), v3.plus(288), 128);
 store64(v3 + 56, load64(v3 + 280));
 store64(v3 + 48, load64(v3 + 272));
 store64(v3 + 40, load64(v3 + 264));
 store64(v3 + 32, load64(v3 + 256));
 store64(v3 + 24, load64(v3 + 248));
 store64(v3 + 16, load64(v3 + 240));
 store64(v3 + 8, load64(v3 + 232));
 store64(v3, load64(v3 + 224));
 v1 = ((((v16 & 0xffff) | (v15 << 16)) as u64) | ((((v14 & 0xffff) | (v13 << 16)) as u64) << 32)) ^
   0xbb67ae8584caa73b;
 t1 = (v20 << 16) | (((v6 as u32) << 8) & 0xff00) | (v9 << 24);
 v9 = v5 as u32;
 v2 = (((t1 | v9) as u64) | ((((v18 & 0xffff) | (v17 << 16)) as u64) << 32)) ^ 0x6a09e667f3bcc908;
 v6 = ((((v10 << 8) | (v19 & 255)) & 0xffff) as u64) ^ 0x3c6ef372fe94f82b;
 v7 ^= 0x5be0cd19137e2179;
 v8 ^= 0x1f83d9abfb41bd6b;
 v5 = v12 ^ 0x9b05688c2b3e6c1f;
 v11 ^= 0x510e527fade682d1;
 v21 = 128;
 break 'l3; }
 store32(v0 + 148, 0);
 store32(v0 + 144, v9 as u64);
 store32(v0 + 140, v21 as u64);
 store32(v0 + 136, v21 as u64);
 store64(v0 + 128, 0);
 store64(v0 + 120, v7);
 store64(v0 + 112, v8);
 store64(v0 + 104, v5);
 store64(v0 + 96, v11);
 store64(v0 + 88, 0xa54ff53a5f1d36f1);
 store64(v0 + 80, v6);
 store64(v0 + 72, v1);
 store64(v0 + 64, v2);
 store64(v0 + 56, v7);
 store64(v0 + 48, v8);
 store64(v0 + 40, v5);
 store64(v0 + 32, v11);
 store64(v0 + 24, 0xa54ff53a5f1d36f1);
 store64(v0 + 16, v6);
 store64(v0 + 8, v1);
 store64(v0, v2);
 copy(v0.plus(152), v3.plus(64), 128);
 store64(v0 + 336, load64(v3 + 56));
 store64(v0 + 328, load64(v3 + 48));
 store64(v0 + 320, load64(v3 + 40));
 store64(v0 + 312, load64(v3 + 32));
 store64(v0 + 304, load64(v3 + 24));
 store64(v0 + 296, load64(v3 + 16));
 store64(v0 + 288, load64(v3 + 8));
 store64(v0 + 280, load64(v3));
 return 0;
 }
 fill(v0, 0, 344);
 return 0xffffffff;
}

// Overwrites the stack below the caller.
#[inline(never)]
unsafe fn digest_wiping_scrub_stack_1024() {
    let mut room = [0_u64; 384];
    for word in room.iter_mut() {
        core::ptr::write_volatile(word, 0);
    }
}

// rattle::export vulfsjor_ffi_blake2b_init_salt_personal
#[inline(never)]
unsafe fn exported_blake2b_init_salt_personal(mut v0: u64, mut v1: u64, mut v2: u64, mut v3: u64,
        mut v4: u64, mut v5: u64, mut v6: u64, mut v7: u64) -> u32 {
 let mut v8: u64;
 let mut v9: u32;
 let mut frame = [0_u64; 12];
 let top = (address!(frame)).plus(96) & !15;
 v8 = top.minus(80);
 store64(v8 + 72, v7);
 store64(v8 + 56, v5);
 store64(v8 + 24, v1);
 store64(v8 + 2, 0);
 store16(v8, 257);
 store64(v8 + 10, 0);
 store64(v8 + 16, 0);
 store64(v8 + 64, v6.plus(if v6 == 0 { 4096_u64 } else { 0 }));
 store64(v8 + 48, v4.plus(if v4 == 0 { 4096_u64 } else { 0 }));
 store64(v8 + 32, v2.plus(if v2 == 0 { 4096_u64 } else { 0 }));
 store64(v8 + 40, v3);
 v9 = ffi_blake2b_initialize(v0, v8.plus(24), v8);
 'l2: loop {
 if v3 == 0 { break 'l2; }
 digest_wiping_scrub_stack_1024();
 break 'l2; }
 return v9;
}

// rattle::export vulfsjor_ffi_blake2b_init_key
#[inline(never)]
unsafe fn exported_blake2b_init_key(mut v0: u64, mut v1: u64, mut v2: u64, mut v3: u64) -> u32 {
 let mut v4: u64;
 let mut v5: u32;
 let mut frame = [0_u64; 12];
 let top = (address!(frame)).plus(96) & !15;
 v4 = top.minus(80);
 'l1: loop {
 'l2: loop {
 if v3 != 0 { break 'l2; }
 fill(v0, 0, 344);
 v5 = 0xffffffff;
 break 'l1;
 }
 store64(v4 + 72, 0);
 store64(v4 + 64, 0x100000);
 store64(v4 + 56, 0);
 store64(v4 + 48, 0x100000);
 store64(v4 + 40, v3);
 store64(v4 + 32, v2.plus(if v2 == 0 { 4096_u64 } else { 0 }));
 store64(v4 + 24, v1);
 store64(v4 + 2, 0);
 store16(v4, 257);
 store64(v4 + 10, 0);
 store64(v4 + 16, 0);
 v5 = ffi_blake2b_initialize(v0, v4.plus(24), v4);
 digest_wiping_scrub_stack_1024();
 break 'l1; }
 return v5;
}

// rattle::export vulfsjor_ffi_blake2b_init_tree
#[inline(never)]
unsafe fn exported_blake2b_init_tree(mut v0: u64, mut v1: u64, mut v2: u64, mut v3: u64, mut v4:
        u64, mut v5: u64, mut v6: u64, mut v7: u64, mut v8: u64) -> u32 {
 let mut v9: u64;
 let mut v10: u32;
 let mut v11: u32;
 let mut frame = [0_u64; 12];
 let top = (address!(frame)).plus(96) & !15;
 v9 = top.minus(80);
 store32(v9 + 74, 0);
 store16(v9 + 58, 0);
 store16(v9 + 78, 0);
 store64(v9 + 64, load64(v8));
 v10 = load8(v8.plus(15));
 store8(v9 + 73, v10 as u64);
 store8(v9 + 72, load8(v8.plus(14)) as u64);
 store32(v9 + 60, load32(v8.plus(8)) as u64);
 v11 = load8(v8.plus(13));
 store8(v9 + 57, v11 as u64);
 store8(v9 + 56, load8(v8.plus(12)) as u64);
 'l2: loop {
 'l3: loop {
 'l4: loop {
 if v11 == 0 { break 'l4; }
 if (v10 & 255) < 65 { break 'l3; }
 break 'l4; }
 fill(v0, 0, 344);
 v11 = 0xffffffff;
 break 'l2;
 }
 store64(v9 + 48, v7);
 store64(v9 + 40, v6.plus(if v6 == 0 { 4096_u64 } else { 0 }));
 store64(v9 + 32, v5);
 store64(v9 + 24, v4.plus(if v4 == 0 { 4096_u64 } else { 0 }));
 store64(v9 + 8, v2.plus(if v2 == 0 { 4096_u64 } else { 0 }));
 store64(v9, v1);
 store64(v9 + 16, v3);
 v11 = ffi_blake2b_initialize(v0, v9, v9.plus(56));
 if v3 == 0 { break 'l2; }
 digest_wiping_scrub_stack_1024();
 break 'l2; }
 return v11;
}

// rattle::export vulfsjor_ffi_blake2b_init_param
#[inline(never)]
unsafe fn exported_blake2b_init_param(mut v0: u64, mut v1: u64, mut v2: u64) -> u32 {
 let mut v3: u64;
 let mut v4: u64;
 let mut v5: u64;
 let mut v6: u64;
 let mut v7: u64;
 let mut v8: u64;
 let mut v9: u64;
 'l1: loop {
 if v2 != 64 { break 'l1; }
 v1 = v1.plus(if v1 == 0 { 4096_u64 } else { 0 });
 if (load8(v1).minus(65) & 255) < 192 { break 'l1; }
 if load8(v1 + 1) > 64 { break 'l1; }
 v3 = load64(v1.plus(56));
 v4 = load64(v1.plus(48));
 v5 = load64(v1.plus(40));
 v6 = load64(v1.plus(32));
 v2 = load64(v1);
 v7 = load64(v1 + 24);
 v8 = load64(v1 + 16);
 v1 = load64(v1 + 8) ^ 0xbb67ae8584caa73b;
 store64(v0 + 8, v1);
 v8 ^= 0x3c6ef372fe94f82b;
 store64(v0 + 16, v8);
 v7 ^= 0xa54ff53a5f1d36f1;
 store64(v0 + 24, v7);
 v9 = v2 ^ 0x6a09e667f3bcc908;
 store64(v0 + 64, v9);
 store64(v0 + 72, v1);
 store64(v0 + 80, v8);
 store64(v0 + 88, v7);
 fill(v0 + 128, 0, 16);
 store64(v0, v9);
 v1 = v6 ^ 0x510e527fade682d1;
 store64(v0 + 32, v1);
 v5 ^= 0x9b05688c2b3e6c1f;
 store64(v0 + 40, v5);
 v4 ^= 0x1f83d9abfb41bd6b;
 store64(v0 + 48, v4);
 v3 ^= 0x5be0cd19137e2179;
 store64(v0 + 56, v3);
 store64(v0 + 96, v1);
 store64(v0 + 104, v5);
 store64(v0 + 112, v4);
 store64(v0 + 120, v3);
 store32(v0 + 144, ((v2 as u32) & 255) as u64);
 fill(v0.plus(148), 0, 196);
 return 0;
 }
 fill(v0, 0, 344);
 return 0xffffffff;
}

// blake2_ffi::blake2b::update_in_frame
#[inline(never)]
unsafe fn ffi_blake2b_update_in_frame(mut v0: u64, mut v1: u64, mut v2: u64) {
 let mut v4: u32;
 let mut v5: u32;
 'l2: loop {
 if v2 == 1 { break 'l2; }
 state_blake2b_State_absorb_blocks(v0, v1, v2);
 return;
 }
 'l3: loop {
 v2 = v0.plus(136);
 v4 = load32(v2);
 if v4 < 128 { break 'l3; }
 state_blake2b_State_absorb_blocks(v0, v1, 1);
 return;
 }
 v5 = load8(v1);
 store32(v2, v4.plus(1) as u64);
 store8(v0.plus(v4 as u64).plus(152), v5 as u64);
 return;
}

// Overwrites the stack below the caller.
#[inline(never)]
unsafe fn digest_wiping_scrub_stack_1152() {
    let mut room = [0_u64; 400];
    for word in room.iter_mut() {
        core::ptr::write_volatile(word, 0);
    }
}

// blake2_ffi::blake2b::update_scrubbed
#[inline(never)]
unsafe fn ffi_blake2b_update_scrubbed(mut v0: u64, mut v1: u64, mut v2: u64) {
 ffi_blake2b_update_in_frame(v0, v1, v2);
 digest_wiping_scrub_stack_1152();
 return;
}

// rattle::export vulfsjor_ffi_blake2b_update
#[inline(never)]
unsafe fn exported_blake2b_update(mut v0: u64, mut v1: u64, mut v2: u64) -> u32 {
 let mut v4: u32;
 let mut v5: u32;
 let mut v6: u32;
 let mut v7: u64;
 let mut v8: u64;
 'l1: loop {
 'l2: loop {
 'l3: loop {
 v4 = 0xffffffff;
 if load32(v0.plus(144)).minus(1) > 63 { break 'l1; }
 v5 = load32(v0.plus(136));
 if v5 > 128 { break 'l1; }
 v6 = load32(v0.plus(140));
 if v6 > 128 { break 'l1; }
 v4 = 0xffffffff;
 v7 = load64(v0.plus(128));
 if v7 > sign64((!v5) as u64, 0x80000000) { break 'l1; }
 v8 = v5 as u64;
 if v2 > (!v7.plus(v8)) { break 'l1; }
 v1 = v1.plus(if v1 == 0 { 4096_u64 } else { 0 });
 'l5: loop {
 if v7 >= (v6 as u64) { break 'l5; }
 ffi_blake2b_update_scrubbed(v0, v1, v2);
 break 'l2;
 }
 'l6: loop {
 if v2 == 1 { break 'l6; }
 state_blake2b_State_absorb_blocks(v0, v1, v2);
 break 'l2;
 }
 if v5 != 128 { break 'l3; }
 state_blake2b_State_absorb_blocks(v0, v1, 1);
 break 'l2;
 }
 v4 = load8(v1);
 store32(v0.plus(136), v5.plus(1) as u64);
 store8(v0.plus(v8).plus(152), v4 as u64);
 break 'l2; }
 v4 = 0;
 break 'l1; }
 return v4;
}

// blake2_ffi::several::blake2b::update_in_frame
#[inline(never)]
unsafe fn ffi_several_blake2b_update_in_frame(mut v0: u64, mut v1: u64, mut v2: u64) {
 let mut v4: u64;
 let mut v5: u64;
 let mut v6: u32;
 let mut v7: u32;
 'l2: loop {
 if v2 == 0 { break 'l2; }
 'l3: loop {
 v4 = load64(v1);
 'l4: loop {
 'l5: loop {
 v5 = load64(v1.plus(8));
 if v5 == 1 { break 'l5; }
 state_blake2b_State_absorb_blocks(v0, v4, v5);
 break 'l4;
 }
 'l6: loop {
 v5 = v0.plus(136);
 v6 = load32(v5);
 if v6 < 128 { break 'l6; }
 state_blake2b_State_absorb_blocks(v0, v4, 1);
 break 'l4;
 }
 v7 = load8(v4);
 store32(v5, v6.plus(1) as u64);
 store8(v0.plus(v6 as u64).plus(152), v7 as u64);
 break 'l4; }
 v0 = v0.plus(344);
 v1 = v1.plus(16);
 v2 = v2.minus(1);
 if v2 != 0 { continue 'l3; }
 break 'l3; }
 break 'l2; }
 return;
}

// rattle::export vulfsjor_ffi_blake2b_update_many
#[inline(never)]
unsafe fn exported_blake2b_update_many(mut v0: u64, mut v1: u64, mut v2: u64, mut v3: u64) -> u32 {
 let mut v5: u32;
 let mut v6: u64;
 let mut v7: u64;
 let mut v8: u32;
 let mut v9: u64;
 'l1: loop {
 'l2: loop {
 'l3: loop {
 v5 = 0xffffffff;
 if v3 != v1 { break 'l1; }
 v6 = v2.plus(if v2 == 0 { 4096_u64 } else { 0 });
 v7 = v0.plus(if v0 == 0 { 4096_u64 } else { 0 });
 'l5: loop {
 if v3 == 0 { break 'l5; }
 v2 = v7.plus(128);
 v0 = v6.plus(8);
 v1 = v3;
 'l6: loop {
 v5 = 0xffffffff;
 if load32(v2.plus(16)).minus(1) > 63 { break 'l1; }
 v8 = load32(v2.plus(8));
 if v8 > 128 { break 'l1; }
 if load32(v2.plus(12)) > 128 { break 'l1; }
 v5 = 0xffffffff;
 v9 = load64(v2);
 if v9 > sign64((!v8) as u64, 0x80000000) { break 'l1; }
 if load64(v0) > (!v9.plus(v8 as u64)) { break 'l1; }
 v2 = v2.plus(344);
 v0 = v0.plus(16);
 v1 = v1.minus(1);
 if !(v1 == 0) { continue 'l6; }
 break 'l6; }
 break 'l5; }
 v2 = v7.plus(140);
 v0 = 0xffffffffffffffff;
 'l7: loop {
 v0 = v0.plus(1);
 if v3 == v0 { break 'l3; }
 v1 = v2.minus(12);
 v9 = load32(v2) as u64;
 v2 = v2.plus(344);
 if load64(v1) >= v9 { continue 'l7; }
 break 'l7; }
 ffi_several_blake2b_update_in_frame(v7, v6, v3);
 digest_wiping_scrub_stack_9216();
 break 'l2;
 }
 ffi_several_blake2b_update_in_frame(v7, v6, v3);
 break 'l2; }
 v5 = 0;
 break 'l1; }
 return v5;
}

// blake2_ffi::blake2b::finalize
#[inline(never)]
unsafe fn ffi_blake2b_finalize(mut v0: u64, mut v1: u64) {
 state_blake2b_State_write_digest(v0, v1);
 fill(v0, 0, 344);
 return;
}

// Overwrites the stack below the caller.
#[inline(never)]
unsafe fn digest_wiping_scrub_stack_1664() {
    let mut room = [0_u64; 464];
    for word in room.iter_mut() {
        core::ptr::write_volatile(word, 0);
    }
}

// rattle::export vulfsjor_ffi_blake2b_final
#[inline(never)]
unsafe fn exported_blake2b_final(mut v0: u64, mut v1: u64, mut v2: u64) -> u32 {
 let mut v4: u32;
 let mut v5: u32;
 let mut v6: u32;
 let mut v7: u32;
 let mut v8: u64;
 v4 = 0xffffffff;
 'l2: loop {
 v5 = load32(v0.plus(144));
 if v5.minus(1) > 63 { break 'l2; }
 v6 = load32(v0.plus(136));
 if v6 > 128 { break 'l2; }
 v7 = load32(v0.plus(140));
 if v7 > 128 { break 'l2; }
 v4 = 0xffffffff;
 v8 = load64(v0.plus(128));
 if v8 > sign64((!v6) as u64, 0x80000000) { break 'l2; }
 if v2 != (v5 as u64) { break 'l2; }
 ffi_blake2b_finalize(v0, v1.plus(if v1 == 0 { 4096_u64 } else { 0 }));
 v4 = 0;
 if v8 >= (v7 as u64) { break 'l2; }
 digest_wiping_scrub_stack_1664();
 break 'l2; }
 return v4;
}

// blake2_ffi::blake2b::is_digest_of
#[inline(never)]
unsafe fn ffi_blake2b_is_digest_of(mut v0: u64, mut v1: u64, mut v2: u64) -> u32 {
 let mut v3: u64;
 let mut v4: u64;
 let mut v5: u32;
 let mut v6: u64;
 let mut v7: u64;
 let mut frame = [0_u64; 10];
 let top = (address!(frame)).plus(80) & !15;
 v3 = top.minus(64);
 v4 = v3;
 fill(v4, 0, 64);
 state_blake2b_State_write_digest(v0, v4);
 'l2: loop {
 'l3: loop {
 if v2 == (load32(v0.plus(144)) as u64) { break 'l3; }
 v5 = 0;
 break 'l2;
 }
 'l4: loop {
 if !(v2 == 0) { break 'l4; }
 v5 = 1;
 break 'l2;
 }
 v6 = v2 & 3;
 'l5: loop {
 'l6: loop {
 'l7: loop {
 if v2 >= 4 { break 'l7; }
 v0 = 0;
 v5 = 0;
 break 'l6;
 }
 v7 = v2 & 0xfffffffffffffffc;
 v0 = 0;
 v5 = 0;
 'l8: loop {
 v2 = v4.plus(v0);
 v3 = v1.plus(v0);
 v5 = (load8(v2.plus(3)) ^ load8(v3.plus(3))) | ((load8(v2.plus(2)) ^ load8(v3.plus(2))) |
   ((load8(v2.plus(1)) ^ load8(v3.plus(1))) | ((load8(v2) ^ load8(v3)) | v5)));
 v0 = v0.plus(4);
 if v7 != v0 { continue 'l8; }
 break 'l8; }
 if v6 == 0 { break 'l5; }
 break 'l6; }
 v2 = v1.plus(v0);
 v0 = v4.plus(v0);
 'l9: loop {
 v5 = (load8(v0) ^ load8(v2)) | v5;
 v2 = v2.plus(1);
 v0 = v0.plus(1);
 v6 = v6.minus(1);
 if v6 != 0 { continue 'l9; }
 break 'l9; }
 break 'l5; }
 v5 = ((v5 & 255) == 0) as u32;
 break 'l2; }
 return v5;
}

// rattle::export vulfsjor_ffi_blake2b_verify
#[inline(never)]
unsafe fn exported_blake2b_verify(mut v0: u64, mut v1: u64, mut v2: u64) -> u32 {
 let mut v4: u32;
 let mut v5: u32;
 let mut v6: u32;
 let mut v7: u64;
 v4 = 0xffffffff;
 'l2: loop {
 if load32(v0.plus(144)).minus(1) > 63 { break 'l2; }
 v5 = load32(v0.plus(136));
 if v5 > 128 { break 'l2; }
 v6 = load32(v0.plus(140));
 if v6 > 128 { break 'l2; }
 v4 = 0xffffffff;
 v7 = load64(v0.plus(128));
 if v7 > sign64((!v5) as u64, 0x80000000) { break 'l2; }
 if ((load8(v0.plus(65)) as u64) << 8) == 0xc900 { break 'l2; }
 v4 = ffi_blake2b_is_digest_of(v0, v1.plus(if v1 == 0 { 4096_u64 } else { 0 }), v2);
 fill(v0, 0, 344);
 'l3: loop {
 if v7 >= (v6 as u64) { break 'l3; }
 digest_wiping_scrub_stack_1664();
 break 'l3; }
 v4 = v4.minus(1);
 break 'l2; }
 return v4;
}

// rattle::export vulfsjor_ffi_blake2b_set_last_node
#[inline(never)]
unsafe fn exported_blake2b_set_last_node(mut v0: u64, mut v1: u32) -> u32 {
 let mut v2: u32;
 let mut v3: u32;
 v2 = 0xffffffff;
 'l2: loop {
 if load32(v0.plus(144)).minus(1) > 63 { break 'l2; }
 v3 = load32(v0.plus(136));
 if v3 > 128 { break 'l2; }
 if load32(v0.plus(140)) > 128 { break 'l2; }
 v2 = 0xffffffff;
 if load64(v0.plus(128)) > sign64((!v3) as u64, 0x80000000) { break 'l2; }
 v2 = 0;
 store32(v0.plus(148), ((v1 != 0) as u32) as u64);
 break 'l2; }
 return v2;
}

// rattle::export vulfsjor_ffi_blake2b_reset
#[inline(never)]
unsafe fn exported_blake2b_reset(mut v0: u64) -> u32 {
 let mut v1: u32;
 let mut v2: u32;
 let mut v3: u32;
 let mut v4: u64;
 v1 = 0xffffffff;
 'l2: loop {
 if load32(v0.plus(144)).minus(1) > 63 { break 'l2; }
 v2 = load32(v0.plus(136));
 if v2 > 128 { break 'l2; }
 v3 = load32(v0.plus(140));
 if v3 > 128 { break 'l2; }
 v1 = 0xffffffff;
 v4 = v0.plus(128);
 if load64(v4) > sign64((!v2) as u64, 0x80000000) { break 'l2; }
 store32(v0.plus(136), v3 as u64);
 store64(v4, 0);
 store64(v0 + 56, load64(v0.plus(120)));
 store64(v0 + 48, load64(v0.plus(112)));
 store64(v0 + 40, load64(v0.plus(104)));
 store64(v0 + 32, load64(v0.plus(96)));
 store64(v0 + 24, load64(v0.plus(88)));
 store64(v0 + 16, load64(v0.plus(80)));
 store64(v0 + 8, load64(v0.plus(72)));
 store64(v0, load64(v0.plus(64)));
 store64(v0.plus(272), 0);
 store64(v0.plus(264), 0);
 store64(v0.plus(256), 0);
 store64(v0.plus(248), 0);
 store64(v0.plus(240), 0);
 store64(v0.plus(232), 0);
 store64(v0.plus(224), 0);
 store64(v0.plus(216), 0);
 store64(v0.plus(208), load64(v0.plus(336)));
 store64(v0.plus(200), load64(v0.plus(328)));
 store64(v0.plus(192), load64(v0.plus(320)));
 store64(v0.plus(184), load64(v0.plus(312)));
 store64(v0.plus(176), load64(v0.plus(304)));
 store64(v0.plus(168), load64(v0.plus(296)));
 store64(v0.plus(160), load64(v0.plus(288)));
 store64(v0.plus(152), load64(v0.plus(280)));
 v1 = 0;
 break 'l2; }
 return v1;
}

// blake2_state::blake2b::State::save
#[inline(never)]
unsafe fn state_blake2b_State_save(mut v0: u64, mut v1: u64) {
 let mut v2: u64;
 let mut v3: u32;
 let mut v4: u32;
 let mut v5: u32;
 let mut v6: u64;
 let mut v7: u64;
 let mut v8: u64;
 let mut v9: u64;
 let mut v10: u64;
 let mut v11: u64;
 let mut v12: u64;
 let mut v13: u64;
 let mut v14: u64;
 let mut v15: u64;
 let mut v16: u64;
 let mut v17: u64;
 let mut v18: u64;
 let mut v19: u64;
 let mut v20: u64;
 let mut v21: u64;
 let mut v22: u64;
 let mut v23: u64;
 let mut frame = [0_u64; 50];
 let top = (address!(frame)).plus(400) & !15;
 v2 = top.minus(384);
 'l1: loop {
 'l3: loop {
 'l4: loop {
 v3 = load32(v1.plus(144));
 if v3.minus(1) > 63 { break 'l4; }
 v4 = load32(v1.plus(136));
 if v4 > 128 { break 'l4; }
 v5 = load32(v1.plus(140));
 if v5 > 128 { break 'l4; }
 if load64(v1.plus(128)) > sign64((!v4) as u64, 0x80000000) { break 'l4; }
 if v5 != 0 { break 'l4; }
 v6 = load64(v1.plus(64));
 if (v6 & 0xff00) == 0xc900 { break 'l3; }
 break 'l4; }
 fill(v0, 0, 276);
 break 'l1;
 }
 v5 = load32(v1.plus(148));
 fill(v2.plus(256), 0, 128);
 v7 = load64(v1.plus(72));
 v8 = load64(v1.plus(80));
 v9 = load64(v1.plus(88));
 v10 = load64(v1.plus(96));
 v11 = load64(v1.plus(104));
 v12 = load64(v1.plus(112));
 v13 = load64(v1.plus(120));
 v14 = load64(v1.plus(128));
 v15 = load64(v1);
 v16 = load64(v1 + 8);
 v17 = load64(v1 + 16);
 v18 = load64(v1 + 24);
 v19 = load64(v1 + 32);
 v20 = load64(v1 + 40);
 v21 = load64(v1 + 48);
 v22 = load64(v1 + 56);
 'l5: loop {
 v23 = v4 as u64;
 if v23 == 0 { break 'l5; }
 copy(v2.plus(256), v1.plus(152), v23);
 break 'l5; }
 copy(v2, v2.plus(256), 128);
 copy(v2.plus(128), v2, 128);
 store8(v0.plus(147), ((v5 != 0) as u32) as u64);
 store8(v0.plus(146), v4 as u64);
 store8(v0.plus(145), v3 as u64);
 store64(v0.plus(137), v14);
 store8(v0.plus(136), v13 >> 56);
 store8(v0.plus(135), v13 >> 48);
 store8(v0.plus(134), v13 >> 40);
 store8(v0.plus(133), v13 >> 32);
 v3 = v13 as u32;
 store8(v0.plus(132), (v3 >> 24) as u64);
 store8(v0.plus(131), (v3 >> 16) as u64);
 store8(v0.plus(130), (v3 >> 8) as u64);
 store8(v0.plus(129), v13);
 store8(v0.plus(128), v12 >> 56);
 store8(v0.plus(127), v12 >> 48);
 store8(v0.plus(126), v12 >> 40);
 store8(v0.plus(125), v12 >> 32);
 v3 = v12 as u32;
 store8(v0.plus(124), (v3 >> 24) as u64);
 store8(v0.plus(123), (v3 >> 16) as u64);
 store8(v0.plus(122), (v3 >> 8) as u64);
 store8(v0.plus(121), v3 as u64);
 store8(v0.plus(120), v11 >> 56);
 store8(v0.plus(119), v11 >> 48);
 store8(v0.plus(118), v11 >> 40);
 store8(v0.plus(117), v11 >> 32);
 v3 = v11 as u32;
 store8(v0.plus(116), (v3 >> 24) as u64);
 store8(v0.plus(115), (v3 >> 16) as u64);
 store8(v0.plus(114), (v3 >> 8) as u64);
 store8(v0.plus(113), v3 as u64);
 store8(v0.plus(112), v10 >> 56);
 store8(v0.plus(111), v10 >> 48);
 store8(v0.plus(110), v10 >> 40);
 store8(v0.plus(109), v10 >> 32);
 v3 = v10 as u32;
 store8(v0.plus(108), (v3 >> 24) as u64);
 store8(v0.plus(107), (v3 >> 16) as u64);
 store8(v0.plus(106), (v3 >> 8) as u64);
 store8(v0.plus(105), v3 as u64);
 store8(v0.plus(104), v9 >> 56);
 store8(v0.plus(103), v9 >> 48);
 store8(v0.plus(102), v9 >> 40);
 store8(v0.plus(101), v9 >> 32);
 v3 = v9 as u32;
 store8(v0.plus(100), (v3 >> 24) as u64);
 store8(v0.plus(99), (v3 >> 16) as u64);
 store8(v0.plus(98), (v3 >> 8) as u64);
 store8(v0.plus(97), v9);
 store8(v0.plus(96), v8 >> 56);
 store8(v0.plus(95), v8 >> 48);
 store8(v0.plus(94), v8 >> 40);
 store8(v0.plus(93), v8 >> 32);
 v3 = v8 as u32;
 store8(v0.plus(92), (v3 >> 24) as u64);
 store8(v0.plus(91), (v3 >> 16) as u64);
 store8(v0.plus(90), (v3 >> 8) as u64);
 store8(v0.plus(89), v3 as u64);
 store8(v0.plus(88), v7 >> 56);
 store8(v0.plus(87), v7 >> 48);
 store8(v0.plus(86), v7 >> 40);
 store8(v0.plus(85), v7 >> 32);
 v3 = v7 as u32;
 store8(v0.plus(84), (v3 >> 24) as u64);
 store8(v0.plus(83), (v3 >> 16) as u64);
 store8(v0.plus(82), (v3 >> 8) as u64);
 store8(v0.plus(81), v3 as u64);
 store8(v0.plus(80), v6 >> 56);
 store8(v0.plus(79), v6 >> 48);
 store8(v0.plus(78), v6 >> 40);
 store8(v0.plus(77), v6 >> 32);
 v3 = v6 as u32;
 store8(v0.plus(76), (v3 >> 24) as u64);
 store8(v0.plus(75), (v3 >> 16) as u64);
 store8(v0.plus(74), (v3 >> 8) as u64);
 store8(v0.plus(73), v3 as u64);
 store8(v0.plus(72), v22 >> 56);
 store8(v0.plus(71), v22 >> 48);
 store8(v0.plus(70), v22 >> 40);
 store8(v0.plus(69), v22 >> 32);
 v3 = v22 as u32;
 store8(v0.plus(68), (v3 >> 24) as u64);
 store8(v0.plus(67), (v3 >> 16) as u64);
 store8(v0.plus(66), (v3 >> 8) as u64);
 store8(v0.plus(65), v22);
 store8(v0.plus(64), v21 >> 56);
 store8(v0.plus(63), v21 >> 48);
 store8(v0.plus(62), v21 >> 40);
 store8(v0.plus(61), v21 >> 32);
 v3 = v21 as u32;
 store8(v0.plus(60), (v3 >> 24) as u64);
 store8(v0.plus(59), (v3 >> 16) as u64);
 store8(v0.plus(58), (v3 >> 8) as u64);
 store8(v0.plus(57), v3 as u64);
 store8(v0.plus(56), v20 >> 56);
 store8(v0.plus(55), v20 >> 48);
 store8(v0.plus(54), v20 >> 40);
 store8(v0.plus(53), v20 >> 32);
 v3 = v20 as u32;
 store8(v0.plus(52), (v3 >> 24) as u64);
 store8(v0.plus(51), (v3 >> 16) as u64);
 store8(v0.plus(50), (v3 >> 8) as u64);
 store8(v0.plus(49), v3 as u64);
 store8(v0.plus(48), v19 >> 56);
 store8(v0.plus(47), v19 >> 48);
 store8(v0.plus(46), v19 >> 40);
 store8(v0.plus(45), v19 >> 32);
 v3 = v19 as u32;
 store8(v0.plus(44), (v3 >> 24) as u64);
 store8(v0.plus(43), (v3 >> 16) as u64);
 store8(v0.plus(42), (v3 >> 8) as u64);
 store8(v0.plus(41), v3 as u64);
 store8(v0.plus(40), v18 >> 56);
 store8(v0.plus(39), v18 >> 48);
 store8(v0.plus(38), v18 >> 40);
 store8(v0.plus(37), v18 >> 32);
 v3 = v18 as u32;
 store8(v0.plus(36), (v3 >> 24) as u64);
 store8(v0.plus(35), (v3 >> 16) as u64);
 store8(v0.plus(34), (v3 >> 8) as u64);
 store8(v0.plus(33), v18);
 store8(v0.plus(32), v17 >> 56);
 store8(v0.plus(31), v17 >> 48);
 store8(v0.plus(30), v17 >> 40);
 store8(v0.plus(29), v17 >> 32);
 v3 = v17 as u32;
 store8(v0.plus(28), (v3 >> 24) as u64);
 store8(v0.plus(27), (v3 >> 16) as u64);
 store8(v0.plus(26), (v3 >> 8) as u64);
 store8(v0.plus(25), v3 as u64);
 store8(v0.plus(24), v16 >> 56);
 store8(v0.plus(23), v16 >> 48);
 store8(v0.plus(22), v16 >> 40);
 store8(v0.plus(21), v16 >> 32);
 v3 = v16 as u32;
 store8(v0.plus(20), (v3 >> 24) as u64);
 store8(v0.plus(19), (v3 >> 16) as u64);
 store8(v0.plus(18), (v3 >> 8) as u64);
 store8(v0.plus(17), v3 as u64);
 store8(v0.plus(16), v15 >> 56);
 store8(v0.plus(15), v15 >> 48);
 store8(v0.plus(14), v15 >> 40);
 store8(v0.plus(13), v15 >> 32);
 v3 = v15 as u32;
 store8(v0.plus(12), (v3 >> 24) as u64);
 store8(v0.plus(11), (v3 >> 16) as u64);
 store8(v0.plus(10), (v3 >> 8) as u64);
 store8(v0.plus(9), v3 as u64);
 store64(v0.plus(1), 0x16232454b414c42);
 store8(v0, 1);
 copy(v0.plus(148), v2.plus(128), 128);
 break 'l1;
 }
}

// rattle::export vulfsjor_ffi_blake2b_save
#[inline(never)]
unsafe fn exported_blake2b_save(mut v0: u64, mut v1: u64, mut v2: u64) -> u32 {
 let mut v3: u64;
 let mut v4: u32;
 let mut frame = [0_u64; 38];
 let top = (address!(frame)).plus(304) & !15;
 v3 = top.minus(288);
 fill(v3.plus(12), 0, 276);
 v4 = 0xffffffff;
 'l2: loop {
 if v2 != 275 { break 'l2; }
 state_blake2b_State_save(v3.plus(12), v0);
 if load8(v3 + 12) != 1 { break 'l2; }
 copy(v1.plus(if v1 == 0 { 4096_u64 } else { 0 }), v3.plus(13), 275);
 v4 = 0;
 break 'l2; }
 return v4;
}

// core::cmp::slices::groups_equal::<i8,31'core::cmp::numbers::U8PartialEq{}>
#[inline(never)]
unsafe fn core_cmp_slices_groups_equal_i8_31_core_cmp_numbers_U8PartialEq(mut v0: u64, mut v1: u64,
        mut v2: u64) -> u32 {
 let mut v3: u64;
 let mut v4: u32;
 let mut v5: u64;
 let mut v6: u64;
 let mut v7: u64;
 let mut v8: u64;
 let mut v9: u64;
 let mut v10: u64;
 let mut t0: u32;
 let mut t1: u32;
 let mut t2: u32;
 let mut t4: u32;
 let mut t5: u32;
 let mut t6: u32;
 let mut t7: u32;
 let mut t8: u32;
 let mut t9: u32;
 let mut t10: u32;
 let mut t11: u32;
 let mut t12: u32;
 let mut t13: u32;
 let mut t14: u32;
 let mut t15: u32;
 let mut t16: u32;
 let mut t17: u32;
 let mut t18: u32;
 let mut t19: u32;
 let mut t20: u32;
 let mut t21: u32;
 let mut t22: u32;
 let mut t23: u32;
 let mut t24: u32;
 let mut t25: u32;
 let mut t26: u32;
 let mut t27: u32;
 let mut t28: u32;
 let mut t29: u32;
 let mut t30: u32;
 let mut t31: u32;
 let mut t32: u32;
 let mut t33: u32;
 let mut t34: u32;
 let mut t35: u32;
 let mut t36: u32;
 let mut t37: u32;
 let mut t38: u32;
 let mut t39: u32;
 let mut t40: u32;
 let mut t41: u32;
 'l1: loop {
 'l2: loop {
 'l4: loop {
 if v1 > 8 { break 'l4; }
 v3 = v1.minus(4);
 t0 = (load8(v0.plus(v3)) != load8(v2.plus(v3))) as u32;
 v3 = v1.minus(3);
 t1 = t0 | ((load8(v0.plus(v3)) != load8(v2.plus(v3))) as u32);
 v3 = v1.minus(2);
 t2 = t1 | ((load8(v0.plus(v3)) != load8(v2.plus(v3))) as u32);
 v3 = v1.minus(1);
 v4 = ((load8(v0) != load8(v2)) as u32) | ((load8(v0.plus(1)) != load8(v2.plus(1))) as u32) |
   ((load8(v0.plus(2)) != load8(v2.plus(2))) as u32) | ((load8(v0.plus(3)) != load8(v2.plus(3))) as
   u32) | (t2 | ((load8(v0.plus(v3)) != load8(v2.plus(v3))) as u32));
 break 'l1;
 }
 'l5: loop {
 if v1 > 32 { break 'l5; }
 v1 = v1.minus(8);
 v5 = if v1 < 8 { v1 } else { 8 };
 v3 = v0.plus(v5);
 v5 = v2.plus(v5);
 v6 = if v1 < 16 { v1 } else { 16 };
 v7 = v0.plus(v6);
 v6 = v2.plus(v6);
 v8 = v0.plus(v1);
 v1 = v2.plus(v1);
 t4 = ((load8(v3) != load8(v5)) as u32) | ((load8(v7) != load8(v6)) as u32) | ((load8(v8) !=
   load8(v1)) as u32) | ((((load8(v3 + 1) != load8(v5 + 1)) as u32) | ((load8(v7 + 1) != load8(v6 +
   1)) as u32) | ((load8(v8 + 1) != load8(v1 + 1)) as u32)) << 1);
 t5 = ((((load8(v3 + 3) != load8(v5 + 3)) as u32) | ((load8(v7 + 3) != load8(v6 + 3)) as u32) |
   ((load8(v8 + 3) != load8(v1 + 3)) as u32)) << 3) | ((((load8(v3 + 2) != load8(v5 + 2)) as u32) |
   ((load8(v7 + 2) != load8(v6 + 2)) as u32) | ((load8(v8 + 2) != load8(v1 + 2)) as u32)) << 2);
 t6 = ((load8(v3 + 4) != load8(v5 + 4)) as u32) | ((load8(v7 + 4) != load8(v6 + 4)) as u32) |
   ((load8(v8 + 4) != load8(v1 + 4)) as u32) | ((((load8(v3 + 5) != load8(v5 + 5)) as u32) |
   ((load8(v7 + 5) != load8(v6 + 5)) as u32) | ((load8(v8 + 5) != load8(v1 + 5)) as u32)) << 1);
 t7 = ((((load8(v3 + 7) != load8(v5 + 7)) as u32) | ((load8(v7 + 7) != load8(v6 + 7)) as u32) |
   ((load8(v8 + 7) != load8(v1 + 7)) as u32)) << 3) | ((((load8(v3 + 6) != load8(v5 + 6)) as u32) |
   ((load8(v7 + 6) != load8(v6 + 6)) as u32) | ((load8(v8 + 6) != load8(v1 + 6)) as u32)) << 2);
 t8 = ((load8(v0.plus(3)) != load8(v2.plus(3))) as u32) | ((load8(v0.plus(4)) != load8(v2.plus(4)))
   as u32) | (((load8(v0.plus(5)) != load8(v2.plus(5))) as u32) | ((load8(v0.plus(6)) !=
   load8(v2.plus(6))) as u32));
 t9 = ((((t4 | t5 | ((t6 | t7) << 4)) & 255) != 0) as u32) | ((load8(v0) != load8(v2)) as u32) |
   (((load8(v0.plus(1)) != load8(v2.plus(1))) as u32) | ((load8(v0.plus(2)) != load8(v2.plus(2))) as
   u32)) | t8;
 v4 = t9 | ((load8(v0.plus(7)) != load8(v2.plus(7))) as u32);
 break 'l1;
 }
 if v1 < 65 { break 'l2; }
 v9 = v1 & 0xffffffffffffffc0;
 v10 = 0;
 v6 = v0;
 v8 = v2;
 'l6: loop {
 'l7: loop {
 v4 = 0;
 v3 = 0;
 'l8: loop {
 v5 = v6.plus(v3);
 v7 = v8.plus(v3);
 v4 |= ((load8(v5) != load8(v7)) as u32) | ((load8(v5.plus(1)) != load8(v7.plus(1))) as u32);
 v3 = v3.plus(2);
 if v3 != 64 { continue 'l8; }
 break 'l8; }
 if (v4 & 1) != 0 { break 'l6; }
 v6 = v6.plus(64);
 v8 = v8.plus(64);
 v10 = v10.plus(64);
 if v1.minus(v10) > 63 { continue 'l7; }
 break 'l7; }
 v10 = v9;
 break 'l6; }
 'l9: loop {
 v7 = v1.minus(v10);
 if v7 < 32 { break 'l9; }
 v3 = v2.plus(v10);
 v5 = v0.plus(v10);
 'l10: loop {
 'l11: loop {
 v4 = 1;
 t10 = (((load8(v5 + 4) != load8(v3 + 4)) as u32) | (((load8(v5 + 5) != load8(v3 + 5)) as u32) << 1)
   | ((((load8(v5 + 7) != load8(v3 + 7)) as u32) << 3) | (((load8(v5 + 6) != load8(v3 + 6)) as u32)
   << 2))) << 4;
 t11 = ((load8(v5 + 12) != load8(v3 + 12)) as u32) | (((load8(v5 + 13) != load8(v3 + 13)) as u32) <<
   1) | ((((load8(v5 + 15) != load8(v3 + 15)) as u32) << 3) | (((load8(v5 + 14) != load8(v3 + 14))
   as u32) << 2));
 t12 = ((load8(v5 + 8) != load8(v3 + 8)) as u32) | (((load8(v5 + 9) != load8(v3 + 9)) as u32) << 1)
   | ((((load8(v5 + 11) != load8(v3 + 11)) as u32) << 3) | (((load8(v5 + 10) != load8(v3 + 10)) as
   u32) << 2));
 t13 = ((load8(v5) != load8(v3)) as u32) | (((load8(v5 + 1) != load8(v3 + 1)) as u32) << 1) |
   ((((load8(v5 + 3) != load8(v3 + 3)) as u32) << 3) | (((load8(v5 + 2) != load8(v3 + 2)) as u32) <<
   2)) | t10 | ((t11 << 12) | (t12 << 8));
 t14 = ((load8(v5 + 16) != load8(v3 + 16)) as u32) | (((load8(v5 + 17) != load8(v3 + 17)) as u32) <<
   1) | ((((load8(v5 + 19) != load8(v3 + 19)) as u32) << 3) | (((load8(v5 + 18) != load8(v3 + 18))
   as u32) << 2));
 t15 = ((load8(v5 + 20) != load8(v3 + 20)) as u32) | (((load8(v5 + 21) != load8(v3 + 21)) as u32) <<
   1) | ((((load8(v5 + 23) != load8(v3 + 23)) as u32) << 3) | (((load8(v5 + 22) != load8(v3 + 22))
   as u32) << 2));
 t16 = ((load8(v5 + 28) != load8(v3 + 28)) as u32) | (((load8(v5 + 29) != load8(v3 + 29)) as u32) <<
   1) | ((((load8(v5 + 31) != load8(v3 + 31)) as u32) << 3) | (((load8(v5 + 30) != load8(v3 + 30))
   as u32) << 2));
 t17 = ((load8(v5 + 24) != load8(v3 + 24)) as u32) | (((load8(v5 + 25) != load8(v3 + 25)) as u32) <<
   1) | ((((load8(v5 + 27) != load8(v3 + 27)) as u32) << 3) | (((load8(v5 + 26) != load8(v3 + 26))
   as u32) << 2));
 if ((t13 | (t14 | (t15 << 4) | ((t16 << 12) | (t17 << 8)))) & 0xffff) != 0 { break 'l10; }
 v3 = v3.plus(32);
 v5 = v5.plus(32);
 v7 = v7.minus(32);
 if v7 >= 32 { continue 'l11; }
 break 'l9;
 }
 }
 if v7 > 31 { break 'l1; }
 break 'l9; }
 v5 = v1.minus(32);
 v3 = v0.plus(v5);
 v5 = v2.plus(v5);
 t18 = (((load8(v3 + 4) != load8(v5 + 4)) as u32) | (((load8(v3 + 5) != load8(v5 + 5)) as u32) << 1)
   | ((((load8(v3 + 7) != load8(v5 + 7)) as u32) << 3) | (((load8(v3 + 6) != load8(v5 + 6)) as u32)
   << 2))) << 4;
 t19 = ((load8(v3 + 12) != load8(v5 + 12)) as u32) | (((load8(v3 + 13) != load8(v5 + 13)) as u32) <<
   1) | ((((load8(v3 + 15) != load8(v5 + 15)) as u32) << 3) | (((load8(v3 + 14) != load8(v5 + 14))
   as u32) << 2));
 t20 = ((load8(v3 + 8) != load8(v5 + 8)) as u32) | (((load8(v3 + 9) != load8(v5 + 9)) as u32) << 1)
   | ((((load8(v3 + 11) != load8(v5 + 11)) as u32) << 3) | (((load8(v3 + 10) != load8(v5 + 10)) as
   u32) << 2));
 t21 = ((load8(v3) != load8(v5)) as u32) | (((load8(v3 + 1) != load8(v5 + 1)) as u32) << 1) |
   ((((load8(v3 + 3) != load8(v5 + 3)) as u32) << 3) | (((load8(v3 + 2) != load8(v5 + 2)) as u32) <<
   2)) | t18 | ((t19 << 12) | (t20 << 8));
 t22 = ((load8(v3 + 16) != load8(v5 + 16)) as u32) | (((load8(v3 + 17) != load8(v5 + 17)) as u32) <<
   1) | ((((load8(v3 + 19) != load8(v5 + 19)) as u32) << 3) | (((load8(v3 + 18) != load8(v5 + 18))
   as u32) << 2));
 t23 = ((load8(v3 + 20) != load8(v5 + 20)) as u32) | (((load8(v3 + 21) != load8(v5 + 21)) as u32) <<
   1) | ((((load8(v3 + 23) != load8(v5 + 23)) as u32) << 3) | (((load8(v3 + 22) != load8(v5 + 22))
   as u32) << 2));
 t24 = ((load8(v3 + 28) != load8(v5 + 28)) as u32) | (((load8(v3 + 29) != load8(v5 + 29)) as u32) <<
   1) | ((((load8(v3 + 31) != load8(v5 + 31)) as u32) << 3) | (((load8(v3 + 30) != load8(v5 + 30))
   as u32) << 2));
 t25 = ((load8(v3 + 24) != load8(v5 + 24)) as u32) | (((load8(v3 + 25) != load8(v5 + 25)) as u32) <<
   1) | ((((load8(v3 + 27) != load8(v5 + 27)) as u32) << 3) | (((load8(v3 + 26) != load8(v5 + 26))
   as u32) << 2));
 v4 = (((t21 | (t22 | (t23 << 4) | ((t24 << 12) | (t25 << 8)))) & 0xffff) != 0) as u32;
 break 'l1;
 }
 v5 = v1.minus(32);
 v3 = v0.plus(v5);
 v5 = v2.plus(v5);
 t26 = (((load8(v3 + 4) != load8(v5 + 4)) as u32) | (((load8(v3 + 5) != load8(v5 + 5)) as u32) << 1)
   | ((((load8(v3 + 7) != load8(v5 + 7)) as u32) << 3) | (((load8(v3 + 6) != load8(v5 + 6)) as u32)
   << 2))) << 4;
 t27 = ((load8(v3 + 12) != load8(v5 + 12)) as u32) | (((load8(v3 + 13) != load8(v5 + 13)) as u32) <<
   1) | ((((load8(v3 + 15) != load8(v5 + 15)) as u32) << 3) | (((load8(v3 + 14) != load8(v5 + 14))
   as u32) << 2));
 t28 = ((load8(v3 + 8) != load8(v5 + 8)) as u32) | (((load8(v3 + 9) != load8(v5 + 9)) as u32) << 1)
   | ((((load8(v3 + 11) != load8(v5 + 11)) as u32) << 3) | (((load8(v3 + 10) != load8(v5 + 10)) as
   u32) << 2));
 t29 = ((load8(v3) != load8(v5)) as u32) | (((load8(v3 + 1) != load8(v5 + 1)) as u32) << 1) |
   ((((load8(v3 + 3) != load8(v5 + 3)) as u32) << 3) | (((load8(v3 + 2) != load8(v5 + 2)) as u32) <<
   2)) | t26 | ((t27 << 12) | (t28 << 8));
 t30 = ((load8(v3 + 16) != load8(v5 + 16)) as u32) | (((load8(v3 + 17) != load8(v5 + 17)) as u32) <<
   1) | ((((load8(v3 + 19) != load8(v5 + 19)) as u32) << 3) | (((load8(v3 + 18) != load8(v5 + 18))
   as u32) << 2));
 t31 = ((load8(v3 + 20) != load8(v5 + 20)) as u32) | (((load8(v3 + 21) != load8(v5 + 21)) as u32) <<
   1) | ((((load8(v3 + 23) != load8(v5 + 23)) as u32) << 3) | (((load8(v3 + 22) != load8(v5 + 22))
   as u32) << 2));
 t32 = ((load8(v3 + 28) != load8(v5 + 28)) as u32) | (((load8(v3 + 29) != load8(v5 + 29)) as u32) <<
   1) | ((((load8(v3 + 31) != load8(v5 + 31)) as u32) << 3) | (((load8(v3 + 30) != load8(v5 + 30))
   as u32) << 2));
 t33 = ((load8(v3 + 24) != load8(v5 + 24)) as u32) | (((load8(v3 + 25) != load8(v5 + 25)) as u32) <<
   1) | ((((load8(v3 + 27) != load8(v5 + 27)) as u32) << 3) | (((load8(v3 + 26) != load8(v5 + 26))
   as u32) << 2));
 t34 = ((((t29 | (t30 | (t31 << 4) | ((t32 << 12) | (t33 << 8)))) & 0xffff) != 0) as u32) |
   ((load8(v0) != load8(v2)) as u32) | (((load8(v0.plus(1)) != load8(v2.plus(1))) as u32) |
   ((load8(v0.plus(2)) != load8(v2.plus(2))) as u32));
 t35 = ((load8(v0.plus(3)) != load8(v2.plus(3))) as u32) | ((load8(v0.plus(4)) != load8(v2.plus(4)))
   as u32) | (((load8(v0.plus(5)) != load8(v2.plus(5))) as u32) | ((load8(v0.plus(6)) !=
   load8(v2.plus(6))) as u32));
 t36 = ((load8(v0.plus(7)) != load8(v2.plus(7))) as u32) | ((load8(v0.plus(8)) != load8(v2.plus(8)))
   as u32) | (((load8(v0.plus(9)) != load8(v2.plus(9))) as u32) | ((load8(v0.plus(10)) !=
   load8(v2.plus(10))) as u32));
 t37 = ((load8(v0.plus(11)) != load8(v2.plus(11))) as u32) | ((load8(v0.plus(12)) !=
   load8(v2.plus(12))) as u32) | (((load8(v0.plus(13)) != load8(v2.plus(13))) as u32) |
   ((load8(v0.plus(14)) != load8(v2.plus(14))) as u32));
 t38 = ((load8(v0.plus(15)) != load8(v2.plus(15))) as u32) | ((load8(v0.plus(16)) !=
   load8(v2.plus(16))) as u32) | (((load8(v0.plus(17)) != load8(v2.plus(17))) as u32) |
   ((load8(v0.plus(18)) != load8(v2.plus(18))) as u32));
 t39 = ((load8(v0.plus(19)) != load8(v2.plus(19))) as u32) | ((load8(v0.plus(20)) !=
   load8(v2.plus(20))) as u32) | (((load8(v0.plus(21)) != load8(v2.plus(21))) as u32) |
   ((load8(v0.plus(22)) != load8(v2.plus(22))) as u32));
 t40 = ((load8(v0.plus(23)) != load8(v2.plus(23))) as u32) | ((load8(v0.plus(24)) !=
   load8(v2.plus(24))) as u32) | (((load8(v0.plus(25)) != load8(v2.plus(25))) as u32) |
   ((load8(v0.plus(26)) != load8(v2.plus(26))) as u32));
 t41 = ((load8(v0.plus(27)) != load8(v2.plus(27))) as u32) | ((load8(v0.plus(28)) !=
   load8(v2.plus(28))) as u32) | (((load8(v0.plus(29)) != load8(v2.plus(29))) as u32) |
   ((load8(v0.plus(30)) != load8(v2.plus(30))) as u32));
 v4 = t34 | t35 | (t36 | t37) | (t38 | t39 | (t40 | t41)) | ((load8(v0.plus(31)) !=
   load8(v2.plus(31))) as u32);
 break 'l1; }
 return (!v4) & 1;
}

// rattle::export vulfsjor_ffi_blake2b_load
#[inline(never)]
unsafe fn exported_blake2b_load(mut v0: u64, mut v1: u64, mut v2: u64) -> u32 {
 let mut v3: u64;
 let mut v4: u64;
 let mut v5: u64;
 let mut v6: u64;
 let mut v7: u64;
 let mut v8: u64;
 let mut v9: u64;
 let mut v10: u64;
 let mut v11: u64;
 let mut v12: u64;
 let mut v13: u64;
 let mut v14: u64;
 let mut v15: u64;
 let mut v16: u64;
 let mut v17: u64;
 let mut v18: u64;
 let mut v19: u64;
 let mut v20: u32;
 let mut v21: u32;
 let mut v22: u32;
 let mut v23: u64;
 let mut t0: u32;
 let mut frame = [0_u64; 114];
 let top = (address!(frame)).plus(912) & !15;
 v3 = top.minus(896);
 'l1: loop {
 'l2: loop {
 if v2 != 275 { break 'l2; }
 v1 = v1.plus(if v1 == 0 { 4096_u64 } else { 0 });
 v2 = load64(v1.plus(8));
 v4 = load64(v1.plus(16));
 v5 = load64(v1.plus(24));
 v6 = load64(v1.plus(32));
 v7 = load64(v1.plus(40));
 v8 = load64(v1.plus(48));
 v9 = load64(v1.plus(56));
 v10 = load64(v1.plus(64));
 v11 = load64(v1.plus(72));
 v12 = load64(v1.plus(80));
 v13 = load64(v1.plus(88));
 v14 = load64(v1.plus(96));
 v15 = load64(v1.plus(104));
 v16 = load64(v1.plus(112));
 v17 = load64(v1.plus(120));
 v18 = load64(v1.plus(128));
 v19 = load64(v1.plus(136));
 v20 = load8(v1 + 145);
 v21 = load8(v1 + 144);
 v22 = load8(v1 + 146);
 store32(v3 + 148, v22 as u64);
 store32(v3 + 144, v21 as u64);
 store32(v3 + 140, 0);
 store32(v3 + 136, v20 as u64);
 store64(v3 + 128, v19);
 store64(v3 + 120, v18);
 store64(v3 + 112, v17);
 store64(v3 + 104, v16);
 store64(v3 + 96, v15);
 store64(v3 + 88, v14);
 store64(v3 + 80, v13);
 store64(v3 + 72, v12);
 store64(v3 + 64, v11);
 store64(v3 + 56, v10);
 store64(v3 + 48, v9);
 store64(v3 + 40, v8);
 store64(v3 + 32, v7);
 store64(v3 + 24, v6);
 store64(v3 + 16, v5);
 store64(v3 + 8, v4);
 store64(v3, v2);
 v23 = v1.plus(147);
 copy(v3.plus(152), v23, 128);
 fill(v3 + 280, 0, 64);
 fill(v3.plus(345), 0, 276);
 state_blake2b_State_save(v3.plus(345), v3);
 if load8(v3 + 345) != 1 { break 'l2; }
 copy(v3.plus(621), v3.plus(345).plus(1), 275);
 if load8(v1) != load8(v3 + 621) { break 'l2; }
 if (load8(v1.plus(1)) & 255) != (load8(v3 + 622) & 255) { break 'l2; }
 if (load8(v1.plus(2)) & 255) != (load8(v3 + 623) & 255) { break 'l2; }
 if (load8(v1.plus(3)) & 255) != (load8(v3 + 624) & 255) { break 'l2; }
 t0 = core_cmp_slices_groups_equal_i8_31_core_cmp_numbers_U8PartialEq(v1, 275, v3.plus(621));
 if t0 == 0 { break 'l2; }
 copy(v3, v23, 128);
 store32(v0 + 148, v22 as u64);
 store32(v0 + 144, v21 as u64);
 v21 = 0;
 store32(v0 + 140, 0);
 store32(v0 + 136, v20 as u64);
 store64(v0 + 128, v19);
 store64(v0 + 120, v18);
 store64(v0 + 112, v17);
 store64(v0 + 104, v16);
 store64(v0 + 96, v15);
 store64(v0 + 88, v14);
 store64(v0 + 80, v13);
 store64(v0 + 72, v12);
 store64(v0 + 64, v11);
 store64(v0 + 56, v10);
 store64(v0 + 48, v9);
 store64(v0 + 40, v8);
 store64(v0 + 32, v7);
 store64(v0 + 24, v6);
 store64(v0 + 16, v5);
 store64(v0 + 8, v4);
 store64(v0, v2);
 copy(v0.plus(152), v3, 128);
 fill(v0 + 280, 0, 64);
 break 'l1;
 }
 fill(v0, 0, 344);
 v21 = 0xffffffff;
 break 'l1; }
 return v21;
}

// rattle::export vulfsjor_ffi_blake2b_wipe
#[inline(never)]
unsafe fn exported_blake2b_wipe(mut v0: u64) {
 'l1: loop {
 break 'l1;
 }
 fill(v0, 0, 344);
}

// rattle::export vulfsjor_ffi_blake2b_digest_size
#[inline(never)]
unsafe fn exported_blake2b_digest_size(mut v0: u64) -> u64 {
 let mut v1: u64;
 let mut v2: u32;
 let mut v3: u32;
 v1 = 0;
 'l2: loop {
 v2 = load32(v0.plus(144));
 if v2.minus(1) > 63 { break 'l2; }
 v3 = load32(v0.plus(136));
 if v3 > 128 { break 'l2; }
 if load32(v0.plus(140)) > 128 { break 'l2; }
 v1 = if load64(v0.plus(128)) > sign64((!v3) as u64, 0x80000000) { 0 } else { (v2 as u64) };
 break 'l2; }
 return v1;
}

// rattle::export vulfsjor_ffi_blake2b_count
#[inline(never)]
unsafe fn exported_blake2b_count(mut v0: u64) -> u64 {
 let mut v1: u64;
 let mut v2: u32;
 let mut v3: u32;
 v1 = 0;
 'l2: loop {
 if load32(v0.plus(144)).minus(1) > 63 { break 'l2; }
 v2 = load32(v0.plus(136));
 if v2 > 128 { break 'l2; }
 v3 = load32(v0.plus(140));
 if v3 > 128 { break 'l2; }
 v0 = load64(v0.plus(128));
 if v0 > sign64((!v2) as u64, 0x80000000) { break 'l2; }
 v0 = v0.plus(v2 as u64);
 v1 = v0.minus(v3 as u64);
 v1 = if v1 > v0 { 0 } else { v1 };
 break 'l2; }
 return v1;
}

// rattle::export vulfsjor_ffi_blake2b_state_size
#[inline(never)]
unsafe fn exported_blake2b_state_size() {
 'l1: loop {
 break 'l1;
 }
}

// vulfsjor_ffi_blake2b_state_size
#[inline(never)]
unsafe fn module_blake2b_state_size() -> u64 {
 'l1: loop {
 break 'l1;
 }
 exported_blake2b_state_size();
 return 344;
}

// blake2_compress::compress::blake2s::compress
#[inline(never)]
unsafe fn compress_compress_blake2s_compress(mut v0: u64, mut v1: u64, mut v2: u64, mut v3: u32, mut
        v4: u32) {
 let mut v5: u32;
 let mut v6: u32;
 let mut v7: u32;
 let mut v8: u32;
 let mut v9: u32;
 let mut v10: u32;
 let mut v11: u32;
 let mut v12: u32;
 let mut v13: u32;
 let mut v14: u32;
 let mut v15: u32;
 let mut v16: u32;
 let mut v17: u32;
 let mut v18: u32;
 let mut v19: u32;
 let mut v20: u32;
 let mut v21: u32;
 let mut v22: u32;
 let mut v23: u32;
 let mut v24: u32;
 let mut v25: u32;
 let mut v26: u32;
 let mut v27: u32;
 let mut v28: u32;
 let mut v29: u32;
 let mut v30: u32;
 let mut v31: u32;
 let mut v32: u32;
 let mut v33: u32;
 let mut v34: u32;
 let mut v35: u32;
 let mut v36: u32;
 let mut v37: u32;
 let mut v38: u32;
 let mut v39: u32;
 let mut v40: u32;
 let mut v41: u32;
 let mut v42: u32;
 let mut v43: u32;
 let mut v44: u32;
 let mut v45: u32;
 let mut t0: u32;
 let mut t1: u32;
 let mut t2: u32;
 let mut t3: u32;
 let mut t4: u32;
 let mut t5: u32;
 let mut t6: u32;
 let mut t7: u32;
 let mut t8: u32;
 let mut t9: u32;
 let mut t10: u32;
 let mut t11: u32;
 let mut t12: u32;
 let mut t13: u32;
 let mut t14: u32;
 let mut t15: u32;
 let mut t16: u32;
 let mut t17: u32;
 let mut t18: u32;
 let mut t19: u32;
 let mut t20: u32;
 let mut t21: u32;
 let mut t22: u32;
 let mut t23: u32;
 let mut t24: u32;
 let mut t25: u32;
 let mut t26: u32;
 let mut t27: u32;
 let mut t28: u32;
 let mut t29: u32;
 let mut t30: u32;
 let mut t31: u32;
 let mut t32: u32;
 let mut t33: u32;
 let mut t34: u32;
 let mut t35: u32;
 let mut t36: u32;
 let mut t37: u32;
 let mut t38: u32;
 let mut t39: u32;
 let mut t40: u32;
 let mut t41: u32;
 let mut t42: u32;
 let mut t43: u32;
 let mut t44: u32;
 let mut t45: u32;
 let mut t46: u32;
 let mut t47: u32;
 let mut t48: u32;
 let mut t49: u32;
 let mut t50: u32;
 let mut t51: u32;
 let mut t52: u32;
 let mut t53: u32;
 let mut t54: u32;
 let mut t55: u32;
 let mut t56: u32;
 let mut t57: u32;
 let mut t58: u32;
 let mut t59: u32;
 let mut t60: u32;
 let mut t61: u32;
 let mut t62: u32;
 let mut t63: u32;
 let mut t64: u32;
 let mut t65: u32;
 let mut t66: u32;
 let mut t67: u32;
 let mut t68: u32;
 let mut t69: u32;
 let mut t70: u32;
 v5 = load32(v0 + 12);
 v6 = load32(v1.plus(24));
 v7 = load32(v0 + 28);
 v8 = v5.plus(v6).plus(v7);
 v9 = load32(v1.plus(28));
 v10 = rotl32((if (v4 & 1) != 0 { 0xffffffff_u32 } else { 0 }) ^ v8 ^ 0x5be0cd19, 16);
 v11 = v10.plus(0xa54ff53a);
 v12 = rotl32(v11 ^ v7, 20);
 v13 = v8.plus(v9).plus(v12);
 v4 = load32(v1.plus(56));
 v14 = load32(v0);
 v8 = load32(v1);
 v15 = load32(v0 + 16);
 v16 = v14.plus(v8).plus(v15);
 v17 = load32(v1 + 4);
 t0 = v16.plus(v17);
 v16 = rotl32((v2 as u32) ^ v16 ^ 0x510e527f, 16);
 v18 = v16.plus(0x6a09e667);
 v19 = rotl32(v18 ^ v15, 20);
 v20 = t0.plus(v19);
 v21 = rotl32(v20 ^ v16, 24);
 v22 = v21.plus(v18);
 v23 = rotl32(v22 ^ v19, 25);
 v24 = v13.plus(v4).plus(v23);
 v16 = load32(v1.plus(60));
 v25 = load32(v0 + 8);
 v18 = load32(v1.plus(16));
 v26 = load32(v0 + 24);
 v27 = v25.plus(v18).plus(v26);
 v19 = load32(v1.plus(20));
 v3 = rotl32((if (v3 & 1) != 0 { 0xe07c2654_u32 } else { 0x1f83d9ab }) ^ v27, 16);
 v28 = v3.plus(0x3c6ef372);
 v29 = rotl32(v28 ^ v26, 20);
 v30 = v27.plus(v19).plus(v29);
 v31 = rotl32(v30 ^ v3, 24);
 v32 = rotl32(v24 ^ v31, 16);
 v33 = load32(v0 + 4);
 v3 = load32(v1 + 8);
 v34 = load32(v0 + 20);
 v27 = v33.plus(v3).plus(v34);
 t1 = v24.plus(v16);
 v24 = load32(v1 + 12);
 t2 = v27.plus(v24);
 v27 = rotl32(((v2 >> 32) as u32) ^ v27 ^ 0x9b05688c, 16);
 v35 = v27.plus(0xbb67ae85);
 v36 = rotl32(v35 ^ v34, 20);
 v37 = t2.plus(v36);
 v38 = rotl32(v37 ^ v27, 24);
 v35 = v38.plus(v35);
 v39 = v32.plus(v35);
 v40 = rotl32(v39 ^ v23, 20);
 v41 = t1.plus(v40);
 v23 = load32(v1.plus(52));
 v27 = load32(v1.plus(48));
 v13 = rotl32(v13 ^ v10, 24);
 t3 = v30.plus(v27);
 v30 = v13.plus(v11);
 v10 = rotl32(v30 ^ v12, 25);
 v11 = t3.plus(v10);
 t4 = v11.plus(v23);
 v11 = rotl32(v11 ^ v38, 16);
 v12 = v11.plus(v22);
 v10 = rotl32(v12 ^ v10, 20);
 v22 = t4.plus(v10);
 v38 = rotl32(v22 ^ v11, 24);
 v42 = v38.plus(v12);
 v43 = rotl32(v42 ^ v10, 25);
 v12 = v41.plus(v23).plus(v43);
 v10 = load32(v1.plus(32));
 t5 = v20.plus(v10);
 v20 = rotl32(v35 ^ v36, 25);
 v35 = t5.plus(v20);
 v11 = load32(v1.plus(36));
 v13 = rotl32(v35 ^ v13, 16);
 v28 = v31.plus(v28);
 v31 = v13.plus(v28);
 v20 = rotl32(v31 ^ v20, 20);
 v35 = v35.plus(v11).plus(v20);
 v36 = rotl32(v35 ^ v13, 24);
 v44 = rotl32(v12 ^ v36, 16);
 t6 = v12.plus(v6);
 v12 = load32(v1.plus(40));
 v28 = rotl32(v28 ^ v29, 25);
 v29 = v37.plus(v12).plus(v28);
 v13 = load32(v1.plus(44));
 v21 = rotl32(v29 ^ v21, 16);
 t7 = v29.plus(v13);
 v29 = v21.plus(v30);
 v28 = rotl32(v29 ^ v28, 20);
 v30 = t7.plus(v28);
 v21 = rotl32(v30 ^ v21, 24);
 v29 = v21.plus(v29);
 v37 = v44.plus(v29);
 v43 = rotl32(v37 ^ v43, 20);
 v45 = t6.plus(v43);
 v32 = rotl32(v41 ^ v32, 24);
 t8 = v35.plus(v4);
 v35 = v32.plus(v39);
 v39 = rotl32(v35 ^ v40, 25);
 v40 = t8.plus(v39);
 v21 = rotl32(v40 ^ v21, 16);
 t9 = v40.plus(v12);
 v40 = v21.plus(v42);
 v39 = rotl32(v40 ^ v39, 20);
 v41 = t9.plus(v39);
 v21 = rotl32(v41 ^ v21, 24);
 v40 = v21.plus(v40);
 v39 = rotl32(v40 ^ v39, 25);
 v42 = v45.plus(v19).plus(v39);
 t10 = v22.plus(v11);
 v22 = rotl32(v29 ^ v28, 25);
 v28 = t10.plus(v22);
 t11 = v28.plus(v16);
 v28 = rotl32(v28 ^ v32, 16);
 v29 = v36.plus(v31);
 v31 = v28.plus(v29);
 v22 = rotl32(v31 ^ v22, 20);
 v32 = t11.plus(v22);
 v28 = rotl32(v32 ^ v28, 24);
 v36 = rotl32(v42 ^ v28, 16);
 v20 = rotl32(v29 ^ v20, 25);
 v29 = v30.plus(v18).plus(v20);
 t12 = v29.plus(v10);
 v29 = rotl32(v29 ^ v38, 16);
 v30 = v29.plus(v35);
 v20 = rotl32(v30 ^ v20, 20);
 v35 = t12.plus(v20);
 v29 = rotl32(v35 ^ v29, 24);
 v30 = v29.plus(v30);
 v38 = v36.plus(v30);
 v39 = rotl32(v38 ^ v39, 20);
 v42 = v42.plus(v24).plus(v39);
 t13 = v32.plus(v13);
 v32 = rotl32(v45 ^ v44, 24);
 v37 = v32.plus(v37);
 v43 = rotl32(v37 ^ v43, 25);
 v44 = t13.plus(v43);
 v29 = rotl32(v44 ^ v29, 16);
 v40 = v29.plus(v40);
 v43 = rotl32(v40 ^ v43, 20);
 v44 = v44.plus(v9).plus(v43);
 v29 = rotl32(v44 ^ v29, 24);
 v40 = v29.plus(v40);
 v43 = rotl32(v40 ^ v43, 25);
 v45 = v42.plus(v16).plus(v43);
 v20 = rotl32(v30 ^ v20, 25);
 v30 = v41.plus(v17).plus(v20);
 t14 = v30.plus(v27);
 v30 = rotl32(v30 ^ v32, 16);
 v28 = v28.plus(v31);
 v31 = v30.plus(v28);
 v20 = rotl32(v31 ^ v20, 20);
 v32 = t14.plus(v20);
 v30 = rotl32(v32 ^ v30, 24);
 v41 = rotl32(v45 ^ v30, 16);
 v22 = rotl32(v28 ^ v22, 25);
 v28 = v35.plus(v8).plus(v22);
 v21 = rotl32(v28 ^ v21, 16);
 t15 = v28.plus(v3);
 v28 = v21.plus(v37);
 v22 = rotl32(v28 ^ v22, 20);
 v35 = t15.plus(v22);
 v21 = rotl32(v35 ^ v21, 24);
 v28 = v21.plus(v28);
 v37 = v41.plus(v28);
 v43 = rotl32(v37 ^ v43, 20);
 v45 = v45.plus(v23).plus(v43);
 t16 = v32.plus(v13);
 v32 = rotl32(v42 ^ v36, 24);
 v36 = v32.plus(v38);
 v38 = rotl32(v36 ^ v39, 25);
 v39 = t16.plus(v38);
 v21 = rotl32(v39 ^ v21, 16);
 t17 = v39.plus(v10);
 v39 = v21.plus(v40);
 v38 = rotl32(v39 ^ v38, 20);
 v40 = t17.plus(v38);
 v21 = rotl32(v40 ^ v21, 24);
 v39 = v21.plus(v39);
 v38 = rotl32(v39 ^ v38, 25);
 v42 = v45.plus(v11).plus(v38);
 v22 = rotl32(v28 ^ v22, 25);
 v28 = v44.plus(v19).plus(v22);
 t18 = v28.plus(v3);
 v28 = rotl32(v28 ^ v32, 16);
 v30 = v30.plus(v31);
 v31 = v28.plus(v30);
 v22 = rotl32(v31 ^ v22, 20);
 v32 = t18.plus(v22);
 v28 = rotl32(v32 ^ v28, 24);
 t19 = v42.plus(v18);
 v42 = rotl32(v42 ^ v28, 16);
 v20 = rotl32(v30 ^ v20, 25);
 v30 = v35.plus(v27).plus(v20);
 v29 = rotl32(v30 ^ v29, 16);
 t20 = v30.plus(v8);
 v30 = v29.plus(v36);
 v20 = rotl32(v30 ^ v20, 20);
 v35 = t20.plus(v20);
 v29 = rotl32(v35 ^ v29, 24);
 v30 = v29.plus(v30);
 v36 = v42.plus(v30);
 v38 = rotl32(v36 ^ v38, 20);
 v44 = t19.plus(v38);
 t21 = v32.plus(v9);
 v32 = rotl32(v45 ^ v41, 24);
 v37 = v32.plus(v37);
 v41 = rotl32(v37 ^ v43, 25);
 v43 = t21.plus(v41);
 v29 = rotl32(v43 ^ v29, 16);
 v39 = v29.plus(v39);
 v41 = rotl32(v39 ^ v41, 20);
 v43 = v43.plus(v17).plus(v41);
 v29 = rotl32(v43 ^ v29, 24);
 v39 = v29.plus(v39);
 v41 = rotl32(v39 ^ v41, 25);
 v45 = v44.plus(v13).plus(v41);
 v20 = rotl32(v30 ^ v20, 25);
 v30 = v40.plus(v12).plus(v20);
 t22 = v30.plus(v4);
 v30 = rotl32(v30 ^ v32, 16);
 v28 = v28.plus(v31);
 v31 = v30.plus(v28);
 v20 = rotl32(v31 ^ v20, 20);
 v32 = t22.plus(v20);
 v30 = rotl32(v32 ^ v30, 24);
 v40 = rotl32(v45 ^ v30, 16);
 v22 = rotl32(v28 ^ v22, 25);
 v28 = v35.plus(v24).plus(v22);
 v21 = rotl32(v28 ^ v21, 16);
 t23 = v28.plus(v6);
 v28 = v21.plus(v37);
 v22 = rotl32(v28 ^ v22, 20);
 v35 = t23.plus(v22);
 v21 = rotl32(v35 ^ v21, 24);
 v28 = v21.plus(v28);
 v37 = v40.plus(v28);
 v41 = rotl32(v37 ^ v41, 20);
 v45 = v45.plus(v4).plus(v41);
 t24 = v32.plus(v9);
 v32 = rotl32(v44 ^ v42, 24);
 v36 = v32.plus(v36);
 v38 = rotl32(v36 ^ v38, 25);
 v42 = t24.plus(v38);
 v21 = rotl32(v42 ^ v21, 16);
 v39 = v21.plus(v39);
 v38 = rotl32(v39 ^ v38, 20);
 v42 = v42.plus(v11).plus(v38);
 v21 = rotl32(v42 ^ v21, 24);
 v39 = v21.plus(v39);
 v38 = rotl32(v39 ^ v38, 25);
 v44 = v45.plus(v16).plus(v38);
 v22 = rotl32(v28 ^ v22, 25);
 v28 = v43.plus(v23).plus(v22);
 t25 = v28.plus(v27);
 v28 = rotl32(v28 ^ v32, 16);
 v30 = v30.plus(v31);
 v31 = v28.plus(v30);
 v22 = rotl32(v31 ^ v22, 20);
 v32 = t25.plus(v22);
 v28 = rotl32(v32 ^ v28, 24);
 v43 = rotl32(v44 ^ v28, 16);
 v20 = rotl32(v30 ^ v20, 25);
 v30 = v35.plus(v24).plus(v20);
 v29 = rotl32(v30 ^ v29, 16);
 t26 = v30.plus(v17);
 v30 = v29.plus(v36);
 v20 = rotl32(v30 ^ v20, 20);
 v35 = t26.plus(v20);
 v29 = rotl32(v35 ^ v29, 24);
 v30 = v29.plus(v30);
 v36 = v43.plus(v30);
 v38 = rotl32(v36 ^ v38, 20);
 v44 = v44.plus(v10).plus(v38);
 t27 = v32.plus(v18);
 v32 = rotl32(v45 ^ v40, 24);
 v37 = v32.plus(v37);
 v40 = rotl32(v37 ^ v41, 25);
 v41 = t27.plus(v40);
 v29 = rotl32(v41 ^ v29, 16);
 v39 = v29.plus(v39);
 v40 = rotl32(v39 ^ v40, 20);
 v41 = v41.plus(v8).plus(v40);
 v29 = rotl32(v41 ^ v29, 24);
 v39 = v29.plus(v39);
 v40 = rotl32(v39 ^ v40, 25);
 v45 = v44.plus(v12).plus(v40);
 v20 = rotl32(v30 ^ v20, 25);
 v30 = v42.plus(v3).plus(v20);
 t28 = v30.plus(v6);
 v30 = rotl32(v30 ^ v32, 16);
 v28 = v28.plus(v31);
 v31 = v30.plus(v28);
 v20 = rotl32(v31 ^ v20, 20);
 v32 = t28.plus(v20);
 v30 = rotl32(v32 ^ v30, 24);
 v42 = rotl32(v45 ^ v30, 16);
 v22 = rotl32(v28 ^ v22, 25);
 v28 = v35.plus(v19).plus(v22);
 v21 = rotl32(v28 ^ v21, 16);
 t29 = v28.plus(v12);
 v28 = v21.plus(v37);
 v22 = rotl32(v28 ^ v22, 20);
 v35 = t29.plus(v22);
 v21 = rotl32(v35 ^ v21, 24);
 v28 = v21.plus(v28);
 v37 = v42.plus(v28);
 v40 = rotl32(v37 ^ v40, 20);
 v45 = v45.plus(v16).plus(v40);
 t30 = v32.plus(v11);
 v32 = rotl32(v44 ^ v43, 24);
 v36 = v32.plus(v36);
 v38 = rotl32(v36 ^ v38, 25);
 v43 = t30.plus(v38);
 v21 = rotl32(v43 ^ v21, 16);
 v39 = v21.plus(v39);
 v38 = rotl32(v39 ^ v38, 20);
 v43 = v43.plus(v8).plus(v38);
 v21 = rotl32(v43 ^ v21, 24);
 v39 = v21.plus(v39);
 v38 = rotl32(v39 ^ v38, 25);
 v44 = v45.plus(v24).plus(v38);
 v22 = rotl32(v28 ^ v22, 25);
 v28 = v41.plus(v3).plus(v22);
 t31 = v28.plus(v18);
 v28 = rotl32(v28 ^ v32, 16);
 v30 = v30.plus(v31);
 v31 = v28.plus(v30);
 v22 = rotl32(v31 ^ v22, 20);
 v32 = t31.plus(v22);
 v28 = rotl32(v32 ^ v28, 24);
 v41 = rotl32(v44 ^ v28, 16);
 v20 = rotl32(v30 ^ v20, 25);
 v30 = v35.plus(v19).plus(v20);
 v29 = rotl32(v30 ^ v29, 16);
 t32 = v30.plus(v9);
 v30 = v29.plus(v36);
 v20 = rotl32(v30 ^ v20, 20);
 v35 = t32.plus(v20);
 v29 = rotl32(v35 ^ v29, 24);
 v30 = v29.plus(v30);
 v36 = v41.plus(v30);
 v38 = rotl32(v36 ^ v38, 20);
 v44 = v44.plus(v23).plus(v38);
 t33 = v32.plus(v6);
 v32 = rotl32(v45 ^ v42, 24);
 v37 = v32.plus(v37);
 v40 = rotl32(v37 ^ v40, 25);
 v42 = t33.plus(v40);
 v29 = rotl32(v42 ^ v29, 16);
 v39 = v29.plus(v39);
 v40 = rotl32(v39 ^ v40, 20);
 v42 = v42.plus(v10).plus(v40);
 v29 = rotl32(v42 ^ v29, 24);
 v39 = v29.plus(v39);
 v40 = rotl32(v39 ^ v40, 25);
 v45 = v44.plus(v10).plus(v40);
 v20 = rotl32(v30 ^ v20, 25);
 v30 = v43.plus(v4).plus(v20);
 t34 = v30.plus(v17);
 v30 = rotl32(v30 ^ v32, 16);
 v28 = v28.plus(v31);
 v31 = v30.plus(v28);
 v20 = rotl32(v31 ^ v20, 20);
 v32 = t34.plus(v20);
 v30 = rotl32(v32 ^ v30, 24);
 v43 = rotl32(v45 ^ v30, 16);
 v22 = rotl32(v28 ^ v22, 25);
 v28 = v35.plus(v13).plus(v22);
 v21 = rotl32(v28 ^ v21, 16);
 t35 = v28.plus(v27);
 v28 = v21.plus(v37);
 v22 = rotl32(v28 ^ v22, 20);
 v35 = t35.plus(v22);
 v21 = rotl32(v35 ^ v21, 24);
 v28 = v21.plus(v28);
 v37 = v43.plus(v28);
 v40 = rotl32(v37 ^ v40, 20);
 v45 = v45.plus(v24).plus(v40);
 t36 = v32.plus(v3);
 v32 = rotl32(v44 ^ v41, 24);
 v36 = v32.plus(v36);
 v38 = rotl32(v36 ^ v38, 25);
 v41 = t36.plus(v38);
 v21 = rotl32(v41 ^ v21, 16);
 v39 = v21.plus(v39);
 v38 = rotl32(v39 ^ v38, 20);
 v41 = v41.plus(v27).plus(v38);
 v21 = rotl32(v41 ^ v21, 24);
 v39 = v21.plus(v39);
 v38 = rotl32(v39 ^ v38, 25);
 v44 = v45.plus(v17).plus(v38);
 v22 = rotl32(v28 ^ v22, 25);
 v28 = v42.plus(v8).plus(v22);
 t37 = v28.plus(v13);
 v28 = rotl32(v28 ^ v32, 16);
 v30 = v30.plus(v31);
 v31 = v28.plus(v30);
 v22 = rotl32(v31 ^ v22, 20);
 v32 = t37.plus(v22);
 v28 = rotl32(v32 ^ v28, 24);
 v42 = rotl32(v44 ^ v28, 16);
 v20 = rotl32(v30 ^ v20, 25);
 v30 = v35.plus(v6).plus(v20);
 v29 = rotl32(v30 ^ v29, 16);
 t38 = v30.plus(v12);
 v30 = v29.plus(v36);
 v20 = rotl32(v30 ^ v20, 20);
 v35 = t38.plus(v20);
 v29 = rotl32(v35 ^ v29, 24);
 v30 = v29.plus(v30);
 v36 = v42.plus(v30);
 v38 = rotl32(v36 ^ v38, 20);
 v44 = v44.plus(v11).plus(v38);
 t39 = v32.plus(v16);
 v32 = rotl32(v45 ^ v43, 24);
 v37 = v32.plus(v37);
 v40 = rotl32(v37 ^ v40, 25);
 v43 = t39.plus(v40);
 v29 = rotl32(v43 ^ v29, 16);
 v39 = v29.plus(v39);
 v40 = rotl32(v39 ^ v40, 20);
 v43 = v43.plus(v4).plus(v40);
 v29 = rotl32(v43 ^ v29, 24);
 v39 = v29.plus(v39);
 v40 = rotl32(v39 ^ v40, 25);
 v45 = v44.plus(v18).plus(v40);
 v20 = rotl32(v30 ^ v20, 25);
 v30 = v41.plus(v18).plus(v20);
 t40 = v30.plus(v23);
 v30 = rotl32(v30 ^ v32, 16);
 v28 = v28.plus(v31);
 v31 = v30.plus(v28);
 v20 = rotl32(v31 ^ v20, 20);
 v32 = t40.plus(v20);
 v30 = rotl32(v32 ^ v30, 24);
 v41 = rotl32(v45 ^ v30, 16);
 v22 = rotl32(v28 ^ v22, 25);
 v28 = v35.plus(v9).plus(v22);
 v21 = rotl32(v28 ^ v21, 16);
 t41 = v28.plus(v19);
 v28 = v21.plus(v37);
 v22 = rotl32(v28 ^ v22, 20);
 v35 = t41.plus(v22);
 v21 = rotl32(v35 ^ v21, 24);
 v28 = v21.plus(v28);
 v37 = v41.plus(v28);
 v40 = rotl32(v37 ^ v40, 20);
 v45 = v45.plus(v12).plus(v40);
 t42 = v32.plus(v27);
 v32 = rotl32(v44 ^ v42, 24);
 v36 = v32.plus(v36);
 v38 = rotl32(v36 ^ v38, 25);
 v42 = t42.plus(v38);
 v21 = rotl32(v42 ^ v21, 16);
 v39 = v21.plus(v39);
 v38 = rotl32(v39 ^ v38, 20);
 v42 = v42.plus(v19).plus(v38);
 v21 = rotl32(v42 ^ v21, 24);
 v39 = v21.plus(v39);
 v38 = rotl32(v39 ^ v38, 25);
 v44 = v45.plus(v10).plus(v38);
 v22 = rotl32(v28 ^ v22, 25);
 v28 = v43.plus(v4).plus(v22);
 t43 = v28.plus(v23);
 v28 = rotl32(v28 ^ v32, 16);
 v30 = v30.plus(v31);
 v31 = v28.plus(v30);
 v22 = rotl32(v31 ^ v22, 20);
 v32 = t43.plus(v22);
 v28 = rotl32(v32 ^ v28, 24);
 v43 = rotl32(v44 ^ v28, 16);
 v20 = rotl32(v30 ^ v20, 25);
 v30 = v35.plus(v17).plus(v20);
 v29 = rotl32(v30 ^ v29, 16);
 t44 = v30.plus(v16);
 v30 = v29.plus(v36);
 v20 = rotl32(v30 ^ v20, 20);
 v35 = t44.plus(v20);
 v29 = rotl32(v35 ^ v29, 24);
 v30 = v29.plus(v30);
 v36 = v43.plus(v30);
 v38 = rotl32(v36 ^ v38, 20);
 v44 = v44.plus(v13).plus(v38);
 t45 = v32.plus(v11);
 v32 = rotl32(v45 ^ v41, 24);
 v37 = v32.plus(v37);
 v40 = rotl32(v37 ^ v40, 25);
 v41 = t45.plus(v40);
 v29 = rotl32(v41 ^ v29, 16);
 v39 = v29.plus(v39);
 v40 = rotl32(v39 ^ v40, 20);
 v41 = v41.plus(v3).plus(v40);
 v29 = rotl32(v41 ^ v29, 24);
 v39 = v29.plus(v39);
 v40 = rotl32(v39 ^ v40, 25);
 v45 = v44.plus(v24).plus(v40);
 v20 = rotl32(v30 ^ v20, 25);
 v30 = v42.plus(v8).plus(v20);
 t46 = v30.plus(v9);
 v30 = rotl32(v30 ^ v32, 16);
 v28 = v28.plus(v31);
 v31 = v30.plus(v28);
 v20 = rotl32(v31 ^ v20, 20);
 v32 = t46.plus(v20);
 v30 = rotl32(v32 ^ v30, 24);
 v42 = rotl32(v45 ^ v30, 16);
 v22 = rotl32(v28 ^ v22, 25);
 v28 = v35.plus(v6).plus(v22);
 v21 = rotl32(v28 ^ v21, 16);
 t47 = v28.plus(v24);
 v28 = v21.plus(v37);
 v22 = rotl32(v28 ^ v22, 20);
 v35 = t47.plus(v22);
 v21 = rotl32(v35 ^ v21, 24);
 v28 = v21.plus(v28);
 v37 = v42.plus(v28);
 v40 = rotl32(v37 ^ v40, 20);
 v45 = v45.plus(v11).plus(v40);
 t48 = v32.plus(v23);
 v32 = rotl32(v44 ^ v43, 24);
 v36 = v32.plus(v36);
 v38 = rotl32(v36 ^ v38, 25);
 v43 = t48.plus(v38);
 v21 = rotl32(v43 ^ v21, 16);
 v39 = v21.plus(v39);
 v38 = rotl32(v39 ^ v38, 20);
 v43 = v43.plus(v13).plus(v38);
 v21 = rotl32(v43 ^ v21, 24);
 v39 = v21.plus(v39);
 v38 = rotl32(v39 ^ v38, 25);
 v44 = v45.plus(v3).plus(v38);
 v22 = rotl32(v28 ^ v22, 25);
 v28 = v41.plus(v27).plus(v22);
 t49 = v28.plus(v17);
 v28 = rotl32(v28 ^ v32, 16);
 v30 = v30.plus(v31);
 v31 = v28.plus(v30);
 v22 = rotl32(v31 ^ v22, 20);
 v32 = t49.plus(v22);
 v28 = rotl32(v32 ^ v28, 24);
 v41 = rotl32(v44 ^ v28, 16);
 v20 = rotl32(v30 ^ v20, 25);
 v30 = v35.plus(v9).plus(v20);
 v29 = rotl32(v30 ^ v29, 16);
 t50 = v30.plus(v4);
 v30 = v29.plus(v36);
 v20 = rotl32(v30 ^ v20, 20);
 v35 = t50.plus(v20);
 v29 = rotl32(v35 ^ v29, 24);
 v30 = v29.plus(v30);
 v36 = v41.plus(v30);
 v38 = rotl32(v36 ^ v38, 20);
 v44 = v44.plus(v12).plus(v38);
 t51 = v32.plus(v10);
 v32 = rotl32(v45 ^ v42, 24);
 v37 = v32.plus(v37);
 v40 = rotl32(v37 ^ v40, 25);
 v42 = t51.plus(v40);
 v29 = rotl32(v42 ^ v29, 16);
 v39 = v29.plus(v39);
 v40 = rotl32(v39 ^ v40, 20);
 v42 = v42.plus(v6).plus(v40);
 v29 = rotl32(v42 ^ v29, 24);
 v39 = v29.plus(v39);
 v40 = rotl32(v39 ^ v40, 25);
 v45 = v44.plus(v8).plus(v40);
 v20 = rotl32(v30 ^ v20, 25);
 v30 = v43.plus(v19).plus(v20);
 t52 = v30.plus(v8);
 v30 = rotl32(v30 ^ v32, 16);
 v28 = v28.plus(v31);
 v31 = v30.plus(v28);
 v20 = rotl32(v31 ^ v20, 20);
 v32 = t52.plus(v20);
 v30 = rotl32(v32 ^ v30, 24);
 v43 = rotl32(v45 ^ v30, 16);
 v22 = rotl32(v28 ^ v22, 25);
 v28 = v35.plus(v16).plus(v22);
 v21 = rotl32(v28 ^ v21, 16);
 t53 = v28.plus(v18);
 v28 = v21.plus(v37);
 v22 = rotl32(v28 ^ v22, 20);
 v35 = t53.plus(v22);
 v21 = rotl32(v35 ^ v21, 24);
 v28 = v21.plus(v28);
 v37 = v43.plus(v28);
 v40 = rotl32(v37 ^ v40, 20);
 v45 = v45.plus(v10).plus(v40);
 t54 = v32.plus(v6);
 v32 = rotl32(v44 ^ v41, 24);
 v36 = v32.plus(v36);
 v38 = rotl32(v36 ^ v38, 25);
 v41 = t54.plus(v38);
 v21 = rotl32(v41 ^ v21, 16);
 v39 = v21.plus(v39);
 v38 = rotl32(v39 ^ v38, 20);
 v41 = v41.plus(v16).plus(v38);
 v21 = rotl32(v41 ^ v21, 24);
 v39 = v21.plus(v39);
 v38 = rotl32(v39 ^ v38, 25);
 v44 = v45.plus(v12).plus(v38);
 v22 = rotl32(v28 ^ v22, 25);
 v28 = v42.plus(v13).plus(v22);
 t55 = v28.plus(v24);
 v28 = rotl32(v28 ^ v32, 16);
 v30 = v30.plus(v31);
 v31 = v28.plus(v30);
 v22 = rotl32(v31 ^ v22, 20);
 v32 = t55.plus(v22);
 v28 = rotl32(v32 ^ v28, 24);
 v42 = rotl32(v44 ^ v28, 16);
 v20 = rotl32(v30 ^ v20, 25);
 v30 = v35.plus(v4).plus(v20);
 v29 = rotl32(v30 ^ v29, 16);
 t56 = v30.plus(v11);
 v30 = v29.plus(v36);
 v20 = rotl32(v30 ^ v20, 20);
 v35 = t56.plus(v20);
 v29 = rotl32(v35 ^ v29, 24);
 v30 = v29.plus(v30);
 v36 = v42.plus(v30);
 v38 = rotl32(v36 ^ v38, 20);
 v44 = v44.plus(v19).plus(v38);
 t57 = v44.plus(v17);
 t58 = v32.plus(v17);
 v17 = rotl32(v45 ^ v43, 24);
 v32 = v17.plus(v37);
 v37 = rotl32(v32 ^ v40, 25);
 v40 = t58.plus(v37);
 v29 = rotl32(v40 ^ v29, 16);
 v39 = v29.plus(v39);
 v37 = rotl32(v39 ^ v37, 20);
 v40 = v40.plus(v18).plus(v37);
 v29 = rotl32(v40 ^ v29, 24);
 v39 = v29.plus(v39);
 v37 = rotl32(v39 ^ v37, 25);
 v43 = t57.plus(v37);
 t59 = v43.plus(v19);
 v19 = rotl32(v30 ^ v20, 25);
 v20 = v41.plus(v27).plus(v19);
 v17 = rotl32(v20 ^ v17, 16);
 t60 = v20.plus(v3);
 v20 = v28.plus(v31);
 v28 = v17.plus(v20);
 v19 = rotl32(v28 ^ v19, 20);
 v30 = t60.plus(v19);
 v17 = rotl32(v30 ^ v17, 24);
 v31 = rotl32(v43 ^ v17, 16);
 v20 = rotl32(v20 ^ v22, 25);
 v22 = v35.plus(v23).plus(v20);
 v21 = rotl32(v22 ^ v21, 16);
 t61 = v22.plus(v9);
 v22 = v21.plus(v32);
 v20 = rotl32(v22 ^ v20, 20);
 v32 = t61.plus(v20);
 v21 = rotl32(v32 ^ v21, 24);
 v22 = v21.plus(v22);
 v35 = v31.plus(v22);
 v37 = rotl32(v35 ^ v37, 20);
 v41 = t59.plus(v37);
 t62 = v41.plus(v23);
 v23 = rotl32(v44 ^ v42, 24);
 t63 = v30.plus(v12);
 v12 = v23.plus(v36);
 v30 = rotl32(v12 ^ v38, 25);
 v36 = t63.plus(v30);
 t64 = v36.plus(v3);
 v3 = rotl32(v36 ^ v21, 16);
 v21 = v3.plus(v39);
 v30 = rotl32(v21 ^ v30, 20);
 v36 = t64.plus(v30);
 v3 = rotl32(v36 ^ v3, 24);
 v21 = v3.plus(v21);
 v30 = rotl32(v21 ^ v30, 25);
 v38 = t62.plus(v30);
 t65 = v40.plus(v9);
 v9 = rotl32(v22 ^ v20, 25);
 t66 = v38.plus(v8);
 v8 = t65.plus(v9);
 t67 = v8.plus(v6);
 v6 = rotl32(v8 ^ v23, 16);
 v8 = v17.plus(v28);
 v17 = v6.plus(v8);
 v9 = rotl32(v17 ^ v9, 20);
 v23 = t67.plus(v9);
 v6 = rotl32(v23 ^ v6, 24);
 v20 = rotl32(v38 ^ v6, 16);
 v8 = rotl32(v8 ^ v19, 25);
 v19 = v32.plus(v10).plus(v8);
 t68 = v19.plus(v18);
 v18 = rotl32(v19 ^ v29, 16);
 v19 = v18.plus(v12);
 v8 = rotl32(v19 ^ v8, 20);
 v10 = t68.plus(v8);
 v18 = rotl32(v10 ^ v18, 24);
 v19 = v18.plus(v19);
 v12 = v20.plus(v19);
 v22 = rotl32(v12 ^ v30, 20);
 v28 = t66.plus(v22);
 v6 = v6.plus(v17);
 v9 = rotl32(v6 ^ v9, 25);
 v17 = v10.plus(v11).plus(v9);
 t69 = v17.plus(v4);
 v4 = rotl32(v17 ^ v3, 16);
 v17 = rotl32(v41 ^ v31, 24);
 v3 = v17.plus(v35);
 v10 = v4.plus(v3);
 v9 = rotl32(v10 ^ v9, 20);
 v11 = t69.plus(v9);
 v4 = rotl32(v11 ^ v4, 24);
 v10 = v4.plus(v10);
 store32(v0 + 12, (v28 ^ v10 ^ v5) as u64);
 v3 = rotl32(v3 ^ v37, 25);
 v24 = v23.plus(v24).plus(v3);
 v18 = rotl32(v24 ^ v18, 16);
 t70 = v27.plus(v24);
 v24 = v18.plus(v21);
 v3 = rotl32(v24 ^ v3, 20);
 v23 = t70.plus(v3);
 v8 = rotl32(v19 ^ v8, 25);
 v16 = v36.plus(v16).plus(v8);
 v17 = rotl32(v16 ^ v17, 16);
 v6 = v17.plus(v6);
 v8 = rotl32(v6 ^ v8, 20);
 v16 = v13.plus(v16).plus(v8);
 v17 = rotl32(v16 ^ v17, 24);
 v6 = v17.plus(v6);
 store32(v0 + 8, (v25 ^ (v23 ^ v6)) as u64);
 v19 = rotl32(v28 ^ v20, 24);
 v27 = v19.plus(v12);
 store32(v0 + 4, (v33 ^ (v11 ^ v27)) as u64);
 v18 = rotl32(v23 ^ v18, 24);
 v24 = v18.plus(v24);
 store32(v0, (v14 ^ (v16 ^ v24)) as u64);
 store32(v0 + 20, (v34 ^ (v18 ^ rotl32(v6 ^ v8, 25))) as u64);
 store32(v0 + 16, (v15 ^ (v4 ^ rotl32(v27 ^ v22, 25))) as u64);
 store32(v0 + 24, (v26 ^ (v19 ^ rotl32(v10 ^ v9, 25))) as u64);
 store32(v0 + 28, (v7 ^ (v17 ^ rotl32(v24 ^ v3, 25))) as u64);
 return;
}

// Overwrites the stack below the caller.
#[inline(never)]
unsafe fn digest_wiping_scrub_stack_768() {
    let mut room = [0_u64; 352];
    for word in room.iter_mut() {
        core::ptr::write_volatile(word, 0);
    }
}

// blake2_compress::whole::blake2s::absorb_keyed
#[inline(never)]
unsafe fn compress_whole_blake2s_absorb_keyed(mut v0: u64, mut v1: u64, mut v2: u64, mut v3: u64,
        mut v4: u64) {
 let mut v5: u64;
 let mut v6: u64;
 let mut frame = [0_u64; 18];
 let top = (address!(frame)).plus(144) & !15;
 v5 = top.minus(128);
 'l1: loop {
 v6 = v5;
 fill(v6, 0, 64);
 'l3: loop {
 if v2 == 0 { break 'l3; }
 copy(v6, v1, v2);
 break 'l3; }
 'l4: loop {
 if !(v4 == 0) { break 'l4; }
 compress_compress_blake2s_compress(v0, v6, 64, 1, 0);
 break 'l1;
 }
 compress_compress_blake2s_compress(v0, v6, 64, 0, 0);
 'l5: loop {
 v1 = v4.minus(1);
 v5 = v1 >> 6;
 if v5 == 0 { break 'l5; }
 v2 = 128;
 'l6: loop {
 compress_compress_blake2s_compress(v0, v3.plus(v2).minus(128), v2, 0, 0);
 v2 = v2.plus(64);
 v5 = v5.minus(1);
 if v5 != 0 { continue 'l6; }
 break 'l6; }
 break 'l5; }
 fill(v6 + 64, 0, 64);
 'l7: loop {
 v2 = v1 & 0xffffffffffffffc0;
 v5 = v4.minus(v2);
 if v5 == 0 { break 'l7; }
 copy(v6.plus(64), v3.plus(v2), v5);
 break 'l7; }
 compress_compress_blake2s_compress(v0, v6.plus(64), v4.plus(64), 1, 0);
 break 'l1;
 }
}

// blake2_ffi::blake2s::write_digest
#[inline(never)]
unsafe fn ffi_blake2s_write_digest(mut v0: u64, mut v1: u64, mut v2: u64, mut v3: u64, mut v4: u64)
        {
 let mut v5: u64;
 let mut v6: u64;
 let mut v7: u64;
 let mut v8: u32;
 let mut frame = [0_u64; 18];
 let top = (address!(frame)).plus(144) & !15;
 v5 = top.minus(128);
 v6 = load64(v4.plus(16));
 v7 = load64(v4.plus(8));
 fill(v5, 0, 32);
 v8 = load8(v4);
 store32(v5 + 60, 0x5be0cd19);
 store64(v5 + 52, 0x1f83d9ab9b05688c);
 store64(v5 + 44, 0x510e527fa54ff53a);
 store64(v5 + 36, 0x3c6ef372bb67ae85);
 store32(v5 + 32, (((if v8 != 0 { ((((v6 as u32) << 8) & 0xff00) | 0x1010000) } else { 0x1010000 })
   | ((v1 as u32) & 255)) ^ 0x6a09e667) as u64);
 'l2: loop {
 'l3: loop {
 if v8 != 0 { break 'l3; }
 'l4: loop {
 v7 = v3.minus(((v3 != 0) as u32) as u64);
 v6 = v7 >> 6;
 if v6 == 0 { break 'l4; }
 v4 = 64;
 'l5: loop {
 compress_compress_blake2s_compress(v5.plus(32), v2.plus(v4).minus(64), v4, 0, 0);
 v4 = v4.plus(64);
 v6 = v6.minus(1);
 if v6 != 0 { continue 'l5; }
 break 'l5; }
 break 'l4; }
 fill(v5 + 64, 0, 64);
 'l6: loop {
 v4 = v7 & 0xffffffffffffffc0;
 v6 = v3.minus(v4);
 if v6 == 0 { break 'l6; }
 copy(v5.plus(64), v2.plus(v4), v6);
 break 'l6; }
 compress_compress_blake2s_compress(v5.plus(32), v5.plus(64), v3, 1, 0);
 break 'l2;
 }
 compress_whole_blake2s_absorb_keyed(v5.plus(32), v7, v6, v2, v3);
 break 'l2; }
 store64(v5, load64(v5 + 32));
 store64(v5 + 8, load64(v5 + 40));
 store64(v5 + 16, load64(v5 + 48));
 store64(v5 + 24, load64(v5 + 56));
 'l7: loop {
 if v1 == 0 { break 'l7; }
 copy(v0, v5, v1);
 break 'l7; }
 return;
}

// blake2_ffi::blake2s::write_keyed
#[inline(never)]
unsafe fn ffi_blake2s_write_keyed(mut v0: u64, mut v1: u64, mut v2: u64, mut v3: u64, mut v4: u64,
        mut v5: u64) -> u32 {
 let mut v6: u64;
 let mut v7: u32;
 let mut frame = [0_u64; 6];
 let top = (address!(frame)).plus(48) & !15;
 v6 = top.minus(32);
 v7 = 0xffffffff;
 'l2: loop {
 if v3 > 0xffffffffffffffbf { break 'l2; }
 if v1.minus(33) < 0xffffffffffffffe0 { break 'l2; }
 if v5 >= 33 { break 'l2; }
 store64(v6 + 24, v5);
 store64(v6 + 16, v4);
 store64(v6 + 8, 1);
 ffi_blake2s_write_digest(v0, v1, v2, v3, v6.plus(8));
 v7 = 0;
 break 'l2; }
 return v7;
}

// rattle::export vulfsjor_ffi_blake2s
#[inline(never)]
unsafe fn exported_blake2s(mut v0: u64, mut v1: u64, mut v2: u64, mut v3: u64, mut v4: u64, mut v5:
        u64) -> u32 {
 let mut v6: u64;
 let mut v7: u64;
 let mut v8: u64;
 let mut v9: u32;
 let mut frame = [0_u64; 18];
 let top = (address!(frame)).plus(144) & !15;
 v6 = top.minus(128);
 'l1: loop {
 'l2: loop {
 v7 = v2.plus(if v2 == 0 { 4096_u64 } else { 0 });
 v8 = v0.plus(if v0 == 0 { 4096_u64 } else { 0 });
 fill(v6 + 16, 0, 16);
 'l4: loop {
 if v5 == 0 { break 'l4; }
 v9 = ffi_blake2s_write_keyed(v8, v1, v7, v3, v4.plus(if v4 == 0 { 4096_u64 } else { 0 }), v5);
 digest_wiping_scrub_stack_768();
 break 'l1;
 }
 v9 = 0xffffffff;
 if v1.minus(1) > 31 { break 'l1; }
 if v1 != 32 { break 'l2; }
 store64(v6 + 56, 0x5be0cd191f83d9ab);
 store64(v6 + 48, 0x9b05688c510e527f);
 store64(v6 + 40, 0xa54ff53a3c6ef372);
 store64(v6 + 32, 0xbb67ae856b08e647);
 'l5: loop {
 v5 = v3.minus(((v3 != 0) as u32) as u64);
 v0 = v5 >> 6;
 if v0 == 0 { break 'l5; }
 v2 = 64;
 'l6: loop {
 compress_compress_blake2s_compress(v6.plus(32), v7.plus(v2).minus(64), v2, 0, 0);
 v2 = v2.plus(64);
 v0 = v0.minus(1);
 if v0 != 0 { continue 'l6; }
 break 'l6; }
 break 'l5; }
 fill(v6 + 64, 0, 64);
 'l7: loop {
 v2 = v5 & 0xffffffffffffffc0;
 v0 = v3.minus(v2);
 if v0 == 0 { break 'l7; }
 copy(v6.plus(64), v7.plus(v2), v0);
 break 'l7; }
 v9 = 0;
 compress_compress_blake2s_compress(v6.plus(32), v6.plus(64), v3, 1, 0);
 v2 = load64(v6 + 32);
 v0 = load64(v6 + 40);
 v7 = load64(v6 + 48);
 store64(v8 + 24, load64(v6 + 56));
 store64(v8 + 16, v7);
 store64(v8 + 8, v0);
 store64(v8, v2);
 break 'l1;
 }
 store64(v6 + 8, 0);
 ffi_blake2s_write_digest(v8, v1, v7, v3, v6.plus(8));
 v9 = 0;
 break 'l1; }
 return v9;
}

// Overwrites the stack below the caller.
#[inline(never)]
unsafe fn digest_wiping_scrub_stack_5632() {
    let mut room = [0_u64; 960];
    for word in room.iter_mut() {
        core::ptr::write_volatile(word, 0);
    }
}

// blake2_state::blake2s::State::write_digest
#[inline(never)]
unsafe fn state_blake2s_State_write_digest(mut v0: u64, mut v1: u64) {
 let mut v2: u64;
 let mut v3: u64;
 let mut frame = [0_u64; 18];
 let top = (address!(frame)).plus(144) & !15;
 v2 = top.minus(128);
 fill(v2, 0, 32);
 fill(v2 + 64, 0, 64);
 store64(v2 + 56, load64(v0 + 24));
 store64(v2 + 48, load64(v0 + 16));
 store64(v2 + 40, load64(v0 + 8));
 store64(v2 + 32, load64(v0));
 'l2: loop {
 v3 = load16(v0.plus(72)) as u64;
 if v3 == 0 { break 'l2; }
 copy(v2.plus(64), v0.plus(80), v3);
 break 'l2; }
 compress_compress_blake2s_compress(v2.plus(32), v2.plus(64), load64(v0.plus(64)).plus(v3), 1,
   (load16(v0.plus(78)) != 0) as u32);
 store64(v2, load64(v2 + 32));
 store64(v2 + 8, load64(v2 + 40));
 store64(v2 + 16, load64(v2 + 48));
 store64(v2 + 24, load64(v2 + 56));
 'l3: loop {
 v0 = load16(v0.plus(76)) as u64;
 if v0 == 0 { break 'l3; }
 copy(v1, v2, v0);
 break 'l3; }
 return;
}

// blake2_state::blake2s::State::absorb_blocks
#[inline(never)]
unsafe fn state_blake2s_State_absorb_blocks(mut v0: u64, mut v1: u64, mut v2: u64) {
 let mut v3: u64;
 let mut v4: u32;
 let mut v5: u64;
 let mut v6: u64;
 let mut v7: u64;
 let mut v8: u64;
 let mut v9: u64;
 let mut v10: u64;
 let mut v11: u64;
 let mut v12: u64;
 let mut v13: u64;
 let mut v14: u64;
 let mut frame = [0_u64; 12];
 let top = (address!(frame)).plus(96) & !15;
 v3 = top.minus(80);
 'l2: loop {
 'l3: loop {
 v4 = load16(v0.plus(72));
 v5 = (v4 as u64) & 0xffff;
 v6 = 64_u64.minus(v5);
 if v2 > v6 { break 'l3; }
 'l4: loop {
 'l5: loop {
 v7 = v0.plus(v5);
 v8 = v7.plus(80);
 if v8.minus(v1) >= v2 { break 'l5; }
 v9 = v2 & 3;
 v10 = 0;
 'l6: loop {
 if v2 < 4 { break 'l6; }
 v11 = v2 & 0xfffffffffffffffc;
 v10 = 0;
 'l7: loop {
 v8 = v7.plus(v10);
 v12 = v1.plus(v10);
 store8(v8.plus(80), load8(v12) as u64);
 store8(v8.plus(81), load8(v12.plus(1)) as u64);
 store8(v8.plus(82), load8(v12.plus(2)) as u64);
 store8(v8.plus(83), load8(v12.plus(3)) as u64);
 v10 = v10.plus(4);
 if v11 != v10 { continue 'l7; }
 break 'l7; }
 if v9 == 0 { break 'l4; }
 break 'l6; }
 v8 = v1.plus(v10);
 v10 = v10.plus(v5).plus(v0).plus(80);
 'l8: loop {
 store8(v10, load8(v8) as u64);
 v10 = v10.plus(1);
 v8 = v8.plus(1);
 v9 = v9.minus(1);
 if v9 != 0 { continue 'l8; }
 break 'l4;
 }
 }
 if v2 == 0 { break 'l4; }
 copy(v8, v1, v2);
 break 'l4; }
 store16(v0.plus(72), v4.plus(v2 as u32) as u64);
 break 'l2;
 }
 store64(v3, load64(v0));
 store64(v3 + 8, load64(v0 + 8));
 store64(v3 + 16, load64(v0 + 16));
 store64(v3 + 24, load64(v0 + 24));
 v13 = load64(v0.plus(64));
 store64(v3 + 64, v13);
 store64(v3 + 32, load64(v0.plus(32)));
 store64(v3 + 40, load64(v0.plus(40)));
 store64(v3 + 48, load64(v0.plus(48)));
 store64(v3 + 56, load64(v0.plus(56)));
 store64(v3 + 72, ((load16(v0.plus(78)) != 0) as u32) as u64);
 v7 = v0.plus(80);
 'l9: loop {
 if (v4 & 0xffff) == 0 { break 'l9; }
 'l10: loop {
 'l11: loop {
 v8 = v7.plus(v5);
 if v8.minus(v1) >= v6 { break 'l11; }
 v9 = v6 & 3;
 v10 = 0;
 'l12: loop {
 if (v4.minus(61) & 0xffff) < 3 { break 'l12; }
 v11 = v0.plus(v5);
 v14 = v6 & 0xfffffffffffffffc;
 v10 = 0;
 'l13: loop {
 v8 = v11.plus(v10);
 v12 = v1.plus(v10);
 store8(v8.plus(80), load8(v12) as u64);
 store8(v8.plus(81), load8(v12.plus(1)) as u64);
 store8(v8.plus(82), load8(v12.plus(2)) as u64);
 store8(v8.plus(83), load8(v12.plus(3)) as u64);
 v10 = v10.plus(4);
 if v14 != v10 { continue 'l13; }
 break 'l13; }
 if v9 == 0 { break 'l10; }
 break 'l12; }
 v8 = v1.plus(v10);
 v10 = v10.plus(v5).plus(v0).plus(80);
 'l14: loop {
 store8(v10, load8(v8) as u64);
 v10 = v10.plus(1);
 v8 = v8.plus(1);
 v9 = v9.minus(1);
 if v9 != 0 { continue 'l14; }
 break 'l10;
 }
 }
 if v6 == 0 { break 'l10; }
 copy(v8, v1, v6);
 break 'l10; }
 v2 = v2.minus(v6);
 v1 = v1.plus(v6);
 v8 = v13.plus(64);
 store64(v3 + 64, v8);
 compress_compress_blake2s_compress(v3, v7, v8, 0, 0);
 break 'l9; }
 v8 = v2.minus(((v2 != 0) as u32) as u64);
 v14 = v8 & 0xffffffffffffffc0;
 'l15: loop {
 v10 = v8 >> 6;
 if v10 == 0 { break 'l15; }
 v8 = v1;
 'l16: loop {
 v12 = load64(v3 + 64).plus(64);
 store64(v3 + 64, v12);
 compress_compress_blake2s_compress(v3, v8, v12, 0, 0);
 v8 = v8.plus(64);
 v10 = v10.minus(1);
 if v10 != 0 { continue 'l16; }
 break 'l16; }
 break 'l15; }
 fill(v7, 0, 64);
 'l17: loop {
 'l18: loop {
 v11 = v1.plus(v14);
 v6 = v2.minus(v14);
 if v7.minus(v11) >= v6 { break 'l18; }
 v9 = v2 & 3;
 v10 = 0;
 'l19: loop {
 if v14.minus(v2) > 0xfffffffffffffffc { break 'l19; }
 v2 = (v2 & 0xfffffffffffffffc).minus(v14);
 v10 = 0;
 'l20: loop {
 v8 = v0.plus(v10);
 v12 = v11.plus(v10);
 store8(v8.plus(80), load8(v12) as u64);
 store8(v8.plus(81), load8(v12.plus(1)) as u64);
 store8(v8.plus(82), load8(v12.plus(2)) as u64);
 store8(v8.plus(83), load8(v12.plus(3)) as u64);
 v10 = v10.plus(4);
 if v2 != v10 { continue 'l20; }
 break 'l20; }
 if v9 == 0 { break 'l17; }
 break 'l19; }
 v8 = v10.plus(v0).plus(80);
 v10 = v1.plus(v10.plus(v14));
 'l21: loop {
 store8(v8, load8(v10) as u64);
 v8 = v8.plus(1);
 v10 = v10.plus(1);
 v9 = v9.minus(1);
 if v9 != 0 { continue 'l21; }
 break 'l17;
 }
 }
 if v6 == 0 { break 'l17; }
 copy(v7, v11, v6);
 break 'l17; }
 store64(v0 + 24, load64(v3 + 24));
 store64(v0 + 16, load64(v3 + 16));
 store64(v0 + 8, load64(v3 + 8));
 store64(v0, load64(v3));
 store16(v0.plus(72), v6);
 store64(v0.plus(64), load64(v3 + 64));
 break 'l2; }
 return;
}

// blake2_ffi::blake2s::many::write_all
#[inline(never)]
unsafe fn ffi_blake2s_many_write_all(mut v0: u64, mut v1: u64, mut v2: u64, mut v3: u64, mut v4:
        u64) {
 let mut v5: u64;
 let mut v6: u64;
 let mut v7: u64;
 let mut v8: u64;
 let mut v9: u64;
 let mut v10: u64;
 let mut v11: u64;
 let mut v12: u64;
 let mut v13: u64;
 let mut v14: u64;
 let mut v15: u64;
 let mut v16: u64;
 let mut v17: u64;
 let mut v18: u64;
 let mut v19: u64;
 let mut v20: u64;
 let mut v21: u32;
 let mut v22: u32;
 let mut v23: u32;
 let mut v24: u32;
 let mut v25: u32;
 let mut v26: u32;
 let mut v27: u64;
 let mut frame = [0_u64; 38];
 let top = (address!(frame)).plus(304) & !15;
 let _ = v1;
 v5 = top.minus(288);
 'l2: loop {
 if v4 == 0 { break 'l2; }
 v6 = v5.plus(176) | 8;
 v7 = v5.plus(224).plus(32);
 v8 = v5.plus(192) | 8;
 v9 = v5.plus(144);
 v10 = v5.plus(80);
 v11 = 0;
 'l3: loop {
 'l4: loop {
 v12 = load64(v2);
 if v12.minus(33) < 0xffffffffffffffe0 { break 'l4; }
 v13 = load64(v2.plus(16));
 if v13 > 32 { break 'l4; }
 v14 = load64(v2.plus(32));
 if v14 > 8 { break 'l4; }
 v15 = load64(v2.plus(48));
 if v15 > 8 { break 'l4; }
 v16 = v12.times(v11);
 v17 = load64(v3.plus(8));
 v18 = load64(v3);
 v19 = load64(v2.plus(40));
 v20 = load64(v2.plus(24));
 'l5: loop {
 'l6: loop {
 if v13 != 0 { break 'l6; }
 fill(v5 + 176, 0, 16);
 'l7: loop {
 if v14 == 0 { break 'l7; }
 copy(v5.plus(176), v20, v14);
 break 'l7; }
 'l8: loop {
 if v15 == 0 { break 'l8; }
 copy(v6, v19, v15);
 break 'l8; }
 fill(v5 + 192, 0, 96);
 v21 = ((v12 as u32) | 0x1010000) ^ 0x6a09e667;
 v22 = load32(v5 + 188) ^ 0x5be0cd19;
 v23 = load32(v5 + 184) ^ 0x1f83d9ab;
 v24 = load32(v5 + 180) ^ 0x9b05688c;
 v25 = load32(v5 + 176) ^ 0x510e527f;
 v26 = 0;
 break 'l5;
 }
 v27 = load64(v2.plus(8));
 fill(v5 + 192, 0, 16);
 'l9: loop {
 if v14 == 0 { break 'l9; }
 copy(v5.plus(192), v20, v14);
 break 'l9; }
 'l10: loop {
 if v15 == 0 { break 'l10; }
 copy(v8, v19, v15);
 break 'l10; }
 v26 = load32(v5 + 192);
 v24 = load32(v5 + 196);
 v23 = load32(v5 + 200);
 v22 = load32(v5 + 204);
 'l11: loop {
 v14 = if v13 > 31 { 0 } else { 32_u64.minus(v13) };
 if v14 == 0 { break 'l11; }
 fill(v5.plus(192).plus(v13), 0, v14);
 break 'l11; }
 'l12: loop {
 if v13 == 0 { break 'l12; }
 copy(v5.plus(192), v27, v13);
 break 'l12; }
 fill(v7, 0, 32);
 store64(v5 + 224, load64(v5 + 192));
 store64(v5 + 232, load64(v5 + 200));
 store64(v5 + 240, load64(v5 + 208));
 store64(v5 + 248, load64(v5 + 216));
 v21 = (((v13 as u32) << 8) | (v12 as u32) | 0x1010000) ^ 0x6a09e667;
 v22 ^= 0x5be0cd19;
 v23 ^= 0x1f83d9ab;
 v24 ^= 0x9b05688c;
 v25 = v26 ^ 0x510e527f;
 v26 = 64;
 break 'l5; }
 v14 = v0.plus(v16);
 store16(v5 + 78, 0);
 store16(v5 + 76, v12);
 store16(v5 + 74, v26 as u64);
 store16(v5 + 72, v26 as u64);
 store64(v5 + 64, 0);
 store32(v5 + 60, v22 as u64);
 store32(v5 + 56, v23 as u64);
 store32(v5 + 52, v24 as u64);
 store32(v5 + 48, v25 as u64);
 store32(v5 + 44, 0xa54ff53a);
 store32(v5 + 40, 0x3c6ef372);
 store32(v5 + 36, 0xbb67ae85);
 store32(v5 + 32, v21 as u64);
 store32(v5 + 28, v22 as u64);
 store32(v5 + 24, v23 as u64);
 store32(v5 + 20, v24 as u64);
 store32(v5 + 16, v25 as u64);
 store32(v5 + 12, 0xa54ff53a);
 store32(v5 + 8, 0x3c6ef372);
 store32(v5 + 4, 0xbb67ae85);
 store32(v5, v21 as u64);
 store64(v10 + 56, load64(v5 + 280));
 store64(v10 + 48, load64(v5 + 272));
 store64(v10 + 40, load64(v5 + 264));
 store64(v10 + 32, load64(v5 + 256));
 store64(v10 + 24, load64(v5 + 248));
 store64(v10 + 16, load64(v5 + 240));
 store64(v10 + 8, load64(v5 + 232));
 store64(v10, load64(v5 + 224));
 store64(v9, load64(v5 + 192));
 store64(v9 + 8, load64(v5 + 200));
 store64(v9 + 16, load64(v5 + 208));
 store64(v9 + 24, load64(v5 + 216));
 'l13: loop {
 'l14: loop {
 if v17 == 1 { break 'l14; }
 state_blake2s_State_absorb_blocks(v5, v18, v17);
 break 'l13;
 }
 'l15: loop {
 if v13 == 0 { break 'l15; }
 state_blake2s_State_absorb_blocks(v5, v18, 1);
 break 'l13;
 }
 store8(v10.plus(v26 as u64), load8(v18) as u64);
 store16(v5 + 72, (v26 | 1) as u64);
 break 'l13; }
 state_blake2s_State_write_digest(v5, v14);
 break 'l4; }
 v3 = v3.plus(16);
 v11 = v11.plus(1);
 if v4 != v11 { continue 'l3; }
 break 'l3; }
 break 'l2; }
 return;
}

// rattle::export vulfsjor_ffi_blake2s_many
#[inline(never)]
unsafe fn exported_blake2s_many(mut v0: u64, mut v1: u64, mut v2: u64, mut v3: u64, mut v4: u64, mut
        v5: u64, mut v6: u64, mut v7: u64, mut v8: u64, mut v9: u64, mut v10: u64) -> u32 {
 let mut v11: u64;
 let mut v12: u32;
 let mut frame = [0_u64; 12];
 let top = (address!(frame)).plus(96) & !15;
 v11 = top.minus(80);
 'l1: loop {
 'l2: loop {
 'l3: loop {
 store64(v11 + 72, v10);
 store64(v11 + 56, v8);
 store64(v11 + 40, v6);
 store64(v11 + 64, v9.plus(if v9 == 0 { 4096_u64 } else { 0 }));
 store64(v11 + 48, v7.plus(if v7 == 0 { 4096_u64 } else { 0 }));
 store64(v11 + 32, v5.plus(if v5 == 0 { 4096_u64 } else { 0 }));
 store64(v11 + 24, v2);
 v12 = 0xffffffff;
 if v2.minus(1) > 31 { break 'l1; }
 if v6 > 32 { break 'l1; }
 if v8 > 8 { break 'l1; }
 if v10 > 8 { break 'l1; }
 multi3(v11, v4, 0, v2, 0);
 if ((load64(v11) ^ v1) | load64(v11 + 8)) != 0 { break 'l1; }
 v7 = v3.plus(if v3 == 0 { 4096_u64 } else { 0 });
 v5 = v0.plus(if v0 == 0 { 4096_u64 } else { 0 });
 if v6 == 0 { break 'l3; }
 v2 = v7.plus(8);
 v6 = 0xffffffffffffffff;
 'l5: loop {
 'l6: loop {
 v6 = v6.plus(1);
 if v4 == v6 { break 'l5; }
 v9 = load64(v2);
 v2 = v2.plus(16);
 if v9 <= 0xffffffffffffffbf { continue 'l6; }
 break 'l1;
 }
 }
 ffi_blake2s_many_write_all(v5, v1, v11.plus(24), v7, v4);
 digest_wiping_scrub_stack_5632();
 break 'l2;
 }
 ffi_blake2s_many_write_all(v5, v1, v11.plus(24), v7, v4);
 break 'l2; }
 v12 = 0;
 break 'l1; }
 return v12;
}

// blake2_ffi::blake2s::initialize
#[inline(never)]
unsafe fn ffi_blake2s_initialize(mut v0: u64, mut v1: u64, mut v2: u64) -> u32 {
 let mut v3: u64;
 let mut v4: u64;
 let mut v5: u64;
 let mut v6: u64;
 let mut v7: u64;
 let mut v8: u32;
 let mut v9: u32;
 let mut v10: u64;
 let mut v11: u64;
 let mut v12: u64;
 let mut v13: u32;
 let mut v14: u32;
 let mut v15: u32;
 let mut v16: u32;
 let mut v17: u32;
 let mut v18: u32;
 let mut v19: u32;
 let mut v20: u32;
 let mut frame = [0_u64; 28];
 let top = (address!(frame)).plus(224) & !15;
 v3 = top.minus(208);
 'l1: loop {
 'l3: loop {
 v4 = load64(v1);
 if v4.minus(33) < 0xffffffffffffffe0 { break 'l3; }
 v5 = load64(v1.plus(16));
 if v5 > 32 { break 'l3; }
 v6 = load64(v1.plus(32));
 if v6 > 8 { break 'l3; }
 v7 = load64(v1.plus(48));
 if v7 > 8 { break 'l3; }
 v8 = load8(v2 + 1);
 if v8 == 0 { break 'l3; }
 v9 = load8(v2 + 17);
 if (v9 & 255) > 32 { break 'l3; }
 v10 = load64(v2 + 8);
 if v10 > 0xffffffffffff { break 'l3; }
 v11 = load64(v1.plus(40));
 v12 = load64(v1.plus(24));
 v13 = load16(v2 + 6);
 v14 = load16(v2 + 4);
 v15 = load8(v2 + 16);
 v16 = load8(v2);
 'l4: loop {
 'l5: loop {
 if v5 != 0 { break 'l5; }
 fill(v3 + 96, 0, 16);
 'l6: loop {
 if v6 == 0 { break 'l6; }
 copy(v3.plus(96), v12, v6);
 break 'l6; }
 'l7: loop {
 if v7 == 0 { break 'l7; }
 copy(v3.plus(96) | 8, v11, v7);
 break 'l7; }
 fill(v3, 0, 96);
 v13 = ((v14 & 0xffff) | (v13 << 16)) ^ 0xbb67ae85;
 v14 = ((v16 << 16) | (v4 as u32) | (v8 << 24)) ^ 0x6a09e667;
 v9 = ((((v10 >> 32) as u32) & 0xffff) | ((v9 << 24) | ((v15 & 255) << 16))) ^ 0xa54ff53a;
 v15 = (v10 as u32) ^ 0x3c6ef372;
 v16 = load32(v3 + 108) ^ 0x5be0cd19;
 v17 = load32(v3 + 104) ^ 0x1f83d9ab;
 v18 = load32(v3 + 100) ^ 0x9b05688c;
 v19 = load32(v3 + 96) ^ 0x510e527f;
 v20 = 0;
 break 'l4;
 }
 v1 = load64(v1.plus(8));
 fill(v3 + 96, 0, 16);
 'l8: loop {
 if v6 == 0 { break 'l8; }
 copy(v3.plus(96), v12, v6);
 break 'l8; }
 'l9: loop {
 if v7 == 0 { break 'l9; }
 copy(v3.plus(96) | 8, v11, v7);
 break 'l9; }
 v19 = load32(v3 + 96);
 v18 = load32(v3 + 100);
 v17 = load32(v3 + 104);
 v20 = load32(v3 + 108);
 'l10: loop {
 v2 = if v5 > 31 { 0 } else { 32_u64.minus(v5) };
 if v2 == 0 { break 'l10; }
 fill(v3.plus(112).plus(v5), 0, v2);
 break 'l10; }
 'l11: loop {
 if v5 == 0 { break 'l11; }
 copy(v3.plus(112), v1, v5);
 break 'l11; }
 fill(v3 + 176, 0, 32);
 fill(v3 + 64, 0, 32);
 v1 = load64(v3 + 112);
 store64(v3 + 144, v1);
 v2 = load64(v3 + 120);
 store64(v3 + 152, v2);
 v6 = load64(v3 + 128);
 store64(v3 + 160, v6);
 v7 = load64(v3 + 136);
 store64(v3 + 168, v7);
 store64(v3 + 32, v1);
 store64(v3 + 40, v2);
 store64(v3 + 48, v6);
 store64(v3 + 56, v7);
 store64(v3 + 24, load64(v3 + 136));
 store64(v3 + 16, load64(v3 + 128));
 store64(v3 + 8, load64(v3 + 120));
 store64(v3, load64(v3 + 112));
 v13 = ((v14 & 0xffff) | (v13 << 16)) ^ 0xbb67ae85;
 v9 = ((((v10 >> 32) as u32) & 0xffff) | ((v9 << 24) | ((v15 & 255) << 16))) ^ 0xa54ff53a;
 v14 = ((v16 << 16) | ((((v5 as u32) << 8) & 0xff00) | (v4 as u32))).plus(v8 << 24) ^ 0x6a09e667;
 v15 = (v10 as u32) ^ 0x3c6ef372;
 v16 = v20 ^ 0x5be0cd19;
 v17 ^= 0x1f83d9ab;
 v18 ^= 0x9b05688c;
 v19 ^= 0x510e527f;
 v20 = 64;
 break 'l4; }
 v8 = 0;
 store16(v0 + 78, 0);
 store16(v0 + 76, v4);
 store16(v0 + 74, v20 as u64);
 store16(v0 + 72, v20 as u64);
 store64(v0 + 64, 0);
 store32(v0 + 60, v16 as u64);
 store32(v0 + 56, v17 as u64);
 store32(v0 + 52, v18 as u64);
 store32(v0 + 48, v19 as u64);
 store32(v0 + 44, v9 as u64);
 store32(v0 + 40, v15 as u64);
 store32(v0 + 36, v13 as u64);
 store32(v0 + 32, v14 as u64);
 store32(v0 + 28, v16 as u64);
 store32(v0 + 24, v17 as u64);
 store32(v0 + 20, v18 as u64);
 store32(v0 + 16, v19 as u64);
 store32(v0 + 12, v9 as u64);
 store32(v0 + 8, v15 as u64);
 store32(v0 + 4, v13 as u64);
 store32(v0, v14 as u64);
 store64(v0 + 136, load64(v3 + 88));
 store64(v0 + 128, load64(v3 + 80));
 store64(v0 + 120, load64(v3 + 72));
 store64(v0 + 112, load64(v3 + 64));
 store64(v0 + 104, load64(v3 + 56));
 store64(v0 + 96, load64(v3 + 48));
 store64(v0 + 88, load64(v3 + 40));
 store64(v0 + 80, load64(v3 + 32));
 store64(v0 + 144, load64(v3));
 store64(v0 + 152, load64(v3 + 8));
 store64(v0 + 160, load64(v3 + 16));
 store64(v0 + 168, load64(v3 + 24));
 break 'l1;
 }
 fill(v0, 0, 176);
 v8 = 0xffffffff;
 break 'l1;
 }
 return v8;
}

// rattle::export vulfsjor_ffi_blake2s_init_salt_personal
#[inline(never)]
unsafe fn exported_blake2s_init_salt_personal(mut v0: u64, mut v1: u64, mut v2: u64, mut v3: u64,
        mut v4: u64, mut v5: u64, mut v6: u64, mut v7: u64) -> u32 {
 let mut v8: u64;
 let mut v9: u32;
 let mut frame = [0_u64; 12];
 let top = (address!(frame)).plus(96) & !15;
 v8 = top.minus(80);
 store64(v8 + 72, v7);
 store64(v8 + 56, v5);
 store64(v8 + 24, v1);
 store64(v8 + 2, 0);
 store16(v8, 257);
 store64(v8 + 10, 0);
 store64(v8 + 16, 0);
 store64(v8 + 64, v6.plus(if v6 == 0 { 4096_u64 } else { 0 }));
 store64(v8 + 48, v4.plus(if v4 == 0 { 4096_u64 } else { 0 }));
 store64(v8 + 32, v2.plus(if v2 == 0 { 4096_u64 } else { 0 }));
 store64(v8 + 40, v3);
 v9 = ffi_blake2s_initialize(v0, v8.plus(24), v8);
 'l2: loop {
 if v3 == 0 { break 'l2; }
 digest_wiping_scrub_stack_768();
 break 'l2; }
 return v9;
}

// rattle::export vulfsjor_ffi_blake2s_init_key
#[inline(never)]
unsafe fn exported_blake2s_init_key(mut v0: u64, mut v1: u64, mut v2: u64, mut v3: u64) -> u32 {
 let mut v4: u64;
 let mut v5: u32;
 let mut frame = [0_u64; 12];
 let top = (address!(frame)).plus(96) & !15;
 v4 = top.minus(80);
 'l1: loop {
 'l2: loop {
 if v3 != 0 { break 'l2; }
 fill(v0, 0, 176);
 v5 = 0xffffffff;
 break 'l1;
 }
 store64(v4 + 72, 0);
 store64(v4 + 64, 0x100000);
 store64(v4 + 56, 0);
 store64(v4 + 48, 0x100000);
 store64(v4 + 40, v3);
 store64(v4 + 32, v2.plus(if v2 == 0 { 4096_u64 } else { 0 }));
 store64(v4 + 24, v1);
 store64(v4 + 2, 0);
 store16(v4, 257);
 store64(v4 + 10, 0);
 store64(v4 + 16, 0);
 v5 = ffi_blake2s_initialize(v0, v4.plus(24), v4);
 digest_wiping_scrub_stack_768();
 break 'l1; }
 return v5;
}

// rattle::export vulfsjor_ffi_blake2s_init_tree
#[inline(never)]
unsafe fn exported_blake2s_init_tree(mut v0: u64, mut v1: u64, mut v2: u64, mut v3: u64, mut v4:
        u64, mut v5: u64, mut v6: u64, mut v7: u64, mut v8: u64) -> u32 {
 let mut v9: u64;
 let mut v10: u64;
 let mut v11: u32;
 let mut v12: u32;
 let mut frame = [0_u64; 12];
 let top = (address!(frame)).plus(96) & !15;
 v9 = top.minus(80);
 store32(v9 + 74, 0);
 store16(v9 + 58, 0);
 store16(v9 + 78, 0);
 v10 = load64(v8);
 store64(v9 + 64, v10);
 v11 = load8(v8.plus(15));
 store8(v9 + 73, v11 as u64);
 store8(v9 + 72, load8(v8.plus(14)) as u64);
 store32(v9 + 60, load32(v8.plus(8)) as u64);
 v12 = load8(v8.plus(13));
 store8(v9 + 57, v12 as u64);
 store8(v9 + 56, load8(v8.plus(12)) as u64);
 'l2: loop {
 'l3: loop {
 'l4: loop {
 if v12 == 0 { break 'l4; }
 if v10 > 0xffffffffffff { break 'l4; }
 if (v11 & 255) < 33 { break 'l3; }
 break 'l4; }
 fill(v0, 0, 176);
 v12 = 0xffffffff;
 break 'l2;
 }
 store64(v9 + 48, v7);
 store64(v9 + 40, v6.plus(if v6 == 0 { 4096_u64 } else { 0 }));
 store64(v9 + 32, v5);
 store64(v9 + 24, v4.plus(if v4 == 0 { 4096_u64 } else { 0 }));
 store64(v9 + 8, v2.plus(if v2 == 0 { 4096_u64 } else { 0 }));
 store64(v9, v1);
 store64(v9 + 16, v3);
 v12 = ffi_blake2s_initialize(v0, v9, v9.plus(56));
 if v3 == 0 { break 'l2; }
 digest_wiping_scrub_stack_768();
 break 'l2; }
 return v12;
}

// rattle::export vulfsjor_ffi_blake2s_init_param
#[inline(never)]
unsafe fn exported_blake2s_init_param(mut v0: u64, mut v1: u64, mut v2: u64) -> u32 {
 let mut v3: u32;
 let mut v4: u32;
 let mut v5: u32;
 let mut v6: u32;
 let mut v7: u32;
 let mut v8: u32;
 let mut v9: u32;
 let mut v10: u32;
 let mut v11: u32;
 'l1: loop {
 if v2 != 32 { break 'l1; }
 v1 = v1.plus(if v1 == 0 { 4096_u64 } else { 0 });
 if (load8(v1).minus(33) & 255) < 224 { break 'l1; }
 if load8(v1 + 1) > 32 { break 'l1; }
 v3 = load32(v1.plus(28));
 v4 = load32(v1.plus(24));
 v5 = load32(v1.plus(20));
 v6 = load32(v1.plus(16));
 v7 = load32(v1);
 v8 = load32(v1 + 12);
 v9 = load32(v1 + 8);
 v10 = load32(v1 + 4) ^ 0xbb67ae85;
 store32(v0 + 4, v10 as u64);
 v9 ^= 0x3c6ef372;
 store32(v0 + 8, v9 as u64);
 v8 ^= 0xa54ff53a;
 store32(v0 + 12, v8 as u64);
 v11 = v7 ^ 0x6a09e667;
 store32(v0 + 32, v11 as u64);
 store32(v0 + 36, v10 as u64);
 store32(v0 + 40, v9 as u64);
 store32(v0 + 44, v8 as u64);
 fill(v0 + 64, 0, 12);
 store16(v0 + 76, (v7 & 255) as u64);
 store32(v0, v11 as u64);
 v7 = v6 ^ 0x510e527f;
 store32(v0 + 16, v7 as u64);
 v5 ^= 0x9b05688c;
 store32(v0 + 20, v5 as u64);
 v4 ^= 0x1f83d9ab;
 store32(v0 + 24, v4 as u64);
 v3 ^= 0x5be0cd19;
 store32(v0 + 28, v3 as u64);
 store32(v0 + 48, v7 as u64);
 store32(v0 + 52, v5 as u64);
 store32(v0 + 56, v4 as u64);
 store32(v0 + 60, v3 as u64);
 fill(v0.plus(78), 0, 98);
 return 0;
 }
 fill(v0, 0, 176);
 return 0xffffffff;
}

// blake2_ffi::blake2s::update_in_frame
#[inline(never)]
unsafe fn ffi_blake2s_update_in_frame(mut v0: u64, mut v1: u64, mut v2: u64) {
 let mut v4: u32;
 let mut v5: u32;
 'l2: loop {
 if v2 == 1 { break 'l2; }
 state_blake2s_State_absorb_blocks(v0, v1, v2);
 return;
 }
 'l3: loop {
 v2 = v0.plus(72);
 v4 = load16(v2);
 if v4 < 64 { break 'l3; }
 state_blake2s_State_absorb_blocks(v0, v1, 1);
 return;
 }
 v5 = load8(v1);
 store16(v2, v4.plus(1) as u64);
 store8(v0.plus(v4 as u64).plus(80), v5 as u64);
 return;
}

// Overwrites the stack below the caller.
#[inline(never)]
unsafe fn digest_wiping_scrub_stack_512() {
    let mut room = [0_u64; 320];
    for word in room.iter_mut() {
        core::ptr::write_volatile(word, 0);
    }
}

// blake2_ffi::blake2s::update_scrubbed
#[inline(never)]
unsafe fn ffi_blake2s_update_scrubbed(mut v0: u64, mut v1: u64, mut v2: u64) {
 ffi_blake2s_update_in_frame(v0, v1, v2);
 digest_wiping_scrub_stack_512();
 return;
}

// rattle::export vulfsjor_ffi_blake2s_update
#[inline(never)]
unsafe fn exported_blake2s_update(mut v0: u64, mut v1: u64, mut v2: u64) -> u32 {
 let mut v4: u32;
 let mut v5: u32;
 let mut v6: u64;
 let mut v7: u64;
 let mut v8: u64;
 'l1: loop {
 'l2: loop {
 'l3: loop {
 v4 = 0xffffffff;
 if (load16(v0.plus(76)).minus(1) & 0xffff) > 31 { break 'l1; }
 v5 = load16(v0.plus(72));
 if v5 > 64 { break 'l1; }
 v6 = load16(v0.plus(74)) as u64;
 if v6 > 64 { break 'l1; }
 v4 = 0xffffffff;
 v7 = load64(v0.plus(64));
 if v7 > sign64((!v5) as u64, 0x8000) { break 'l1; }
 v8 = v5 as u64;
 if v2 > (!v7.plus(v8)) { break 'l1; }
 v1 = v1.plus(if v1 == 0 { 4096_u64 } else { 0 });
 'l5: loop {
 if v7 >= v6 { break 'l5; }
 ffi_blake2s_update_scrubbed(v0, v1, v2);
 break 'l2;
 }
 'l6: loop {
 if v2 == 1 { break 'l6; }
 state_blake2s_State_absorb_blocks(v0, v1, v2);
 break 'l2;
 }
 if v5 != 64 { break 'l3; }
 state_blake2s_State_absorb_blocks(v0, v1, 1);
 break 'l2;
 }
 v4 = load8(v1);
 store16(v0.plus(72), v5.plus(1) as u64);
 store8(v0.plus(v8).plus(80), v4 as u64);
 break 'l2; }
 v4 = 0;
 break 'l1; }
 return v4;
}

// blake2_ffi::several::blake2s::update_in_frame
#[inline(never)]
unsafe fn ffi_several_blake2s_update_in_frame(mut v0: u64, mut v1: u64, mut v2: u64) {
 let mut v4: u64;
 let mut v5: u64;
 let mut v6: u32;
 let mut v7: u32;
 'l2: loop {
 if v2 == 0 { break 'l2; }
 'l3: loop {
 v4 = load64(v1);
 'l4: loop {
 'l5: loop {
 v5 = load64(v1.plus(8));
 if v5 == 1 { break 'l5; }
 state_blake2s_State_absorb_blocks(v0, v4, v5);
 break 'l4;
 }
 'l6: loop {
 v5 = v0.plus(72);
 v6 = load16(v5);
 if v6 < 64 { break 'l6; }
 state_blake2s_State_absorb_blocks(v0, v4, 1);
 break 'l4;
 }
 v7 = load8(v4);
 store16(v5, v6.plus(1) as u64);
 store8(v0.plus(v6 as u64).plus(80), v7 as u64);
 break 'l4; }
 v0 = v0.plus(176);
 v1 = v1.plus(16);
 v2 = v2.minus(1);
 if v2 != 0 { continue 'l3; }
 break 'l3; }
 break 'l2; }
 return;
}

// rattle::export vulfsjor_ffi_blake2s_update_many
#[inline(never)]
unsafe fn exported_blake2s_update_many(mut v0: u64, mut v1: u64, mut v2: u64, mut v3: u64) -> u32 {
 let mut v5: u32;
 let mut v6: u64;
 let mut v7: u64;
 let mut v8: u32;
 let mut v9: u64;
 'l1: loop {
 'l2: loop {
 'l3: loop {
 v5 = 0xffffffff;
 if v3 != v1 { break 'l1; }
 v6 = v2.plus(if v2 == 0 { 4096_u64 } else { 0 });
 v7 = v0.plus(if v0 == 0 { 4096_u64 } else { 0 });
 'l5: loop {
 if v3 == 0 { break 'l5; }
 v2 = v7.plus(64);
 v0 = v6.plus(8);
 v1 = v3;
 'l6: loop {
 v5 = 0xffffffff;
 if (load16(v2.plus(12)).minus(1) & 0xffff) > 31 { break 'l1; }
 v8 = load16(v2.plus(8));
 if v8 > 64 { break 'l1; }
 if load16(v2.plus(10)) > 64 { break 'l1; }
 v5 = 0xffffffff;
 v9 = load64(v2);
 if v9 > sign64((!v8) as u64, 0x8000) { break 'l1; }
 if load64(v0) > (!v9.plus(v8 as u64)) { break 'l1; }
 v2 = v2.plus(176);
 v0 = v0.plus(16);
 v1 = v1.minus(1);
 if !(v1 == 0) { continue 'l6; }
 break 'l6; }
 break 'l5; }
 v2 = v7.plus(74);
 v0 = 0xffffffffffffffff;
 'l7: loop {
 v0 = v0.plus(1);
 if v3 == v0 { break 'l3; }
 v1 = v2.minus(10);
 v9 = load16(v2) as u64;
 v2 = v2.plus(176);
 if load64(v1) >= v9 { continue 'l7; }
 break 'l7; }
 ffi_several_blake2s_update_in_frame(v7, v6, v3);
 digest_wiping_scrub_stack_9216();
 break 'l2;
 }
 ffi_several_blake2s_update_in_frame(v7, v6, v3);
 break 'l2; }
 v5 = 0;
 break 'l1; }
 return v5;
}

// blake2_ffi::blake2s::finalize
#[inline(never)]
unsafe fn ffi_blake2s_finalize(mut v0: u64, mut v1: u64) {
 state_blake2s_State_write_digest(v0, v1);
 fill(v0, 0, 176);
 return;
}

// rattle::export vulfsjor_ffi_blake2s_final
#[inline(never)]
unsafe fn exported_blake2s_final(mut v0: u64, mut v1: u64, mut v2: u64) -> u32 {
 let mut v4: u32;
 let mut v5: u32;
 let mut v6: u32;
 let mut v7: u64;
 let mut v8: u64;
 v4 = 0xffffffff;
 'l2: loop {
 v5 = load16(v0.plus(76));
 if (v5.minus(1) & 0xffff) > 31 { break 'l2; }
 v6 = load16(v0.plus(72));
 if v6 > 64 { break 'l2; }
 v7 = load16(v0.plus(74)) as u64;
 if v7 > 64 { break 'l2; }
 v4 = 0xffffffff;
 v8 = load64(v0.plus(64));
 if v8 > sign64((!v6) as u64, 0x8000) { break 'l2; }
 if v2 != ((v5 as u64) & 0xffff) { break 'l2; }
 ffi_blake2s_finalize(v0, v1.plus(if v1 == 0 { 4096_u64 } else { 0 }));
 v4 = 0;
 if v8 >= v7 { break 'l2; }
 digest_wiping_scrub_stack_768();
 break 'l2; }
 return v4;
}

// blake2_ffi::blake2s::is_digest_of
#[inline(never)]
unsafe fn ffi_blake2s_is_digest_of(mut v0: u64, mut v1: u64, mut v2: u64) -> u32 {
 let mut v3: u64;
 let mut v4: u64;
 let mut v5: u32;
 let mut v6: u64;
 let mut v7: u64;
 let mut frame = [0_u64; 6];
 let top = (address!(frame)).plus(48) & !15;
 v3 = top.minus(32);
 v4 = v3;
 fill(v4, 0, 32);
 state_blake2s_State_write_digest(v0, v4);
 'l2: loop {
 'l3: loop {
 if v2 == (load16(v0.plus(76)) as u64) { break 'l3; }
 v5 = 0;
 break 'l2;
 }
 'l4: loop {
 if !(v2 == 0) { break 'l4; }
 v5 = 1;
 break 'l2;
 }
 v6 = v2 & 3;
 'l5: loop {
 'l6: loop {
 'l7: loop {
 if v2 >= 4 { break 'l7; }
 v0 = 0;
 v5 = 0;
 break 'l6;
 }
 v7 = v2 & 0xfffffffffffffffc;
 v0 = 0;
 v5 = 0;
 'l8: loop {
 v2 = v4.plus(v0);
 v3 = v1.plus(v0);
 v5 = (load8(v2.plus(3)) ^ load8(v3.plus(3))) | ((load8(v2.plus(2)) ^ load8(v3.plus(2))) |
   ((load8(v2.plus(1)) ^ load8(v3.plus(1))) | ((load8(v2) ^ load8(v3)) | v5)));
 v0 = v0.plus(4);
 if v7 != v0 { continue 'l8; }
 break 'l8; }
 if v6 == 0 { break 'l5; }
 break 'l6; }
 v2 = v1.plus(v0);
 v0 = v4.plus(v0);
 'l9: loop {
 v5 = (load8(v0) ^ load8(v2)) | v5;
 v2 = v2.plus(1);
 v0 = v0.plus(1);
 v6 = v6.minus(1);
 if v6 != 0 { continue 'l9; }
 break 'l9; }
 break 'l5; }
 v5 = ((v5 & 255) == 0) as u32;
 break 'l2; }
 return v5;
}

// rattle::export vulfsjor_ffi_blake2s_verify
#[inline(never)]
unsafe fn exported_blake2s_verify(mut v0: u64, mut v1: u64, mut v2: u64) -> u32 {
 let mut v4: u32;
 let mut v5: u32;
 let mut v6: u64;
 let mut v7: u64;
 v4 = 0xffffffff;
 'l2: loop {
 if (load16(v0.plus(76)).minus(1) & 0xffff) > 31 { break 'l2; }
 v5 = load16(v0.plus(72));
 if v5 > 64 { break 'l2; }
 v6 = load16(v0.plus(74)) as u64;
 if v6 > 64 { break 'l2; }
 v4 = 0xffffffff;
 v7 = load64(v0.plus(64));
 if v7 > sign64((!v5) as u64, 0x8000) { break 'l2; }
 if (load8(v0.plus(33)) << 8) == 0xe600 { break 'l2; }
 v4 = ffi_blake2s_is_digest_of(v0, v1.plus(if v1 == 0 { 4096_u64 } else { 0 }), v2);
 fill(v0, 0, 176);
 'l3: loop {
 if v7 >= v6 { break 'l3; }
 digest_wiping_scrub_stack_768();
 break 'l3; }
 v4 = v4.minus(1);
 break 'l2; }
 return v4;
}

// rattle::export vulfsjor_ffi_blake2s_set_last_node
#[inline(never)]
unsafe fn exported_blake2s_set_last_node(mut v0: u64, mut v1: u32) -> u32 {
 let mut v2: u32;
 let mut v3: u32;
 v2 = 0xffffffff;
 'l2: loop {
 if (load16(v0.plus(76)).minus(1) & 0xffff) > 31 { break 'l2; }
 v3 = load16(v0.plus(72));
 if v3 > 64 { break 'l2; }
 if load16(v0.plus(74)) > 64 { break 'l2; }
 v2 = 0xffffffff;
 if load64(v0.plus(64)) > sign64((!v3) as u64, 0x8000) { break 'l2; }
 v2 = 0;
 store16(v0.plus(78), ((v1 != 0) as u32) as u64);
 break 'l2; }
 return v2;
}

// rattle::export vulfsjor_ffi_blake2s_reset
#[inline(never)]
unsafe fn exported_blake2s_reset(mut v0: u64) -> u32 {
 let mut v1: u32;
 let mut v2: u32;
 let mut v3: u32;
 let mut v4: u64;
 v1 = 0xffffffff;
 'l2: loop {
 if (load16(v0.plus(76)).minus(1) & 0xffff) > 31 { break 'l2; }
 v2 = load16(v0.plus(72));
 if v2 > 64 { break 'l2; }
 v3 = load16(v0.plus(74));
 if v3 > 64 { break 'l2; }
 v1 = 0xffffffff;
 v4 = v0.plus(64);
 if load64(v4) > sign64((!v2) as u64, 0x8000) { break 'l2; }
 store64(v0.plus(112), 0);
 store16(v0.plus(72), v3 as u64);
 store64(v4, 0);
 store64(v0.plus(120), 0);
 store64(v0.plus(128), 0);
 store64(v0.plus(136), 0);
 store64(v0 + 24, load64(v0.plus(56)));
 store64(v0 + 16, load64(v0.plus(48)));
 store64(v0 + 8, load64(v0.plus(40)));
 store64(v0, load64(v0.plus(32)));
 store64(v0.plus(80), load64(v0.plus(144)));
 store64(v0.plus(88), load64(v0.plus(152)));
 store64(v0.plus(96), load64(v0.plus(160)));
 store64(v0.plus(104), load64(v0.plus(168)));
 v1 = 0;
 break 'l2; }
 return v1;
}

// blake2_state::blake2s::State::save
#[inline(never)]
unsafe fn state_blake2s_State_save(mut v0: u64, mut v1: u64) {
 let mut v2: u64;
 let mut v3: u32;
 let mut v4: u32;
 let mut v5: u32;
 let mut v6: u32;
 let mut v7: u32;
 let mut v8: u32;
 let mut v9: u32;
 let mut v10: u32;
 let mut v11: u32;
 let mut v12: u32;
 let mut v13: u64;
 let mut v14: u32;
 let mut v15: u32;
 let mut v16: u32;
 let mut v17: u32;
 let mut v18: u32;
 let mut v19: u32;
 let mut v20: u32;
 let mut v21: u32;
 let mut v22: u32;
 let mut v23: u64;
 let mut frame = [0_u64; 18];
 let top = (address!(frame)).plus(144) & !15;
 v2 = top.minus(128);
 'l2: loop {
 'l3: loop {
 v3 = load16(v1.plus(76));
 if (v3.minus(1) & 0xffff) > 31 { break 'l3; }
 v4 = load16(v1.plus(72));
 if v4 > 64 { break 'l3; }
 v5 = load16(v1.plus(74));
 if v5 > 64 { break 'l3; }
 if load64(v1.plus(64)) > sign64((!v4) as u64, 0x8000) { break 'l3; }
 if v5 != 0 { break 'l3; }
 v5 = load32(v1.plus(32));
 if (v5 & 0xff00) == 0xe600 { break 'l2; }
 break 'l3; }
 fill(v0, 0, 148);
 return;
 }
 fill(v2 + 64, 0, 64);
 v6 = load32(v1.plus(36));
 v7 = load32(v1.plus(40));
 v8 = load32(v1.plus(44));
 v9 = load32(v1.plus(48));
 v10 = load32(v1.plus(52));
 v11 = load32(v1.plus(56));
 v12 = load32(v1.plus(60));
 v13 = load64(v1.plus(64));
 v14 = load16(v1.plus(78));
 v15 = load32(v1);
 v16 = load32(v1 + 4);
 v17 = load32(v1 + 8);
 v18 = load32(v1 + 12);
 v19 = load32(v1 + 16);
 v20 = load32(v1 + 20);
 v21 = load32(v1 + 24);
 v22 = load32(v1 + 28);
 'l4: loop {
 v23 = v4 as u64;
 if v23 == 0 { break 'l4; }
 copy(v2.plus(64), v1.plus(80), v23);
 break 'l4; }
 store64(v2 + 56, load64(v2 + 120));
 store64(v2 + 48, load64(v2 + 112));
 store64(v2 + 40, load64(v2 + 104));
 store64(v2 + 32, load64(v2 + 96));
 store64(v2 + 24, load64(v2 + 88));
 store64(v2 + 16, load64(v2 + 80));
 store64(v2 + 8, load64(v2 + 72));
 store64(v2, load64(v2 + 64));
 store8(v0.plus(83), ((v14 != 0) as u32) as u64);
 store8(v0.plus(82), v4 as u64);
 store8(v0.plus(81), v3 as u64);
 store64(v0.plus(73), v13);
 store8(v0.plus(72), (v12 >> 24) as u64);
 store8(v0.plus(71), (v12 >> 16) as u64);
 store8(v0.plus(70), (v12 >> 8) as u64);
 store8(v0.plus(69), v12 as u64);
 store8(v0.plus(68), (v11 >> 24) as u64);
 store8(v0.plus(67), (v11 >> 16) as u64);
 store8(v0.plus(66), (v11 >> 8) as u64);
 store8(v0.plus(65), v11 as u64);
 store8(v0.plus(64), (v10 >> 24) as u64);
 store8(v0.plus(63), (v10 >> 16) as u64);
 store8(v0.plus(62), (v10 >> 8) as u64);
 store8(v0.plus(61), v10 as u64);
 store8(v0.plus(60), (v9 >> 24) as u64);
 store8(v0.plus(59), (v9 >> 16) as u64);
 store8(v0.plus(58), (v9 >> 8) as u64);
 store8(v0.plus(57), v9 as u64);
 store8(v0.plus(56), (v8 >> 24) as u64);
 store8(v0.plus(55), (v8 >> 16) as u64);
 store8(v0.plus(54), (v8 >> 8) as u64);
 store8(v0.plus(53), v8 as u64);
 store8(v0.plus(52), (v7 >> 24) as u64);
 store8(v0.plus(51), (v7 >> 16) as u64);
 store8(v0.plus(50), (v7 >> 8) as u64);
 store8(v0.plus(49), v7 as u64);
 store8(v0.plus(48), (v6 >> 24) as u64);
 store8(v0.plus(47), (v6 >> 16) as u64);
 store8(v0.plus(46), (v6 >> 8) as u64);
 store8(v0.plus(45), v6 as u64);
 store8(v0.plus(44), (v5 >> 24) as u64);
 store8(v0.plus(43), (v5 >> 16) as u64);
 store8(v0.plus(42), (v5 >> 8) as u64);
 store8(v0.plus(41), v5 as u64);
 store8(v0.plus(40), (v22 >> 24) as u64);
 store8(v0.plus(39), (v22 >> 16) as u64);
 store8(v0.plus(38), (v22 >> 8) as u64);
 store8(v0.plus(37), v22 as u64);
 store8(v0.plus(36), (v21 >> 24) as u64);
 store8(v0.plus(35), (v21 >> 16) as u64);
 store8(v0.plus(34), (v21 >> 8) as u64);
 store8(v0.plus(33), v21 as u64);
 store8(v0.plus(32), (v20 >> 24) as u64);
 store8(v0.plus(31), (v20 >> 16) as u64);
 store8(v0.plus(30), (v20 >> 8) as u64);
 store8(v0.plus(29), v20 as u64);
 store8(v0.plus(28), (v19 >> 24) as u64);
 store8(v0.plus(27), (v19 >> 16) as u64);
 store8(v0.plus(26), (v19 >> 8) as u64);
 store8(v0.plus(25), v19 as u64);
 store8(v0.plus(24), (v18 >> 24) as u64);
 store8(v0.plus(23), (v18 >> 16) as u64);
 store8(v0.plus(22), (v18 >> 8) as u64);
 store8(v0.plus(21), v18 as u64);
 store8(v0.plus(20), (v17 >> 24) as u64);
 store8(v0.plus(19), (v17 >> 16) as u64);
 store8(v0.plus(18), (v17 >> 8) as u64);
 store8(v0.plus(17), v17 as u64);
 store8(v0.plus(16), (v16 >> 24) as u64);
 store8(v0.plus(15), (v16 >> 16) as u64);
 store8(v0.plus(14), (v16 >> 8) as u64);
 store8(v0.plus(13), v16 as u64);
 store8(v0.plus(12), (v15 >> 24) as u64);
 store8(v0.plus(11), (v15 >> 16) as u64);
 store8(v0.plus(10), (v15 >> 8) as u64);
 store8(v0.plus(9), v15 as u64);
 store64(v0.plus(1), 0x17332454b414c42);
 store8(v0, 1);
 store64(v0.plus(140), load64(v2 + 56));
 store64(v0.plus(132), load64(v2 + 48));
 store64(v0.plus(124), load64(v2 + 40));
 store64(v0.plus(116), load64(v2 + 32));
 store64(v0.plus(108), load64(v2 + 24));
 store64(v0.plus(100), load64(v2 + 16));
 store64(v0.plus(92), load64(v2 + 8));
 store64(v0.plus(84), load64(v2));
 return;
}

// rattle::export vulfsjor_ffi_blake2s_save
#[inline(never)]
unsafe fn exported_blake2s_save(mut v0: u64, mut v1: u64, mut v2: u64) -> u32 {
 let mut v3: u64;
 let mut v4: u32;
 let mut frame = [0_u64; 22];
 let top = (address!(frame)).plus(176) & !15;
 v3 = top.minus(160);
 fill(v3.plus(12), 0, 148);
 v4 = 0xffffffff;
 'l2: loop {
 if v2 != 147 { break 'l2; }
 state_blake2s_State_save(v3.plus(12), v0);
 if load8(v3 + 12) != 1 { break 'l2; }
 copy(v1.plus(if v1 == 0 { 4096_u64 } else { 0 }), v3.plus(13), 147);
 v4 = 0;
 break 'l2; }
 return v4;
}

// rattle::export vulfsjor_ffi_blake2s_load
#[inline(never)]
unsafe fn exported_blake2s_load(mut v0: u64, mut v1: u64, mut v2: u64) -> u32 {
 let mut v3: u64;
 let mut v4: u32;
 let mut v5: u32;
 let mut v6: u32;
 let mut v7: u32;
 let mut v8: u32;
 let mut v9: u32;
 let mut v10: u32;
 let mut v11: u32;
 let mut v12: u32;
 let mut v13: u32;
 let mut v14: u32;
 let mut v15: u32;
 let mut v16: u32;
 let mut v17: u32;
 let mut v18: u32;
 let mut v19: u32;
 let mut v20: u32;
 let mut v21: u32;
 let mut v22: u32;
 let mut v23: u64;
 let mut v24: u64;
 let mut v25: u64;
 let mut v26: u64;
 let mut v27: u64;
 let mut v28: u64;
 let mut v29: u64;
 let mut t0: u32;
 let mut frame = [0_u64; 62];
 let top = (address!(frame)).plus(496) & !15;
 v3 = top.minus(480);
 'l1: loop {
 'l2: loop {
 if v2 != 147 { break 'l2; }
 v1 = v1.plus(if v1 == 0 { 4096_u64 } else { 0 });
 v4 = load32(v1.plus(8));
 v5 = load32(v1.plus(12));
 v6 = load32(v1.plus(16));
 v7 = load32(v1.plus(20));
 v8 = load32(v1.plus(24));
 v9 = load32(v1.plus(28));
 v10 = load32(v1.plus(32));
 v11 = load32(v1.plus(36));
 v12 = load32(v1.plus(40));
 v13 = load32(v1.plus(44));
 v14 = load32(v1.plus(48));
 v15 = load32(v1.plus(52));
 v16 = load32(v1.plus(56));
 v17 = load32(v1.plus(60));
 v18 = load32(v1.plus(64));
 v19 = load32(v1.plus(68));
 v2 = load64(v1.plus(72));
 v20 = load8(v1 + 81);
 v21 = load8(v1 + 80);
 v22 = load8(v1 + 82);
 store16(v3 + 86, v22 as u64);
 store16(v3 + 84, v21 as u64);
 store16(v3 + 82, 0);
 store16(v3 + 80, v20 as u64);
 store64(v3 + 72, v2);
 store32(v3 + 68, v19 as u64);
 store32(v3 + 64, v18 as u64);
 store32(v3 + 60, v17 as u64);
 store32(v3 + 56, v16 as u64);
 store32(v3 + 52, v15 as u64);
 store32(v3 + 48, v14 as u64);
 store32(v3 + 44, v13 as u64);
 store32(v3 + 40, v12 as u64);
 store32(v3 + 36, v11 as u64);
 store32(v3 + 32, v10 as u64);
 store32(v3 + 28, v9 as u64);
 store32(v3 + 24, v8 as u64);
 store32(v3 + 20, v7 as u64);
 store32(v3 + 16, v6 as u64);
 store32(v3 + 12, v5 as u64);
 store32(v3 + 8, v4 as u64);
 fill(v3 + 152, 0, 32);
 store64(v3 + 144, load64(v1.plus(139)));
 store64(v3 + 136, load64(v1.plus(131)));
 store64(v3 + 128, load64(v1.plus(123)));
 store64(v3 + 120, load64(v1.plus(115)));
 store64(v3 + 112, load64(v1.plus(107)));
 store64(v3 + 104, load64(v1.plus(99)));
 store64(v3 + 96, load64(v1.plus(91)));
 v23 = v1.plus(83);
 store64(v3 + 88, load64(v23));
 fill(v3.plus(185), 0, 148);
 state_blake2s_State_save(v3.plus(185), v3.plus(8));
 if load8(v3 + 185) != 1 { break 'l2; }
 copy(v3.plus(333), v3.plus(185).plus(1), 147);
 if load8(v1) != load8(v3 + 333) { break 'l2; }
 if (load8(v1.plus(1)) & 255) != (load8(v3 + 334) & 255) { break 'l2; }
 if (load8(v1.plus(2)) & 255) != (load8(v3 + 335) & 255) { break 'l2; }
 if (load8(v1.plus(3)) & 255) != (load8(v3 + 336) & 255) { break 'l2; }
 t0 = core_cmp_slices_groups_equal_i8_31_core_cmp_numbers_U8PartialEq(v1, 147, v3.plus(333));
 if t0 == 0 { break 'l2; }
 v1 = load64(v23 + 56);
 v24 = load64(v23 + 48);
 v25 = load64(v23 + 40);
 v26 = load64(v23 + 32);
 v27 = load64(v23 + 24);
 v28 = load64(v23 + 16);
 v29 = load64(v23 + 8);
 v23 = load64(v23);
 store16(v0 + 78, v22 as u64);
 store16(v0 + 76, v21 as u64);
 v21 = 0;
 store16(v0 + 74, 0);
 store16(v0 + 72, v20 as u64);
 store64(v0 + 64, v2);
 store32(v0 + 60, v19 as u64);
 store32(v0 + 56, v18 as u64);
 store32(v0 + 52, v17 as u64);
 store32(v0 + 48, v16 as u64);
 store32(v0 + 44, v15 as u64);
 store32(v0 + 40, v14 as u64);
 store32(v0 + 36, v13 as u64);
 store32(v0 + 32, v12 as u64);
 store32(v0 + 28, v11 as u64);
 store32(v0 + 24, v10 as u64);
 store32(v0 + 20, v9 as u64);
 store32(v0 + 16, v8 as u64);
 store32(v0 + 12, v7 as u64);
 store32(v0 + 8, v6 as u64);
 store32(v0 + 4, v5 as u64);
 store32(v0, v4 as u64);
 store64(v3 + 8, v23);
 store64(v3 + 16, v29);
 store64(v3 + 24, v28);
 store64(v3 + 32, v27);
 store64(v3 + 40, v26);
 store64(v3 + 48, v25);
 store64(v3 + 56, v24);
 store64(v3 + 64, v1);
 fill(v0 + 144, 0, 32);
 store64(v0 + 136, load64(v3 + 64));
 store64(v0 + 128, load64(v3 + 56));
 store64(v0 + 120, load64(v3 + 48));
 store64(v0 + 112, load64(v3 + 40));
 store64(v0 + 104, load64(v3 + 32));
 store64(v0 + 96, load64(v3 + 24));
 store64(v0 + 88, load64(v3 + 16));
 store64(v0 + 80, load64(v3 + 8));
 break 'l1;
 }
 fill(v0, 0, 176);
 v21 = 0xffffffff;
 break 'l1; }
 return v21;
}

// rattle::export vulfsjor_ffi_blake2s_wipe
#[inline(never)]
unsafe fn exported_blake2s_wipe(mut v0: u64) {
 'l1: loop {
 break 'l1;
 }
 fill(v0, 0, 176);
}

// rattle::export vulfsjor_ffi_blake2s_digest_size
#[inline(never)]
unsafe fn exported_blake2s_digest_size(mut v0: u64) -> u64 {
 let mut v1: u64;
 let mut v2: u32;
 let mut v3: u32;
 v1 = 0;
 'l2: loop {
 v2 = load16(v0.plus(76));
 if (v2.minus(1) & 0xffff) > 31 { break 'l2; }
 v3 = load16(v0.plus(72));
 if v3 > 64 { break 'l2; }
 if load16(v0.plus(74)) > 64 { break 'l2; }
 v1 = if load64(v0.plus(64)) > sign64((!v3) as u64, 0x8000) { 0 } else { ((v2 as u64) & 0xffff) };
 break 'l2; }
 return v1;
}

// rattle::export vulfsjor_ffi_blake2s_count
#[inline(never)]
unsafe fn exported_blake2s_count(mut v0: u64) -> u64 {
 let mut v1: u64;
 let mut v2: u32;
 let mut v3: u64;
 v1 = 0;
 'l2: loop {
 if (load16(v0.plus(76)).minus(1) & 0xffff) > 31 { break 'l2; }
 v2 = load16(v0.plus(72));
 if v2 > 64 { break 'l2; }
 v3 = load16(v0.plus(74)) as u64;
 if v3 > 64 { break 'l2; }
 v0 = load64(v0.plus(64));
 if v0 > sign64((!v2) as u64, 0x8000) { break 'l2; }
 v0 = v0.plus(v2 as u64);
 v1 = v0.minus(v3);
 v1 = if v1 > v0 { 0 } else { v1 };
 break 'l2; }
 return v1;
}

// rattle::export vulfsjor_ffi_blake2s_state_size
#[inline(never)]
unsafe fn exported_blake2s_state_size() {
 'l1: loop {
 break 'l1;
 }
}

// vulfsjor_ffi_blake2s_state_size
#[inline(never)]
unsafe fn module_blake2s_state_size() -> u64 {
 'l1: loop {
 break 'l1;
 }
 exported_blake2s_state_size();
 return 176;
}

// blake2_parallel::lanes::blake2bp::compress_one_by_one
#[inline(never)]
unsafe fn parallel_lanes_blake2bp_compress_one_by_one(mut v0: u64, mut v1: u64, mut v2: u64, mut v3:
        u64) {
 let mut v4: u64;
 let mut v5: u64;
 let mut v6: u64;
 let mut v7: u64;
 let mut v8: u64;
 let mut v9: u64;
 let mut v10: u64;
 let mut v11: u64;
 let mut v12: u64;
 let mut v13: u64;
 let mut v14: u64;
 let mut v15: u64;
 let mut v16: u64;
 let mut v17: u64;
 let mut v18: u64;
 let mut v19: u64;
 let mut v20: u64;
 let mut v21: u64;
 let mut v22: u64;
 let mut v23: u64;
 let mut v24: u64;
 let mut v25: u64;
 let mut v26: u64;
 let mut v27: u64;
 let mut v28: u64;
 let mut v29: u32;
 let mut v30: u32;
 let mut v31: u64;
 let mut v32: u64;
 let mut v33: u64;
 let mut v34: u64;
 let mut v35: u64;
 let mut v36: u64;
 let mut v37: u64;
 let mut v38: u64;
 let mut v39: u64;
 let mut v40: u64;
 let mut frame = [0_u64; 10];
 let top = (address!(frame)).plus(80) & !15;
 v4 = top.minus(64);
 v5 = load64(v0 + 24);
 v6 = load64(v0 + 56);
 v7 = load64(v0 + 88);
 v8 = load64(v0 + 120);
 v9 = load64(v0 + 152);
 v10 = load64(v0 + 184);
 v11 = load64(v0 + 216);
 v12 = load64(v0 + 248);
 v13 = load64(v0 + 16);
 v14 = load64(v0 + 48);
 v15 = load64(v0 + 80);
 v16 = load64(v0 + 112);
 v17 = load64(v0 + 144);
 v18 = load64(v0 + 176);
 v19 = load64(v0 + 208);
 v20 = load64(v0 + 240);
 v21 = load64(v0 + 8);
 v22 = load64(v0 + 40);
 v23 = load64(v0 + 72);
 v24 = load64(v0 + 104);
 v25 = load64(v0 + 136);
 v26 = load64(v0 + 168);
 v27 = load64(v0 + 200);
 v28 = load64(v0 + 232);
 v29 = load8(v3 + 1);
 v30 = load8(v3);
 v31 = load64(v2);
 v32 = load64(v1);
 v33 = load64(v0);
 v34 = load64(v0 + 32);
 v35 = load64(v0 + 64);
 v36 = load64(v0 + 96);
 v37 = load64(v0 + 128);
 v38 = load64(v0 + 160);
 v39 = load64(v0 + 192);
 store64(v4 + 56, load64(v0 + 224));
 store64(v4 + 48, v39);
 store64(v4 + 40, v38);
 store64(v4 + 32, v37);
 store64(v4 + 24, v36);
 store64(v4 + 16, v35);
 store64(v4 + 8, v34);
 store64(v4, v33);
 compress_compress_blake2b_compress(v4, v32, v31, v30, v29);
 v31 = load64(v4);
 v32 = load64(v4 + 8);
 v33 = load64(v4 + 16);
 v34 = load64(v4 + 24);
 v35 = load64(v4 + 32);
 v36 = load64(v4 + 40);
 v37 = load64(v4 + 48);
 v38 = load64(v4 + 56);
 v29 = load8(v3 + 3);
 v30 = load8(v3 + 2);
 v39 = load64(v2 + 8);
 v40 = load64(v1 + 8);
 store64(v4 + 56, v28);
 store64(v4 + 48, v27);
 store64(v4 + 40, v26);
 store64(v4 + 32, v25);
 store64(v4 + 24, v24);
 store64(v4 + 16, v23);
 store64(v4 + 8, v22);
 store64(v4, v21);
 compress_compress_blake2b_compress(v4, v40, v39, v30, v29);
 v21 = load64(v4);
 v22 = load64(v4 + 8);
 v23 = load64(v4 + 16);
 v24 = load64(v4 + 24);
 v25 = load64(v4 + 32);
 v26 = load64(v4 + 40);
 v27 = load64(v4 + 48);
 v28 = load64(v4 + 56);
 v29 = load8(v3 + 5);
 v30 = load8(v3 + 4);
 v39 = load64(v2 + 16);
 v40 = load64(v1 + 16);
 store64(v4 + 56, v20);
 store64(v4 + 48, v19);
 store64(v4 + 40, v18);
 store64(v4 + 32, v17);
 store64(v4 + 24, v16);
 store64(v4 + 16, v15);
 store64(v4 + 8, v14);
 store64(v4, v13);
 compress_compress_blake2b_compress(v4, v40, v39, v30, v29);
 v13 = load64(v4);
 v14 = load64(v4 + 8);
 v15 = load64(v4 + 16);
 v16 = load64(v4 + 24);
 v17 = load64(v4 + 32);
 v18 = load64(v4 + 40);
 v19 = load64(v4 + 48);
 v20 = load64(v4 + 56);
 v29 = load8(v3 + 7);
 v30 = load8(v3 + 6);
 v3 = load64(v2 + 24);
 v2 = load64(v1 + 24);
 store64(v4 + 56, v12);
 store64(v4 + 48, v11);
 store64(v4 + 40, v10);
 store64(v4 + 32, v9);
 store64(v4 + 24, v8);
 store64(v4 + 16, v7);
 store64(v4 + 8, v6);
 store64(v4, v5);
 compress_compress_blake2b_compress(v4, v2, v3, v30, v29);
 v3 = load64(v4);
 v2 = load64(v4 + 8);
 v1 = load64(v4 + 16);
 v5 = load64(v4 + 24);
 v6 = load64(v4 + 32);
 v7 = load64(v4 + 40);
 v8 = load64(v4 + 48);
 store64(v0 + 248, load64(v4 + 56));
 store64(v0 + 240, v20);
 store64(v0 + 232, v28);
 store64(v0 + 224, v38);
 store64(v0 + 216, v8);
 store64(v0 + 208, v19);
 store64(v0 + 200, v27);
 store64(v0 + 192, v37);
 store64(v0 + 184, v7);
 store64(v0 + 176, v18);
 store64(v0 + 168, v26);
 store64(v0 + 160, v36);
 store64(v0 + 152, v6);
 store64(v0 + 144, v17);
 store64(v0 + 136, v25);
 store64(v0 + 128, v35);
 store64(v0 + 120, v5);
 store64(v0 + 112, v16);
 store64(v0 + 104, v24);
 store64(v0 + 96, v34);
 store64(v0 + 88, v1);
 store64(v0 + 80, v15);
 store64(v0 + 72, v23);
 store64(v0 + 64, v33);
 store64(v0 + 56, v2);
 store64(v0 + 48, v14);
 store64(v0 + 40, v22);
 store64(v0 + 32, v32);
 store64(v0 + 24, v3);
 store64(v0 + 16, v13);
 store64(v0 + 8, v21);
 store64(v0, v31);
 return;
}

// blake2_parallel::lanes::blake2bp::compress_short
#[inline(never)]
unsafe fn parallel_lanes_blake2bp_compress_short(mut v0: u64, mut v1: u64, mut v2: u64, mut v3: u64,
        mut v4: u64) {
 let mut v5: u64;
 let mut frame = [0_u64; 198];
 let top = (address!(frame)).plus(1584) & !15;
 v5 = top.minus(1568);
 'l2: loop {
 'l3: loop {
 if v2 != 512 { break 'l3; }
 v2 = v3.plus(128);
 store64(v5 + 1048, v2);
 store64(v5 + 1040, v2);
 store64(v5 + 1032, v2);
 store64(v5 + 1024, v2);
 store64(v5 + 1056, v1);
 store64(v5 + 1080, v1.plus(384));
 store64(v5 + 1072, v1.plus(256));
 store64(v5 + 1064, v1.plus(128));
 parallel_lanes_blake2bp_compress_one_by_one(v0, v5.plus(1056), v5.plus(1024), v4);
 break 'l2;
 }
 fill(v5.plus(1056), 0, 512);
 'l4: loop {
 if v2 == 0 { break 'l4; }
 copy(v5.plus(1056), v1, v2);
 break 'l4; }
 copy(v5, v5.plus(1056), 512);
 copy(v5.plus(512), v5, 512);
 store64(v5 + 1080, v5.plus(896));
 store64(v5 + 1072, v5.plus(768));
 store64(v5 + 1064, v5.plus(512).plus(128));
 v1 = v2.minus(384);
 v1 = if v1 > v2 { 0 } else { v1 };
 store64(v5 + 1048, (if v1 < 128 { v1 } else { 128 }).plus(v3));
 v1 = v2.minus(256);
 v1 = if v1 > v2 { 0 } else { v1 };
 store64(v5 + 1040, (if v1 < 128 { v1 } else { 128 }).plus(v3));
 v1 = v2.minus(128);
 v1 = if v1 > v2 { 0 } else { v1 };
 store64(v5 + 1032, (if v1 < 128 { v1 } else { 128 }).plus(v3));
 store64(v5 + 1024, v3.plus(if v2 < 128 { v2 } else { 128 }));
 store64(v5 + 1056, v5.plus(512));
 parallel_lanes_blake2bp_compress_one_by_one(v0, v5.plus(1056), v5.plus(1024), v4);
 break 'l2; }
 return;
}

// blake2_parallel::blake2bp::State::output
#[inline(never)]
unsafe fn parallel_blake2bp_State_output(mut v0: u64, mut v1: u64) {
 let mut v2: u64;
 let mut v3: u64;
 let mut v4: u64;
 let mut v5: u64;
 let mut v6: u64;
 let mut v7: u64;
 let mut v8: u64;
 let mut v9: u64;
 let mut v10: u64;
 let mut v11: u64;
 let mut v12: u64;
 let mut v13: u64;
 let mut v14: u64;
 let mut v15: u64;
 let mut v16: u64;
 let mut v17: u64;
 let mut v18: u64;
 let mut v19: u64;
 let mut v20: u64;
 let mut v21: u64;
 let mut v22: u64;
 let mut v23: u64;
 let mut v24: u64;
 let mut v25: u64;
 let mut v26: u64;
 let mut v27: u64;
 let mut v28: u64;
 let mut v29: u64;
 let mut v30: u64;
 let mut v31: u64;
 let mut v32: u64;
 let mut v33: u64;
 let mut v34: u64;
 let mut v35: u64;
 let mut v36: u64;
 let mut v37: u64;
 let mut v38: u32;
 let mut v39: u32;
 let mut v40: u32;
 let mut v41: u32;
 let mut v42: u32;
 let mut v43: u32;
 let mut v44: u32;
 let mut v45: u32;
 let mut v46: u32;
 let mut v47: u32;
 let mut v48: u32;
 let mut v49: u32;
 let mut v50: u32;
 let mut v51: u32;
 let mut v52: u32;
 let mut v53: u32;
 let mut v54: u32;
 let mut v55: u32;
 let mut v56: u32;
 let mut v57: u32;
 let mut v58: u32;
 let mut v59: u32;
 let mut v60: u32;
 let mut v61: u32;
 let mut v62: u32;
 let mut v63: u32;
 let mut v64: u32;
 let mut v65: u32;
 let mut v66: u32;
 let mut v67: u32;
 let mut v68: u32;
 let mut v69: u32;
 let mut v70: u32;
 let mut v71: u32;
 let mut v72: u32;
 let mut v73: u32;
 let mut v74: u32;
 let mut v75: u32;
 let mut v76: u32;
 let mut v77: u32;
 let mut v78: u32;
 let mut v79: u32;
 let mut v80: u32;
 let mut v81: u32;
 let mut v82: u32;
 let mut v83: u32;
 let mut v84: u32;
 let mut v85: u32;
 let mut v86: u32;
 let mut v87: u32;
 let mut v88: u32;
 let mut v89: u32;
 let mut v90: u32;
 let mut v91: u32;
 let mut v92: u32;
 let mut v93: u32;
 let mut v94: u32;
 let mut v95: u32;
 let mut v96: u32;
 let mut v97: u32;
 let mut v98: u32;
 let mut v99: u32;
 let mut v100: u32;
 let mut v101: u32;
 let mut v102: u32;
 let mut v103: u32;
 let mut v104: u32;
 let mut v105: u32;
 let mut v106: u32;
 let mut v107: u32;
 let mut v108: u32;
 let mut v109: u32;
 let mut v110: u32;
 let mut v111: u32;
 let mut v112: u32;
 let mut v113: u32;
 let mut v114: u32;
 let mut v115: u32;
 let mut v116: u32;
 let mut v117: u32;
 let mut v118: u32;
 let mut v119: u32;
 let mut v120: u32;
 let mut v121: u32;
 let mut v122: u32;
 let mut v123: u32;
 let mut v124: u32;
 let mut v125: u32;
 let mut v126: u32;
 let mut v127: u32;
 let mut v128: u32;
 let mut v129: u32;
 let mut v130: u32;
 let mut v131: u32;
 let mut v132: u32;
 let mut v133: u32;
 let mut v134: u32;
 let mut v135: u32;
 let mut v136: u32;
 let mut v137: u32;
 let mut v138: u32;
 let mut v139: u32;
 let mut v140: u32;
 let mut v141: u32;
 let mut v142: u32;
 let mut v143: u32;
 let mut v144: u32;
 let mut v145: u32;
 let mut v146: u32;
 let mut v147: u32;
 let mut v148: u32;
 let mut v149: u32;
 let mut v150: u32;
 let mut v151: u32;
 let mut v152: u32;
 let mut v153: u32;
 let mut v154: u32;
 let mut v155: u32;
 let mut v156: u32;
 let mut v157: u32;
 let mut v158: u32;
 let mut v159: u32;
 let mut v160: u32;
 let mut v161: u32;
 let mut v162: u32;
 let mut v163: u32;
 let mut v164: u32;
 let mut v165: u32;
 let mut v166: u32;
 let mut v167: u32;
 let mut v168: u32;
 let mut v169: u32;
 let mut v170: u32;
 let mut v171: u32;
 let mut v172: u32;
 let mut v173: u32;
 let mut v174: u32;
 let mut v175: u32;
 let mut v176: u32;
 let mut v177: u32;
 let mut v178: u32;
 let mut v179: u32;
 let mut v180: u32;
 let mut v181: u32;
 let mut v182: u32;
 let mut v183: u32;
 let mut v184: u32;
 let mut v185: u32;
 let mut v186: u32;
 let mut v187: u32;
 let mut v188: u32;
 let mut v189: u32;
 let mut v190: u32;
 let mut v191: u32;
 let mut v192: u32;
 let mut v193: u32;
 let mut v194: u32;
 let mut v195: u32;
 let mut v196: u32;
 let mut v197: u32;
 let mut v198: u32;
 let mut v199: u32;
 let mut v200: u32;
 let mut v201: u32;
 let mut v202: u32;
 let mut v203: u32;
 let mut v204: u32;
 let mut v205: u32;
 let mut v206: u32;
 let mut v207: u32;
 let mut v208: u32;
 let mut v209: u32;
 let mut v210: u32;
 let mut v211: u32;
 let mut v212: u32;
 let mut v213: u32;
 let mut v214: u32;
 let mut v215: u32;
 let mut v216: u32;
 let mut v217: u32;
 let mut v218: u32;
 let mut v219: u32;
 let mut v220: u32;
 let mut v221: u32;
 let mut v222: u32;
 let mut v223: u32;
 let mut v224: u32;
 let mut v225: u32;
 let mut v226: u32;
 let mut v227: u32;
 let mut v228: u32;
 let mut v229: u32;
 let mut v230: u32;
 let mut v231: u32;
 let mut v232: u32;
 let mut v233: u32;
 let mut v234: u32;
 let mut v235: u32;
 let mut v236: u32;
 let mut v237: u32;
 let mut v238: u32;
 let mut v239: u32;
 let mut v240: u32;
 let mut v241: u32;
 let mut v242: u32;
 let mut v243: u32;
 let mut v244: u32;
 let mut v245: u32;
 let mut v246: u32;
 let mut v247: u32;
 let mut v248: u32;
 let mut v249: u32;
 let mut v250: u32;
 let mut v251: u32;
 let mut v252: u32;
 let mut v253: u32;
 let mut v254: u32;
 let mut v255: u32;
 let mut v256: u32;
 let mut v257: u32;
 let mut v258: u32;
 let mut v259: u32;
 let mut v260: u32;
 let mut v261: u32;
 let mut v262: u32;
 let mut v263: u32;
 let mut v264: u32;
 let mut v265: u32;
 let mut v266: u32;
 let mut v267: u32;
 let mut v268: u32;
 let mut v269: u32;
 let mut v270: u32;
 let mut v271: u32;
 let mut v272: u32;
 let mut v273: u32;
 let mut v274: u32;
 let mut v275: u32;
 let mut v276: u32;
 let mut v277: u32;
 let mut v278: u32;
 let mut v279: u32;
 let mut v280: u32;
 let mut v281: u32;
 let mut v282: u32;
 let mut v283: u32;
 let mut v284: u32;
 let mut v285: u32;
 let mut v286: u32;
 let mut v287: u32;
 let mut v288: u32;
 let mut v289: u32;
 let mut v290: u32;
 let mut v291: u32;
 let mut v292: u32;
 let mut v293: u32;
 let mut frame = [0_u64; 68];
 let top = (address!(frame)).plus(544) & !15;
 v2 = top.minus(528);
 fill(v2.plus(8), 0, 256);
 v3 = v1.plus(256);
 v4 = load64(v3);
 v5 = load64(v1.plus(32));
 v6 = load64(v1.plus(40));
 v7 = load64(v1.plus(48));
 v8 = load64(v1.plus(56));
 v9 = load64(v1.plus(64));
 v10 = load64(v1.plus(72));
 v11 = load64(v1.plus(80));
 v12 = load64(v1.plus(88));
 v13 = load64(v1.plus(96));
 v14 = load64(v1.plus(104));
 v15 = load64(v1.plus(112));
 v16 = load64(v1.plus(120));
 v17 = load64(v1.plus(128));
 v18 = load64(v1.plus(136));
 v19 = load64(v1.plus(144));
 v20 = load64(v1.plus(152));
 v21 = load64(v1.plus(160));
 v22 = load64(v1.plus(168));
 v23 = load64(v1.plus(176));
 v24 = load64(v1.plus(184));
 v25 = load64(v1.plus(192));
 v26 = load64(v1.plus(200));
 v27 = load64(v1.plus(208));
 v28 = load64(v1.plus(216));
 v29 = load64(v1.plus(224));
 v30 = load64(v1.plus(232));
 v31 = load64(v1.plus(240));
 v32 = load64(v1.plus(248));
 v33 = load64(v1.plus(264));
 v34 = load64(v1);
 v35 = load64(v1 + 8);
 v36 = load64(v1 + 16);
 v37 = load64(v1 + 24);
 store64(v2 + 520, 0);
 v38 = (v33 < 513) as u32;
 store8(v2 + 520, v38 as u64);
 store64(v2 + 512, v32);
 store64(v2 + 504, v31);
 store64(v2 + 496, v30);
 store64(v2 + 488, v29);
 store64(v2 + 480, v28);
 store64(v2 + 472, v27);
 store64(v2 + 464, v26);
 store64(v2 + 456, v25);
 store64(v2 + 448, v24);
 store64(v2 + 440, v23);
 store64(v2 + 432, v22);
 store64(v2 + 424, v21);
 store64(v2 + 416, v20);
 store64(v2 + 408, v19);
 store64(v2 + 400, v18);
 store64(v2 + 392, v17);
 store64(v2 + 384, v16);
 store64(v2 + 376, v15);
 store64(v2 + 368, v14);
 store64(v2 + 360, v13);
 store64(v2 + 352, v12);
 store64(v2 + 344, v11);
 store64(v2 + 336, v10);
 store64(v2 + 328, v9);
 store64(v2 + 320, v8);
 store64(v2 + 312, v7);
 store64(v2 + 304, v6);
 store64(v2 + 296, v5);
 store64(v2 + 288, v37);
 store64(v2 + 280, v36);
 store64(v2 + 272, v35);
 store64(v2 + 264, v34);
 v12 = if v33 < 512 { v33 } else { 512 };
 v9 = v33.minus(v12);
 v39 = (v9 < 385) as u32;
 store8(v2 + 527, v39 as u64);
 store8(v2 + 526, v39 as u64);
 store8(v2 + 524, ((v9 < 257) as u32) as u64);
 v40 = (v9 < 129) as u32;
 store8(v2 + 522, v40 as u64);
 v13 = v1.plus(272);
 parallel_lanes_blake2bp_compress_short(v2.plus(264), v13, v12, v4, v2.plus(520));
 v33 = load64(v2 + 480);
 v39 = v33 as u32;
 v41 = v39 >> 24;
 v42 = v39 >> 16;
 v4 = load64(v2 + 352);
 v43 = v4 as u32;
 v44 = v43 >> 24;
 v45 = v43 >> 16;
 v5 = load64(v2 + 472);
 v46 = v5 as u32;
 v47 = v46 >> 24;
 v48 = v46 >> 16;
 v6 = load64(v2 + 344);
 v49 = v6 as u32;
 v50 = v49 >> 24;
 v51 = v49 >> 16;
 v7 = load64(v2 + 464);
 v52 = v7 as u32;
 v53 = v52 >> 24;
 v54 = v52 >> 16;
 v8 = load64(v2 + 336);
 v55 = v8 as u32;
 v56 = v55 >> 24;
 v57 = v55 >> 16;
 v10 = load64(v2 + 456);
 v11 = load64(v2 + 328);
 v58 = (v39 & 0xff00) >> 8;
 v59 = (v43 & 0xff00) >> 8;
 v60 = (v46 & 0xff00) >> 8;
 v61 = (v49 & 0xff00) >> 8;
 v62 = (v52 & 0xff00) >> 8;
 v63 = (v55 & 0xff00) >> 8;
 v64 = (v33 >> 32) as u32;
 v65 = (v64 & 0xff00) >> 8;
 v66 = (v4 >> 32) as u32;
 v67 = (v66 & 0xff00) >> 8;
 v68 = (v5 >> 32) as u32;
 v69 = (v68 & 0xff00) >> 8;
 v70 = (v6 >> 32) as u32;
 v71 = (v70 & 0xff00) >> 8;
 v72 = (v7 >> 32) as u32;
 v73 = (v72 & 0xff00) >> 8;
 v74 = (v8 >> 32) as u32;
 v75 = (v74 & 0xff00) >> 8;
 v76 = (v33 >> 56) as u32;
 v77 = (v33 >> 48) as u32;
 v78 = (v4 >> 56) as u32;
 v79 = (v4 >> 48) as u32;
 v80 = (v5 >> 56) as u32;
 v81 = (v5 >> 48) as u32;
 v82 = (v6 >> 56) as u32;
 v83 = (v6 >> 48) as u32;
 v84 = (v7 >> 56) as u32;
 v85 = (v7 >> 48) as u32;
 v86 = (v8 >> 56) as u32;
 v87 = (v8 >> 48) as u32;
 v88 = load8(v2 + 519);
 v89 = load8(v2 + 518);
 v90 = load8(v2 + 517);
 v91 = load8(v2 + 516);
 v92 = load8(v2 + 515);
 v93 = load8(v2 + 514);
 v94 = load8(v2 + 513);
 v95 = load8(v2 + 512);
 v96 = load8(v2 + 511);
 v97 = load8(v2 + 510);
 v98 = load8(v2 + 509);
 v99 = load8(v2 + 508);
 v100 = load8(v2 + 507);
 v101 = load8(v2 + 506);
 v102 = load8(v2 + 505);
 v103 = load8(v2 + 504);
 v104 = load8(v2 + 503);
 v105 = load8(v2 + 502);
 v106 = load8(v2 + 501);
 v107 = load8(v2 + 500);
 v108 = load8(v2 + 499);
 v109 = load8(v2 + 498);
 v110 = load8(v2 + 497);
 v111 = load8(v2 + 496);
 v112 = load8(v2 + 495);
 v113 = load8(v2 + 494);
 v114 = load8(v2 + 493);
 v115 = load8(v2 + 492);
 v116 = load8(v2 + 491);
 v117 = load8(v2 + 490);
 v118 = load8(v2 + 489);
 v119 = load8(v2 + 488);
 v120 = load8(v2 + 455);
 v121 = load8(v2 + 454);
 v122 = load8(v2 + 453);
 v123 = load8(v2 + 452);
 v124 = load8(v2 + 451);
 v125 = load8(v2 + 450);
 v126 = load8(v2 + 449);
 v127 = load8(v2 + 448);
 v128 = load8(v2 + 447);
 v129 = load8(v2 + 446);
 v130 = load8(v2 + 445);
 v131 = load8(v2 + 444);
 v132 = load8(v2 + 443);
 v133 = load8(v2 + 442);
 v134 = load8(v2 + 441);
 v135 = load8(v2 + 440);
 v136 = load8(v2 + 439);
 v137 = load8(v2 + 438);
 v138 = load8(v2 + 437);
 v139 = load8(v2 + 436);
 v140 = load8(v2 + 435);
 v141 = load8(v2 + 434);
 v142 = load8(v2 + 433);
 v143 = load8(v2 + 432);
 v144 = load8(v2 + 431);
 v145 = load8(v2 + 430);
 v146 = load8(v2 + 429);
 v147 = load8(v2 + 428);
 v148 = load8(v2 + 427);
 v149 = load8(v2 + 426);
 v150 = load8(v2 + 425);
 v151 = load8(v2 + 424);
 v152 = load8(v2 + 423);
 v153 = load8(v2 + 422);
 v154 = load8(v2 + 421);
 v155 = load8(v2 + 420);
 v156 = load8(v2 + 419);
 v157 = load8(v2 + 418);
 v158 = load8(v2 + 417);
 v159 = load8(v2 + 416);
 v160 = load8(v2 + 415);
 v161 = load8(v2 + 414);
 v162 = load8(v2 + 413);
 v163 = load8(v2 + 412);
 v164 = load8(v2 + 411);
 v165 = load8(v2 + 410);
 v166 = load8(v2 + 409);
 v167 = load8(v2 + 408);
 v168 = load8(v2 + 407);
 v169 = load8(v2 + 406);
 v170 = load8(v2 + 405);
 v171 = load8(v2 + 404);
 v172 = load8(v2 + 403);
 v173 = load8(v2 + 402);
 v174 = load8(v2 + 401);
 v175 = load8(v2 + 400);
 v176 = load8(v2 + 399);
 v177 = load8(v2 + 398);
 v178 = load8(v2 + 397);
 v179 = load8(v2 + 396);
 v180 = load8(v2 + 395);
 v181 = load8(v2 + 394);
 v182 = load8(v2 + 393);
 v183 = load8(v2 + 392);
 v184 = load8(v2 + 391);
 v185 = load8(v2 + 390);
 v186 = load8(v2 + 389);
 v187 = load8(v2 + 388);
 v188 = load8(v2 + 387);
 v189 = load8(v2 + 386);
 v190 = load8(v2 + 385);
 v191 = load8(v2 + 384);
 v192 = load8(v2 + 383);
 v193 = load8(v2 + 382);
 v194 = load8(v2 + 381);
 v195 = load8(v2 + 380);
 v196 = load8(v2 + 379);
 v197 = load8(v2 + 378);
 v198 = load8(v2 + 377);
 v199 = load8(v2 + 376);
 v200 = load8(v2 + 375);
 v201 = load8(v2 + 374);
 v202 = load8(v2 + 373);
 v203 = load8(v2 + 372);
 v204 = load8(v2 + 371);
 v205 = load8(v2 + 370);
 v206 = load8(v2 + 369);
 v207 = load8(v2 + 368);
 v208 = load8(v2 + 367);
 v209 = load8(v2 + 366);
 v210 = load8(v2 + 365);
 v211 = load8(v2 + 364);
 v212 = load8(v2 + 363);
 v213 = load8(v2 + 362);
 v214 = load8(v2 + 361);
 v215 = load8(v2 + 360);
 v216 = load8(v2 + 327);
 v217 = load8(v2 + 326);
 v218 = load8(v2 + 325);
 v219 = load8(v2 + 324);
 v220 = load8(v2 + 323);
 v221 = load8(v2 + 322);
 v222 = load8(v2 + 321);
 v223 = load8(v2 + 320);
 v224 = load8(v2 + 319);
 v225 = load8(v2 + 318);
 v226 = load8(v2 + 317);
 v227 = load8(v2 + 316);
 v228 = load8(v2 + 315);
 v229 = load8(v2 + 314);
 v230 = load8(v2 + 313);
 v231 = load8(v2 + 312);
 v232 = load8(v2 + 311);
 v233 = load8(v2 + 310);
 v234 = load8(v2 + 309);
 v235 = load8(v2 + 308);
 v236 = load8(v2 + 307);
 v237 = load8(v2 + 306);
 v238 = load8(v2 + 305);
 v239 = load8(v2 + 304);
 v240 = load8(v2 + 303);
 v241 = load8(v2 + 302);
 v242 = load8(v2 + 301);
 v243 = load8(v2 + 300);
 v244 = load8(v2 + 299);
 v245 = load8(v2 + 298);
 v246 = load8(v2 + 297);
 v247 = load8(v2 + 296);
 v248 = load8(v2 + 295);
 v249 = load8(v2 + 294);
 v250 = load8(v2 + 293);
 v251 = load8(v2 + 292);
 v252 = load8(v2 + 291);
 v253 = load8(v2 + 290);
 v254 = load8(v2 + 289);
 v255 = load8(v2 + 288);
 v256 = load8(v2 + 287);
 v257 = load8(v2 + 286);
 v258 = load8(v2 + 285);
 v259 = load8(v2 + 284);
 v260 = load8(v2 + 283);
 v261 = load8(v2 + 282);
 v262 = load8(v2 + 281);
 v263 = load8(v2 + 280);
 v264 = load8(v2 + 279);
 v265 = load8(v2 + 278);
 v266 = load8(v2 + 277);
 v267 = load8(v2 + 276);
 v268 = load8(v2 + 275);
 v269 = load8(v2 + 274);
 v270 = load8(v2 + 273);
 v271 = load8(v2 + 272);
 v272 = load8(v2 + 271);
 v273 = load8(v2 + 270);
 v274 = load8(v2 + 269);
 v275 = load8(v2 + 268);
 v276 = load8(v2 + 267);
 v277 = load8(v2 + 266);
 v278 = load8(v2 + 265);
 v279 = load8(v2 + 264);
 'l2: loop {
 'l3: loop {
 if v38 == 0 { break 'l3; }
 v38 = v10 as u32;
 v40 = v38 >> 24;
 v280 = v38 >> 16;
 v281 = v11 as u32;
 v282 = v281 >> 24;
 v283 = v281 >> 16;
 v284 = (v38 & 0xff00) >> 8;
 v285 = (v281 & 0xff00) >> 8;
 v286 = (v10 >> 32) as u32;
 v287 = (v286 & 0xff00) >> 8;
 v288 = (v11 >> 32) as u32;
 v289 = (v288 & 0xff00) >> 8;
 v290 = (v10 >> 56) as u32;
 v291 = (v10 >> 48) as u32;
 v292 = (v11 >> 56) as u32;
 v293 = (v11 >> 48) as u32;
 break 'l2;
 }
 v14 = load64(v3);
 store64(v2 + 520, 0x101000100010001);
 store8(v2 + 492, v115 as u64);
 store8(v2 + 491, v116 as u64);
 store8(v2 + 490, v117 as u64);
 store8(v2 + 489, v118 as u64);
 store8(v2 + 488, v119 as u64);
 store64(v2 + 480, v33);
 store64(v2 + 472, v5);
 store64(v2 + 464, v7);
 store64(v2 + 456, v10);
 store8(v2 + 428, v147 as u64);
 store8(v2 + 427, v148 as u64);
 store8(v2 + 426, v149 as u64);
 store8(v2 + 425, v150 as u64);
 store8(v2 + 424, v151 as u64);
 store8(v2 + 396, v179 as u64);
 store8(v2 + 395, v180 as u64);
 store8(v2 + 394, v181 as u64);
 store8(v2 + 393, v182 as u64);
 store8(v2 + 392, v183 as u64);
 store8(v2 + 364, v211 as u64);
 store8(v2 + 363, v212 as u64);
 store8(v2 + 362, v213 as u64);
 store8(v2 + 361, v214 as u64);
 store8(v2 + 360, v215 as u64);
 store64(v2 + 352, v4);
 store64(v2 + 344, v6);
 store64(v2 + 336, v8);
 store64(v2 + 328, v11);
 store8(v2 + 300, v243 as u64);
 store8(v2 + 299, v244 as u64);
 store8(v2 + 298, v245 as u64);
 store8(v2 + 297, v246 as u64);
 store8(v2 + 296, v247 as u64);
 store8(v2 + 268, v275 as u64);
 store8(v2 + 267, v276 as u64);
 store8(v2 + 266, v277 as u64);
 store8(v2 + 265, v278 as u64);
 store8(v2 + 264, v279 as u64);
 store8(v2 + 493, v114 as u64);
 store8(v2 + 429, v146 as u64);
 store8(v2 + 397, v178 as u64);
 store8(v2 + 365, v210 as u64);
 store8(v2 + 301, v242 as u64);
 store8(v2 + 269, v274 as u64);
 store8(v2 + 494, v113 as u64);
 store8(v2 + 430, v145 as u64);
 store8(v2 + 398, v177 as u64);
 store8(v2 + 366, v209 as u64);
 store8(v2 + 302, v241 as u64);
 store8(v2 + 270, v273 as u64);
 store8(v2 + 495, v112 as u64);
 store8(v2 + 431, v144 as u64);
 store8(v2 + 399, v176 as u64);
 store8(v2 + 367, v208 as u64);
 store8(v2 + 303, v240 as u64);
 store8(v2 + 271, v272 as u64);
 store8(v2 + 496, v111 as u64);
 store8(v2 + 432, v143 as u64);
 store8(v2 + 400, v175 as u64);
 store8(v2 + 368, v207 as u64);
 store8(v2 + 304, v239 as u64);
 store8(v2 + 272, v271 as u64);
 store8(v2 + 497, v110 as u64);
 store8(v2 + 433, v142 as u64);
 store8(v2 + 401, v174 as u64);
 store8(v2 + 369, v206 as u64);
 store8(v2 + 305, v238 as u64);
 store8(v2 + 273, v270 as u64);
 store8(v2 + 498, v109 as u64);
 store8(v2 + 434, v141 as u64);
 store8(v2 + 402, v173 as u64);
 store8(v2 + 370, v205 as u64);
 store8(v2 + 306, v237 as u64);
 store8(v2 + 274, v269 as u64);
 store8(v2 + 499, v108 as u64);
 store8(v2 + 435, v140 as u64);
 store8(v2 + 403, v172 as u64);
 store8(v2 + 371, v204 as u64);
 store8(v2 + 307, v236 as u64);
 store8(v2 + 275, v268 as u64);
 store8(v2 + 500, v107 as u64);
 store8(v2 + 436, v139 as u64);
 store8(v2 + 404, v171 as u64);
 store8(v2 + 372, v203 as u64);
 store8(v2 + 308, v235 as u64);
 store8(v2 + 276, v267 as u64);
 store8(v2 + 501, v106 as u64);
 store8(v2 + 437, v138 as u64);
 store8(v2 + 405, v170 as u64);
 store8(v2 + 373, v202 as u64);
 store8(v2 + 309, v234 as u64);
 store8(v2 + 277, v266 as u64);
 store8(v2 + 502, v105 as u64);
 store8(v2 + 438, v137 as u64);
 store8(v2 + 406, v169 as u64);
 store8(v2 + 374, v201 as u64);
 store8(v2 + 310, v233 as u64);
 store8(v2 + 278, v265 as u64);
 store8(v2 + 503, v104 as u64);
 store8(v2 + 439, v136 as u64);
 store8(v2 + 407, v168 as u64);
 store8(v2 + 375, v200 as u64);
 store8(v2 + 311, v232 as u64);
 store8(v2 + 279, v264 as u64);
 store8(v2 + 504, v103 as u64);
 store8(v2 + 440, v135 as u64);
 store8(v2 + 408, v167 as u64);
 store8(v2 + 376, v199 as u64);
 store8(v2 + 312, v231 as u64);
 store8(v2 + 280, v263 as u64);
 store8(v2 + 505, v102 as u64);
 store8(v2 + 441, v134 as u64);
 store8(v2 + 409, v166 as u64);
 store8(v2 + 377, v198 as u64);
 store8(v2 + 313, v230 as u64);
 store8(v2 + 281, v262 as u64);
 store8(v2 + 506, v101 as u64);
 store8(v2 + 442, v133 as u64);
 store8(v2 + 410, v165 as u64);
 store8(v2 + 378, v197 as u64);
 store8(v2 + 314, v229 as u64);
 store8(v2 + 282, v261 as u64);
 store8(v2 + 507, v100 as u64);
 store8(v2 + 443, v132 as u64);
 store8(v2 + 411, v164 as u64);
 store8(v2 + 379, v196 as u64);
 store8(v2 + 315, v228 as u64);
 store8(v2 + 283, v260 as u64);
 store8(v2 + 508, v99 as u64);
 store8(v2 + 444, v131 as u64);
 store8(v2 + 412, v163 as u64);
 store8(v2 + 380, v195 as u64);
 store8(v2 + 316, v227 as u64);
 store8(v2 + 284, v259 as u64);
 store8(v2 + 509, v98 as u64);
 store8(v2 + 445, v130 as u64);
 store8(v2 + 413, v162 as u64);
 store8(v2 + 381, v194 as u64);
 store8(v2 + 317, v226 as u64);
 store8(v2 + 285, v258 as u64);
 store8(v2 + 510, v97 as u64);
 store8(v2 + 446, v129 as u64);
 store8(v2 + 414, v161 as u64);
 store8(v2 + 382, v193 as u64);
 store8(v2 + 318, v225 as u64);
 store8(v2 + 286, v257 as u64);
 store8(v2 + 511, v96 as u64);
 store8(v2 + 447, v128 as u64);
 store8(v2 + 415, v160 as u64);
 store8(v2 + 383, v192 as u64);
 store8(v2 + 319, v224 as u64);
 store8(v2 + 287, v256 as u64);
 store8(v2 + 512, v95 as u64);
 store8(v2 + 448, v127 as u64);
 store8(v2 + 416, v159 as u64);
 store8(v2 + 384, v191 as u64);
 store8(v2 + 320, v223 as u64);
 store8(v2 + 288, v255 as u64);
 store8(v2 + 513, v94 as u64);
 store8(v2 + 449, v126 as u64);
 store8(v2 + 417, v158 as u64);
 store8(v2 + 385, v190 as u64);
 store8(v2 + 321, v222 as u64);
 store8(v2 + 289, v254 as u64);
 store8(v2 + 514, v93 as u64);
 store8(v2 + 450, v125 as u64);
 store8(v2 + 418, v157 as u64);
 store8(v2 + 386, v189 as u64);
 store8(v2 + 322, v221 as u64);
 store8(v2 + 290, v253 as u64);
 store8(v2 + 515, v92 as u64);
 store8(v2 + 451, v124 as u64);
 store8(v2 + 419, v156 as u64);
 store8(v2 + 387, v188 as u64);
 store8(v2 + 323, v220 as u64);
 store8(v2 + 291, v252 as u64);
 store8(v2 + 516, v91 as u64);
 store8(v2 + 452, v123 as u64);
 store8(v2 + 420, v155 as u64);
 store8(v2 + 388, v187 as u64);
 store8(v2 + 324, v219 as u64);
 store8(v2 + 292, v251 as u64);
 store8(v2 + 517, v90 as u64);
 store8(v2 + 453, v122 as u64);
 store8(v2 + 421, v154 as u64);
 store8(v2 + 389, v186 as u64);
 store8(v2 + 325, v218 as u64);
 store8(v2 + 293, v250 as u64);
 store8(v2 + 518, v89 as u64);
 store8(v2 + 454, v121 as u64);
 store8(v2 + 422, v153 as u64);
 store8(v2 + 390, v185 as u64);
 store8(v2 + 326, v217 as u64);
 store8(v2 + 294, v249 as u64);
 store8(v2 + 519, v88 as u64);
 store8(v2 + 455, v120 as u64);
 store8(v2 + 423, v152 as u64);
 store8(v2 + 391, v184 as u64);
 store8(v2 + 327, v216 as u64);
 store8(v2 + 295, v248 as u64);
 parallel_lanes_blake2bp_compress_short(v2.plus(264), v13.plus(v12), v9, v14.plus(128),
   v2.plus(520));
 v33 = load64(v2 + 488);
 v119 = v33 as u32;
 v112 = v119 & 0xff00;
 v4 = load64(v2 + 456);
 v38 = v4 as u32;
 v113 = v38 & 0xff00;
 v5 = load64(v2 + 424);
 v151 = v5 as u32;
 v114 = v151 & 0xff00;
 v6 = load64(v2 + 392);
 v183 = v6 as u32;
 v144 = v183 & 0xff00;
 v7 = load64(v2 + 360);
 v215 = v7 as u32;
 v145 = v215 & 0xff00;
 v8 = load64(v2 + 328);
 v281 = v8 as u32;
 v146 = v281 & 0xff00;
 v10 = load64(v2 + 296);
 v247 = v10 as u32;
 v176 = v247 & 0xff00;
 v11 = load64(v2 + 264);
 v279 = v11 as u32;
 v177 = v279 & 0xff00;
 v115 = (v33 >> 32) as u32;
 v178 = v115 & 0xff00;
 v286 = (v4 >> 32) as u32;
 v208 = v286 & 0xff00;
 v147 = (v5 >> 32) as u32;
 v209 = v147 & 0xff00;
 v179 = (v6 >> 32) as u32;
 v210 = v179 & 0xff00;
 v211 = (v7 >> 32) as u32;
 v240 = v211 & 0xff00;
 v288 = (v8 >> 32) as u32;
 v241 = v288 & 0xff00;
 v243 = (v10 >> 32) as u32;
 v242 = v243 & 0xff00;
 v275 = (v11 >> 32) as u32;
 v272 = v275 & 0xff00;
 v12 = v33 >> 56;
 v33 >>= 48;
 v13 = v4 >> 56;
 v4 >>= 48;
 v14 = v5 >> 56;
 v5 >>= 48;
 v15 = v6 >> 56;
 v6 >>= 48;
 v16 = v7 >> 56;
 v7 >>= 48;
 v17 = v8 >> 56;
 v8 >>= 48;
 v18 = v10 >> 56;
 v10 >>= 48;
 v19 = v11 >> 56;
 v11 >>= 48;
 'l4: loop {
 if v40 != 0 { break 'l4; }
 v20 = load64(v2 + 496);
 v111 = v20 as u32;
 v108 = v111 >> 24;
 v109 = v111 >> 16;
 v21 = load64(v2 + 464);
 v52 = v21 as u32;
 v53 = v52 >> 24;
 v54 = v52 >> 16;
 v22 = load64(v2 + 432);
 v143 = v22 as u32;
 v140 = v143 >> 24;
 v141 = v143 >> 16;
 v23 = load64(v2 + 400);
 v175 = v23 as u32;
 v172 = v175 >> 24;
 v173 = v175 >> 16;
 v24 = load64(v2 + 368);
 v207 = v24 as u32;
 v204 = v207 >> 24;
 v205 = v207 >> 16;
 v25 = load64(v2 + 336);
 v55 = v25 as u32;
 v56 = v55 >> 24;
 v57 = v55 >> 16;
 v26 = load64(v2 + 304);
 v239 = v26 as u32;
 v236 = v239 >> 24;
 v237 = v239 >> 16;
 v27 = load64(v2 + 272);
 v271 = v27 as u32;
 v268 = v271 >> 24;
 v269 = v271 >> 16;
 v110 = (v111 & 0xff00) >> 8;
 v62 = (v52 & 0xff00) >> 8;
 v142 = (v143 & 0xff00) >> 8;
 v174 = (v175 & 0xff00) >> 8;
 v206 = (v207 & 0xff00) >> 8;
 v63 = (v55 & 0xff00) >> 8;
 v238 = (v239 & 0xff00) >> 8;
 v270 = (v271 & 0xff00) >> 8;
 v107 = (v20 >> 32) as u32;
 v106 = (v107 & 0xff00) >> 8;
 v72 = (v21 >> 32) as u32;
 v73 = (v72 & 0xff00) >> 8;
 v139 = (v22 >> 32) as u32;
 v138 = (v139 & 0xff00) >> 8;
 v171 = (v23 >> 32) as u32;
 v170 = (v171 & 0xff00) >> 8;
 v203 = (v24 >> 32) as u32;
 v202 = (v203 & 0xff00) >> 8;
 v74 = (v25 >> 32) as u32;
 v75 = (v74 & 0xff00) >> 8;
 v235 = (v26 >> 32) as u32;
 v234 = (v235 & 0xff00) >> 8;
 v267 = (v27 >> 32) as u32;
 v266 = (v267 & 0xff00) >> 8;
 v104 = (v20 >> 56) as u32;
 v105 = (v20 >> 48) as u32;
 v84 = (v21 >> 56) as u32;
 v85 = (v21 >> 48) as u32;
 v136 = (v22 >> 56) as u32;
 v137 = (v22 >> 48) as u32;
 v168 = (v23 >> 56) as u32;
 v169 = (v23 >> 48) as u32;
 v200 = (v24 >> 56) as u32;
 v201 = (v24 >> 48) as u32;
 v86 = (v25 >> 56) as u32;
 v87 = (v25 >> 48) as u32;
 v232 = (v26 >> 56) as u32;
 v233 = (v26 >> 48) as u32;
 v264 = (v27 >> 56) as u32;
 v265 = (v27 >> 48) as u32;
 if v9 <= 256 { break 'l4; }
 v20 = load64(v2 + 280);
 v263 = v20 as u32;
 v261 = v263 >> 16;
 v260 = v263 >> 24;
 v21 = load64(v2 + 344);
 v49 = v21 as u32;
 v51 = v49 >> 16;
 v50 = v49 >> 24;
 v22 = load64(v2 + 408);
 v167 = v22 as u32;
 v165 = v167 >> 16;
 v164 = v167 >> 24;
 v23 = load64(v2 + 472);
 v46 = v23 as u32;
 v48 = v46 >> 16;
 v47 = v46 >> 24;
 v262 = (v263 & 0xff00) >> 8;
 v24 = load64(v2 + 312);
 v231 = v24 as u32;
 v229 = v231 >> 16;
 v228 = v231 >> 24;
 v61 = (v49 & 0xff00) >> 8;
 v25 = load64(v2 + 376);
 v199 = v25 as u32;
 v197 = v199 >> 16;
 v196 = v199 >> 24;
 v166 = (v167 & 0xff00) >> 8;
 v26 = load64(v2 + 440);
 v135 = v26 as u32;
 v133 = v135 >> 16;
 v132 = v135 >> 24;
 v60 = (v46 & 0xff00) >> 8;
 v27 = load64(v2 + 504);
 v103 = v27 as u32;
 v101 = v103 >> 16;
 v100 = v103 >> 24;
 v259 = (v20 >> 32) as u32;
 v258 = (v259 & 0xff00) >> 8;
 v230 = (v231 & 0xff00) >> 8;
 v70 = (v21 >> 32) as u32;
 v71 = (v70 & 0xff00) >> 8;
 v198 = (v199 & 0xff00) >> 8;
 v163 = (v22 >> 32) as u32;
 v162 = (v163 & 0xff00) >> 8;
 v134 = (v135 & 0xff00) >> 8;
 v68 = (v23 >> 32) as u32;
 v69 = (v68 & 0xff00) >> 8;
 v102 = (v103 & 0xff00) >> 8;
 v227 = (v24 >> 32) as u32;
 v226 = (v227 & 0xff00) >> 8;
 v195 = (v25 >> 32) as u32;
 v194 = (v195 & 0xff00) >> 8;
 v131 = (v26 >> 32) as u32;
 v130 = (v131 & 0xff00) >> 8;
 v99 = (v27 >> 32) as u32;
 v98 = (v99 & 0xff00) >> 8;
 v257 = (v20 >> 48) as u32;
 v256 = (v20 >> 56) as u32;
 v83 = (v21 >> 48) as u32;
 v82 = (v21 >> 56) as u32;
 v161 = (v22 >> 48) as u32;
 v160 = (v22 >> 56) as u32;
 v81 = (v23 >> 48) as u32;
 v80 = (v23 >> 56) as u32;
 v225 = (v24 >> 48) as u32;
 v224 = (v24 >> 56) as u32;
 v193 = (v25 >> 48) as u32;
 v192 = (v25 >> 56) as u32;
 v129 = (v26 >> 48) as u32;
 v128 = (v26 >> 56) as u32;
 v97 = (v27 >> 48) as u32;
 v96 = (v27 >> 56) as u32;
 break 'l4; }
 v116 = v119 >> 24;
 v117 = v119 >> 16;
 v40 = v38 >> 24;
 v280 = v38 >> 16;
 v148 = v151 >> 24;
 v149 = v151 >> 16;
 v180 = v183 >> 24;
 v181 = v183 >> 16;
 v212 = v215 >> 24;
 v213 = v215 >> 16;
 v282 = v281 >> 24;
 v283 = v281 >> 16;
 v244 = v247 >> 24;
 v245 = v247 >> 16;
 v276 = v279 >> 24;
 v277 = v279 >> 16;
 v118 = v112 >> 8;
 v284 = v113 >> 8;
 v150 = v114 >> 8;
 v182 = v144 >> 8;
 v214 = v145 >> 8;
 v285 = v146 >> 8;
 v246 = v176 >> 8;
 v278 = v177 >> 8;
 v114 = v178 >> 8;
 v287 = v208 >> 8;
 v146 = v209 >> 8;
 v178 = v210 >> 8;
 v210 = v240 >> 8;
 v289 = v241 >> 8;
 v242 >>= 8;
 v274 = v272 >> 8;
 v112 = v12 as u32;
 v113 = v33 as u32;
 v290 = v13 as u32;
 v291 = v4 as u32;
 v144 = v14 as u32;
 v145 = v5 as u32;
 v176 = v15 as u32;
 v177 = v6 as u32;
 v208 = v16 as u32;
 v209 = v7 as u32;
 v292 = v17 as u32;
 v293 = v8 as u32;
 v240 = v18 as u32;
 v241 = v10 as u32;
 v272 = v19 as u32;
 v273 = v11 as u32;
 if v9 <= 384 { break 'l2; }
 v33 = load64(v2 + 512);
 v95 = v33 as u32;
 v92 = v95 >> 24;
 v93 = v95 >> 16;
 v4 = load64(v2 + 480);
 v39 = v4 as u32;
 v41 = v39 >> 24;
 v42 = v39 >> 16;
 v5 = load64(v2 + 448);
 v127 = v5 as u32;
 v124 = v127 >> 24;
 v125 = v127 >> 16;
 v6 = load64(v2 + 416);
 v159 = v6 as u32;
 v156 = v159 >> 24;
 v157 = v159 >> 16;
 v7 = load64(v2 + 384);
 v191 = v7 as u32;
 v188 = v191 >> 24;
 v189 = v191 >> 16;
 v8 = load64(v2 + 352);
 v43 = v8 as u32;
 v44 = v43 >> 24;
 v45 = v43 >> 16;
 v9 = load64(v2 + 320);
 v223 = v9 as u32;
 v220 = v223 >> 24;
 v221 = v223 >> 16;
 v10 = load64(v2 + 288);
 v255 = v10 as u32;
 v252 = v255 >> 24;
 v253 = v255 >> 16;
 v94 = (v95 & 0xff00) >> 8;
 v58 = (v39 & 0xff00) >> 8;
 v126 = (v127 & 0xff00) >> 8;
 v158 = (v159 & 0xff00) >> 8;
 v190 = (v191 & 0xff00) >> 8;
 v59 = (v43 & 0xff00) >> 8;
 v222 = (v223 & 0xff00) >> 8;
 v254 = (v255 & 0xff00) >> 8;
 v91 = (v33 >> 32) as u32;
 v90 = (v91 & 0xff00) >> 8;
 v64 = (v4 >> 32) as u32;
 v65 = (v64 & 0xff00) >> 8;
 v123 = (v5 >> 32) as u32;
 v122 = (v123 & 0xff00) >> 8;
 v155 = (v6 >> 32) as u32;
 v154 = (v155 & 0xff00) >> 8;
 v187 = (v7 >> 32) as u32;
 v186 = (v187 & 0xff00) >> 8;
 v66 = (v8 >> 32) as u32;
 v67 = (v66 & 0xff00) >> 8;
 v219 = (v9 >> 32) as u32;
 v218 = (v219 & 0xff00) >> 8;
 v251 = (v10 >> 32) as u32;
 v250 = (v251 & 0xff00) >> 8;
 v88 = (v33 >> 56) as u32;
 v89 = (v33 >> 48) as u32;
 v76 = (v4 >> 56) as u32;
 v77 = (v4 >> 48) as u32;
 v120 = (v5 >> 56) as u32;
 v121 = (v5 >> 48) as u32;
 v152 = (v6 >> 56) as u32;
 v153 = (v6 >> 48) as u32;
 v184 = (v7 >> 56) as u32;
 v185 = (v7 >> 48) as u32;
 v78 = (v8 >> 56) as u32;
 v79 = (v8 >> 48) as u32;
 v216 = (v9 >> 56) as u32;
 v217 = (v9 >> 48) as u32;
 v248 = (v10 >> 56) as u32;
 v249 = (v10 >> 48) as u32;
 break 'l2; }
 store8(v2 + 263, v88 as u64);
 store8(v2 + 262, v89 as u64);
 store8(v2 + 261, v90 as u64);
 store8(v2 + 260, v91 as u64);
 store8(v2 + 259, v92 as u64);
 store8(v2 + 258, v93 as u64);
 store8(v2 + 257, v94 as u64);
 store8(v2 + 256, v95 as u64);
 store8(v2 + 255, v76 as u64);
 store8(v2 + 254, v77 as u64);
 store8(v2 + 253, v65 as u64);
 store8(v2 + 252, v64 as u64);
 store8(v2 + 251, v41 as u64);
 store8(v2 + 250, v42 as u64);
 store8(v2 + 249, v58 as u64);
 store8(v2 + 248, v39 as u64);
 store8(v2 + 247, v120 as u64);
 store8(v2 + 246, v121 as u64);
 store8(v2 + 245, v122 as u64);
 store8(v2 + 244, v123 as u64);
 store8(v2 + 243, v124 as u64);
 store8(v2 + 242, v125 as u64);
 store8(v2 + 241, v126 as u64);
 store8(v2 + 240, v127 as u64);
 store8(v2 + 239, v152 as u64);
 store8(v2 + 238, v153 as u64);
 store8(v2 + 237, v154 as u64);
 store8(v2 + 236, v155 as u64);
 store8(v2 + 235, v156 as u64);
 store8(v2 + 234, v157 as u64);
 store8(v2 + 233, v158 as u64);
 store8(v2 + 232, v159 as u64);
 store8(v2 + 231, v184 as u64);
 store8(v2 + 230, v185 as u64);
 store8(v2 + 229, v186 as u64);
 store8(v2 + 228, v187 as u64);
 store8(v2 + 227, v188 as u64);
 store8(v2 + 226, v189 as u64);
 store8(v2 + 225, v190 as u64);
 store8(v2 + 224, v191 as u64);
 store8(v2 + 223, v78 as u64);
 store8(v2 + 222, v79 as u64);
 store8(v2 + 221, v67 as u64);
 store8(v2 + 220, v66 as u64);
 store8(v2 + 219, v44 as u64);
 store8(v2 + 218, v45 as u64);
 store8(v2 + 217, v59 as u64);
 store8(v2 + 216, v43 as u64);
 store8(v2 + 215, v216 as u64);
 store8(v2 + 214, v217 as u64);
 store8(v2 + 213, v218 as u64);
 store8(v2 + 212, v219 as u64);
 store8(v2 + 211, v220 as u64);
 store8(v2 + 210, v221 as u64);
 store8(v2 + 209, v222 as u64);
 store8(v2 + 208, v223 as u64);
 store8(v2 + 207, v248 as u64);
 store8(v2 + 206, v249 as u64);
 store8(v2 + 205, v250 as u64);
 store8(v2 + 204, v251 as u64);
 store8(v2 + 203, v252 as u64);
 store8(v2 + 202, v253 as u64);
 store8(v2 + 201, v254 as u64);
 store8(v2 + 200, v255 as u64);
 store8(v2 + 199, v96 as u64);
 store8(v2 + 198, v97 as u64);
 store8(v2 + 197, v98 as u64);
 store8(v2 + 196, v99 as u64);
 store8(v2 + 195, v100 as u64);
 store8(v2 + 194, v101 as u64);
 store8(v2 + 193, v102 as u64);
 store8(v2 + 192, v103 as u64);
 store8(v2 + 191, v80 as u64);
 store8(v2 + 190, v81 as u64);
 store8(v2 + 189, v69 as u64);
 store8(v2 + 188, v68 as u64);
 store8(v2 + 187, v47 as u64);
 store8(v2 + 186, v48 as u64);
 store8(v2 + 185, v60 as u64);
 store8(v2 + 184, v46 as u64);
 store8(v2 + 183, v128 as u64);
 store8(v2 + 182, v129 as u64);
 store8(v2 + 181, v130 as u64);
 store8(v2 + 180, v131 as u64);
 store8(v2 + 179, v132 as u64);
 store8(v2 + 178, v133 as u64);
 store8(v2 + 177, v134 as u64);
 store8(v2 + 176, v135 as u64);
 store8(v2 + 175, v160 as u64);
 store8(v2 + 174, v161 as u64);
 store8(v2 + 173, v162 as u64);
 store8(v2 + 172, v163 as u64);
 store8(v2 + 171, v164 as u64);
 store8(v2 + 170, v165 as u64);
 store8(v2 + 169, v166 as u64);
 store8(v2 + 168, v167 as u64);
 store8(v2 + 167, v192 as u64);
 store8(v2 + 166, v193 as u64);
 store8(v2 + 165, v194 as u64);
 store8(v2 + 164, v195 as u64);
 store8(v2 + 163, v196 as u64);
 store8(v2 + 162, v197 as u64);
 store8(v2 + 161, v198 as u64);
 store8(v2 + 160, v199 as u64);
 store8(v2 + 159, v82 as u64);
 store8(v2 + 158, v83 as u64);
 store8(v2 + 157, v71 as u64);
 store8(v2 + 156, v70 as u64);
 store8(v2 + 155, v50 as u64);
 store8(v2 + 154, v51 as u64);
 store8(v2 + 153, v61 as u64);
 store8(v2 + 152, v49 as u64);
 store8(v2 + 151, v224 as u64);
 store8(v2 + 150, v225 as u64);
 store8(v2 + 149, v226 as u64);
 store8(v2 + 148, v227 as u64);
 store8(v2 + 147, v228 as u64);
 store8(v2 + 146, v229 as u64);
 store8(v2 + 145, v230 as u64);
 store8(v2 + 144, v231 as u64);
 store8(v2 + 143, v256 as u64);
 store8(v2 + 142, v257 as u64);
 store8(v2 + 141, v258 as u64);
 store8(v2 + 140, v259 as u64);
 store8(v2 + 139, v260 as u64);
 store8(v2 + 138, v261 as u64);
 store8(v2 + 137, v262 as u64);
 store8(v2 + 136, v263 as u64);
 store8(v2 + 135, v104 as u64);
 store8(v2 + 134, v105 as u64);
 store8(v2 + 133, v106 as u64);
 store8(v2 + 132, v107 as u64);
 store8(v2 + 131, v108 as u64);
 store8(v2 + 130, v109 as u64);
 store8(v2 + 129, v110 as u64);
 store8(v2 + 128, v111 as u64);
 store8(v2 + 127, v84 as u64);
 store8(v2 + 126, v85 as u64);
 store8(v2 + 125, v73 as u64);
 store8(v2 + 124, v72 as u64);
 store8(v2 + 123, v53 as u64);
 store8(v2 + 122, v54 as u64);
 store8(v2 + 121, v62 as u64);
 store8(v2 + 120, v52 as u64);
 store8(v2 + 119, v136 as u64);
 store8(v2 + 118, v137 as u64);
 store8(v2 + 117, v138 as u64);
 store8(v2 + 116, v139 as u64);
 store8(v2 + 115, v140 as u64);
 store8(v2 + 114, v141 as u64);
 store8(v2 + 113, v142 as u64);
 store8(v2 + 112, v143 as u64);
 store8(v2 + 111, v168 as u64);
 store8(v2 + 110, v169 as u64);
 store8(v2 + 109, v170 as u64);
 store8(v2 + 108, v171 as u64);
 store8(v2 + 107, v172 as u64);
 store8(v2 + 106, v173 as u64);
 store8(v2 + 105, v174 as u64);
 store8(v2 + 104, v175 as u64);
 store8(v2 + 103, v200 as u64);
 store8(v2 + 102, v201 as u64);
 store8(v2 + 101, v202 as u64);
 store8(v2 + 100, v203 as u64);
 store8(v2 + 99, v204 as u64);
 store8(v2 + 98, v205 as u64);
 store8(v2 + 97, v206 as u64);
 store8(v2 + 96, v207 as u64);
 store8(v2 + 95, v86 as u64);
 store8(v2 + 94, v87 as u64);
 store8(v2 + 93, v75 as u64);
 store8(v2 + 92, v74 as u64);
 store8(v2 + 91, v56 as u64);
 store8(v2 + 90, v57 as u64);
 store8(v2 + 89, v63 as u64);
 store8(v2 + 88, v55 as u64);
 store8(v2 + 87, v232 as u64);
 store8(v2 + 86, v233 as u64);
 store8(v2 + 85, v234 as u64);
 store8(v2 + 84, v235 as u64);
 store8(v2 + 83, v236 as u64);
 store8(v2 + 82, v237 as u64);
 store8(v2 + 81, v238 as u64);
 store8(v2 + 80, v239 as u64);
 store8(v2 + 79, v264 as u64);
 store8(v2 + 78, v265 as u64);
 store8(v2 + 77, v266 as u64);
 store8(v2 + 76, v267 as u64);
 store8(v2 + 75, v268 as u64);
 store8(v2 + 74, v269 as u64);
 store8(v2 + 73, v270 as u64);
 store8(v2 + 72, v271 as u64);
 store8(v2 + 71, v112 as u64);
 store8(v2 + 70, v113 as u64);
 store8(v2 + 69, v114 as u64);
 store8(v2 + 68, v115 as u64);
 store8(v2 + 67, v116 as u64);
 store8(v2 + 66, v117 as u64);
 store8(v2 + 65, v118 as u64);
 store8(v2 + 64, v119 as u64);
 store8(v2 + 63, v290 as u64);
 store8(v2 + 62, v291 as u64);
 store8(v2 + 61, v287 as u64);
 store8(v2 + 60, v286 as u64);
 store8(v2 + 59, v40 as u64);
 store8(v2 + 58, v280 as u64);
 store8(v2 + 57, v284 as u64);
 store8(v2 + 56, v38 as u64);
 store8(v2 + 55, v144 as u64);
 store8(v2 + 54, v145 as u64);
 store8(v2 + 53, v146 as u64);
 store8(v2 + 52, v147 as u64);
 store8(v2 + 51, v148 as u64);
 store8(v2 + 50, v149 as u64);
 store8(v2 + 49, v150 as u64);
 store8(v2 + 48, v151 as u64);
 store8(v2 + 47, v176 as u64);
 store8(v2 + 46, v177 as u64);
 store8(v2 + 45, v178 as u64);
 store8(v2 + 44, v179 as u64);
 store8(v2 + 43, v180 as u64);
 store8(v2 + 42, v181 as u64);
 store8(v2 + 41, v182 as u64);
 store8(v2 + 40, v183 as u64);
 store8(v2 + 39, v208 as u64);
 store8(v2 + 38, v209 as u64);
 store8(v2 + 37, v210 as u64);
 store8(v2 + 36, v211 as u64);
 store8(v2 + 35, v212 as u64);
 store8(v2 + 34, v213 as u64);
 store8(v2 + 33, v214 as u64);
 store8(v2 + 32, v215 as u64);
 store8(v2 + 31, v292 as u64);
 store8(v2 + 30, v293 as u64);
 store8(v2 + 29, v289 as u64);
 store8(v2 + 28, v288 as u64);
 store8(v2 + 27, v282 as u64);
 store8(v2 + 26, v283 as u64);
 store8(v2 + 25, v285 as u64);
 store8(v2 + 24, v281 as u64);
 store8(v2 + 23, v240 as u64);
 store8(v2 + 22, v241 as u64);
 store8(v2 + 21, v242 as u64);
 store8(v2 + 20, v243 as u64);
 store8(v2 + 19, v244 as u64);
 store8(v2 + 18, v245 as u64);
 store8(v2 + 17, v246 as u64);
 store8(v2 + 16, v247 as u64);
 store8(v2 + 15, v272 as u64);
 store8(v2 + 14, v273 as u64);
 store8(v2 + 13, v274 as u64);
 store8(v2 + 12, v275 as u64);
 store8(v2 + 11, v276 as u64);
 store8(v2 + 10, v277 as u64);
 store8(v2 + 9, v278 as u64);
 store8(v2 + 8, v279 as u64);
 v33 = load64(v1.plus(1424));
 v4 = load64(v1.plus(1432));
 v5 = load64(v1.plus(1440));
 v6 = load64(v1.plus(1448));
 v7 = load64(v1.plus(1456));
 v8 = load64(v1.plus(1464));
 v9 = load64(v1.plus(1472));
 store64(v2 + 320, load64(v1.plus(1480)));
 store64(v2 + 312, v9);
 store64(v2 + 304, v8);
 store64(v2 + 296, v7);
 store64(v2 + 288, v6);
 store64(v2 + 280, v5);
 store64(v2 + 272, v4);
 store64(v2 + 264, v33);
 compress_compress_blake2b_compress(v2.plus(264), v2.plus(8), 128, 0, 0);
 compress_compress_blake2b_compress(v2.plus(264), v2.plus(8).plus(128), 256, 1, 1);
 v39 = load8(v2 + 264);
 v43 = load8(v2 + 265);
 v52 = load8(v2 + 266);
 v55 = load8(v2 + 267);
 v46 = load8(v2 + 268);
 v49 = load8(v2 + 269);
 v119 = load8(v2 + 270);
 v151 = load8(v2 + 271);
 v183 = load8(v2 + 272);
 v215 = load8(v2 + 273);
 v247 = load8(v2 + 274);
 v279 = load8(v2 + 275);
 v38 = load8(v2 + 276);
 v281 = load8(v2 + 277);
 v95 = load8(v2 + 278);
 v111 = load8(v2 + 279);
 v127 = load8(v2 + 280);
 v143 = load8(v2 + 281);
 v159 = load8(v2 + 282);
 v175 = load8(v2 + 283);
 v191 = load8(v2 + 284);
 v207 = load8(v2 + 285);
 v223 = load8(v2 + 286);
 v239 = load8(v2 + 287);
 v255 = load8(v2 + 288);
 v271 = load8(v2 + 289);
 v112 = load8(v2 + 290);
 v113 = load8(v2 + 291);
 v114 = load8(v2 + 292);
 v115 = load8(v2 + 293);
 v116 = load8(v2 + 294);
 v117 = load8(v2 + 295);
 v118 = load8(v2 + 296);
 v144 = load8(v2 + 297);
 v145 = load8(v2 + 298);
 v146 = load8(v2 + 299);
 v147 = load8(v2 + 300);
 v148 = load8(v2 + 301);
 v149 = load8(v2 + 302);
 v150 = load8(v2 + 303);
 v176 = load8(v2 + 304);
 v177 = load8(v2 + 305);
 v178 = load8(v2 + 306);
 v179 = load8(v2 + 307);
 v180 = load8(v2 + 308);
 v181 = load8(v2 + 309);
 v182 = load8(v2 + 310);
 v208 = load8(v2 + 311);
 v209 = load8(v2 + 312);
 v210 = load8(v2 + 313);
 v211 = load8(v2 + 314);
 v212 = load8(v2 + 315);
 v213 = load8(v2 + 316);
 v214 = load8(v2 + 317);
 v240 = load8(v2 + 318);
 v241 = load8(v2 + 319);
 v242 = load8(v2 + 320);
 v243 = load8(v2 + 321);
 v244 = load8(v2 + 322);
 v245 = load8(v2 + 323);
 v246 = load8(v2 + 324);
 v272 = load8(v2 + 325);
 v273 = load8(v2 + 326);
 store8(v0 + 63, load8(v2 + 327) as u64);
 store8(v0 + 62, v273 as u64);
 store8(v0 + 61, v272 as u64);
 store8(v0 + 60, v246 as u64);
 store8(v0 + 59, v245 as u64);
 store8(v0 + 58, v244 as u64);
 store8(v0 + 57, v243 as u64);
 store8(v0 + 56, v242 as u64);
 store8(v0 + 55, v241 as u64);
 store8(v0 + 54, v240 as u64);
 store8(v0 + 53, v214 as u64);
 store8(v0 + 52, v213 as u64);
 store8(v0 + 51, v212 as u64);
 store8(v0 + 50, v211 as u64);
 store8(v0 + 49, v210 as u64);
 store8(v0 + 48, v209 as u64);
 store8(v0 + 47, v208 as u64);
 store8(v0 + 46, v182 as u64);
 store8(v0 + 45, v181 as u64);
 store8(v0 + 44, v180 as u64);
 store8(v0 + 43, v179 as u64);
 store8(v0 + 42, v178 as u64);
 store8(v0 + 41, v177 as u64);
 store8(v0 + 40, v176 as u64);
 store8(v0 + 39, v150 as u64);
 store8(v0 + 38, v149 as u64);
 store8(v0 + 37, v148 as u64);
 store8(v0 + 36, v147 as u64);
 store8(v0 + 35, v146 as u64);
 store8(v0 + 34, v145 as u64);
 store8(v0 + 33, v144 as u64);
 store8(v0 + 32, v118 as u64);
 store8(v0 + 31, v117 as u64);
 store8(v0 + 30, v116 as u64);
 store8(v0 + 29, v115 as u64);
 store8(v0 + 28, v114 as u64);
 store8(v0 + 27, v113 as u64);
 store8(v0 + 26, v112 as u64);
 store8(v0 + 25, v271 as u64);
 store8(v0 + 24, v255 as u64);
 store8(v0 + 23, v239 as u64);
 store8(v0 + 22, v223 as u64);
 store8(v0 + 21, v207 as u64);
 store8(v0 + 20, v191 as u64);
 store8(v0 + 19, v175 as u64);
 store8(v0 + 18, v159 as u64);
 store8(v0 + 17, v143 as u64);
 store8(v0 + 16, v127 as u64);
 store8(v0 + 15, v111 as u64);
 store8(v0 + 14, v95 as u64);
 store8(v0 + 13, v281 as u64);
 store8(v0 + 12, v38 as u64);
 store8(v0 + 11, v279 as u64);
 store8(v0 + 10, v247 as u64);
 store8(v0 + 9, v215 as u64);
 store8(v0 + 8, v183 as u64);
 store8(v0 + 7, v151 as u64);
 store8(v0 + 6, v119 as u64);
 store8(v0 + 5, v49 as u64);
 store8(v0 + 4, v46 as u64);
 store8(v0 + 3, v55 as u64);
 store8(v0 + 2, v52 as u64);
 store8(v0 + 1, v43 as u64);
 store8(v0, v39 as u64);
 return;
}

// blake2_parallel::lanes::blake2bp::compress_by_leaf
#[inline(never)]
unsafe fn parallel_lanes_blake2bp_compress_by_leaf(mut v0: u64, mut v1: u64, mut v2: u64, mut v3:
        u64) {
 let mut v4: u64;
 let mut v5: u64;
 let mut v6: u64;
 let mut v7: u64;
 let mut v8: u64;
 let mut v9: u64;
 let mut v10: u64;
 let mut v11: u64;
 let mut v12: u64;
 let mut v13: u64;
 let mut v14: u64;
 let mut v15: u64;
 let mut v16: u64;
 let mut v17: u64;
 let mut v18: u64;
 let mut v19: u64;
 let mut v20: u64;
 let mut v21: u64;
 let mut v22: u64;
 let mut v23: u64;
 let mut v24: u64;
 let mut v25: u64;
 let mut v26: u64;
 let mut v27: u64;
 let mut v28: u64;
 let mut v29: u64;
 let mut v30: u64;
 let mut v31: u64;
 let mut v32: u64;
 let mut v33: u64;
 let mut v34: u64;
 let mut v35: u64;
 let mut v36: u64;
 let mut v37: u32;
 let mut v38: u64;
 let mut v39: u64;
 let mut v40: u64;
 let mut frame = [0_u64; 10];
 let top = (address!(frame)).plus(80) & !15;
 v4 = top.minus(64);
 v5 = load64(v0 + 248);
 v6 = load64(v0 + 240);
 v7 = load64(v0 + 232);
 v8 = load64(v0 + 216);
 v9 = load64(v0 + 208);
 v10 = load64(v0 + 200);
 v11 = load64(v0 + 184);
 v12 = load64(v0 + 176);
 v13 = load64(v0 + 168);
 v14 = load64(v0 + 152);
 v15 = load64(v0 + 144);
 v16 = load64(v0 + 136);
 v17 = load64(v0 + 120);
 v18 = load64(v0 + 112);
 v19 = load64(v0 + 104);
 v20 = load64(v0 + 88);
 v21 = load64(v0 + 80);
 v22 = load64(v0 + 72);
 v23 = load64(v0 + 56);
 v24 = load64(v0 + 48);
 v25 = load64(v0 + 40);
 v26 = load64(v0 + 24);
 v27 = load64(v0 + 16);
 v28 = load64(v0 + 8);
 v29 = load64(v0);
 v30 = load64(v0 + 32);
 v31 = load64(v0 + 64);
 v32 = load64(v0 + 96);
 v33 = load64(v0 + 128);
 v34 = load64(v0 + 160);
 v35 = load64(v0 + 192);
 v36 = load64(v0 + 224);
 store64(v4 + 56, v36);
 store64(v4 + 48, v35);
 store64(v4 + 40, v34);
 store64(v4 + 32, v33);
 store64(v4 + 24, v32);
 store64(v4 + 16, v31);
 store64(v4 + 8, v30);
 store64(v4, v29);
 'l2: loop {
 v37 = (v3 == 0) as u32;
 if v37 != 0 { break 'l2; }
 v32 = v2.plus(128);
 v38 = v3;
 v39 = v1;
 'l3: loop {
 compress_compress_blake2b_compress(v4, v39, v32, 0, 0);
 v32 = v32.plus(128);
 v39 = v39.plus(512);
 v38 = v38.minus(1);
 if v38 != 0 { continue 'l3; }
 break 'l3; }
 v31 = load64(v4.plus(16));
 v36 = load64(v4 + 56);
 v35 = load64(v4 + 48);
 v34 = load64(v4 + 40);
 v33 = load64(v4 + 32);
 v30 = load64(v4 + 8);
 v29 = load64(v4);
 break 'l2; }
 v40 = load64(v4 + 24);
 store64(v4 + 56, v7);
 store64(v4 + 48, v10);
 store64(v4 + 40, v13);
 store64(v4 + 32, v16);
 store64(v4 + 24, v19);
 store64(v4 + 16, v22);
 store64(v4 + 8, v25);
 store64(v4, v28);
 'l4: loop {
 if v37 != 0 { break 'l4; }
 v32 = v2.plus(128);
 v39 = v1.plus(128);
 v38 = v3;
 'l5: loop {
 compress_compress_blake2b_compress(v4, v39, v32, 0, 0);
 v32 = v32.plus(128);
 v39 = v39.plus(512);
 v38 = v38.minus(1);
 if v38 != 0 { continue 'l5; }
 break 'l5; }
 v7 = load64(v4 + 56);
 v10 = load64(v4 + 48);
 v13 = load64(v4 + 40);
 v16 = load64(v4 + 32);
 v19 = load64(v4 + 24);
 v22 = load64(v4 + 16);
 v25 = load64(v4 + 8);
 v28 = load64(v4);
 break 'l4; }
 store64(v4 + 48, v9);
 store64(v4 + 32, v15);
 store64(v4 + 16, v21);
 store64(v4, v27);
 store64(v4 + 56, v6);
 store64(v4 + 40, v12);
 store64(v4 + 24, v18);
 store64(v4 + 8, v24);
 'l6: loop {
 if v37 != 0 { break 'l6; }
 v32 = v2.plus(128);
 v39 = v1.plus(256);
 v38 = v3;
 'l7: loop {
 compress_compress_blake2b_compress(v4, v39, v32, 0, 0);
 v32 = v32.plus(128);
 v39 = v39.plus(512);
 v38 = v38.minus(1);
 if v38 != 0 { continue 'l7; }
 break 'l7; }
 v6 = load64(v4 + 56);
 v9 = load64(v4 + 48);
 v12 = load64(v4 + 40);
 v15 = load64(v4 + 32);
 v18 = load64(v4 + 24);
 v21 = load64(v4 + 16);
 v24 = load64(v4 + 8);
 v27 = load64(v4);
 break 'l6; }
 store64(v4 + 48, v8);
 store64(v4 + 32, v14);
 store64(v4 + 16, v20);
 store64(v4, v26);
 store64(v4 + 56, v5);
 store64(v4 + 40, v11);
 store64(v4 + 24, v17);
 store64(v4 + 8, v23);
 'l8: loop {
 if v37 != 0 { break 'l8; }
 v32 = v2.plus(128);
 v39 = v1.plus(384);
 'l9: loop {
 compress_compress_blake2b_compress(v4, v39, v32, 0, 0);
 v32 = v32.plus(128);
 v39 = v39.plus(512);
 v3 = v3.minus(1);
 if v3 != 0 { continue 'l9; }
 break 'l9; }
 v5 = load64(v4 + 56);
 v8 = load64(v4 + 48);
 v11 = load64(v4 + 40);
 v14 = load64(v4 + 32);
 v17 = load64(v4 + 24);
 v20 = load64(v4 + 16);
 v23 = load64(v4 + 8);
 v26 = load64(v4);
 break 'l8; }
 store64(v0 + 248, v5);
 store64(v0 + 240, v6);
 store64(v0 + 232, v7);
 store64(v0 + 224, v36);
 store64(v0 + 216, v8);
 store64(v0 + 208, v9);
 store64(v0 + 200, v10);
 store64(v0 + 192, v35);
 store64(v0 + 184, v11);
 store64(v0 + 176, v12);
 store64(v0 + 168, v13);
 store64(v0 + 160, v34);
 store64(v0 + 152, v14);
 store64(v0 + 144, v15);
 store64(v0 + 136, v16);
 store64(v0 + 128, v33);
 store64(v0 + 120, v17);
 store64(v0 + 112, v18);
 store64(v0 + 104, v19);
 store64(v0 + 96, v40);
 store64(v0 + 88, v20);
 store64(v0 + 80, v21);
 store64(v0 + 72, v22);
 store64(v0 + 64, v31);
 store64(v0 + 56, v23);
 store64(v0 + 48, v24);
 store64(v0 + 40, v25);
 store64(v0 + 32, v30);
 store64(v0 + 24, v26);
 store64(v0 + 16, v27);
 store64(v0 + 8, v28);
 store64(v0, v29);
 return;
}

// blake2_parallel::lanes::blake2bp::Lanes::compress_held
#[inline(never)]
unsafe fn parallel_lanes_blake2bp_Lanes_compress_held(mut v0: u64) {
 let mut v1: u64;
 let mut v2: u64;
 let mut v3: u64;
 let mut v4: u64;
 let mut v5: u64;
 let mut v6: u64;
 let mut v7: u64;
 let mut v8: u64;
 let mut v9: u64;
 let mut v10: u64;
 let mut v11: u64;
 let mut v12: u64;
 let mut v13: u64;
 let mut v14: u64;
 let mut v15: u64;
 let mut v16: u64;
 let mut v17: u64;
 let mut v18: u64;
 let mut v19: u64;
 let mut v20: u64;
 let mut v21: u64;
 let mut v22: u64;
 let mut v23: u64;
 let mut v24: u64;
 let mut v25: u64;
 let mut v26: u64;
 let mut v27: u64;
 let mut v28: u64;
 let mut v29: u64;
 let mut v30: u64;
 let mut v31: u64;
 let mut v32: u64;
 let mut v33: u64;
 let mut v34: u64;
 let mut v35: u64;
 let mut v36: u64;
 let mut v37: u64;
 let mut v38: u64;
 let mut v39: u64;
 let mut v40: u64;
 let mut v41: u64;
 let mut v42: u64;
 let mut v43: u64;
 let mut v44: u64;
 let mut v45: u64;
 let mut v46: u64;
 let mut v47: u64;
 let mut v48: u64;
 let mut v49: u64;
 let mut v50: u64;
 let mut v51: u64;
 let mut v52: u64;
 let mut v53: u64;
 let mut v54: u64;
 let mut v55: u64;
 let mut v56: u64;
 let mut v57: u64;
 let mut v58: u64;
 let mut v59: u64;
 let mut v60: u64;
 let mut v61: u64;
 let mut v62: u64;
 let mut v63: u64;
 let mut v64: u64;
 let mut v65: u64;
 let mut v66: u64;
 let mut frame = [0_u64; 146];
 let top = (address!(frame)).plus(1168) & !15;
 v1 = top.minus(1152);
 v2 = v0.plus(32);
 v3 = load64(v2);
 v4 = v0.plus(40);
 v5 = load64(v4);
 v6 = v0.plus(48);
 v7 = load64(v6);
 v8 = v0.plus(56);
 v9 = load64(v8);
 v10 = v0.plus(64);
 v11 = load64(v10);
 v12 = v0.plus(72);
 v13 = load64(v12);
 v14 = v0.plus(80);
 v15 = load64(v14);
 v16 = v0.plus(88);
 v17 = load64(v16);
 v18 = v0.plus(96);
 v19 = load64(v18);
 v20 = v0.plus(104);
 v21 = load64(v20);
 v22 = v0.plus(112);
 v23 = load64(v22);
 v24 = v0.plus(120);
 v25 = load64(v24);
 v26 = v0.plus(128);
 v27 = load64(v26);
 v28 = v0.plus(136);
 v29 = load64(v28);
 v30 = v0.plus(144);
 v31 = load64(v30);
 v32 = v0.plus(152);
 v33 = load64(v32);
 v34 = v0.plus(160);
 v35 = load64(v34);
 v36 = v0.plus(168);
 v37 = load64(v36);
 v38 = v0.plus(176);
 v39 = load64(v38);
 v40 = v0.plus(184);
 v41 = load64(v40);
 v42 = v0.plus(192);
 v43 = load64(v42);
 v44 = v0.plus(200);
 v45 = load64(v44);
 v46 = v0.plus(208);
 v47 = load64(v46);
 v48 = v0.plus(216);
 v49 = load64(v48);
 v50 = v0.plus(224);
 v51 = load64(v50);
 v52 = v0.plus(232);
 v53 = load64(v52);
 v54 = v0.plus(240);
 v55 = load64(v54);
 v56 = load64(v0);
 v57 = load64(v0 + 8);
 v58 = load64(v0 + 16);
 v59 = load64(v0 + 24);
 v60 = v0.plus(248);
 store64(v1 + 248, load64(v60));
 store64(v1 + 240, v55);
 store64(v1 + 232, v53);
 store64(v1 + 224, v51);
 store64(v1 + 216, v49);
 store64(v1 + 208, v47);
 store64(v1 + 200, v45);
 store64(v1 + 192, v43);
 store64(v1 + 184, v41);
 store64(v1 + 176, v39);
 store64(v1 + 168, v37);
 store64(v1 + 160, v35);
 store64(v1 + 152, v33);
 store64(v1 + 144, v31);
 store64(v1 + 136, v29);
 store64(v1 + 128, v27);
 store64(v1 + 120, v25);
 store64(v1 + 112, v23);
 store64(v1 + 104, v21);
 store64(v1 + 96, v19);
 store64(v1 + 88, v17);
 store64(v1 + 80, v15);
 store64(v1 + 72, v13);
 store64(v1 + 64, v11);
 store64(v1 + 56, v9);
 store64(v1 + 48, v7);
 store64(v1 + 40, v5);
 store64(v1 + 32, v3);
 store64(v1 + 24, v59);
 store64(v1 + 16, v58);
 store64(v1 + 8, v57);
 store64(v1, v56);
 v5 = v0.plus(272);
 v7 = v0.plus(256);
 v9 = load64(v7);
 parallel_lanes_blake2bp_compress_by_leaf(v1, v5, v9, 1);
 v11 = v0.plus(264);
 v3 = load64(v11);
 fill(v1.plus(256), 0, 896);
 'l2: loop {
 v3 = v3.minus(512);
 if v3 == 0 { break 'l2; }
 copy(v1.plus(256), v0.plus(784), v3);
 break 'l2; }
 v13 = load64(v1);
 v15 = load64(v1 + 8);
 v17 = load64(v1 + 16);
 v19 = load64(v1 + 24);
 v21 = load64(v1 + 32);
 v23 = load64(v1 + 40);
 v25 = load64(v1 + 48);
 v27 = load64(v1 + 56);
 v29 = load64(v1 + 64);
 v31 = load64(v1 + 72);
 v33 = load64(v1 + 80);
 v35 = load64(v1 + 88);
 v37 = load64(v1 + 96);
 v39 = load64(v1 + 104);
 v41 = load64(v1 + 112);
 v43 = load64(v1 + 120);
 v45 = load64(v1 + 128);
 v47 = load64(v1 + 136);
 v49 = load64(v1 + 144);
 v51 = load64(v1 + 152);
 v53 = load64(v1 + 160);
 v55 = load64(v1 + 168);
 v56 = load64(v1 + 176);
 v57 = load64(v1 + 184);
 v58 = load64(v1 + 192);
 v59 = load64(v1 + 200);
 v61 = load64(v1 + 208);
 v62 = load64(v1 + 216);
 v63 = load64(v1 + 224);
 v64 = load64(v1 + 232);
 v65 = load64(v1 + 240);
 v66 = load64(v1 + 248);
 store64(v7, v9.plus(128));
 store64(v60, v66);
 store64(v54, v65);
 store64(v52, v64);
 store64(v50, v63);
 store64(v48, v62);
 store64(v46, v61);
 store64(v44, v59);
 store64(v42, v58);
 store64(v40, v57);
 store64(v38, v56);
 store64(v36, v55);
 store64(v34, v53);
 store64(v32, v51);
 store64(v30, v49);
 store64(v28, v47);
 store64(v26, v45);
 store64(v24, v43);
 store64(v22, v41);
 store64(v20, v39);
 store64(v18, v37);
 store64(v16, v35);
 store64(v14, v33);
 store64(v12, v31);
 store64(v10, v29);
 store64(v8, v27);
 store64(v6, v25);
 store64(v4, v23);
 store64(v2, v21);
 store64(v0 + 24, v19);
 store64(v0 + 16, v17);
 store64(v0 + 8, v15);
 store64(v0, v13);
 copy(v5, v1.plus(256), 896);
 store64(v11, v3);
 return;
}

// blake2_parallel::blake2bp::State::update
#[inline(never)]
unsafe fn parallel_blake2bp_State_update(mut v0: u64, mut v1: u64, mut v2: u64) {
 let mut v3: u64;
 let mut v4: u64;
 let mut v5: u64;
 let mut v6: u64;
 let mut v7: u64;
 let mut v8: u64;
 let mut v9: u64;
 let mut v10: u64;
 let mut v11: u64;
 let mut v12: u64;
 let mut v13: u64;
 let mut v14: u64;
 let mut v15: u64;
 let mut v16: u64;
 let mut v17: u64;
 let mut v18: u64;
 let mut v19: u64;
 let mut v20: u64;
 let mut v21: u64;
 let mut v22: u64;
 let mut v23: u64;
 let mut v24: u64;
 let mut v25: u64;
 let mut v26: u64;
 let mut v27: u64;
 let mut v28: u64;
 let mut v29: u64;
 let mut v30: u64;
 let mut v31: u64;
 let mut v32: u64;
 let mut v33: u64;
 let mut v34: u64;
 let mut v35: u64;
 let mut v36: u64;
 let mut v37: u64;
 let mut v38: u64;
 let mut v39: u64;
 let mut v40: u64;
 let mut v41: u64;
 let mut v42: u64;
 let mut v43: u64;
 let mut v44: u64;
 let mut v45: u64;
 let mut v46: u64;
 let mut v47: u64;
 let mut v48: u64;
 let mut v49: u64;
 let mut v50: u64;
 let mut v51: u64;
 let mut v52: u64;
 let mut v53: u64;
 let mut v54: u64;
 let mut v55: u64;
 let mut v56: u64;
 let mut v57: u64;
 let mut v58: u64;
 let mut v59: u64;
 let mut v60: u64;
 let mut v61: u64;
 let mut v62: u64;
 let mut v63: u64;
 let mut v64: u64;
 let mut v65: u64;
 let mut v66: u64;
 let mut v67: u64;
 let mut v68: u64;
 let mut frame = [0_u64; 34];
 let top = (address!(frame)).plus(272) & !15;
 v3 = top.minus(256);
 'l2: loop {
 v4 = load64(v0.plus(264));
 if 896_u64.minus(v4) >= v2 { break 'l2; }
 v5 = v0.plus(272);
 'l3: loop {
 'l4: loop {
 'l5: loop {
 if v4 != 0 { break 'l5; }
 v6 = v0.plus(32);
 v7 = load64(v6);
 v8 = v0.plus(40);
 v9 = load64(v8);
 v4 = v0.plus(48);
 v10 = load64(v4);
 v11 = v0.plus(56);
 v12 = load64(v11);
 v13 = v0.plus(64);
 v14 = load64(v13);
 v15 = v0.plus(72);
 v16 = load64(v15);
 v17 = v0.plus(80);
 v18 = load64(v17);
 v19 = v0.plus(88);
 v20 = load64(v19);
 v21 = v0.plus(96);
 v22 = load64(v21);
 v23 = v0.plus(104);
 v24 = load64(v23);
 v25 = v0.plus(112);
 v26 = load64(v25);
 v27 = v0.plus(120);
 v28 = load64(v27);
 v29 = v0.plus(128);
 v30 = load64(v29);
 v31 = v0.plus(136);
 v32 = load64(v31);
 v33 = v0.plus(144);
 v34 = load64(v33);
 v35 = v0.plus(152);
 v36 = load64(v35);
 v37 = v0.plus(160);
 v38 = load64(v37);
 v39 = v0.plus(168);
 v40 = load64(v39);
 v41 = v0.plus(176);
 v42 = load64(v41);
 v43 = v0.plus(184);
 v44 = load64(v43);
 v45 = v0.plus(192);
 v46 = load64(v45);
 v47 = v0.plus(200);
 v48 = load64(v47);
 v49 = v0.plus(208);
 v50 = load64(v49);
 v51 = v0.plus(216);
 v52 = load64(v51);
 v53 = v0.plus(224);
 v54 = load64(v53);
 v55 = v0.plus(232);
 v56 = load64(v55);
 v57 = v0.plus(240);
 v58 = load64(v57);
 v59 = load64(v0);
 v60 = load64(v0 + 8);
 v61 = load64(v0 + 16);
 v62 = load64(v0 + 24);
 v63 = v0.plus(248);
 store64(v3 + 248, load64(v63));
 store64(v3 + 240, v58);
 store64(v3 + 232, v56);
 store64(v3 + 224, v54);
 store64(v3 + 216, v52);
 store64(v3 + 208, v50);
 store64(v3 + 200, v48);
 store64(v3 + 192, v46);
 store64(v3 + 184, v44);
 store64(v3 + 176, v42);
 store64(v3 + 168, v40);
 store64(v3 + 160, v38);
 store64(v3 + 152, v36);
 store64(v3 + 144, v34);
 store64(v3 + 136, v32);
 store64(v3 + 128, v30);
 store64(v3 + 120, v28);
 store64(v3 + 112, v26);
 store64(v3 + 104, v24);
 store64(v3 + 96, v22);
 store64(v3 + 88, v20);
 store64(v3 + 80, v18);
 store64(v3 + 72, v16);
 store64(v3 + 64, v14);
 store64(v3 + 56, v12);
 store64(v3 + 48, v10);
 store64(v3 + 40, v9);
 store64(v3 + 32, v7);
 store64(v3 + 24, v62);
 store64(v3 + 16, v61);
 store64(v3 + 8, v60);
 store64(v3, v59);
 v7 = v0.plus(256);
 v9 = load64(v7);
 v10 = v2.minus(385);
 v12 = v10 >> 9;
 parallel_lanes_blake2bp_compress_by_leaf(v3, v1, v9, v12);
 v14 = load64(v3);
 v16 = load64(v3 + 8);
 v18 = load64(v3 + 16);
 v20 = load64(v3 + 24);
 v22 = load64(v3 + 32);
 v24 = load64(v3 + 40);
 v26 = load64(v3 + 48);
 v28 = load64(v3 + 56);
 v30 = load64(v3 + 64);
 v32 = load64(v3 + 72);
 v34 = load64(v3 + 80);
 v36 = load64(v3 + 88);
 v38 = load64(v3 + 96);
 v40 = load64(v3 + 104);
 v42 = load64(v3 + 112);
 v44 = load64(v3 + 120);
 v46 = load64(v3 + 128);
 v48 = load64(v3 + 136);
 v50 = load64(v3 + 144);
 v52 = load64(v3 + 152);
 v54 = load64(v3 + 160);
 v56 = load64(v3 + 168);
 v58 = load64(v3 + 176);
 v59 = load64(v3 + 184);
 v60 = load64(v3 + 192);
 v61 = load64(v3 + 200);
 v62 = load64(v3 + 208);
 v64 = load64(v3 + 216);
 v65 = load64(v3 + 224);
 v66 = load64(v3 + 232);
 v67 = load64(v3 + 240);
 v68 = load64(v3 + 248);
 store64(v7, v9.plus(v12 << 7));
 store64(v63, v68);
 store64(v57, v67);
 store64(v55, v66);
 store64(v53, v65);
 store64(v51, v64);
 store64(v49, v62);
 store64(v47, v61);
 store64(v45, v60);
 store64(v43, v59);
 store64(v41, v58);
 store64(v39, v56);
 store64(v37, v54);
 store64(v35, v52);
 store64(v33, v50);
 store64(v31, v48);
 store64(v29, v46);
 store64(v27, v44);
 store64(v25, v42);
 store64(v23, v40);
 store64(v21, v38);
 store64(v19, v36);
 store64(v17, v34);
 store64(v15, v32);
 store64(v13, v30);
 store64(v11, v28);
 store64(v4, v26);
 store64(v8, v24);
 store64(v6, v22);
 store64(v0 + 24, v20);
 store64(v0 + 16, v18);
 store64(v0 + 8, v16);
 store64(v0, v14);
 v6 = v10 & 0xfffffffffffffe00;
 v2 = v2.minus(v6);
 v1 = v1.plus(v6);
 break 'l4;
 }
 'l6: loop {
 if v4 > 511 { break 'l6; }
 'l7: loop {
 'l8: loop {
 v6 = v5.plus(v4);
 v12 = 512_u64.minus(v4);
 if v6.minus(v1) >= v12 { break 'l8; }
 v9 = v12 & 3;
 v7 = 0;
 'l9: loop {
 if v4 > 508 { break 'l9; }
 v10 = v0.plus(v4);
 v11 = v12 & 1020;
 v7 = 0;
 'l10: loop {
 v6 = v10.plus(v7);
 v8 = v1.plus(v7);
 store8(v6.plus(272), load8(v8) as u64);
 store8(v6.plus(273), load8(v8.plus(1)) as u64);
 store8(v6.plus(274), load8(v8.plus(2)) as u64);
 store8(v6.plus(275), load8(v8.plus(3)) as u64);
 v7 = v7.plus(4);
 if v11 != v7 { continue 'l10; }
 break 'l10; }
 if v9 == 0 { break 'l7; }
 break 'l9; }
 v6 = v1.plus(v7);
 v7 = v5.plus(v4.plus(v7));
 'l11: loop {
 store8(v7, load8(v6) as u64);
 v7 = v7.plus(1);
 v6 = v6.plus(1);
 v9 = v9.minus(1);
 if v9 != 0 { continue 'l11; }
 break 'l7;
 }
 }
 if v12 == 0 { break 'l7; }
 copy(v6, v1, v12);
 break 'l7; }
 store64(v0.plus(264), 512);
 parallel_lanes_blake2bp_Lanes_compress_held(v0);
 v1 = v1.plus(v12);
 v2 = v2.minus(v12);
 break 'l4;
 }
 parallel_lanes_blake2bp_Lanes_compress_held(v0);
 break 'l4; }
 v4 = load64(v0.plus(264));
 if 896_u64.minus(v4) < v2 { continue 'l3; }
 break 'l3; }
 break 'l2; }
 'l12: loop {
 'l13: loop {
 v10 = v0.plus(v4);
 v6 = v10.plus(272);
 if v6.minus(v1) >= v2 { break 'l13; }
 v9 = v2 & 3;
 v7 = 0;
 'l14: loop {
 if v2 < 4 { break 'l14; }
 v11 = v2 & 0xfffffffffffffffc;
 v7 = 0;
 'l15: loop {
 v6 = v10.plus(v7);
 v8 = v1.plus(v7);
 store8(v6.plus(272), load8(v8) as u64);
 store8(v6.plus(273), load8(v8.plus(1)) as u64);
 store8(v6.plus(274), load8(v8.plus(2)) as u64);
 store8(v6.plus(275), load8(v8.plus(3)) as u64);
 v7 = v7.plus(4);
 if v11 != v7 { continue 'l15; }
 break 'l15; }
 if v9 == 0 { break 'l12; }
 break 'l14; }
 v6 = v1.plus(v7);
 v7 = v4.plus(v7).plus(v0).plus(272);
 'l16: loop {
 store8(v7, load8(v6) as u64);
 v7 = v7.plus(1);
 v6 = v6.plus(1);
 v9 = v9.minus(1);
 if v9 != 0 { continue 'l16; }
 break 'l12;
 }
 }
 if v2 == 0 { break 'l12; }
 copy(v6, v1, v2);
 break 'l12; }
 store64(v0.plus(264), v4.plus(v2));
 return;
}

// blake2_ffi::blake2bp::write
#[inline(never)]
unsafe fn ffi_blake2bp_write(mut v0: u64, mut v1: u64, mut v2: u64, mut v3: u64, mut v4: u64, mut
        v5: u64) -> u32 {
 let mut v6: u64;
 let mut v7: u32;
 let mut frame = [0_u64; 510];
 let top = (address!(frame)).plus(4080) & !15;
 v6 = top.minus(4064);
 fill(v6.plus(2224), 0, 304);
 'l2: loop {
 'l3: loop {
 'l4: loop {
 'l5: loop {
 if v1.minus(1) > 63 { break 'l5; }
 if v5 > 64 { break 'l5; }
 fill(v6.plus(2528), 0, 128);
 'l6: loop {
 if v5 == 0 { break 'l6; }
 copy(v6.plus(2528), v4, v5);
 break 'l6; }
 v4 = 0;
 if v5 != 0 { break 'l4; }
 fill(v6.plus(3168), 0, 896);
 break 'l3;
 }
 v7 = 0xffffffff;
 break 'l2;
 }
 copy(v6.plus(2656), v6.plus(2528), 128);
 copy(v6.plus(2656).plus(128), v6.plus(2528), 128);
 copy(v6.plus(2912), v6.plus(2528), 128);
 copy(v6.plus(2656).plus(384), v6.plus(2528), 128);
 v4 = 512;
 fill(v6.plus(3168).plus(512), 0, 384);
 copy(v6.plus(3168), v6.plus(2656), 512);
 break 'l3; }
 copy(v6, v6.plus(3168), 896);
 store64(v6 + 1160, v4);
 store64(v6 + 1152, 0);
 store64(v6 + 1144, 0x5be0cd19137e2179);
 store64(v6 + 1136, 0x5be0cd19137e2179);
 store64(v6 + 1128, 0x5be0cd19137e2179);
 store64(v6 + 1120, 0x5be0cd19137e2179);
 store64(v6 + 1112, 0x1f83d9abfb41bd6b);
 store64(v6 + 1104, 0x1f83d9abfb41bd6b);
 store64(v6 + 1096, 0x1f83d9abfb41bd6b);
 store64(v6 + 1088, 0x1f83d9abfb41bd6b);
 store64(v6 + 1080, 0x9b05688c2b3e6c1f);
 store64(v6 + 1072, 0x9b05688c2b3e6c1f);
 store64(v6 + 1064, 0x9b05688c2b3e6c1f);
 store64(v6 + 1056, 0x9b05688c2b3e6c1f);
 store64(v6 + 1048, 0x510e527fade682d1);
 store64(v6 + 1040, 0x510e527fade682d1);
 store64(v6 + 1032, 0x510e527fade682d1);
 store64(v6 + 1024, 0x510e527fade682d1);
 store64(v6 + 1016, 0xa54ff53a5f1d36f1);
 store64(v6 + 1008, 0xa54ff53a5f1d36f1);
 store64(v6 + 1000, 0xa54ff53a5f1d36f1);
 store64(v6 + 992, 0xa54ff53a5f1d36f1);
 store64(v6 + 984, 0x3c6ef372fe94b82b);
 store64(v6 + 976, 0x3c6ef372fe94b82b);
 store64(v6 + 968, 0x3c6ef372fe94b82b);
 store64(v6 + 960, 0x3c6ef372fe94b82b);
 store64(v6 + 952, 0xbb67ae8584caa738);
 store64(v6 + 944, 0xbb67ae8584caa739);
 store64(v6 + 936, 0xbb67ae8584caa73a);
 store64(v6 + 928, 0xbb67ae8584caa73b);
 v5 = ((((v5 as u32) << 8) | (v1 as u32) | 0x2040000) as u64) ^ 0x6a09e667f3bcc908;
 store64(v6 + 920, v5);
 store64(v6 + 912, v5);
 store64(v6 + 904, v5);
 store64(v6 + 896, v5);
 copy(v6.plus(1168), v6, 896);
 store64(v6 + 2392, v1);
 store64(v6 + 2384, v4);
 store64(v6 + 2376, 0x5be0cd19137e2179);
 store64(v6 + 2368, 0x1f83d9abfb41bd6b);
 store64(v6 + 2360, 0x9b05688c2b3e6c1f);
 store64(v6 + 2352, 0x510e527fade682d1);
 store64(v6 + 2344, 0xa54ff53a5f1d36f1);
 store64(v6 + 2336, 0x3c6ef372fe94b82a);
 store64(v6 + 2328, 0xbb67ae8584caa73b);
 store64(v6 + 2320, v5);
 store64(v6 + 2312, 0x5be0cd19137e2179);
 store64(v6 + 2304, 0x5be0cd19137e2179);
 store64(v6 + 2296, 0x5be0cd19137e2179);
 store64(v6 + 2288, 0x5be0cd19137e2179);
 store64(v6 + 2280, 0x1f83d9abfb41bd6b);
 store64(v6 + 2272, 0x1f83d9abfb41bd6b);
 store64(v6 + 2264, 0x1f83d9abfb41bd6b);
 store64(v6 + 2256, 0x1f83d9abfb41bd6b);
 store64(v6 + 2248, 0x9b05688c2b3e6c1f);
 store64(v6 + 2240, 0x9b05688c2b3e6c1f);
 store64(v6 + 2232, 0x9b05688c2b3e6c1f);
 store64(v6 + 2224, 0x9b05688c2b3e6c1f);
 store64(v6 + 2216, 0x510e527fade682d1);
 store64(v6 + 2208, 0x510e527fade682d1);
 store64(v6 + 2200, 0x510e527fade682d1);
 store64(v6 + 2192, 0x510e527fade682d1);
 store64(v6 + 2184, 0xa54ff53a5f1d36f1);
 store64(v6 + 2176, 0xa54ff53a5f1d36f1);
 store64(v6 + 2168, 0xa54ff53a5f1d36f1);
 store64(v6 + 2160, 0xa54ff53a5f1d36f1);
 store64(v6 + 2152, 0x3c6ef372fe94b82b);
 store64(v6 + 2144, 0x3c6ef372fe94b82b);
 store64(v6 + 2136, 0x3c6ef372fe94b82b);
 store64(v6 + 2128, 0x3c6ef372fe94b82b);
 store64(v6 + 2120, 0xbb67ae8584caa738);
 store64(v6 + 2112, 0xbb67ae8584caa739);
 store64(v6 + 2104, 0xbb67ae8584caa73a);
 store64(v6 + 2096, 0xbb67ae8584caa73b);
 store64(v6 + 2088, v5);
 store64(v6 + 2080, v5);
 store64(v6 + 2072, v5);
 store64(v6 + 2064, v5);
 copy(v6.plus(2400), v6.plus(2528), 128);
 v7 = 0xffffffff;
 if v3 > (!v4) { break 'l2; }
 parallel_blake2bp_State_update(v6.plus(896), v2, v3);
 fill(v6 + 3168, 0, 64);
 parallel_blake2bp_State_output(v6.plus(3168), v6.plus(896));
 'l7: loop {
 v5 = load64(v6 + 2392);
 if v5 == 0 { break 'l7; }
 copy(v0, v6.plus(3168), v5);
 break 'l7; }
 v7 = 0;
 break 'l2; }
 return v7;
}

// Overwrites the stack below the caller.
#[inline(never)]
unsafe fn digest_wiping_scrub_stack_8704() {
    let mut room = [0_u64; 1344];
    for word in room.iter_mut() {
        core::ptr::write_volatile(word, 0);
    }
}

// rattle::export vulfsjor_ffi_blake2bp
#[inline(never)]
unsafe fn exported_blake2bp(mut v0: u64, mut v1: u64, mut v2: u64, mut v3: u64, mut v4: u64, mut v5:
        u64) -> u32 {
 let mut v7: u32;
 v7 = ffi_blake2bp_write(v0.plus(if v0 == 0 { 4096_u64 } else { 0 }), v1, v2.plus(if v2 == 0 {
   4096_u64 } else { 0 }), v3, v4.plus(if v4 == 0 { 4096_u64 } else { 0 }), v5);
 'l2: loop {
 if v5 == 0 { break 'l2; }
 digest_wiping_scrub_stack_8704();
 break 'l2; }
 return v7;
}

// blake2_ffi::blake2bp::initialize
#[inline(never)]
unsafe fn ffi_blake2bp_initialize(mut v0: u64, mut v1: u64, mut v2: u64, mut v3: u64, mut v4: u64,
        mut v5: u64, mut v6: u64, mut v7: u64) -> u32 {
 let mut v8: u64;
 let mut v10: u32;
 let mut v11: u64;
 let mut v12: u32;
 let mut v13: u64;
 let mut v14: u64;
 let mut v15: u64;
 let mut v16: u64;
 let mut v17: u64;
 let mut v18: u64;
 let mut v19: u64;
 let mut frame = [0_u64; 310];
 let top = (address!(frame)).plus(2480) & !15;
 v8 = top;
 v8 = v8.minus(2432) & 0xffffffffffffffe0;
 'l2: loop {
 if v1.minus(1) > 63 { break 'l2; }
 if v3 > 64 { break 'l2; }
 if v5 > 16 { break 'l2; }
 if v7 > 16 { break 'l2; }
 fill(v8 + 1024, 0, 32);
 'l3: loop {
 v10 = (v5 == 0) as u32;
 if v10 != 0 { break 'l3; }
 copy(v8.plus(1024), v4, v5);
 break 'l3; }
 v11 = v8.plus(1024) | 16;
 'l4: loop {
 v12 = (v7 == 0) as u32;
 if v12 != 0 { break 'l4; }
 copy(v11, v6, v7);
 break 'l4; }
 v13 = load64(v8 + 1048);
 v14 = load64(v8 + 1040);
 v15 = load64(v8 + 1032);
 v16 = load64(v8 + 1024);
 fill(v8 + 1024, 0, 32);
 'l5: loop {
 if v10 != 0 { break 'l5; }
 copy(v8.plus(1024), v4, v5);
 break 'l5; }
 'l6: loop {
 if v12 != 0 { break 'l6; }
 copy(v11, v6, v7);
 break 'l6; }
 v11 = load64(v8 + 1048);
 v17 = load64(v8 + 1040);
 v18 = load64(v8 + 1032);
 v19 = load64(v8 + 1024);
 fill(v8.plus(896), 0, 128);
 'l7: loop {
 if v3 == 0 { break 'l7; }
 copy(v8.plus(896), v2, v3);
 break 'l7; }
 'l8: loop {
 'l9: loop {
 if v3 != 0 { break 'l9; }
 fill(v8.plus(1536), 0, 896);
 v2 = 0;
 break 'l8;
 }
 copy(v8.plus(1024), v8.plus(896), 128);
 copy(v8.plus(1024).plus(128), v8.plus(896), 128);
 copy(v8.plus(1280), v8.plus(896), 128);
 copy(v8.plus(1024).plus(384), v8.plus(896), 128);
 v2 = 512;
 fill(v8.plus(1536).plus(512), 0, 384);
 copy(v8.plus(1536), v8.plus(1024), 512);
 break 'l8; }
 copy(v8, v8.plus(1536), 896);
 store64(v0 + 264, v2);
 store64(v0 + 256, 0);
 v5 = v15 ^ 0x9b05688c2b3e6c1f;
 store64(v0 + 184, v5);
 store64(v0 + 176, v5);
 store64(v0 + 168, v5);
 store64(v0 + 160, v5);
 v7 = v16 ^ 0x510e527fade682d1;
 store64(v0 + 152, v7);
 store64(v0 + 144, v7);
 store64(v0 + 136, v7);
 store64(v0 + 128, v7);
 store64(v0 + 120, 0xa54ff53a5f1d36f1);
 store64(v0 + 112, 0xa54ff53a5f1d36f1);
 store64(v0 + 104, 0xa54ff53a5f1d36f1);
 store64(v0 + 96, 0xa54ff53a5f1d36f1);
 store64(v0 + 88, 0x3c6ef372fe94b82b);
 store64(v0 + 80, 0x3c6ef372fe94b82b);
 store64(v0 + 72, 0x3c6ef372fe94b82b);
 store64(v0 + 64, 0x3c6ef372fe94b82b);
 store64(v0 + 56, 0xbb67ae8584caa738);
 store64(v0 + 48, 0xbb67ae8584caa739);
 store64(v0 + 40, 0xbb67ae8584caa73a);
 store64(v0 + 32, 0xbb67ae8584caa73b);
 v6 = v14 ^ 0x1f83d9abfb41bd6b;
 store64(v0 + 216, v6);
 store64(v0 + 208, v6);
 store64(v0 + 200, v6);
 store64(v0 + 192, v6);
 v4 = v13 ^ 0x5be0cd19137e2179;
 store64(v0 + 248, v4);
 store64(v0 + 240, v4);
 store64(v0 + 232, v4);
 store64(v0 + 224, v4);
 v3 = ((((v3 as u32) << 8) | (v1 as u32) | 0x2040000) as u64) ^ 0x6a09e667f3bcc908;
 store64(v0 + 24, v3);
 store64(v0 + 16, v3);
 store64(v0 + 8, v3);
 store64(v0, v3);
 copy(v0.plus(272), v8, 896);
 store64(v0 + 1496, v1);
 store64(v0 + 1488, v2);
 store64(v0 + 1480, v11 ^ 0x5be0cd19137e2179);
 store64(v0 + 1472, v17 ^ 0x1f83d9abfb41bd6b);
 store64(v0 + 1464, v18 ^ 0x9b05688c2b3e6c1f);
 store64(v0 + 1456, v19 ^ 0x510e527fade682d1);
 store64(v0 + 1448, 0xa54ff53a5f1d36f1);
 store64(v0 + 1440, 0x3c6ef372fe94b82a);
 store64(v0 + 1432, 0xbb67ae8584caa73b);
 store64(v0 + 1424, v3);
 store64(v0 + 1416, v4);
 store64(v0 + 1408, v4);
 store64(v0 + 1400, v4);
 store64(v0 + 1392, v4);
 store64(v0 + 1384, v6);
 store64(v0 + 1376, v6);
 store64(v0 + 1368, v6);
 store64(v0 + 1360, v6);
 store64(v0 + 1352, v5);
 store64(v0 + 1344, v5);
 store64(v0 + 1336, v5);
 store64(v0 + 1328, v5);
 store64(v0 + 1320, v7);
 store64(v0 + 1312, v7);
 store64(v0 + 1304, v7);
 store64(v0 + 1296, v7);
 store64(v0 + 1288, 0xa54ff53a5f1d36f1);
 store64(v0 + 1280, 0xa54ff53a5f1d36f1);
 store64(v0 + 1272, 0xa54ff53a5f1d36f1);
 store64(v0 + 1264, 0xa54ff53a5f1d36f1);
 store64(v0 + 1256, 0x3c6ef372fe94b82b);
 store64(v0 + 1248, 0x3c6ef372fe94b82b);
 store64(v0 + 1240, 0x3c6ef372fe94b82b);
 store64(v0 + 1232, 0x3c6ef372fe94b82b);
 store64(v0 + 1224, 0xbb67ae8584caa738);
 store64(v0 + 1216, 0xbb67ae8584caa739);
 store64(v0 + 1208, 0xbb67ae8584caa73a);
 store64(v0 + 1200, 0xbb67ae8584caa73b);
 store64(v0 + 1192, v3);
 store64(v0 + 1184, v3);
 store64(v0 + 1176, v3);
 store64(v0 + 1168, v3);
 copy(v0.plus(1504), v8.plus(896), 128);
 return 0;
 }
 fill(v0, 0, 1632);
 return 0xffffffff;
}

// Overwrites the stack below the caller.
#[inline(never)]
unsafe fn digest_wiping_scrub_stack_5120() {
    let mut room = [0_u64; 896];
    for word in room.iter_mut() {
        core::ptr::write_volatile(word, 0);
    }
}

// rattle::export vulfsjor_ffi_blake2bp_init_salt_personal
#[inline(never)]
unsafe fn exported_blake2bp_init_salt_personal(mut v0: u64, mut v1: u64, mut v2: u64, mut v3: u64,
        mut v4: u64, mut v5: u64, mut v6: u64, mut v7: u64) -> u32 {
 let mut v9: u32;
 v9 = ffi_blake2bp_initialize(v0, v1, v2.plus(if v2 == 0 { 4096_u64 } else { 0 }), v3, v4.plus(if v4
   == 0 { 4096_u64 } else { 0 }), v5, v6.plus(if v6 == 0 { 4096_u64 } else { 0 }), v7);
 'l2: loop {
 if v3 == 0 { break 'l2; }
 digest_wiping_scrub_stack_5120();
 break 'l2; }
 return v9;
}

// rattle::export vulfsjor_ffi_blake2bp_init_key
#[inline(never)]
unsafe fn exported_blake2bp_init_key(mut v0: u64, mut v1: u64, mut v2: u64, mut v3: u64) -> u32 {
 let mut v5: u32;
 'l1: loop {
 if v3 != 0 { break 'l1; }
 fill(v0, 0, 1632);
 return 0xffffffff;
 }
 v5 = ffi_blake2bp_initialize(v0, v1, v2.plus(if v2 == 0 { 4096_u64 } else { 0 }), v3, 0x100000, 0,
   0x100000, 0);
 digest_wiping_scrub_stack_5120();
 return v5;
}

// blake2_ffi::blake2bp::update_in_frame
#[inline(never)]
unsafe fn ffi_blake2bp_update_in_frame(mut v0: u64, mut v1: u64, mut v2: u64) {
 parallel_blake2bp_State_update(v0, v1, v2);
 return;
}

// Overwrites the stack below the caller.
#[inline(never)]
unsafe fn digest_wiping_scrub_stack_3072() {
    let mut room = [0_u64; 640];
    for word in room.iter_mut() {
        core::ptr::write_volatile(word, 0);
    }
}

// blake2_ffi::blake2bp::update_scrubbed
#[inline(never)]
unsafe fn ffi_blake2bp_update_scrubbed(mut v0: u64, mut v1: u64, mut v2: u64) {
 ffi_blake2bp_update_in_frame(v0, v1, v2);
 digest_wiping_scrub_stack_3072();
 return;
}

// rattle::export vulfsjor_ffi_blake2bp_update
#[inline(never)]
unsafe fn exported_blake2bp_update(mut v0: u64, mut v1: u64, mut v2: u64) -> u32 {
 let mut v4: u32;
 let mut v5: u64;
 let mut v6: u64;
 let mut v7: u64;
 'l1: loop {
 'l2: loop {
 'l3: loop {
 v4 = 0xffffffff;
 if load64(v0.plus(1496)).minus(1) > 63 { break 'l1; }
 v5 = load64(v0.plus(264));
 if v5 > 896 { break 'l1; }
 v6 = load64(v0.plus(256));
 if v6 > ((!v5) >> 2) { break 'l1; }
 v7 = load64(v0.plus(1488));
 if v7 > 512 { break 'l1; }
 if v2 > (!(v6 << 2).plus(v5)) { break 'l1; }
 v1 = v1.plus(if v1 == 0 { 4096_u64 } else { 0 });
 if v6 != 0 { break 'l3; }
 if v7 == 0 { break 'l3; }
 ffi_blake2bp_update_scrubbed(v0, v1, v2);
 break 'l2;
 }
 parallel_blake2bp_State_update(v0, v1, v2);
 break 'l2; }
 v4 = 0;
 break 'l1; }
 return v4;
}

// blake2_ffi::blake2bp::finalize
#[inline(never)]
unsafe fn ffi_blake2bp_finalize(mut v0: u64, mut v1: u64) {
 let mut v2: u64;
 let mut v3: u64;
 let mut frame = [0_u64; 10];
 let top = (address!(frame)).plus(80) & !15;
 v2 = top.minus(64);
 fill(v2, 0, 64);
 parallel_blake2bp_State_output(v2, v0);
 'l2: loop {
 v3 = load64(v0.plus(1496));
 if v3 == 0 { break 'l2; }
 copy(v1, v2, v3);
 break 'l2; }
 fill(v0, 0, 1632);
 return;
}

// rattle::export vulfsjor_ffi_blake2bp_final
#[inline(never)]
unsafe fn exported_blake2bp_final(mut v0: u64, mut v1: u64, mut v2: u64) -> u32 {
 let mut v4: u32;
 let mut v5: u64;
 let mut v6: u64;
 let mut v7: u64;
 v4 = 0xffffffff;
 'l2: loop {
 v5 = load64(v0.plus(1496));
 if v5.minus(1) > 63 { break 'l2; }
 v6 = load64(v0.plus(264));
 if v6 > 896 { break 'l2; }
 v7 = load64(v0.plus(256));
 if v7 > ((!v6) >> 2) { break 'l2; }
 if v2 != v5 { break 'l2; }
 v2 = load64(v0.plus(1488));
 if v2 > 512 { break 'l2; }
 v1 = v1.plus(if v1 == 0 { 4096_u64 } else { 0 });
 'l3: loop {
 if v7 == 0 { break 'l3; }
 ffi_blake2bp_finalize(v0, v1);
 return 0;
 }
 ffi_blake2bp_finalize(v0, v1);
 v4 = 0;
 if v2 == 0 { break 'l2; }
 digest_wiping_scrub_stack_5632();
 break 'l2; }
 return v4;
}

// blake2_ffi::blake2bp::is_digest_of
#[inline(never)]
unsafe fn ffi_blake2bp_is_digest_of(mut v0: u64, mut v1: u64, mut v2: u64) -> u32 {
 let mut v3: u64;
 let mut v4: u64;
 let mut v5: u32;
 let mut v6: u64;
 let mut v7: u64;
 let mut frame = [0_u64; 10];
 let top = (address!(frame)).plus(80) & !15;
 v3 = top.minus(64);
 v4 = v3;
 fill(v4, 0, 64);
 parallel_blake2bp_State_output(v4, v0);
 'l2: loop {
 'l3: loop {
 if v2 == load64(v0.plus(1496)) { break 'l3; }
 v5 = 0;
 break 'l2;
 }
 'l4: loop {
 if !(v2 == 0) { break 'l4; }
 v5 = 1;
 break 'l2;
 }
 v6 = v2 & 3;
 'l5: loop {
 'l6: loop {
 'l7: loop {
 if v2 >= 4 { break 'l7; }
 v0 = 0;
 v5 = 0;
 break 'l6;
 }
 v7 = v2 & 0xfffffffffffffffc;
 v0 = 0;
 v5 = 0;
 'l8: loop {
 v2 = v4.plus(v0);
 v3 = v1.plus(v0);
 v5 = (load8(v2.plus(3)) ^ load8(v3.plus(3))) | ((load8(v2.plus(2)) ^ load8(v3.plus(2))) |
   ((load8(v2.plus(1)) ^ load8(v3.plus(1))) | ((load8(v2) ^ load8(v3)) | v5)));
 v0 = v0.plus(4);
 if v7 != v0 { continue 'l8; }
 break 'l8; }
 if v6 == 0 { break 'l5; }
 break 'l6; }
 v2 = v1.plus(v0);
 v0 = v4.plus(v0);
 'l9: loop {
 v5 = (load8(v0) ^ load8(v2)) | v5;
 v2 = v2.plus(1);
 v0 = v0.plus(1);
 v6 = v6.minus(1);
 if v6 != 0 { continue 'l9; }
 break 'l9; }
 break 'l5; }
 v5 = ((v5 & 255) == 0) as u32;
 break 'l2; }
 return v5;
}

// rattle::export vulfsjor_ffi_blake2bp_verify
#[inline(never)]
unsafe fn exported_blake2bp_verify(mut v0: u64, mut v1: u64, mut v2: u64) -> u32 {
 let mut v4: u32;
 let mut v5: u64;
 let mut v6: u64;
 v4 = 0xffffffff;
 'l2: loop {
 if load64(v0.plus(1496)).minus(1) > 63 { break 'l2; }
 v5 = load64(v0.plus(264));
 if v5 > 896 { break 'l2; }
 v6 = load64(v0.plus(256));
 if v6 > ((!v5) >> 2) { break 'l2; }
 if load64(v0.plus(1488)).minus(513) < 0xfffffffffffffe00 { break 'l2; }
 v4 = ffi_blake2bp_is_digest_of(v0, v1.plus(if v1 == 0 { 4096_u64 } else { 0 }), v2);
 fill(v0, 0, 1632);
 'l3: loop {
 if v6 != 0 { break 'l3; }
 digest_wiping_scrub_stack_5632();
 break 'l3; }
 v4 = v4.minus(1);
 break 'l2; }
 return v4;
}

// blake2_ffi::blake2bp::reset_in_frame
#[inline(never)]
unsafe fn ffi_blake2bp_reset_in_frame(mut v0: u64) {
 let mut v1: u64;
 let mut v2: u64;
 let mut v3: u64;
 let mut v4: u64;
 let mut frame = [0_u64; 210];
 let top = (address!(frame)).plus(1680) & !15;
 v1 = top.minus(1664);
 v2 = v0.plus(1168);
 'l2: loop {
 'l3: loop {
 v3 = load64(v0.plus(1488));
 if v3 != 0 { break 'l3; }
 copy(v1, v2, 256);
 fill(v1.plus(768), 0, 896);
 break 'l2;
 }
 v4 = v0.plus(1504);
 copy(v1.plus(256), v4, 128);
 copy(v1.plus(256).plus(128), v4, 128);
 copy(v1.plus(256).plus(256), v4, 128);
 copy(v1.plus(256).plus(384), v4, 128);
 fill(v1.plus(768).plus(512), 0, 384);
 copy(v1.plus(768), v1.plus(256), 512);
 copy(v1, v2, 256);
 break 'l2; }
 copy(v0, v1, 256);
 store64(v0 + 264, v3);
 store64(v0 + 256, 0);
 copy(v0.plus(272), v1.plus(768), 896);
 return;
}

// Overwrites the stack below the caller.
#[inline(never)]
unsafe fn digest_wiping_scrub_stack_1792() {
    let mut room = [0_u64; 480];
    for word in room.iter_mut() {
        core::ptr::write_volatile(word, 0);
    }
}

// rattle::export vulfsjor_ffi_blake2bp_reset
#[inline(never)]
unsafe fn exported_blake2bp_reset(mut v0: u64) -> u32 {
 let mut v2: u32;
 let mut v3: u64;
 v2 = 0xffffffff;
 'l2: loop {
 if load64(v0.plus(1496)).minus(1) > 63 { break 'l2; }
 v3 = load64(v0.plus(264));
 if v3 > 896 { break 'l2; }
 if load64(v0.plus(256)) > ((!v3) >> 2) { break 'l2; }
 v3 = load64(v0.plus(1488));
 if v3 > 512 { break 'l2; }
 ffi_blake2bp_reset_in_frame(v0);
 v2 = 0;
 if v3 == 0 { break 'l2; }
 digest_wiping_scrub_stack_1792();
 break 'l2; }
 return v2;
}

// rattle::export vulfsjor_ffi_blake2bp_wipe
#[inline(never)]
unsafe fn exported_blake2bp_wipe(mut v0: u64) {
 'l1: loop {
 break 'l1;
 }
 fill(v0, 0, 1632);
}

// rattle::export vulfsjor_ffi_blake2bp_digest_size
#[inline(never)]
unsafe fn exported_blake2bp_digest_size(mut v0: u64) -> u64 {
 let mut v1: u64;
 let mut v2: u64;
 let mut v3: u64;
 v1 = 0;
 'l2: loop {
 v2 = load64(v0.plus(1496));
 if v2.minus(1) > 63 { break 'l2; }
 v3 = load64(v0.plus(264));
 if v3 > 896 { break 'l2; }
 if load64(v0.plus(256)) > ((!v3) >> 2) { break 'l2; }
 v1 = if load64(v0.plus(1488)) < 513 { v2 } else { 0 };
 break 'l2; }
 return v1;
}

// rattle::export vulfsjor_ffi_blake2bp_count
#[inline(never)]
unsafe fn exported_blake2bp_count(mut v0: u64) -> u64 {
 let mut v1: u64;
 let mut v2: u64;
 let mut v3: u64;
 v1 = 0;
 'l2: loop {
 if load64(v0.plus(1496)).minus(1) > 63 { break 'l2; }
 v2 = load64(v0.plus(264));
 if v2 > 896 { break 'l2; }
 v3 = load64(v0.plus(256));
 if v3 > ((!v2) >> 2) { break 'l2; }
 v0 = load64(v0.plus(1488));
 if v0 > 512 { break 'l2; }
 v1 = (v3 << 2).plus(v2);
 v0 = v1.minus(v0);
 v1 = if v0 > v1 { 0 } else { v0 };
 break 'l2; }
 return v1;
}

// rattle::export vulfsjor_ffi_blake2bp_state_size
#[inline(never)]
unsafe fn exported_blake2bp_state_size() {
 'l1: loop {
 break 'l1;
 }
}

// vulfsjor_ffi_blake2bp_state_size
#[inline(never)]
unsafe fn module_blake2bp_state_size() -> u64 {
 'l1: loop {
 break 'l1;
 }
 exported_blake2bp_state_size();
 return 1632;
}

// blake2_parallel::lanes::blake2sp::compress_one_by_one
#[inline(never)]
unsafe fn parallel_lanes_blake2sp_compress_one_by_one(mut v0: u64, mut v1: u64, mut v2: u64, mut v3:
        u64) {
 let mut v4: u64;
 let mut v5: u32;
 let mut v6: u32;
 let mut v7: u32;
 let mut v8: u32;
 let mut v9: u32;
 let mut v10: u32;
 let mut v11: u32;
 let mut v12: u32;
 let mut v13: u32;
 let mut v14: u32;
 let mut v15: u32;
 let mut v16: u32;
 let mut v17: u32;
 let mut v18: u32;
 let mut v19: u32;
 let mut v20: u32;
 let mut v21: u32;
 let mut v22: u32;
 let mut v23: u32;
 let mut v24: u32;
 let mut v25: u32;
 let mut v26: u32;
 let mut v27: u32;
 let mut v28: u32;
 let mut v29: u32;
 let mut v30: u32;
 let mut v31: u32;
 let mut v32: u32;
 let mut v33: u32;
 let mut v34: u32;
 let mut v35: u32;
 let mut v36: u32;
 let mut v37: u32;
 let mut v38: u32;
 let mut v39: u32;
 let mut v40: u32;
 let mut v41: u32;
 let mut v42: u32;
 let mut v43: u32;
 let mut v44: u32;
 let mut v45: u32;
 let mut v46: u32;
 let mut v47: u32;
 let mut v48: u32;
 let mut v49: u32;
 let mut v50: u32;
 let mut v51: u32;
 let mut v52: u32;
 let mut v53: u32;
 let mut v54: u32;
 let mut v55: u32;
 let mut v56: u32;
 let mut v57: u32;
 let mut v58: u32;
 let mut v59: u32;
 let mut v60: u32;
 let mut v61: u32;
 let mut v62: u32;
 let mut v63: u64;
 let mut v64: u64;
 let mut v65: u32;
 let mut v66: u32;
 let mut v67: u32;
 let mut v68: u32;
 let mut v69: u32;
 let mut v70: u32;
 let mut v71: u32;
 let mut v72: u32;
 let mut frame = [0_u64; 6];
 let top = (address!(frame)).plus(48) & !15;
 v4 = top.minus(32);
 v5 = load32(v0 + 28);
 v6 = load32(v0 + 60);
 v7 = load32(v0 + 92);
 v8 = load32(v0 + 124);
 v9 = load32(v0 + 156);
 v10 = load32(v0 + 188);
 v11 = load32(v0 + 220);
 v12 = load32(v0 + 252);
 v13 = load32(v0 + 24);
 v14 = load32(v0 + 56);
 v15 = load32(v0 + 88);
 v16 = load32(v0 + 120);
 v17 = load32(v0 + 152);
 v18 = load32(v0 + 184);
 v19 = load32(v0 + 216);
 v20 = load32(v0 + 248);
 v21 = load32(v0 + 20);
 v22 = load32(v0 + 52);
 v23 = load32(v0 + 84);
 v24 = load32(v0 + 116);
 v25 = load32(v0 + 148);
 v26 = load32(v0 + 180);
 v27 = load32(v0 + 212);
 v28 = load32(v0 + 244);
 v29 = load32(v0 + 16);
 v30 = load32(v0 + 48);
 v31 = load32(v0 + 80);
 v32 = load32(v0 + 112);
 v33 = load32(v0 + 144);
 v34 = load32(v0 + 176);
 v35 = load32(v0 + 208);
 v36 = load32(v0 + 240);
 v37 = load32(v0 + 12);
 v38 = load32(v0 + 44);
 v39 = load32(v0 + 76);
 v40 = load32(v0 + 108);
 v41 = load32(v0 + 140);
 v42 = load32(v0 + 172);
 v43 = load32(v0 + 204);
 v44 = load32(v0 + 236);
 v45 = load32(v0 + 8);
 v46 = load32(v0 + 40);
 v47 = load32(v0 + 72);
 v48 = load32(v0 + 104);
 v49 = load32(v0 + 136);
 v50 = load32(v0 + 168);
 v51 = load32(v0 + 200);
 v52 = load32(v0 + 232);
 v53 = load32(v0 + 4);
 v54 = load32(v0 + 36);
 v55 = load32(v0 + 68);
 v56 = load32(v0 + 100);
 v57 = load32(v0 + 132);
 v58 = load32(v0 + 164);
 v59 = load32(v0 + 196);
 v60 = load32(v0 + 228);
 v61 = load8(v3 + 1);
 v62 = load8(v3);
 v63 = load64(v2);
 v64 = load64(v1);
 v65 = load32(v0);
 v66 = load32(v0 + 32);
 v67 = load32(v0 + 64);
 v68 = load32(v0 + 96);
 v69 = load32(v0 + 128);
 v70 = load32(v0 + 160);
 v71 = load32(v0 + 192);
 store32(v4 + 28, load32(v0 + 224) as u64);
 store32(v4 + 24, v71 as u64);
 store32(v4 + 20, v70 as u64);
 store32(v4 + 16, v69 as u64);
 store32(v4 + 12, v68 as u64);
 store32(v4 + 8, v67 as u64);
 store32(v4 + 4, v66 as u64);
 store32(v4, v65 as u64);
 compress_compress_blake2s_compress(v4, v64, v63, v62, v61);
 v61 = load32(v4);
 v62 = load32(v4 + 4);
 v65 = load32(v4 + 8);
 v66 = load32(v4 + 12);
 v67 = load32(v4 + 16);
 v68 = load32(v4 + 20);
 v69 = load32(v4 + 24);
 v70 = load32(v4 + 28);
 v71 = load8(v3 + 3);
 v72 = load8(v3 + 2);
 v63 = load64(v2 + 8);
 v64 = load64(v1 + 8);
 store32(v4 + 28, v60 as u64);
 store32(v4 + 24, v59 as u64);
 store32(v4 + 20, v58 as u64);
 store32(v4 + 16, v57 as u64);
 store32(v4 + 12, v56 as u64);
 store32(v4 + 8, v55 as u64);
 store32(v4 + 4, v54 as u64);
 store32(v4, v53 as u64);
 compress_compress_blake2s_compress(v4, v64, v63, v72, v71);
 v53 = load32(v4);
 v54 = load32(v4 + 4);
 v55 = load32(v4 + 8);
 v56 = load32(v4 + 12);
 v57 = load32(v4 + 16);
 v58 = load32(v4 + 20);
 v59 = load32(v4 + 24);
 v60 = load32(v4 + 28);
 v71 = load8(v3 + 5);
 v72 = load8(v3 + 4);
 v63 = load64(v2 + 16);
 v64 = load64(v1 + 16);
 store32(v4 + 28, v52 as u64);
 store32(v4 + 24, v51 as u64);
 store32(v4 + 20, v50 as u64);
 store32(v4 + 16, v49 as u64);
 store32(v4 + 12, v48 as u64);
 store32(v4 + 8, v47 as u64);
 store32(v4 + 4, v46 as u64);
 store32(v4, v45 as u64);
 compress_compress_blake2s_compress(v4, v64, v63, v72, v71);
 v45 = load32(v4);
 v46 = load32(v4 + 4);
 v47 = load32(v4 + 8);
 v48 = load32(v4 + 12);
 v49 = load32(v4 + 16);
 v50 = load32(v4 + 20);
 v51 = load32(v4 + 24);
 v52 = load32(v4 + 28);
 v71 = load8(v3 + 7);
 v72 = load8(v3 + 6);
 v63 = load64(v2 + 24);
 v64 = load64(v1 + 24);
 store32(v4 + 28, v44 as u64);
 store32(v4 + 24, v43 as u64);
 store32(v4 + 20, v42 as u64);
 store32(v4 + 16, v41 as u64);
 store32(v4 + 12, v40 as u64);
 store32(v4 + 8, v39 as u64);
 store32(v4 + 4, v38 as u64);
 store32(v4, v37 as u64);
 compress_compress_blake2s_compress(v4, v64, v63, v72, v71);
 v37 = load32(v4);
 v38 = load32(v4 + 4);
 v39 = load32(v4 + 8);
 v40 = load32(v4 + 12);
 v41 = load32(v4 + 16);
 v42 = load32(v4 + 20);
 v43 = load32(v4 + 24);
 v44 = load32(v4 + 28);
 v71 = load8(v3 + 9);
 v72 = load8(v3 + 8);
 v63 = load64(v2 + 32);
 v64 = load64(v1 + 32);
 store32(v4 + 28, v36 as u64);
 store32(v4 + 24, v35 as u64);
 store32(v4 + 20, v34 as u64);
 store32(v4 + 16, v33 as u64);
 store32(v4 + 12, v32 as u64);
 store32(v4 + 8, v31 as u64);
 store32(v4 + 4, v30 as u64);
 store32(v4, v29 as u64);
 compress_compress_blake2s_compress(v4, v64, v63, v72, v71);
 v29 = load32(v4);
 v30 = load32(v4 + 4);
 v31 = load32(v4 + 8);
 v32 = load32(v4 + 12);
 v33 = load32(v4 + 16);
 v34 = load32(v4 + 20);
 v35 = load32(v4 + 24);
 v36 = load32(v4 + 28);
 v71 = load8(v3 + 11);
 v72 = load8(v3 + 10);
 v63 = load64(v2 + 40);
 v64 = load64(v1 + 40);
 store32(v4 + 28, v28 as u64);
 store32(v4 + 24, v27 as u64);
 store32(v4 + 20, v26 as u64);
 store32(v4 + 16, v25 as u64);
 store32(v4 + 12, v24 as u64);
 store32(v4 + 8, v23 as u64);
 store32(v4 + 4, v22 as u64);
 store32(v4, v21 as u64);
 compress_compress_blake2s_compress(v4, v64, v63, v72, v71);
 v21 = load32(v4);
 v22 = load32(v4 + 4);
 v23 = load32(v4 + 8);
 v24 = load32(v4 + 12);
 v25 = load32(v4 + 16);
 v26 = load32(v4 + 20);
 v27 = load32(v4 + 24);
 v28 = load32(v4 + 28);
 v71 = load8(v3 + 13);
 v72 = load8(v3 + 12);
 v63 = load64(v2 + 48);
 v64 = load64(v1 + 48);
 store32(v4 + 28, v20 as u64);
 store32(v4 + 24, v19 as u64);
 store32(v4 + 20, v18 as u64);
 store32(v4 + 16, v17 as u64);
 store32(v4 + 12, v16 as u64);
 store32(v4 + 8, v15 as u64);
 store32(v4 + 4, v14 as u64);
 store32(v4, v13 as u64);
 compress_compress_blake2s_compress(v4, v64, v63, v72, v71);
 v13 = load32(v4);
 v14 = load32(v4 + 4);
 v15 = load32(v4 + 8);
 v16 = load32(v4 + 12);
 v17 = load32(v4 + 16);
 v18 = load32(v4 + 20);
 v19 = load32(v4 + 24);
 v20 = load32(v4 + 28);
 v71 = load8(v3 + 15);
 v72 = load8(v3 + 14);
 v3 = load64(v2 + 56);
 v2 = load64(v1 + 56);
 store32(v4 + 28, v12 as u64);
 store32(v4 + 24, v11 as u64);
 store32(v4 + 20, v10 as u64);
 store32(v4 + 16, v9 as u64);
 store32(v4 + 12, v8 as u64);
 store32(v4 + 8, v7 as u64);
 store32(v4 + 4, v6 as u64);
 store32(v4, v5 as u64);
 compress_compress_blake2s_compress(v4, v2, v3, v72, v71);
 v5 = load32(v4);
 v6 = load32(v4 + 4);
 v7 = load32(v4 + 8);
 v8 = load32(v4 + 12);
 v9 = load32(v4 + 16);
 v10 = load32(v4 + 20);
 v11 = load32(v4 + 24);
 store32(v0 + 252, load32(v4 + 28) as u64);
 store32(v0 + 248, v20 as u64);
 store32(v0 + 244, v28 as u64);
 store32(v0 + 240, v36 as u64);
 store32(v0 + 236, v44 as u64);
 store32(v0 + 232, v52 as u64);
 store32(v0 + 228, v60 as u64);
 store32(v0 + 224, v70 as u64);
 store32(v0 + 220, v11 as u64);
 store32(v0 + 216, v19 as u64);
 store32(v0 + 212, v27 as u64);
 store32(v0 + 208, v35 as u64);
 store32(v0 + 204, v43 as u64);
 store32(v0 + 200, v51 as u64);
 store32(v0 + 196, v59 as u64);
 store32(v0 + 192, v69 as u64);
 store32(v0 + 188, v10 as u64);
 store32(v0 + 184, v18 as u64);
 store32(v0 + 180, v26 as u64);
 store32(v0 + 176, v34 as u64);
 store32(v0 + 172, v42 as u64);
 store32(v0 + 168, v50 as u64);
 store32(v0 + 164, v58 as u64);
 store32(v0 + 160, v68 as u64);
 store32(v0 + 156, v9 as u64);
 store32(v0 + 152, v17 as u64);
 store32(v0 + 148, v25 as u64);
 store32(v0 + 144, v33 as u64);
 store32(v0 + 140, v41 as u64);
 store32(v0 + 136, v49 as u64);
 store32(v0 + 132, v57 as u64);
 store32(v0 + 128, v67 as u64);
 store32(v0 + 124, v8 as u64);
 store32(v0 + 120, v16 as u64);
 store32(v0 + 116, v24 as u64);
 store32(v0 + 112, v32 as u64);
 store32(v0 + 108, v40 as u64);
 store32(v0 + 104, v48 as u64);
 store32(v0 + 100, v56 as u64);
 store32(v0 + 96, v66 as u64);
 store32(v0 + 92, v7 as u64);
 store32(v0 + 88, v15 as u64);
 store32(v0 + 84, v23 as u64);
 store32(v0 + 80, v31 as u64);
 store32(v0 + 76, v39 as u64);
 store32(v0 + 72, v47 as u64);
 store32(v0 + 68, v55 as u64);
 store32(v0 + 64, v65 as u64);
 store32(v0 + 60, v6 as u64);
 store32(v0 + 56, v14 as u64);
 store32(v0 + 52, v22 as u64);
 store32(v0 + 48, v30 as u64);
 store32(v0 + 44, v38 as u64);
 store32(v0 + 40, v46 as u64);
 store32(v0 + 36, v54 as u64);
 store32(v0 + 32, v62 as u64);
 store32(v0 + 28, v5 as u64);
 store32(v0 + 24, v13 as u64);
 store32(v0 + 20, v21 as u64);
 store32(v0 + 16, v29 as u64);
 store32(v0 + 12, v37 as u64);
 store32(v0 + 8, v45 as u64);
 store32(v0 + 4, v53 as u64);
 store32(v0, v61 as u64);
 return;
}

// blake2_parallel::lanes::blake2sp::compress_short
#[inline(never)]
unsafe fn parallel_lanes_blake2sp_compress_short(mut v0: u64, mut v1: u64, mut v2: u64, mut v3: u64,
        mut v4: u64) {
 let mut v5: u64;
 let mut frame = [0_u64; 202];
 let top = (address!(frame)).plus(1616) & !15;
 v5 = top.minus(1600);
 'l2: loop {
 'l3: loop {
 if v2 != 512 { break 'l3; }
 v2 = v3.plus(64);
 store64(v5 + 1080, v2);
 store64(v5 + 1072, v2);
 store64(v5 + 1064, v2);
 store64(v5 + 1056, v2);
 store64(v5 + 1048, v2);
 store64(v5 + 1040, v2);
 store64(v5 + 1032, v2);
 store64(v5 + 1024, v2);
 store64(v5 + 1088, v1);
 store64(v5 + 1144, v1.plus(448));
 store64(v5 + 1136, v1.plus(384));
 store64(v5 + 1128, v1.plus(320));
 store64(v5 + 1120, v1.plus(256));
 store64(v5 + 1112, v1.plus(192));
 store64(v5 + 1104, v1.plus(128));
 store64(v5 + 1096, v1.plus(64));
 parallel_lanes_blake2sp_compress_one_by_one(v0, v5.plus(1088), v5.plus(1024), v4);
 break 'l2;
 }
 fill(v5.plus(1088), 0, 512);
 'l4: loop {
 if v2 == 0 { break 'l4; }
 copy(v5.plus(1088), v1, v2);
 break 'l4; }
 copy(v5, v5.plus(1088), 512);
 copy(v5.plus(512), v5, 512);
 store64(v5 + 1144, v5.plus(960));
 store64(v5 + 1136, v5.plus(896));
 store64(v5 + 1128, v5.plus(832));
 store64(v5 + 1120, v5.plus(768));
 store64(v5 + 1112, v5.plus(704));
 store64(v5 + 1104, v5.plus(640));
 store64(v5 + 1096, v5.plus(512).plus(64));
 v1 = v2.minus(448);
 v1 = if v1 > v2 { 0 } else { v1 };
 store64(v5 + 1080, (if v1 < 64 { v1 } else { 64 }).plus(v3));
 v1 = v2.minus(384);
 v1 = if v1 > v2 { 0 } else { v1 };
 store64(v5 + 1072, (if v1 < 64 { v1 } else { 64 }).plus(v3));
 v1 = v2.minus(320);
 v1 = if v1 > v2 { 0 } else { v1 };
 store64(v5 + 1064, (if v1 < 64 { v1 } else { 64 }).plus(v3));
 v1 = v2.minus(256);
 v1 = if v1 > v2 { 0 } else { v1 };
 store64(v5 + 1056, (if v1 < 64 { v1 } else { 64 }).plus(v3));
 v1 = v2.minus(192);
 v1 = if v1 > v2 { 0 } else { v1 };
 store64(v5 + 1048, (if v1 < 64 { v1 } else { 64 }).plus(v3));
 v1 = v2.minus(128);
 v1 = if v1 > v2 { 0 } else { v1 };
 store64(v5 + 1040, (if v1 < 64 { v1 } else { 64 }).plus(v3));
 v1 = v2.minus(64);
 v1 = if v1 > v2 { 0 } else { v1 };
 store64(v5 + 1032, (if v1 < 64 { v1 } else { 64 }).plus(v3));
 store64(v5 + 1024, v3.plus(if v2 < 64 { v2 } else { 64 }));
 store64(v5 + 1088, v5.plus(512));
 parallel_lanes_blake2sp_compress_one_by_one(v0, v5.plus(1088), v5.plus(1024), v4);
 break 'l2; }
 return;
}

// blake2_parallel::lanes::blake2sp::outputs_of
#[inline(never)]
unsafe fn parallel_lanes_blake2sp_outputs_of(mut v0: u64, mut v1: u64) {
 let mut v2: u32;
 let mut v3: u32;
 let mut v4: u32;
 let mut v5: u32;
 let mut v6: u32;
 let mut v7: u32;
 let mut v8: u32;
 let mut v9: u32;
 let mut v10: u32;
 let mut v11: u32;
 let mut v12: u32;
 let mut v13: u32;
 let mut v14: u32;
 let mut v15: u32;
 let mut v16: u32;
 let mut v17: u32;
 let mut v18: u32;
 let mut v19: u32;
 let mut v20: u32;
 let mut v21: u32;
 let mut v22: u32;
 let mut v23: u32;
 let mut v24: u32;
 let mut v25: u32;
 let mut v26: u32;
 let mut v27: u32;
 let mut v28: u32;
 let mut v29: u32;
 let mut v30: u32;
 let mut v31: u32;
 let mut v32: u32;
 let mut v33: u32;
 let mut v34: u32;
 let mut v35: u32;
 let mut v36: u32;
 let mut v37: u32;
 let mut v38: u32;
 let mut v39: u32;
 let mut v40: u32;
 let mut v41: u32;
 let mut v42: u32;
 let mut v43: u32;
 let mut v44: u32;
 let mut v45: u32;
 let mut v46: u32;
 let mut v47: u32;
 let mut v48: u32;
 let mut v49: u32;
 let mut v50: u32;
 let mut v51: u32;
 let mut v52: u32;
 let mut v53: u32;
 let mut v54: u32;
 let mut v55: u32;
 let mut v56: u32;
 let mut v57: u32;
 let mut v58: u32;
 let mut v59: u32;
 let mut v60: u32;
 let mut v61: u32;
 let mut v62: u32;
 let mut v63: u32;
 let mut v64: u32;
 let mut v65: u32;
 v2 = load32(v1);
 v3 = load32(v1 + 32);
 v4 = load32(v1 + 64);
 v5 = load32(v1 + 96);
 v6 = load32(v1 + 128);
 v7 = load32(v1 + 160);
 v8 = load32(v1 + 192);
 v9 = load32(v1 + 224);
 v10 = load32(v1 + 4);
 v11 = load32(v1 + 36);
 v12 = load32(v1 + 68);
 v13 = load32(v1 + 100);
 v14 = load32(v1 + 132);
 v15 = load32(v1 + 164);
 v16 = load32(v1 + 196);
 v17 = load32(v1 + 228);
 v18 = load32(v1 + 8);
 v19 = load32(v1 + 40);
 v20 = load32(v1 + 72);
 v21 = load32(v1 + 104);
 v22 = load32(v1 + 136);
 v23 = load32(v1 + 168);
 v24 = load32(v1 + 200);
 v25 = load32(v1 + 232);
 v26 = load32(v1 + 12);
 v27 = load32(v1 + 44);
 v28 = load32(v1 + 76);
 v29 = load32(v1 + 108);
 v30 = load32(v1 + 140);
 v31 = load32(v1 + 172);
 v32 = load32(v1 + 204);
 v33 = load32(v1 + 236);
 v34 = load32(v1 + 16);
 v35 = load32(v1 + 48);
 v36 = load32(v1 + 80);
 v37 = load32(v1 + 112);
 v38 = load32(v1 + 144);
 v39 = load32(v1 + 176);
 v40 = load32(v1 + 208);
 v41 = load32(v1 + 240);
 v42 = load32(v1 + 20);
 v43 = load32(v1 + 52);
 v44 = load32(v1 + 84);
 v45 = load32(v1 + 116);
 v46 = load32(v1 + 148);
 v47 = load32(v1 + 180);
 v48 = load32(v1 + 212);
 v49 = load32(v1 + 244);
 v50 = load32(v1 + 24);
 v51 = load32(v1 + 56);
 v52 = load32(v1 + 88);
 v53 = load32(v1 + 120);
 v54 = load32(v1 + 152);
 v55 = load32(v1 + 184);
 v56 = load32(v1 + 216);
 v57 = load32(v1 + 248);
 v58 = load32(v1 + 28);
 v59 = load32(v1 + 60);
 v60 = load32(v1 + 92);
 v61 = load32(v1 + 124);
 v62 = load32(v1 + 156);
 v63 = load32(v1 + 188);
 v64 = load32(v1 + 220);
 v65 = load32(v1 + 252);
 store8(v0 + 252, v65 as u64);
 store8(v0 + 248, v64 as u64);
 store8(v0 + 244, v63 as u64);
 store8(v0 + 240, v62 as u64);
 store8(v0 + 236, v61 as u64);
 store8(v0 + 232, v60 as u64);
 store8(v0 + 228, v59 as u64);
 store8(v0 + 224, v58 as u64);
 store8(v0 + 220, v57 as u64);
 store8(v0 + 216, v56 as u64);
 store8(v0 + 212, v55 as u64);
 store8(v0 + 208, v54 as u64);
 store8(v0 + 204, v53 as u64);
 store8(v0 + 200, v52 as u64);
 store8(v0 + 196, v51 as u64);
 store8(v0 + 192, v50 as u64);
 store8(v0 + 188, v49 as u64);
 store8(v0 + 184, v48 as u64);
 store8(v0 + 180, v47 as u64);
 store8(v0 + 176, v46 as u64);
 store8(v0 + 172, v45 as u64);
 store8(v0 + 168, v44 as u64);
 store8(v0 + 164, v43 as u64);
 store8(v0 + 160, v42 as u64);
 store8(v0 + 156, v41 as u64);
 store8(v0 + 152, v40 as u64);
 store8(v0 + 148, v39 as u64);
 store8(v0 + 144, v38 as u64);
 store8(v0 + 140, v37 as u64);
 store8(v0 + 136, v36 as u64);
 store8(v0 + 132, v35 as u64);
 store8(v0 + 128, v34 as u64);
 store8(v0 + 124, v33 as u64);
 store8(v0 + 120, v32 as u64);
 store8(v0 + 116, v31 as u64);
 store8(v0 + 112, v30 as u64);
 store8(v0 + 108, v29 as u64);
 store8(v0 + 104, v28 as u64);
 store8(v0 + 100, v27 as u64);
 store8(v0 + 96, v26 as u64);
 store8(v0 + 92, v25 as u64);
 store8(v0 + 88, v24 as u64);
 store8(v0 + 84, v23 as u64);
 store8(v0 + 80, v22 as u64);
 store8(v0 + 76, v21 as u64);
 store8(v0 + 72, v20 as u64);
 store8(v0 + 68, v19 as u64);
 store8(v0 + 64, v18 as u64);
 store8(v0 + 60, v17 as u64);
 store8(v0 + 56, v16 as u64);
 store8(v0 + 52, v15 as u64);
 store8(v0 + 48, v14 as u64);
 store8(v0 + 44, v13 as u64);
 store8(v0 + 40, v12 as u64);
 store8(v0 + 36, v11 as u64);
 store8(v0 + 32, v10 as u64);
 store8(v0 + 28, v9 as u64);
 store8(v0 + 24, v8 as u64);
 store8(v0 + 20, v7 as u64);
 store8(v0 + 16, v6 as u64);
 store8(v0 + 12, v5 as u64);
 store8(v0 + 8, v4 as u64);
 store8(v0 + 4, v3 as u64);
 store8(v0, v2 as u64);
 store8(v0 + 255, (v65 >> 24) as u64);
 store8(v0 + 254, (v65 >> 16) as u64);
 store8(v0 + 253, (v65 >> 8) as u64);
 store8(v0 + 251, (v64 >> 24) as u64);
 store8(v0 + 250, (v64 >> 16) as u64);
 store8(v0 + 249, (v64 >> 8) as u64);
 store8(v0 + 247, (v63 >> 24) as u64);
 store8(v0 + 246, (v63 >> 16) as u64);
 store8(v0 + 245, (v63 >> 8) as u64);
 store8(v0 + 243, (v62 >> 24) as u64);
 store8(v0 + 242, (v62 >> 16) as u64);
 store8(v0 + 241, (v62 >> 8) as u64);
 store8(v0 + 239, (v61 >> 24) as u64);
 store8(v0 + 238, (v61 >> 16) as u64);
 store8(v0 + 237, (v61 >> 8) as u64);
 store8(v0 + 235, (v60 >> 24) as u64);
 store8(v0 + 234, (v60 >> 16) as u64);
 store8(v0 + 233, (v60 >> 8) as u64);
 store8(v0 + 231, (v59 >> 24) as u64);
 store8(v0 + 230, (v59 >> 16) as u64);
 store8(v0 + 229, (v59 >> 8) as u64);
 store8(v0 + 227, (v58 >> 24) as u64);
 store8(v0 + 226, (v58 >> 16) as u64);
 store8(v0 + 225, (v58 >> 8) as u64);
 store8(v0 + 223, (v57 >> 24) as u64);
 store8(v0 + 222, (v57 >> 16) as u64);
 store8(v0 + 221, (v57 >> 8) as u64);
 store8(v0 + 219, (v56 >> 24) as u64);
 store8(v0 + 218, (v56 >> 16) as u64);
 store8(v0 + 217, (v56 >> 8) as u64);
 store8(v0 + 215, (v55 >> 24) as u64);
 store8(v0 + 214, (v55 >> 16) as u64);
 store8(v0 + 213, (v55 >> 8) as u64);
 store8(v0 + 211, (v54 >> 24) as u64);
 store8(v0 + 210, (v54 >> 16) as u64);
 store8(v0 + 209, (v54 >> 8) as u64);
 store8(v0 + 207, (v53 >> 24) as u64);
 store8(v0 + 206, (v53 >> 16) as u64);
 store8(v0 + 205, (v53 >> 8) as u64);
 store8(v0 + 203, (v52 >> 24) as u64);
 store8(v0 + 202, (v52 >> 16) as u64);
 store8(v0 + 201, (v52 >> 8) as u64);
 store8(v0 + 199, (v51 >> 24) as u64);
 store8(v0 + 198, (v51 >> 16) as u64);
 store8(v0 + 197, (v51 >> 8) as u64);
 store8(v0 + 195, (v50 >> 24) as u64);
 store8(v0 + 194, (v50 >> 16) as u64);
 store8(v0 + 193, (v50 >> 8) as u64);
 store8(v0 + 191, (v49 >> 24) as u64);
 store8(v0 + 190, (v49 >> 16) as u64);
 store8(v0 + 189, (v49 >> 8) as u64);
 store8(v0 + 187, (v48 >> 24) as u64);
 store8(v0 + 186, (v48 >> 16) as u64);
 store8(v0 + 185, (v48 >> 8) as u64);
 store8(v0 + 183, (v47 >> 24) as u64);
 store8(v0 + 182, (v47 >> 16) as u64);
 store8(v0 + 181, (v47 >> 8) as u64);
 store8(v0 + 179, (v46 >> 24) as u64);
 store8(v0 + 178, (v46 >> 16) as u64);
 store8(v0 + 177, (v46 >> 8) as u64);
 store8(v0 + 175, (v45 >> 24) as u64);
 store8(v0 + 174, (v45 >> 16) as u64);
 store8(v0 + 173, (v45 >> 8) as u64);
 store8(v0 + 171, (v44 >> 24) as u64);
 store8(v0 + 170, (v44 >> 16) as u64);
 store8(v0 + 169, (v44 >> 8) as u64);
 store8(v0 + 167, (v43 >> 24) as u64);
 store8(v0 + 166, (v43 >> 16) as u64);
 store8(v0 + 165, (v43 >> 8) as u64);
 store8(v0 + 163, (v42 >> 24) as u64);
 store8(v0 + 162, (v42 >> 16) as u64);
 store8(v0 + 161, (v42 >> 8) as u64);
 store8(v0 + 159, (v41 >> 24) as u64);
 store8(v0 + 158, (v41 >> 16) as u64);
 store8(v0 + 157, (v41 >> 8) as u64);
 store8(v0 + 155, (v40 >> 24) as u64);
 store8(v0 + 154, (v40 >> 16) as u64);
 store8(v0 + 153, (v40 >> 8) as u64);
 store8(v0 + 151, (v39 >> 24) as u64);
 store8(v0 + 150, (v39 >> 16) as u64);
 store8(v0 + 149, (v39 >> 8) as u64);
 store8(v0 + 147, (v38 >> 24) as u64);
 store8(v0 + 146, (v38 >> 16) as u64);
 store8(v0 + 145, (v38 >> 8) as u64);
 store8(v0 + 143, (v37 >> 24) as u64);
 store8(v0 + 142, (v37 >> 16) as u64);
 store8(v0 + 141, (v37 >> 8) as u64);
 store8(v0 + 139, (v36 >> 24) as u64);
 store8(v0 + 138, (v36 >> 16) as u64);
 store8(v0 + 137, (v36 >> 8) as u64);
 store8(v0 + 135, (v35 >> 24) as u64);
 store8(v0 + 134, (v35 >> 16) as u64);
 store8(v0 + 133, (v35 >> 8) as u64);
 store8(v0 + 131, (v34 >> 24) as u64);
 store8(v0 + 130, (v34 >> 16) as u64);
 store8(v0 + 129, (v34 >> 8) as u64);
 store8(v0 + 127, (v33 >> 24) as u64);
 store8(v0 + 126, (v33 >> 16) as u64);
 store8(v0 + 125, (v33 >> 8) as u64);
 store8(v0 + 123, (v32 >> 24) as u64);
 store8(v0 + 122, (v32 >> 16) as u64);
 store8(v0 + 121, (v32 >> 8) as u64);
 store8(v0 + 119, (v31 >> 24) as u64);
 store8(v0 + 118, (v31 >> 16) as u64);
 store8(v0 + 117, (v31 >> 8) as u64);
 store8(v0 + 115, (v30 >> 24) as u64);
 store8(v0 + 114, (v30 >> 16) as u64);
 store8(v0 + 113, (v30 >> 8) as u64);
 store8(v0 + 111, (v29 >> 24) as u64);
 store8(v0 + 110, (v29 >> 16) as u64);
 store8(v0 + 109, (v29 >> 8) as u64);
 store8(v0 + 107, (v28 >> 24) as u64);
 store8(v0 + 106, (v28 >> 16) as u64);
 store8(v0 + 105, (v28 >> 8) as u64);
 store8(v0 + 103, (v27 >> 24) as u64);
 store8(v0 + 102, (v27 >> 16) as u64);
 store8(v0 + 101, (v27 >> 8) as u64);
 store8(v0 + 99, (v26 >> 24) as u64);
 store8(v0 + 98, (v26 >> 16) as u64);
 store8(v0 + 97, (v26 >> 8) as u64);
 store8(v0 + 95, (v25 >> 24) as u64);
 store8(v0 + 94, (v25 >> 16) as u64);
 store8(v0 + 93, (v25 >> 8) as u64);
 store8(v0 + 91, (v24 >> 24) as u64);
 store8(v0 + 90, (v24 >> 16) as u64);
 store8(v0 + 89, (v24 >> 8) as u64);
 store8(v0 + 87, (v23 >> 24) as u64);
 store8(v0 + 86, (v23 >> 16) as u64);
 store8(v0 + 85, (v23 >> 8) as u64);
 store8(v0 + 83, (v22 >> 24) as u64);
 store8(v0 + 82, (v22 >> 16) as u64);
 store8(v0 + 81, (v22 >> 8) as u64);
 store8(v0 + 79, (v21 >> 24) as u64);
 store8(v0 + 78, (v21 >> 16) as u64);
 store8(v0 + 77, (v21 >> 8) as u64);
 store8(v0 + 75, (v20 >> 24) as u64);
 store8(v0 + 74, (v20 >> 16) as u64);
 store8(v0 + 73, (v20 >> 8) as u64);
 store8(v0 + 71, (v19 >> 24) as u64);
 store8(v0 + 70, (v19 >> 16) as u64);
 store8(v0 + 69, (v19 >> 8) as u64);
 store8(v0 + 67, (v18 >> 24) as u64);
 store8(v0 + 66, (v18 >> 16) as u64);
 store8(v0 + 65, (v18 >> 8) as u64);
 store8(v0 + 63, (v17 >> 24) as u64);
 store8(v0 + 62, (v17 >> 16) as u64);
 store8(v0 + 61, (v17 >> 8) as u64);
 store8(v0 + 59, (v16 >> 24) as u64);
 store8(v0 + 58, (v16 >> 16) as u64);
 store8(v0 + 57, (v16 >> 8) as u64);
 store8(v0 + 55, (v15 >> 24) as u64);
 store8(v0 + 54, (v15 >> 16) as u64);
 store8(v0 + 53, (v15 >> 8) as u64);
 store8(v0 + 51, (v14 >> 24) as u64);
 store8(v0 + 50, (v14 >> 16) as u64);
 store8(v0 + 49, (v14 >> 8) as u64);
 store8(v0 + 47, (v13 >> 24) as u64);
 store8(v0 + 46, (v13 >> 16) as u64);
 store8(v0 + 45, (v13 >> 8) as u64);
 store8(v0 + 43, (v12 >> 24) as u64);
 store8(v0 + 42, (v12 >> 16) as u64);
 store8(v0 + 41, (v12 >> 8) as u64);
 store8(v0 + 39, (v11 >> 24) as u64);
 store8(v0 + 38, (v11 >> 16) as u64);
 store8(v0 + 37, (v11 >> 8) as u64);
 store8(v0 + 35, (v10 >> 24) as u64);
 store8(v0 + 34, (v10 >> 16) as u64);
 store8(v0 + 33, (v10 >> 8) as u64);
 store8(v0 + 31, (v9 >> 24) as u64);
 store8(v0 + 30, (v9 >> 16) as u64);
 store8(v0 + 29, (v9 >> 8) as u64);
 store8(v0 + 27, (v8 >> 24) as u64);
 store8(v0 + 26, (v8 >> 16) as u64);
 store8(v0 + 25, (v8 >> 8) as u64);
 store8(v0 + 23, (v7 >> 24) as u64);
 store8(v0 + 22, (v7 >> 16) as u64);
 store8(v0 + 21, (v7 >> 8) as u64);
 store8(v0 + 19, (v6 >> 24) as u64);
 store8(v0 + 18, (v6 >> 16) as u64);
 store8(v0 + 17, (v6 >> 8) as u64);
 store8(v0 + 15, (v5 >> 24) as u64);
 store8(v0 + 14, (v5 >> 16) as u64);
 store8(v0 + 13, (v5 >> 8) as u64);
 store8(v0 + 11, (v4 >> 24) as u64);
 store8(v0 + 10, (v4 >> 16) as u64);
 store8(v0 + 9, (v4 >> 8) as u64);
 store8(v0 + 7, (v3 >> 24) as u64);
 store8(v0 + 6, (v3 >> 16) as u64);
 store8(v0 + 5, (v3 >> 8) as u64);
 store8(v0 + 3, (v2 >> 24) as u64);
 store8(v0 + 2, (v2 >> 16) as u64);
 store8(v0 + 1, (v2 >> 8) as u64);
 return;
}

// blake2_parallel::blake2sp::State::output
#[inline(never)]
unsafe fn parallel_blake2sp_State_output(mut v0: u64, mut v1: u64) {
 let mut v2: u64;
 let mut v3: u64;
 let mut v4: u64;
 let mut v5: u64;
 let mut v6: u64;
 let mut v7: u64;
 let mut v8: u64;
 let mut v9: u64;
 let mut v10: u64;
 let mut v11: u64;
 let mut v12: u64;
 let mut v13: u64;
 let mut v14: u64;
 let mut v15: u64;
 let mut v16: u64;
 let mut v17: u64;
 let mut v18: u64;
 let mut v19: u64;
 let mut v20: u64;
 let mut v21: u64;
 let mut v22: u64;
 let mut v23: u64;
 let mut v24: u64;
 let mut v25: u64;
 let mut v26: u64;
 let mut v27: u64;
 let mut v28: u64;
 let mut v29: u64;
 let mut v30: u64;
 let mut v31: u64;
 let mut v32: u64;
 let mut v33: u64;
 let mut v34: u64;
 let mut v35: u64;
 let mut v36: u64;
 let mut v37: u32;
 let mut frame = [0_u64; 260];
 let top = (address!(frame)).plus(2080) & !15;
 v2 = top.minus(2064);
 'l1: loop {
 'l2: loop {
 'l3: loop {
 fill(v2.plus(256), 0, 256);
 fill(v2, 0, 256);
 fill(v2.plus(1280), 0, 256);
 fill(v2.plus(768), 0, 256);
 fill(v2 + 512, 0, 256);
 v3 = v1.plus(256);
 v4 = load64(v3);
 v5 = load64(v1.plus(264));
 v6 = load64(v1.plus(32));
 v7 = load64(v1.plus(40));
 v8 = load64(v1.plus(48));
 v9 = load64(v1.plus(56));
 v10 = load64(v1.plus(64));
 v11 = load64(v1.plus(72));
 v12 = load64(v1.plus(80));
 v13 = load64(v1.plus(88));
 v14 = load64(v1.plus(96));
 v15 = load64(v1.plus(104));
 v16 = load64(v1.plus(112));
 v17 = load64(v1.plus(120));
 v18 = load64(v1.plus(128));
 v19 = load64(v1.plus(136));
 v20 = load64(v1.plus(144));
 v21 = load64(v1.plus(152));
 v22 = load64(v1.plus(160));
 v23 = load64(v1.plus(168));
 v24 = load64(v1.plus(176));
 v25 = load64(v1.plus(184));
 v26 = load64(v1.plus(192));
 v27 = load64(v1.plus(200));
 v28 = load64(v1.plus(208));
 v29 = load64(v1.plus(216));
 v30 = load64(v1.plus(224));
 v31 = load64(v1.plus(232));
 v32 = load64(v1.plus(240));
 v33 = load64(v1);
 v34 = load64(v1 + 8);
 v35 = load64(v1 + 16);
 v36 = load64(v1 + 24);
 store64(v2 + 1784, load64(v1.plus(248)));
 store64(v2 + 1776, v32);
 store64(v2 + 1768, v31);
 store64(v2 + 1760, v30);
 store64(v2 + 1752, v29);
 store64(v2 + 1744, v28);
 store64(v2 + 1736, v27);
 store64(v2 + 1728, v26);
 store64(v2 + 1720, v25);
 store64(v2 + 1712, v24);
 store64(v2 + 1704, v23);
 store64(v2 + 1696, v22);
 store64(v2 + 1688, v21);
 store64(v2 + 1680, v20);
 store64(v2 + 1672, v19);
 store64(v2 + 1664, v18);
 store64(v2 + 1656, v17);
 store64(v2 + 1648, v16);
 store64(v2 + 1640, v15);
 store64(v2 + 1632, v14);
 store64(v2 + 1624, v13);
 store64(v2 + 1616, v12);
 store64(v2 + 1608, v11);
 store64(v2 + 1600, v10);
 store64(v2 + 1592, v9);
 store64(v2 + 1584, v8);
 store64(v2 + 1576, v7);
 store64(v2 + 1568, v6);
 store64(v2 + 1560, v36);
 store64(v2 + 1552, v35);
 store64(v2 + 1544, v34);
 store64(v2 + 1536, v33);
 store8(v2 + 1805, 0);
 store8(v2 + 1803, 0);
 store8(v2 + 1801, 0);
 store8(v2 + 1799, 0);
 store8(v2 + 1797, 0);
 store8(v2 + 1795, 0);
 store8(v2 + 1793, 0);
 store8(v2 + 1792, ((v5 < 513) as u32) as u64);
 v7 = if v5 < 512 { v5 } else { 512 };
 v6 = v5.minus(v7);
 v37 = (v6 < 449) as u32;
 store8(v2 + 1807, v37 as u64);
 store8(v2 + 1806, v37 as u64);
 store8(v2 + 1804, ((v6 < 385) as u32) as u64);
 store8(v2 + 1802, ((v6 < 321) as u32) as u64);
 store8(v2 + 1800, ((v6 < 257) as u32) as u64);
 store8(v2 + 1798, ((v6 < 193) as u32) as u64);
 store8(v2 + 1796, ((v6 < 129) as u32) as u64);
 store8(v2 + 1794, ((v6 < 65) as u32) as u64);
 v8 = v1.plus(272);
 parallel_lanes_blake2sp_compress_short(v2.plus(1536), v8, v7, v4, v2.plus(1792));
 parallel_lanes_blake2sp_outputs_of(v2.plus(768), v2.plus(1536));
 copy(v2.plus(1024), v2.plus(768), 256);
 'l5: loop {
 if v5 > 512 { break 'l5; }
 copy(v2, v2.plus(768), 256);
 break 'l1;
 }
 v5 = load64(v3);
 store64(v2 + 2056, 0x101000100010001);
 store64(v2 + 2048, 0x1000100010001);
 copy(v2.plus(1792), v2.plus(1536), 256);
 parallel_lanes_blake2sp_compress_short(v2.plus(1792), v8.plus(v7), v6, v5.plus(64), v2.plus(2048));
 copy(v2.plus(1536), v2.plus(1792), 256);
 parallel_lanes_blake2sp_outputs_of(v2.plus(768), v2.plus(1536));
 store64(v2 + 760, load64(v2 + 792));
 store64(v2 + 752, load64(v2 + 784));
 store64(v2 + 744, load64(v2 + 776));
 store64(v2 + 736, load64(v2 + 768));
 'l6: loop {
 'l7: loop {
 'l8: loop {
 'l9: loop {
 'l10: loop {
 'l11: loop {
 'l12: loop {
 'l13: loop {
 'l14: loop {
 'l15: loop {
 'l16: loop {
 if v6 > 64 { break 'l16; }
 store64(v2 + 728, load64(v2 + 1080));
 store64(v2 + 720, load64(v2 + 1072));
 store64(v2 + 712, load64(v2 + 1064));
 store64(v2 + 704, load64(v2 + 1056));
 break 'l15;
 }
 store64(v2 + 728, load64(v2 + 824));
 store64(v2 + 720, load64(v2 + 816));
 store64(v2 + 712, load64(v2 + 808));
 store64(v2 + 704, load64(v2 + 800));
 if v6 > 128 { break 'l14; }
 break 'l15; }
 store64(v2 + 696, load64(v2 + 1112));
 store64(v2 + 688, load64(v2 + 1104));
 store64(v2 + 680, load64(v2 + 1096));
 store64(v2 + 672, load64(v2 + 1088));
 break 'l13;
 }
 store64(v2 + 696, load64(v2 + 856));
 store64(v2 + 688, load64(v2 + 848));
 store64(v2 + 680, load64(v2 + 840));
 store64(v2 + 672, load64(v2 + 832));
 if v6 > 192 { break 'l12; }
 break 'l13; }
 store64(v2 + 664, load64(v2 + 1144));
 store64(v2 + 656, load64(v2 + 1136));
 store64(v2 + 648, load64(v2 + 1128));
 store64(v2 + 640, load64(v2 + 1120));
 break 'l11;
 }
 store64(v2 + 664, load64(v2 + 888));
 store64(v2 + 656, load64(v2 + 880));
 store64(v2 + 648, load64(v2 + 872));
 store64(v2 + 640, load64(v2 + 864));
 if v6 > 256 { break 'l10; }
 break 'l11; }
 store64(v2 + 632, load64(v2 + 1176));
 store64(v2 + 624, load64(v2 + 1168));
 store64(v2 + 616, load64(v2 + 1160));
 store64(v2 + 608, load64(v2 + 1152));
 break 'l9;
 }
 store64(v2 + 632, load64(v2 + 920));
 store64(v2 + 624, load64(v2 + 912));
 store64(v2 + 616, load64(v2 + 904));
 store64(v2 + 608, load64(v2 + 896));
 if v6 > 320 { break 'l8; }
 break 'l9; }
 store64(v2 + 600, load64(v2 + 1208));
 store64(v2 + 592, load64(v2 + 1200));
 store64(v2 + 584, load64(v2 + 1192));
 store64(v2 + 576, load64(v2 + 1184));
 break 'l7;
 }
 store64(v2 + 600, load64(v2 + 952));
 store64(v2 + 592, load64(v2 + 944));
 store64(v2 + 584, load64(v2 + 936));
 store64(v2 + 576, load64(v2 + 928));
 if v6 > 384 { break 'l6; }
 break 'l7; }
 store64(v2 + 568, load64(v2 + 1240));
 store64(v2 + 560, load64(v2 + 1232));
 store64(v2 + 552, load64(v2 + 1224));
 store64(v2 + 544, load64(v2 + 1216));
 break 'l3;
 }
 store64(v2 + 568, load64(v2 + 984));
 store64(v2 + 560, load64(v2 + 976));
 store64(v2 + 552, load64(v2 + 968));
 store64(v2 + 544, load64(v2 + 960));
 if v6 < 449 { break 'l3; }
 store64(v2 + 1816, load64(v2 + 1016));
 store64(v2 + 1808, load64(v2 + 1008));
 store64(v2 + 1800, load64(v2 + 1000));
 store64(v2 + 1792, load64(v2 + 992));
 break 'l2;
 }
 store64(v2 + 1816, load64(v2 + 1272));
 store64(v2 + 1808, load64(v2 + 1264));
 store64(v2 + 1800, load64(v2 + 1256));
 store64(v2 + 1792, load64(v2 + 1248));
 break 'l2; }
 store64(v2 + 536, load64(v2 + 1816));
 store64(v2 + 528, load64(v2 + 1808));
 store64(v2 + 520, load64(v2 + 1800));
 store64(v2 + 512, load64(v2 + 1792));
 store64(v2 + 1280, load64(v2 + 736));
 store64(v2 + 1288, load64(v2 + 744));
 store64(v2 + 1296, load64(v2 + 752));
 store64(v2 + 1304, load64(v2 + 760));
 store64(v2 + 1336, load64(v2 + 728));
 store64(v2 + 1328, load64(v2 + 720));
 store64(v2 + 1320, load64(v2 + 712));
 store64(v2 + 1312, load64(v2 + 704));
 store64(v2 + 1368, load64(v2 + 696));
 store64(v2 + 1360, load64(v2 + 688));
 store64(v2 + 1352, load64(v2 + 680));
 store64(v2 + 1344, load64(v2 + 672));
 store64(v2 + 1400, load64(v2 + 664));
 store64(v2 + 1392, load64(v2 + 656));
 store64(v2 + 1384, load64(v2 + 648));
 store64(v2 + 1376, load64(v2 + 640));
 store64(v2 + 1432, load64(v2 + 632));
 store64(v2 + 1424, load64(v2 + 624));
 store64(v2 + 1416, load64(v2 + 616));
 store64(v2 + 1408, load64(v2 + 608));
 store64(v2 + 1464, load64(v2 + 600));
 store64(v2 + 1456, load64(v2 + 592));
 store64(v2 + 1448, load64(v2 + 584));
 store64(v2 + 1440, load64(v2 + 576));
 store64(v2 + 1496, load64(v2 + 568));
 store64(v2 + 1488, load64(v2 + 560));
 store64(v2 + 1480, load64(v2 + 552));
 store64(v2 + 1472, load64(v2 + 544));
 store64(v2 + 1528, load64(v2 + 536));
 store64(v2 + 1520, load64(v2 + 528));
 store64(v2 + 1512, load64(v2 + 520));
 store64(v2 + 1504, load64(v2 + 512));
 copy(v2, v2.plus(1280), 256);
 break 'l1; }
 copy(v2.plus(256), v2, 256);
 v6 = load64(v1.plus(1488));
 v5 = load64(v1.plus(1496));
 v7 = load64(v1.plus(1504));
 store64(v2 + 1816, load64(v1.plus(1512)));
 store64(v2 + 1808, v7);
 store64(v2 + 1800, v5);
 store64(v2 + 1792, v6);
 compress_compress_blake2s_compress(v2.plus(1792), v2, 64, 0, 0);
 compress_compress_blake2s_compress(v2.plus(1792), v2.plus(256).plus(64), 128, 0, 0);
 compress_compress_blake2s_compress(v2.plus(1792), v2.plus(256).plus(128), 192, 0, 0);
 compress_compress_blake2s_compress(v2.plus(1792), v2.plus(256).plus(192), 256, 1, 1);
 v1 = load64(v2 + 1792);
 v6 = load64(v2 + 1800);
 v5 = load64(v2 + 1808);
 store64(v0 + 24, load64(v2 + 1816));
 store64(v0 + 16, v5);
 store64(v0 + 8, v6);
 store64(v0, v1);
}

// blake2_parallel::lanes::blake2sp::compress_by_leaf
#[inline(never)]
unsafe fn parallel_lanes_blake2sp_compress_by_leaf(mut v0: u64, mut v1: u64, mut v2: u64, mut v3:
        u64) {
 let mut v4: u64;
 let mut v5: u32;
 let mut v6: u32;
 let mut v7: u32;
 let mut v8: u32;
 let mut v9: u32;
 let mut v10: u32;
 let mut v11: u32;
 let mut v12: u32;
 let mut v13: u32;
 let mut v14: u32;
 let mut v15: u32;
 let mut v16: u32;
 let mut v17: u32;
 let mut v18: u32;
 let mut v19: u32;
 let mut v20: u32;
 let mut v21: u32;
 let mut v22: u32;
 let mut v23: u32;
 let mut v24: u32;
 let mut v25: u32;
 let mut v26: u32;
 let mut v27: u32;
 let mut v28: u32;
 let mut v29: u32;
 let mut v30: u32;
 let mut v31: u32;
 let mut v32: u32;
 let mut v33: u32;
 let mut v34: u32;
 let mut v35: u32;
 let mut v36: u32;
 let mut v37: u32;
 let mut v38: u32;
 let mut v39: u32;
 let mut v40: u32;
 let mut v41: u32;
 let mut v42: u32;
 let mut v43: u32;
 let mut v44: u32;
 let mut v45: u32;
 let mut v46: u32;
 let mut v47: u32;
 let mut v48: u32;
 let mut v49: u32;
 let mut v50: u32;
 let mut v51: u32;
 let mut v52: u32;
 let mut v53: u32;
 let mut v54: u32;
 let mut v55: u32;
 let mut v56: u32;
 let mut v57: u32;
 let mut v58: u32;
 let mut v59: u32;
 let mut v60: u32;
 let mut v61: u32;
 let mut v62: u32;
 let mut v63: u32;
 let mut v64: u32;
 let mut v65: u32;
 let mut v66: u32;
 let mut v67: u32;
 let mut v68: u32;
 let mut v69: u32;
 let mut v70: u64;
 let mut v71: u64;
 let mut v72: u64;
 let mut frame = [0_u64; 6];
 let top = (address!(frame)).plus(48) & !15;
 v4 = top.minus(32);
 v5 = load32(v0 + 252);
 v6 = load32(v0 + 248);
 v7 = load32(v0 + 244);
 v8 = load32(v0 + 240);
 v9 = load32(v0 + 236);
 v10 = load32(v0 + 232);
 v11 = load32(v0 + 228);
 v12 = load32(v0 + 220);
 v13 = load32(v0 + 216);
 v14 = load32(v0 + 212);
 v15 = load32(v0 + 208);
 v16 = load32(v0 + 204);
 v17 = load32(v0 + 200);
 v18 = load32(v0 + 196);
 v19 = load32(v0 + 188);
 v20 = load32(v0 + 184);
 v21 = load32(v0 + 180);
 v22 = load32(v0 + 176);
 v23 = load32(v0 + 172);
 v24 = load32(v0 + 168);
 v25 = load32(v0 + 164);
 v26 = load32(v0 + 156);
 v27 = load32(v0 + 152);
 v28 = load32(v0 + 148);
 v29 = load32(v0 + 144);
 v30 = load32(v0 + 140);
 v31 = load32(v0 + 136);
 v32 = load32(v0 + 132);
 v33 = load32(v0 + 124);
 v34 = load32(v0 + 120);
 v35 = load32(v0 + 116);
 v36 = load32(v0 + 112);
 v37 = load32(v0 + 108);
 v38 = load32(v0 + 104);
 v39 = load32(v0 + 100);
 v40 = load32(v0 + 92);
 v41 = load32(v0 + 88);
 v42 = load32(v0 + 84);
 v43 = load32(v0 + 80);
 v44 = load32(v0 + 76);
 v45 = load32(v0 + 72);
 v46 = load32(v0 + 68);
 v47 = load32(v0 + 60);
 v48 = load32(v0 + 56);
 v49 = load32(v0 + 52);
 v50 = load32(v0 + 48);
 v51 = load32(v0 + 44);
 v52 = load32(v0 + 40);
 v53 = load32(v0 + 36);
 v54 = load32(v0 + 28);
 v55 = load32(v0 + 24);
 v56 = load32(v0 + 20);
 v57 = load32(v0 + 16);
 v58 = load32(v0 + 12);
 v59 = load32(v0 + 8);
 v60 = load32(v0 + 4);
 v61 = load32(v0);
 v62 = load32(v0 + 32);
 v63 = load32(v0 + 64);
 v64 = load32(v0 + 96);
 v65 = load32(v0 + 128);
 v66 = load32(v0 + 160);
 v67 = load32(v0 + 192);
 v68 = load32(v0 + 224);
 store32(v4 + 28, v68 as u64);
 store32(v4 + 24, v67 as u64);
 store32(v4 + 20, v66 as u64);
 store32(v4 + 16, v65 as u64);
 store32(v4 + 12, v64 as u64);
 store32(v4 + 8, v63 as u64);
 store32(v4 + 4, v62 as u64);
 store32(v4, v61 as u64);
 'l2: loop {
 v69 = (v3 == 0) as u32;
 if v69 != 0 { break 'l2; }
 v70 = v2.plus(64);
 v71 = v3;
 v72 = v1;
 'l3: loop {
 compress_compress_blake2s_compress(v4, v72, v70, 0, 0);
 v70 = v70.plus(64);
 v72 = v72.plus(512);
 v71 = v71.minus(1);
 if v71 != 0 { continue 'l3; }
 break 'l3; }
 v68 = load32(v4 + 28);
 v67 = load32(v4 + 24);
 v66 = load32(v4 + 20);
 v65 = load32(v4 + 16);
 v64 = load32(v4 + 12);
 v63 = load32(v4 + 8);
 v62 = load32(v4 + 4);
 v61 = load32(v4);
 break 'l2; }
 store32(v4 + 28, v11 as u64);
 store32(v4 + 24, v18 as u64);
 store32(v4 + 20, v25 as u64);
 store32(v4 + 16, v32 as u64);
 store32(v4 + 12, v39 as u64);
 store32(v4 + 8, v46 as u64);
 store32(v4 + 4, v53 as u64);
 store32(v4, v60 as u64);
 'l4: loop {
 if v69 != 0 { break 'l4; }
 v70 = v2.plus(64);
 v72 = v1.plus(64);
 v71 = v3;
 'l5: loop {
 compress_compress_blake2s_compress(v4, v72, v70, 0, 0);
 v70 = v70.plus(64);
 v72 = v72.plus(512);
 v71 = v71.minus(1);
 if v71 != 0 { continue 'l5; }
 break 'l5; }
 v11 = load32(v4 + 28);
 v18 = load32(v4 + 24);
 v25 = load32(v4 + 20);
 v32 = load32(v4 + 16);
 v39 = load32(v4 + 12);
 v46 = load32(v4 + 8);
 v53 = load32(v4 + 4);
 v60 = load32(v4);
 break 'l4; }
 store32(v4 + 28, v10 as u64);
 store32(v4 + 24, v17 as u64);
 store32(v4 + 20, v24 as u64);
 store32(v4 + 16, v31 as u64);
 store32(v4 + 12, v38 as u64);
 store32(v4 + 8, v45 as u64);
 store32(v4 + 4, v52 as u64);
 store32(v4, v59 as u64);
 'l6: loop {
 if v69 != 0 { break 'l6; }
 v70 = v2.plus(64);
 v72 = v1.plus(128);
 v71 = v3;
 'l7: loop {
 compress_compress_blake2s_compress(v4, v72, v70, 0, 0);
 v70 = v70.plus(64);
 v72 = v72.plus(512);
 v71 = v71.minus(1);
 if v71 != 0 { continue 'l7; }
 break 'l7; }
 v10 = load32(v4 + 28);
 v17 = load32(v4 + 24);
 v24 = load32(v4 + 20);
 v31 = load32(v4 + 16);
 v38 = load32(v4 + 12);
 v45 = load32(v4 + 8);
 v52 = load32(v4 + 4);
 v59 = load32(v4);
 break 'l6; }
 store32(v4 + 28, v9 as u64);
 store32(v4 + 24, v16 as u64);
 store32(v4 + 20, v23 as u64);
 store32(v4 + 16, v30 as u64);
 store32(v4 + 12, v37 as u64);
 store32(v4 + 8, v44 as u64);
 store32(v4 + 4, v51 as u64);
 store32(v4, v58 as u64);
 'l8: loop {
 if v69 != 0 { break 'l8; }
 v70 = v2.plus(64);
 v72 = v1.plus(192);
 v71 = v3;
 'l9: loop {
 compress_compress_blake2s_compress(v4, v72, v70, 0, 0);
 v70 = v70.plus(64);
 v72 = v72.plus(512);
 v71 = v71.minus(1);
 if v71 != 0 { continue 'l9; }
 break 'l9; }
 v9 = load32(v4 + 28);
 v16 = load32(v4 + 24);
 v23 = load32(v4 + 20);
 v30 = load32(v4 + 16);
 v37 = load32(v4 + 12);
 v44 = load32(v4 + 8);
 v51 = load32(v4 + 4);
 v58 = load32(v4);
 break 'l8; }
 store32(v4 + 28, v8 as u64);
 store32(v4 + 24, v15 as u64);
 store32(v4 + 20, v22 as u64);
 store32(v4 + 16, v29 as u64);
 store32(v4 + 12, v36 as u64);
 store32(v4 + 8, v43 as u64);
 store32(v4 + 4, v50 as u64);
 store32(v4, v57 as u64);
 'l10: loop {
 if v69 != 0 { break 'l10; }
 v70 = v2.plus(64);
 v72 = v1.plus(256);
 v71 = v3;
 'l11: loop {
 compress_compress_blake2s_compress(v4, v72, v70, 0, 0);
 v70 = v70.plus(64);
 v72 = v72.plus(512);
 v71 = v71.minus(1);
 if v71 != 0 { continue 'l11; }
 break 'l11; }
 v8 = load32(v4 + 28);
 v15 = load32(v4 + 24);
 v22 = load32(v4 + 20);
 v29 = load32(v4 + 16);
 v36 = load32(v4 + 12);
 v43 = load32(v4 + 8);
 v50 = load32(v4 + 4);
 v57 = load32(v4);
 break 'l10; }
 store32(v4 + 28, v7 as u64);
 store32(v4 + 24, v14 as u64);
 store32(v4 + 20, v21 as u64);
 store32(v4 + 16, v28 as u64);
 store32(v4 + 12, v35 as u64);
 store32(v4 + 8, v42 as u64);
 store32(v4 + 4, v49 as u64);
 store32(v4, v56 as u64);
 'l12: loop {
 if v69 != 0 { break 'l12; }
 v70 = v2.plus(64);
 v72 = v1.plus(320);
 v71 = v3;
 'l13: loop {
 compress_compress_blake2s_compress(v4, v72, v70, 0, 0);
 v70 = v70.plus(64);
 v72 = v72.plus(512);
 v71 = v71.minus(1);
 if v71 != 0 { continue 'l13; }
 break 'l13; }
 v7 = load32(v4 + 28);
 v14 = load32(v4 + 24);
 v21 = load32(v4 + 20);
 v28 = load32(v4 + 16);
 v35 = load32(v4 + 12);
 v42 = load32(v4 + 8);
 v49 = load32(v4 + 4);
 v56 = load32(v4);
 break 'l12; }
 store32(v4 + 28, v6 as u64);
 store32(v4 + 24, v13 as u64);
 store32(v4 + 20, v20 as u64);
 store32(v4 + 16, v27 as u64);
 store32(v4 + 12, v34 as u64);
 store32(v4 + 8, v41 as u64);
 store32(v4 + 4, v48 as u64);
 store32(v4, v55 as u64);
 'l14: loop {
 if v69 != 0 { break 'l14; }
 v70 = v2.plus(64);
 v72 = v1.plus(384);
 v71 = v3;
 'l15: loop {
 compress_compress_blake2s_compress(v4, v72, v70, 0, 0);
 v70 = v70.plus(64);
 v72 = v72.plus(512);
 v71 = v71.minus(1);
 if v71 != 0 { continue 'l15; }
 break 'l15; }
 v6 = load32(v4 + 28);
 v13 = load32(v4 + 24);
 v20 = load32(v4 + 20);
 v27 = load32(v4 + 16);
 v34 = load32(v4 + 12);
 v41 = load32(v4 + 8);
 v48 = load32(v4 + 4);
 v55 = load32(v4);
 break 'l14; }
 store32(v4 + 28, v5 as u64);
 store32(v4 + 24, v12 as u64);
 store32(v4 + 20, v19 as u64);
 store32(v4 + 16, v26 as u64);
 store32(v4 + 12, v33 as u64);
 store32(v4 + 8, v40 as u64);
 store32(v4 + 4, v47 as u64);
 store32(v4, v54 as u64);
 'l16: loop {
 if v69 != 0 { break 'l16; }
 v70 = v2.plus(64);
 v72 = v1.plus(448);
 'l17: loop {
 compress_compress_blake2s_compress(v4, v72, v70, 0, 0);
 v70 = v70.plus(64);
 v72 = v72.plus(512);
 v3 = v3.minus(1);
 if v3 != 0 { continue 'l17; }
 break 'l17; }
 v5 = load32(v4 + 28);
 v12 = load32(v4 + 24);
 v19 = load32(v4 + 20);
 v26 = load32(v4 + 16);
 v33 = load32(v4 + 12);
 v40 = load32(v4 + 8);
 v47 = load32(v4 + 4);
 v54 = load32(v4);
 break 'l16; }
 store32(v0 + 252, v5 as u64);
 store32(v0 + 248, v6 as u64);
 store32(v0 + 244, v7 as u64);
 store32(v0 + 240, v8 as u64);
 store32(v0 + 236, v9 as u64);
 store32(v0 + 232, v10 as u64);
 store32(v0 + 228, v11 as u64);
 store32(v0 + 224, v68 as u64);
 store32(v0 + 220, v12 as u64);
 store32(v0 + 216, v13 as u64);
 store32(v0 + 212, v14 as u64);
 store32(v0 + 208, v15 as u64);
 store32(v0 + 204, v16 as u64);
 store32(v0 + 200, v17 as u64);
 store32(v0 + 196, v18 as u64);
 store32(v0 + 192, v67 as u64);
 store32(v0 + 188, v19 as u64);
 store32(v0 + 184, v20 as u64);
 store32(v0 + 180, v21 as u64);
 store32(v0 + 176, v22 as u64);
 store32(v0 + 172, v23 as u64);
 store32(v0 + 168, v24 as u64);
 store32(v0 + 164, v25 as u64);
 store32(v0 + 160, v66 as u64);
 store32(v0 + 156, v26 as u64);
 store32(v0 + 152, v27 as u64);
 store32(v0 + 148, v28 as u64);
 store32(v0 + 144, v29 as u64);
 store32(v0 + 140, v30 as u64);
 store32(v0 + 136, v31 as u64);
 store32(v0 + 132, v32 as u64);
 store32(v0 + 128, v65 as u64);
 store32(v0 + 124, v33 as u64);
 store32(v0 + 120, v34 as u64);
 store32(v0 + 116, v35 as u64);
 store32(v0 + 112, v36 as u64);
 store32(v0 + 108, v37 as u64);
 store32(v0 + 104, v38 as u64);
 store32(v0 + 100, v39 as u64);
 store32(v0 + 96, v64 as u64);
 store32(v0 + 92, v40 as u64);
 store32(v0 + 88, v41 as u64);
 store32(v0 + 84, v42 as u64);
 store32(v0 + 80, v43 as u64);
 store32(v0 + 76, v44 as u64);
 store32(v0 + 72, v45 as u64);
 store32(v0 + 68, v46 as u64);
 store32(v0 + 64, v63 as u64);
 store32(v0 + 60, v47 as u64);
 store32(v0 + 56, v48 as u64);
 store32(v0 + 52, v49 as u64);
 store32(v0 + 48, v50 as u64);
 store32(v0 + 44, v51 as u64);
 store32(v0 + 40, v52 as u64);
 store32(v0 + 36, v53 as u64);
 store32(v0 + 32, v62 as u64);
 store32(v0 + 28, v54 as u64);
 store32(v0 + 24, v55 as u64);
 store32(v0 + 20, v56 as u64);
 store32(v0 + 16, v57 as u64);
 store32(v0 + 12, v58 as u64);
 store32(v0 + 8, v59 as u64);
 store32(v0 + 4, v60 as u64);
 store32(v0, v61 as u64);
 return;
}

// blake2_parallel::lanes::blake2sp::Lanes::compress_held
#[inline(never)]
unsafe fn parallel_lanes_blake2sp_Lanes_compress_held(mut v0: u64) {
 let mut v1: u64;
 let mut v2: u64;
 let mut v3: u64;
 let mut v4: u64;
 let mut v5: u64;
 let mut v6: u64;
 let mut v7: u64;
 let mut v8: u64;
 let mut v9: u64;
 let mut v10: u64;
 let mut v11: u64;
 let mut v12: u64;
 let mut v13: u64;
 let mut v14: u64;
 let mut v15: u64;
 let mut v16: u64;
 let mut v17: u64;
 let mut v18: u64;
 let mut v19: u64;
 let mut v20: u64;
 let mut v21: u64;
 let mut v22: u64;
 let mut v23: u64;
 let mut v24: u64;
 let mut v25: u64;
 let mut v26: u64;
 let mut v27: u64;
 let mut v28: u64;
 let mut v29: u64;
 let mut v30: u64;
 let mut v31: u64;
 let mut v32: u64;
 let mut v33: u64;
 let mut v34: u64;
 let mut v35: u64;
 let mut v36: u64;
 let mut v37: u64;
 let mut v38: u64;
 let mut v39: u64;
 let mut v40: u64;
 let mut v41: u64;
 let mut v42: u64;
 let mut v43: u64;
 let mut v44: u64;
 let mut v45: u64;
 let mut v46: u64;
 let mut v47: u64;
 let mut v48: u64;
 let mut v49: u64;
 let mut v50: u64;
 let mut v51: u64;
 let mut v52: u64;
 let mut v53: u64;
 let mut v54: u64;
 let mut v55: u64;
 let mut v56: u64;
 let mut v57: u64;
 let mut v58: u64;
 let mut v59: u64;
 let mut v60: u64;
 let mut v61: u64;
 let mut v62: u64;
 let mut v63: u64;
 let mut v64: u64;
 let mut v65: u64;
 let mut v66: u64;
 let mut frame = [0_u64; 154];
 let top = (address!(frame)).plus(1232) & !15;
 v1 = top.minus(1216);
 v2 = v0.plus(32);
 v3 = load64(v2);
 v4 = v0.plus(40);
 v5 = load64(v4);
 v6 = v0.plus(48);
 v7 = load64(v6);
 v8 = v0.plus(56);
 v9 = load64(v8);
 v10 = v0.plus(64);
 v11 = load64(v10);
 v12 = v0.plus(72);
 v13 = load64(v12);
 v14 = v0.plus(80);
 v15 = load64(v14);
 v16 = v0.plus(88);
 v17 = load64(v16);
 v18 = v0.plus(96);
 v19 = load64(v18);
 v20 = v0.plus(104);
 v21 = load64(v20);
 v22 = v0.plus(112);
 v23 = load64(v22);
 v24 = v0.plus(120);
 v25 = load64(v24);
 v26 = v0.plus(128);
 v27 = load64(v26);
 v28 = v0.plus(136);
 v29 = load64(v28);
 v30 = v0.plus(144);
 v31 = load64(v30);
 v32 = v0.plus(152);
 v33 = load64(v32);
 v34 = v0.plus(160);
 v35 = load64(v34);
 v36 = v0.plus(168);
 v37 = load64(v36);
 v38 = v0.plus(176);
 v39 = load64(v38);
 v40 = v0.plus(184);
 v41 = load64(v40);
 v42 = v0.plus(192);
 v43 = load64(v42);
 v44 = v0.plus(200);
 v45 = load64(v44);
 v46 = v0.plus(208);
 v47 = load64(v46);
 v48 = v0.plus(216);
 v49 = load64(v48);
 v50 = v0.plus(224);
 v51 = load64(v50);
 v52 = v0.plus(232);
 v53 = load64(v52);
 v54 = v0.plus(240);
 v55 = load64(v54);
 v56 = load64(v0);
 v57 = load64(v0 + 8);
 v58 = load64(v0 + 16);
 v59 = load64(v0 + 24);
 v60 = v0.plus(248);
 store64(v1 + 248, load64(v60));
 store64(v1 + 240, v55);
 store64(v1 + 232, v53);
 store64(v1 + 224, v51);
 store64(v1 + 216, v49);
 store64(v1 + 208, v47);
 store64(v1 + 200, v45);
 store64(v1 + 192, v43);
 store64(v1 + 184, v41);
 store64(v1 + 176, v39);
 store64(v1 + 168, v37);
 store64(v1 + 160, v35);
 store64(v1 + 152, v33);
 store64(v1 + 144, v31);
 store64(v1 + 136, v29);
 store64(v1 + 128, v27);
 store64(v1 + 120, v25);
 store64(v1 + 112, v23);
 store64(v1 + 104, v21);
 store64(v1 + 96, v19);
 store64(v1 + 88, v17);
 store64(v1 + 80, v15);
 store64(v1 + 72, v13);
 store64(v1 + 64, v11);
 store64(v1 + 56, v9);
 store64(v1 + 48, v7);
 store64(v1 + 40, v5);
 store64(v1 + 32, v3);
 store64(v1 + 24, v59);
 store64(v1 + 16, v58);
 store64(v1 + 8, v57);
 store64(v1, v56);
 v5 = v0.plus(272);
 v7 = v0.plus(256);
 v9 = load64(v7);
 parallel_lanes_blake2sp_compress_by_leaf(v1, v5, v9, 1);
 v11 = v0.plus(264);
 v3 = load64(v11);
 fill(v1.plus(256), 0, 960);
 'l2: loop {
 v3 = v3.minus(512);
 if v3 == 0 { break 'l2; }
 copy(v1.plus(256), v0.plus(784), v3);
 break 'l2; }
 v13 = load64(v1);
 v15 = load64(v1 + 8);
 v17 = load64(v1 + 16);
 v19 = load64(v1 + 24);
 v21 = load64(v1 + 32);
 v23 = load64(v1 + 40);
 v25 = load64(v1 + 48);
 v27 = load64(v1 + 56);
 v29 = load64(v1 + 64);
 v31 = load64(v1 + 72);
 v33 = load64(v1 + 80);
 v35 = load64(v1 + 88);
 v37 = load64(v1 + 96);
 v39 = load64(v1 + 104);
 v41 = load64(v1 + 112);
 v43 = load64(v1 + 120);
 v45 = load64(v1 + 128);
 v47 = load64(v1 + 136);
 v49 = load64(v1 + 144);
 v51 = load64(v1 + 152);
 v53 = load64(v1 + 160);
 v55 = load64(v1 + 168);
 v56 = load64(v1 + 176);
 v57 = load64(v1 + 184);
 v58 = load64(v1 + 192);
 v59 = load64(v1 + 200);
 v61 = load64(v1 + 208);
 v62 = load64(v1 + 216);
 v63 = load64(v1 + 224);
 v64 = load64(v1 + 232);
 v65 = load64(v1 + 240);
 v66 = load64(v1 + 248);
 store64(v7, v9.plus(64));
 store64(v60, v66);
 store64(v54, v65);
 store64(v52, v64);
 store64(v50, v63);
 store64(v48, v62);
 store64(v46, v61);
 store64(v44, v59);
 store64(v42, v58);
 store64(v40, v57);
 store64(v38, v56);
 store64(v36, v55);
 store64(v34, v53);
 store64(v32, v51);
 store64(v30, v49);
 store64(v28, v47);
 store64(v26, v45);
 store64(v24, v43);
 store64(v22, v41);
 store64(v20, v39);
 store64(v18, v37);
 store64(v16, v35);
 store64(v14, v33);
 store64(v12, v31);
 store64(v10, v29);
 store64(v8, v27);
 store64(v6, v25);
 store64(v4, v23);
 store64(v2, v21);
 store64(v0 + 24, v19);
 store64(v0 + 16, v17);
 store64(v0 + 8, v15);
 store64(v0, v13);
 copy(v5, v1.plus(256), 960);
 store64(v11, v3);
 return;
}

// blake2_parallel::blake2sp::State::update
#[inline(never)]
unsafe fn parallel_blake2sp_State_update(mut v0: u64, mut v1: u64, mut v2: u64) {
 let mut v3: u64;
 let mut v4: u64;
 let mut v5: u64;
 let mut v6: u64;
 let mut v7: u64;
 let mut v8: u64;
 let mut v9: u64;
 let mut v10: u64;
 let mut v11: u64;
 let mut v12: u64;
 let mut v13: u64;
 let mut v14: u64;
 let mut v15: u64;
 let mut v16: u64;
 let mut v17: u64;
 let mut v18: u64;
 let mut v19: u64;
 let mut v20: u64;
 let mut v21: u64;
 let mut v22: u64;
 let mut v23: u64;
 let mut v24: u64;
 let mut v25: u64;
 let mut v26: u64;
 let mut v27: u64;
 let mut v28: u64;
 let mut v29: u64;
 let mut v30: u64;
 let mut v31: u64;
 let mut v32: u64;
 let mut v33: u64;
 let mut v34: u64;
 let mut v35: u64;
 let mut v36: u64;
 let mut v37: u64;
 let mut v38: u64;
 let mut v39: u64;
 let mut v40: u64;
 let mut v41: u64;
 let mut v42: u64;
 let mut v43: u64;
 let mut v44: u64;
 let mut v45: u64;
 let mut v46: u64;
 let mut v47: u64;
 let mut v48: u64;
 let mut v49: u64;
 let mut v50: u64;
 let mut v51: u64;
 let mut v52: u64;
 let mut v53: u64;
 let mut v54: u64;
 let mut v55: u64;
 let mut v56: u64;
 let mut v57: u64;
 let mut v58: u64;
 let mut v59: u64;
 let mut v60: u64;
 let mut v61: u64;
 let mut v62: u64;
 let mut v63: u64;
 let mut v64: u64;
 let mut v65: u64;
 let mut v66: u64;
 let mut v67: u64;
 let mut v68: u64;
 let mut frame = [0_u64; 34];
 let top = (address!(frame)).plus(272) & !15;
 v3 = top.minus(256);
 'l2: loop {
 v4 = load64(v0.plus(264));
 if 960_u64.minus(v4) >= v2 { break 'l2; }
 v5 = v0.plus(272);
 'l3: loop {
 'l4: loop {
 'l5: loop {
 if v4 != 0 { break 'l5; }
 v6 = v0.plus(32);
 v7 = load64(v6);
 v8 = v0.plus(40);
 v9 = load64(v8);
 v4 = v0.plus(48);
 v10 = load64(v4);
 v11 = v0.plus(56);
 v12 = load64(v11);
 v13 = v0.plus(64);
 v14 = load64(v13);
 v15 = v0.plus(72);
 v16 = load64(v15);
 v17 = v0.plus(80);
 v18 = load64(v17);
 v19 = v0.plus(88);
 v20 = load64(v19);
 v21 = v0.plus(96);
 v22 = load64(v21);
 v23 = v0.plus(104);
 v24 = load64(v23);
 v25 = v0.plus(112);
 v26 = load64(v25);
 v27 = v0.plus(120);
 v28 = load64(v27);
 v29 = v0.plus(128);
 v30 = load64(v29);
 v31 = v0.plus(136);
 v32 = load64(v31);
 v33 = v0.plus(144);
 v34 = load64(v33);
 v35 = v0.plus(152);
 v36 = load64(v35);
 v37 = v0.plus(160);
 v38 = load64(v37);
 v39 = v0.plus(168);
 v40 = load64(v39);
 v41 = v0.plus(176);
 v42 = load64(v41);
 v43 = v0.plus(184);
 v44 = load64(v43);
 v45 = v0.plus(192);
 v46 = load64(v45);
 v47 = v0.plus(200);
 v48 = load64(v47);
 v49 = v0.plus(208);
 v50 = load64(v49);
 v51 = v0.plus(216);
 v52 = load64(v51);
 v53 = v0.plus(224);
 v54 = load64(v53);
 v55 = v0.plus(232);
 v56 = load64(v55);
 v57 = v0.plus(240);
 v58 = load64(v57);
 v59 = load64(v0);
 v60 = load64(v0 + 8);
 v61 = load64(v0 + 16);
 v62 = load64(v0 + 24);
 v63 = v0.plus(248);
 store64(v3 + 248, load64(v63));
 store64(v3 + 240, v58);
 store64(v3 + 232, v56);
 store64(v3 + 224, v54);
 store64(v3 + 216, v52);
 store64(v3 + 208, v50);
 store64(v3 + 200, v48);
 store64(v3 + 192, v46);
 store64(v3 + 184, v44);
 store64(v3 + 176, v42);
 store64(v3 + 168, v40);
 store64(v3 + 160, v38);
 store64(v3 + 152, v36);
 store64(v3 + 144, v34);
 store64(v3 + 136, v32);
 store64(v3 + 128, v30);
 store64(v3 + 120, v28);
 store64(v3 + 112, v26);
 store64(v3 + 104, v24);
 store64(v3 + 96, v22);
 store64(v3 + 88, v20);
 store64(v3 + 80, v18);
 store64(v3 + 72, v16);
 store64(v3 + 64, v14);
 store64(v3 + 56, v12);
 store64(v3 + 48, v10);
 store64(v3 + 40, v9);
 store64(v3 + 32, v7);
 store64(v3 + 24, v62);
 store64(v3 + 16, v61);
 store64(v3 + 8, v60);
 store64(v3, v59);
 v7 = v0.plus(256);
 v9 = load64(v7);
 v10 = v2.minus(449);
 v12 = v10 >> 9;
 parallel_lanes_blake2sp_compress_by_leaf(v3, v1, v9, v12);
 v14 = load64(v3);
 v16 = load64(v3 + 8);
 v18 = load64(v3 + 16);
 v20 = load64(v3 + 24);
 v22 = load64(v3 + 32);
 v24 = load64(v3 + 40);
 v26 = load64(v3 + 48);
 v28 = load64(v3 + 56);
 v30 = load64(v3 + 64);
 v32 = load64(v3 + 72);
 v34 = load64(v3 + 80);
 v36 = load64(v3 + 88);
 v38 = load64(v3 + 96);
 v40 = load64(v3 + 104);
 v42 = load64(v3 + 112);
 v44 = load64(v3 + 120);
 v46 = load64(v3 + 128);
 v48 = load64(v3 + 136);
 v50 = load64(v3 + 144);
 v52 = load64(v3 + 152);
 v54 = load64(v3 + 160);
 v56 = load64(v3 + 168);
 v58 = load64(v3 + 176);
 v59 = load64(v3 + 184);
 v60 = load64(v3 + 192);
 v61 = load64(v3 + 200);
 v62 = load64(v3 + 208);
 v64 = load64(v3 + 216);
 v65 = load64(v3 + 224);
 v66 = load64(v3 + 232);
 v67 = load64(v3 + 240);
 v68 = load64(v3 + 248);
 store64(v7, v9.plus(v12 << 6));
 store64(v63, v68);
 store64(v57, v67);
 store64(v55, v66);
 store64(v53, v65);
 store64(v51, v64);
 store64(v49, v62);
 store64(v47, v61);
 store64(v45, v60);
 store64(v43, v59);
 store64(v41, v58);
 store64(v39, v56);
 store64(v37, v54);
 store64(v35, v52);
 store64(v33, v50);
 store64(v31, v48);
 store64(v29, v46);
 store64(v27, v44);
 store64(v25, v42);
 store64(v23, v40);
 store64(v21, v38);
 store64(v19, v36);
 store64(v17, v34);
 store64(v15, v32);
 store64(v13, v30);
 store64(v11, v28);
 store64(v4, v26);
 store64(v8, v24);
 store64(v6, v22);
 store64(v0 + 24, v20);
 store64(v0 + 16, v18);
 store64(v0 + 8, v16);
 store64(v0, v14);
 v6 = v10 & 0xfffffffffffffe00;
 v2 = v2.minus(v6);
 v1 = v1.plus(v6);
 break 'l4;
 }
 'l6: loop {
 if v4 > 511 { break 'l6; }
 'l7: loop {
 'l8: loop {
 v6 = v5.plus(v4);
 v12 = 512_u64.minus(v4);
 if v6.minus(v1) >= v12 { break 'l8; }
 v9 = v12 & 3;
 v7 = 0;
 'l9: loop {
 if v4 > 508 { break 'l9; }
 v10 = v0.plus(v4);
 v11 = v12 & 1020;
 v7 = 0;
 'l10: loop {
 v6 = v10.plus(v7);
 v8 = v1.plus(v7);
 store8(v6.plus(272), load8(v8) as u64);
 store8(v6.plus(273), load8(v8.plus(1)) as u64);
 store8(v6.plus(274), load8(v8.plus(2)) as u64);
 store8(v6.plus(275), load8(v8.plus(3)) as u64);
 v7 = v7.plus(4);
 if v11 != v7 { continue 'l10; }
 break 'l10; }
 if v9 == 0 { break 'l7; }
 break 'l9; }
 v6 = v1.plus(v7);
 v7 = v5.plus(v4.plus(v7));
 'l11: loop {
 store8(v7, load8(v6) as u64);
 v7 = v7.plus(1);
 v6 = v6.plus(1);
 v9 = v9.minus(1);
 if v9 != 0 { continue 'l11; }
 break 'l7;
 }
 }
 if v12 == 0 { break 'l7; }
 copy(v6, v1, v12);
 break 'l7; }
 store64(v0.plus(264), 512);
 parallel_lanes_blake2sp_Lanes_compress_held(v0);
 v1 = v1.plus(v12);
 v2 = v2.minus(v12);
 break 'l4;
 }
 parallel_lanes_blake2sp_Lanes_compress_held(v0);
 break 'l4; }
 v4 = load64(v0.plus(264));
 if 960_u64.minus(v4) < v2 { continue 'l3; }
 break 'l3; }
 break 'l2; }
 'l12: loop {
 'l13: loop {
 v10 = v0.plus(v4);
 v6 = v10.plus(272);
 if v6.minus(v1) >= v2 { break 'l13; }
 v9 = v2 & 3;
 v7 = 0;
 'l14: loop {
 if v2 < 4 { break 'l14; }
 v11 = v2 & 0xfffffffffffffffc;
 v7 = 0;
 'l15: loop {
 v6 = v10.plus(v7);
 v8 = v1.plus(v7);
 store8(v6.plus(272), load8(v8) as u64);
 store8(v6.plus(273), load8(v8.plus(1)) as u64);
 store8(v6.plus(274), load8(v8.plus(2)) as u64);
 store8(v6.plus(275), load8(v8.plus(3)) as u64);
 v7 = v7.plus(4);
 if v11 != v7 { continue 'l15; }
 break 'l15; }
 if v9 == 0 { break 'l12; }
 break 'l14; }
 v6 = v1.plus(v7);
 v7 = v4.plus(v7).plus(v0).plus(272);
 'l16: loop {
 store8(v7, load8(v6) as u64);
 v7 = v7.plus(1);
 v6 = v6.plus(1);
 v9 = v9.minus(1);
 if v9 != 0 { continue 'l16; }
 break 'l12;
 }
 }
 if v2 == 0 { break 'l12; }
 copy(v6, v1, v2);
 break 'l12; }
 store64(v0.plus(264), v4.plus(v2));
 return;
}

// blake2_ffi::blake2sp::write
#[inline(never)]
unsafe fn ffi_blake2sp_write(mut v0: u64, mut v1: u64, mut v2: u64, mut v3: u64, mut v4: u64, mut
        v5: u64) -> u32 {
 let mut v6: u64;
 let mut v7: u32;
 let mut v8: u64;
 let mut v9: u64;
 let mut v10: u64;
 let mut v11: u64;
 let mut v12: u64;
 let mut v13: u64;
 let mut v14: u64;
 let mut frame = [0_u64; 522];
 let top = (address!(frame)).plus(4176) & !15;
 v6 = top.minus(4160);
 fill(v6.plus(1240), 0, 1384);
 'l2: loop {
 'l3: loop {
 'l4: loop {
 'l5: loop {
 if v1.minus(1) > 31 { break 'l5; }
 if v5 > 32 { break 'l5; }
 fill(v6 + 2624, 0, 64);
 'l6: loop {
 if v5 == 0 { break 'l6; }
 copy(v6.plus(2624), v4, v5);
 break 'l6; }
 if v5 != 0 { break 'l4; }
 fill(v6.plus(3200), 0, 960);
 v4 = 0;
 break 'l3;
 }
 v7 = 0xffffffff;
 break 'l2;
 }
 v4 = load64(v6 + 2680);
 store64(v6 + 2744, v4);
 v8 = load64(v6 + 2672);
 store64(v6 + 2736, v8);
 v9 = load64(v6 + 2664);
 store64(v6 + 2728, v9);
 v10 = load64(v6 + 2656);
 store64(v6 + 2720, v10);
 v11 = load64(v6 + 2648);
 store64(v6 + 2712, v11);
 v12 = load64(v6 + 2640);
 store64(v6 + 2704, v12);
 v13 = load64(v6 + 2632);
 store64(v6 + 2696, v13);
 v14 = load64(v6 + 2624);
 store64(v6 + 2688, v14);
 store64(v6 + 2752, v14);
 store64(v6 + 2760, v13);
 store64(v6 + 2768, v12);
 store64(v6 + 2776, v11);
 store64(v6 + 2784, v10);
 store64(v6 + 2792, v9);
 store64(v6 + 2800, v8);
 store64(v6 + 2808, v4);
 v4 = load64(v6 + 2680);
 store64(v6 + 2872, v4);
 v8 = load64(v6 + 2672);
 store64(v6 + 2864, v8);
 v9 = load64(v6 + 2664);
 store64(v6 + 2856, v9);
 v10 = load64(v6 + 2656);
 store64(v6 + 2848, v10);
 v11 = load64(v6 + 2648);
 store64(v6 + 2840, v11);
 v12 = load64(v6 + 2640);
 store64(v6 + 2832, v12);
 v13 = load64(v6 + 2632);
 store64(v6 + 2824, v13);
 v14 = load64(v6 + 2624);
 store64(v6 + 2816, v14);
 store64(v6 + 2936, v4);
 store64(v6 + 2928, v8);
 store64(v6 + 2920, v9);
 store64(v6 + 2912, v10);
 store64(v6 + 2904, v11);
 store64(v6 + 2896, v12);
 store64(v6 + 2888, v13);
 store64(v6 + 2880, v14);
 store64(v6 + 3000, load64(v6 + 2680));
 store64(v6 + 2992, load64(v6 + 2672));
 store64(v6 + 2984, load64(v6 + 2664));
 store64(v6 + 2976, load64(v6 + 2656));
 store64(v6 + 2968, load64(v6 + 2648));
 store64(v6 + 2960, load64(v6 + 2640));
 store64(v6 + 2952, load64(v6 + 2632));
 store64(v6 + 2944, load64(v6 + 2624));
 store64(v6 + 3064, load64(v6 + 2680));
 store64(v6 + 3056, load64(v6 + 2672));
 store64(v6 + 3048, load64(v6 + 2664));
 store64(v6 + 3040, load64(v6 + 2656));
 store64(v6 + 3032, load64(v6 + 2648));
 store64(v6 + 3024, load64(v6 + 2640));
 store64(v6 + 3016, load64(v6 + 2632));
 store64(v6 + 3008, load64(v6 + 2624));
 store64(v6 + 3128, load64(v6 + 2680));
 store64(v6 + 3120, load64(v6 + 2672));
 store64(v6 + 3112, load64(v6 + 2664));
 store64(v6 + 3104, load64(v6 + 2656));
 store64(v6 + 3096, load64(v6 + 2648));
 store64(v6 + 3088, load64(v6 + 2640));
 store64(v6 + 3080, load64(v6 + 2632));
 store64(v6 + 3072, load64(v6 + 2624));
 store64(v6 + 3192, load64(v6 + 2680));
 store64(v6 + 3184, load64(v6 + 2672));
 store64(v6 + 3176, load64(v6 + 2664));
 store64(v6 + 3168, load64(v6 + 2656));
 store64(v6 + 3160, load64(v6 + 2648));
 store64(v6 + 3152, load64(v6 + 2640));
 store64(v6 + 3144, load64(v6 + 2632));
 store64(v6 + 3136, load64(v6 + 2624));
 v4 = 512;
 fill(v6.plus(3200).plus(512), 0, 448);
 copy(v6.plus(3200), v6.plus(2688), 512);
 break 'l3; }
 copy(v6.plus(64), v6.plus(3200), 960);
 store64(v6 + 56, load64(v6 + 2680));
 store64(v6 + 48, load64(v6 + 2672));
 store64(v6 + 40, load64(v6 + 2664));
 store64(v6 + 32, load64(v6 + 2656));
 store64(v6 + 24, load64(v6 + 2648));
 store64(v6 + 16, load64(v6 + 2640));
 store64(v6 + 8, load64(v6 + 2632));
 store64(v6, load64(v6 + 2624));
 store64(v6 + 1288, v4);
 store64(v6 + 1280, 0);
 store64(v6 + 1272, 0x5be0cd195be0cd19);
 store64(v6 + 1264, 0x5be0cd195be0cd19);
 store64(v6 + 1256, 0x5be0cd195be0cd19);
 store64(v6 + 1248, 0x5be0cd195be0cd19);
 store64(v6 + 1240, 0x1f83d9ab1f83d9ab);
 store64(v6 + 1232, 0x1f83d9ab1f83d9ab);
 store64(v6 + 1224, 0x1f83d9ab1f83d9ab);
 store64(v6 + 1216, 0x1f83d9ab1f83d9ab);
 store64(v6 + 1208, 0x9b05688c9b05688c);
 store64(v6 + 1200, 0x9b05688c9b05688c);
 store64(v6 + 1192, 0x9b05688c9b05688c);
 store64(v6 + 1184, 0x9b05688c9b05688c);
 store64(v6 + 1176, 0x510e527f510e527f);
 store64(v6 + 1168, 0x510e527f510e527f);
 store64(v6 + 1160, 0x510e527f510e527f);
 store64(v6 + 1152, 0x510e527f510e527f);
 store32(v6 + 1148, 0x854ff53a);
 store64(v6 + 1140, 0x854ff53a854ff53a);
 store64(v6 + 1132, 0x854ff53a854ff53a);
 store64(v6 + 1124, 0x854ff53a854ff53a);
 store64(v6 + 1116, 0x854ff53a3c6ef375);
 store64(v6 + 1108, 0x3c6ef3743c6ef377);
 store64(v6 + 1100, 0x3c6ef3763c6ef371);
 store64(v6 + 1092, 0x3c6ef3703c6ef373);
 store32(v6 + 1088, 0x3c6ef372);
 store64(v6 + 1080, 0xbb67ae85bb67ae85);
 store64(v6 + 1072, 0xbb67ae85bb67ae85);
 store64(v6 + 1064, 0xbb67ae85bb67ae85);
 store64(v6 + 1056, 0xbb67ae85bb67ae85);
 v7 = (((v5 as u32) << 8) | (v1 as u32) | 0x2080000) ^ 0x6a09e667;
 store32(v6 + 1052, v7 as u64);
 store32(v6 + 1048, v7 as u64);
 store32(v6 + 1044, v7 as u64);
 store32(v6 + 1040, v7 as u64);
 store32(v6 + 1036, v7 as u64);
 store32(v6 + 1032, v7 as u64);
 store32(v6 + 1028, v7 as u64);
 store32(v6 + 1024, v7 as u64);
 copy(v6.plus(1296), v6.plus(64), 960);
 store64(v6 + 2552, v1);
 store64(v6 + 2544, v4);
 store64(v6 + 2536, 0x5be0cd191f83d9ab);
 store64(v6 + 2528, 0x9b05688c510e527f);
 store32(v6 + 2524, 0x854ef53a);
 store64(v6 + 2516, 0x3c6ef372bb67ae85);
 store32(v6 + 2512, v7 as u64);
 store64(v6 + 2504, 0x5be0cd195be0cd19);
 store64(v6 + 2496, 0x5be0cd195be0cd19);
 store64(v6 + 2488, 0x5be0cd195be0cd19);
 store64(v6 + 2480, 0x5be0cd195be0cd19);
 store64(v6 + 2472, 0x1f83d9ab1f83d9ab);
 store64(v6 + 2464, 0x1f83d9ab1f83d9ab);
 store64(v6 + 2456, 0x1f83d9ab1f83d9ab);
 store64(v6 + 2448, 0x1f83d9ab1f83d9ab);
 store64(v6 + 2440, 0x9b05688c9b05688c);
 store64(v6 + 2432, 0x9b05688c9b05688c);
 store64(v6 + 2424, 0x9b05688c9b05688c);
 store64(v6 + 2416, 0x9b05688c9b05688c);
 store64(v6 + 2408, 0x510e527f510e527f);
 store64(v6 + 2400, 0x510e527f510e527f);
 store64(v6 + 2392, 0x510e527f510e527f);
 store64(v6 + 2384, 0x510e527f510e527f);
 store32(v6 + 2380, 0x854ff53a);
 store64(v6 + 2372, 0x854ff53a854ff53a);
 store64(v6 + 2364, 0x854ff53a854ff53a);
 store64(v6 + 2356, 0x854ff53a854ff53a);
 store64(v6 + 2348, 0x854ff53a3c6ef375);
 store64(v6 + 2340, 0x3c6ef3743c6ef377);
 store64(v6 + 2332, 0x3c6ef3763c6ef371);
 store64(v6 + 2324, 0x3c6ef3703c6ef373);
 store32(v6 + 2320, 0x3c6ef372);
 store64(v6 + 2312, 0xbb67ae85bb67ae85);
 store64(v6 + 2304, 0xbb67ae85bb67ae85);
 store64(v6 + 2296, 0xbb67ae85bb67ae85);
 store64(v6 + 2288, 0xbb67ae85bb67ae85);
 store32(v6 + 2284, v7 as u64);
 store32(v6 + 2280, v7 as u64);
 store32(v6 + 2276, v7 as u64);
 store32(v6 + 2272, v7 as u64);
 store32(v6 + 2268, v7 as u64);
 store32(v6 + 2264, v7 as u64);
 store32(v6 + 2260, v7 as u64);
 store32(v6 + 2256, v7 as u64);
 store64(v6 + 2616, load64(v6 + 56));
 store64(v6 + 2608, load64(v6 + 48));
 store64(v6 + 2600, load64(v6 + 40));
 store64(v6 + 2592, load64(v6 + 32));
 store64(v6 + 2584, load64(v6 + 24));
 store64(v6 + 2576, load64(v6 + 16));
 store64(v6 + 2568, load64(v6 + 8));
 store64(v6 + 2560, load64(v6));
 v7 = 0xffffffff;
 if v3 > (!v4) { break 'l2; }
 parallel_blake2sp_State_update(v6.plus(1024), v2, v3);
 fill(v6 + 3200, 0, 32);
 parallel_blake2sp_State_output(v6.plus(3200), v6.plus(1024));
 'l7: loop {
 v5 = load64(v6 + 2552);
 if v5 == 0 { break 'l7; }
 copy(v0, v6.plus(3200), v5);
 break 'l7; }
 v7 = 0;
 break 'l2; }
 return v7;
}

// rattle::export vulfsjor_ffi_blake2sp
#[inline(never)]
unsafe fn exported_blake2sp(mut v0: u64, mut v1: u64, mut v2: u64, mut v3: u64, mut v4: u64, mut v5:
        u64) -> u32 {
 let mut v7: u32;
 v7 = ffi_blake2sp_write(v0.plus(if v0 == 0 { 4096_u64 } else { 0 }), v1, v2.plus(if v2 == 0 {
   4096_u64 } else { 0 }), v3, v4.plus(if v4 == 0 { 4096_u64 } else { 0 }), v5);
 'l2: loop {
 if v5 == 0 { break 'l2; }
 digest_wiping_scrub_stack_8704();
 break 'l2; }
 return v7;
}

// blake2_ffi::blake2sp::initialize
#[inline(never)]
unsafe fn ffi_blake2sp_initialize(mut v0: u64, mut v1: u64, mut v2: u64, mut v3: u64, mut v4: u64,
        mut v5: u64, mut v6: u64, mut v7: u64) -> u32 {
 let mut v8: u64;
 let mut v9: u32;
 let mut v10: u64;
 let mut v11: u32;
 let mut v12: u32;
 let mut v13: u32;
 let mut v14: u32;
 let mut v15: u32;
 let mut v16: u32;
 let mut v17: u32;
 let mut v18: u32;
 let mut v19: u32;
 let mut v20: u64;
 let mut v21: u64;
 let mut frame = [0_u64; 322];
 let top = (address!(frame)).plus(2576) & !15;
 v8 = top.minus(2560);
 'l1: loop {
 'l3: loop {
 if v1.minus(1) > 31 { break 'l3; }
 if v3 > 32 { break 'l3; }
 if v5 > 8 { break 'l3; }
 if v7 > 8 { break 'l3; }
 fill(v8 + 1088, 0, 16);
 'l4: loop {
 v9 = (v5 == 0) as u32;
 if v9 != 0 { break 'l4; }
 copy(v8.plus(1088), v4, v5);
 break 'l4; }
 v10 = v8.plus(1088) | 8;
 'l5: loop {
 v11 = (v7 == 0) as u32;
 if v11 != 0 { break 'l5; }
 copy(v10, v6, v7);
 break 'l5; }
 v12 = load32(v8 + 1100);
 v13 = load32(v8 + 1096);
 v14 = load32(v8 + 1092);
 v15 = load32(v8 + 1088);
 fill(v8 + 1088, 0, 16);
 'l6: loop {
 if v9 != 0 { break 'l6; }
 copy(v8.plus(1088), v4, v5);
 break 'l6; }
 'l7: loop {
 if v11 != 0 { break 'l7; }
 copy(v10, v6, v7);
 break 'l7; }
 fill(v8 + 1024, 0, 64);
 v16 = load32(v8 + 1100);
 v17 = load32(v8 + 1096);
 v18 = load32(v8 + 1092);
 v19 = load32(v8 + 1088);
 'l8: loop {
 if v3 == 0 { break 'l8; }
 copy(v8.plus(1024), v2, v3);
 break 'l8; }
 'l9: loop {
 'l10: loop {
 if v3 != 0 { break 'l10; }
 fill(v8.plus(1600), 0, 960);
 v5 = 0;
 break 'l9;
 }
 v5 = load64(v8 + 1080);
 store64(v8 + 1144, v5);
 v7 = load64(v8 + 1072);
 store64(v8 + 1136, v7);
 v6 = load64(v8 + 1064);
 store64(v8 + 1128, v6);
 v4 = load64(v8 + 1056);
 store64(v8 + 1120, v4);
 v2 = load64(v8 + 1048);
 store64(v8 + 1112, v2);
 v10 = load64(v8 + 1040);
 store64(v8 + 1104, v10);
 v20 = load64(v8 + 1032);
 store64(v8 + 1096, v20);
 v21 = load64(v8 + 1024);
 store64(v8 + 1088, v21);
 store64(v8 + 1152, v21);
 store64(v8 + 1160, v20);
 store64(v8 + 1168, v10);
 store64(v8 + 1176, v2);
 store64(v8 + 1184, v4);
 store64(v8 + 1192, v6);
 store64(v8 + 1200, v7);
 store64(v8 + 1208, v5);
 v5 = load64(v8 + 1080);
 store64(v8 + 1272, v5);
 v7 = load64(v8 + 1072);
 store64(v8 + 1264, v7);
 v6 = load64(v8 + 1064);
 store64(v8 + 1256, v6);
 v4 = load64(v8 + 1056);
 store64(v8 + 1248, v4);
 v2 = load64(v8 + 1048);
 store64(v8 + 1240, v2);
 v10 = load64(v8 + 1040);
 store64(v8 + 1232, v10);
 v20 = load64(v8 + 1032);
 store64(v8 + 1224, v20);
 v21 = load64(v8 + 1024);
 store64(v8 + 1216, v21);
 store64(v8 + 1336, v5);
 store64(v8 + 1328, v7);
 store64(v8 + 1320, v6);
 store64(v8 + 1312, v4);
 store64(v8 + 1304, v2);
 store64(v8 + 1296, v10);
 store64(v8 + 1288, v20);
 store64(v8 + 1280, v21);
 store64(v8 + 1400, load64(v8 + 1080));
 store64(v8 + 1392, load64(v8 + 1072));
 store64(v8 + 1384, load64(v8 + 1064));
 store64(v8 + 1376, load64(v8 + 1056));
 store64(v8 + 1368, load64(v8 + 1048));
 store64(v8 + 1360, load64(v8 + 1040));
 store64(v8 + 1352, load64(v8 + 1032));
 store64(v8 + 1344, load64(v8 + 1024));
 store64(v8 + 1464, load64(v8 + 1080));
 store64(v8 + 1456, load64(v8 + 1072));
 store64(v8 + 1448, load64(v8 + 1064));
 store64(v8 + 1440, load64(v8 + 1056));
 store64(v8 + 1432, load64(v8 + 1048));
 store64(v8 + 1424, load64(v8 + 1040));
 store64(v8 + 1416, load64(v8 + 1032));
 store64(v8 + 1408, load64(v8 + 1024));
 store64(v8 + 1528, load64(v8 + 1080));
 store64(v8 + 1520, load64(v8 + 1072));
 store64(v8 + 1512, load64(v8 + 1064));
 store64(v8 + 1504, load64(v8 + 1056));
 store64(v8 + 1496, load64(v8 + 1048));
 store64(v8 + 1488, load64(v8 + 1040));
 store64(v8 + 1480, load64(v8 + 1032));
 store64(v8 + 1472, load64(v8 + 1024));
 store64(v8 + 1592, load64(v8 + 1080));
 store64(v8 + 1584, load64(v8 + 1072));
 store64(v8 + 1576, load64(v8 + 1064));
 store64(v8 + 1568, load64(v8 + 1056));
 store64(v8 + 1560, load64(v8 + 1048));
 store64(v8 + 1552, load64(v8 + 1040));
 store64(v8 + 1544, load64(v8 + 1032));
 store64(v8 + 1536, load64(v8 + 1024));
 v5 = 512;
 fill(v8.plus(1600).plus(512), 0, 448);
 copy(v8.plus(1600), v8.plus(1088), 512);
 break 'l9; }
 copy(v8, v8.plus(1600), 960);
 store64(v0 + 264, v5);
 store64(v0 + 256, 0);
 v11 = v14 ^ 0x9b05688c;
 store32(v0 + 188, v11 as u64);
 store32(v0 + 184, v11 as u64);
 store32(v0 + 180, v11 as u64);
 store32(v0 + 176, v11 as u64);
 store32(v0 + 172, v11 as u64);
 store32(v0 + 168, v11 as u64);
 store32(v0 + 164, v11 as u64);
 store32(v0 + 160, v11 as u64);
 v14 = v15 ^ 0x510e527f;
 store32(v0 + 156, v14 as u64);
 store32(v0 + 152, v14 as u64);
 store32(v0 + 148, v14 as u64);
 store32(v0 + 144, v14 as u64);
 store32(v0 + 140, v14 as u64);
 store32(v0 + 136, v14 as u64);
 store32(v0 + 132, v14 as u64);
 store32(v0 + 128, v14 as u64);
 store64(v0 + 120, 0x854ff53a854ff53a);
 store64(v0 + 112, 0x854ff53a854ff53a);
 store64(v0 + 104, 0x854ff53a854ff53a);
 store64(v0 + 96, 0x854ff53a854ff53a);
 store64(v0 + 88, 0x3c6ef3753c6ef374);
 store64(v0 + 80, 0x3c6ef3773c6ef376);
 store64(v0 + 72, 0x3c6ef3713c6ef370);
 store64(v0 + 64, 0x3c6ef3733c6ef372);
 store64(v0 + 56, 0xbb67ae85bb67ae85);
 store64(v0 + 48, 0xbb67ae85bb67ae85);
 store64(v0 + 40, 0xbb67ae85bb67ae85);
 store64(v0 + 32, 0xbb67ae85bb67ae85);
 v13 ^= 0x1f83d9ab;
 store32(v0 + 220, v13 as u64);
 store32(v0 + 216, v13 as u64);
 store32(v0 + 212, v13 as u64);
 store32(v0 + 208, v13 as u64);
 store32(v0 + 204, v13 as u64);
 store32(v0 + 200, v13 as u64);
 store32(v0 + 196, v13 as u64);
 store32(v0 + 192, v13 as u64);
 v12 ^= 0x5be0cd19;
 store32(v0 + 252, v12 as u64);
 store32(v0 + 248, v12 as u64);
 store32(v0 + 244, v12 as u64);
 store32(v0 + 240, v12 as u64);
 store32(v0 + 236, v12 as u64);
 store32(v0 + 232, v12 as u64);
 store32(v0 + 228, v12 as u64);
 store32(v0 + 224, v12 as u64);
 v9 = (((v3 as u32) << 8) | (v1 as u32) | 0x2080000) ^ 0x6a09e667;
 store32(v0 + 28, v9 as u64);
 store32(v0 + 24, v9 as u64);
 store32(v0 + 20, v9 as u64);
 store32(v0 + 16, v9 as u64);
 store32(v0 + 12, v9 as u64);
 store32(v0 + 8, v9 as u64);
 store32(v0 + 4, v9 as u64);
 store32(v0, v9 as u64);
 store64(v8 + 960, load64(v8 + 1024));
 store64(v8 + 968, load64(v8 + 1032));
 store64(v8 + 976, load64(v8 + 1040));
 store64(v8 + 984, load64(v8 + 1048));
 store64(v8 + 992, load64(v8 + 1056));
 store64(v8 + 1000, load64(v8 + 1064));
 store64(v8 + 1008, load64(v8 + 1072));
 store64(v8 + 1016, load64(v8 + 1080));
 copy(v0.plus(272), v8, 960);
 store64(v0 + 1528, v1);
 store64(v0 + 1520, v5);
 store32(v0 + 1516, (v16 ^ 0x5be0cd19) as u64);
 store32(v0 + 1512, (v17 ^ 0x1f83d9ab) as u64);
 store32(v0 + 1508, (v18 ^ 0x9b05688c) as u64);
 store32(v0 + 1504, (v19 ^ 0x510e527f) as u64);
 store32(v0 + 1500, 0x854ef53a);
 store64(v0 + 1492, 0x3c6ef372bb67ae85);
 store32(v0 + 1488, v9 as u64);
 store32(v0 + 1484, v12 as u64);
 store32(v0 + 1480, v12 as u64);
 store32(v0 + 1476, v12 as u64);
 store32(v0 + 1472, v12 as u64);
 store32(v0 + 1468, v12 as u64);
 store32(v0 + 1464, v12 as u64);
 store32(v0 + 1460, v12 as u64);
 store32(v0 + 1456, v12 as u64);
 store32(v0 + 1452, v13 as u64);
 store32(v0 + 1448, v13 as u64);
 store32(v0 + 1444, v13 as u64);
 store32(v0 + 1440, v13 as u64);
 store32(v0 + 1436, v13 as u64);
 store32(v0 + 1432, v13 as u64);
 store32(v0 + 1428, v13 as u64);
 store32(v0 + 1424, v13 as u64);
 store32(v0 + 1420, v11 as u64);
 store32(v0 + 1416, v11 as u64);
 store32(v0 + 1412, v11 as u64);
 store32(v0 + 1408, v11 as u64);
 store32(v0 + 1404, v11 as u64);
 store32(v0 + 1400, v11 as u64);
 store32(v0 + 1396, v11 as u64);
 store32(v0 + 1392, v11 as u64);
 store32(v0 + 1388, v14 as u64);
 store32(v0 + 1384, v14 as u64);
 store32(v0 + 1380, v14 as u64);
 store32(v0 + 1376, v14 as u64);
 store32(v0 + 1372, v14 as u64);
 store32(v0 + 1368, v14 as u64);
 store32(v0 + 1364, v14 as u64);
 store32(v0 + 1360, v14 as u64);
 store64(v0 + 1352, 0x854ff53a854ff53a);
 store64(v0 + 1344, 0x854ff53a854ff53a);
 store64(v0 + 1336, 0x854ff53a854ff53a);
 store64(v0 + 1328, 0x854ff53a854ff53a);
 store64(v0 + 1320, 0x3c6ef3753c6ef374);
 store64(v0 + 1312, 0x3c6ef3773c6ef376);
 store64(v0 + 1304, 0x3c6ef3713c6ef370);
 store64(v0 + 1296, 0x3c6ef3733c6ef372);
 store64(v0 + 1288, 0xbb67ae85bb67ae85);
 store64(v0 + 1280, 0xbb67ae85bb67ae85);
 store64(v0 + 1272, 0xbb67ae85bb67ae85);
 store64(v0 + 1264, 0xbb67ae85bb67ae85);
 store32(v0 + 1260, v9 as u64);
 store32(v0 + 1256, v9 as u64);
 store32(v0 + 1252, v9 as u64);
 store32(v0 + 1248, v9 as u64);
 store32(v0 + 1244, v9 as u64);
 store32(v0 + 1240, v9 as u64);
 store32(v0 + 1236, v9 as u64);
 store32(v0 + 1232, v9 as u64);
 store64(v0 + 1592, load64(v8 + 1016));
 store64(v0 + 1584, load64(v8 + 1008));
 store64(v0 + 1576, load64(v8 + 1000));
 store64(v0 + 1568, load64(v8 + 992));
 store64(v0 + 1560, load64(v8 + 984));
 store64(v0 + 1552, load64(v8 + 976));
 store64(v0 + 1544, load64(v8 + 968));
 store64(v0 + 1536, load64(v8 + 960));
 v9 = 0;
 break 'l1;
 }
 fill(v0, 0, 1600);
 v9 = 0xffffffff;
 break 'l1;
 }
 return v9;
}

// rattle::export vulfsjor_ffi_blake2sp_init_salt_personal
#[inline(never)]
unsafe fn exported_blake2sp_init_salt_personal(mut v0: u64, mut v1: u64, mut v2: u64, mut v3: u64,
        mut v4: u64, mut v5: u64, mut v6: u64, mut v7: u64) -> u32 {
 let mut v9: u32;
 v9 = ffi_blake2sp_initialize(v0, v1, v2.plus(if v2 == 0 { 4096_u64 } else { 0 }), v3, v4.plus(if v4
   == 0 { 4096_u64 } else { 0 }), v5, v6.plus(if v6 == 0 { 4096_u64 } else { 0 }), v7);
 'l2: loop {
 if v3 == 0 { break 'l2; }
 digest_wiping_scrub_stack_5120();
 break 'l2; }
 return v9;
}

// rattle::export vulfsjor_ffi_blake2sp_init_key
#[inline(never)]
unsafe fn exported_blake2sp_init_key(mut v0: u64, mut v1: u64, mut v2: u64, mut v3: u64) -> u32 {
 let mut v5: u32;
 'l1: loop {
 if v3 != 0 { break 'l1; }
 fill(v0, 0, 1600);
 return 0xffffffff;
 }
 v5 = ffi_blake2sp_initialize(v0, v1, v2.plus(if v2 == 0 { 4096_u64 } else { 0 }), v3, 0x100000, 0,
   0x100000, 0);
 digest_wiping_scrub_stack_5120();
 return v5;
}

// blake2_ffi::blake2sp::update_in_frame
#[inline(never)]
unsafe fn ffi_blake2sp_update_in_frame(mut v0: u64, mut v1: u64, mut v2: u64) {
 parallel_blake2sp_State_update(v0, v1, v2);
 return;
}

// blake2_ffi::blake2sp::update_scrubbed
#[inline(never)]
unsafe fn ffi_blake2sp_update_scrubbed(mut v0: u64, mut v1: u64, mut v2: u64) {
 ffi_blake2sp_update_in_frame(v0, v1, v2);
 digest_wiping_scrub_stack_3072();
 return;
}

// rattle::export vulfsjor_ffi_blake2sp_update
#[inline(never)]
unsafe fn exported_blake2sp_update(mut v0: u64, mut v1: u64, mut v2: u64) -> u32 {
 let mut v4: u32;
 let mut v5: u64;
 let mut v6: u64;
 let mut v7: u64;
 'l1: loop {
 'l2: loop {
 'l3: loop {
 v4 = 0xffffffff;
 if load64(v0.plus(1528)).minus(1) > 31 { break 'l1; }
 v5 = load64(v0.plus(264));
 if v5 > 960 { break 'l1; }
 v6 = load64(v0.plus(256));
 if v6 > ((!v5) >> 3) { break 'l1; }
 v7 = load64(v0.plus(1520));
 if v7 > 512 { break 'l1; }
 if v2 > (!(v6 << 3).plus(v5)) { break 'l1; }
 v1 = v1.plus(if v1 == 0 { 4096_u64 } else { 0 });
 if v6 != 0 { break 'l3; }
 if v7 == 0 { break 'l3; }
 ffi_blake2sp_update_scrubbed(v0, v1, v2);
 break 'l2;
 }
 parallel_blake2sp_State_update(v0, v1, v2);
 break 'l2; }
 v4 = 0;
 break 'l1; }
 return v4;
}

// blake2_ffi::blake2sp::finalize
#[inline(never)]
unsafe fn ffi_blake2sp_finalize(mut v0: u64, mut v1: u64) {
 let mut v2: u64;
 let mut v3: u64;
 let mut frame = [0_u64; 6];
 let top = (address!(frame)).plus(48) & !15;
 v2 = top.minus(32);
 fill(v2, 0, 32);
 parallel_blake2sp_State_output(v2, v0);
 'l2: loop {
 v3 = load64(v0.plus(1528));
 if v3 == 0 { break 'l2; }
 copy(v1, v2, v3);
 break 'l2; }
 fill(v0, 0, 1600);
 return;
}

// rattle::export vulfsjor_ffi_blake2sp_final
#[inline(never)]
unsafe fn exported_blake2sp_final(mut v0: u64, mut v1: u64, mut v2: u64) -> u32 {
 let mut v4: u32;
 let mut v5: u64;
 let mut v6: u64;
 let mut v7: u64;
 v4 = 0xffffffff;
 'l2: loop {
 v5 = load64(v0.plus(1528));
 if v5.minus(1) > 31 { break 'l2; }
 v6 = load64(v0.plus(264));
 if v6 > 960 { break 'l2; }
 v7 = load64(v0.plus(256));
 if v7 > ((!v6) >> 3) { break 'l2; }
 if v2 != v5 { break 'l2; }
 v2 = load64(v0.plus(1520));
 if v2 > 512 { break 'l2; }
 v1 = v1.plus(if v1 == 0 { 4096_u64 } else { 0 });
 'l3: loop {
 if v7 == 0 { break 'l3; }
 ffi_blake2sp_finalize(v0, v1);
 return 0;
 }
 ffi_blake2sp_finalize(v0, v1);
 v4 = 0;
 if v2 == 0 { break 'l2; }
 digest_wiping_scrub_stack_5632();
 break 'l2; }
 return v4;
}

// blake2_ffi::blake2sp::is_digest_of
#[inline(never)]
unsafe fn ffi_blake2sp_is_digest_of(mut v0: u64, mut v1: u64, mut v2: u64) -> u32 {
 let mut v3: u64;
 let mut v4: u64;
 let mut v5: u32;
 let mut v6: u64;
 let mut v7: u64;
 let mut frame = [0_u64; 6];
 let top = (address!(frame)).plus(48) & !15;
 v3 = top.minus(32);
 v4 = v3;
 fill(v4, 0, 32);
 parallel_blake2sp_State_output(v4, v0);
 'l2: loop {
 'l3: loop {
 if v2 == load64(v0.plus(1528)) { break 'l3; }
 v5 = 0;
 break 'l2;
 }
 'l4: loop {
 if !(v2 == 0) { break 'l4; }
 v5 = 1;
 break 'l2;
 }
 v6 = v2 & 3;
 'l5: loop {
 'l6: loop {
 'l7: loop {
 if v2 >= 4 { break 'l7; }
 v0 = 0;
 v5 = 0;
 break 'l6;
 }
 v7 = v2 & 0xfffffffffffffffc;
 v0 = 0;
 v5 = 0;
 'l8: loop {
 v2 = v4.plus(v0);
 v3 = v1.plus(v0);
 v5 = (load8(v2.plus(3)) ^ load8(v3.plus(3))) | ((load8(v2.plus(2)) ^ load8(v3.plus(2))) |
   ((load8(v2.plus(1)) ^ load8(v3.plus(1))) | ((load8(v2) ^ load8(v3)) | v5)));
 v0 = v0.plus(4);
 if v7 != v0 { continue 'l8; }
 break 'l8; }
 if v6 == 0 { break 'l5; }
 break 'l6; }
 v2 = v1.plus(v0);
 v0 = v4.plus(v0);
 'l9: loop {
 v5 = (load8(v0) ^ load8(v2)) | v5;
 v2 = v2.plus(1);
 v0 = v0.plus(1);
 v6 = v6.minus(1);
 if v6 != 0 { continue 'l9; }
 break 'l9; }
 break 'l5; }
 v5 = ((v5 & 255) == 0) as u32;
 break 'l2; }
 return v5;
}

// rattle::export vulfsjor_ffi_blake2sp_verify
#[inline(never)]
unsafe fn exported_blake2sp_verify(mut v0: u64, mut v1: u64, mut v2: u64) -> u32 {
 let mut v4: u32;
 let mut v5: u64;
 let mut v6: u64;
 v4 = 0xffffffff;
 'l2: loop {
 if load64(v0.plus(1528)).minus(1) > 31 { break 'l2; }
 v5 = load64(v0.plus(264));
 if v5 > 960 { break 'l2; }
 v6 = load64(v0.plus(256));
 if v6 > ((!v5) >> 3) { break 'l2; }
 if load64(v0.plus(1520)).minus(513) < 0xfffffffffffffe00 { break 'l2; }
 v4 = ffi_blake2sp_is_digest_of(v0, v1.plus(if v1 == 0 { 4096_u64 } else { 0 }), v2);
 fill(v0, 0, 1600);
 'l3: loop {
 if v6 != 0 { break 'l3; }
 digest_wiping_scrub_stack_5632();
 break 'l3; }
 v4 = v4.minus(1);
 break 'l2; }
 return v4;
}

// blake2_ffi::blake2sp::reset_in_frame
#[inline(never)]
unsafe fn ffi_blake2sp_reset_in_frame(mut v0: u64) {
 let mut v1: u64;
 let mut v2: u64;
 let mut v3: u64;
 let mut v4: u64;
 let mut v5: u64;
 let mut v6: u64;
 let mut v7: u64;
 let mut v8: u64;
 let mut v9: u64;
 let mut v10: u64;
 let mut v11: u64;
 let mut v12: u64;
 let mut v13: u64;
 let mut v14: u64;
 let mut v15: u64;
 let mut v16: u64;
 let mut v17: u64;
 let mut v18: u64;
 let mut v19: u64;
 let mut frame = [0_u64; 218];
 let top = (address!(frame)).plus(1744) & !15;
 v1 = top.minus(1728);
 v2 = v0.plus(1232);
 'l2: loop {
 'l3: loop {
 v3 = load64(v0.plus(1520));
 if v3 != 0 { break 'l3; }
 copy(v1, v2, 256);
 fill(v1.plus(768), 0, 960);
 break 'l2;
 }
 v4 = v0.plus(1592);
 v5 = load64(v4);
 store64(v1 + 312, v5);
 v6 = v0.plus(1584);
 v7 = load64(v6);
 store64(v1 + 304, v7);
 v8 = v0.plus(1576);
 v9 = load64(v8);
 store64(v1 + 296, v9);
 v10 = v0.plus(1568);
 v11 = load64(v10);
 store64(v1 + 288, v11);
 v12 = v0.plus(1560);
 v13 = load64(v12);
 store64(v1 + 280, v13);
 v14 = v0.plus(1552);
 v15 = load64(v14);
 store64(v1 + 272, v15);
 v16 = v0.plus(1544);
 v17 = load64(v16);
 store64(v1 + 264, v17);
 v18 = v0.plus(1536);
 v19 = load64(v18);
 store64(v1 + 256, v19);
 store64(v1 + 320, v19);
 store64(v1 + 328, v17);
 store64(v1 + 336, v15);
 store64(v1 + 344, v13);
 store64(v1 + 352, v11);
 store64(v1 + 360, v9);
 store64(v1 + 368, v7);
 store64(v1 + 376, v5);
 v5 = load64(v4);
 store64(v1 + 440, v5);
 v7 = load64(v6);
 store64(v1 + 432, v7);
 v9 = load64(v8);
 store64(v1 + 424, v9);
 v11 = load64(v10);
 store64(v1 + 416, v11);
 v13 = load64(v12);
 store64(v1 + 408, v13);
 v15 = load64(v14);
 store64(v1 + 400, v15);
 v17 = load64(v16);
 store64(v1 + 392, v17);
 v19 = load64(v18);
 store64(v1 + 384, v19);
 store64(v1 + 504, v5);
 store64(v1 + 496, v7);
 store64(v1 + 488, v9);
 store64(v1 + 480, v11);
 store64(v1 + 472, v13);
 store64(v1 + 464, v15);
 store64(v1 + 456, v17);
 store64(v1 + 448, v19);
 v5 = load64(v4);
 store64(v1 + 568, v5);
 v7 = load64(v6);
 store64(v1 + 560, v7);
 v9 = load64(v8);
 store64(v1 + 552, v9);
 v11 = load64(v10);
 store64(v1 + 544, v11);
 v13 = load64(v12);
 store64(v1 + 536, v13);
 v15 = load64(v14);
 store64(v1 + 528, v15);
 v17 = load64(v16);
 store64(v1 + 520, v17);
 v19 = load64(v18);
 store64(v1 + 512, v19);
 store64(v1 + 624, v7);
 store64(v1 + 632, v5);
 store64(v1 + 616, v9);
 store64(v1 + 608, v11);
 store64(v1 + 600, v13);
 store64(v1 + 592, v15);
 store64(v1 + 584, v17);
 store64(v1 + 576, v19);
 v4 = load64(v4);
 store64(v1 + 696, v4);
 v6 = load64(v6);
 store64(v1 + 688, v6);
 v8 = load64(v8);
 store64(v1 + 680, v8);
 v10 = load64(v10);
 store64(v1 + 672, v10);
 v12 = load64(v12);
 store64(v1 + 664, v12);
 v14 = load64(v14);
 store64(v1 + 656, v14);
 v16 = load64(v16);
 store64(v1 + 648, v16);
 v18 = load64(v18);
 store64(v1 + 640, v18);
 store64(v1 + 744, v8);
 store64(v1 + 760, v4);
 store64(v1 + 752, v6);
 store64(v1 + 736, v10);
 store64(v1 + 728, v12);
 store64(v1 + 720, v14);
 store64(v1 + 712, v16);
 store64(v1 + 704, v18);
 fill(v1.plus(768).plus(512), 0, 448);
 copy(v1.plus(768), v1.plus(256), 512);
 copy(v1, v2, 256);
 break 'l2; }
 copy(v0, v1, 256);
 store64(v0 + 264, v3);
 store64(v0 + 256, 0);
 copy(v0.plus(272), v1.plus(768), 960);
 return;
}

// rattle::export vulfsjor_ffi_blake2sp_reset
#[inline(never)]
unsafe fn exported_blake2sp_reset(mut v0: u64) -> u32 {
 let mut v2: u32;
 let mut v3: u64;
 v2 = 0xffffffff;
 'l2: loop {
 if load64(v0.plus(1528)).minus(1) > 31 { break 'l2; }
 v3 = load64(v0.plus(264));
 if v3 > 960 { break 'l2; }
 if load64(v0.plus(256)) > ((!v3) >> 3) { break 'l2; }
 v3 = load64(v0.plus(1520));
 if v3 > 512 { break 'l2; }
 ffi_blake2sp_reset_in_frame(v0);
 v2 = 0;
 if v3 == 0 { break 'l2; }
 digest_wiping_scrub_stack_1792();
 break 'l2; }
 return v2;
}

// rattle::export vulfsjor_ffi_blake2sp_wipe
#[inline(never)]
unsafe fn exported_blake2sp_wipe(mut v0: u64) {
 'l1: loop {
 break 'l1;
 }
 fill(v0, 0, 1600);
}

// rattle::export vulfsjor_ffi_blake2sp_digest_size
#[inline(never)]
unsafe fn exported_blake2sp_digest_size(mut v0: u64) -> u64 {
 let mut v1: u64;
 let mut v2: u64;
 let mut v3: u64;
 v1 = 0;
 'l2: loop {
 v2 = load64(v0.plus(1528));
 if v2.minus(1) > 31 { break 'l2; }
 v3 = load64(v0.plus(264));
 if v3 > 960 { break 'l2; }
 if load64(v0.plus(256)) > ((!v3) >> 3) { break 'l2; }
 v1 = if load64(v0.plus(1520)) < 513 { v2 } else { 0 };
 break 'l2; }
 return v1;
}

// rattle::export vulfsjor_ffi_blake2sp_count
#[inline(never)]
unsafe fn exported_blake2sp_count(mut v0: u64) -> u64 {
 let mut v1: u64;
 let mut v2: u64;
 let mut v3: u64;
 v1 = 0;
 'l2: loop {
 if load64(v0.plus(1528)).minus(1) > 31 { break 'l2; }
 v2 = load64(v0.plus(264));
 if v2 > 960 { break 'l2; }
 v3 = load64(v0.plus(256));
 if v3 > ((!v2) >> 3) { break 'l2; }
 v0 = load64(v0.plus(1520));
 if v0 > 512 { break 'l2; }
 v1 = (v3 << 3).plus(v2);
 v0 = v1.minus(v0);
 v1 = if v0 > v1 { 0 } else { v0 };
 break 'l2; }
 return v1;
}

// rattle::export vulfsjor_ffi_blake2sp_state_size
#[inline(never)]
unsafe fn exported_blake2sp_state_size() {
 'l1: loop {
 break 'l1;
 }
}

// vulfsjor_ffi_blake2sp_state_size
#[inline(never)]
unsafe fn module_blake2sp_state_size() -> u64 {
 'l1: loop {
 break 'l1;
 }
 exported_blake2sp_state_size();
 return 1600;
}

// blake2_xof::blake2xb::State::squeeze
#[inline(never)]
unsafe fn xof_blake2xb_State_squeeze(mut v0: u64, mut v1: u64, mut v2: u64) {
 let mut v3: u64;
 let mut v4: u64;
 let mut v5: u64;
 let mut v6: u64;
 let mut v7: u64;
 let mut v8: u64;
 let mut v9: u64;
 let mut t0: u64;
 let mut frame = [0_u64; 34];
 let top = (address!(frame)).plus(272) & !15;
 v3 = top.minus(256);
 'l2: loop {
 v4 = v0.plus(456);
 if load64(v4) != 0 { break 'l2; }
 state_blake2b_State_write_digest(v0, v0.plus(344));
 store64(v4, 1);
 break 'l2; }
 'l3: loop {
 if v2 == 0 { break 'l3; }
 v4 = v0.plus(344);
 v5 = load64(v0.plus(448));
 v6 = v3.plus(128).plus(64);
 v7 = 0;
 'l4: loop {
 fill(v6, 0, 64);
 store64(v3 + 88, 0xa54ff53a5f1d36f1);
 store64(v3 + 80, 0x3c6ef372fe94b82b);
 store64(v3 + 128, load64(v4));
 store64(v3 + 136, load64(v4 + 8));
 store64(v3 + 144, load64(v4 + 16));
 store64(v3 + 152, load64(v4 + 24));
 store64(v3 + 160, load64(v4 + 32));
 store64(v3 + 168, load64(v4 + 40));
 store64(v3 + 176, load64(v4 + 48));
 store64(v3 + 184, load64(v4 + 56));
 store64(v3 + 120, load64(v0.plus(432)) ^ 0x5be0cd19137e2179);
 store64(v3 + 112, load64(v0.plus(424)) ^ 0x1f83d9abfb41bd6b);
 store64(v3 + 104, load64(v0.plus(416)) ^ 0x9b05688c2b3e6c1f);
 store64(v3 + 96, load64(v0.plus(408)) ^ 0x510e527fade682d1);
 v8 = load64(v0.plus(440));
 store64(v3 + 72, (v8 << 32).plus(v5 >> 6) ^ 0xbb67ae8584caa73b);
 v8 = if v8 == 0xffffffff { 0x4000000000 } else { v8 };
 v9 = v8.minus(v5 & 0xffffffffffffffc0);
 v8 = if v9 > v8 { 0 } else { v9 };
 store64(v3 + 64, ((if v8 < 64 { v8 } else { 64 }) | 0x4000000000) ^ 0x6a09e667f3bcc908);
 compress_compress_blake2b_compress(v3.plus(64), v3.plus(128), 64, 1, 0);
 store64(v3 + 56, load64(v3 + 120));
 store64(v3 + 48, load64(v3 + 112));
 store64(v3 + 40, load64(v3 + 104));
 store64(v3 + 32, load64(v3 + 96));
 store64(v3 + 24, load64(v3 + 88));
 store64(v3 + 16, load64(v3 + 80));
 store64(v3 + 8, load64(v3 + 72));
 store64(v3, load64(v3 + 64));
 'l5: loop {
 v9 = v5 & 63;
 v5 = 64_u64.minus(v9);
 v8 = v2.minus(v7);
 v8 = if v5 < v8 { v5 } else { v8 };
 if v8 == 0 { break 'l5; }
 copy(v1.plus(v7), v3.plus(v9), v8);
 break 'l5; }
 v5 = v0.plus(448);
 t0 = v5;
 v5 = load64(v5).plus(v8);
 store64(t0, v5);
 v7 = v8.plus(v7);
 if v7 < v2 { continue 'l4; }
 break 'l4; }
 break 'l3; }
 return;
}

// blake2_ffi::blake2xb::write
#[inline(never)]
unsafe fn ffi_blake2xb_write(mut v0: u64, mut v1: u64, mut v2: u64, mut v3: u64, mut v4: u64, mut
        v5: u64) -> u32 {
 let mut v6: u64;
 let mut v7: u32;
 let mut v8: u32;
 let mut v9: u32;
 let mut v10: u32;
 let mut v11: u64;
 let mut v12: u64;
 let mut v13: u64;
 let mut frame = [0_u64; 100];
 let top = (address!(frame)).plus(800) & !15;
 v6 = top.minus(784);
 v7 = 0xffffffff;
 'l2: loop {
 if v1 >= 0xffffffff { break 'l2; }
 if v1 == 0 { break 'l2; }
 if v5 > 64 { break 'l2; }
 v8 = ((v1 >> 16) & 0xffff) as u32;
 v9 = v1 as u32;
 'l3: loop {
 'l4: loop {
 if v5 != 0 { break 'l4; }
 v10 = 0;
 fill(v6.plus(528), 0, 128);
 fill(v6 + 464, 0, 64);
 v4 = ((((v9 & 0xffff) | (v8 << 16)) as u64) << 32) ^ 0xbb67ae8584caa73b;
 v11 = 0xa54ff53a5f1d36f1;
 v12 = 0x3c6ef372fe94f82b;
 v13 = 0x6a09e667f2bdc948;
 break 'l3;
 }
 'l5: loop {
 v11 = if v5 > 63 { 0 } else { 64_u64.minus(v5) };
 if v11 == 0 { break 'l5; }
 fill(v6.plus(464).plus(v5), 0, v11);
 break 'l5; }
 'l6: loop {
 if v5 == 0 { break 'l6; }
 copy(v6.plus(464), v4, v5);
 break 'l6; }
 fill(v6 + 592, 0, 64);
 store64(v6 + 528, load64(v6 + 464));
 store64(v6 + 536, load64(v6 + 472));
 store64(v6 + 544, load64(v6 + 480));
 store64(v6 + 552, load64(v6 + 488));
 store64(v6 + 560, load64(v6 + 496));
 store64(v6 + 568, load64(v6 + 504));
 store64(v6 + 576, load64(v6 + 512));
 store64(v6 + 584, load64(v6 + 520));
 v4 = ((((v9 & 0xffff) | (v8 << 16)) as u64) << 32) ^ 0xbb67ae8584caa73b;
 v13 = ((((v5 as u32) << 8) | 0x1010040) as u64) ^ 0x6a09e667f3bcc908;
 v10 = 128;
 v11 = 0xa54ff53a5f1d36f1;
 v12 = 0x3c6ef372fe94f82b;
 break 'l3; }
 fill(v6 + 688, 0, 96);
 store64(v6, v13);
 store64(v6 + 8, v4);
 store64(v6 + 16, v12);
 store64(v6 + 24, v11);
 store64(v6 + 32, 0x510e527fade682d1);
 store64(v6 + 40, 0x9b05688c2b3e6c1f);
 store64(v6 + 48, 0x1f83d9abfb41bd6b);
 store64(v6 + 56, 0x5be0cd19137e2179);
 store64(v6 + 64, v13);
 store64(v6 + 72, v4);
 store64(v6 + 80, v12);
 store64(v6 + 88, v11);
 store64(v6 + 96, 0x510e527fade682d1);
 store64(v6 + 104, 0x9b05688c2b3e6c1f);
 store64(v6 + 112, 0x1f83d9abfb41bd6b);
 store64(v6 + 120, 0x5be0cd19137e2179);
 store64(v6 + 128, 0);
 store32(v6 + 136, v10 as u64);
 store32(v6 + 140, v10 as u64);
 store64(v6 + 144, 64);
 v4 = v6.plus(152);
 copy(v4, v6.plus(528), 128);
 store64(v6 + 336, load64(v6 + 520));
 store64(v6 + 328, load64(v6 + 512));
 store64(v6 + 320, load64(v6 + 504));
 store64(v6 + 312, load64(v6 + 496));
 store64(v6 + 304, load64(v6 + 488));
 store64(v6 + 296, load64(v6 + 480));
 store64(v6 + 288, load64(v6 + 472));
 store64(v6 + 280, load64(v6 + 464));
 copy(v6.plus(344), v6.plus(688), 96);
 store64(v6 + 448, 0);
 store64(v6 + 440, v1);
 store64(v6 + 456, 0);
 v11 = v10 as u64;
 if v3 > (!v11) { break 'l2; }
 'l7: loop {
 'l8: loop {
 if v3 == 1 { break 'l8; }
 state_blake2b_State_absorb_blocks(v6, v2, v3);
 break 'l7;
 }
 'l9: loop {
 if v5 == 0 { break 'l9; }
 state_blake2b_State_absorb_blocks(v6, v2, 1);
 break 'l7;
 }
 store8(v4.plus(v11), load8(v2) as u64);
 store32(v6 + 136, (v10 | 1) as u64);
 break 'l7; }
 xof_blake2xb_State_squeeze(v6, v0, v1);
 v7 = 0;
 break 'l2; }
 return v7;
}

// Overwrites the stack below the caller.
#[inline(never)]
unsafe fn digest_wiping_scrub_stack_7168() {
    let mut room = [0_u64; 1152];
    for word in room.iter_mut() {
        core::ptr::write_volatile(word, 0);
    }
}

// rattle::export vulfsjor_ffi_blake2xb
#[inline(never)]
unsafe fn exported_blake2xb(mut v0: u64, mut v1: u64, mut v2: u64, mut v3: u64, mut v4: u64, mut v5:
        u64) -> u32 {
 let mut v7: u32;
 v7 = ffi_blake2xb_write(v0.plus(if v0 == 0 { 4096_u64 } else { 0 }), v1, v2.plus(if v2 == 0 {
   4096_u64 } else { 0 }), v3, v4.plus(if v4 == 0 { 4096_u64 } else { 0 }), v5);
 'l2: loop {
 if v5 == 0 { break 'l2; }
 digest_wiping_scrub_stack_7168();
 break 'l2; }
 return v7;
}

// rattle::export vulfsjor_ffi_blake2xb_derive_key
#[inline(never)]
unsafe fn exported_blake2xb_derive_key(mut v0: u64, mut v1: u64, mut v2: u64, mut v3: u64, mut v4:
        u64, mut v5: u64) -> u32 {
 let mut v7: u32;
 'l1: loop {
 if !(v3 == 0) { break 'l1; }
 return 0xffffffff;
 }
 v7 = ffi_blake2xb_write(v0.plus(if v0 == 0 { 4096_u64 } else { 0 }), v1, v4.plus(if v4 == 0 {
   4096_u64 } else { 0 }), v5, v2.plus(if v2 == 0 { 4096_u64 } else { 0 }), v3);
 digest_wiping_scrub_stack_7168();
 return v7;
}

// blake2_ffi::blake2xb::initialize
#[inline(never)]
unsafe fn ffi_blake2xb_initialize(mut v0: u64, mut v1: u64, mut v2: u64, mut v3: u64, mut v4: u64,
        mut v5: u64, mut v6: u64, mut v7: u64) -> u32 {
 let mut v8: u64;
 let mut v10: u32;
 let mut v11: u32;
 let mut v12: u64;
 let mut v13: u64;
 let mut v14: u64;
 let mut v15: u32;
 let mut v16: u64;
 let mut v17: u64;
 let mut v18: u64;
 let mut frame = [0_u64; 50];
 let top = (address!(frame)).plus(400) & !15;
 v8 = top;
 v8 = v8.minus(352) & 0xffffffffffffffe0;
 'l2: loop {
 if v1.minus(1) > 0xfffffffe { break 'l2; }
 if v3 > 64 { break 'l2; }
 if v5 > 16 { break 'l2; }
 if v7 > 16 { break 'l2; }
 v10 = ((v1 >> 16) & 0xffff) as u32;
 v11 = v1 as u32;
 'l3: loop {
 'l4: loop {
 if v3 != 0 { break 'l4; }
 fill(v8 + 192, 0, 32);
 'l5: loop {
 if v5 == 0 { break 'l5; }
 copy(v8.plus(192), v4, v5);
 break 'l5; }
 'l6: loop {
 if v7 == 0 { break 'l6; }
 copy(v8.plus(192) | 16, v6, v7);
 break 'l6; }
 v3 = load64(v8 + 192);
 v12 = load64(v8 + 200);
 v13 = load64(v8 + 208);
 v14 = load64(v8 + 216);
 v15 = 0;
 fill(v8.plus(64), 0, 128);
 fill(v8, 0, 64);
 v2 = ((((v11 & 0xffff) | (v10 << 16)) as u64) << 32) ^ 0xbb67ae8584caa73b;
 v14 ^= 0x5be0cd19137e2179;
 v13 ^= 0x1f83d9abfb41bd6b;
 v12 ^= 0x9b05688c2b3e6c1f;
 v16 = v3 ^ 0x510e527fade682d1;
 v3 = 0xa54ff53a5f1d36f1;
 v17 = 0x3c6ef372fe94f82b;
 v18 = 0x6a09e667f2bdc948;
 break 'l3;
 }
 fill(v8 + 192, 0, 32);
 'l7: loop {
 if v5 == 0 { break 'l7; }
 copy(v8.plus(192), v4, v5);
 break 'l7; }
 'l8: loop {
 if v7 == 0 { break 'l8; }
 copy(v8.plus(192) | 16, v6, v7);
 break 'l8; }
 v16 = load64(v8 + 192);
 v12 = load64(v8 + 200);
 v13 = load64(v8 + 208);
 v14 = load64(v8 + 216);
 'l9: loop {
 v17 = if v3 > 63 { 0 } else { 64_u64.minus(v3) };
 if v17 == 0 { break 'l9; }
 fill(v8.plus(v3), 0, v17);
 break 'l9; }
 'l10: loop {
 if v3 == 0 { break 'l10; }
 copy(v8, v2, v3);
 break 'l10; }
 fill(v8 + 128, 0, 64);
 store64(v8 + 64, load64(v8));
 store64(v8 + 72, load64(v8 + 8));
 store64(v8 + 80, load64(v8 + 16));
 store64(v8 + 88, load64(v8 + 24));
 store64(v8 + 96, load64(v8 + 32));
 store64(v8 + 104, load64(v8 + 40));
 store64(v8 + 112, load64(v8 + 48));
 store64(v8 + 120, load64(v8 + 56));
 v2 = ((((v11 & 0xffff) | (v10 << 16)) as u64) << 32) ^ 0xbb67ae8584caa73b;
 v14 ^= 0x5be0cd19137e2179;
 v13 ^= 0x1f83d9abfb41bd6b;
 v12 ^= 0x9b05688c2b3e6c1f;
 v16 ^= 0x510e527fade682d1;
 v18 = ((((v3 as u32) << 8) | 0x1010040) as u64) ^ 0x6a09e667f3bcc908;
 v15 = 128;
 v3 = 0xa54ff53a5f1d36f1;
 v17 = 0x3c6ef372fe94f82b;
 break 'l3; }
 fill(v8 + 320, 0, 16);
 'l11: loop {
 if v5 == 0 { break 'l11; }
 copy(v8.plus(320), v4, v5);
 break 'l11; }
 store64(v8 + 200, load64(v8 + 328));
 store64(v8 + 192, load64(v8 + 320));
 fill(v8 + 336, 0, 16);
 'l12: loop {
 if v7 == 0 { break 'l12; }
 copy(v8.plus(336), v6, v7);
 break 'l12; }
 v5 = load64(v8 + 336);
 store64(v8 + 320, v5);
 fill(v8 + 224, 0, 64);
 store64(v8 + 208, v5);
 store64(v8 + 312, load64(v8 + 344));
 store64(v8 + 304, v5);
 store64(v8 + 296, load64(v8 + 200));
 store64(v8 + 288, load64(v8 + 192));
 store64(v0 + 144, 64);
 store32(v0 + 140, v15 as u64);
 store32(v0 + 136, v15 as u64);
 store64(v0 + 128, 0);
 store64(v0 + 120, v14);
 store64(v0 + 112, v13);
 store64(v0 + 104, v12);
 store64(v0 + 96, v16);
 store64(v0 + 88, v3);
 store64(v0 + 80, v17);
 store64(v0 + 72, v2);
 store64(v0 + 64, v18);
 store64(v0 + 56, v14);
 store64(v0 + 48, v13);
 store64(v0 + 40, v12);
 store64(v0 + 32, v16);
 store64(v0 + 24, v3);
 store64(v0 + 16, v17);
 store64(v0 + 8, v2);
 store64(v0, v18);
 copy(v0.plus(152), v8.plus(64), 128);
 store64(v0 + 336, load64(v8 + 56));
 store64(v0 + 328, load64(v8 + 48));
 store64(v0 + 320, load64(v8 + 40));
 store64(v0 + 312, load64(v8 + 32));
 store64(v0 + 304, load64(v8 + 24));
 store64(v0 + 296, load64(v8 + 16));
 store64(v0 + 288, load64(v8 + 8));
 store64(v0 + 280, load64(v8));
 copy(v0.plus(344), v8.plus(224), 96);
 store64(v0 + 448, 0);
 store64(v0 + 440, v1);
 store64(v0 + 456, 0);
 return 0;
 }
 fill(v0, 0, 464);
 return 0xffffffff;
}

// Overwrites the stack below the caller.
#[inline(never)]
unsafe fn digest_wiping_scrub_stack_2304() {
    let mut room = [0_u64; 544];
    for word in room.iter_mut() {
        core::ptr::write_volatile(word, 0);
    }
}

// rattle::export vulfsjor_ffi_blake2xb_init_salt_personal
#[inline(never)]
unsafe fn exported_blake2xb_init_salt_personal(mut v0: u64, mut v1: u64, mut v2: u64, mut v3: u64,
        mut v4: u64, mut v5: u64, mut v6: u64, mut v7: u64) -> u32 {
 let mut v9: u32;
 v9 = ffi_blake2xb_initialize(v0, v1, v2.plus(if v2 == 0 { 4096_u64 } else { 0 }), v3, v4.plus(if v4
   == 0 { 4096_u64 } else { 0 }), v5, v6.plus(if v6 == 0 { 4096_u64 } else { 0 }), v7);
 'l2: loop {
 if v3 == 0 { break 'l2; }
 digest_wiping_scrub_stack_2304();
 break 'l2; }
 return v9;
}

// blake2_ffi::blake2xb::update_in_frame
#[inline(never)]
unsafe fn ffi_blake2xb_update_in_frame(mut v0: u64, mut v1: u64, mut v2: u64) {
 let mut v4: u32;
 let mut v5: u32;
 'l2: loop {
 if v2 == 1 { break 'l2; }
 state_blake2b_State_absorb_blocks(v0, v1, v2);
 return;
 }
 'l3: loop {
 v2 = v0.plus(136);
 v4 = load32(v2);
 if v4 < 128 { break 'l3; }
 state_blake2b_State_absorb_blocks(v0, v1, 1);
 return;
 }
 v5 = load8(v1);
 store32(v2, v4.plus(1) as u64);
 store8(v0.plus(v4 as u64).plus(152), v5 as u64);
 return;
}

// rattle::export vulfsjor_ffi_blake2xb_update
#[inline(never)]
unsafe fn exported_blake2xb_update(mut v0: u64, mut v1: u64, mut v2: u64) -> u32 {
 let mut v4: u32;
 let mut v5: u32;
 let mut v6: u32;
 let mut v7: u32;
 let mut v8: u64;
 let mut v9: u64;
 let mut v10: u64;
 v4 = 0xffffffff;
 'l2: loop {
 v5 = load32(v0.plus(144));
 if v5.minus(1) > 63 { break 'l2; }
 v6 = load32(v0.plus(136));
 if v6 > 128 { break 'l2; }
 v7 = load32(v0.plus(140));
 if v7 > 128 { break 'l2; }
 v4 = 0xffffffff;
 if v5 != 64 { break 'l2; }
 v8 = load64(v0.plus(128));
 if v8 > sign64((!v6) as u64, 0x80000000) { break 'l2; }
 v9 = load64(v0.plus(440));
 if v9.minus(1) > 0xfffffffe { break 'l2; }
 v10 = load64(v0.plus(448));
 if v10 > (if v9 == 0xffffffff { 0x4000000000 } else { v9 }) { break 'l2; }
 if (load64(v0.plus(456)) | v10) != 0 { break 'l2; }
 if v2 > (!v8.plus(v6 as u64)) { break 'l2; }
 v1 = v1.plus(if v1 == 0 { 4096_u64 } else { 0 });
 'l3: loop {
 if v8 == 0 { break 'l3; }
 ffi_blake2xb_update_in_frame(v0, v1, v2);
 return 0;
 }
 ffi_blake2xb_update_in_frame(v0, v1, v2);
 v4 = 0;
 if v7 == 0 { break 'l2; }
 digest_wiping_scrub_stack_3072();
 break 'l2; }
 return v4;
}

// blake2_ffi::blake2xb::read
#[inline(never)]
unsafe fn ffi_blake2xb_read(mut v0: u64, mut v1: u64, mut v2: u64) {
 xof_blake2xb_State_squeeze(v0, v1, v2);
 return;
}

// Overwrites the stack below the caller.
#[inline(never)]
unsafe fn digest_wiping_scrub_stack_4096() {
    let mut room = [0_u64; 768];
    for word in room.iter_mut() {
        core::ptr::write_volatile(word, 0);
    }
}

// rattle::export vulfsjor_ffi_blake2xb_squeeze
#[inline(never)]
unsafe fn exported_blake2xb_squeeze(mut v0: u64, mut v1: u64, mut v2: u64) -> u32 {
 let mut v4: u32;
 let mut v5: u32;
 let mut v6: u32;
 let mut v7: u32;
 let mut v8: u64;
 let mut v9: u64;
 v4 = 0xffffffff;
 'l2: loop {
 v5 = load32(v0.plus(144));
 if v5.minus(1) > 63 { break 'l2; }
 v6 = load32(v0.plus(136));
 if v6 > 128 { break 'l2; }
 v7 = load32(v0.plus(140));
 if v7 > 128 { break 'l2; }
 v4 = 0xffffffff;
 if v5 != 64 { break 'l2; }
 if load64(v0.plus(128)) > sign64((!v6) as u64, 0x80000000) { break 'l2; }
 v8 = load64(v0.plus(440));
 if v8.minus(1) > 0xfffffffe { break 'l2; }
 v8 = if v8 == 0xffffffff { 0x4000000000 } else { v8 };
 v9 = load64(v0.plus(448));
 if v8 < v9 { break 'l2; }
 if v8.minus(v9) < v2 { break 'l2; }
 ffi_blake2xb_read(v0, v1.plus(if v1 == 0 { 4096_u64 } else { 0 }), v2);
 v4 = 0;
 if v7 == 0 { break 'l2; }
 digest_wiping_scrub_stack_4096();
 break 'l2; }
 return v4;
}

// blake2_ffi::blake2xb::reset_in_frame
#[inline(never)]
unsafe fn ffi_blake2xb_reset_in_frame(mut v0: u64) {
 let mut v1: u32;
 store64(v0.plus(128), 0);
 store64(v0 + 56, load64(v0.plus(120)));
 store64(v0 + 48, load64(v0.plus(112)));
 store64(v0 + 40, load64(v0.plus(104)));
 store64(v0 + 32, load64(v0.plus(96)));
 store64(v0 + 24, load64(v0.plus(88)));
 store64(v0 + 16, load64(v0.plus(80)));
 store64(v0 + 8, load64(v0.plus(72)));
 store64(v0, load64(v0.plus(64)));
 v1 = load32(v0.plus(140));
 store64(v0.plus(272), 0);
 store32(v0.plus(136), v1 as u64);
 store64(v0.plus(264), 0);
 store64(v0.plus(256), 0);
 store64(v0.plus(248), 0);
 store64(v0.plus(240), 0);
 store64(v0.plus(232), 0);
 store64(v0.plus(224), 0);
 store64(v0.plus(216), 0);
 store64(v0.plus(208), load64(v0.plus(336)));
 store64(v0.plus(200), load64(v0.plus(328)));
 store64(v0.plus(192), load64(v0.plus(320)));
 store64(v0.plus(184), load64(v0.plus(312)));
 store64(v0.plus(176), load64(v0.plus(304)));
 store64(v0.plus(168), load64(v0.plus(296)));
 store64(v0.plus(160), load64(v0.plus(288)));
 store64(v0.plus(152), load64(v0.plus(280)));
 store64(v0.plus(400), 0);
 store64(v0.plus(392), 0);
 store64(v0.plus(384), 0);
 store64(v0.plus(376), 0);
 store64(v0.plus(368), 0);
 store64(v0.plus(360), 0);
 store64(v0.plus(352), 0);
 store64(v0.plus(344), 0);
 store64(v0.plus(456), 0);
 store64(v0.plus(448), 0);
 return;
}

// rattle::export vulfsjor_ffi_blake2xb_reset
#[inline(never)]
unsafe fn exported_blake2xb_reset(mut v0: u64) -> u32 {
 let mut v2: u32;
 let mut v3: u32;
 let mut v4: u32;
 let mut v5: u32;
 let mut v6: u64;
 v2 = 0xffffffff;
 'l2: loop {
 v3 = load32(v0.plus(144));
 if v3.minus(1) > 63 { break 'l2; }
 v4 = load32(v0.plus(136));
 if v4 > 128 { break 'l2; }
 v5 = load32(v0.plus(140));
 if v5 > 128 { break 'l2; }
 v2 = 0xffffffff;
 if v3 != 64 { break 'l2; }
 if load64(v0.plus(128)) > sign64((!v4) as u64, 0x80000000) { break 'l2; }
 v6 = load64(v0.plus(440));
 if v6.minus(1) > 0xfffffffe { break 'l2; }
 if load64(v0.plus(448)) > (if v6 == 0xffffffff { 0x4000000000 } else { v6 }) { break 'l2; }
 ffi_blake2xb_reset_in_frame(v0);
 v2 = 0;
 if v5 == 0 { break 'l2; }
 digest_wiping_scrub_stack_1792();
 break 'l2; }
 return v2;
}

// rattle::export vulfsjor_ffi_blake2xb_wipe
#[inline(never)]
unsafe fn exported_blake2xb_wipe(mut v0: u64) {
 'l1: loop {
 break 'l1;
 }
 fill(v0, 0, 464);
}

// rattle::export vulfsjor_ffi_blake2xb_left
#[inline(never)]
unsafe fn exported_blake2xb_left(mut v0: u64) -> u64 {
 let mut v1: u64;
 let mut v2: u32;
 let mut v3: u32;
 let mut v4: u64;
 v1 = 0;
 'l2: loop {
 v2 = load32(v0.plus(144));
 if v2.minus(1) > 63 { break 'l2; }
 v3 = load32(v0.plus(136));
 if v3 > 128 { break 'l2; }
 if load32(v0.plus(140)) > 128 { break 'l2; }
 if v2 != 64 { break 'l2; }
 if load64(v0.plus(128)) > sign64((!v3) as u64, 0x80000000) { break 'l2; }
 v4 = load64(v0.plus(440));
 if v4.minus(1) > 0xfffffffe { break 'l2; }
 v1 = if v4 == 0xffffffff { 0x4000000000 } else { v4 };
 v0 = v1.minus(load64(v0.plus(448)));
 v1 = if v0 > v1 { 0 } else { v0 };
 break 'l2; }
 return v1;
}

// rattle::export vulfsjor_ffi_blake2xb_count
#[inline(never)]
unsafe fn exported_blake2xb_count(mut v0: u64) -> u64 {
 let mut v1: u64;
 let mut v2: u32;
 let mut v3: u32;
 let mut v4: u32;
 let mut v5: u64;
 let mut v6: u64;
 v1 = 0;
 'l2: loop {
 v2 = load32(v0.plus(144));
 if v2.minus(1) > 63 { break 'l2; }
 v3 = load32(v0.plus(136));
 if v3 > 128 { break 'l2; }
 v4 = load32(v0.plus(140));
 if v4 > 128 { break 'l2; }
 if v2 != 64 { break 'l2; }
 v5 = load64(v0.plus(128));
 if v5 > sign64((!v3) as u64, 0x80000000) { break 'l2; }
 v6 = load64(v0.plus(440));
 if v6.minus(1) > 0xfffffffe { break 'l2; }
 if load64(v0.plus(448)) > (if v6 == 0xffffffff { 0x4000000000 } else { v6 }) { break 'l2; }
 v0 = v5.plus(v3 as u64);
 v1 = v0.minus(v4 as u64);
 v1 = if v1 > v0 { 0 } else { v1 };
 break 'l2; }
 return v1;
}

// rattle::export vulfsjor_ffi_blake2xb_state_size
#[inline(never)]
unsafe fn exported_blake2xb_state_size() {
 'l1: loop {
 break 'l1;
 }
}

// vulfsjor_ffi_blake2xb_state_size
#[inline(never)]
unsafe fn module_blake2xb_state_size() -> u64 {
 'l1: loop {
 break 'l1;
 }
 exported_blake2xb_state_size();
 return 464;
}

// blake2_xof::blake2xs::State::squeeze
#[inline(never)]
unsafe fn xof_blake2xs_State_squeeze(mut v0: u64, mut v1: u64, mut v2: u64) {
 let mut v3: u64;
 let mut v4: u64;
 let mut v5: u64;
 let mut v6: u64;
 let mut v7: u64;
 let mut v8: u64;
 let mut v9: u64;
 let mut t0: u64;
 let mut frame = [0_u64; 18];
 let top = (address!(frame)).plus(144) & !15;
 v3 = top.minus(128);
 'l2: loop {
 v4 = v0.plus(240);
 if load64(v4) != 0 { break 'l2; }
 state_blake2s_State_write_digest(v0, v0.plus(176));
 store64(v4, 1);
 break 'l2; }
 'l3: loop {
 if v2 == 0 { break 'l3; }
 v4 = v0.plus(176);
 v5 = load64(v0.plus(232));
 v6 = v3.plus(64).plus(32);
 v7 = 0;
 'l4: loop {
 fill(v6, 0, 32);
 store32(v3 + 36, 0xbb67aea5);
 store64(v3 + 64, load64(v4));
 store64(v3 + 72, load64(v4 + 8));
 store64(v3 + 80, load64(v4 + 16));
 store64(v3 + 88, load64(v4 + 24));
 store32(v3 + 60, (load32(v0.plus(220)) ^ 0x5be0cd19) as u64);
 store32(v3 + 56, (load32(v0.plus(216)) ^ 0x1f83d9ab) as u64);
 store32(v3 + 52, (load32(v0.plus(212)) ^ 0x9b05688c) as u64);
 store32(v3 + 48, (load32(v0.plus(208)) ^ 0x510e527f) as u64);
 v8 = load64(v0.plus(224));
 v9 = (v8 << 32).plus(v5 >> 5);
 store32(v3 + 40, ((v9 as u32) ^ 0x3c6ef372) as u64);
 store32(v3 + 44, (((((v9 >> 32) as u32) & 0xffff) | 0x20000000) ^ 0xa54ff53a) as u64);
 v8 = if v8 == 0xffff { 0x2000000000 } else { v8 };
 v9 = v8.minus(v5 & 0xffffffffffffffe0);
 v8 = if v9 > v8 { 0 } else { v9 };
 store32(v3 + 32, (((if v8 < 32 { v8 } else { 32 }) as u32) ^ 0x6a09e667) as u64);
 compress_compress_blake2s_compress(v3.plus(32), v3.plus(64), 32, 1, 0);
 store64(v3, load64(v3 + 32));
 store64(v3 + 8, load64(v3 + 40));
 store64(v3 + 16, load64(v3 + 48));
 store64(v3 + 24, load64(v3 + 56));
 'l5: loop {
 v9 = v5 & 31;
 v5 = 32_u64.minus(v9);
 v8 = v2.minus(v7);
 v8 = if v5 < v8 { v5 } else { v8 };
 if v8 == 0 { break 'l5; }
 copy(v1.plus(v7), v3.plus(v9), v8);
 break 'l5; }
 v5 = v0.plus(232);
 t0 = v5;
 v5 = load64(v5).plus(v8);
 store64(t0, v5);
 v7 = v8.plus(v7);
 if v7 < v2 { continue 'l4; }
 break 'l4; }
 break 'l3; }
 return;
}

// blake2_ffi::blake2xs::write
#[inline(never)]
unsafe fn ffi_blake2xs_write(mut v0: u64, mut v1: u64, mut v2: u64, mut v3: u64, mut v4: u64, mut
        v5: u64) -> u32 {
 let mut v6: u64;
 let mut v7: u32;
 let mut v8: u64;
 let mut v9: u32;
 let mut v10: u32;
 let mut v11: u32;
 let mut v12: u32;
 let mut v13: u32;
 let mut v14: u64;
 let mut frame = [0_u64; 46];
 let top = (address!(frame)).plus(368) & !15;
 v6 = top.minus(352);
 v7 = 0xffffffff;
 'l2: loop {
 if v1 >= 0xffff { break 'l2; }
 if v1 == 0 { break 'l2; }
 if v5 > 32 { break 'l2; }
 v8 = v1 << 32;
 'l3: loop {
 'l4: loop {
 if v5 != 0 { break 'l4; }
 fill(v6 + 256, 0, 96);
 v9 = (v8 as u32) ^ 0x3c6ef372;
 v10 = (((v8 >> 32) as u32) & 0xffff) ^ 0xa54ff53a;
 v11 = 0;
 v12 = 0xbb67ae85;
 v13 = 0x6b08e647;
 break 'l3;
 }
 'l5: loop {
 v14 = if v5 > 31 { 0 } else { 32_u64.minus(v5) };
 if v14 == 0 { break 'l5; }
 fill(v6.plus(256).plus(v5), 0, v14);
 break 'l5; }
 'l6: loop {
 if v5 == 0 { break 'l6; }
 copy(v6.plus(256), v4, v5);
 break 'l6; }
 fill(v6 + 320, 0, 32);
 store64(v6 + 288, load64(v6 + 256));
 store64(v6 + 296, load64(v6 + 264));
 store64(v6 + 304, load64(v6 + 272));
 store64(v6 + 312, load64(v6 + 280));
 v9 = (v8 as u32) ^ 0x3c6ef372;
 v10 = (((v8 >> 32) as u32) & 0xffff) ^ 0xa54ff53a;
 v13 = (((v5 as u32) << 8) | 0x1010020) ^ 0x6a09e667;
 v11 = 64;
 v12 = 0xbb67ae85;
 break 'l3; }
 store32(v6 + 84, 32);
 store16(v6 + 82, v11 as u64);
 store16(v6 + 80, v11 as u64);
 store64(v6 + 72, 0);
 store64(v6 + 64, 0x5be0cd191f83d9ab);
 store64(v6 + 56, 0x9b05688c510e527f);
 store32(v6 + 52, v10 as u64);
 store32(v6 + 48, v9 as u64);
 store32(v6 + 44, v12 as u64);
 store32(v6 + 40, v13 as u64);
 store64(v6 + 32, 0x5be0cd191f83d9ab);
 store64(v6 + 24, 0x9b05688c510e527f);
 store32(v6 + 20, v10 as u64);
 store32(v6 + 16, v9 as u64);
 store32(v6 + 12, v12 as u64);
 store32(v6 + 8, v13 as u64);
 store64(v6 + 88, load64(v6 + 288));
 store64(v6 + 96, load64(v6 + 296));
 store64(v6 + 104, load64(v6 + 304));
 store64(v6 + 112, load64(v6 + 312));
 store64(v6 + 120, load64(v6 + 320));
 store64(v6 + 128, load64(v6 + 328));
 store64(v6 + 136, load64(v6 + 336));
 store64(v6 + 144, load64(v6 + 344));
 fill(v6 + 184, 0, 48);
 store64(v6 + 240, 0);
 store64(v6 + 232, v1);
 store64(v6 + 248, 0);
 store64(v6 + 176, load64(v6 + 280));
 store64(v6 + 168, load64(v6 + 272));
 store64(v6 + 160, load64(v6 + 264));
 store64(v6 + 152, load64(v6 + 256));
 v4 = v11 as u64;
 if v3 > (!v4) { break 'l2; }
 'l7: loop {
 'l8: loop {
 if v3 == 1 { break 'l8; }
 state_blake2s_State_absorb_blocks(v6.plus(8), v2, v3);
 break 'l7;
 }
 'l9: loop {
 if v5 == 0 { break 'l9; }
 state_blake2s_State_absorb_blocks(v6.plus(8), v2, 1);
 break 'l7;
 }
 store8(v6.plus(88).plus(v4), load8(v2) as u64);
 store16(v6 + 80, (v11 | 1) as u64);
 break 'l7; }
 xof_blake2xs_State_squeeze(v6.plus(8), v0, v1);
 v7 = 0;
 break 'l2; }
 return v7;
}

// rattle::export vulfsjor_ffi_blake2xs
#[inline(never)]
unsafe fn exported_blake2xs(mut v0: u64, mut v1: u64, mut v2: u64, mut v3: u64, mut v4: u64, mut v5:
        u64) -> u32 {
 let mut v7: u32;
 v7 = ffi_blake2xs_write(v0.plus(if v0 == 0 { 4096_u64 } else { 0 }), v1, v2.plus(if v2 == 0 {
   4096_u64 } else { 0 }), v3, v4.plus(if v4 == 0 { 4096_u64 } else { 0 }), v5);
 'l2: loop {
 if v5 == 0 { break 'l2; }
 digest_wiping_scrub_stack_7168();
 break 'l2; }
 return v7;
}

// rattle::export vulfsjor_ffi_blake2xs_derive_key
#[inline(never)]
unsafe fn exported_blake2xs_derive_key(mut v0: u64, mut v1: u64, mut v2: u64, mut v3: u64, mut v4:
        u64, mut v5: u64) -> u32 {
 let mut v7: u32;
 'l1: loop {
 if !(v3 == 0) { break 'l1; }
 return 0xffffffff;
 }
 v7 = ffi_blake2xs_write(v0.plus(if v0 == 0 { 4096_u64 } else { 0 }), v1, v4.plus(if v4 == 0 {
   4096_u64 } else { 0 }), v5, v2.plus(if v2 == 0 { 4096_u64 } else { 0 }), v3);
 digest_wiping_scrub_stack_7168();
 return v7;
}

// blake2_ffi::blake2xs::initialize
#[inline(never)]
unsafe fn ffi_blake2xs_initialize(mut v0: u64, mut v1: u64, mut v2: u64, mut v3: u64, mut v4: u64,
        mut v5: u64, mut v6: u64, mut v7: u64) -> u32 {
 let mut v8: u64;
 let mut v9: u64;
 let mut v10: u32;
 let mut v11: u32;
 let mut v12: u32;
 let mut v13: u32;
 let mut v14: u32;
 let mut v15: u32;
 let mut v16: u32;
 let mut v17: u32;
 let mut v18: u32;
 let mut v19: u64;
 let mut frame = [0_u64; 16];
 let top = (address!(frame)).plus(128) & !15;
 v8 = top.minus(112);
 'l2: loop {
 if v1.minus(1) > 0xfffe { break 'l2; }
 if v3 > 32 { break 'l2; }
 if v5 > 8 { break 'l2; }
 if v7 > 8 { break 'l2; }
 v9 = v1 << 32;
 'l3: loop {
 'l4: loop {
 if v3 != 0 { break 'l4; }
 fill(v8, 0, 16);
 'l5: loop {
 if v5 == 0 { break 'l5; }
 copy(v8, v4, v5);
 break 'l5; }
 'l6: loop {
 if v7 == 0 { break 'l6; }
 copy(v8 | 8, v6, v7);
 break 'l6; }
 fill(v8 + 16, 0, 96);
 v10 = (v9 as u32) ^ 0x3c6ef372;
 v11 = (((v9 >> 32) as u32) & 0xffff) ^ 0xa54ff53a;
 v12 = load32(v8 + 12) ^ 0x5be0cd19;
 v13 = load32(v8 + 8) ^ 0x1f83d9ab;
 v14 = load32(v8 + 4) ^ 0x9b05688c;
 v15 = load32(v8) ^ 0x510e527f;
 v16 = 0;
 v17 = 0xbb67ae85;
 v18 = 0x6b08e647;
 break 'l3;
 }
 fill(v8, 0, 16);
 'l7: loop {
 if v5 == 0 { break 'l7; }
 copy(v8, v4, v5);
 break 'l7; }
 'l8: loop {
 if v7 == 0 { break 'l8; }
 copy(v8 | 8, v6, v7);
 break 'l8; }
 v15 = load32(v8);
 v14 = load32(v8 + 4);
 v13 = load32(v8 + 8);
 v12 = load32(v8 + 12);
 'l9: loop {
 v19 = if v3 > 31 { 0 } else { 32_u64.minus(v3) };
 if v19 == 0 { break 'l9; }
 fill(v8.plus(16).plus(v3), 0, v19);
 break 'l9; }
 'l10: loop {
 if v3 == 0 { break 'l10; }
 copy(v8.plus(16), v2, v3);
 break 'l10; }
 fill(v8 + 80, 0, 32);
 store64(v8 + 48, load64(v8 + 16));
 store64(v8 + 56, load64(v8 + 24));
 store64(v8 + 64, load64(v8 + 32));
 store64(v8 + 72, load64(v8 + 40));
 v10 = (v9 as u32) ^ 0x3c6ef372;
 v11 = (((v9 >> 32) as u32) & 0xffff) ^ 0xa54ff53a;
 v18 = (((v3 as u32) << 8) | 0x1010020) ^ 0x6a09e667;
 v12 ^= 0x5be0cd19;
 v13 ^= 0x1f83d9ab;
 v14 ^= 0x9b05688c;
 v15 ^= 0x510e527f;
 v16 = 64;
 v17 = 0xbb67ae85;
 break 'l3; }
 store64(v8, 0);
 'l11: loop {
 if v5 == 0 { break 'l11; }
 copy(v8, v4, v5);
 break 'l11; }
 v3 = load64(v8);
 store64(v8, 0);
 'l12: loop {
 if v7 == 0 { break 'l12; }
 copy(v8, v6, v7);
 break 'l12; }
 v5 = load64(v8);
 store32(v0 + 76, 32);
 store16(v0 + 74, v16 as u64);
 store16(v0 + 72, v16 as u64);
 store64(v0 + 64, 0);
 store32(v0 + 60, v12 as u64);
 store32(v0 + 56, v13 as u64);
 store32(v0 + 52, v14 as u64);
 store32(v0 + 48, v15 as u64);
 store32(v0 + 44, v11 as u64);
 store32(v0 + 40, v10 as u64);
 store32(v0 + 36, v17 as u64);
 store32(v0 + 32, v18 as u64);
 store32(v0 + 28, v12 as u64);
 store32(v0 + 24, v13 as u64);
 store32(v0 + 20, v14 as u64);
 store32(v0 + 16, v15 as u64);
 store32(v0 + 12, v11 as u64);
 store32(v0 + 8, v10 as u64);
 store32(v0 + 4, v17 as u64);
 store32(v0, v18 as u64);
 store64(v0 + 136, load64(v8 + 104));
 store64(v0 + 128, load64(v8 + 96));
 store64(v0 + 120, load64(v8 + 88));
 store64(v0 + 112, load64(v8 + 80));
 store64(v0 + 104, load64(v8 + 72));
 store64(v0 + 96, load64(v8 + 64));
 store64(v0 + 88, load64(v8 + 56));
 store64(v0 + 80, load64(v8 + 48));
 store64(v0 + 144, load64(v8 + 16));
 store64(v0 + 152, load64(v8 + 24));
 store64(v0 + 160, load64(v8 + 32));
 store64(v0 + 168, load64(v8 + 40));
 fill(v0 + 176, 0, 32);
 store64(v0 + 224, v1);
 store64(v0 + 216, v5);
 store64(v0 + 208, v3);
 fill(v0 + 232, 0, 16);
 return 0;
 }
 fill(v0, 0, 248);
 return 0xffffffff;
}

// rattle::export vulfsjor_ffi_blake2xs_init_salt_personal
#[inline(never)]
unsafe fn exported_blake2xs_init_salt_personal(mut v0: u64, mut v1: u64, mut v2: u64, mut v3: u64,
        mut v4: u64, mut v5: u64, mut v6: u64, mut v7: u64) -> u32 {
 let mut v9: u32;
 v9 = ffi_blake2xs_initialize(v0, v1, v2.plus(if v2 == 0 { 4096_u64 } else { 0 }), v3, v4.plus(if v4
   == 0 { 4096_u64 } else { 0 }), v5, v6.plus(if v6 == 0 { 4096_u64 } else { 0 }), v7);
 'l2: loop {
 if v3 == 0 { break 'l2; }
 digest_wiping_scrub_stack_2304();
 break 'l2; }
 return v9;
}

// blake2_ffi::blake2xs::update_in_frame
#[inline(never)]
unsafe fn ffi_blake2xs_update_in_frame(mut v0: u64, mut v1: u64, mut v2: u64) {
 let mut v4: u32;
 let mut v5: u32;
 'l2: loop {
 if v2 == 1 { break 'l2; }
 state_blake2s_State_absorb_blocks(v0, v1, v2);
 return;
 }
 'l3: loop {
 v2 = v0.plus(72);
 v4 = load16(v2);
 if v4 < 64 { break 'l3; }
 state_blake2s_State_absorb_blocks(v0, v1, 1);
 return;
 }
 v5 = load8(v1);
 store16(v2, v4.plus(1) as u64);
 store8(v0.plus(v4 as u64).plus(80), v5 as u64);
 return;
}

// rattle::export vulfsjor_ffi_blake2xs_update
#[inline(never)]
unsafe fn exported_blake2xs_update(mut v0: u64, mut v1: u64, mut v2: u64) -> u32 {
 let mut v4: u32;
 let mut v5: u32;
 let mut v6: u32;
 let mut v7: u32;
 let mut v8: u64;
 let mut v9: u64;
 let mut v10: u64;
 v4 = 0xffffffff;
 'l2: loop {
 v5 = load16(v0.plus(76));
 if (v5.minus(1) & 0xffff) > 31 { break 'l2; }
 v6 = load16(v0.plus(72));
 if v6 > 64 { break 'l2; }
 v7 = load16(v0.plus(74));
 if v7 > 64 { break 'l2; }
 v4 = 0xffffffff;
 if (v5 & 0xffff) != 32 { break 'l2; }
 v8 = load64(v0.plus(64));
 if v8 > sign64((!v6) as u64, 0x8000) { break 'l2; }
 v9 = load64(v0.plus(224));
 if v9.minus(1) > 0xfffe { break 'l2; }
 v10 = load64(v0.plus(232));
 if v10 > (if v9 == 0xffff { 0x2000000000 } else { v9 }) { break 'l2; }
 if (load64(v0.plus(240)) | v10) != 0 { break 'l2; }
 if v2 > (!v8.plus(v6 as u64)) { break 'l2; }
 v1 = v1.plus(if v1 == 0 { 4096_u64 } else { 0 });
 'l3: loop {
 if v8 == 0 { break 'l3; }
 ffi_blake2xs_update_in_frame(v0, v1, v2);
 return 0;
 }
 ffi_blake2xs_update_in_frame(v0, v1, v2);
 v4 = 0;
 if v7 == 0 { break 'l2; }
 digest_wiping_scrub_stack_3072();
 break 'l2; }
 return v4;
}

// blake2_ffi::blake2xs::read
#[inline(never)]
unsafe fn ffi_blake2xs_read(mut v0: u64, mut v1: u64, mut v2: u64) {
 xof_blake2xs_State_squeeze(v0, v1, v2);
 return;
}

// rattle::export vulfsjor_ffi_blake2xs_squeeze
#[inline(never)]
unsafe fn exported_blake2xs_squeeze(mut v0: u64, mut v1: u64, mut v2: u64) -> u32 {
 let mut v4: u32;
 let mut v5: u32;
 let mut v6: u32;
 let mut v7: u32;
 let mut v8: u64;
 let mut v9: u64;
 v4 = 0xffffffff;
 'l2: loop {
 v5 = load16(v0.plus(76));
 if (v5.minus(1) & 0xffff) > 31 { break 'l2; }
 v6 = load16(v0.plus(72));
 if v6 > 64 { break 'l2; }
 v7 = load16(v0.plus(74));
 if v7 > 64 { break 'l2; }
 v4 = 0xffffffff;
 if (v5 & 0xffff) != 32 { break 'l2; }
 if load64(v0.plus(64)) > sign64((!v6) as u64, 0x8000) { break 'l2; }
 v8 = load64(v0.plus(224));
 if v8.minus(1) > 0xfffe { break 'l2; }
 v8 = if v8 == 0xffff { 0x2000000000 } else { v8 };
 v9 = load64(v0.plus(232));
 if v8 < v9 { break 'l2; }
 if v8.minus(v9) < v2 { break 'l2; }
 ffi_blake2xs_read(v0, v1.plus(if v1 == 0 { 4096_u64 } else { 0 }), v2);
 v4 = 0;
 if v7 == 0 { break 'l2; }
 digest_wiping_scrub_stack_4096();
 break 'l2; }
 return v4;
}

// blake2_ffi::blake2xs::reset_in_frame
#[inline(never)]
unsafe fn ffi_blake2xs_reset_in_frame(mut v0: u64) {
 store64(v0.plus(64), 0);
 store64(v0.plus(112), 0);
 store64(v0.plus(120), 0);
 store64(v0.plus(128), 0);
 store64(v0.plus(136), 0);
 store64(v0 + 24, load64(v0.plus(56)));
 store64(v0 + 16, load64(v0.plus(48)));
 store64(v0 + 8, load64(v0.plus(40)));
 store64(v0, load64(v0.plus(32)));
 store16(v0.plus(72), load16(v0.plus(74)) as u64);
 store64(v0.plus(80), load64(v0.plus(144)));
 store64(v0.plus(88), load64(v0.plus(152)));
 store64(v0.plus(96), load64(v0.plus(160)));
 store64(v0.plus(104), load64(v0.plus(168)));
 store64(v0.plus(200), 0);
 store64(v0.plus(192), 0);
 store64(v0.plus(184), 0);
 store64(v0.plus(176), 0);
 store64(v0.plus(232), 0);
 store64(v0.plus(240), 0);
 return;
}

// rattle::export vulfsjor_ffi_blake2xs_reset
#[inline(never)]
unsafe fn exported_blake2xs_reset(mut v0: u64) -> u32 {
 let mut v2: u32;
 let mut v3: u32;
 let mut v4: u32;
 let mut v5: u32;
 let mut v6: u64;
 v2 = 0xffffffff;
 'l2: loop {
 v3 = load16(v0.plus(76));
 if (v3.minus(1) & 0xffff) > 31 { break 'l2; }
 v4 = load16(v0.plus(72));
 if v4 > 64 { break 'l2; }
 v5 = load16(v0.plus(74));
 if v5 > 64 { break 'l2; }
 v2 = 0xffffffff;
 if (v3 & 0xffff) != 32 { break 'l2; }
 if load64(v0.plus(64)) > sign64((!v4) as u64, 0x8000) { break 'l2; }
 v6 = load64(v0.plus(224));
 if v6.minus(1) > 0xfffe { break 'l2; }
 if load64(v0.plus(232)) > (if v6 == 0xffff { 0x2000000000 } else { v6 }) { break 'l2; }
 ffi_blake2xs_reset_in_frame(v0);
 v2 = 0;
 if v5 == 0 { break 'l2; }
 digest_wiping_scrub_stack_1792();
 break 'l2; }
 return v2;
}

// rattle::export vulfsjor_ffi_blake2xs_wipe
#[inline(never)]
unsafe fn exported_blake2xs_wipe(mut v0: u64) {
 'l1: loop {
 break 'l1;
 }
 fill(v0, 0, 248);
}

// rattle::export vulfsjor_ffi_blake2xs_left
#[inline(never)]
unsafe fn exported_blake2xs_left(mut v0: u64) -> u64 {
 let mut v1: u64;
 let mut v2: u32;
 let mut v3: u32;
 let mut v4: u64;
 v1 = 0;
 'l2: loop {
 v2 = load16(v0.plus(76));
 if (v2.minus(1) & 0xffff) > 31 { break 'l2; }
 v3 = load16(v0.plus(72));
 if v3 > 64 { break 'l2; }
 if load16(v0.plus(74)) > 64 { break 'l2; }
 if (v2 & 0xffff) != 32 { break 'l2; }
 if load64(v0.plus(64)) > sign64((!v3) as u64, 0x8000) { break 'l2; }
 v4 = load64(v0.plus(224));
 if v4.minus(1) > 0xfffe { break 'l2; }
 v1 = if v4 == 0xffff { 0x2000000000 } else { v4 };
 v0 = v1.minus(load64(v0.plus(232)));
 v1 = if v0 > v1 { 0 } else { v0 };
 break 'l2; }
 return v1;
}

// rattle::export vulfsjor_ffi_blake2xs_count
#[inline(never)]
unsafe fn exported_blake2xs_count(mut v0: u64) -> u64 {
 let mut v1: u64;
 let mut v2: u32;
 let mut v3: u32;
 let mut v4: u64;
 let mut v5: u64;
 let mut v6: u64;
 v1 = 0;
 'l2: loop {
 v2 = load16(v0.plus(76));
 if (v2.minus(1) & 0xffff) > 31 { break 'l2; }
 v3 = load16(v0.plus(72));
 if v3 > 64 { break 'l2; }
 v4 = load16(v0.plus(74)) as u64;
 if v4 > 64 { break 'l2; }
 if (v2 & 0xffff) != 32 { break 'l2; }
 v5 = load64(v0.plus(64));
 if v5 > sign64((!v3) as u64, 0x8000) { break 'l2; }
 v6 = load64(v0.plus(224));
 if v6.minus(1) > 0xfffe { break 'l2; }
 if load64(v0.plus(232)) > (if v6 == 0xffff { 0x2000000000 } else { v6 }) { break 'l2; }
 v0 = v5.plus(v3 as u64);
 v1 = v0.minus(v4);
 v1 = if v1 > v0 { 0 } else { v1 };
 break 'l2; }
 return v1;
}

// rattle::export vulfsjor_ffi_blake2xs_state_size
#[inline(never)]
unsafe fn exported_blake2xs_state_size() {
 'l1: loop {
 break 'l1;
 }
}

// vulfsjor_ffi_blake2xs_state_size
#[inline(never)]
unsafe fn module_blake2xs_state_size() -> u64 {
 'l1: loop {
 break 'l1;
 }
 exported_blake2xs_state_size();
 return 248;
}

// blake2_tree::nodes::Nodes::leaf_digest
#[inline(never)]
unsafe fn tree_nodes_Nodes_leaf_digest(mut v0: u64, mut v1: u64, mut v2: u64, mut v3: u32, mut v4:
        u64, mut v5: u64) {
 let mut v6: u64;
 let mut v8: u64;
 let mut v9: u64;
 let mut v10: u64;
 let mut t0: u64;
 let mut frame = [0_u64; 94];
 let top = (address!(frame)).plus(752) & !15;
 v6 = top;
 v6 = v6.minus(704) & 0xffffffffffffffe0;
 v8 = load32(v1.plus(48)) as u64;
 v9 = load64(v1.plus(40));
 v10 = load64(v1.plus(16));
 fill(v6 + 288, 0, 32);
 'l2: loop {
 if v10 == 0 { break 'l2; }
 copy(v6.plus(288), v1, v10);
 break 'l2; }
 'l3: loop {
 if v9 == 0 { break 'l3; }
 copy(v6.plus(288) | 16, v1.plus(24), v9);
 break 'l3; }
 store64(v6 + 96, 0xa54ff53a5f1d36f1);
 store64(v6 + 88, 0x3c6ef372fe94b82b);
 v1 = v2 ^ 0xbb67ae8584caa73b;
 store64(v6 + 80, v1);
 v9 = ((v8 << 32) | 0x2000040) ^ 0x6a09e667f3bcc908;
 store64(v6 + 72, v9);
 store64(v6 + 32, 0xa54ff53a5f1d36f1);
 store64(v6 + 24, 0x3c6ef372fe94b82b);
 store64(v6 + 16, v1);
 store64(v6 + 8, v9);
 v1 = load64(v6 + 312) ^ 0x5be0cd19137e2179;
 store64(v6 + 128, v1);
 v9 = load64(v6 + 304) ^ 0x1f83d9abfb41bd6b;
 store64(v6 + 120, v9);
 v10 = load64(v6 + 296) ^ 0x9b05688c2b3e6c1f;
 store64(v6 + 112, v10);
 v2 = load64(v6 + 288) ^ 0x510e527fade682d1;
 store64(v6 + 104, v2);
 store64(v6 + 64, v1);
 store64(v6 + 56, v9);
 store64(v6 + 48, v10);
 store64(v6 + 40, v2);
 fill(v6.plus(8).plus(128), 0, 152);
 store8(v6 + 144, v3 as u64);
 t0 = digest_buffer_digest_into_33c1e97afcdf8a5d(v6.plus(8).plus(144), 0, v4, v5, v6.plus(8));
 store64(v6 + 280, t0);
 copy(v6.plus(288), v6.plus(8), 280);
 v1 = load64(v6 + 560);
 v10 = load64(v6 + 416).plus(v1);
 store64(v6 + 416, v10);
 fill(v6.plus(576), 0, 128);
 v9 = v6.plus(288).plus(144);
 'l4: loop {
 if v1 == 0 { break 'l4; }
 copy(v6.plus(576), v9, v1);
 break 'l4; }
 fill(v9, 0, 136);
 compress_compress_blake2b_compress(v6.plus(288), v6.plus(576), v10, 1, load8(v6 + 424));
 v1 = load64(v6 + 288);
 v9 = load64(v6 + 296);
 v10 = load64(v6 + 304);
 v5 = load64(v6 + 312);
 v4 = load64(v6 + 320);
 v2 = load64(v6 + 328);
 v8 = load64(v6 + 336);
 store64(v0 + 56, load64(v6 + 344));
 store64(v0 + 48, v8);
 store64(v0 + 40, v2);
 store64(v0 + 32, v4);
 store64(v0 + 24, v5);
 store64(v0 + 16, v10);
 store64(v0 + 8, v9);
 store64(v0, v1);
 return;
}

// blake2_state::tree::TreeState::close_leaf
#[inline(never)]
unsafe fn state_tree_TreeState_close_leaf(mut v0: u64, mut v1: u64, mut v2: u64, mut v3: u64) {
 let mut v4: u64;
 let mut v6: u64;
 let mut v7: u32;
 let mut v8: u64;
 let mut v9: u64;
 let mut v10: u32;
 let mut v11: u64;
 let mut v12: u32;
 let mut v13: u64;
 let mut v14: u64;
 let mut v15: u64;
 let mut v16: u64;
 let mut t0: u64;
 let mut frame = [0_u64; 30];
 let top = (address!(frame)).plus(240) & !15;
 v4 = top;
 v4 = v4.minus(192) & 0xffffffffffffffe0;
 'l2: loop {
 'l3: loop {
 v6 = v1.plus(128);
 v7 = load32(v1.plus(136));
 v8 = v7 as u64;
 v9 = load64(v1.plus(696)).minus(load64(v6).plus(v8));
 if v9 == 1 { break 'l3; }
 state_blake2b_State_absorb_blocks(v1, v2, v9);
 break 'l2;
 }
 'l4: loop {
 if v7 < 128 { break 'l4; }
 state_blake2b_State_absorb_blocks(v1, v2, 1);
 break 'l2;
 }
 v10 = load8(v2);
 store32(v1.plus(136), v7.plus(1) as u64);
 store8(v1.plus(v8).plus(152), v10 as u64);
 break 'l2; }
 fill(v4 + 64, 0, 16);
 v7 = load32(v1.plus(696));
 v8 = load64(v1.plus(712));
 'l5: loop {
 v11 = load64(v1.plus(704));
 v10 = (v11 == 0) as u32;
 if v10 != 0 { break 'l5; }
 copy(v4.plus(64), v1.plus(720), v11);
 break 'l5; }
 fill(v4 + 80, 0, 16);
 'l6: loop {
 v12 = (v8 == 0) as u32;
 if v12 != 0 { break 'l6; }
 copy(v4.plus(80), v1.plus(736), v8);
 break 'l6; }
 v13 = v1.plus(148);
 store32(v13, 0);
 store64(v4 + 24, v11);
 store32(v4 + 60, 0);
 store32(v4 + 56, v7 as u64);
 store64(v4 + 48, v8);
 fill(v4 + 96, 0, 64);
 store64(v4 + 16, load64(v4 + 72));
 store64(v4 + 8, load64(v4 + 64));
 store64(v4 + 32, load64(v4 + 80));
 store64(v4 + 40, load64(v4 + 88));
 state_blake2b_State_write_digest(v1, v4.plus(96));
 state_blake2b_State_absorb_blocks(v1.plus(344), v4.plus(96), 64);
 v14 = v1.plus(688);
 t0 = v14;
 v14 = load64(v14).plus(1);
 store64(t0, v14);
 fill(v4 + 160, 0, 32);
 'l7: loop {
 if v10 != 0 { break 'l7; }
 copy(v4.plus(160), v4.plus(8), v11);
 break 'l7; }
 'l8: loop {
 if v12 != 0 { break 'l8; }
 copy(v4.plus(160) | 16, v4.plus(32), v8);
 break 'l8; }
 v8 = load64(v4 + 160);
 v11 = load64(v4 + 168);
 v15 = load64(v4 + 176);
 v4 = load64(v4 + 184) ^ 0x5be0cd19137e2179;
 store64(v1 + 120, v4);
 v15 ^= 0x1f83d9abfb41bd6b;
 store64(v1 + 112, v15);
 v11 ^= 0x9b05688c2b3e6c1f;
 store64(v1 + 104, v11);
 v8 ^= 0x510e527fade682d1;
 store64(v1 + 96, v8);
 store64(v1 + 88, 0xa54ff53a5f1d36f1);
 store64(v1 + 80, 0x3c6ef372fe94b82b);
 v14 ^= 0xbb67ae8584caa73b;
 store64(v1 + 72, v14);
 v16 = (((v7 as u64) << 32) | 0x2000040) ^ 0x6a09e667f3bcc908;
 store64(v1 + 64, v16);
 store64(v1 + 56, v4);
 store64(v1 + 48, v15);
 store64(v1 + 40, v11);
 store64(v1 + 32, v8);
 store64(v1 + 24, 0xa54ff53a5f1d36f1);
 store64(v1 + 16, 0x3c6ef372fe94b82b);
 store64(v1 + 8, v14);
 store64(v1, v16);
 fill(v6, 0, 16);
 store32(v1 + 144, 64);
 fill(v13, 0, 196);
 store64(v0 + 8, v3.minus(v9));
 store64(v0, v2.plus(v9));
 return;
}

// blake2_state::tree::TreeState::update
#[inline(never)]
unsafe fn state_tree_TreeState_update(mut v0: u64, mut v1: u64, mut v2: u64) {
 let mut v3: u64;
 let mut v5: u64;
 let mut v6: u64;
 let mut v7: u32;
 let mut v8: u64;
 let mut v9: u32;
 let mut v10: u64;
 let mut v11: u64;
 let mut v12: u64;
 let mut v13: u64;
 let mut v14: u64;
 let mut v15: u64;
 let mut v16: u64;
 let mut v17: u64;
 let mut v18: u64;
 let mut v19: u64;
 let mut v20: u64;
 let mut v21: u64;
 let mut v22: u64;
 let mut frame = [0_u64; 102];
 let top = (address!(frame)).plus(816) & !15;
 v3 = top;
 v3 = v3.minus(768) & 0xffffffffffffffe0;
 'l2: loop {
 v5 = v0.plus(696);
 v6 = v0.plus(128);
 v7 = load32(v0.plus(136));
 v8 = v7 as u64;
 if v2 > load64(v5).minus(load64(v6).plus(v8)) { break 'l2; }
 'l3: loop {
 if v2 == 1 { break 'l3; }
 state_blake2b_State_absorb_blocks(v0, v1, v2);
 return;
 }
 'l4: loop {
 if v7 < 128 { break 'l4; }
 state_blake2b_State_absorb_blocks(v0, v1, 1);
 return;
 }
 v9 = load8(v1);
 store32(v0.plus(136), v7.plus(1) as u64);
 store8(v0.plus(v8).plus(152), v9 as u64);
 return;
 }
 state_tree_TreeState_close_leaf(v3.plus(24), v0, v1, v2);
 v8 = load64(v3 + 24);
 'l5: loop {
 v1 = load64(v5);
 v2 = load64(v3 + 32);
 if v1 >= v2 { break 'l5; }
 v10 = v0.plus(148);
 v11 = v0.plus(344);
 v12 = v0.plus(736);
 v13 = v0.plus(720);
 v14 = v3.plus(736) | 16;
 v15 = v3.plus(640).plus(24);
 v16 = v3.plus(104);
 v17 = v3.plus(552).plus(24);
 'l6: loop {
 'l7: loop {
 'l8: loop {
 if (v1 << 2) >= v2 { break 'l8; }
 fill(v3 + 608, 0, 16);
 v18 = v0.plus(712);
 v5 = load64(v18);
 'l9: loop {
 v19 = v0.plus(704);
 v20 = load64(v19);
 if v20 == 0 { break 'l9; }
 copy(v3.plus(608), v13, v20);
 break 'l9; }
 fill(v3 + 624, 0, 16);
 'l10: loop {
 if v5 == 0 { break 'l10; }
 copy(v3.plus(624), v12, v5);
 break 'l10; }
 store64(v17, load64(v3 + 624));
 store64(v17 + 8, load64(v3 + 632));
 store64(v3 + 568, v20);
 store32(v3 + 604, 0);
 store64(v3 + 592, v5);
 store64(v3 + 560, load64(v3 + 616));
 store64(v3 + 552, load64(v3 + 608));
 v20 = v0.plus(688);
 v5 = load64(v20);
 store32(v3 + 600, v1);
 fill(v3 + 640, 0, 64);
 tree_nodes_Nodes_leaf_digest(v3.plus(640), v3.plus(552), v5, 0, v8, v1 & 0xffffffff);
 fill(v16, 0, 448);
 store64(v3 + 96, load64(v3 + 696));
 store64(v3 + 88, load64(v3 + 688));
 store64(v3 + 80, load64(v3 + 680));
 store64(v3 + 72, load64(v3 + 672));
 store64(v3 + 64, load64(v3 + 664));
 store64(v3 + 56, load64(v3 + 656));
 store64(v3 + 48, load64(v3 + 648));
 store64(v3 + 40, load64(v3 + 640));
 v1 = load64(v0.plus(696));
 fill(v3 + 704, 0, 16);
 v5 = load64(v18);
 'l11: loop {
 v18 = load64(v19);
 v7 = (v18 == 0) as u32;
 if v7 != 0 { break 'l11; }
 copy(v3.plus(704), v13, v18);
 break 'l11; }
 fill(v3 + 720, 0, 16);
 'l12: loop {
 v9 = (v5 == 0) as u32;
 if v9 != 0 { break 'l12; }
 copy(v3.plus(720), v12, v5);
 break 'l12; }
 store64(v15, load64(v3 + 720));
 store64(v15 + 8, load64(v3 + 728));
 store64(v3 + 656, v18);
 store32(v3 + 692, 0);
 store32(v3 + 688, v1);
 store64(v3 + 680, v5);
 store64(v3 + 648, load64(v3 + 712));
 store64(v3 + 640, load64(v3 + 704));
 state_blake2b_State_absorb_blocks(v11, v3.plus(40), 64);
 v19 = load64(v20).plus(1);
 store64(v20, v19);
 fill(v3 + 736, 0, 32);
 'l13: loop {
 if v7 != 0 { break 'l13; }
 copy(v3.plus(736), v3.plus(640), v18);
 break 'l13; }
 'l14: loop {
 if v9 != 0 { break 'l14; }
 copy(v14, v15, v5);
 break 'l14; }
 v5 = load64(v3 + 736);
 v20 = load64(v3 + 744);
 v18 = load64(v3 + 752);
 v21 = load64(v3 + 760) ^ 0x5be0cd19137e2179;
 store64(v0 + 120, v21);
 v18 ^= 0x1f83d9abfb41bd6b;
 store64(v0 + 112, v18);
 v20 ^= 0x9b05688c2b3e6c1f;
 store64(v0 + 104, v20);
 v5 ^= 0x510e527fade682d1;
 store64(v0 + 96, v5);
 store64(v0 + 88, 0xa54ff53a5f1d36f1);
 store64(v0 + 80, 0x3c6ef372fe94b82b);
 v19 ^= 0xbb67ae8584caa73b;
 store64(v0 + 72, v19);
 v22 = ((v1 << 32) | 0x2000040) ^ 0x6a09e667f3bcc908;
 store64(v0 + 64, v22);
 store64(v0 + 56, v21);
 store64(v0 + 48, v18);
 store64(v0 + 40, v20);
 store64(v0 + 32, v5);
 store64(v0 + 24, 0xa54ff53a5f1d36f1);
 store64(v0 + 16, 0x3c6ef372fe94b82b);
 store64(v0 + 8, v19);
 store64(v0, v22);
 fill(v6, 0, 16);
 store32(v0 + 144, 64);
 fill(v10, 0, 196);
 v2 = v2.minus(v1);
 v8 = v8.plus(v1);
 break 'l7;
 }
 state_tree_TreeState_close_leaf(v3.plus(8), v0, v8, v2);
 v2 = load64(v3 + 16);
 v8 = load64(v3 + 8);
 break 'l7; }
 v1 = load64(v0.plus(696));
 if v1 < v2 { continue 'l6; }
 break 'l6; }
 break 'l5; }
 'l15: loop {
 if v2 == 1 { break 'l15; }
 state_blake2b_State_absorb_blocks(v0, v8, v2);
 return;
 }
 'l16: loop {
 v3 = v0.plus(136);
 v7 = load32(v3);
 if v7 < 128 { break 'l16; }
 state_blake2b_State_absorb_blocks(v0, v8, 1);
 return;
 }
 v9 = load8(v8);
 store32(v3, v7.plus(1) as u64);
 store8(v0.plus(v7 as u64).plus(152), v9 as u64);
 return;
}

// rattle::export vulfsjor_ffi_tree_root
#[inline(never)]
unsafe fn exported_tree_root(mut v0: u64, mut v1: u64, mut v2: u64, mut v3: u64, mut v4: u64, mut
        v5: u64, mut v6: u64, mut v7: u64, mut v8: u32) -> u32 {
 let mut v9: u64;
 let mut v11: u32;
 let mut v12: u64;
 let mut v13: u64;
 let mut v14: u64;
 let mut v15: u32;
 let mut v16: u64;
 let mut v17: u64;
 let mut v18: u64;
 let mut v19: u64;
 let mut v20: u64;
 let mut v21: u64;
 let mut v22: u64;
 let mut v23: u64;
 let mut v24: u64;
 let mut v25: u32;
 let mut t2: u64;
 let mut t4: u64;
 let mut t8: u64;
 let mut t10: u64;
 let mut frame = [0_u64; 238];
 let top = (address!(frame)).plus(1904) & !15;
 v9 = top;
 v9 = v9.minus(1856) & 0xffffffffffffffe0;
 v11 = 0xffffffff;
 'l2: loop {
 if v3 > 0x3ffffffffffffff { break 'l2; }
 if v1.minus(1) > 63 { break 'l2; }
 if v5 > 16 { break 'l2; }
 if v7 > 16 { break 'l2; }
 if v8 == 0 { break 'l2; }
 v12 = v6.plus(if v6 == 0 { 4096_u64 } else { 0 });
 v13 = v4.plus(if v4 == 0 { 4096_u64 } else { 0 });
 v6 = v2.plus(if v2 == 0 { 4096_u64 } else { 0 });
 v14 = v0.plus(if v0 == 0 { 4096_u64 } else { 0 });
 'l3: loop {
 'l4: loop {
 if v1 == 64 { break 'l4; }
 if v1 != 32 { break 'l3; }
 v4 = 0;
 fill(v9 + 1472, 0, 16);
 'l5: loop {
 v11 = (v5 == 0) as u32;
 if v11 != 0 { break 'l5; }
 copy(v9.plus(1472), v13, v5);
 break 'l5; }
 fill(v9 + 1488, 0, 16);
 'l6: loop {
 v15 = (v7 == 0) as u32;
 if v15 != 0 { break 'l6; }
 copy(v9.plus(1488), v12, v7);
 break 'l6; }
 store64(v9 + 720, v5);
 store32(v9 + 756, 0);
 store32(v9 + 752, v8 as u64);
 store64(v9 + 744, v7);
 store64(v9 + 712, load64(v9 + 1480));
 store64(v9 + 704, load64(v9 + 1472));
 store64(v9 + 728, load64(v9 + 1488));
 store64(v9 + 736, load64(v9 + 1496));
 fill(v9, 0, 32);
 'l7: loop {
 if v11 != 0 { break 'l7; }
 copy(v9, v9.plus(704), v5);
 break 'l7; }
 v16 = v9.plus(728);
 v1 = v9 | 16;
 'l8: loop {
 if v15 != 0 { break 'l8; }
 copy(v1, v16, v7);
 break 'l8; }
 v2 = load64(v9);
 v0 = load64(v9 + 8);
 v12 = load64(v9 + 16);
 v13 = load64(v9 + 24);
 fill(v9, 0, 32);
 'l9: loop {
 if v11 != 0 { break 'l9; }
 copy(v9, v9.plus(704), v5);
 break 'l9; }
 'l10: loop {
 if v15 != 0 { break 'l10; }
 copy(v1, v16, v7);
 break 'l10; }
 v17 = load64(v9);
 v18 = load64(v9 + 8);
 v19 = load64(v9 + 16);
 v20 = load64(v9 + 24);
 v13 ^= 0x5be0cd19137e2179;
 store64(v9 + 888, v13);
 v12 ^= 0x1f83d9abfb41bd6b;
 store64(v9 + 880, v12);
 v0 ^= 0x9b05688c2b3e6c1f;
 store64(v9 + 872, v0);
 v2 ^= 0x510e527fade682d1;
 store64(v9 + 864, v2);
 store64(v9 + 856, 0xa54ff53a5f1d36f1);
 store64(v9 + 848, 0x3c6ef372fe94b82b);
 store64(v9 + 840, 0xbb67ae8584caa73b);
 v1 = v8 as u64;
 v21 = v1 << 32;
 v22 = (v21 | 0x2000040) ^ 0x6a09e667f3bcc908;
 store64(v9 + 832, v22);
 store64(v9 + 824, v13);
 store64(v9 + 816, v12);
 store64(v9 + 808, v0);
 store64(v9 + 800, v2);
 store64(v9 + 792, 0xa54ff53a5f1d36f1);
 store64(v9 + 784, 0x3c6ef372fe94b82b);
 store64(v9 + 776, 0xbb67ae8584caa73b);
 store64(v9 + 768, v22);
 store64(v9 + 712, load64(v9 + 1480));
 store64(v9 + 704, load64(v9 + 1472));
 store64(v9 + 720, v5);
 store64(v9 + 728, load64(v9 + 1488));
 store64(v9 + 736, load64(v9 + 1496));
 fill(v9 + 756, 0, 12);
 store32(v9 + 752, v8 as u64);
 store64(v9 + 744, v7);
 v22 = v9.plus(896);
 fill(v22, 0, 152);
 v5 = v20 ^ 0x5be0cd19137e2179;
 store64(v9 + 1168, v5);
 v7 = v19 ^ 0x1f83d9abfb41bd6b;
 store64(v9 + 1160, v7);
 v2 = v18 ^ 0x9b05688c2b3e6c1f;
 store64(v9 + 1152, v2);
 v0 = v17 ^ 0x510e527fade682d1;
 store64(v9 + 1144, v0);
 store64(v9 + 1136, 0xa54ff53a5f1d36f1);
 store64(v9 + 1128, 0x3c6ef372fe94b82a);
 store64(v9 + 1120, 0xbb67ae8584caa73b);
 v12 = (v21 | 0x2000020) ^ 0x6a09e667f3bcc908;
 store64(v9 + 1112, v12);
 store64(v9 + 1104, v5);
 store64(v9 + 1096, v7);
 store64(v9 + 1088, v2);
 store64(v9 + 1080, v0);
 store64(v9 + 1072, 0xa54ff53a5f1d36f1);
 store64(v9 + 1064, 0x3c6ef372fe94b82a);
 store64(v9 + 1056, 0xbb67ae8584caa73b);
 store64(v9 + 1048, v12);
 fill(v9.plus(1176), 0, 152);
 v13 = v9.plus(1048);
 'l11: loop {
 'l12: loop {
 if (v1 << 2) < v3 { break 'l12; }
 v5 = 0;
 v11 = v8;
 break 'l11;
 }
 v19 = v9.plus(1504) | 16;
 v17 = v9.plus(1192);
 v18 = v9.plus(64);
 v4 = 0;
 v5 = 0;
 'l13: loop {
 fill(v9 + 1504, 0, 64);
 tree_nodes_Nodes_leaf_digest(v9.plus(1504), v9.plus(704), v5, 0, v6, v1);
 fill(v18, 0, 448);
 store64(v9 + 56, load64(v9 + 1560));
 store64(v9 + 48, load64(v9 + 1552));
 store64(v9 + 40, load64(v9 + 1544));
 store64(v9 + 32, load64(v9 + 1536));
 store64(v9 + 24, load64(v9 + 1528));
 store64(v9 + 16, load64(v9 + 1520));
 store64(v9 + 8, load64(v9 + 1512));
 store64(v9, load64(v9 + 1504));
 v4 = digest_buffer_digest_into_33c1e97afcdf8a5d(v17, v4, v9, 64, v13);
 store64(v9 + 1320, v4);
 v5 = load64(v9 + 760).plus(1);
 store64(v9 + 760, v5);
 v11 = load32(v9 + 752);
 v1 = load64(v9 + 744);
 v7 = load64(v9 + 720);
 fill(v9 + 1504, 0, 32);
 'l14: loop {
 if v7 == 0 { break 'l14; }
 copy(v9.plus(1504), v9.plus(704), v7);
 break 'l14; }
 'l15: loop {
 if v1 == 0 { break 'l15; }
 copy(v19, v16, v1);
 break 'l15; }
 store64(v9 + 856, 0xa54ff53a5f1d36f1);
 store64(v9 + 848, 0x3c6ef372fe94b82b);
 v7 = v5 ^ 0xbb67ae8584caa73b;
 store64(v9 + 840, v7);
 v1 = v11 as u64;
 v2 = ((v1 << 32) | 0x2000040) ^ 0x6a09e667f3bcc908;
 store64(v9 + 832, v2);
 store64(v9 + 792, 0xa54ff53a5f1d36f1);
 store64(v9 + 784, 0x3c6ef372fe94b82b);
 store64(v9 + 776, v7);
 store64(v9 + 768, v2);
 v7 = load64(v9 + 1528) ^ 0x5be0cd19137e2179;
 store64(v9 + 888, v7);
 v2 = load64(v9 + 1520) ^ 0x1f83d9abfb41bd6b;
 store64(v9 + 880, v2);
 v0 = load64(v9 + 1512) ^ 0x9b05688c2b3e6c1f;
 store64(v9 + 872, v0);
 v12 = load64(v9 + 1504) ^ 0x510e527fade682d1;
 store64(v9 + 864, v12);
 store64(v9 + 824, v7);
 store64(v9 + 816, v2);
 store64(v9 + 808, v0);
 store64(v9 + 800, v12);
 fill(v22, 0, 152);
 v7 = v8 as u64;
 v6 = v6.plus(v7);
 v8 = v11;
 v3 = v3.minus(v7);
 if (v1 << 2) < v3 { continue 'l13; }
 break 'l13; }
 break 'l11; }
 v17 = v9.plus(704).plus(64);
 v7 = 0;
 'l16: loop {
 if v1 >= v3 { break 'l16; }
 v23 = v9.plus(1504) | 16;
 v24 = v9 | 16;
 v20 = v9.plus(64);
 v18 = v9.plus(1192);
 v19 = v9.plus(144);
 v21 = v9.plus(912);
 v2 = 0;
 v7 = 0;
 v12 = v1;
 'l17: loop {
 'l18: loop {
 'l19: loop {
 if v7 != 0_u64.minus(v2) { break 'l19; }
 if (v12 << 2) >= v3 { break 'l19; }
 v7 = 0;
 fill(v9 + 1504, 0, 64);
 tree_nodes_Nodes_leaf_digest(v9.plus(1504), v9.plus(704), v5, 0, v6, v12);
 fill(v20, 0, 448);
 store64(v9 + 56, load64(v9 + 1560));
 store64(v9 + 48, load64(v9 + 1552));
 store64(v9 + 40, load64(v9 + 1544));
 store64(v9 + 32, load64(v9 + 1536));
 store64(v9 + 24, load64(v9 + 1528));
 store64(v9 + 16, load64(v9 + 1520));
 store64(v9 + 8, load64(v9 + 1512));
 store64(v9, load64(v9 + 1504));
 v4 = digest_buffer_digest_into_33c1e97afcdf8a5d(v18, v4, v9, 64, v13);
 store64(v9 + 1320, v4);
 v5 = load64(v9 + 760).plus(1);
 store64(v9 + 760, v5);
 v8 = load32(v9 + 752);
 v1 = load64(v9 + 744);
 v2 = load64(v9 + 720);
 fill(v9 + 1504, 0, 32);
 'l20: loop {
 if v2 == 0 { break 'l20; }
 copy(v9.plus(1504), v9.plus(704), v2);
 break 'l20; }
 'l21: loop {
 if v1 == 0 { break 'l21; }
 copy(v23, v16, v1);
 break 'l21; }
 store64(v9 + 856, 0xa54ff53a5f1d36f1);
 store64(v9 + 848, 0x3c6ef372fe94b82b);
 v1 = v5 ^ 0xbb67ae8584caa73b;
 store64(v9 + 840, v1);
 v2 = (((v8 as u64) << 32) | 0x2000040) ^ 0x6a09e667f3bcc908;
 store64(v9 + 832, v2);
 store64(v9 + 792, 0xa54ff53a5f1d36f1);
 store64(v9 + 784, 0x3c6ef372fe94b82b);
 store64(v9 + 776, v1);
 store64(v9 + 768, v2);
 v1 = load64(v9 + 1528) ^ 0x5be0cd19137e2179;
 store64(v9 + 888, v1);
 v2 = load64(v9 + 1520) ^ 0x1f83d9abfb41bd6b;
 store64(v9 + 880, v2);
 v0 = load64(v9 + 1512) ^ 0x9b05688c2b3e6c1f;
 store64(v9 + 872, v0);
 v12 = load64(v9 + 1504) ^ 0x510e527fade682d1;
 store64(v9 + 864, v12);
 store64(v9 + 824, v1);
 store64(v9 + 816, v2);
 store64(v9 + 808, v0);
 store64(v9 + 800, v12);
 fill(v22, 0, 152);
 v0 = v11 as u64;
 v11 = v8;
 v2 = 0;
 break 'l18;
 }
 t2 = digest_buffer_digest_into_33c1e97afcdf8a5d(v21, v7, v6, v1, v17);
 store64(v9 + 1040, t2);
 v4 = load32(v9 + 752) as u64;
 v2 = load64(v9 + 760);
 v5 = load64(v9 + 744);
 v7 = load64(v9 + 720);
 fill(v9, 0, 32);
 'l22: loop {
 if v7 == 0 { break 'l22; }
 copy(v9, v9.plus(704), v7);
 break 'l22; }
 'l23: loop {
 if v5 == 0 { break 'l23; }
 copy(v24, v16, v5);
 break 'l23; }
 v5 = load64(v9);
 v7 = load64(v9 + 8);
 v0 = load64(v9 + 16);
 v12 = load64(v9 + 24);
 copy(v9, v17, 280);
 v12 ^= 0x5be0cd19137e2179;
 store64(v9 + 888, v12);
 v0 ^= 0x1f83d9abfb41bd6b;
 store64(v9 + 880, v0);
 v7 ^= 0x9b05688c2b3e6c1f;
 store64(v9 + 872, v7);
 v5 ^= 0x510e527fade682d1;
 store64(v9 + 864, v5);
 store64(v9 + 856, 0xa54ff53a5f1d36f1);
 store64(v9 + 848, 0x3c6ef372fe94b82b);
 v2 = v2.plus(1) ^ 0xbb67ae8584caa73b;
 store64(v9 + 840, v2);
 v4 = ((v4 << 32) | 0x2000040) ^ 0x6a09e667f3bcc908;
 store64(v9 + 832, v4);
 store64(v9 + 824, v12);
 store64(v9 + 816, v0);
 store64(v9 + 808, v7);
 store64(v9 + 800, v5);
 store64(v9 + 792, 0xa54ff53a5f1d36f1);
 store64(v9 + 784, 0x3c6ef372fe94b82b);
 store64(v9 + 776, v2);
 store64(v9 + 768, v4);
 fill(v22, 0, 152);
 v5 = load64(v9 + 272);
 v7 = load64(v9 + 128).plus(v5);
 store64(v9 + 128, v7);
 fill(v9.plus(1504), 0, 128);
 'l24: loop {
 if v5 == 0 { break 'l24; }
 copy(v9.plus(1504), v19, v5);
 break 'l24; }
 fill(v19, 0, 136);
 compress_compress_blake2b_compress(v9, v9.plus(1504), v7, 1, load8(v9 + 136));
 store64(v9 + 632, load64(v9 + 56));
 store64(v9 + 624, load64(v9 + 48));
 store64(v9 + 616, load64(v9 + 40));
 store64(v9 + 608, load64(v9 + 32));
 store64(v9 + 600, load64(v9 + 24));
 store64(v9 + 592, load64(v9 + 16));
 store64(v9 + 584, load64(v9 + 8));
 store64(v9 + 576, load64(v9));
 v4 = digest_buffer_digest_into_33c1e97afcdf8a5d(v18, load64(v9 + 1320), v9.plus(576), 64, v13);
 store64(v9 + 1320, v4);
 v5 = load64(v9 + 760).plus(1);
 store64(v9 + 760, v5);
 v7 = load64(v9 + 1040);
 v2 = load64(v9 + 896);
 v11 = load32(v9 + 752);
 v0 = v1;
 break 'l18; }
 v6 = v6.plus(v0);
 v12 = v11 as u64;
 v1 = v12.minus(v7.plus(v2));
 v3 = v3.minus(v0);
 if v1 < v3 { continue 'l17; }
 break 'l17; }
 break 'l16; }
 t4 = digest_buffer_digest_into_33c1e97afcdf8a5d(v9.plus(912), v7, v6, v3, v17);
 store64(v9 + 1040, t4);
 copy(v9, v17, 136);
 copy(v9.plus(137), v9.plus(905), 143);
 copy(v9.plus(1504), v13, 280);
 store8(v9 + 136, 1);
 v3 = load64(v9 + 272);
 v1 = load64(v9 + 128).plus(v3);
 store64(v9 + 128, v1);
 fill(v9.plus(576), 0, 128);
 v6 = v9.plus(144);
 'l25: loop {
 if v3 == 0 { break 'l25; }
 copy(v9.plus(576), v6, v3);
 break 'l25; }
 fill(v6, 0, 136);
 compress_compress_blake2b_compress(v9, v9.plus(576), v1, 1, 1);
 store64(v9 + 568, load64(v9 + 56));
 store64(v9 + 560, load64(v9 + 48));
 store64(v9 + 552, load64(v9 + 40));
 store64(v9 + 544, load64(v9 + 32));
 store64(v9 + 536, load64(v9 + 24));
 store64(v9 + 528, load64(v9 + 16));
 store64(v9 + 520, load64(v9 + 8));
 store64(v9 + 512, load64(v9));
 v3 = digest_buffer_digest_into_33c1e97afcdf8a5d(v9.plus(1504).plus(144), load64(v9 + 1776),
   v9.plus(512), 64, v9.plus(1504));
 store8(v9 + 1640, 1);
 store64(v9 + 1776, v3);
 copy(v9, v9.plus(1504), 280);
 v3 = load64(v9 + 272);
 v1 = load64(v9 + 128).plus(v3);
 store64(v9 + 128, v1);
 fill(v9.plus(576), 0, 128);
 'l26: loop {
 if v3 == 0 { break 'l26; }
 copy(v9.plus(576), v6, v3);
 break 'l26; }
 fill(v6, 0, 136);
 compress_compress_blake2b_compress(v9, v9.plus(576), v1, 1, load8(v9 + 136));
 v6 = load64(v9);
 v3 = load64(v9 + 8);
 v1 = load64(v9 + 16);
 store64(v14 + 24, load64(v9 + 24));
 store64(v14 + 16, v1);
 store64(v14 + 8, v3);
 store64(v14, v6);
 return 0;
 }
 v4 = 0;
 fill(v9 + 1472, 0, 16);
 'l27: loop {
 v11 = (v5 == 0) as u32;
 if v11 != 0 { break 'l27; }
 copy(v9.plus(1472), v13, v5);
 break 'l27; }
 fill(v9 + 1488, 0, 16);
 'l28: loop {
 v15 = (v7 == 0) as u32;
 if v15 != 0 { break 'l28; }
 copy(v9.plus(1488), v12, v7);
 break 'l28; }
 store64(v9 + 720, v5);
 store32(v9 + 756, 0);
 store32(v9 + 752, v8 as u64);
 store64(v9 + 744, v7);
 store64(v9 + 712, load64(v9 + 1480));
 store64(v9 + 704, load64(v9 + 1472));
 store64(v9 + 728, load64(v9 + 1488));
 store64(v9 + 736, load64(v9 + 1496));
 fill(v9, 0, 32);
 'l29: loop {
 if v11 != 0 { break 'l29; }
 copy(v9, v9.plus(704), v5);
 break 'l29; }
 v16 = v9.plus(728);
 v1 = v9 | 16;
 'l30: loop {
 if v15 != 0 { break 'l30; }
 copy(v1, v16, v7);
 break 'l30; }
 v2 = load64(v9);
 v0 = load64(v9 + 8);
 v12 = load64(v9 + 16);
 v13 = load64(v9 + 24);
 fill(v9, 0, 32);
 'l31: loop {
 if v11 != 0 { break 'l31; }
 copy(v9, v9.plus(704), v5);
 break 'l31; }
 'l32: loop {
 if v15 != 0 { break 'l32; }
 copy(v1, v16, v7);
 break 'l32; }
 v17 = load64(v9);
 v18 = load64(v9 + 8);
 v19 = load64(v9 + 16);
 v20 = load64(v9 + 24);
 v13 ^= 0x5be0cd19137e2179;
 store64(v9 + 888, v13);
 v12 ^= 0x1f83d9abfb41bd6b;
 store64(v9 + 880, v12);
 v0 ^= 0x9b05688c2b3e6c1f;
 store64(v9 + 872, v0);
 v22 = v2 ^ 0x510e527fade682d1;
 store64(v9 + 864, v22);
 store64(v9 + 856, 0xa54ff53a5f1d36f1);
 store64(v9 + 848, 0x3c6ef372fe94b82b);
 store64(v9 + 840, 0xbb67ae8584caa73b);
 v1 = v8 as u64;
 v2 = ((v1 << 32) | 0x2000040) ^ 0x6a09e667f3bcc908;
 store64(v9 + 832, v2);
 store64(v9 + 824, v13);
 store64(v9 + 816, v12);
 store64(v9 + 808, v0);
 store64(v9 + 800, v22);
 store64(v9 + 792, 0xa54ff53a5f1d36f1);
 store64(v9 + 784, 0x3c6ef372fe94b82b);
 store64(v9 + 776, 0xbb67ae8584caa73b);
 store64(v9 + 768, v2);
 store64(v9 + 712, load64(v9 + 1480));
 store64(v9 + 704, load64(v9 + 1472));
 store64(v9 + 720, v5);
 store64(v9 + 728, load64(v9 + 1488));
 store64(v9 + 736, load64(v9 + 1496));
 fill(v9 + 756, 0, 12);
 store32(v9 + 752, v8 as u64);
 store64(v9 + 744, v7);
 v22 = v9.plus(896);
 fill(v22, 0, 152);
 v5 = v20 ^ 0x5be0cd19137e2179;
 store64(v9 + 1168, v5);
 v7 = v19 ^ 0x1f83d9abfb41bd6b;
 store64(v9 + 1160, v7);
 v0 = v18 ^ 0x9b05688c2b3e6c1f;
 store64(v9 + 1152, v0);
 v12 = v17 ^ 0x510e527fade682d1;
 store64(v9 + 1144, v12);
 store64(v9 + 1136, 0xa54ff53a5f1d36f1);
 store64(v9 + 1128, 0x3c6ef372fe94b82a);
 store64(v9 + 1120, 0xbb67ae8584caa73b);
 store64(v9 + 1112, v2);
 store64(v9 + 1104, v5);
 store64(v9 + 1096, v7);
 store64(v9 + 1088, v0);
 store64(v9 + 1080, v12);
 store64(v9 + 1072, 0xa54ff53a5f1d36f1);
 store64(v9 + 1064, 0x3c6ef372fe94b82a);
 store64(v9 + 1056, 0xbb67ae8584caa73b);
 store64(v9 + 1048, v2);
 fill(v9.plus(1176), 0, 152);
 v13 = v9.plus(1048);
 'l33: loop {
 'l34: loop {
 if (v1 << 2) < v3 { break 'l34; }
 v5 = 0;
 v11 = v8;
 break 'l33;
 }
 v19 = v9.plus(1504) | 16;
 v17 = v9.plus(1192);
 v18 = v9.plus(64);
 v4 = 0;
 v5 = 0;
 'l35: loop {
 fill(v9 + 1504, 0, 64);
 tree_nodes_Nodes_leaf_digest(v9.plus(1504), v9.plus(704), v5, 0, v6, v1);
 fill(v18, 0, 448);
 store64(v9 + 56, load64(v9 + 1560));
 store64(v9 + 48, load64(v9 + 1552));
 store64(v9 + 40, load64(v9 + 1544));
 store64(v9 + 32, load64(v9 + 1536));
 store64(v9 + 24, load64(v9 + 1528));
 store64(v9 + 16, load64(v9 + 1520));
 store64(v9 + 8, load64(v9 + 1512));
 store64(v9, load64(v9 + 1504));
 v4 = digest_buffer_digest_into_33c1e97afcdf8a5d(v17, v4, v9, 64, v13);
 store64(v9 + 1320, v4);
 v5 = load64(v9 + 760).plus(1);
 store64(v9 + 760, v5);
 v11 = load32(v9 + 752);
 v1 = load64(v9 + 744);
 v7 = load64(v9 + 720);
 fill(v9 + 1504, 0, 32);
 'l36: loop {
 if v7 == 0 { break 'l36; }
 copy(v9.plus(1504), v9.plus(704), v7);
 break 'l36; }
 'l37: loop {
 if v1 == 0 { break 'l37; }
 copy(v19, v16, v1);
 break 'l37; }
 store64(v9 + 856, 0xa54ff53a5f1d36f1);
 store64(v9 + 848, 0x3c6ef372fe94b82b);
 v7 = v5 ^ 0xbb67ae8584caa73b;
 store64(v9 + 840, v7);
 v1 = v11 as u64;
 v2 = ((v1 << 32) | 0x2000040) ^ 0x6a09e667f3bcc908;
 store64(v9 + 832, v2);
 store64(v9 + 792, 0xa54ff53a5f1d36f1);
 store64(v9 + 784, 0x3c6ef372fe94b82b);
 store64(v9 + 776, v7);
 store64(v9 + 768, v2);
 v7 = load64(v9 + 1528) ^ 0x5be0cd19137e2179;
 store64(v9 + 888, v7);
 v2 = load64(v9 + 1520) ^ 0x1f83d9abfb41bd6b;
 store64(v9 + 880, v2);
 v0 = load64(v9 + 1512) ^ 0x9b05688c2b3e6c1f;
 store64(v9 + 872, v0);
 v12 = load64(v9 + 1504) ^ 0x510e527fade682d1;
 store64(v9 + 864, v12);
 store64(v9 + 824, v7);
 store64(v9 + 816, v2);
 store64(v9 + 808, v0);
 store64(v9 + 800, v12);
 fill(v22, 0, 152);
 v7 = v8 as u64;
 v6 = v6.plus(v7);
 v8 = v11;
 v3 = v3.minus(v7);
 if (v1 << 2) < v3 { continue 'l35; }
 break 'l35; }
 break 'l33; }
 v17 = v9.plus(704).plus(64);
 v7 = 0;
 'l38: loop {
 if v1 >= v3 { break 'l38; }
 v23 = v9.plus(1504) | 16;
 v24 = v9 | 16;
 v20 = v9.plus(64);
 v18 = v9.plus(1192);
 v19 = v9.plus(144);
 v21 = v9.plus(912);
 v2 = 0;
 v7 = 0;
 v12 = v1;
 'l39: loop {
 'l40: loop {
 'l41: loop {
 if v7 != 0_u64.minus(v2) { break 'l41; }
 if (v12 << 2) >= v3 { break 'l41; }
 v7 = 0;
 fill(v9 + 1504, 0, 64);
 tree_nodes_Nodes_leaf_digest(v9.plus(1504), v9.plus(704), v5, 0, v6, v12);
 fill(v20, 0, 448);
 store64(v9 + 56, load64(v9 + 1560));
 store64(v9 + 48, load64(v9 + 1552));
 store64(v9 + 40, load64(v9 + 1544));
 store64(v9 + 32, load64(v9 + 1536));
 store64(v9 + 24, load64(v9 + 1528));
 store64(v9 + 16, load64(v9 + 1520));
 store64(v9 + 8, load64(v9 + 1512));
 store64(v9, load64(v9 + 1504));
 v4 = digest_buffer_digest_into_33c1e97afcdf8a5d(v18, v4, v9, 64, v13);
 store64(v9 + 1320, v4);
 v5 = load64(v9 + 760).plus(1);
 store64(v9 + 760, v5);
 v8 = load32(v9 + 752);
 v1 = load64(v9 + 744);
 v2 = load64(v9 + 720);
 fill(v9 + 1504, 0, 32);
 'l42: loop {
 if v2 == 0 { break 'l42; }
 copy(v9.plus(1504), v9.plus(704), v2);
 break 'l42; }
 'l43: loop {
 if v1 == 0 { break 'l43; }
 copy(v23, v16, v1);
 break 'l43; }
 store64(v9 + 856, 0xa54ff53a5f1d36f1);
 store64(v9 + 848, 0x3c6ef372fe94b82b);
 v1 = v5 ^ 0xbb67ae8584caa73b;
 store64(v9 + 840, v1);
 v2 = (((v8 as u64) << 32) | 0x2000040) ^ 0x6a09e667f3bcc908;
 store64(v9 + 832, v2);
 store64(v9 + 792, 0xa54ff53a5f1d36f1);
 store64(v9 + 784, 0x3c6ef372fe94b82b);
 store64(v9 + 776, v1);
 store64(v9 + 768, v2);
 v1 = load64(v9 + 1528) ^ 0x5be0cd19137e2179;
 store64(v9 + 888, v1);
 v2 = load64(v9 + 1520) ^ 0x1f83d9abfb41bd6b;
 store64(v9 + 880, v2);
 v0 = load64(v9 + 1512) ^ 0x9b05688c2b3e6c1f;
 store64(v9 + 872, v0);
 v12 = load64(v9 + 1504) ^ 0x510e527fade682d1;
 store64(v9 + 864, v12);
 store64(v9 + 824, v1);
 store64(v9 + 816, v2);
 store64(v9 + 808, v0);
 store64(v9 + 800, v12);
 fill(v22, 0, 152);
 v0 = v11 as u64;
 v11 = v8;
 v2 = 0;
 break 'l40;
 }
 t8 = digest_buffer_digest_into_33c1e97afcdf8a5d(v21, v7, v6, v1, v17);
 store64(v9 + 1040, t8);
 v4 = load32(v9 + 752) as u64;
 v2 = load64(v9 + 760);
 v5 = load64(v9 + 744);
 v7 = load64(v9 + 720);
 fill(v9, 0, 32);
 'l44: loop {
 if v7 == 0 { break 'l44; }
 copy(v9, v9.plus(704), v7);
 break 'l44; }
 'l45: loop {
 if v5 == 0 { break 'l45; }
 copy(v24, v16, v5);
 break 'l45; }
 v5 = load64(v9);
 v7 = load64(v9 + 8);
 v0 = load64(v9 + 16);
 v12 = load64(v9 + 24);
 copy(v9, v17, 280);
 v12 ^= 0x5be0cd19137e2179;
 store64(v9 + 888, v12);
 v0 ^= 0x1f83d9abfb41bd6b;
 store64(v9 + 880, v0);
 v7 ^= 0x9b05688c2b3e6c1f;
 store64(v9 + 872, v7);
 v5 ^= 0x510e527fade682d1;
 store64(v9 + 864, v5);
 store64(v9 + 856, 0xa54ff53a5f1d36f1);
 store64(v9 + 848, 0x3c6ef372fe94b82b);
 v2 = v2.plus(1) ^ 0xbb67ae8584caa73b;
 store64(v9 + 840, v2);
 v4 = ((v4 << 32) | 0x2000040) ^ 0x6a09e667f3bcc908;
 store64(v9 + 832, v4);
 store64(v9 + 824, v12);
 store64(v9 + 816, v0);
 store64(v9 + 808, v7);
 store64(v9 + 800, v5);
 store64(v9 + 792, 0xa54ff53a5f1d36f1);
 store64(v9 + 784, 0x3c6ef372fe94b82b);
 store64(v9 + 776, v2);
 store64(v9 + 768, v4);
 fill(v22, 0, 152);
 v5 = load64(v9 + 272);
 v7 = load64(v9 + 128).plus(v5);
 store64(v9 + 128, v7);
 fill(v9.plus(1504), 0, 128);
 'l46: loop {
 if v5 == 0 { break 'l46; }
 copy(v9.plus(1504), v19, v5);
 break 'l46; }
 fill(v19, 0, 136);
 compress_compress_blake2b_compress(v9, v9.plus(1504), v7, 1, load8(v9 + 136));
 store64(v9 + 632, load64(v9 + 56));
 store64(v9 + 624, load64(v9 + 48));
 store64(v9 + 616, load64(v9 + 40));
 store64(v9 + 608, load64(v9 + 32));
 store64(v9 + 600, load64(v9 + 24));
 store64(v9 + 592, load64(v9 + 16));
 store64(v9 + 584, load64(v9 + 8));
 store64(v9 + 576, load64(v9));
 v4 = digest_buffer_digest_into_33c1e97afcdf8a5d(v18, load64(v9 + 1320), v9.plus(576), 64, v13);
 store64(v9 + 1320, v4);
 v5 = load64(v9 + 760).plus(1);
 store64(v9 + 760, v5);
 v7 = load64(v9 + 1040);
 v2 = load64(v9 + 896);
 v11 = load32(v9 + 752);
 v0 = v1;
 break 'l40; }
 v6 = v6.plus(v0);
 v12 = v11 as u64;
 v1 = v12.minus(v7.plus(v2));
 v3 = v3.minus(v0);
 if v1 < v3 { continue 'l39; }
 break 'l39; }
 break 'l38; }
 t10 = digest_buffer_digest_into_33c1e97afcdf8a5d(v9.plus(912), v7, v6, v3, v17);
 store64(v9 + 1040, t10);
 copy(v9, v17, 136);
 copy(v9.plus(137), v9.plus(905), 143);
 copy(v9.plus(1504), v13, 280);
 store8(v9 + 136, 1);
 v3 = load64(v9 + 272);
 v1 = load64(v9 + 128).plus(v3);
 store64(v9 + 128, v1);
 fill(v9.plus(576), 0, 128);
 v6 = v9.plus(144);
 'l47: loop {
 if v3 == 0 { break 'l47; }
 copy(v9.plus(576), v6, v3);
 break 'l47; }
 fill(v6, 0, 136);
 compress_compress_blake2b_compress(v9, v9.plus(576), v1, 1, 1);
 store64(v9 + 568, load64(v9 + 56));
 store64(v9 + 560, load64(v9 + 48));
 store64(v9 + 552, load64(v9 + 40));
 store64(v9 + 544, load64(v9 + 32));
 store64(v9 + 536, load64(v9 + 24));
 store64(v9 + 528, load64(v9 + 16));
 store64(v9 + 520, load64(v9 + 8));
 store64(v9 + 512, load64(v9));
 v3 = digest_buffer_digest_into_33c1e97afcdf8a5d(v9.plus(1504).plus(144), load64(v9 + 1776),
   v9.plus(512), 64, v9.plus(1504));
 store8(v9 + 1640, 1);
 store64(v9 + 1776, v3);
 copy(v9, v9.plus(1504), 280);
 v3 = load64(v9 + 272);
 v1 = load64(v9 + 128).plus(v3);
 store64(v9 + 128, v1);
 fill(v9.plus(576), 0, 128);
 'l48: loop {
 if v3 == 0 { break 'l48; }
 copy(v9.plus(576), v6, v3);
 break 'l48; }
 fill(v6, 0, 136);
 compress_compress_blake2b_compress(v9, v9.plus(576), v1, 1, load8(v9 + 136));
 v6 = load64(v9);
 v3 = load64(v9 + 8);
 v1 = load64(v9 + 16);
 v5 = load64(v9 + 24);
 v7 = load64(v9 + 32);
 v4 = load64(v9 + 40);
 v2 = load64(v9 + 48);
 store64(v14 + 56, load64(v9 + 56));
 store64(v14 + 48, v2);
 store64(v14 + 40, v4);
 store64(v14 + 32, v7);
 store64(v14 + 24, v5);
 store64(v14 + 16, v1);
 store64(v14 + 8, v3);
 store64(v14, v6);
 return 0;
 }
 fill(v9 + 576, 0, 16);
 'l49: loop {
 v15 = (v5 == 0) as u32;
 if v15 != 0 { break 'l49; }
 copy(v9.plus(576), v13, v5);
 break 'l49; }
 fill(v9 + 1504, 0, 16);
 'l50: loop {
 v25 = (v7 == 0) as u32;
 if v25 != 0 { break 'l50; }
 copy(v9.plus(1504), v12, v7);
 break 'l50; }
 store64(v9 + 16, v5);
 v11 = 0;
 store32(v9 + 52, 0);
 store64(v9 + 40, v7);
 store64(v9 + 8, load64(v9 + 584));
 store64(v9, load64(v9 + 576));
 store64(v9 + 24, load64(v9 + 1504));
 store64(v9 + 32, load64(v9 + 1512));
 store32(v9 + 48, v8 as u64);
 fill(v9 + 704, 0, 32);
 'l51: loop {
 if v15 != 0 { break 'l51; }
 copy(v9.plus(704), v9, v5);
 break 'l51; }
 v4 = v9.plus(24);
 v2 = v9.plus(704) | 16;
 'l52: loop {
 if v25 != 0 { break 'l52; }
 copy(v2, v4, v7);
 break 'l52; }
 v0 = load64(v9 + 704);
 v22 = load64(v9 + 712);
 v17 = load64(v9 + 720);
 v16 = load64(v9 + 728);
 fill(v9 + 704, 0, 32);
 'l53: loop {
 if v15 != 0 { break 'l53; }
 copy(v9.plus(704), v9, v5);
 break 'l53; }
 'l54: loop {
 if v25 != 0 { break 'l54; }
 copy(v2, v4, v7);
 break 'l54; }
 fill(v9 + 1472, 0, 16);
 v4 = load64(v9 + 704);
 v2 = load64(v9 + 712);
 v18 = load64(v9 + 720);
 v19 = load64(v9 + 728);
 'l55: loop {
 if v15 != 0 { break 'l55; }
 copy(v9.plus(1472), v13, v5);
 break 'l55; }
 fill(v9 + 1488, 0, 16);
 'l56: loop {
 if v25 != 0 { break 'l56; }
 copy(v9.plus(1488), v12, v7);
 break 'l56; }
 v12 = v16 ^ 0x5be0cd19137e2179;
 store64(v9 + 824, v12);
 v13 = v17 ^ 0x1f83d9abfb41bd6b;
 store64(v9 + 816, v13);
 v22 ^= 0x9b05688c2b3e6c1f;
 store64(v9 + 808, v22);
 v0 ^= 0x510e527fade682d1;
 store64(v9 + 800, v0);
 store64(v9 + 792, 0xa54ff53a5f1d36f1);
 store64(v9 + 784, 0x3c6ef372fe94b82b);
 store64(v9 + 776, 0xbb67ae8584caa73b);
 v17 = v8 as u64;
 v16 = v17 << 32;
 v20 = (v16 | 0x2000040) ^ 0x6a09e667f3bcc908;
 store64(v9 + 768, v20);
 store64(v9 + 760, v12);
 store64(v9 + 752, v13);
 store64(v9 + 744, v22);
 store64(v9 + 736, v0);
 store64(v9 + 728, 0xa54ff53a5f1d36f1);
 store64(v9 + 720, 0x3c6ef372fe94b82b);
 store64(v9 + 712, 0xbb67ae8584caa73b);
 store64(v9 + 704, v20);
 store64(v9 + 512, load64(v9 + 1472));
 store64(v9 + 520, load64(v9 + 1480));
 store64(v9 + 528, load64(v9 + 1488));
 store64(v9 + 536, load64(v9 + 1496));
 fill(v9 + 832, 0, 16);
 store32(v9 + 848, 64);
 fill(v9.plus(852), 0, 196);
 store64(v9 + 1176, 0);
 v0 = v19 ^ 0x5be0cd19137e2179;
 store64(v9 + 1168, v0);
 v12 = v18 ^ 0x1f83d9abfb41bd6b;
 store64(v9 + 1160, v12);
 v2 ^= 0x9b05688c2b3e6c1f;
 store64(v9 + 1152, v2);
 v4 ^= 0x510e527fade682d1;
 store64(v9 + 1144, v4);
 store64(v9 + 1136, 0xa54ff53a5f1d36f1);
 store64(v9 + 1128, 0x3c6ef372fe94b82a);
 store64(v9 + 1120, 0xbb67ae8584caa73b);
 store64(v9 + 1104, v0);
 store64(v9 + 1096, v12);
 store64(v9 + 1088, v2);
 store64(v9 + 1080, v4);
 store64(v9 + 1072, 0xa54ff53a5f1d36f1);
 store64(v9 + 1064, 0x3c6ef372fe94b82a);
 store64(v9 + 1056, 0xbb67ae8584caa73b);
 store64(v9 + 1184, 0);
 v8 = v1 as u32;
 store32(v9 + 1192, v8 as u64);
 v1 = (((v8 | 0x2000000) as u64) | v16) ^ 0x6a09e667f3bcc908;
 store64(v9 + 1112, v1);
 store64(v9 + 1048, v1);
 fill(v9.plus(1196), 0, 204);
 store64(v9 + 1416, v7);
 store64(v9 + 1408, v5);
 store64(v9 + 1400, v17);
 store64(v9 + 1424, load64(v9 + 512));
 store64(v9 + 1432, load64(v9 + 520));
 store64(v9 + 1440, load64(v9 + 528));
 store64(v9 + 1448, load64(v9 + 536));
 state_tree_TreeState_update(v9.plus(704), v6, v3);
 store64(v9, load64(v9 + 704));
 store64(v9 + 8, load64(v9 + 712));
 store64(v9 + 16, load64(v9 + 720));
 store64(v9 + 24, load64(v9 + 728));
 store64(v9 + 32, load64(v9 + 736));
 store64(v9 + 40, load64(v9 + 744));
 store64(v9 + 48, load64(v9 + 752));
 store64(v9 + 56, load64(v9 + 760));
 store64(v9 + 64, load64(v9 + 768));
 store64(v9 + 72, load64(v9 + 776));
 store64(v9 + 80, load64(v9 + 784));
 store64(v9 + 88, load64(v9 + 792));
 store64(v9 + 96, load64(v9 + 800));
 store64(v9 + 104, load64(v9 + 808));
 store64(v9 + 112, load64(v9 + 816));
 store64(v9 + 120, load64(v9 + 824));
 v6 = load64(v9 + 832);
 v3 = load64(v9 + 840);
 store32(v9 + 144, load32(v9 + 848) as u64);
 store64(v9 + 136, v3);
 store64(v9 + 128, v6);
 copy(v9.plus(152), v9.plus(704).plus(152), 128);
 store32(v9 + 148, 1);
 store64(v9 + 336, load64(v9 + 1040));
 store64(v9 + 328, load64(v9 + 1032));
 store64(v9 + 320, load64(v9 + 1024));
 store64(v9 + 312, load64(v9 + 1016));
 store64(v9 + 304, load64(v9 + 1008));
 store64(v9 + 296, load64(v9 + 1000));
 store64(v9 + 288, load64(v9 + 992));
 store64(v9 + 280, load64(v9 + 984));
 store64(v9 + 1504, load64(v9 + 1048));
 store64(v9 + 1512, load64(v9 + 1056));
 store64(v9 + 1520, load64(v9 + 1064));
 store64(v9 + 1528, load64(v9 + 1072));
 store64(v9 + 1536, load64(v9 + 1080));
 store64(v9 + 1544, load64(v9 + 1088));
 store64(v9 + 1552, load64(v9 + 1096));
 store64(v9 + 1560, load64(v9 + 1104));
 store64(v9 + 1624, load64(v9 + 1168));
 store64(v9 + 1616, load64(v9 + 1160));
 store64(v9 + 1608, load64(v9 + 1152));
 store64(v9 + 1600, load64(v9 + 1144));
 store64(v9 + 1592, load64(v9 + 1136));
 store64(v9 + 1584, load64(v9 + 1128));
 store64(v9 + 1576, load64(v9 + 1120));
 store64(v9 + 1568, load64(v9 + 1112));
 v6 = load64(v9 + 1176);
 v3 = load64(v9 + 1184);
 store64(v9 + 1648, load64(v9 + 1192));
 store64(v9 + 1640, v3);
 store64(v9 + 1632, v6);
 copy(v9.plus(1504).plus(152), v9.plus(1200), 128);
 fill(v9 + 576, 0, 64);
 store64(v9 + 1840, load64(v9 + 1384));
 store64(v9 + 1832, load64(v9 + 1376));
 store64(v9 + 1824, load64(v9 + 1368));
 store64(v9 + 1816, load64(v9 + 1360));
 store64(v9 + 1808, load64(v9 + 1352));
 store64(v9 + 1800, load64(v9 + 1344));
 store64(v9 + 1792, load64(v9 + 1336));
 store64(v9 + 1784, load64(v9 + 1328));
 state_blake2b_State_write_digest(v9, v9.plus(576));
 state_blake2b_State_absorb_blocks(v9.plus(1504), v9.plus(576), 64);
 store32(v9 + 1652, 1);
 state_blake2b_State_write_digest(v9.plus(1504), v14);
 break 'l2; }
 return v11;
}

// rattle::export vulfsjor_ffi_tree_init
#[inline(never)]
unsafe fn exported_tree_init(mut v0: u64, mut v1: u64, mut v2: u64, mut v3: u64, mut v4: u64, mut
        v5: u64, mut v6: u32) -> u32 {
 let mut v7: u64;
 let mut v9: u64;
 let mut v10: u32;
 let mut v11: u32;
 let mut v12: u64;
 let mut v13: u64;
 let mut v14: u64;
 let mut v15: u64;
 let mut v16: u64;
 let mut v17: u64;
 let mut v18: u64;
 let mut v19: u64;
 let mut frame = [0_u64; 26];
 let top = (address!(frame)).plus(208) & !15;
 v7 = top;
 v7 = v7.minus(160) & 0xffffffffffffffe0;
 'l1: loop {
 if v1.minus(1) > 63 { break 'l1; }
 if v3 > 16 { break 'l1; }
 if v5 > 16 { break 'l1; }
 if v6 == 0 { break 'l1; }
 v9 = if v4 == 0 { 4096_u64 } else { 0 };
 v2 = v2.plus(if v2 == 0 { 4096_u64 } else { 0 });
 fill(v7 + 64, 0, 16);
 'l3: loop {
 v10 = (v3 == 0) as u32;
 if v10 != 0 { break 'l3; }
 copy(v7.plus(64), v2, v3);
 break 'l3; }
 v4 = v4.plus(v9);
 fill(v7 + 80, 0, 16);
 'l4: loop {
 v11 = (v5 == 0) as u32;
 if v11 != 0 { break 'l4; }
 copy(v7.plus(80), v4, v5);
 break 'l4; }
 store64(v7 + 24, v3);
 store32(v7 + 60, 0);
 store64(v7 + 48, v5);
 store64(v7 + 16, load64(v7 + 72));
 store64(v7 + 8, load64(v7 + 64));
 store64(v7 + 32, load64(v7 + 80));
 store64(v7 + 40, load64(v7 + 88));
 store32(v7 + 56, v6 as u64);
 fill(v7 + 96, 0, 32);
 'l5: loop {
 if v10 != 0 { break 'l5; }
 copy(v7.plus(96), v7.plus(8), v3);
 break 'l5; }
 v9 = v7.plus(32);
 v12 = v7.plus(96) | 16;
 'l6: loop {
 if v11 != 0 { break 'l6; }
 copy(v12, v9, v5);
 break 'l6; }
 v13 = load64(v7 + 96);
 v14 = load64(v7 + 104);
 v15 = load64(v7 + 112);
 v16 = load64(v7 + 120);
 fill(v7 + 96, 0, 32);
 'l7: loop {
 if v10 != 0 { break 'l7; }
 copy(v7.plus(96), v7.plus(8), v3);
 break 'l7; }
 'l8: loop {
 if v11 != 0 { break 'l8; }
 copy(v12, v9, v5);
 break 'l8; }
 fill(v7 + 144, 0, 16);
 v9 = load64(v7 + 96);
 v12 = load64(v7 + 104);
 v17 = load64(v7 + 112);
 v18 = load64(v7 + 120);
 'l9: loop {
 if v10 != 0 { break 'l9; }
 copy(v7.plus(144), v2, v3);
 break 'l9; }
 fill(v7 + 96, 0, 16);
 'l10: loop {
 if v11 != 0 { break 'l10; }
 copy(v7.plus(96), v4, v5);
 break 'l10; }
 v4 = v16 ^ 0x5be0cd19137e2179;
 store64(v0 + 120, v4);
 v2 = v15 ^ 0x1f83d9abfb41bd6b;
 store64(v0 + 112, v2);
 v14 ^= 0x9b05688c2b3e6c1f;
 store64(v0 + 104, v14);
 v13 ^= 0x510e527fade682d1;
 store64(v0 + 96, v13);
 store64(v0 + 88, 0xa54ff53a5f1d36f1);
 store64(v0 + 80, 0x3c6ef372fe94b82b);
 store64(v0 + 72, 0xbb67ae8584caa73b);
 v15 = v6 as u64;
 v16 = v15 << 32;
 v19 = (v16 | 0x2000040) ^ 0x6a09e667f3bcc908;
 store64(v0 + 64, v19);
 store64(v0 + 56, v4);
 store64(v0 + 48, v2);
 store64(v0 + 40, v14);
 store64(v0 + 32, v13);
 store64(v0 + 24, 0xa54ff53a5f1d36f1);
 store64(v0 + 16, 0x3c6ef372fe94b82b);
 store64(v0 + 8, 0xbb67ae8584caa73b);
 store64(v0, v19);
 store64(v7 + 8, load64(v7 + 144));
 store64(v7 + 16, load64(v7 + 152));
 store64(v7 + 24, load64(v7 + 96));
 store64(v7 + 32, load64(v7 + 104));
 fill(v0 + 128, 0, 16);
 store32(v0 + 144, 64);
 fill(v0.plus(148), 0, 196);
 store64(v0 + 472, 0);
 v4 = v18 ^ 0x5be0cd19137e2179;
 store64(v0 + 464, v4);
 v2 = v17 ^ 0x1f83d9abfb41bd6b;
 store64(v0 + 456, v2);
 v12 ^= 0x9b05688c2b3e6c1f;
 store64(v0 + 448, v12);
 v9 ^= 0x510e527fade682d1;
 store64(v0 + 440, v9);
 store64(v0 + 432, 0xa54ff53a5f1d36f1);
 store64(v0 + 424, 0x3c6ef372fe94b82a);
 store64(v0 + 416, 0xbb67ae8584caa73b);
 v6 = v1 as u32;
 v1 = (((v6 | 0x2000000) as u64) | v16) ^ 0x6a09e667f3bcc908;
 store64(v0 + 408, v1);
 store64(v0 + 400, v4);
 store64(v0 + 392, v2);
 store64(v0 + 384, v12);
 store64(v0 + 376, v9);
 store64(v0 + 368, 0xa54ff53a5f1d36f1);
 store64(v0 + 360, 0x3c6ef372fe94b82a);
 store64(v0 + 352, 0xbb67ae8584caa73b);
 store64(v0 + 344, v1);
 store64(v0 + 480, 0);
 store32(v0 + 488, v6 as u64);
 fill(v0.plus(492), 0, 204);
 store64(v0 + 712, v5);
 store64(v0 + 704, v3);
 store64(v0 + 696, v15);
 store64(v0 + 720, load64(v7 + 8));
 store64(v0 + 728, load64(v7 + 16));
 store64(v0 + 736, load64(v7 + 24));
 store64(v0 + 744, load64(v7 + 32));
 return 0;
 }
 fill(v0, 0, 752);
 return 0xffffffff;
}

// blake2_state::tree::TreeState::is_ready
#[inline(never)]
unsafe fn state_tree_TreeState_is_ready(mut v0: u64) -> u32 {
 let mut v1: u32;
 let mut v2: u32;
 let mut v3: u32;
 let mut v4: u64;
 let mut v5: u32;
 let mut v6: u64;
 let mut v7: u64;
 let mut t0: u64;
 v1 = 0;
 'l2: loop {
 v2 = load32(v0.plus(144));
 if v2.minus(1) > 63 { break 'l2; }
 v3 = load32(v0.plus(136));
 if v3 > 128 { break 'l2; }
 if load32(v0.plus(140)) > 128 { break 'l2; }
 v4 = load64(v0.plus(128));
 if v4 > sign64((!v3) as u64, 0x80000000) { break 'l2; }
 if load32(v0.plus(488)).minus(1) > 63 { break 'l2; }
 v5 = load32(v0.plus(480));
 if v5 > 128 { break 'l2; }
 if load32(v0.plus(484)) > 128 { break 'l2; }
 if v2 != 64 { break 'l2; }
 v6 = load64(v0.plus(472));
 if v6 > sign64((!v5) as u64, 0x80000000) { break 'l2; }
 v7 = load64(v0.plus(696));
 if v7.minus(1) > 0xfffffffe { break 'l2; }
 if load64(v0.plus(704)) > 16 { break 'l2; }
 if load64(v0.plus(712)) > 16 { break 'l2; }
 v4 = v4.plus(v3 as u64);
 if v4 > v7 { break 'l2; }
 v0 = load64(v0.plus(688));
 t0 = div_u64(0x3ffffffffffffff_u64.minus(v4), v7);
 if v0 > t0 { break 'l2; }
 if v0 > 0x3fffffffffffffe { break 'l2; }
 v1 = (v6.plus(v5 as u64) == (v0 << 6)) as u32;
 break 'l2; }
 return v1;
}

// rattle::export vulfsjor_ffi_tree_update
#[inline(never)]
unsafe fn exported_tree_update(mut v0: u64, mut v1: u64, mut v2: u64) -> u32 {
 let mut v4: u32;
 let mut t0: u32;
 v4 = 0xffffffff;
 'l2: loop {
 t0 = state_tree_TreeState_is_ready(v0);
 if t0 == 0 { break 'l2; }
 if
   0x3ffffffffffffff_u64.minus(load64(v0.plus(128)).plus(load64(v0.plus(696)).times(load64(v0.plus(688)))).plus(load32(v0.plus(136))
   as u64)) < v2 { break 'l2; }
 state_tree_TreeState_update(v0, v1.plus(if v1 == 0 { 4096_u64 } else { 0 }), v2);
 v4 = 0;
 break 'l2; }
 return v4;
}

// blake2_state::tree::TreeState::write_root
#[inline(never)]
unsafe fn state_tree_TreeState_write_root(mut v0: u64, mut v1: u64) {
 let mut v2: u64;
 let mut v3: u64;
 let mut v4: u64;
 let mut frame = [0_u64; 96];
 let top = (address!(frame)).plus(768) & !15;
 v2 = top.minus(752);
 store64(v2 + 400, load64(v0 + 56));
 store64(v2 + 392, load64(v0 + 48));
 store64(v2 + 384, load64(v0 + 40));
 store64(v2 + 376, load64(v0 + 32));
 store64(v2 + 368, load64(v0 + 24));
 store64(v2 + 360, load64(v0 + 16));
 store64(v2 + 352, load64(v0 + 8));
 store64(v2 + 344, load64(v0));
 store64(v2 + 408, load64(v0.plus(64)));
 store64(v2 + 416, load64(v0.plus(72)));
 store64(v2 + 424, load64(v0.plus(80)));
 store64(v2 + 432, load64(v0.plus(88)));
 store64(v2 + 440, load64(v0.plus(96)));
 store64(v2 + 448, load64(v0.plus(104)));
 store64(v2 + 456, load64(v0.plus(112)));
 store64(v2 + 464, load64(v0.plus(120)));
 store64(v2 + 472, load64(v0.plus(128)));
 store32(v2 + 488, load32(v0.plus(144)) as u64);
 store64(v2 + 480, load64(v0.plus(136)));
 copy(v2.plus(344).plus(152), v0.plus(152), 128);
 store32(v2 + 492, 1);
 store64(v2 + 680, load64(v0.plus(336)));
 store64(v2 + 672, load64(v0.plus(328)));
 store64(v2 + 664, load64(v0.plus(320)));
 store64(v2 + 656, load64(v0.plus(312)));
 store64(v2 + 648, load64(v0.plus(304)));
 store64(v2 + 640, load64(v0.plus(296)));
 store64(v2 + 632, load64(v0.plus(288)));
 store64(v2 + 624, load64(v0.plus(280)));
 store64(v2, load64(v0.plus(344)));
 store64(v2 + 8, load64(v0.plus(352)));
 store64(v2 + 16, load64(v0.plus(360)));
 store64(v2 + 24, load64(v0.plus(368)));
 store64(v2 + 32, load64(v0.plus(376)));
 store64(v2 + 40, load64(v0.plus(384)));
 store64(v2 + 48, load64(v0.plus(392)));
 store64(v2 + 56, load64(v0.plus(400)));
 store64(v2 + 120, load64(v0.plus(464)));
 store64(v2 + 112, load64(v0.plus(456)));
 store64(v2 + 104, load64(v0.plus(448)));
 store64(v2 + 96, load64(v0.plus(440)));
 store64(v2 + 88, load64(v0.plus(432)));
 store64(v2 + 80, load64(v0.plus(424)));
 store64(v2 + 72, load64(v0.plus(416)));
 store64(v2 + 64, load64(v0.plus(408)));
 v3 = load64(v0.plus(472));
 v4 = load64(v0.plus(480));
 store64(v2 + 144, load64(v0.plus(488)));
 store64(v2 + 136, v4);
 store64(v2 + 128, v3);
 copy(v2.plus(152), v0.plus(496), 128);
 fill(v2 + 688, 0, 64);
 store64(v2 + 336, load64(v0.plus(680)));
 store64(v2 + 328, load64(v0.plus(672)));
 store64(v2 + 320, load64(v0.plus(664)));
 store64(v2 + 312, load64(v0.plus(656)));
 store64(v2 + 304, load64(v0.plus(648)));
 store64(v2 + 296, load64(v0.plus(640)));
 store64(v2 + 288, load64(v0.plus(632)));
 store64(v2 + 280, load64(v0.plus(624)));
 state_blake2b_State_write_digest(v2.plus(344), v2.plus(688));
 state_blake2b_State_absorb_blocks(v2, v2.plus(688), 64);
 store32(v2 + 148, 1);
 state_blake2b_State_write_digest(v2, v1);
 return;
}

// rattle::export vulfsjor_ffi_tree_final
#[inline(never)]
unsafe fn exported_tree_final(mut v0: u64, mut v1: u64, mut v2: u64) -> u32 {
 let mut v4: u32;
 let mut t0: u32;
 v4 = 0xffffffff;
 'l2: loop {
 t0 = state_tree_TreeState_is_ready(v0);
 if t0 == 0 { break 'l2; }
 if v2 != (load32(v0.plus(488)) as u64) { break 'l2; }
 state_tree_TreeState_write_root(v0, v1.plus(if v1 == 0 { 4096_u64 } else { 0 }));
 v4 = 0;
 fill(v0, 0, 752);
 break 'l2; }
 return v4;
}

// rattle::export vulfsjor_ffi_tree_wipe
#[inline(never)]
unsafe fn exported_tree_wipe(mut v0: u64) {
 'l1: loop {
 break 'l1;
 }
 fill(v0, 0, 752);
}

// rattle::export vulfsjor_ffi_tree_digest_size
#[inline(never)]
unsafe fn exported_tree_digest_size(mut v0: u64) -> u64 {
 let mut v2: u64;
 let mut t0: u32;
 v2 = 0;
 'l2: loop {
 t0 = state_tree_TreeState_is_ready(v0);
 if t0 == 0 { break 'l2; }
 v2 = load32(v0.plus(488)) as u64;
 break 'l2; }
 return v2;
}

// rattle::export vulfsjor_ffi_tree_count
#[inline(never)]
unsafe fn exported_tree_count(mut v0: u64) -> u64 {
 let mut v2: u64;
 let mut t0: u32;
 v2 = 0;
 'l2: loop {
 t0 = state_tree_TreeState_is_ready(v0);
 if t0 == 0 { break 'l2; }
 v2 =
   load64(v0.plus(696)).times(load64(v0.plus(688))).plus(load64(v0.plus(128))).plus(load32(v0.plus(136))
   as u64);
 break 'l2; }
 return v2;
}

// rattle::export vulfsjor_ffi_tree_leaf_length
#[inline(never)]
unsafe fn exported_tree_leaf_length(mut v0: u64) -> u32 {
 let mut v2: u32;
 let mut t0: u32;
 v2 = 0;
 'l2: loop {
 t0 = state_tree_TreeState_is_ready(v0);
 if t0 == 0 { break 'l2; }
 v2 = load32(v0.plus(696));
 break 'l2; }
 return v2;
}

// rattle::export vulfsjor_ffi_tree_state_size
#[inline(never)]
unsafe fn exported_tree_state_size() {
 'l1: loop {
 break 'l1;
 }
}

// vulfsjor_ffi_tree_state_size
#[inline(never)]
unsafe fn module_tree_state_size() -> u64 {
 'l1: loop {
 break 'l1;
 }
 exported_tree_state_size();
 return 752;
}

// rattle::export vulfsjor_ffi_tree_leaf_count
#[inline(never)]
unsafe fn exported_tree_leaf_count(mut v0: u64, mut v1: u32) -> u64 {
 let mut v2: u64;
 let mut v3: u64;
 'l1: loop {
 if v1 != 0 { break 'l1; }
 return 0;
 }
 v2 = v1 as u64;
 v3 = div_u64(v0, v2);
 v0 = v3.plus(((v0.minus(v3.times(v2)) != 0) as u32) as u64);
 return if v0 > 1 { v0 } else { 1 };
}

// blake2_tree::ranges::hash_leaves
#[inline(never)]
unsafe fn tree_ranges_hash_leaves(mut v0: u64, mut v1: u64, mut v2: u64, mut v3: u64, mut v4: u32,
        mut v5: u64, mut v6: u32, mut v7: u64, mut v8: u64, mut v9: u64) {
 let mut v10: u64;
 let mut v11: u64;
 let mut v12: u64;
 let mut v13: u64;
 let mut v14: u64;
 let mut v15: u64;
 let mut v16: u64;
 let mut v17: u64;
 let mut v18: u64;
 let mut v19: u64;
 let mut frame = [0_u64; 94];
 let top = (address!(frame)).plus(752) & !15;
 v10 = top.minus(736);
 v11 = 0;
 fill(v10 + 64, 0, 16);
 'l2: loop {
 if v1 == 0 { break 'l2; }
 copy(v10.plus(64), v0, v1);
 break 'l2; }
 fill(v10 + 80, 0, 16);
 'l3: loop {
 if v3 == 0 { break 'l3; }
 copy(v10.plus(80), v2, v3);
 break 'l3; }
 store64(v10 + 24, v1);
 store32(v10 + 60, 0);
 store64(v10 + 48, v3);
 store64(v10 + 16, load64(v10 + 72));
 store64(v10 + 8, load64(v10 + 64));
 store64(v10 + 32, load64(v10 + 80));
 store64(v10 + 40, load64(v10 + 88));
 store32(v10 + 56, v4 as u64);
 fill(v10.plus(96), 0, 512);
 'l4: loop {
 v1 = v4 as u64;
 v12 = v1 << 2;
 if v12 >= v8 { break 'l4; }
 v13 = v10.plus(96).plus(64);
 v3 = v9;
 v11 = 0;
 'l5: loop {
 fill(v10 + 672, 0, 64);
 tree_nodes_Nodes_leaf_digest(v10.plus(672), v10.plus(8), v5.plus(v11), 0, v7, v1);
 fill(v13, 0, 448);
 v2 = load64(v10 + 728);
 store64(v10 + 152, v2);
 v0 = load64(v10 + 720);
 store64(v10 + 144, v0);
 v14 = load64(v10 + 712);
 store64(v10 + 136, v14);
 v15 = load64(v10 + 704);
 store64(v10 + 128, v15);
 v16 = load64(v10 + 696);
 store64(v10 + 120, v16);
 v17 = load64(v10 + 688);
 store64(v10 + 112, v17);
 v18 = load64(v10 + 680);
 store64(v10 + 104, v18);
 v19 = load64(v10 + 672);
 store64(v10 + 96, v19);
 store64(v3 + 56, v2);
 store64(v3 + 48, v0);
 store64(v3 + 40, v14);
 store64(v3 + 32, v15);
 store64(v3 + 24, v16);
 store64(v3 + 16, v17);
 store64(v3 + 8, v18);
 store64(v3, v19);
 v3 = v3.plus(64);
 v7 = v7.plus(v1);
 v11 = v11.plus(1);
 v8 = v8.minus(v1);
 if v12 < v8 { continue 'l5; }
 break 'l5; }
 break 'l4; }
 v2 = 0;
 fill(v10 + 608, 0, 128);
 v0 = v11.plus(v5);
 v11 = v9.plus(v11 << 6);
 'l6: loop {
 if v8 <= v1 { break 'l6; }
 v2 = 0;
 v3 = v11;
 'l7: loop {
 tree_nodes_Nodes_leaf_digest(v10.plus(672), v10.plus(8), v0.plus(v2), 0, v7, v1);
 store64(v3 + 56, load64(v10 + 728));
 store64(v3 + 48, load64(v10 + 720));
 store64(v3 + 40, load64(v10 + 712));
 store64(v3 + 32, load64(v10 + 704));
 store64(v3 + 24, load64(v10 + 696));
 store64(v3 + 16, load64(v10 + 688));
 store64(v3 + 8, load64(v10 + 680));
 store64(v3, load64(v10 + 672));
 v3 = v3.plus(64);
 v7 = v7.plus(v1);
 v2 = v2.plus(1);
 v8 = v8.minus(v1);
 if v8 > v1 { continue 'l7; }
 break 'l7; }
 break 'l6; }
 tree_nodes_Nodes_leaf_digest(v10.plus(608), v10.plus(8), v2.plus(v0), v6, v7, v8);
 v3 = v11.plus(v2 << 6);
 store64(v3 + 56, load64(v10 + 664));
 store64(v3 + 48, load64(v10 + 656));
 store64(v3 + 40, load64(v10 + 648));
 store64(v3 + 32, load64(v10 + 640));
 store64(v3 + 24, load64(v10 + 632));
 store64(v3 + 16, load64(v10 + 624));
 store64(v3 + 8, load64(v10 + 616));
 store64(v3, load64(v10 + 608));
 return;
}

// rattle::export vulfsjor_ffi_tree_leaves
#[inline(never)]
unsafe fn exported_tree_leaves(mut v0: u64, mut v1: u64, mut v2: u64, mut v3: u32, mut v4: u64, mut
        v5: u64, mut v6: u64, mut v7: u64, mut v8: u64, mut v9: u64, mut v10: u32) -> u32 {
 let mut v12: u32;
 let mut v13: u64;
 let mut v14: u32;
 let mut v15: u64;
 let mut t0: u64;
 let mut t1: u64;
 v12 = 0xffffffff;
 'l2: loop {
 if v7 > 16 { break 'l2; }
 if v9 > 16 { break 'l2; }
 if v10 == 0 { break 'l2; }
 v13 = v10 as u64;
 v14 = 1;
 'l3: loop {
 if v3 != 0 { break 'l3; }
 t0 = rem_u64(v5, v13);
 v14 = (t0 == 0) as u32;
 break 'l3; }
 if v5 > 0x3ffffffffffffff { break 'l2; }
 if (((((v2 == 0) as u32) & ((v3 != 0) as u32)) | ((v5 != 0) as u32)) & v14) == 0 { break 'l2; }
 t1 = div_u64(0x3ffffffffffffff_u64.minus(v5), v13);
 if v2 > t1 { break 'l2; }
 v15 = div_u64(v5, v13);
 v13 = v15.plus(((v5.minus(v15.times(v13)) != 0) as u32) as u64);
 v13 = if v13 > 1 { v13 } else { 1 };
 if (((v13 << 6) ^ v1) | (v13 >> 58)) != 0 { break 'l2; }
 v12 = 0;
 tree_ranges_hash_leaves(v6.plus(if v6 == 0 { 4096_u64 } else { 0 }), v7, v8.plus(if v8 == 0 {
   4096_u64 } else { 0 }), v9, v10, v2, (v3 != 0) as u32, v4.plus(if v4 == 0 { 4096_u64 } else { 0
   }), v5, v0.plus(if v0 == 0 { 4096_u64 } else { 0 }));
 break 'l2; }
 return v12;
}

// rattle::export vulfsjor_ffi_tree_root_of_leaves
#[inline(never)]
unsafe fn exported_tree_root_of_leaves(mut v0: u64, mut v1: u64, mut v2: u64, mut v3: u64, mut v4:
        u64, mut v5: u64, mut v6: u64, mut v7: u64, mut v8: u32) -> u32 {
 let mut v9: u64;
 let mut v11: u32;
 let mut v12: u32;
 let mut v13: u32;
 let mut v14: u32;
 let mut frame = [0_u64; 66];
 let top = (address!(frame)).plus(528) & !15;
 v9 = top;
 v9 = v9.minus(480) & 0xffffffffffffffe0;
 v11 = 0xffffffff;
 'l2: loop {
 if v1.minus(1) > 63 { break 'l2; }
 if v5 > 16 { break 'l2; }
 if v7 > 16 { break 'l2; }
 if v8 == 0 { break 'l2; }
 if v3 == 0 { break 'l2; }
 if (v3 & 63) != 0 { break 'l2; }
 fill(v9 + 416, 0, 16);
 'l3: loop {
 v12 = (v5 == 0) as u32;
 if v12 != 0 { break 'l3; }
 copy(v9.plus(416), v4.plus(if v4 == 0 { 4096_u64 } else { 0 }), v5);
 break 'l3; }
 v11 = (v2 == 0) as u32;
 v13 = (v0 == 0) as u32;
 fill(v9 + 432, 0, 16);
 'l4: loop {
 v14 = (v7 == 0) as u32;
 if v14 != 0 { break 'l4; }
 copy(v9.plus(432), v6.plus(if v6 == 0 { 4096_u64 } else { 0 }), v7);
 break 'l4; }
 v6 = if v11 != 0 { 4096_u64 } else { 0 };
 v4 = if v13 != 0 { 4096_u64 } else { 0 };
 store64(v9 + 376, v5);
 v11 = 0;
 store32(v9 + 412, 0);
 store64(v9 + 400, v7);
 store64(v9 + 368, load64(v9 + 424));
 store64(v9 + 360, load64(v9 + 416));
 store64(v9 + 384, load64(v9 + 432));
 store64(v9 + 392, load64(v9 + 440));
 store32(v9 + 408, v8 as u64);
 fill(v9 + 448, 0, 32);
 'l5: loop {
 if v12 != 0 { break 'l5; }
 copy(v9.plus(448), v9.plus(360), v5);
 break 'l5; }
 v5 = v2.plus(v6);
 v2 = v0.plus(v4);
 'l6: loop {
 if v14 != 0 { break 'l6; }
 copy(v9.plus(448) | 16, v9.plus(384), v7);
 break 'l6; }
 store64(v9 + 104, 0xa54ff53a5f1d36f1);
 store64(v9 + 96, 0x3c6ef372fe94b82a);
 store64(v9 + 88, 0xbb67ae8584caa73b);
 v12 = v1 as u32;
 v7 = (((v12 | 0x2000000) as u64) | ((v8 as u64) << 32)) ^ 0x6a09e667f3bcc908;
 store64(v9 + 80, v7);
 store64(v9 + 40, 0xa54ff53a5f1d36f1);
 store64(v9 + 32, 0x3c6ef372fe94b82a);
 store64(v9 + 24, 0xbb67ae8584caa73b);
 store64(v9 + 16, v7);
 v7 = load64(v9 + 472) ^ 0x5be0cd19137e2179;
 store64(v9 + 136, v7);
 v1 = load64(v9 + 464) ^ 0x1f83d9abfb41bd6b;
 store64(v9 + 128, v1);
 v0 = load64(v9 + 456) ^ 0x9b05688c2b3e6c1f;
 store64(v9 + 120, v0);
 v6 = load64(v9 + 448) ^ 0x510e527fade682d1;
 store64(v9 + 112, v6);
 store64(v9 + 72, v7);
 store64(v9 + 64, v1);
 store64(v9 + 56, v0);
 store64(v9 + 48, v6);
 fill(v9 + 144, 0, 16);
 store32(v9 + 160, v12 as u64);
 store32(v9 + 164, 1);
 fill(v9.plus(168), 0, 192);
 state_blake2b_State_absorb_blocks(v9.plus(16), v5, v3);
 state_blake2b_State_write_digest(v9.plus(16), v2);
 break 'l2; }
 return v11;
}

// rattle::export vulfsjor_ffi_tree_leaves_ahead
#[inline(never)]
unsafe fn exported_tree_leaves_ahead(mut v0: u64, mut v1: u64, mut v2: u64, mut v3: u64, mut v4:
        u64, mut v5: u64) -> u32 {
 let mut v7: u32;
 let mut v8: u64;
 let mut v9: u64;
 let mut v10: u64;
 let mut v11: u64;
 let mut v12: u32;
 let mut t0: u32;
 let mut t3: u64;
 'l1: loop {
 v7 = 0xffffffff;
 'l2: loop {
 t0 = state_tree_TreeState_is_ready(v0);
 if t0 == 0 { break 'l2; }
 v8 = load64(v0.plus(696));
 if v8 == 0 { break 'l1; }
 v9 = load64(v0.plus(688)).times(v8).plus(load64(v0.plus(128))).plus(load32(v0.plus(136)) as u64);
 v10 = div_u64(v9, v8);
 if v3 > 0x3ffffffffffffff { break 'l2; }
 if v9.minus(v10.times(v8)) != 0 { break 'l2; }
 v9 = v8 & 0xffffffff;
 if v9 == 0 { break 'l1; }
 v11 = div_u64(v5, v9);
 if v5.minus(1) > 0x3fffffffffffffe { break 'l2; }
 if !(v5.minus(v11.times(v9)) == 0) { break 'l2; }
 v3 = v10.plus(v3);
 t3 = div_u64(0x3ffffffffffffff_u64.minus(v5), v9);
 if v3 > t3 { break 'l2; }
 v12 = v8 as u32;
 if v12 == 0 { break 'l1; }
 if ((if v11 > 1 { v11 } else { 1 }) << 6) != v2 { break 'l2; }
 v7 = 0;
 tree_ranges_hash_leaves(v0.plus(720), load64(v0.plus(704)), v0.plus(736), load64(v0.plus(712)),
   v12, v3, 0, v4.plus(if v4 == 0 { 4096_u64 } else { 0 }), v5, v1.plus(if v1 == 0 { 4096_u64 } else
   { 0 }));
 break 'l2; }
 return v7;
 }
 abort();
}

// rattle::export vulfsjor_ffi_tree_update_leaves
#[inline(never)]
unsafe fn exported_tree_update_leaves(mut v0: u64, mut v1: u64, mut v2: u64, mut v3: u64, mut v4:
        u64) -> u32 {
 let mut v5: u64;
 let mut v7: u32;
 let mut v8: u32;
 let mut v9: u64;
 let mut v10: u64;
 let mut v11: u64;
 let mut v12: u64;
 let mut v13: u64;
 let mut v14: u64;
 let mut v15: u32;
 let mut v16: u64;
 let mut v17: u64;
 let mut v18: u64;
 let mut t0: u32;
 let mut t1: u64;
 let mut t2: u64;
 let mut t3: u64;
 let mut t4: u64;
 let mut frame = [0_u64; 34];
 let top = (address!(frame)).plus(272) & !15;
 v5 = top;
 v5 = v5.minus(224) & 0xffffffffffffffe0;
 'l1: loop {
 v7 = 0xffffffff;
 'l2: loop {
 t0 = state_tree_TreeState_is_ready(v0);
 if t0 == 0 { break 'l2; }
 'l3: loop {
 'l4: loop {
 if !(v2 == 0) { break 'l4; }
 v8 = 1;
 break 'l3;
 }
 if v4 == 0 { break 'l2; }
 v9 = load64(v0.plus(696));
 if v9 == 0 { break 'l1; }
 t1 = rem_u64(load64(v0.plus(688)).times(v9).plus(load64(v0.plus(128))).plus(load32(v0.plus(136)) as
   u64), v9);
 v8 = (t1 == 0) as u32;
 break 'l3; }
 if (v2 & 63) != 0 { break 'l2; }
 if v8 == 0 { break 'l2; }
 v10 = v0.plus(128);
 v11 = load64(v10);
 v9 = load64(v0.plus(696));
 v12 = load32(v0.plus(136)) as u64;
 v13 = 0x3ffffffffffffff_u64.minus(v11.plus(v9.times(load64(v0.plus(688)))).plus(v12));
 if v13 < v4 { break 'l2; }
 if v9 == 0 { break 'l1; }
 v14 = v2 >> 6;
 t2 = div_u64(v13.minus(v4), v9);
 if v14 > t2 { break 'l2; }
 v13 = v3.plus(if v3 == 0 { 4096_u64 } else { 0 });
 'l5: loop {
 if v2 != 0 { break 'l5; }
 state_tree_TreeState_update(v0, v13, v4);
 return 0;
 }
 v7 = (v1 == 0) as u32;
 'l6: loop {
 if v11 == 0_u64.minus(v12) { break 'l6; }
 fill(v5 + 80, 0, 16);
 v3 = load64(v0.plus(712));
 'l7: loop {
 v11 = load64(v0.plus(704));
 v8 = (v11 == 0) as u32;
 if v8 != 0 { break 'l7; }
 copy(v5.plus(80), v0.plus(720), v11);
 break 'l7; }
 fill(v5 + 208, 0, 16);
 'l8: loop {
 v15 = (v3 == 0) as u32;
 if v15 != 0 { break 'l8; }
 copy(v5.plus(208), v0.plus(736), v3);
 break 'l8; }
 v12 = v0.plus(148);
 store32(v12, 0);
 store64(v5 + 16, v11);
 store32(v5 + 52, 0);
 store64(v5 + 40, v3);
 fill(v5 + 96, 0, 64);
 store64(v5 + 8, load64(v5 + 88));
 store64(v5, load64(v5 + 80));
 store64(v5 + 24, load64(v5 + 208));
 store64(v5 + 32, load64(v5 + 216));
 store32(v5 + 48, v9);
 state_blake2b_State_write_digest(v0, v5.plus(96));
 state_blake2b_State_absorb_blocks(v0.plus(344), v5.plus(96), 64);
 v16 = v0.plus(688);
 t3 = v16;
 v16 = load64(v16).plus(1);
 store64(t3, v16);
 fill(v5 + 160, 0, 32);
 'l9: loop {
 if v8 != 0 { break 'l9; }
 copy(v5.plus(160), v5, v11);
 break 'l9; }
 'l10: loop {
 if v15 != 0 { break 'l10; }
 copy(v5.plus(160) | 16, v5.plus(24), v3);
 break 'l10; }
 v3 = load64(v5 + 160);
 v11 = load64(v5 + 168);
 v17 = load64(v5 + 176);
 v18 = load64(v5 + 184) ^ 0x5be0cd19137e2179;
 store64(v0 + 120, v18);
 v17 ^= 0x1f83d9abfb41bd6b;
 store64(v0 + 112, v17);
 v11 ^= 0x9b05688c2b3e6c1f;
 store64(v0 + 104, v11);
 v3 ^= 0x510e527fade682d1;
 store64(v0 + 96, v3);
 store64(v0 + 88, 0xa54ff53a5f1d36f1);
 store64(v0 + 80, 0x3c6ef372fe94b82b);
 v16 ^= 0xbb67ae8584caa73b;
 store64(v0 + 72, v16);
 v9 = ((v9 << 32) | 0x2000040) ^ 0x6a09e667f3bcc908;
 store64(v0 + 64, v9);
 store64(v0 + 56, v18);
 store64(v0 + 48, v17);
 store64(v0 + 40, v11);
 store64(v0 + 32, v3);
 store64(v0 + 24, 0xa54ff53a5f1d36f1);
 store64(v0 + 16, 0x3c6ef372fe94b82b);
 store64(v0 + 8, v16);
 store64(v0, v9);
 fill(v10, 0, 16);
 store32(v0 + 144, 64);
 fill(v12, 0, 196);
 v9 = load64(v0.plus(696));
 break 'l6; }
 v12 = if v7 != 0 { 4096_u64 } else { 0 };
 fill(v5 + 208, 0, 16);
 v3 = load64(v0.plus(712));
 'l11: loop {
 v11 = load64(v0.plus(704));
 v8 = (v11 == 0) as u32;
 if v8 != 0 { break 'l11; }
 copy(v5.plus(208), v0.plus(720), v11);
 break 'l11; }
 v1 = v1.plus(v12);
 fill(v5 + 160, 0, 16);
 'l12: loop {
 v15 = (v3 == 0) as u32;
 if v15 != 0 { break 'l12; }
 copy(v5.plus(160), v0.plus(736), v3);
 break 'l12; }
 store64(v5 + 112, v11);
 v7 = 0;
 store32(v5 + 148, 0);
 store64(v5 + 136, v3);
 store64(v5 + 104, load64(v5 + 216));
 store64(v5 + 96, load64(v5 + 208));
 store64(v5 + 120, load64(v5 + 160));
 store64(v5 + 128, load64(v5 + 168));
 store32(v5 + 144, v9);
 state_blake2b_State_absorb_blocks(v0.plus(344), v1, v2);
 v2 = v0.plus(688);
 t4 = v2;
 v2 = load64(v2).plus(v14);
 store64(t4, v2);
 fill(v5, 0, 32);
 'l13: loop {
 if v8 != 0 { break 'l13; }
 copy(v5, v5.plus(96), v11);
 break 'l13; }
 'l14: loop {
 if v15 != 0 { break 'l14; }
 copy(v5 | 16, v5.plus(120), v3);
 break 'l14; }
 v3 = load64(v5);
 v1 = load64(v5 + 8);
 v11 = load64(v5 + 16);
 v5 = load64(v5 + 24) ^ 0x5be0cd19137e2179;
 store64(v0 + 120, v5);
 v11 ^= 0x1f83d9abfb41bd6b;
 store64(v0 + 112, v11);
 v1 ^= 0x9b05688c2b3e6c1f;
 store64(v0 + 104, v1);
 v3 ^= 0x510e527fade682d1;
 store64(v0 + 96, v3);
 store64(v0 + 88, 0xa54ff53a5f1d36f1);
 store64(v0 + 80, 0x3c6ef372fe94b82b);
 v2 ^= 0xbb67ae8584caa73b;
 store64(v0 + 72, v2);
 v9 = ((v9 << 32) | 0x2000040) ^ 0x6a09e667f3bcc908;
 store64(v0 + 64, v9);
 store64(v0 + 56, v5);
 store64(v0 + 48, v11);
 store64(v0 + 40, v1);
 store64(v0 + 32, v3);
 store64(v0 + 24, 0xa54ff53a5f1d36f1);
 store64(v0 + 16, 0x3c6ef372fe94b82b);
 store64(v0 + 8, v2);
 store64(v0, v9);
 fill(v10, 0, 16);
 store32(v0 + 144, 64);
 fill(v0.plus(148), 0, 196);
 state_tree_TreeState_update(v0, v13, v4);
 break 'l2; }
 return v7;
 }
 abort();
}

// rattle::export vulfsjor_ffi_tree_check
#[inline(never)]
unsafe fn exported_tree_check(mut v0: u64, mut v1: u64, mut v2: u64, mut v3: u32) -> u32 {
 'l1: loop {
 break 'l1;
 }
 return 0_u32.minus(((v1 > 16) as u32) | ((v2 > 16) as u32) | ((v0.minus(65) < 0xffffffffffffffc0)
   as u32) | ((v3 == 0) as u32));
}

// rattle::export vulfsjor_ffi_tree_init_leaf
#[inline(never)]
unsafe fn exported_tree_init_leaf(mut v0: u64, mut v1: u64, mut v2: u32, mut v3: u64, mut v4: u64,
        mut v5: u64, mut v6: u64, mut v7: u32) -> u32 {
 let mut v8: u64;
 let mut v9: u32;
 let mut v10: u32;
 let mut frame = [0_u64; 22];
 let top = (address!(frame)).plus(176) & !15;
 v8 = top;
 v8 = v8.minus(128) & 0xffffffffffffffe0;
 'l2: loop {
 'l3: loop {
 if v4 > 16 { break 'l3; }
 if v6 > 16 { break 'l3; }
 if v7 != 0 { break 'l2; }
 break 'l3; }
 fill(v0, 0, 344);
 return 0xffffffff;
 }
 fill(v8 + 64, 0, 16);
 'l4: loop {
 v9 = (v4 == 0) as u32;
 if v9 != 0 { break 'l4; }
 copy(v8.plus(64), v3.plus(if v3 == 0 { 4096_u64 } else { 0 }), v4);
 break 'l4; }
 fill(v8 + 80, 0, 16);
 'l5: loop {
 v10 = (v6 == 0) as u32;
 if v10 != 0 { break 'l5; }
 copy(v8.plus(80), v5.plus(if v5 == 0 { 4096_u64 } else { 0 }), v6);
 break 'l5; }
 store64(v8 + 24, v4);
 store32(v8 + 60, 0);
 store64(v8 + 48, v6);
 store64(v8 + 16, load64(v8 + 72));
 store64(v8 + 8, load64(v8 + 64));
 store64(v8 + 32, load64(v8 + 80));
 store64(v8 + 40, load64(v8 + 88));
 store32(v8 + 56, v7 as u64);
 fill(v8 + 96, 0, 32);
 'l6: loop {
 if v9 != 0 { break 'l6; }
 copy(v8.plus(96), v8.plus(8), v4);
 break 'l6; }
 'l7: loop {
 if v10 != 0 { break 'l7; }
 copy(v8.plus(96) | 16, v8.plus(32), v6);
 break 'l7; }
 v4 = load64(v8 + 96);
 v6 = load64(v8 + 104);
 v5 = load64(v8 + 112);
 v8 = load64(v8 + 120);
 store64(v0 + 128, 0);
 v8 ^= 0x5be0cd19137e2179;
 store64(v0 + 120, v8);
 v5 ^= 0x1f83d9abfb41bd6b;
 store64(v0 + 112, v5);
 v6 ^= 0x9b05688c2b3e6c1f;
 store64(v0 + 104, v6);
 v4 ^= 0x510e527fade682d1;
 store64(v0 + 96, v4);
 store64(v0 + 88, 0xa54ff53a5f1d36f1);
 store64(v0 + 80, 0x3c6ef372fe94b82b);
 v3 = v1 ^ 0xbb67ae8584caa73b;
 store64(v0 + 72, v3);
 v1 = (((v7 as u64) << 32) | 0x2000040) ^ 0x6a09e667f3bcc908;
 store64(v0 + 64, v1);
 store64(v0 + 56, v8);
 store64(v0 + 48, v5);
 store64(v0 + 40, v6);
 store64(v0 + 32, v4);
 store64(v0 + 24, 0xa54ff53a5f1d36f1);
 store64(v0 + 16, 0x3c6ef372fe94b82b);
 store64(v0 + 8, v3);
 store64(v0, v1);
 store64(v0 + 136, 0);
 store32(v0 + 148, ((v2 != 0) as u32) as u64);
 store32(v0 + 144, 64);
 fill(v0.plus(152), 0, 192);
 return 0;
}

// rattle::export vulfsjor_ffi_tree_init_root
#[inline(never)]
unsafe fn exported_tree_init_root(mut v0: u64, mut v1: u64, mut v2: u64, mut v3: u64, mut v4: u64,
        mut v5: u64, mut v6: u32) -> u32 {
 let mut v7: u64;
 let mut v8: u32;
 let mut v9: u32;
 let mut frame = [0_u64; 22];
 let top = (address!(frame)).plus(176) & !15;
 v7 = top;
 v7 = v7.minus(128) & 0xffffffffffffffe0;
 'l2: loop {
 'l3: loop {
 if v1.minus(1) > 63 { break 'l3; }
 if v3 > 16 { break 'l3; }
 if v5 > 16 { break 'l3; }
 if v6 != 0 { break 'l2; }
 break 'l3; }
 fill(v0, 0, 344);
 return 0xffffffff;
 }
 fill(v7 + 64, 0, 16);
 'l4: loop {
 v8 = (v3 == 0) as u32;
 if v8 != 0 { break 'l4; }
 copy(v7.plus(64), v2.plus(if v2 == 0 { 4096_u64 } else { 0 }), v3);
 break 'l4; }
 fill(v7 + 80, 0, 16);
 'l5: loop {
 v9 = (v5 == 0) as u32;
 if v9 != 0 { break 'l5; }
 copy(v7.plus(80), v4.plus(if v4 == 0 { 4096_u64 } else { 0 }), v5);
 break 'l5; }
 store64(v7 + 24, v3);
 store32(v7 + 60, 0);
 store64(v7 + 48, v5);
 store64(v7 + 16, load64(v7 + 72));
 store64(v7 + 8, load64(v7 + 64));
 store64(v7 + 32, load64(v7 + 80));
 store64(v7 + 40, load64(v7 + 88));
 store32(v7 + 56, v6 as u64);
 fill(v7 + 96, 0, 32);
 'l6: loop {
 if v8 != 0 { break 'l6; }
 copy(v7.plus(96), v7.plus(8), v3);
 break 'l6; }
 'l7: loop {
 if v9 != 0 { break 'l7; }
 copy(v7.plus(96) | 16, v7.plus(32), v5);
 break 'l7; }
 v3 = load64(v7 + 96);
 v5 = load64(v7 + 104);
 v4 = load64(v7 + 112);
 v7 = load64(v7 + 120);
 store64(v0 + 128, 0);
 v7 ^= 0x5be0cd19137e2179;
 store64(v0 + 120, v7);
 v4 ^= 0x1f83d9abfb41bd6b;
 store64(v0 + 112, v4);
 v5 ^= 0x9b05688c2b3e6c1f;
 store64(v0 + 104, v5);
 v3 ^= 0x510e527fade682d1;
 store64(v0 + 96, v3);
 store64(v0 + 88, 0xa54ff53a5f1d36f1);
 store64(v0 + 80, 0x3c6ef372fe94b82a);
 store64(v0 + 72, 0xbb67ae8584caa73b);
 v8 = v1 as u32;
 v1 = (((v8 | 0x2000000) as u64) | ((v6 as u64) << 32)) ^ 0x6a09e667f3bcc908;
 store64(v0 + 64, v1);
 store64(v0 + 56, v7);
 store64(v0 + 48, v4);
 store64(v0 + 40, v5);
 store64(v0 + 32, v3);
 store64(v0 + 24, 0xa54ff53a5f1d36f1);
 store64(v0 + 16, 0x3c6ef372fe94b82a);
 store64(v0 + 8, 0xbb67ae8584caa73b);
 store64(v0, v1);
 store64(v0 + 136, 0);
 store32(v0 + 148, 1);
 store32(v0 + 144, v8 as u64);
 fill(v0.plus(152), 0, 192);
 return 0;
}

// blake2_tree::thread_plan::Plan::of
#[inline(never)]
unsafe fn tree_thread_plan_Plan_of(mut v0: u64, mut v1: u64, mut v2: u64, mut v3: u32, mut v4: u64,
        mut v5: u64, mut v6: u64) {
 let mut v7: u64;
 let mut v8: u64;
 let mut v9: u64;
 let mut v10: u64;
 let mut v11: u64;
 let mut t3: u64;
 let mut t4: u64;
 let mut t5: u64;
 'l1: loop {
 if v3 == 0 { break 'l1; }
 v7 = v3 as u64;
 v8 = div_u64(v5, v7);
 v9 = div_u64(load64(v1.plus(16)), v7);
 if v2 == 0 { break 'l1; }
 'l2: loop {
 v8 = v8.plus(((v5.minus(v8.times(v7)) != 0) as u32) as u64);
 v10 = if v8 > 1 { v8 } else { 1 };
 v8 = div_u64(v10, v2);
 v8 = v8.plus(((v10.minus(v8.times(v2)) != 0) as u32) as u64);
 if v8 < 4 { break 'l2; }
 v11 = (if (v8 & 3) == 0 { 0_u64 } else { 4 }).plus(v8) & 0xfffffffffffffffc;
 if v11 == 0 { break 'l1; }
 t3 = div_u64(v10, v11);
 t4 = v8 & 0xfffffffffffffffc;
 v8 = t3;
 v8 = if v2 > v8.plus(((v10.minus(v8.times(v11)) != 0) as u32) as u64) { t4 } else { v11 };
 break 'l2; }
 'l3: loop {
 v9 >>= 2;
 v9 = (if v9 > 1 { v9 } else { 1 }) << 2;
 v8 = if v8 < v9 { v8 } else { v9 };
 v1 = load64(v1.plus(24));
 if v8.times(v7) <= v1 { break 'l3; }
 t5 = div_u64(v1, v7);
 v8 = t5 & 0xfffffffffffffffc;
 v8 = if v8 > 1 { v8 } else { 1 };
 break 'l3; }
 v8 = v8.times(v7);
 if v8 == 0 { break 'l1; }
 store64(v0 + 64, v6);
 store64(v0 + 32, v8);
 store64(v0 + 24, v7);
 store64(v0 + 16, 0);
 store64(v0, v4);
 store64(v0 + 8, v5.plus(v4));
 v7 = div_u64(v5, v8);
 v7 = v7.plus(((v5.minus(v7.times(v8)) != 0) as u32) as u64);
 v7 = if v6 > v7 { v6 } else { v7 };
 store64(v0 + 40, v7);
 store64(v0 + 56, if v7 == 0 { 0 } else { (v10 << 6) });
 store64(v0 + 48, if v7 < v2 { v7 } else { v2 });
 return;
 }
 abort();
}

// rattle::export vulfsjor_ffi_tree_plan
#[inline(never)]
unsafe fn exported_tree_plan(mut v0: u64, mut v1: u64, mut v2: u64, mut v3: u32, mut v4: u64) -> u32
        {
 let mut v5: u64;
 let mut v6: u32;
 let mut v7: u64;
 let mut v8: u64;
 let mut frame = [0_u64; 12];
 let top = (address!(frame)).plus(96) & !15;
 v5 = top.minus(80);
 v6 = 0xffffffff;
 'l2: loop {
 if v3 == 0 { break 'l2; }
 v7 = load64(v4);
 if v7 == 0 { break 'l2; }
 v8 = load64(v4.plus(8));
 if v8 == 0 { break 'l2; }
 if v2 > 0x3ffffffffffffff { break 'l2; }
 if v2 > (!v1) { break 'l2; }
 v6 = 0;
 fill(v5.plus(8), 0, 72);
 v8 = div_u64(v2, v8);
 v8 = if v8 > 1 { v8 } else { 1 };
 tree_thread_plan_Plan_of(v5.plus(8), v4, if v8 < v7 { v8 } else { v7 }, v3, v1, v2, 1);
 copy(v0, v5.plus(8), 72);
 break 'l2; }
 return v6;
}

// rattle::export vulfsjor_ffi_tree_plan_update
#[inline(never)]
unsafe fn exported_tree_plan_update(mut v0: u64, mut v1: u64, mut v2: u64, mut v3: u64) -> u32 {
 let mut v4: u64;
 let mut v5: u32;
 let mut v6: u64;
 let mut v7: u64;
 let mut v8: u64;
 let mut v9: u64;
 let mut v10: u32;
 let mut v11: u64;
 let mut v12: u64;
 let mut t0: u32;
 let mut t2: u64;
 let mut t3: u64;
 let mut t5: u64;
 let mut t6: u64;
 let mut frame = [0_u64; 12];
 let top = (address!(frame)).plus(96) & !15;
 v4 = top.minus(80);
 'l1: loop {
 v5 = 0xffffffff;
 'l2: loop {
 v6 = load64(v3);
 if v6 == 0 { break 'l2; }
 v7 = load64(v3.plus(8));
 if v7 == 0 { break 'l2; }
 t0 = state_tree_TreeState_is_ready(v1);
 if t0 == 0 { break 'l2; }
 v8 = load64(v1.plus(696));
 v9 = v8.times(load64(v1.plus(688))).plus(load64(v1.plus(128))).plus(load32(v1.plus(136)) as u64);
 if 0x3ffffffffffffff_u64.minus(v9) < v2 { break 'l2; }
 v5 = 0;
 fill(v4.plus(8), 0, 72);
 v10 = v8 as u32;
 if v10 == 0 { break 'l1; }
 v1 = div_u64(v2, v7);
 v1 = if v1 > 1 { v1 } else { 1 };
 t2 = if v1 < v6 { v1 } else { v6 };
 v1 = v8 & 0xffffffff;
 t3 = rem_u64(v9, v1);
 v6 = rem_u64(v1.minus(t3), v1);
 v6 = if v2 < v6 { v2 } else { v6 };
 v2 = v2.minus(v6);
 t5 = v6;
 v6 = v2.minus(((v2 != 0) as u32) as u64);
 t6 = rem_u64(v6, v1);
 v1 = v6.minus(t6);
 tree_thread_plan_Plan_of(v4.plus(8), v3, t2, v10, t5, v1, 0);
 v3 = load64(v4 + 8);
 v6 = load64(v4 + 16);
 v7 = load64(v4 + 32);
 v8 = load64(v4 + 40);
 v9 = load64(v4 + 48);
 v11 = load64(v4 + 56);
 v12 = load64(v4 + 64);
 store64(v0 + 64, load64(v4 + 72));
 store64(v0 + 56, v12);
 store64(v0 + 48, v11);
 store64(v0 + 40, v9);
 store64(v0 + 32, v8);
 store64(v0 + 24, v7);
 store64(v0 + 16, v2.minus(v1));
 store64(v0 + 8, v6);
 store64(v0, v3);
 break 'l2; }
 return v5;
 }
 abort();
}

// rattle::export vulfsjor_ffi_tree_part
#[inline(never)]
unsafe fn exported_tree_part(mut v0: u64, mut v1: u64, mut v2: u64) -> u32 {
 let mut v3: u32;
 let mut v4: u64;
 let mut v5: u64;
 let mut v6: u64;
 let mut v7: u64;
 let mut v8: u64;
 let mut v9: u64;
 let mut v10: u64;
 let mut v11: u64;
 let mut v12: u64;
 let mut v13: u64;
 let mut v14: u32;
 let mut t2: u64;
 let mut t3: u64;
 let mut t4: u64;
 v3 = 0xffffffff;
 'l2: loop {
 v4 = load64(v1.plus(24));
 if v4.minus(1) > 0xfffffffe { break 'l2; }
 v5 = load64(v1.plus(32));
 if v5 == 0 { break 'l2; }
 v6 = div_u64(v5, v4);
 if v5.minus(v6.times(v4)) != 0 { break 'l2; }
 v7 = load64(v1.plus(8));
 v8 = load64(v1);
 if v7 < v8 { break 'l2; }
 v9 = v7.minus(v8);
 if v9 > 0x3ffffffffffffff { break 'l2; }
 v10 = load64(v1.plus(64));
 if v10 > 1 { break 'l2; }
 v11 = 0;
 v12 = load64(v1.plus(40));
 v13 = div_u64(v9, v5);
 v13 = v13.plus(((v9.minus(v13.times(v5)) != 0) as u32) as u64);
 if v12 != (if v10 > v13 { v10 } else { v13 }) { break 'l2; }
 'l3: loop {
 v14 = (v12 == 0) as u32;
 if v14 != 0 { break 'l3; }
 t2 = div_u64(v9, v4);
 t3 = rem_u64(v9, v4);
 v13 = t2.plus(((t3 != 0) as u32) as u64);
 v11 = (if v13 > 1 { v13 } else { 1 }) << 6;
 break 'l3; }
 if load64(v1.plus(56)) != v11 { break 'l2; }
 v13 = load64(v1.plus(48));
 if v12 < v13 { break 'l2; }
 'l4: loop {
 if v14 != 0 { break 'l4; }
 if v13 == 0 { break 'l2; }
 break 'l4; }
 'l5: loop {
 'l6: loop {
 if v10 != 1 { break 'l6; }
 if v12 <= v2 { break 'l2; }
 if load64(v1.plus(16)) == 0 { break 'l5; }
 break 'l2;
 }
 if v8 >= v4 { break 'l2; }
 t4 = rem_u64(v9, v4);
 if t4 != 0 { break 'l2; }
 if v12 <= v2 { break 'l2; }
 v1 = load64(v1.plus(16));
 if (((v7 == v8) as u32) | ((v1 != 0) as u32)) == 0 { break 'l2; }
 if v1 > v4 { break 'l2; }
 if v1.plus(v7) > 0x3ffffffffffffff { break 'l2; }
 break 'l5; }
 v1 = v6.times(v2);
 store64(v0, v1);
 store64(v0 + 24, v1 << 6);
 v1 = v8.plus(v5.times(v2));
 store64(v0 + 8, v1);
 store64(v0 + 40, if v2.plus(1) == v12 { v10 } else { 0 });
 v1 = v7.minus(v1);
 v1 = if v1 < v5 { v1 } else { v5 };
 store64(v0 + 16, v1);
 v5 = div_u64(v1, v4);
 v1 = v5.plus(((v1.minus(v5.times(v4)) != 0) as u32) as u64);
 store64(v0 + 32, (if v1 > 1 { v1 } else { 1 }) << 6);
 v3 = 0;
 break 'l2; }
 return v3;
}

pub(crate) unsafe fn memcmp(a: *const u8, a_length: usize, b: *const u8, b_length: usize) -> i32 {
    exported_memcmp(a as u64, a_length as u64, b as u64, b_length as u64) as i32
}

pub(crate) unsafe fn wipe(bytes: *mut u8, length: usize) {
    exported_wipe(bytes as u64, length as u64);
}

pub(crate) unsafe fn blake2b(out: *mut u8, out_length: usize, input: *const u8, input_length: usize,
        key: *const u8, key_length: usize) -> i32 {
    exported_blake2b(out as u64, out_length as u64, input as u64, input_length as u64, key as u64, key_length as u64) as i32
}

pub(crate) unsafe fn blake2b_many(out: *mut u8, out_length: usize, output_size: usize, messages:
        *const Text, count: usize, key: *const u8, key_length: usize, salt: *const u8, salt_length:
        usize, personal: *const u8, personal_length: usize) -> i32 {
    let mut pairs = pairs_of(messages, count);
    exported_blake2b_many(out as u64, out_length as u64, output_size as u64, address!(pairs), count as u64,
        key as u64, key_length as u64, salt as u64, salt_length as u64, personal as u64,
        personal_length as u64) as i32
}

pub(crate) unsafe fn blake2b_init_salt_personal<S>(state: &mut S, output_size: usize, key: *const
        u8, key_length: usize, salt: *const u8, salt_length: usize, personal: *const u8,
        personal_length: usize) -> i32 {
    exported_blake2b_init_salt_personal(state as *mut _ as u64, output_size as u64, key as u64, key_length as u64, salt as u64, salt_length as u64, personal as u64, personal_length as u64) as i32
}

pub(crate) unsafe fn blake2b_init_key<S>(state: &mut S, output_size: usize, key: *const u8,
        key_length: usize) -> i32 {
    exported_blake2b_init_key(state as *mut _ as u64, output_size as u64, key as u64, key_length as u64) as i32
}

pub(crate) unsafe fn blake2b_init_tree<S>(state: &mut S, output_size: usize, key: *const u8,
        key_length: usize, salt: *const u8, salt_length: usize, personal: *const u8,
        personal_length: usize, tree: &Tree) -> i32 {
    let mut tree_ = [0_u64; 2];
    store64(address!(tree_) + 0, tree.node_offset as u64);
    store32(address!(tree_) + 8, tree.leaf_length as u64);
    store8(address!(tree_) + 12, tree.fanout as u64);
    store8(address!(tree_) + 13, tree.depth as u64);
    store8(address!(tree_) + 14, tree.node_depth as u64);
    store8(address!(tree_) + 15, tree.inner_length as u64);
    exported_blake2b_init_tree(state as *mut _ as u64, output_size as u64, key as u64, key_length as u64, salt as u64, salt_length as u64, personal as u64, personal_length as u64, address!(tree_)) as i32
}

pub(crate) unsafe fn blake2b_init_param<S>(state: &mut S, block: *const u8, block_length: usize) ->
        i32 {
    exported_blake2b_init_param(state as *mut _ as u64, block as u64, block_length as u64) as i32
}

pub(crate) unsafe fn blake2b_update<S>(state: &mut S, input: *const u8, input_length: usize) -> i32
        {
    exported_blake2b_update(state as *mut _ as u64, input as u64, input_length as u64) as i32
}

pub(crate) unsafe fn blake2b_update_many<S>(states: *mut S, state_count: usize, inputs: *const Text,
        input_count: usize) -> i32 {
    let mut pairs = pairs_of(inputs, input_count);
    exported_blake2b_update_many(states as u64, state_count as u64, address!(pairs), input_count as u64) as i32
}

pub(crate) unsafe fn blake2b_final<S>(state: &mut S, out: *mut u8, out_length: usize) -> i32 {
    exported_blake2b_final(state as *mut _ as u64, out as u64, out_length as u64) as i32
}

pub(crate) unsafe fn blake2b_verify<S>(state: &mut S, tag: *const u8, tag_length: usize) -> i32 {
    exported_blake2b_verify(state as *mut _ as u64, tag as u64, tag_length as u64) as i32
}

pub(crate) unsafe fn blake2b_set_last_node<S>(state: &mut S, on: u32) -> i32 {
    exported_blake2b_set_last_node(state as *mut _ as u64, on) as i32
}

pub(crate) unsafe fn blake2b_reset<S>(state: &mut S) -> i32 {
    exported_blake2b_reset(state as *mut _ as u64) as i32
}

pub(crate) unsafe fn blake2b_save<S>(state: &S, out: *mut u8, out_length: usize) -> i32 {
    exported_blake2b_save(state as *const _ as u64, out as u64, out_length as u64) as i32
}

pub(crate) unsafe fn blake2b_load<S>(state: &mut S, saved: *const u8, saved_length: usize) -> i32 {
    exported_blake2b_load(state as *mut _ as u64, saved as u64, saved_length as u64) as i32
}

pub(crate) unsafe fn blake2b_wipe<S>(state: &mut S) {
    exported_blake2b_wipe(state as *mut _ as u64);
}

pub(crate) unsafe fn blake2b_digest_size<S>(state: &S) -> usize {
    exported_blake2b_digest_size(state as *const _ as u64) as usize
}

pub(crate) unsafe fn blake2b_count<S>(state: &S) -> u64 {
    exported_blake2b_count(state as *const _ as u64)
}

pub(crate) unsafe fn blake2b_state_size() -> usize {
    module_blake2b_state_size() as usize
}

pub(crate) unsafe fn blake2s(out: *mut u8, out_length: usize, input: *const u8, input_length: usize,
        key: *const u8, key_length: usize) -> i32 {
    exported_blake2s(out as u64, out_length as u64, input as u64, input_length as u64, key as u64, key_length as u64) as i32
}

pub(crate) unsafe fn blake2s_many(out: *mut u8, out_length: usize, output_size: usize, messages:
        *const Text, count: usize, key: *const u8, key_length: usize, salt: *const u8, salt_length:
        usize, personal: *const u8, personal_length: usize) -> i32 {
    let mut pairs = pairs_of(messages, count);
    exported_blake2s_many(out as u64, out_length as u64, output_size as u64, address!(pairs), count as u64,
        key as u64, key_length as u64, salt as u64, salt_length as u64, personal as u64,
        personal_length as u64) as i32
}

pub(crate) unsafe fn blake2s_init_salt_personal<S>(state: &mut S, output_size: usize, key: *const
        u8, key_length: usize, salt: *const u8, salt_length: usize, personal: *const u8,
        personal_length: usize) -> i32 {
    exported_blake2s_init_salt_personal(state as *mut _ as u64, output_size as u64, key as u64, key_length as u64, salt as u64, salt_length as u64, personal as u64, personal_length as u64) as i32
}

pub(crate) unsafe fn blake2s_init_key<S>(state: &mut S, output_size: usize, key: *const u8,
        key_length: usize) -> i32 {
    exported_blake2s_init_key(state as *mut _ as u64, output_size as u64, key as u64, key_length as u64) as i32
}

pub(crate) unsafe fn blake2s_init_tree<S>(state: &mut S, output_size: usize, key: *const u8,
        key_length: usize, salt: *const u8, salt_length: usize, personal: *const u8,
        personal_length: usize, tree: &Tree) -> i32 {
    let mut tree_ = [0_u64; 2];
    store64(address!(tree_) + 0, tree.node_offset as u64);
    store32(address!(tree_) + 8, tree.leaf_length as u64);
    store8(address!(tree_) + 12, tree.fanout as u64);
    store8(address!(tree_) + 13, tree.depth as u64);
    store8(address!(tree_) + 14, tree.node_depth as u64);
    store8(address!(tree_) + 15, tree.inner_length as u64);
    exported_blake2s_init_tree(state as *mut _ as u64, output_size as u64, key as u64, key_length as u64, salt as u64, salt_length as u64, personal as u64, personal_length as u64, address!(tree_)) as i32
}

pub(crate) unsafe fn blake2s_init_param<S>(state: &mut S, block: *const u8, block_length: usize) ->
        i32 {
    exported_blake2s_init_param(state as *mut _ as u64, block as u64, block_length as u64) as i32
}

pub(crate) unsafe fn blake2s_update<S>(state: &mut S, input: *const u8, input_length: usize) -> i32
        {
    exported_blake2s_update(state as *mut _ as u64, input as u64, input_length as u64) as i32
}

pub(crate) unsafe fn blake2s_update_many<S>(states: *mut S, state_count: usize, inputs: *const Text,
        input_count: usize) -> i32 {
    let mut pairs = pairs_of(inputs, input_count);
    exported_blake2s_update_many(states as u64, state_count as u64, address!(pairs), input_count as u64) as i32
}

pub(crate) unsafe fn blake2s_final<S>(state: &mut S, out: *mut u8, out_length: usize) -> i32 {
    exported_blake2s_final(state as *mut _ as u64, out as u64, out_length as u64) as i32
}

pub(crate) unsafe fn blake2s_verify<S>(state: &mut S, tag: *const u8, tag_length: usize) -> i32 {
    exported_blake2s_verify(state as *mut _ as u64, tag as u64, tag_length as u64) as i32
}

pub(crate) unsafe fn blake2s_set_last_node<S>(state: &mut S, on: u32) -> i32 {
    exported_blake2s_set_last_node(state as *mut _ as u64, on) as i32
}

pub(crate) unsafe fn blake2s_reset<S>(state: &mut S) -> i32 {
    exported_blake2s_reset(state as *mut _ as u64) as i32
}

pub(crate) unsafe fn blake2s_save<S>(state: &S, out: *mut u8, out_length: usize) -> i32 {
    exported_blake2s_save(state as *const _ as u64, out as u64, out_length as u64) as i32
}

pub(crate) unsafe fn blake2s_load<S>(state: &mut S, saved: *const u8, saved_length: usize) -> i32 {
    exported_blake2s_load(state as *mut _ as u64, saved as u64, saved_length as u64) as i32
}

pub(crate) unsafe fn blake2s_wipe<S>(state: &mut S) {
    exported_blake2s_wipe(state as *mut _ as u64);
}

pub(crate) unsafe fn blake2s_digest_size<S>(state: &S) -> usize {
    exported_blake2s_digest_size(state as *const _ as u64) as usize
}

pub(crate) unsafe fn blake2s_count<S>(state: &S) -> u64 {
    exported_blake2s_count(state as *const _ as u64)
}

pub(crate) unsafe fn blake2s_state_size() -> usize {
    module_blake2s_state_size() as usize
}

pub(crate) unsafe fn blake2bp(out: *mut u8, out_length: usize, input: *const u8, input_length:
        usize, key: *const u8, key_length: usize) -> i32 {
    exported_blake2bp(out as u64, out_length as u64, input as u64, input_length as u64, key as u64, key_length as u64) as i32
}

pub(crate) unsafe fn blake2bp_init_salt_personal<S>(state: &mut S, output_size: usize, key: *const
        u8, key_length: usize, salt: *const u8, salt_length: usize, personal: *const u8,
        personal_length: usize) -> i32 {
    exported_blake2bp_init_salt_personal(state as *mut _ as u64, output_size as u64, key as u64, key_length as u64, salt as u64, salt_length as u64, personal as u64, personal_length as u64) as i32
}

pub(crate) unsafe fn blake2bp_init_key<S>(state: &mut S, output_size: usize, key: *const u8,
        key_length: usize) -> i32 {
    exported_blake2bp_init_key(state as *mut _ as u64, output_size as u64, key as u64, key_length as u64) as i32
}

pub(crate) unsafe fn blake2bp_update<S>(state: &mut S, input: *const u8, input_length: usize) -> i32
        {
    exported_blake2bp_update(state as *mut _ as u64, input as u64, input_length as u64) as i32
}

pub(crate) unsafe fn blake2bp_final<S>(state: &mut S, out: *mut u8, out_length: usize) -> i32 {
    exported_blake2bp_final(state as *mut _ as u64, out as u64, out_length as u64) as i32
}

pub(crate) unsafe fn blake2bp_verify<S>(state: &mut S, tag: *const u8, tag_length: usize) -> i32 {
    exported_blake2bp_verify(state as *mut _ as u64, tag as u64, tag_length as u64) as i32
}

pub(crate) unsafe fn blake2bp_reset<S>(state: &mut S) -> i32 {
    exported_blake2bp_reset(state as *mut _ as u64) as i32
}

pub(crate) unsafe fn blake2bp_wipe<S>(state: &mut S) {
    exported_blake2bp_wipe(state as *mut _ as u64);
}

pub(crate) unsafe fn blake2bp_digest_size<S>(state: &S) -> usize {
    exported_blake2bp_digest_size(state as *const _ as u64) as usize
}

pub(crate) unsafe fn blake2bp_count<S>(state: &S) -> u64 {
    exported_blake2bp_count(state as *const _ as u64)
}

pub(crate) unsafe fn blake2bp_state_size() -> usize {
    module_blake2bp_state_size() as usize
}

pub(crate) unsafe fn blake2sp(out: *mut u8, out_length: usize, input: *const u8, input_length:
        usize, key: *const u8, key_length: usize) -> i32 {
    exported_blake2sp(out as u64, out_length as u64, input as u64, input_length as u64, key as u64, key_length as u64) as i32
}

pub(crate) unsafe fn blake2sp_init_salt_personal<S>(state: &mut S, output_size: usize, key: *const
        u8, key_length: usize, salt: *const u8, salt_length: usize, personal: *const u8,
        personal_length: usize) -> i32 {
    exported_blake2sp_init_salt_personal(state as *mut _ as u64, output_size as u64, key as u64, key_length as u64, salt as u64, salt_length as u64, personal as u64, personal_length as u64) as i32
}

pub(crate) unsafe fn blake2sp_init_key<S>(state: &mut S, output_size: usize, key: *const u8,
        key_length: usize) -> i32 {
    exported_blake2sp_init_key(state as *mut _ as u64, output_size as u64, key as u64, key_length as u64) as i32
}

pub(crate) unsafe fn blake2sp_update<S>(state: &mut S, input: *const u8, input_length: usize) -> i32
        {
    exported_blake2sp_update(state as *mut _ as u64, input as u64, input_length as u64) as i32
}

pub(crate) unsafe fn blake2sp_final<S>(state: &mut S, out: *mut u8, out_length: usize) -> i32 {
    exported_blake2sp_final(state as *mut _ as u64, out as u64, out_length as u64) as i32
}

pub(crate) unsafe fn blake2sp_verify<S>(state: &mut S, tag: *const u8, tag_length: usize) -> i32 {
    exported_blake2sp_verify(state as *mut _ as u64, tag as u64, tag_length as u64) as i32
}

pub(crate) unsafe fn blake2sp_reset<S>(state: &mut S) -> i32 {
    exported_blake2sp_reset(state as *mut _ as u64) as i32
}

pub(crate) unsafe fn blake2sp_wipe<S>(state: &mut S) {
    exported_blake2sp_wipe(state as *mut _ as u64);
}

pub(crate) unsafe fn blake2sp_digest_size<S>(state: &S) -> usize {
    exported_blake2sp_digest_size(state as *const _ as u64) as usize
}

pub(crate) unsafe fn blake2sp_count<S>(state: &S) -> u64 {
    exported_blake2sp_count(state as *const _ as u64)
}

pub(crate) unsafe fn blake2sp_state_size() -> usize {
    module_blake2sp_state_size() as usize
}

pub(crate) unsafe fn blake2xb(out: *mut u8, out_length: usize, input: *const u8, input_length:
        usize, key: *const u8, key_length: usize) -> i32 {
    exported_blake2xb(out as u64, out_length as u64, input as u64, input_length as u64, key as u64, key_length as u64) as i32
}

pub(crate) unsafe fn blake2xb_derive_key(out: *mut u8, out_length: usize, key: *const u8,
        key_length: usize, context: *const u8, context_length: usize) -> i32 {
    exported_blake2xb_derive_key(out as u64, out_length as u64, key as u64, key_length as u64, context as u64, context_length as u64) as i32
}

pub(crate) unsafe fn blake2xb_init_salt_personal<S>(state: &mut S, xof_length: u64, key: *const u8,
        key_length: usize, salt: *const u8, salt_length: usize, personal: *const u8,
        personal_length: usize) -> i32 {
    exported_blake2xb_init_salt_personal(state as *mut _ as u64, xof_length, key as u64, key_length as u64, salt as u64, salt_length as u64, personal as u64, personal_length as u64) as i32
}

pub(crate) unsafe fn blake2xb_update<S>(state: &mut S, input: *const u8, input_length: usize) -> i32
        {
    exported_blake2xb_update(state as *mut _ as u64, input as u64, input_length as u64) as i32
}

pub(crate) unsafe fn blake2xb_squeeze<S>(state: &mut S, out: *mut u8, out_length: usize) -> i32 {
    exported_blake2xb_squeeze(state as *mut _ as u64, out as u64, out_length as u64) as i32
}

pub(crate) unsafe fn blake2xb_reset<S>(state: &mut S) -> i32 {
    exported_blake2xb_reset(state as *mut _ as u64) as i32
}

pub(crate) unsafe fn blake2xb_wipe<S>(state: &mut S) {
    exported_blake2xb_wipe(state as *mut _ as u64);
}

pub(crate) unsafe fn blake2xb_left<S>(state: &S) -> u64 {
    exported_blake2xb_left(state as *const _ as u64)
}

pub(crate) unsafe fn blake2xb_count<S>(state: &S) -> u64 {
    exported_blake2xb_count(state as *const _ as u64)
}

pub(crate) unsafe fn blake2xb_state_size() -> usize {
    module_blake2xb_state_size() as usize
}

pub(crate) unsafe fn blake2xs(out: *mut u8, out_length: usize, input: *const u8, input_length:
        usize, key: *const u8, key_length: usize) -> i32 {
    exported_blake2xs(out as u64, out_length as u64, input as u64, input_length as u64, key as u64, key_length as u64) as i32
}

pub(crate) unsafe fn blake2xs_derive_key(out: *mut u8, out_length: usize, key: *const u8,
        key_length: usize, context: *const u8, context_length: usize) -> i32 {
    exported_blake2xs_derive_key(out as u64, out_length as u64, key as u64, key_length as u64, context as u64, context_length as u64) as i32
}

pub(crate) unsafe fn blake2xs_init_salt_personal<S>(state: &mut S, xof_length: u64, key: *const u8,
        key_length: usize, salt: *const u8, salt_length: usize, personal: *const u8,
        personal_length: usize) -> i32 {
    exported_blake2xs_init_salt_personal(state as *mut _ as u64, xof_length, key as u64, key_length as u64, salt as u64, salt_length as u64, personal as u64, personal_length as u64) as i32
}

pub(crate) unsafe fn blake2xs_update<S>(state: &mut S, input: *const u8, input_length: usize) -> i32
        {
    exported_blake2xs_update(state as *mut _ as u64, input as u64, input_length as u64) as i32
}

pub(crate) unsafe fn blake2xs_squeeze<S>(state: &mut S, out: *mut u8, out_length: usize) -> i32 {
    exported_blake2xs_squeeze(state as *mut _ as u64, out as u64, out_length as u64) as i32
}

pub(crate) unsafe fn blake2xs_reset<S>(state: &mut S) -> i32 {
    exported_blake2xs_reset(state as *mut _ as u64) as i32
}

pub(crate) unsafe fn blake2xs_wipe<S>(state: &mut S) {
    exported_blake2xs_wipe(state as *mut _ as u64);
}

pub(crate) unsafe fn blake2xs_left<S>(state: &S) -> u64 {
    exported_blake2xs_left(state as *const _ as u64)
}

pub(crate) unsafe fn blake2xs_count<S>(state: &S) -> u64 {
    exported_blake2xs_count(state as *const _ as u64)
}

pub(crate) unsafe fn blake2xs_state_size() -> usize {
    module_blake2xs_state_size() as usize
}

pub(crate) unsafe fn tree_root(out: *mut u8, out_length: usize, input: *const u8, input_length:
        usize, salt: *const u8, salt_length: usize, personal: *const u8, personal_length: usize,
        leaf_length: u32) -> i32 {
    exported_tree_root(out as u64, out_length as u64, input as u64, input_length as u64, salt as u64, salt_length as u64, personal as u64, personal_length as u64, leaf_length) as i32
}

pub(crate) unsafe fn tree_init<S>(state: &mut S, output_size: usize, salt: *const u8, salt_length:
        usize, personal: *const u8, personal_length: usize, leaf_length: u32) -> i32 {
    exported_tree_init(state as *mut _ as u64, output_size as u64, salt as u64, salt_length as u64, personal as u64, personal_length as u64, leaf_length) as i32
}

pub(crate) unsafe fn tree_update<S>(state: &mut S, input: *const u8, input_length: usize) -> i32 {
    exported_tree_update(state as *mut _ as u64, input as u64, input_length as u64) as i32
}

pub(crate) unsafe fn tree_final<S>(state: &mut S, out: *mut u8, out_length: usize) -> i32 {
    exported_tree_final(state as *mut _ as u64, out as u64, out_length as u64) as i32
}

pub(crate) unsafe fn tree_wipe<S>(state: &mut S) {
    exported_tree_wipe(state as *mut _ as u64);
}

pub(crate) unsafe fn tree_digest_size<S>(state: &S) -> usize {
    exported_tree_digest_size(state as *const _ as u64) as usize
}

pub(crate) unsafe fn tree_count<S>(state: &S) -> u64 {
    exported_tree_count(state as *const _ as u64)
}

pub(crate) unsafe fn tree_leaf_length<S>(state: &S) -> u32 {
    exported_tree_leaf_length(state as *const _ as u64)
}

pub(crate) unsafe fn tree_state_size() -> usize {
    module_tree_state_size() as usize
}

pub(crate) unsafe fn tree_leaf_count(message_length: u64, leaf_length: u32) -> u64 {
    exported_tree_leaf_count(message_length, leaf_length)
}

pub(crate) unsafe fn tree_leaves(out: *mut u8, out_length: usize, first: u64, ends: u32, input:
        *const u8, input_length: usize, salt: *const u8, salt_length: usize, personal: *const u8,
        personal_length: usize, leaf_length: u32) -> i32 {
    exported_tree_leaves(out as u64, out_length as u64, first, ends, input as u64, input_length as u64, salt as u64, salt_length as u64, personal as u64, personal_length as u64, leaf_length) as i32
}

pub(crate) unsafe fn tree_root_of_leaves(out: *mut u8, out_length: usize, digests: *const u8,
        digests_length: usize, salt: *const u8, salt_length: usize, personal: *const u8,
        personal_length: usize, leaf_length: u32) -> i32 {
    exported_tree_root_of_leaves(out as u64, out_length as u64, digests as u64, digests_length as u64, salt as u64, salt_length as u64, personal as u64, personal_length as u64, leaf_length) as i32
}

pub(crate) unsafe fn tree_leaves_ahead<S>(state: &S, out: *mut u8, out_length: usize, skip: u64,
        input: *const u8, input_length: usize) -> i32 {
    exported_tree_leaves_ahead(state as *const _ as u64, out as u64, out_length as u64, skip, input as u64, input_length as u64) as i32
}

pub(crate) unsafe fn tree_update_leaves<S>(state: &mut S, digests: *const u8, digests_length: usize,
        input: *const u8, input_length: usize) -> i32 {
    exported_tree_update_leaves(state as *mut _ as u64, digests as u64, digests_length as u64, input as u64, input_length as u64) as i32
}

pub(crate) unsafe fn tree_check(output_size: usize, salt_length: usize, personal_length: usize,
        leaf_length: u32) -> i32 {
    exported_tree_check(output_size as u64, salt_length as u64, personal_length as u64, leaf_length) as i32
}

pub(crate) unsafe fn tree_init_leaf<S>(state: &mut S, i: u64, last: u32, salt: *const u8,
        salt_length: usize, personal: *const u8, personal_length: usize, leaf_length: u32) -> i32 {
    exported_tree_init_leaf(state as *mut _ as u64, i, last, salt as u64, salt_length as u64, personal as u64, personal_length as u64, leaf_length) as i32
}

pub(crate) unsafe fn tree_init_root<S>(state: &mut S, output_size: usize, salt: *const u8,
        salt_length: usize, personal: *const u8, personal_length: usize, leaf_length: u32) -> i32 {
    exported_tree_init_root(state as *mut _ as u64, output_size as u64, salt as u64, salt_length as u64, personal as u64, personal_length as u64, leaf_length) as i32
}

#[cfg(feature = "std")]
pub(crate) unsafe fn tree_plan(plan: &mut Plan, start: u64, length: u64, leaf_length: u32, limits:
        &Limits) -> i32 {
    let mut plan_ = [0_u64; 9];
    let mut limits_ = [0_u64; 4];
    store64(address!(limits_) + 0, limits.threads as u64);
    store64(address!(limits_) + 8, limits.least_bytes as u64);
    store64(address!(limits_) + 16, limits.part_bytes as u64);
    store64(address!(limits_) + 24, limits.most_bytes as u64);
    if exported_tree_plan(address!(plan_), start, length, leaf_length, address!(limits_)) != 0 { return -1; }
    plan.start = load64(address!(plan_) + 0) as u64;
    plan.end = load64(address!(plan_) + 8) as u64;
    plan.rest_length = load64(address!(plan_) + 16) as u64;
    plan.leaf_length = load64(address!(plan_) + 24) as u64;
    plan.part_length = load64(address!(plan_) + 32) as u64;
    plan.part_count = load64(address!(plan_) + 40) as u64;
    plan.threads = load64(address!(plan_) + 48) as u64;
    plan.digests_length = load64(address!(plan_) + 56) as u64;
    plan.ends = load64(address!(plan_) + 64) as u64;
    0
}

#[cfg(feature = "std")]
pub(crate) unsafe fn tree_plan_update<S>(plan: &mut Plan, state: &S, length: u64, limits: &Limits)
        -> i32 {
    let mut plan_ = [0_u64; 9];
    let mut limits_ = [0_u64; 4];
    store64(address!(limits_) + 0, limits.threads as u64);
    store64(address!(limits_) + 8, limits.least_bytes as u64);
    store64(address!(limits_) + 16, limits.part_bytes as u64);
    store64(address!(limits_) + 24, limits.most_bytes as u64);
    if exported_tree_plan_update(address!(plan_), state as *const _ as u64, length, address!(limits_)) != 0 { return -1; }
    plan.start = load64(address!(plan_) + 0) as u64;
    plan.end = load64(address!(plan_) + 8) as u64;
    plan.rest_length = load64(address!(plan_) + 16) as u64;
    plan.leaf_length = load64(address!(plan_) + 24) as u64;
    plan.part_length = load64(address!(plan_) + 32) as u64;
    plan.part_count = load64(address!(plan_) + 40) as u64;
    plan.threads = load64(address!(plan_) + 48) as u64;
    plan.digests_length = load64(address!(plan_) + 56) as u64;
    plan.ends = load64(address!(plan_) + 64) as u64;
    0
}

#[cfg(feature = "std")]
pub(crate) unsafe fn tree_part(part: &mut Part, plan: &Plan, i: u64) -> i32 {
    let mut part_ = [0_u64; 6];
    let mut plan_ = [0_u64; 9];
    store64(address!(plan_) + 0, plan.start as u64);
    store64(address!(plan_) + 8, plan.end as u64);
    store64(address!(plan_) + 16, plan.rest_length as u64);
    store64(address!(plan_) + 24, plan.leaf_length as u64);
    store64(address!(plan_) + 32, plan.part_length as u64);
    store64(address!(plan_) + 40, plan.part_count as u64);
    store64(address!(plan_) + 48, plan.threads as u64);
    store64(address!(plan_) + 56, plan.digests_length as u64);
    store64(address!(plan_) + 64, plan.ends as u64);
    if exported_tree_part(address!(part_), address!(plan_), i) != 0 { return -1; }
    part.first = load64(address!(part_) + 0) as u64;
    part.start = load64(address!(part_) + 8) as u64;
    part.length = load64(address!(part_) + 16) as u64;
    part.digests_start = load64(address!(part_) + 24) as u64;
    part.digests_length = load64(address!(part_) + 32) as u64;
    part.ends = load64(address!(part_) + 40) as u64;
    0
}
