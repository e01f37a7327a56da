//! Which of the three builds is the best that this processor supports.
use core::arch::x86_64::{__cpuid, __cpuid_count, _xgetbv};
use core::sync::atomic::{AtomicU8, Ordering::Relaxed};

// The level of the processor, 2 to 4, or 0 if no call has detected it yet. It never changes after
// that, and threads that detect it at the same time write the same value.
static LEVEL: AtomicU8 = AtomicU8::new(0);

/// Returns 4, 3 or 2 for the builds for x86-64-v4, x86-64-v3 and x86-64-v2, or 0 if [`detect_processor`] has to
/// be called first. If the compiler may assume the instructions of x86-64-v3 or x86-64-v4, the
/// result is a constant.
#[inline]
pub(crate) fn level() -> u8 {
    let is_v3 = cfg!(all(
        target_feature = "avx2",
        target_feature = "bmi1",
        target_feature = "bmi2",
        target_feature = "f16c",
        target_feature = "fma",
        target_feature = "lzcnt",
        target_feature = "movbe",
    ));
    let is_v4 = cfg!(all(
        target_feature = "avx512bw",
        target_feature = "avx512cd",
        target_feature = "avx512dq",
        target_feature = "avx512f",
        target_feature = "avx512vl",
    ));
    if cfg!(vulfsjor_build = "v2") {
        2
    } else if cfg!(vulfsjor_build = "v3") {
        3
    } else if is_v3 {
        3 + is_v4 as u8
    } else {
        LEVEL.load(Relaxed)
    }
}

/// Detects the processor.
///
/// # Panics
///
/// If it is below x86-64-v2.
#[cold]
pub(crate) fn detect_processor() {
    let level = level_of_processor();
    assert!(
        level >= 2,
        "this processor is below x86-64-v2, which vulfsjor needs"
    );
    LEVEL.store(level, Relaxed);
}

// The bits of CPUID that the levels require (the x86-64 psABI, 3.1.1): leaf 1 in ecx, leaf 7 in
// ebx, and leaf 0x80000001 in ecx.
const SSE3: u32 = 1 << 0;
const SSSE3: u32 = 1 << 9;
const FMA: u32 = 1 << 12;
const CMPXCHG16B: u32 = 1 << 13;
const SSE4_1: u32 = 1 << 19;
const SSE4_2: u32 = 1 << 20;
const MOVBE: u32 = 1 << 22;
const POPCNT: u32 = 1 << 23;
const OSXSAVE: u32 = 1 << 27;
const AVX: u32 = 1 << 28;
const F16C: u32 = 1 << 29;
const BMI1: u32 = 1 << 3;
const AVX2: u32 = 1 << 5;
const BMI2: u32 = 1 << 8;
const AVX512F: u32 = 1 << 16;
const AVX512DQ: u32 = 1 << 17;
const AVX512CD: u32 = 1 << 28;
const AVX512BW: u32 = 1 << 30;
const AVX512VL: u32 = 1 << 31;
const LAHF: u32 = 1 << 0;
const LZCNT: u32 = 1 << 5;

// What CPUID reports in these leaves.
pub(crate) struct Leaves {
    pub(crate) first: u32,
    pub(crate) seventh: u32,
    pub(crate) extended: u32,
}

// Returns 4, 3, 2, or 1 for a processor below x86-64-v2. Level 3 also requires that the system
// saves the registers of SSE and AVX (XCR0, bits 1 and 2), and level 4 those of AVX-512: the masks,
// the upper halves, and the upper 16 registers (bits 5 to 7). `saved` is called for XCR0 if the
// processor has OSXSAVE.
pub(crate) fn level_of(leaves: &Leaves, saved: impl FnOnce() -> u32) -> u8 {
    let Leaves {
        first,
        seventh,
        extended,
    } = *leaves;
    let has = |word: u32, bits: u32| word & bits == bits;
    let is_v2 =
        has(first, SSE3 | SSSE3 | CMPXCHG16B | SSE4_1 | SSE4_2 | POPCNT) && has(extended, LAHF);
    let has_v3 = has(first, FMA | MOVBE | OSXSAVE | AVX | F16C)
        && has(seventh, BMI1 | AVX2 | BMI2)
        && has(extended, LZCNT);
    let has_v4 = has(seventh, AVX512F | AVX512DQ | AVX512CD | AVX512BW | AVX512VL);
    if !is_v2 || !has_v3 {
        return 1 + u8::from(is_v2);
    }
    let saved = saved();
    if !has(saved, 0x06) {
        return 2;
    }
    3 + u8::from(has_v4 && has(saved, 0xe6))
}

// The level of this processor, as `level_of` returns it.
#[allow(unused_unsafe)] // later versions of Rust know that CPUID is safe
pub(crate) fn level_of_processor() -> u8 {
    // Safety: every x86-64 processor has CPUID.
    let leaves = unsafe {
        let last = __cpuid(0).eax;
        Leaves {
            first: __cpuid(1).ecx,
            seventh: if last >= 7 {
                __cpuid_count(7, 0).ebx
            } else {
                0
            },
            extended: __cpuid(0x8000_0001).ecx,
        }
    };
    // Safety: the processor has OSXSAVE.
    level_of(&leaves, || unsafe { read_xcr0() })
}

// The low half of XCR0: the registers that the system saves. The processor has OSXSAVE.
#[target_feature(enable = "xsave")]
unsafe fn read_xcr0() -> u32 {
    // Safety: as the caller says.
    unsafe { _xgetbv(0) as u32 }
}
