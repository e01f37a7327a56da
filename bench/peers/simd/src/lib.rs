//! The digests of the crates `blake2b_simd` and `blake2s_simd` in memory, for C: of one message, and of several
//! of one length, which stand one behind the other, one after another and at once.
use std::sync::atomic::{AtomicUsize, Ordering::Relaxed};

/// # Safety
/// `message` has `length` bytes, and `out` has room for 64.
#[no_mangle]
pub unsafe extern "C" fn blake2b512(message: *const u8, length: usize, out: *mut [u8; 64]) {
    let message = std::slice::from_raw_parts(message, length);
    *out = *blake2b_simd::blake2b(message).as_array();
}

/// # Safety
/// `message` has `length` bytes, and `out` has room for 32.
#[no_mangle]
pub unsafe extern "C" fn blake2s256(message: *const u8, length: usize, out: *mut [u8; 32]) {
    let message = std::slice::from_raw_parts(message, length);
    *out = *blake2s_simd::blake2s(message).as_array();
}

/// # Safety
/// `message` has `length` bytes, and `out` has room for 64.
#[no_mangle]
pub unsafe extern "C" fn blake2bp512(message: *const u8, length: usize, out: *mut [u8; 64]) {
    let message = std::slice::from_raw_parts(message, length);
    *out = *blake2b_simd::blake2bp::blake2bp(message).as_array();
}

/// # Safety
/// `message` has `length` bytes, and `out` has room for 32.
#[no_mangle]
pub unsafe extern "C" fn blake2sp256(message: *const u8, length: usize, out: *mut [u8; 32]) {
    let message = std::slice::from_raw_parts(message, length);
    *out = *blake2s_simd::blake2sp::blake2sp(message).as_array();
}

unsafe fn each_blake2b<const N: usize>(messages: *const u8, length: usize, out: *mut [[u8; 64]; N]) {
    for j in 0..N {
        let message = std::slice::from_raw_parts(messages.add(j * (length / N)), length / N);
        (*out)[j] = *blake2b_simd::blake2b(message).as_array();
    }
}

unsafe fn several_blake2b<const N: usize>(messages: *const u8, length: usize, out: *mut [[u8; 64]; N]) {
    let parameters = blake2b_simd::Params::new();
    let mut jobs: [_; N] = std::array::from_fn(|j| {
        let message = std::slice::from_raw_parts(messages.add(j * (length / N)), length / N);
        blake2b_simd::many::HashManyJob::new(&parameters, message)
    });
    blake2b_simd::many::hash_many(jobs.iter_mut());
    for (digest, job) in (*out).iter_mut().zip(&jobs) {
        *digest = *job.to_hash().as_array();
    }
}

/// # Safety
/// `messages` has `length` bytes, and `out` has room for 256.
#[no_mangle]
pub unsafe extern "C" fn each_blake2b512(messages: *const u8, length: usize, out: *mut [[u8; 64]; 4]) {
    each_blake2b(messages, length, out)
}

/// # Safety
/// `messages` has `length` bytes, and `out` has room for 256.
#[no_mangle]
pub unsafe extern "C" fn several_blake2b512(messages: *const u8, length: usize, out: *mut [[u8; 64]; 4]) {
    several_blake2b(messages, length, out)
}

/// # Safety
/// `messages` has `length` bytes, and `out` has room for 512.
#[no_mangle]
pub unsafe extern "C" fn each_blake2b512_8(messages: *const u8, length: usize, out: *mut [[u8; 64]; 8]) {
    each_blake2b(messages, length, out)
}

/// # Safety
/// `messages` has `length` bytes, and `out` has room for 512.
#[no_mangle]
pub unsafe extern "C" fn several_blake2b512_8(messages: *const u8, length: usize, out: *mut [[u8; 64]; 8]) {
    several_blake2b(messages, length, out)
}

/// # Safety
/// `messages` has `length` bytes, and `out` has room for 256.
#[no_mangle]
pub unsafe extern "C" fn each_blake2s256(messages: *const u8, length: usize, out: *mut [[u8; 32]; 8]) {
    for j in 0..8 {
        let message = std::slice::from_raw_parts(messages.add(j * (length / 8)), length / 8);
        (*out)[j] = *blake2s_simd::blake2s(message).as_array();
    }
}

/// # Safety
/// `messages` has `length` bytes, and `out` has room for 256.
#[no_mangle]
pub unsafe extern "C" fn several_blake2s256(messages: *const u8, length: usize, out: *mut [[u8; 32]; 8]) {
    let parameters = blake2s_simd::Params::new();
    let mut jobs: [_; 8] = std::array::from_fn(|j| {
        let message = std::slice::from_raw_parts(messages.add(j * (length / 8)), length / 8);
        blake2s_simd::many::HashManyJob::new(&parameters, message)
    });
    blake2s_simd::many::hash_many(jobs.iter_mut());
    for (digest, job) in (*out).iter_mut().zip(&jobs) {
        *digest = *job.to_hash().as_array();
    }
}

static LEAF: AtomicUsize = AtomicUsize::new(1);

/// Sets the bytes of a leaf, at least 1.
#[no_mangle]
pub extern "C" fn set_leaf(length: usize) {
    LEAF.store(length, Relaxed);
}

/// The root of a tree of two levels with leaves of this many bytes, which `hash_many` hashes.
///
/// # Safety
/// `message` has `length` bytes, at least 1, and `out` has room for 64.
#[no_mangle]
pub unsafe extern "C" fn tree_blake2b512(message: *const u8, length: usize, out: *mut [u8; 64]) {
    let leaf = LEAF.load(Relaxed);
    let leaves: Vec<&[u8]> = std::slice::from_raw_parts(message, length).chunks(leaf).collect();
    let mut node = blake2b_simd::Params::new();
    node.fanout(0).max_depth(2).max_leaf_length(leaf as u32).inner_hash_length(64);
    let mut jobs: Vec<_> = leaves
        .iter()
        .enumerate()
        .map(|(i, bytes)| {
            let mut place = node.clone();
            place.node_offset(i as u64).last_node(i + 1 == leaves.len());
            blake2b_simd::many::HashManyJob::new(&place, bytes)
        })
        .collect();
    blake2b_simd::many::hash_many(jobs.iter_mut());
    let mut root = node.node_depth(1).last_node(true).to_state();
    for job in &jobs {
        root.update(job.to_hash().as_bytes());
    }
    *out = *root.finalize().as_array();
}
