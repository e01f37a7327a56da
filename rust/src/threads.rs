//! The tree with several threads. The plan, which cuts a message into parts, and the functions that
//! hash the parts are proved. That this module hashes every part is tested.
use std::collections::BTreeMap;
use std::convert::Infallible;
use std::sync::atomic::{AtomicU64, Ordering::Relaxed};
use std::sync::{Condvar, Mutex, MutexGuard, PoisonError};
use std::vec::Vec;
use std::{thread, vec};

use crate::library::{self, Blake2bState, Limits, Part, Plan};
use crate::{Blake2b, Digest, InvalidArgument, TreeHasher, TreeParams};

// A thread is started for this number of bytes. For fewer it costs what it saves.
pub(crate) const LEAST_BYTES: u64 = 1 << 18;
// A thread hashes about this number of bytes between two looks at what is left.
pub(crate) const PART_BYTES: u64 = 1 << 20;
const DIGEST_BYTES: usize = 64;
// The most leaves of a part, so that its digests are no longer than a part.
const PART_LEAVES: u64 = PART_BYTES / DIGEST_BYTES as u64;
// About how many bytes of digests wait until those before them are absorbed.
const WAITING_BYTES: usize = 1 << 20;

impl Limits {
    // Those for this number of threads, of which 0 means all processors, and parts of at most this
    // number of bytes. A leaf that is longer is a part.
    pub(crate) fn of(threads: usize, most_bytes: u64) -> Self {
        let all = || thread::available_parallelism().map_or(1, usize::from);
        let threads = if threads == 0 { all() } else { threads };
        Limits {
            threads: threads as u64,
            least_bytes: LEAST_BYTES,
            part_bytes: PART_BYTES,
            most_bytes,
        }
    }

    // These for leaves of this length.
    fn for_leaves(&self, leaf_length: u32) -> Self {
        let most = u64::from(leaf_length) * PART_LEAVES;
        Limits {
            part_bytes: self.part_bytes.min(most),
            ..*self
        }
    }
}

impl Plan {
    // The plan of a message, or nothing if the leaf length is 0 or the message too long.
    pub(crate) fn of_message(length: u64, leaf_length: u32, limits: &Limits) -> Option<Self> {
        let mut plan = Plan::default();
        let limits = limits.for_leaves(leaf_length);
        // Safety: no reference overlaps another.
        let status = unsafe { library::tree_plan(&mut plan, 0, length, leaf_length, &limits) };
        (status == 0).then_some(plan)
    }

    // The plan of an update, or nothing if it is too long.
    fn of_update(hasher: &TreeHasher, length: u64, limits: &Limits) -> Option<Self> {
        let mut plan = Plan::default();
        let limits = limits.for_leaves(hasher.leaf_length());
        // Safety: no reference overlaps another.
        let status = unsafe { library::tree_plan_update(&mut plan, &hasher.state, length, &limits) };
        (status == 0).then_some(plan)
    }

    // Part i, or nothing if there are no more.
    fn part(&self, i: u64) -> Option<Part> {
        let mut part = Part::default();
        // Safety: no reference overlaps another.
        let status = unsafe { library::tree_part(&mut part, self, i) };
        (status == 0).then_some(part)
    }

    // The number of bytes of the digests of a part, unless it is the last.
    fn digests_length_of_part(&self) -> usize {
        (self.part_length / self.leaf_length) as usize * DIGEST_BYTES
    }

    // Room for the digests of the parts that are not absorbed yet.
    pub(crate) fn room(&self) -> usize {
        let room = self.digests_length_of_part();
        let parts = (WAITING_BYTES / room).max((2 * self.threads) as usize);
        parts.min(self.part_count as usize) * room
    }

    // Calls `hash` for all parts, from several threads: with the part, room for its digests, and a
    // buffer that the thread keeps. Calls `absorb` with the digests of each part, in the order of
    // the parts, from the thread that hashed the part which is next; so the room is used again.
    // Calls `report` from the caller's thread with the number of bytes that were hashed so far.
    // After an error no part is begun.
    pub(crate) fn hash<E: Send>(
        &self,
        room: &mut [u8],
        hash: impl Fn(&Part, &mut [u8], &mut Vec<u8>) -> Result<(), E> + Sync,
        absorb: impl FnMut(&[u8]) + Send,
        mut report: impl FnMut(u64) -> Result<(), E>,
    ) -> Result<(), E> {
        let parts = Parts::new(room.chunks_mut(self.digests_length_of_part().max(1)), absorb);
        let (hashed, failed) = (AtomicU64::new(0), Mutex::new(None));
        let run = |report: &mut dyn FnMut(u64) -> Result<(), E>| {
            let _stop = StopAtEnd(&parts);
            let mut buffer = Vec::new();
            while let Some((i, part, out)) = parts.take_next_part(self) {
                let length = part.digests_length as usize;
                hash(&part, &mut out[..length], &mut buffer)?;
                parts.put_digests_of_part(i, out, length);
                report(hashed.fetch_add(part.length, Relaxed) + part.length)?;
            }
            Ok(())
        };
        let work = |report: &mut dyn FnMut(u64) -> Result<(), E>| {
            if let Err(error) = run(report) {
                failed
                    .lock()
                    .unwrap_or_else(PoisonError::into_inner)
                    .get_or_insert(error);
            }
        };
        thread::scope(|scope| {
            // If the system starts no more threads, those that run do all.
            let _ = (1..self.threads).try_for_each(|_| {
                let other = thread::Builder::new().spawn_scoped(scope, || work(&mut |_| Ok(())));
                other.map(drop)
            });
            work(&mut report);
        });
        match failed.into_inner().unwrap_or_else(PoisonError::into_inner) {
            Some(error) => Err(error),
            None => report(hashed.into_inner()),
        }
    }

    // The same for parts of an input in memory, where nothing fails.
    pub(crate) fn hash_bytes(
        &self,
        input: &[u8],
        hash: impl Fn(&Part, &[u8], &mut [u8]) + Sync,
        absorb: impl FnMut(&[u8]) + Send,
    ) {
        let hash = |part: &Part, out: &mut [u8], _: &mut Vec<u8>| {
            hash(
                part,
                &input[part.start as usize..][..part.length as usize],
                out,
            );
            Ok(())
        };
        self.hash(&mut vec![0; self.room()], hash, absorb, |_| Ok(()))
            .unwrap_or_else(|never: Infallible| match never {});
    }
}

// The parts and the room for their digests. The lock is held while a thread takes a part and while
// digests are absorbed, and not while a part is hashed.
struct Parts<'a, A> {
    order: Mutex<Order<'a, A>>,
    changed: Condvar,
}

struct Order<'a, A> {
    next: u64,                                  // the first part that no thread has begun
    absorbed: u64,                              // the number of parts that are absorbed
    free: Vec<&'a mut [u8]>,                    // room for the digests of a part each
    done: BTreeMap<u64, (&'a mut [u8], usize)>, // the digests of later parts, and their lengths
    absorb: A,
}

impl<'a, A: FnMut(&[u8])> Parts<'a, A> {
    fn new(rooms: impl Iterator<Item = &'a mut [u8]>, absorb: A) -> Self {
        Parts {
            order: Mutex::new(Order {
                next: 0,
                absorbed: 0,
                free: rooms.collect(),
                done: BTreeMap::new(),
                absorb,
            }),
            changed: Condvar::new(),
        }
    }

    fn lock(&self) -> MutexGuard<'_, Order<'a, A>> {
        self.order.lock().unwrap_or_else(PoisonError::into_inner)
    }

    // The next part with its number, as soon as there is room for its digests, or nothing if no
    // part is left. The first part that is not absorbed has room, so one that waits gets some.
    fn take_next_part(&self, plan: &Plan) -> Option<(u64, Part, &'a mut [u8])> {
        let mut order = self.lock();
        loop {
            let (i, part) = (order.next, plan.part(order.next)?);
            if let Some(room) = order.free.pop() {
                order.next += 1;
                return Some((i, part, room));
            }
            order = self
                .changed
                .wait(order)
                .unwrap_or_else(PoisonError::into_inner);
        }
    }

    // Absorbs the digests of part i, and of those after it that are done, if it is the next.
    fn put_digests_of_part(&self, i: u64, room: &'a mut [u8], length: usize) {
        let mut guard = self.lock();
        let order = &mut *guard;
        order.done.insert(i, (room, length));
        while let Some((room, length)) = order.done.remove(&order.absorbed) {
            (order.absorb)(&room[..length]);
            order.absorbed += 1;
            order.free.push(room);
        }
        self.changed.notify_all();
    }
}

// Leaves no part, when a thread ends: there is none, or the thread has failed, or it panics.
struct StopAtEnd<'a, 'b, A: FnMut(&[u8])>(&'b Parts<'a, A>);

impl<A: FnMut(&[u8])> Drop for StopAtEnd<'_, '_, A> {
    fn drop(&mut self) {
        self.0.lock().next = u64::MAX;
        self.0.changed.notify_all();
    }
}

impl TreeParams<'_> {
    /// Returns the root of a message, as [`root`](Self::root) does, with several threads.
    ///
    /// `threads` is the number of threads that hash, the caller's among them; 0 is the number that
    /// [`std::thread::available_parallelism`] returns. Fewer are started if the message is short
    /// (less than 256 KiB for each), if it has fewer leaves, or if the system refuses to start
    /// them. The root is the same for any number. The call allocates at most 2 MiB for each
    /// thread, and the threads end before it returns.
    ///
    /// ```
    /// use vulfsjor::TreeParams;
    ///
    /// let (message, params) = (vec![7; 1 << 20], TreeParams::new(1 << 14).persona(b"files"));
    /// assert_eq!(params.root_threads(&message, 0)?, params.root(&message)?);
    /// # Ok::<(), vulfsjor::InvalidArgument>(())
    /// ```
    ///
    /// # Errors
    ///
    /// As [`root`](Self::root). No thread is then started.
    pub fn root_threads(
        &self,
        message: impl AsRef<[u8]>,
        threads: usize,
    ) -> Result<Digest, InvalidArgument> {
        let message = message.as_ref();
        self.check_accepted_by_tree()?;
        // No slice has 2^58 bytes, since addresses have fewer than 58 bits.
        let limits = Limits::of(threads, u64::MAX);
        let plan = Plan::of_message(message.len() as u64, self.leaf_length, &limits)
            .expect("a message of fewer than 2^58 bytes");
        let mut root = self.root_hasher();
        let hash = |part: &Part, bytes: &[u8], out: &mut [u8]| {
            self.hash_leaves(part, bytes, out)
                .expect("a range of the leaves");
        };
        plan.hash_bytes(message, hash, |digests| {
            root.update(digests);
        });
        Ok(root.finalize())
    }

    // Writes the digests of the leaves of a part, which are these bytes.
    pub(crate) fn hash_leaves(
        &self,
        part: &Part,
        bytes: &[u8],
        out: &mut [u8],
    ) -> Result<(), InvalidArgument> {
        self.leaves(bytes, part.first, part.ends != 0, out)
    }

    // A hasher of the root, which absorbs the digests of all leaves.
    pub(crate) fn root_hasher(&self) -> Blake2b {
        let mut hasher = Blake2b {
            state: Blake2bState::ZEROS,
        };
        // Safety: the pointers come from slices of these lengths, and none is null. The state
        // overlaps none of them.
        let status = unsafe {
            library::tree_init_root(
                &mut hasher.state,
                self.output_size,
                self.salt.as_ptr(),
                self.salt.len(),
                self.persona.as_ptr(),
                self.persona.len(),
                self.leaf_length,
            )
        };
        assert_eq!(status, 0, "parameters that a tree accepts");
        hasher
    }
}

impl TreeHasher {
    /// Absorbs the input as [`update`](Self::update) does, with several threads.
    ///
    /// `threads` is as in [`TreeParams::root_threads`]. Threads hash the whole leaves of the input
    /// that more input follows; only the caller's thread hashes the bytes before and after them. So
    /// inputs of many leaves are fastest. The call allocates 64 bytes for each whole leaf, and
    /// at most 2 MiB for each thread.
    ///
    /// # Panics
    ///
    /// If the input, with all earlier input, has 2^58 bytes or more. The hasher is then unchanged.
    pub fn update_threads(&mut self, input: impl AsRef<[u8]>, threads: usize) -> &mut Self {
        let input = input.as_ref();
        let limits = Limits::of(threads, u64::MAX);
        let plan =
            Plan::of_update(self, input.len() as u64, &limits).expect("an input of 2^58 bytes");
        self.update(&input[..plan.start as usize]);
        let mut digests = Vec::with_capacity(plan.digests_length as usize);
        let hash = |part: &Part, bytes: &[u8], out: &mut [u8]| self.hash_leaves(part, bytes, out);
        plan.hash_bytes(input, hash, |more| digests.extend_from_slice(more));
        self.update_leaves(&digests, &input[plan.end as usize..])
            .expect("digests of whole leaves")
    }
    // Writes the digests of the leaves of a part, which are these bytes.
    pub(crate) fn hash_leaves(&self, part: &Part, bytes: &[u8], out: &mut [u8]) {
        self.leaves_ahead(part.first, bytes, out)
            .expect("whole leaves that others follow");
    }
}
