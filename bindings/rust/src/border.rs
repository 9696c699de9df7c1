//! The calls of the C library, and the only module with `unsafe`: an owner for each kind of object, and three looks at
//! the type of a value.
//!
//! Calls that take a handle as const may use it at the same time; while a call runs that takes it otherwise, no other
//! uses it (`kaftanclay.h`, "Threads"). That is what Rust says of `&` and `&mut`: a call that only reads an object
//! takes it by `&` and passes its handle as const, and one that changes it takes it by `&mut`. There is no lock.

use crate::error::{check, Error};
use crate::state::MAX_THETA;
use std::any::TypeId;
use std::ffi::{c_char, c_void, CStr};
use std::marker::PhantomData;
use std::mem::size_of;
use std::ptr;

type Status = u32;

/// A handle of C, of any kind: a struct with one pointer.
#[repr(C)]
pub(crate) struct Raw {
    object: *mut c_void,
}

// SAFETY: different handles may be used by any threads at once, and an object by another thread than the one that made
// it (docs/use/C.md, "Threads and forks"; the proved types are `Send`, c_handles/src/threads.rt).
unsafe impl Send for Raw {}

// SAFETY: a shared handle is passed only to calls that take it as const, and the library allows these at the same time
// (`kaftanclay.h`, "Threads").
unsafe impl Sync for Raw {}

/// The state of a sketch (`kc_state`).
#[repr(C)]
#[derive(Clone, Copy, Debug, Default, PartialEq, Eq)]
pub(crate) struct State {
    pub(crate) retained: u64,
    pub(crate) theta: u64,
    pub(crate) empty: u64,
}

/// A number of 128 bits (`kc_wide`).
#[repr(C)]
#[derive(Clone, Copy, Default)]
struct Wide {
    low: u64,
    high: u64,
}

impl Wide {
    fn value(self) -> u128 {
        (u128::from(self.high) << 64) | u128::from(self.low)
    }
}

/// Why bytes are not an image (`kc_finding`).
#[repr(C)]
#[derive(Clone, Copy, Default)]
struct Finding {
    flaw: u32,
    found: u32,
    length: u64,
}

/// What the preamble of the image of a tuple sketch says.
pub(crate) struct TupleHead {
    pub(crate) state: State,
    pub(crate) ordered: bool,
    /// The offset of the first entry.
    pub(crate) start: usize,
}

const _: () =
    assert!(size_of::<Raw>() == 8 && size_of::<State>() == 24 && size_of::<Wide>() == 16 && size_of::<usize>() == 8);
const _: () = assert!(size_of::<Finding>() == 16);

type Free = unsafe extern "C" fn(*mut Raw) -> Status;
type Change = unsafe extern "C" fn(*mut Raw) -> Status;
type NewWith = unsafe extern "C" fn(*mut Raw, u32, u64, u32, u64) -> Status;
type WriteState = unsafe extern "C" fn(*const Raw, *mut State) -> Status;
type WriteImage = unsafe extern "C" fn(*const Raw, *mut u8, usize, *mut u64) -> Status;
type WriteHashes = unsafe extern "C" fn(*const Raw, *mut u64, usize, *mut u64) -> Status;
type WriteEntries = unsafe extern "C" fn(*const Raw, *mut u64, *mut u64, usize, *mut u64) -> Status;
type WriteNumber = unsafe extern "C" fn(*const Raw, *mut u32) -> Status;
type WriteSize = unsafe extern "C" fn(*const Raw, *mut u64) -> Status;
type Make = unsafe extern "C" fn(*const Raw, u32, *mut Raw) -> Status;
type Read = unsafe extern "C" fn(*mut Raw, *const u8, usize, u64) -> Status;
type Add = unsafe extern "C" fn(*mut Raw, *const Raw) -> Status;
type Difference = unsafe extern "C" fn(*const Raw, *const Raw, u64, u32, *mut Raw) -> Status;
type OrderedDifference = unsafe extern "C" fn(*const Raw, *const Raw, u64, *mut Raw) -> Status;

// As include/kaftanclay.h declares them; a handle of any kind is a `Raw`.
extern "C" {
    fn kc_theta_new_with(sketch: *mut Raw, lg_k: u32, seed: u64, resize_factor: u32, starting_theta: u64) -> Status;
    fn kc_theta_free(sketch: *mut Raw) -> Status;
    fn kc_theta_update_hash(sketch: *mut Raw, hash: u64) -> Status;
    fn kc_theta_insert_hash(sketch: *mut Raw, hash: u64, out: *mut State) -> Status;
    fn kc_theta_update_bytes(sketch: *mut Raw, bytes: *const u8, count: usize) -> Status;
    fn kc_theta_update_hashes(sketch: *mut Raw, hashes: *const u64, count: usize) -> Status;
    fn kc_theta_trim(sketch: *mut Raw) -> Status;
    fn kc_theta_reset(sketch: *mut Raw) -> Status;
    fn kc_theta_state(sketch: *const Raw, out: *mut State) -> Status;
    fn kc_theta_hashes(sketch: *const Raw, hashes: *mut u64, room: usize, count: *mut u64) -> Status;
    fn kc_theta_compact_with(sketch: *const Raw, ordered: u32, out: *mut Raw) -> Status;
    fn kc_theta_difference(first: *const Raw, second: *const Raw, seed: u64, out: *mut Raw) -> Status;
    fn kc_theta_estimated_size(sketch: *const Raw, bytes: *mut u64) -> Status;
    fn kc_compact_read(sketch: *mut Raw, image: *const u8, count: usize, seed: u64) -> Status;
    fn kc_compact_of_hashes(
        sketch: *mut Raw,
        state: *const State,
        ordered: u32,
        hashes: *const u64,
        count: usize,
        seed: u64,
    ) -> Status;
    fn kc_compact_free(sketch: *mut Raw) -> Status;
    fn kc_compact_state(sketch: *const Raw, out: *mut State) -> Status;
    fn kc_compact_image(sketch: *const Raw, out: *mut u8, room: usize, length: *mut u64) -> Status;
    fn kc_compact_tuple_preamble(sketch: *const Raw, out: *mut u8, room: usize, length: *mut u64) -> Status;
    fn kc_compact_hashes(sketch: *const Raw, hashes: *mut u64, room: usize, count: *mut u64) -> Status;
    fn kc_compact_seed_hash(sketch: *const Raw, out: *mut u32) -> Status;
    fn kc_compact_is_ordered(sketch: *const Raw, out: *mut u32) -> Status;
    fn kc_compact_estimated_size(sketch: *const Raw, bytes: *mut u64) -> Status;
    fn kc_union_new_with(u: *mut Raw, lg_k: u32, seed: u64, resize_factor: u32, starting_theta: u64) -> Status;
    fn kc_union_free(u: *mut Raw) -> Status;
    fn kc_union_add(u: *mut Raw, sketch: *const Raw) -> Status;
    fn kc_union_add_compact(u: *mut Raw, sketch: *const Raw) -> Status;
    fn kc_union_reset(u: *mut Raw) -> Status;
    fn kc_union_result_with(u: *const Raw, ordered: u32, out: *mut Raw) -> Status;
    fn kc_union_estimated_size(u: *const Raw, bytes: *mut u64) -> Status;
    fn kc_intersection_new(intersection: *mut Raw, seed: u64) -> Status;
    fn kc_intersection_free(intersection: *mut Raw) -> Status;
    fn kc_intersection_add(intersection: *mut Raw, sketch: *const Raw) -> Status;
    fn kc_intersection_add_compact(intersection: *mut Raw, sketch: *const Raw) -> Status;
    fn kc_intersection_result_with(intersection: *const Raw, ordered: u32, out: *mut Raw) -> Status;
    fn kc_intersection_estimated_size(intersection: *const Raw, bytes: *mut u64) -> Status;
    fn kc_difference_with(first: *const Raw, second: *const Raw, seed: u64, ordered: u32, out: *mut Raw) -> Status;
    fn kc_sums_new_by_mode(
        sums: *mut Raw,
        lg_k: u32,
        seed: u64,
        resize_factor: u32,
        starting_theta: u64,
        mode: u32,
    ) -> Status;
    fn kc_sums_free(sums: *mut Raw) -> Status;
    fn kc_sums_add_hash(sums: *mut Raw, hash: u64, value: u64) -> Status;
    fn kc_sums_add_bytes(sums: *mut Raw, bytes: *const u8, count: usize, value: u64) -> Status;
    fn kc_sums_trim(sums: *mut Raw) -> Status;
    fn kc_sums_reset(sums: *mut Raw) -> Status;
    fn kc_sums_state(sums: *const Raw, out: *mut State) -> Status;
    fn kc_sums_entries(sums: *const Raw, hashes: *mut u64, values: *mut u64, room: usize, count: *mut u64) -> Status;
    fn kc_sums_compact_with(sums: *const Raw, ordered: u32, out: *mut Raw) -> Status;
    fn kc_sums_updatable_difference(first: *const Raw, second: *const Raw, seed: u64, out: *mut Raw) -> Status;
    fn kc_sums_estimated_size(sums: *const Raw, bytes: *mut u64) -> Status;
    fn kc_compact_sums_read(sums: *mut Raw, image: *const u8, count: usize, seed: u64) -> Status;
    fn kc_compact_sums_free(sums: *mut Raw) -> Status;
    fn kc_compact_sums_state(sums: *const Raw, out: *mut State) -> Status;
    fn kc_compact_sums_image(sums: *const Raw, out: *mut u8, room: usize, length: *mut u64) -> Status;
    fn kc_compact_sums_entries(
        sums: *const Raw,
        hashes: *mut u64,
        values: *mut u64,
        room: usize,
        count: *mut u64,
    ) -> Status;
    fn kc_compact_sums_seed_hash(sums: *const Raw, out: *mut u32) -> Status;
    fn kc_compact_sums_is_ordered(sums: *const Raw, out: *mut u32) -> Status;
    fn kc_compact_sums_estimated_size(sums: *const Raw, bytes: *mut u64) -> Status;
    fn kc_sums_union_new_with(u: *mut Raw, lg_k: u32, seed: u64, resize_factor: u32, starting_theta: u64) -> Status;
    fn kc_sums_union_new_by_mode(
        u: *mut Raw,
        lg_k: u32,
        seed: u64,
        resize_factor: u32,
        starting_theta: u64,
        mode: u32,
    ) -> Status;
    fn kc_sums_union_free(u: *mut Raw) -> Status;
    fn kc_sums_union_add(u: *mut Raw, sketch: *const Raw) -> Status;
    fn kc_sums_union_add_compact(u: *mut Raw, sketch: *const Raw) -> Status;
    fn kc_sums_union_reset(u: *mut Raw) -> Status;
    fn kc_sums_union_result_with(u: *const Raw, ordered: u32, out: *mut Raw) -> Status;
    fn kc_sums_union_estimated_size(u: *const Raw, bytes: *mut u64) -> Status;
    fn kc_sums_intersection_new_by_mode(intersection: *mut Raw, seed: u64, mode: u32) -> Status;
    fn kc_sums_intersection_free(intersection: *mut Raw) -> Status;
    fn kc_sums_intersection_add(intersection: *mut Raw, sketch: *const Raw) -> Status;
    fn kc_sums_intersection_add_compact(intersection: *mut Raw, sketch: *const Raw) -> Status;
    fn kc_sums_intersection_result_with(intersection: *const Raw, ordered: u32, out: *mut Raw) -> Status;
    fn kc_sums_intersection_estimated_size(intersection: *const Raw, bytes: *mut u64) -> Status;
    fn kc_sums_difference_with(first: *const Raw, second: *const Raw, seed: u64, ordered: u32, out: *mut Raw)
        -> Status;
    fn kc_tuple_head(
        image: *const u8,
        count: usize,
        seed: u64,
        state: *mut State,
        ordered: *mut u32,
        start: *mut u64,
        found: *mut Finding,
    ) -> Status;
    fn kc_flaw_text(flaw: u32) -> *const c_char;
    fn kc_hash_bytes(seed: u64, bytes: *const u8, count: usize, hash: *mut u64) -> Status;
    fn kc_seed_hash(seed: u64, out: *mut u32) -> Status;
    fn kc_count_bounds(retained: u64, theta: u64, deviations: u32, lower: *mut Wide, upper: *mut Wide) -> Status;
}

/// A kind of object, with its calls. Each constant is a call on handles of this kind.
pub(crate) trait Kind {
    const FREE: Free;
    const SIZE: WriteSize;
}

/// A kind of sketch: it has a state.
pub(crate) trait Sketch: Kind {
    const STATE: WriteState;
}

/// A kind of sketch without summaries.
pub(crate) trait Hashed: Sketch {
    const HASHES: WriteHashes;
}

/// A kind of sketch of sums.
pub(crate) trait Summed: Sketch {
    const ENTRIES: WriteEntries;
}

/// A kind of sketch that takes updates.
pub(crate) trait Updated: Sketch {
    type Form: Form;
    const TRIM: Change;
    const RESET: Change;
    const COMPACT: Make;
    const DIFFERENCE: OrderedDifference;
}

/// A kind of compact sketch, which has an image.
pub(crate) trait Form: Sketch {
    type Union: Unites<Form = Self>;
    const READ: Read;
    const IMAGE: WriteImage;
    /// How many bytes of the image an entry has.
    const WIDTH: usize;
    const SEED_HASH: WriteNumber;
    const IS_ORDERED: WriteNumber;
    const DIFFERENCE: Difference;
}

/// A kind of union or intersection.
pub(crate) trait Operator: Kind {
    type Leaf: Updated;
    type Form: Form;
    const ADD: Add;
    const ADD_FORM: Add;
    const RESULT: Make;
}

/// A kind of union.
pub(crate) trait Unites: Operator {
    const NEW: NewWith;
    const RESET: Change;
}

macro_rules! kinds {
    ($($name:ident as $kind:ident { $free:ident, $size:ident })*) => {$(
        pub(crate) enum $kind {}
        pub(crate) type $name = Object<$kind>;
        impl Kind for $kind {
            const FREE: Free = $free;
            const SIZE: WriteSize = $size;
        }
    )*};
}
kinds! {
    Theta as ThetaKind { kc_theta_free, kc_theta_estimated_size }
    Compact as CompactKind { kc_compact_free, kc_compact_estimated_size }
    Union as UnionKind { kc_union_free, kc_union_estimated_size }
    Intersection as IntersectionKind { kc_intersection_free, kc_intersection_estimated_size }
    Sums as SumsKind { kc_sums_free, kc_sums_estimated_size }
    CompactSums as CompactSumsKind { kc_compact_sums_free, kc_compact_sums_estimated_size }
    SumsUnion as SumsUnionKind { kc_sums_union_free, kc_sums_union_estimated_size }
    SumsIntersection as SumsIntersectionKind { kc_sums_intersection_free, kc_sums_intersection_estimated_size }
}

impl Sketch for ThetaKind {
    const STATE: WriteState = kc_theta_state;
}
impl Sketch for CompactKind {
    const STATE: WriteState = kc_compact_state;
}
impl Sketch for SumsKind {
    const STATE: WriteState = kc_sums_state;
}
impl Sketch for CompactSumsKind {
    const STATE: WriteState = kc_compact_sums_state;
}

impl Hashed for ThetaKind {
    const HASHES: WriteHashes = kc_theta_hashes;
}
impl Hashed for CompactKind {
    const HASHES: WriteHashes = kc_compact_hashes;
}
impl Summed for SumsKind {
    const ENTRIES: WriteEntries = kc_sums_entries;
}
impl Summed for CompactSumsKind {
    const ENTRIES: WriteEntries = kc_compact_sums_entries;
}

impl Updated for ThetaKind {
    type Form = CompactKind;
    const TRIM: Change = kc_theta_trim;
    const RESET: Change = kc_theta_reset;
    const COMPACT: Make = kc_theta_compact_with;
    const DIFFERENCE: OrderedDifference = kc_theta_difference;
}
impl Updated for SumsKind {
    type Form = CompactSumsKind;
    const TRIM: Change = kc_sums_trim;
    const RESET: Change = kc_sums_reset;
    const COMPACT: Make = kc_sums_compact_with;
    const DIFFERENCE: OrderedDifference = kc_sums_updatable_difference;
}
impl Form for CompactKind {
    type Union = UnionKind;
    const READ: Read = kc_compact_read;
    const IMAGE: WriteImage = kc_compact_image;
    const WIDTH: usize = 8;
    const SEED_HASH: WriteNumber = kc_compact_seed_hash;
    const IS_ORDERED: WriteNumber = kc_compact_is_ordered;
    const DIFFERENCE: Difference = kc_difference_with;
}
impl Form for CompactSumsKind {
    type Union = SumsUnionKind;
    const READ: Read = kc_compact_sums_read;
    const IMAGE: WriteImage = kc_compact_sums_image;
    const WIDTH: usize = 16;
    const SEED_HASH: WriteNumber = kc_compact_sums_seed_hash;
    const IS_ORDERED: WriteNumber = kc_compact_sums_is_ordered;
    const DIFFERENCE: Difference = kc_sums_difference_with;
}

macro_rules! operators {
    ($($kind:ident ($leaf:ident, $form:ident) { $add:ident, $add_form:ident, $result:ident })*) => {$(
        impl Operator for $kind {
            type Leaf = $leaf;
            type Form = $form;
            const ADD: Add = $add;
            const ADD_FORM: Add = $add_form;
            const RESULT: Make = $result;
        }
    )*};
}
operators! {
    UnionKind (ThetaKind, CompactKind) { kc_union_add, kc_union_add_compact, kc_union_result_with }
    IntersectionKind (ThetaKind, CompactKind) {
        kc_intersection_add, kc_intersection_add_compact, kc_intersection_result_with
    }
    SumsUnionKind (SumsKind, CompactSumsKind) {
        kc_sums_union_add, kc_sums_union_add_compact, kc_sums_union_result_with
    }
    SumsIntersectionKind (SumsKind, CompactSumsKind) {
        kc_sums_intersection_add, kc_sums_intersection_add_compact, kc_sums_intersection_result_with
    }
}
impl Unites for UnionKind {
    const NEW: NewWith = kc_union_new_with;
    const RESET: Change = kc_union_reset;
}
impl Unites for SumsUnionKind {
    const NEW: NewWith = kc_sums_union_new_with;
    const RESET: Change = kc_sums_union_reset;
}

/// An object of the C library, which its owner alone frees.
pub(crate) struct Object<K: Kind> {
    raw: Raw,
    kind: PhantomData<fn() -> K>,
}

impl<K: Kind> Object<K> {
    /// The object that a call puts into a handle.
    fn made(fill: impl FnOnce(*mut Raw) -> Status) -> Result<Self, Error> {
        let mut raw = Raw { object: ptr::null_mut() };
        check(fill(&mut raw))?;
        Ok(Self { raw, kind: PhantomData })
    }

    /// The handle, for a call that changes the object.
    #[inline]
    fn handle(&mut self) -> *mut Raw {
        &mut self.raw
    }

    /// The handle, for a call that only reads the object.
    #[inline]
    fn reader(&self) -> *const Raw {
        &self.raw
    }

    /// How many bytes of memory its slots or entries take.
    pub(crate) fn estimated_size(&self) -> usize {
        let mut bytes = 0;
        // SAFETY: the handle is of this kind and only read; the number is this function's own. The call can't be
        // refused.
        unsafe { K::SIZE(self.reader(), &mut bytes) };
        bytes as usize
    }
}

impl<K: Kind> Drop for Object<K> {
    fn drop(&mut self) {
        // SAFETY: the handle is of this kind, nothing else uses it, and it is never used again.
        unsafe { K::FREE(self.handle()) };
    }
}

/// An empty vector with room for so many items.
pub(crate) fn vector<T>(room: usize) -> Result<Vec<T>, Error> {
    let mut items = Vec::new();
    items.try_reserve_exact(room).map_err(|_| Error::out_of_memory())?;
    Ok(items)
}

impl<K: Sketch> Object<K> {
    #[inline]
    pub(crate) fn state(&self) -> State {
        let mut state = State::default();
        // SAFETY: the handle is of this kind and only read; the state is this function's own. The call can't be
        // refused.
        unsafe { K::STATE(self.reader(), &mut state) };
        state
    }
}

impl<K: Hashed> Object<K> {
    pub(crate) fn hashes(&self) -> Result<Vec<u64>, Error> {
        let room = self.state().retained as usize;
        let mut hashes = vector::<u64>(room)?;
        let mut count = 0;
        // SAFETY: the handle is of this kind and only read; the vector has room for so many numbers.
        check(unsafe { K::HASHES(self.reader(), hashes.as_mut_ptr(), room, &mut count) })?;
        // SAFETY: the call has written so many numbers, at most `room`.
        unsafe { hashes.set_len(count as usize) };
        Ok(hashes)
    }
}

impl<K: Summed> Object<K> {
    /// The hashes, and the sum of each.
    pub(crate) fn entries(&self) -> Result<(Vec<u64>, Vec<u64>), Error> {
        let room = self.state().retained as usize;
        let (mut hashes, mut sums) = (vector::<u64>(room)?, vector::<u64>(room)?);
        let mut count = 0;
        // SAFETY: the handle is of this kind and only read; both vectors have room for so many numbers.
        check(unsafe { K::ENTRIES(self.reader(), hashes.as_mut_ptr(), sums.as_mut_ptr(), room, &mut count) })?;
        // SAFETY: the call has written so many numbers to both, at most `room`.
        unsafe {
            hashes.set_len(count as usize);
            sums.set_len(count as usize);
        }
        Ok((hashes, sums))
    }
}

impl<K: Updated> Object<K> {
    pub(crate) fn trim(&mut self) -> Result<(), Error> {
        // SAFETY: the handle is of this kind, and `&mut` excludes other calls.
        check(unsafe { K::TRIM(self.handle()) })
    }

    /// Can't be refused.
    pub(crate) fn reset(&mut self) {
        // SAFETY: the handle is of this kind, and `&mut` excludes other calls.
        unsafe { K::RESET(self.handle()) };
    }

    pub(crate) fn compact(&self, ordered: bool) -> Result<Object<K::Form>, Error> {
        // SAFETY: the handle is of this kind and only read; `made` passes another one, without an object.
        Object::made(|out| unsafe { K::COMPACT(self.reader(), u32::from(ordered), out) })
    }

    /// The difference with another sketch that takes updates, ordered.
    pub(crate) fn minus_updated(&self, other: &Self, seed: u64) -> Result<Object<K::Form>, Error> {
        // SAFETY: both handles are of this kind and only read, so they may be one; `made` passes another one, without
        // an object.
        Object::made(|out| unsafe { K::DIFFERENCE(self.reader(), other.reader(), seed, out) })
    }
}

impl Theta {
    pub(crate) fn new(lg_k: u8, seed: u64, resize_factor: u32, starting_theta: u64) -> Result<Self, Error> {
        // SAFETY: the handle has no object yet.
        Self::made(|at| unsafe { kc_theta_new_with(at, u32::from(lg_k), seed, resize_factor, starting_theta) })
    }

    #[inline]
    pub(crate) fn update_hash(&mut self, hash: u64) -> Result<(), Error> {
        // SAFETY: the handle is of this kind, and `&mut` excludes other calls.
        check(unsafe { kc_theta_update_hash(self.handle(), hash) })
    }

    /// Updates the sketch by a hash, and returns the state after it.
    #[inline]
    pub(crate) fn insert_hash(&mut self, hash: u64) -> Result<State, Error> {
        let mut state = State::default();
        // SAFETY: the handle is of this kind, and `&mut` excludes other calls; the state is this function's own.
        check(unsafe { kc_theta_insert_hash(self.handle(), hash, &mut state) })?;
        Ok(state)
    }

    pub(crate) fn update_hashes(&mut self, hashes: &[u64]) -> Result<(), Error> {
        // SAFETY: the handle is of this kind, and `&mut` excludes other calls; the hashes are those of a slice.
        check(unsafe { kc_theta_update_hashes(self.handle(), hashes.as_ptr(), hashes.len()) })
    }

    #[inline]
    pub(crate) fn update_bytes(&mut self, bytes: &[u8]) -> Result<(), Error> {
        // SAFETY: the handle is of this kind, and `&mut` excludes other calls; the bytes are those of a slice.
        check(unsafe { kc_theta_update_bytes(self.handle(), bytes.as_ptr(), bytes.len()) })
    }
}

/// What is kept of the values of a key (`KC_SUM`, `KC_MIN`, `KC_MAX`).
#[derive(Clone, Copy)]
#[repr(u32)]
pub(crate) enum Mode {
    Sum = 0,
    Min = 1,
    Max = 2,
}

impl Sums {
    pub(crate) fn new(lg_k: u8, seed: u64, resize_factor: u32, starting_theta: u64, mode: Mode) -> Result<Self, Error> {
        let (lg_k, mode) = (u32::from(lg_k), mode as u32);
        // SAFETY: the handle has no object yet.
        Self::made(|at| unsafe { kc_sums_new_by_mode(at, lg_k, seed, resize_factor, starting_theta, mode) })
    }

    #[inline]
    pub(crate) fn add_hash(&mut self, hash: u64, value: u64) -> Result<(), Error> {
        // SAFETY: the handle is of this kind, and `&mut` excludes other calls.
        check(unsafe { kc_sums_add_hash(self.handle(), hash, value) })
    }

    #[inline]
    pub(crate) fn add_bytes(&mut self, bytes: &[u8], value: u64) -> Result<(), Error> {
        // SAFETY: the handle is of this kind, and `&mut` excludes other calls; the bytes are those of a slice.
        check(unsafe { kc_sums_add_bytes(self.handle(), bytes.as_ptr(), bytes.len(), value) })
    }
}

impl<K: Form> Object<K> {
    /// The sketch that the bytes begin with.
    pub(crate) fn of_image(bytes: &[u8], seed: u64) -> Result<Self, Error> {
        // SAFETY: the handle has no object yet; the bytes are those of a slice.
        Self::made(|at| unsafe { K::READ(at, bytes.as_ptr(), bytes.len(), seed) })
    }

    pub(crate) fn image(&self) -> Result<Vec<u8>, Error> {
        // No image of a sketch that retains so many is longer.
        let room = 24 + K::WIDTH * self.state().retained as usize;
        let mut image = vector::<u8>(room)?;
        let mut length = 0;
        // SAFETY: the handle is of this kind and only read; the vector has room for so many bytes.
        check(unsafe { K::IMAGE(self.reader(), image.as_mut_ptr(), room, &mut length) })?;
        // SAFETY: the call has written so many bytes, at most `room`.
        unsafe { image.set_len(length as usize) };
        Ok(image)
    }

    pub(crate) fn seed_hash(&self) -> u16 {
        let mut hash = 0;
        // SAFETY: the handle is of this kind and only read; the number is this function's own. The call can't be
        // refused.
        unsafe { K::SEED_HASH(self.reader(), &mut hash) };
        hash as u16
    }

    /// Whether the sketch promises that its hashes ascend.
    pub(crate) fn is_ordered(&self) -> bool {
        let mut ordered = 0;
        // SAFETY: as of `seed_hash`.
        unsafe { K::IS_ORDERED(self.reader(), &mut ordered) };
        ordered != 0
    }

    /// The difference with another sketch. It is ordered if that is asked for, or if this sketch is.
    pub(crate) fn minus(&self, other: &Self, seed: u64, ordered: bool) -> Result<Self, Error> {
        // SAFETY: both handles are of this kind and only read, so they may be one; `made` passes another one, without
        // an object.
        Self::made(|out| unsafe { K::DIFFERENCE(self.reader(), other.reader(), seed, u32::from(ordered), out) })
    }

    /// The sketch, or one of its value that isn't ordered unless it must be, as a union makes it. An ordered sketch that
    /// isn't to be so has at most one hash.
    pub(crate) fn promising(self, ordered: bool, seed: u64) -> Result<Self, Error> {
        if ordered || self.state().is_empty() || !self.is_ordered() {
            return Ok(self);
        }
        let mut union = Object::<K::Union>::union(4, seed, 8, MAX_THETA)?;
        union.add_form(&self)?;
        union.result(false)
    }
}

impl Compact {
    /// The sketch that has this state and order, and these hashes in their order.
    pub(crate) fn of_hashes(state: State, ordered: bool, hashes: &[u64], seed: u64) -> Result<Self, Error> {
        let ordered = u32::from(ordered);
        // SAFETY: the handle has no object yet; the state is this function's own, and the hashes are those of a slice.
        Self::made(|at| unsafe { kc_compact_of_hashes(at, &state, ordered, hashes.as_ptr(), hashes.len(), seed) })
    }

    /// The preamble of the image of a tuple sketch with these keys, and room for so many bytes behind it.
    pub(crate) fn tuple_preamble(&self, room: usize) -> Result<Vec<u8>, Error> {
        let mut image = vector::<u8>(24 + room)?;
        let mut length = 0;
        // SAFETY: the handle is of this kind and only read; the vector has room for so many bytes.
        check(unsafe { kc_compact_tuple_preamble(self.reader(), image.as_mut_ptr(), 24, &mut length) })?;
        // SAFETY: the call has written so many bytes, at most 24.
        unsafe { image.set_len(length as usize) };
        Ok(image)
    }
}

/// What a flaw of an image means.
fn flaw_text(flaw: u32) -> &'static str {
    // SAFETY: for any number the call returns a text with a final 0 byte, which is never freed.
    unsafe { CStr::from_ptr(kc_flaw_text(flaw)) }.to_str().unwrap_or_default()
}

/// What the preamble of an image says, if it is that of a tuple sketch of this seed: there are eight bytes or more for
/// each entry.
pub(crate) fn tuple_head(image: &[u8], seed: u64) -> Result<TupleHead, Error> {
    let (mut state, mut found) = (State::default(), Finding::default());
    let (mut ordered, mut start) = (0, 0);
    // SAFETY: the bytes are those of a slice, and what is written is this function's own.
    let read = check(unsafe {
        kc_tuple_head(image.as_ptr(), image.len(), seed, &mut state, &mut ordered, &mut start, &mut found)
    });
    read.map_err(|error| error.because(flaw_text(found.flaw)))?;
    Ok(TupleHead { state, ordered: ordered != 0, start: start as usize })
}

impl<K: Operator> Object<K> {
    pub(crate) fn add(&mut self, sketch: &Object<K::Leaf>) -> Result<(), Error> {
        // SAFETY: the handles are of the call's kinds; `&mut` excludes other calls on the first, the second is only read.
        check(unsafe { K::ADD(self.handle(), sketch.reader()) })
    }

    pub(crate) fn add_form(&mut self, sketch: &Object<K::Form>) -> Result<(), Error> {
        // SAFETY: as of `add`.
        check(unsafe { K::ADD_FORM(self.handle(), sketch.reader()) })
    }

    pub(crate) fn result(&self, ordered: bool) -> Result<Object<K::Form>, Error> {
        // SAFETY: the handle is of this kind and only read; `made` passes another one, without an object.
        Object::made(|out| unsafe { K::RESULT(self.reader(), u32::from(ordered), out) })
    }
}

impl<K: Unites> Object<K> {
    pub(crate) fn union(lg_k: u8, seed: u64, resize_factor: u32, starting_theta: u64) -> Result<Self, Error> {
        // SAFETY: the handle has no object yet.
        Self::made(|at| unsafe { K::NEW(at, u32::from(lg_k), seed, resize_factor, starting_theta) })
    }

    /// Can't be refused.
    pub(crate) fn reset_union(&mut self) {
        // SAFETY: the handle is of this kind, and `&mut` excludes other calls.
        unsafe { K::RESET(self.handle()) };
    }
}

impl SumsUnion {
    pub(crate) fn by_mode(
        lg_k: u8,
        seed: u64,
        resize_factor: u32,
        starting_theta: u64,
        mode: Mode,
    ) -> Result<Self, Error> {
        let (lg_k, mode) = (u32::from(lg_k), mode as u32);
        // SAFETY: the handle has no object yet.
        Self::made(|at| unsafe { kc_sums_union_new_by_mode(at, lg_k, seed, resize_factor, starting_theta, mode) })
    }
}

impl Intersection {
    pub(crate) fn intersection(seed: u64) -> Result<Self, Error> {
        // SAFETY: the handle has no object yet.
        Self::made(|at| unsafe { kc_intersection_new(at, seed) })
    }
}

impl SumsIntersection {
    pub(crate) fn by_mode(seed: u64, mode: Mode) -> Result<Self, Error> {
        // SAFETY: the handle has no object yet.
        Self::made(|at| unsafe { kc_sums_intersection_new_by_mode(at, seed, mode as u32) })
    }
}

/// The hash of bytes under a seed, of 63 bits.
#[inline]
pub(crate) fn hash_of_bytes(seed: u64, bytes: &[u8]) -> u64 {
    let mut hash = 0;
    // SAFETY: the bytes are those of a slice, and the number is this function's own. The call can't be refused.
    unsafe { kc_hash_bytes(seed, bytes.as_ptr(), bytes.len(), &mut hash) };
    hash
}

/// The hash of a seed, of 16 bits, or `None` if it is 0, which no sketch has.
pub(crate) fn seed_hash(seed: u64) -> Option<u16> {
    let mut hash = 0;
    // SAFETY: the number is this function's own.
    check(unsafe { kc_seed_hash(seed, &mut hash) }).ok()?;
    Some(hash as u16)
}

/// The bounds of a count by 1, 2 or 3 standard deviations, of the state of a sketch.
pub(crate) fn bounds(state: State, deviations: u32) -> (u128, u128) {
    let (mut lower, mut upper) = (Wide::default(), Wide::default());
    // SAFETY: both numbers are this function's own. The call can't be refused: a sketch has this state.
    unsafe { kc_count_bounds(state.retained, state.theta, deviations, &mut lower, &mut upper) };
    (lower.value(), upper.value())
}

/// Whether two types are the same but for lifetimes.
#[inline]
pub(crate) fn is_same<A: ?Sized, B: 'static + ?Sized>() -> bool {
    trait Typed {
        fn id(&self) -> TypeId
        where
            Self: 'static;
    }
    impl<T: ?Sized> Typed for PhantomData<T> {
        fn id(&self) -> TypeId
        where
            Self: 'static,
        {
            TypeId::of::<Self>()
        }
    }
    let marker = PhantomData::<A>;
    let marker: &dyn Typed = &marker;
    // SAFETY: only the bound of the trait object changes. `id` reads nothing, and an id knows no lifetimes.
    let marker: &(dyn Typed + 'static) = unsafe { std::mem::transmute::<&dyn Typed, &(dyn Typed + 'static)>(marker) };
    marker.id() == TypeId::of::<PhantomData<B>>()
}

/// A slice as one of another type, if the types are the same.
pub(crate) fn same_slice<A: 'static, B>(items: &[A]) -> Option<&[B]> {
    // SAFETY: A and B are one type, by name and layout; A has no lifetimes, so neither has B.
    is_same::<B, A>().then(|| unsafe { &*(ptr::from_ref(items) as *const [B]) })
}

/// The number that a value is, if it is a `u64` or a reference to one.
#[inline]
pub(crate) fn number_of<U>(value: &U) -> Option<u64> {
    let at = ptr::from_ref(value);
    if is_same::<U, u64>() {
        // SAFETY: U is u64.
        Some(unsafe { *at.cast::<u64>() })
    } else if is_same::<U, &'static u64>() {
        // SAFETY: U is a reference to a u64, which is read while the reference is borrowed.
        Some(unsafe { **at.cast::<&u64>() })
    } else {
        None
    }
}

/// A number as a value of another type, if that is `u64`.
pub(crate) fn number_as<S>(number: u64) -> Option<S> {
    // SAFETY: S is u64, which may be copied.
    is_same::<S, u64>().then(|| unsafe { ptr::from_ref(&number).cast::<S>().read() })
}
