//! A sketch that takes updates, and what is known of it without a call of the C library.

use crate::border::{Object, State, Updated};
use crate::error::Error;
use std::sync::atomic::{AtomicU64, Ordering};

/// After how many updates by hashes the sketch is asked for its theta.
const TURN: u32 = 256;

/// A sketch, and what its calls have shown.
///
/// **Which hashes it screens.** An update of a nonempty sketch by a hash that is at least its theta changes nothing, and
/// is never refused (`kaftanclay.h`, `kc_theta_update_hash` and `kc_sums_add_hash`). Only a reset makes a sketch empty or
/// raises its theta. So until the next reset it screens every hash that is at least a theta that it has had while it was
/// nonempty, whatever its theta is now: for such a hash there is no call.
///
/// **Its state**, from the first question for it to the next call that may change it. Threads that ask at once all write
/// the same numbers: while they share the sketch, no call changes it.
pub(crate) struct Watched<K: Updated> {
    object: Object<K>,
    /// Hashes above this one are known to be screened.
    last: u64,
    /// How many updates by hashes there were since theta was asked for.
    updates: u32,
    retained: AtomicU64,
    empty: AtomicU64,
    /// 0 unless the state is known. It is written behind the other two, and read before them.
    theta: AtomicU64,
}

impl<K: Updated> Watched<K> {
    #[inline]
    pub(crate) fn of(object: Object<K>) -> Self {
        let [retained, empty, theta] = [0; 3].map(AtomicU64::new);
        Self { object, last: u64::MAX, updates: 0, retained, empty, theta }
    }

    /// The sketch, for calls that read it.
    #[inline]
    pub(crate) fn object(&self) -> &Object<K> {
        &self.object
    }

    #[inline]
    pub(crate) fn state(&self) -> State {
        let theta = self.theta.load(Ordering::Acquire);
        if theta == 0 {
            return self.asked();
        }
        State { retained: self.retained.load(Ordering::Relaxed), theta, empty: self.empty.load(Ordering::Relaxed) }
    }

    fn asked(&self) -> State {
        let state = self.object.state();
        self.retained.store(state.retained, Ordering::Relaxed);
        self.empty.store(state.empty, Ordering::Relaxed);
        self.theta.store(state.theta, Ordering::Release);
        state
    }

    /// Makes a call that may change the sketch, and doesn't reset it.
    #[inline]
    pub(crate) fn change<T>(&mut self, call: impl FnOnce(&mut Object<K>) -> T) -> T {
        *self.theta.get_mut() = 0;
        call(&mut self.object)
    }

    /// Updates the sketch by a hash: with this call, unless the hash is known to be screened.
    #[inline]
    pub(crate) fn update_at(
        &mut self,
        hash: u64,
        call: impl FnOnce(&mut Object<K>) -> Result<(), Error>,
    ) -> Result<(), Error> {
        if hash > self.last {
            return Ok(());
        }
        self.change(call)?;
        self.updates += 1;
        if self.updates == TURN {
            self.learn();
        }
        Ok(())
    }

    /// Notes which hashes the sketch screens. It is nonempty, since it was updated.
    #[cold]
    fn learn(&mut self) {
        self.updates = 0;
        self.last = self.state().theta - 1;
    }

    pub(crate) fn trim(&mut self) -> Result<(), Error> {
        self.change(Object::trim)
    }

    pub(crate) fn reset(&mut self) {
        self.change(Object::reset);
        self.last = u64::MAX;
    }
}
