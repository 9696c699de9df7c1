//! Sketches with a policy of your own: a theta sketch of the C library decides which hashes are retained, and a map
//! keeps their summaries.

use super::places::Places;
use super::policy::SummaryUpdatePolicy;
use super::TupleEntry;
use crate::border::{self, vector, State};
use crate::error::{must, Error};
use crate::settings::Checked;
use std::collections::hash_map::{Entry, HashMap};
use std::mem::size_of;

/// The entries by their hashes.
pub(super) type Map<S> = HashMap<u64, TupleEntry<S>, Places>;

/// A sketch that takes updates. Between calls the map has exactly the hashes that the theta sketch retains.
pub(super) struct OwnSketch<S> {
    keys: border::Theta,
    map: Map<S>,
    settings: Checked,
    /// The theta that the theta sketch begins at after a reset.
    start: u64,
    /// The theta below which hashes are retained; that of an empty sketch too.
    theta: u64,
    empty: bool,
}

/// How many bytes a map has, without what summaries point to.
pub(super) fn size_of_map<S>(map: &Map<S>) -> usize {
    map.capacity() * size_of::<(u64, TupleEntry<S>)>()
}

impl<S> OwnSketch<S> {
    pub(super) fn new(settings: Checked) -> Result<Self, Error> {
        let keys = border::Theta::new(settings.lg_k, settings.seed, settings.factor, settings.start)
            .map_err(|error| settings.refusal(error))?;
        let (start, theta) = (settings.start, settings.start);
        Ok(Self { keys, map: Map::default(), settings, start, theta, empty: true })
    }

    /// The sketch of these entries. They are those of a sketch with these settings, so no more than it can have.
    pub(super) fn of_entries(
        settings: Checked,
        state: State,
        entries: impl Iterator<Item = TupleEntry<S>>,
    ) -> Result<Self, Error> {
        let start = if state.is_empty() { settings.start } else { state.theta };
        let mut sketch = Self::new(Checked { start, ..settings })?;
        sketch.settings = settings;
        let room = state.retained as usize;
        sketch.map.try_reserve(room).map_err(|_| Error::out_of_memory())?;
        sketch.map.extend(entries.map(|it| (it.hash(), it)));
        let mut hashes = vector(room)?;
        hashes.extend(sketch.map.keys().copied());
        sketch.keys.update_hashes(&hashes)?;
        if !state.is_empty() {
            sketch.keys.update_hash(0)?;
            sketch.empty = false;
        }
        Ok(sketch)
    }

    pub(super) fn keys(&self) -> &border::Theta {
        &self.keys
    }

    pub(super) fn map(&self) -> &Map<S> {
        &self.map
    }

    pub(super) fn seed_hash(&self) -> u16 {
        self.settings.seed_hash()
    }

    pub(super) fn state(&self) -> State {
        if self.empty {
            State::EMPTY
        } else {
            State { retained: self.map.len() as u64, theta: self.theta, empty: 0 }
        }
    }

    pub(super) fn estimated_size(&self) -> usize {
        self.keys.estimated_size() + size_of_map(&self.map)
    }

    /// Drops what the theta sketch has dropped, if a call has lowered its theta.
    fn follow(&mut self, theta: u64) {
        if theta < self.theta {
            self.theta = theta;
            self.map.retain(|hash, _| *hash < theta);
        }
    }

    pub(super) fn update<P, U>(&mut self, policy: &P, hash: u64, value: U) -> Result<(), Error>
    where
        P: SummaryUpdatePolicy<U, Summary = S>,
    {
        if hash == 0 || hash >= self.theta {
            // Once the sketch is nonempty, such a hash changes nothing.
            if self.empty {
                self.keys.update_hash(hash)?;
                self.empty = false;
            }
            return Ok(());
        }
        if self.map.len() == self.map.capacity() {
            // Four times as many, if there is memory, so that few entries are moved.
            let grown = self.map.try_reserve((3 * self.map.len()).max(1));
            grown.or_else(|_| self.map.try_reserve(1)).map_err(|_| Error::out_of_memory())?;
        }
        match self.map.entry(hash) {
            Entry::Occupied(mut kept) => policy.update(&mut kept.get_mut().summary, value),
            Entry::Vacant(place) => {
                let mut summary = policy.create();
                policy.update(&mut summary, value);
                let state = self.keys.insert_hash(hash)?;
                place.insert(TupleEntry::of(hash, summary));
                self.empty = false;
                self.follow(state.theta);
            }
        }
        Ok(())
    }

    pub(super) fn trim(&mut self) -> Result<(), Error> {
        self.keys.trim()?;
        if !self.empty {
            self.follow(self.keys.state().theta);
        }
        Ok(())
    }

    pub(super) fn reset(&mut self) {
        if self.start == self.settings.start {
            self.keys.reset();
        } else {
            // The theta sketch was made to begin where its entries were.
            self.start = self.settings.start;
            self.keys = must(border::Theta::new(
                self.settings.lg_k,
                self.settings.seed,
                self.settings.factor,
                self.settings.start,
            ));
        }
        self.map.clear();
        self.theta = self.settings.start;
        self.empty = true;
    }
}

/// The entries of a map that the hashes name, in their order. Every hash is in the map.
pub(super) fn entries_at<S: Clone>(map: &Map<S>, hashes: &[u64]) -> Result<Vec<TupleEntry<S>>, Error> {
    let mut entries = vector(hashes.len())?;
    entries.extend(hashes.iter().map(|hash| map[hash].clone()));
    Ok(entries)
}
