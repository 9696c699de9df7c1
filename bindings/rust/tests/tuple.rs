//! Tuple sketches: sums of the C library, and policies of a caller's own beside them.
//!
//! What the original's documented examples show of them, by their item, and the test of it here (`theta.rs` has the
//! others):
//!
//! - `tuple`, `TupleSketch`, `TupleSketch::update`, `TupleSketch::compact`: `sums_are_added_at_their_keys`.
//! - `TupleSketchView`: `views_sizes_and_texts_are_there`.
//! - `CompactTupleSketch::serialize`: `images_have_summaries_behind_their_hashes`.
//! - `TupleSketchBuilder::new`: `summaries_may_be_of_any_type`.
//! - `TupleUnion`, `TupleUnionBuilder::new`: `unions_of_both_kinds_have_one_value`.
//! - `TupleIntersection`: `intersections_of_both_kinds_have_one_value`.
//! - `TupleANotB`: `differences_keep_the_summaries_of_the_first`.
#![cfg(all(feature = "theta", feature = "tuple"))]

use kaftanclay::codec::{SketchBytes, SketchSlice};
use kaftanclay::common::NumStdDev;
use kaftanclay::error::{Error, ErrorKind};
use kaftanclay::theta::ThetaSketchBuilder;
use kaftanclay::tuple::{
    CompactTupleSketch, DefaultUnionPolicy, DefaultUpdatePolicy, MaxPolicy, MinPolicy, SummaryCombinePolicy,
    SummaryPolicy, SummaryUpdatePolicy, TupleANotB, TupleEntry, TupleIntersection, TupleSketch, TupleSketchBuilder,
    TupleSummaryValue, TupleUnionBuilder,
};
use std::ops::AddAssign;
use std::panic::{catch_unwind, AssertUnwindSafe};

type SumSketch = TupleSketch<DefaultUpdatePolicy<u64>>;

fn sums(lg_k: u8) -> SumSketch {
    TupleSketchBuilder::new(DefaultUpdatePolicy::<u64>::default()).lg_k(lg_k).build().unwrap()
}

fn sums_of(lg_k: u8, keys: std::ops::Range<u64>) -> SumSketch {
    let mut sketch = sums(lg_k);
    keys.for_each(|it| sketch.update(it, it + 1));
    sketch
}

/// Sums, but as a policy of a caller's own, whose summaries are a map's.
#[derive(Debug, Default, Clone, Copy)]
struct OwnSum;

impl SummaryPolicy for OwnSum {
    type Summary = u64;

    fn create(&self) -> u64 {
        0
    }
}

impl SummaryUpdatePolicy<u64> for OwnSum {
    fn update(&self, summary: &mut u64, value: u64) {
        *summary += value;
    }
}

impl SummaryCombinePolicy for OwnSum {
    fn combine(&self, summary: &mut u64, other: &u64) {
        *summary += *other;
    }
}

fn own(lg_k: u8) -> TupleSketch<OwnSum> {
    TupleSketchBuilder::new(OwnSum).lg_k(lg_k).build().unwrap()
}

fn own_of(lg_k: u8, keys: std::ops::Range<u64>) -> TupleSketch<OwnSum> {
    let mut sketch = own(lg_k);
    keys.for_each(|it| sketch.update(it, it + 1));
    sketch
}

/// A policy that borrows: it keeps the longest text, and at most so many bytes as its limit says.
struct Longest<'a> {
    limit: &'a usize,
}

impl SummaryPolicy for Longest<'_> {
    type Summary = String;

    fn create(&self) -> String {
        String::new()
    }
}

impl SummaryUpdatePolicy<&str> for Longest<'_> {
    fn update(&self, summary: &mut String, value: &str) {
        if value.len() > summary.len() && value.len() <= *self.limit {
            *summary = value.to_string();
        }
    }
}

impl SummaryCombinePolicy for Longest<'_> {
    fn combine(&self, summary: &mut String, other: &String) {
        self.update(summary, other.as_str());
    }
}

fn pairs<'a, S: Clone + 'a>(entries: impl Iterator<Item = &'a TupleEntry<S>>) -> Vec<(u64, S)> {
    let mut pairs: Vec<_> = entries.map(|it| (it.hash(), it.summary().clone())).collect();
    pairs.sort_by_key(|it| it.0);
    pairs
}

fn summaries<'a, S: Clone + Ord + 'a>(entries: impl Iterator<Item = &'a TupleEntry<S>>) -> Vec<S> {
    let mut found: Vec<S> = entries.map(|it| it.summary().clone()).collect();
    found.sort();
    found
}

/// Both have one value; entries as sets if neither is ordered.
fn assert_same<S: Clone + PartialEq + std::fmt::Debug>(a: &CompactTupleSketch<S>, b: &CompactTupleSketch<S>) {
    assert_eq!((a.is_empty(), a.theta64(), a.num_retained()), (b.is_empty(), b.theta64(), b.num_retained()));
    assert_eq!((a.is_ordered(), a.seed_hash()), (b.is_ordered(), b.seed_hash()));
    assert_eq!(a.estimate().to_bits(), b.estimate().to_bits());
    assert_eq!(pairs(a.iter()), pairs(b.iter()));
}

#[test]
fn sums_are_added_at_their_keys() {
    let mut visits = sums(12);
    assert!(visits.is_empty());
    visits.update("ann", 2);
    visits.update("ann", &3);
    visits.update("bob", 10);
    assert_eq!(summaries(visits.iter()), [5, 10]);
    // What was lent before is not what there is after an update.
    visits.update("ann", 1);
    assert_eq!(summaries(visits.iter()), [6, 10]);
    assert_eq!((visits.num_retained(), visits.estimate(), visits.lg_k(), visits.seed_hash()), (2, 2.0, 12, 0x93cc));
    let keys = {
        let mut keys = ThetaSketchBuilder::default().build().unwrap();
        keys.update("ann");
        keys.update("bob");
        let mut keys: Vec<u64> = keys.iter().map(|it| it.hash()).collect();
        keys.sort_unstable();
        keys
    };
    assert_eq!(pairs(visits.iter()).iter().map(|it| it.0).collect::<Vec<_>>(), keys);
    visits.reset();
    assert_eq!((visits.is_empty(), visits.iter().count()), (true, 0));
}

#[test]
fn a_sum_that_is_too_large_is_refused() {
    let mut visits = sums(12);
    visits.update("ann", u64::MAX);
    let error = visits.try_update("ann", 1).unwrap_err();
    assert_eq!((error.kind(), error.message()), (ErrorKind::Policy, "a sum would be 2^64 or more"));
    assert_eq!(summaries(visits.iter()), [u64::MAX]);
    let stopped = catch_unwind(AssertUnwindSafe(|| visits.update("ann", 1))).unwrap_err();
    let reason = "kaftanclay: a sum would be 2^64 or more; a call whose name begins with try_ returns this as an error";
    assert_eq!(stopped.downcast_ref::<String>().unwrap(), reason);
    let mut union = TupleUnionBuilder::new(DefaultUnionPolicy::<u64>::default()).build().unwrap();
    union.update(&visits).unwrap();
    assert_eq!(union.update(&visits).unwrap_err().kind(), ErrorKind::Policy);
    assert_eq!(union.update(&visits).unwrap_err().kind(), ErrorKind::Failed);
    assert_eq!(union.try_to_sketch(true).unwrap_err().kind(), ErrorKind::Failed);
    union.reset();
    union.update(&visits).unwrap();
    assert_eq!(summaries(union.to_sketch(true).iter()), [u64::MAX]);
    let mut both = TupleIntersection::new(DefaultUnionPolicy::<u64>::default());
    both.update(&visits).unwrap();
    assert_eq!(both.update(&visits.compact(true)).unwrap_err().kind(), ErrorKind::Policy);
    assert_eq!(summaries(both.to_sketch(true).unwrap().iter()), [u64::MAX]);
}

/// A value that `u64` adds in a way of its own.
struct Most(u64);

impl AddAssign<Most> for u64 {
    fn add_assign(&mut self, value: Most) {
        *self = (*self).max(value.0);
    }
}

#[test]
fn sums_go_on_with_values_that_are_no_numbers() {
    for lg_k in [4, 12] {
        let mut mixed = sums_of(lg_k, 0..500);
        let (before, state) = (pairs(mixed.iter()), (mixed.theta64(), mixed.num_retained()));
        let screened = (0..).find(|it| !before.iter().any(|(hash, _)| hash_of(*it) == *hash)).unwrap();
        mixed.update(screened, Most(0));
        if lg_k == 4 {
            assert_eq!(state, (mixed.theta64(), mixed.num_retained()));
        }
        // A key that is retained, and a sum below and above.
        let key = (0..500).find(|it| before.iter().any(|(hash, _)| hash_of(*it) == *hash)).unwrap();
        mixed.update(key, Most(1));
        assert_eq!(summary_at(&mixed, hash_of(key)), key + 1);
        mixed.update(key, Most(1_000_000));
        assert_eq!(summary_at(&mixed, hash_of(key)), 1_000_000);
        mixed.update(key, 5);
        assert_eq!(summary_at(&mixed, hash_of(key)), 1_000_005);
        (500..5000).for_each(|it| mixed.update(it, it + 1));
        let whole = sums_of(lg_k, 0..5000);
        assert_eq!((mixed.theta64(), mixed.num_retained()), (whole.theta64(), whole.num_retained()));
        mixed.trim();
        mixed.reset();
        assert!(mixed.is_empty());
        (0..500).for_each(|it| mixed.update(it, it + 1));
        assert_same(&mixed.compact(true), &sums_of(lg_k, 0..500).compact(true));
    }
}

fn hash_of(key: u64) -> u64 {
    let mut sketch = ThetaSketchBuilder::default().build().unwrap();
    sketch.update(key);
    let hash = sketch.iter().next().unwrap().hash();
    hash
}

fn summary_at(sketch: &SumSketch, hash: u64) -> u64 {
    *sketch.iter().find(|it| it.hash() == hash).unwrap().summary()
}

#[test]
fn a_policy_of_ones_own_retains_what_theta_sketches_do() {
    for (lg_k, count) in [(4, 10), (4, 1000), (5, 3000), (8, 20_000), (12, 3000)] {
        let mut theta = ThetaSketchBuilder::default().lg_k(lg_k).build().unwrap();
        let (mut a, mut b) = (sums(lg_k), own(lg_k));
        for number in 0..count {
            let key = number * number % 9973;
            theta.update(key);
            a.update(key, number);
            b.update(key, number);
            if number % 97 == 0 {
                assert_eq!((b.theta64(), b.num_retained()), (theta.theta64(), theta.num_retained()));
            }
        }
        for trimmed in [false, true] {
            if trimmed {
                theta.trim();
                a.trim();
                b.trim();
            }
            let mut hashes: Vec<u64> = theta.iter().map(|it| it.hash()).collect();
            hashes.sort_unstable();
            assert_eq!(pairs(b.iter()).iter().map(|it| it.0).collect::<Vec<_>>(), hashes);
            assert_eq!((b.theta64(), b.theta(), b.estimate()), (theta.theta64(), theta.theta(), theta.estimate()));
            assert_eq!(b.lower_bound(NumStdDev::Two), theta.lower_bound(NumStdDev::Two));
            assert_eq!(a.upper_bound(NumStdDev::One), theta.upper_bound(NumStdDev::One));
            assert_eq!(b.is_estimation_mode(), theta.is_estimation_mode());
            for ordered in [false, true] {
                assert_same(&a.compact(ordered), &b.compact(ordered));
                assert_eq!(a.compact(ordered).serialize(), b.compact(ordered).serialize());
            }
        }
        b.reset();
        assert!(b.is_empty() && b.compact(true).is_empty());
        assert_eq!(b.compact(false).serialize(), [1, 3, 9, 1, 0, 0x1e, 0, 0]);
    }
}

#[test]
fn a_sketch_of_ones_own_begins_at_its_starting_theta() {
    let build = || TupleSketchBuilder::new(OwnSum).sampling_probability(0.5).build().unwrap();
    let mut sketch = build();
    assert_eq!((sketch.theta64(), sketch.is_estimation_mode()), (i64::MAX as u64, false));
    let screened = (0..).find(|it| hash_of(*it) >= 1 << 62).unwrap();
    for _ in 0..2 {
        sketch.update(screened, 1);
        assert_eq!((sketch.is_empty(), sketch.num_retained(), sketch.theta64()), (false, 0, 1 << 62));
        let compact = sketch.compact(false);
        assert_eq!((compact.is_empty(), compact.is_ordered(), compact.theta64()), (false, false, 1 << 62));
        let read = CompactTupleSketch::<u64>::deserialize(&compact.serialize()).unwrap();
        assert_same(&read, &compact);
        sketch.trim();
        sketch.reset();
        assert_eq!((sketch.is_empty(), sketch.theta64()), (true, i64::MAX as u64));
    }
    let error = TupleSketchBuilder::new(OwnSum).lg_k(2).build().unwrap_err();
    assert_eq!(error.message(), "lg_k is 2, and must be from 4 to 26");
}

#[test]
fn summaries_may_be_of_any_type() {
    let limit = 8;
    let policy = || Longest { limit: &limit };
    let mut words = TupleSketchBuilder::new(policy()).build().unwrap();
    for text in ["yes", "perhaps", "no", "much too long"] {
        words.update("ann", text);
    }
    words.update("bob", "no");
    assert_eq!(summaries(words.iter()), ["no", "perhaps"]);
    let mut others = TupleSketchBuilder::new(policy()).build().unwrap();
    others.update("bob", "never");
    let mut union = TupleUnionBuilder::new(policy()).build().unwrap();
    union.update(&words).unwrap();
    union.update(&others.compact(false)).unwrap();
    assert_eq!(summaries(union.to_sketch(true).iter()), ["never", "perhaps"]);
    let mut both = TupleIntersection::new(policy());
    both.update(&words.compact(true)).unwrap();
    both.update(&others).unwrap();
    assert_eq!(summaries(both.to_sketch(true).unwrap().iter()), ["never"]);
    let gone = TupleANotB::default().compute(&words, &others, true).unwrap();
    assert_eq!(summaries(gone.iter()), ["perhaps"]);
    let mut floats = TupleSketchBuilder::new(DefaultUpdatePolicy::<f64>::default()).build().unwrap();
    floats.update(1, 0.5);
    floats.update(1, &0.25);
    assert_eq!(floats.iter().next().unwrap().summary(), &0.75);
    let mut texts = TupleSketchBuilder::new(DefaultUpdatePolicy::<String>::default()).build().unwrap();
    texts.update(1, "a");
    texts.update(1, "b");
    assert_eq!(summaries(texts.iter()), ["ab"]);
}

#[test]
fn unions_of_both_kinds_have_one_value() {
    for (lg_k, count) in [(12, 1000), (5, 3000)] {
        let (sum_a, sum_b) = (sums_of(lg_k, 0..count), sums_of(lg_k, count / 2..2 * count));
        let (own_a, own_b) = (own_of(lg_k, 0..count), own_of(lg_k, count / 2..2 * count));
        let mut of_sums = TupleUnionBuilder::new(DefaultUnionPolicy::<u64>::default()).lg_k(lg_k).build().unwrap();
        let mut of_own = TupleUnionBuilder::new(OwnSum).lg_k(lg_k).build().unwrap();
        let (form_a, form_b) = (sum_a.compact(true), own_b.compact(false));
        let rounds = [
            [sum_a.as_view(), sum_b.as_view()],
            [own_a.as_view(), own_b.as_view()],
            [form_a.as_view(), form_b.as_view()],
            [own_a.as_view(), form_b.as_view()],
        ];
        let mut first = None;
        for round in rounds {
            of_sums.reset();
            of_own.reset();
            for view in round {
                of_sums.update(view).unwrap();
                of_own.update(view).unwrap();
            }
            for ordered in [false, true] {
                assert_same(&of_sums.to_sketch(ordered), &of_own.to_sketch(ordered));
            }
            let found = of_own.to_sketch(true);
            assert_same(first.get_or_insert_with(|| found.clone()), &found);
        }
        of_own.update(&own(lg_k)).unwrap();
        assert_same(&first.unwrap(), &of_own.to_sketch(true));
    }
}

#[test]
fn a_union_of_ones_own_forgets_what_it_dropped() {
    let mut union = TupleUnionBuilder::new(OwnSum).lg_k(5).build().unwrap();
    let mut of_sums = TupleUnionBuilder::new(DefaultUnionPolicy::<u64>::default()).lg_k(5).build().unwrap();
    let mut most = 0;
    for part in 0..200 {
        let sketch = own_of(5, 100 * part..100 * part + 150);
        union.update(&sketch).unwrap();
        of_sums.update(&sketch).unwrap();
        most = most.max(union.estimated_size());
        assert_same(&union.to_sketch(true), &of_sums.to_sketch(true));
    }
    assert!(most < 8 * 64 + 24 * 1024, "{most} bytes");
}

#[test]
fn unions_begin_at_their_starting_thetas() {
    let sketch = sums_of(12, 0..1000);
    let mut of_sums =
        TupleUnionBuilder::new(DefaultUnionPolicy::<u64>::default()).sampling_probability(0.25).build().unwrap();
    let mut of_own = TupleUnionBuilder::new(OwnSum).sampling_probability(0.25).build().unwrap();
    of_own.update(&own(12)).unwrap();
    assert!(of_own.to_sketch(true).is_empty());
    for _ in 0..2 {
        of_sums.update(&sketch).unwrap();
        of_own.update(&sketch).unwrap();
        assert_eq!(of_own.to_sketch(true).theta64(), 1 << 61);
        assert_same(&of_sums.to_sketch(true), &of_own.to_sketch(true));
    }
}

#[test]
fn intersections_of_both_kinds_have_one_value() {
    for (lg_k, count) in [(12, 1000), (5, 3000)] {
        let (sum_a, sum_b) = (sums_of(lg_k, 0..count), sums_of(lg_k, count / 2..2 * count));
        let (own_a, own_b) = (own_of(lg_k, 0..count), own_of(lg_k, count / 2..2 * count));
        let (form_a, form_b) = (own_a.compact(false), sum_b.compact(true));
        for round in [
            [sum_a.as_view(), sum_b.as_view()],
            [own_a.as_view(), own_b.as_view()],
            [form_a.as_view(), form_b.as_view()],
        ] {
            let mut of_sums = TupleIntersection::new(DefaultUnionPolicy::<u64>::default());
            let mut of_own = TupleIntersection::new(OwnSum);
            assert!(!of_own.has_result() && of_own.to_sketch(true).is_none() && of_sums.to_sketch(true).is_none());
            for view in round {
                of_sums.update(view).unwrap();
                of_own.update(view).unwrap();
                assert!(of_own.has_result());
                for ordered in [false, true] {
                    assert_same(&of_sums.to_sketch(ordered).unwrap(), &of_own.to_sketch(ordered).unwrap());
                }
            }
            let found = of_own.to_sketch(true).unwrap();
            if lg_k == 12 {
                assert_eq!(found.num_retained() as u64, count / 2);
                assert_eq!(summaries(found.iter())[0], 2 * (count / 2 + 1));
            }
            // An empty sketch ends it, whatever comes.
            of_own.update(&own(5)).unwrap();
            of_own.update(&sum_a).unwrap();
            assert!(of_own.to_sketch(false).unwrap().is_empty());
        }
    }
}

#[test]
fn differences_keep_the_summaries_of_the_first() {
    let (sum_a, sum_b) = (sums_of(12, 0..1000), sums_of(12, 500..1500));
    let (own_a, own_b) = (own_of(12, 0..1000), own_of(12, 500..1500));
    let (form_a, form_b) = (sum_a.compact(true), own_b.compact(false));
    let wanted = sums_of(12, 0..500);
    let a_not_b = TupleANotB::default();
    for a in [sum_a.as_view(), own_a.as_view(), form_a.as_view()] {
        for b in [sum_b.as_view(), own_b.as_view(), form_b.as_view()] {
            for ordered in [false, true] {
                let found = a_not_b.compute(a, b, ordered).unwrap();
                assert_same(&found, &wanted.compact(ordered || a.is_ordered()));
            }
        }
        assert!(a_not_b.compute(a, a, true).unwrap().is_empty());
        assert_same(&a_not_b.compute(a, &sums(5), true).unwrap(), &sum_a.compact(true));
    }
    let mut texts = TupleSketchBuilder::new(DefaultUpdatePolicy::<String>::default()).build().unwrap();
    (500..1500_u64).for_each(|it| texts.update(it, "x"));
    assert_same(&a_not_b.compute(&sum_a, &texts, true).unwrap(), &wanted.compact(true));
    assert_eq!(a_not_b.compute(&texts, &form_a, true).unwrap().num_retained(), 500);
    assert!(a_not_b.compute(&sums(5), &form_b, true).unwrap().is_empty());
}

/// As of theta sketches: a form of one key is always ordered, and a sketch never.
#[test]
fn a_difference_of_one_key_promises_what_is_asked() {
    let (sum, own) = (sums_of(12, 0..1), own_of(12, 0..1));
    let (sums, owns) = (sums_of(4, 1..1000), own_of(4, 1..1000));
    let a_not_b = TupleANotB::default();
    for first in [sum.as_view(), own.as_view()] {
        for second in [sums.as_view(), owns.as_view(), sums.compact(true).as_view(), owns.compact(true).as_view()] {
            let asked = a_not_b.compute(first, second, true).unwrap();
            let unasked = a_not_b.compute(first, second, false).unwrap();
            assert_eq!((asked.is_ordered(), unasked.is_ordered()), (true, false));
            assert_eq!((asked.theta64(), unasked.theta64()), (sums.theta64(), sums.theta64()));
            assert_eq!(pairs(asked.iter()), pairs(unasked.iter()));
            assert_eq!(unasked.serialize()[5], 0x0a);
        }
    }
}

#[test]
fn ready_hashes_are_keys_of_their_own() {
    let (mut sum, mut own) = (sums(12), own(12));
    for hash in [5, 0, 1 << 62, 5, u64::MAX] {
        sum.update_hash(hash, 7);
        own.try_update_hash(hash, 7).unwrap();
    }
    assert_eq!(pairs(sum.iter()), [(5, 14), (1 << 62, 7)]);
    assert_same(&sum.compact(true), &own.compact(true));
    // A hash that isn't retained makes a sketch nonempty.
    let (mut sum, mut own) = (sums(12), self::own(12));
    sum.try_update_hash(0, 1).unwrap();
    own.update_hash(0, 1);
    assert!(!sum.is_empty() && !own.is_empty());
    assert_same(&sum.compact(true), &own.compact(true));
}

/// What is known of a sketch of sums without a call is so: beside a policy of one's own, whose summaries are a map's.
#[test]
fn screened_hashes_and_sums_follow_each_change() {
    let (mut sum, mut own) = (sums(5), own(5));
    for turn in 0..10_000_u64 {
        let random = |number: u64| number.wrapping_add(1).wrapping_mul(0x9e37_79b9_7f4a_7c15).rotate_left(29) >> 1;
        let hash = random(random(turn % 3000));
        match random(random(!turn)) % 1000 {
            0 => {
                sum.reset();
                own.reset();
                // Sketches before the reset screened this.
                sum.update_hash(i64::MAX as u64 - 1, turn);
                own.update_hash(i64::MAX as u64 - 1, turn);
            }
            1..=3 => {
                sum.trim();
                own.trim();
            }
            4..=40 => {
                sum.update(turn, turn);
                own.update(turn, turn);
            }
            _ => {
                sum.update_hash(hash, turn);
                own.update_hash(hash, turn);
            }
        }
        let known = (sum.is_empty(), sum.theta64(), sum.num_retained(), sum.estimate());
        assert_eq!(known, (own.is_empty(), own.theta64(), own.num_retained(), own.estimate()), "after turn {turn}");
        assert_eq!(pairs(sum.iter()), pairs(own.iter()), "after turn {turn}");
        if let Some((hash, value)) = pairs(sum.iter()).into_iter().find(|it| it.1 > 0) {
            // A sum that is refused changes nothing, and a hash that is screened has no sum.
            assert_eq!(sum.try_update_hash(hash, u64::MAX).unwrap_err().kind(), ErrorKind::Policy);
            assert_eq!((sum.num_retained(), sum.theta64()), (known.2, known.1));
            assert!(pairs(sum.iter()).contains(&(hash, value)));
            sum.try_update_hash(sum.theta64(), u64::MAX).unwrap();
        }
    }
    assert_same(&sum.compact(true), &own.compact(true));
}

#[test]
fn sketches_of_other_seeds_are_refused() {
    let build = |seed| TupleSketchBuilder::new(OwnSum).seed(seed).build().unwrap();
    let mut other = build(7);
    let summing = |seed| TupleSketchBuilder::new(DefaultUpdatePolicy::<u64>::default()).seed(seed).build().unwrap();
    let mut other_sums = summing(7);
    let mut of_sums = TupleUnionBuilder::new(DefaultUnionPolicy::<u64>::default()).build().unwrap();
    let mut of_own = TupleUnionBuilder::new(OwnSum).build().unwrap();
    let mut both = TupleIntersection::new(OwnSum);
    of_own.update(&other).unwrap();
    of_sums.update(&other).unwrap();
    other.update(1, 1);
    other_sums.update(1, 1);
    let own = own_of(12, 0..10);
    let a_not_b = TupleANotB::default();
    for view in
        [other.as_view(), other_sums.as_view(), other.compact(true).as_view(), other_sums.compact(false).as_view()]
    {
        for error in [
            of_sums.update(view).unwrap_err(),
            of_own.update(view).unwrap_err(),
            both.update(view).unwrap_err(),
            a_not_b.compute(&own, view, true).unwrap_err(),
            a_not_b.compute(view, &own, true).unwrap_err(),
        ] {
            assert_eq!(error.kind(), ErrorKind::InvalidArgument);
            assert!(error.message().contains("0x93cc is needed: build both with one seed"), "{error}");
        }
        a_not_b.compute(&build(9001), view, true).unwrap();
    }
    // A difference of an empty sketch is empty, and of its seed.
    let (empty, empty_sums) = (build(7), summing(7));
    for view in
        [empty.as_view(), empty_sums.as_view(), empty.compact(true).as_view(), empty_sums.compact(true).as_view()]
    {
        let none = a_not_b.compute(view, &own, false).unwrap();
        assert_eq!((none.is_empty(), none.is_ordered(), none.seed_hash()), (true, true, other.seed_hash()));
    }
    assert!(!both.has_result() && of_own.to_sketch(true).is_empty());
    both.update(&build(9001)).unwrap();
    both.update(&other).unwrap();
    assert!(both.to_sketch(true).unwrap().is_empty());
    let mut seven = TupleUnionBuilder::new(OwnSum).seed(7).build().unwrap();
    seven.update(&other_sums).unwrap();
    assert_eq!(seven.to_sketch(true).seed_hash(), other.seed_hash());
}

/// A summary whose image has as many bytes as it wants.
#[derive(Debug, Clone, PartialEq, Default)]
struct Name(String);

impl TupleSummaryValue for Name {
    fn serialize_size(&self) -> usize {
        2 + self.0.len()
    }

    fn serialize_value(&self, bytes: &mut SketchBytes) {
        bytes.write_u16_le(self.0.len() as u16);
        bytes.write(self.0.as_bytes());
    }

    fn deserialize_value(cursor: &mut SketchSlice<'_>) -> Result<Self, Error> {
        let wrong = |_| Error::new(ErrorKind::InvalidData, "a name is cut");
        let mut bytes = vec![0; cursor.read_u16_le().map_err(wrong)?.into()];
        cursor.read_exact(&mut bytes).map_err(wrong)?;
        String::from_utf8(bytes).map(Name).map_err(|_| Error::new(ErrorKind::InvalidData, "a name isn't UTF-8"))
    }
}

impl AddAssign<&str> for Name {
    fn add_assign(&mut self, value: &str) {
        self.0.push_str(value);
    }
}

#[test]
fn images_have_summaries_behind_their_hashes() {
    let mut one = sums(12);
    one.update("ann", 258);
    let image =
        [&[1, 3, 9, 1, 0, 0x1a, 0xcc, 0x93][..], &5478876170378336244_u64.to_le_bytes(), &[2, 1, 0, 0, 0, 0, 0, 0]]
            .concat();
    assert_eq!(one.compact(false).serialize(), image);
    assert_eq!(sums(12).compact(true).serialize(), [1, 3, 9, 1, 0, 0x1e, 0, 0]);
    let mut small = TupleSketchBuilder::new(DefaultUpdatePolicy::<i32>::default()).build().unwrap();
    small.update("ann", -2);
    assert_eq!(small.compact(true).serialize()[16..], [0xfe, 0xff, 0xff, 0xff]);
    let mut names = TupleSketchBuilder::new(DefaultUpdatePolicy::<Name>::default()).lg_k(5).build().unwrap();
    for key in 0..1000_u64 {
        names.update(key, "x".repeat(key as usize % 4).as_str());
    }
    for ordered in [false, true] {
        let compact = names.compact(ordered);
        let image = compact.serialize();
        let read = CompactTupleSketch::<Name>::deserialize(&image).unwrap();
        assert_same(&read, &compact);
        assert_eq!(read.serialize(), image);
        for length in 0..image.len() {
            let error = CompactTupleSketch::<Name>::deserialize(&image[..length]).unwrap_err();
            assert_eq!(error.kind(), ErrorKind::InvalidData, "cut at {length}");
        }
        // No byte of an image makes reading panic, and what is read of a damaged one is written again.
        for at in 0..image.len() {
            for byte in [0, 1, 0x7f, 0x80, 0xff, image[at] ^ 4, image[at].wrapping_add(1)] {
                let mut image = image.clone();
                image[at] = byte;
                match CompactTupleSketch::<Name>::deserialize(&image) {
                    Ok(read) => {
                        let again = CompactTupleSketch::<Name>::deserialize(&read.serialize()).unwrap();
                        assert_same(&again, &read);
                    }
                    Err(error) => assert_eq!(error.kind(), ErrorKind::InvalidData, "{byte} at {at}"),
                }
            }
        }
        assert_eq!(CompactTupleSketch::<Name>::deserialize(&[&image[..], b"x"].concat()).unwrap().serialize(), image);
    }
}

#[test]
fn every_number_is_a_summary_of_images() {
    macro_rules! round {
        ($($number:ty)*) => {$(
            let policy = DefaultUpdatePolicy::<$number>::default();
            let mut sketch = TupleSketchBuilder::new(policy).lg_k(4).build().unwrap();
            (0..300_u64).for_each(|it| sketch.update(it, it as $number));
            let compact = sketch.compact(true);
            let read = CompactTupleSketch::<$number>::deserialize(&compact.serialize()).unwrap();
            assert_same(&read, &compact);
            assert_eq!(compact.serialize().len(), 24 + compact.num_retained() * (8 + std::mem::size_of::<$number>()));
        )*};
    }
    round!(u32 u64 i32 i64 f32 f64);
}

#[test]
fn damaged_images_are_refused_alike_of_sums_and_others() {
    let image = sums_of(5, 0..1000).compact(true).serialize();
    let damaged = |at: usize, byte: u8| {
        let mut image = image.clone();
        image[at] = byte;
        image
    };
    let mut twice = image.clone();
    twice.copy_within(24..32, 40);
    let mut descending = image.clone();
    descending[24..56].rotate_left(16);
    let wrong = [
        (Vec::new(), "no bytes"),
        (image[..image.len() - 1].to_vec(), "cut in its sums"),
        (damaged(0, 0), "no preamble"),
        (damaged(0, 4), "a longer preamble"),
        (damaged(1, 2), "version 2"),
        (damaged(2, 3), "another family"),
        (damaged(3, 2), "another type"),
        (damaged(6, 0), "another seed"),
        (damaged(23, 0xff), "a theta that is too large"),
        (damaged(31, 0x7f), "a hash above theta"),
        (twice, "a hash twice"),
        (descending, "hashes that don't ascend"),
    ];
    let error = CompactTupleSketch::<i64>::deserialize(&damaged(6, 0)).unwrap_err();
    assert!(error.message().contains("the image has another seed hash"), "{error}");
    for (image, what) in wrong {
        let error = CompactTupleSketch::<u64>::deserialize(&image).expect_err(what);
        assert_eq!(error.kind(), ErrorKind::InvalidData, "{what}");
        let error = CompactTupleSketch::<i64>::deserialize(&image).expect_err(what);
        assert_eq!(error.kind(), ErrorKind::InvalidData, "{what}");
    }
    for (at, byte) in [(1, 1), (3, 5), (5, 0x0a), (5, 0x1e)] {
        let (a, b) = (damaged(at, byte), damaged(at, byte));
        let (a, b) = (CompactTupleSketch::<u64>::deserialize(&a), CompactTupleSketch::<i64>::deserialize(&b));
        let (a, b) = (a.unwrap(), b.unwrap());
        assert_eq!((a.theta64(), a.num_retained(), a.is_ordered()), (b.theta64(), b.num_retained(), b.is_ordered()));
        assert_eq!(a.serialize(), b.serialize());
    }
}

/// A policy that panics at one summary.
#[derive(Clone, Copy)]
struct Stops;

impl SummaryPolicy for Stops {
    type Summary = u64;

    fn create(&self) -> u64 {
        0
    }
}

impl SummaryUpdatePolicy<u64> for Stops {
    fn update(&self, summary: &mut u64, value: u64) {
        assert_ne!(value, 13);
        *summary += value;
    }
}

impl SummaryCombinePolicy for Stops {
    fn combine(&self, summary: &mut u64, other: &u64) {
        assert_ne!(*other, 500);
        *summary += *other;
    }
}

#[test]
fn a_policy_that_panics_leaves_sketches_whole() {
    let mut sketch = TupleSketchBuilder::new(Stops).lg_k(5).build().unwrap();
    for key in 0..2000_u64 {
        let _ = catch_unwind(AssertUnwindSafe(|| sketch.update(key, key % 14)));
    }
    assert_eq!(sketch.compact(true).num_retained(), sketch.num_retained());
    let all = own_of(12, 0..1000);
    let mut union = TupleUnionBuilder::new(Stops).build().unwrap();
    union.update(&all).unwrap();
    assert!(catch_unwind(AssertUnwindSafe(|| union.update(&all))).is_err());
    assert_eq!(union.update(&all).unwrap_err().kind(), ErrorKind::Failed);
    assert_eq!(union.try_to_sketch(true).unwrap_err().kind(), ErrorKind::Failed);
    union.reset();
    union.update(&all).unwrap();
    assert_same(&union.to_sketch(true), &all.compact(true));
    let mut both = TupleIntersection::new(Stops);
    both.update(&all).unwrap();
    assert!(catch_unwind(AssertUnwindSafe(|| both.update(&all))).is_err());
    assert_same(&both.to_sketch(true).unwrap(), &all.compact(true));
}

#[test]
fn views_sizes_and_texts_are_there() {
    let (sum, own) = (sums_of(12, 0..10), own_of(12, 0..10));
    let form = own.compact(true);
    for view in [sum.as_view(), own.as_view(), form.as_view()] {
        assert_eq!((view.num_retained(), view.theta64(), view.is_empty()), (10, i64::MAX as u64, false));
        assert_eq!((view.seed_hash(), view.iter().size_hint()), (0x93cc, (10, Some(10))));
        assert_eq!(pairs(view.try_iter().unwrap()), pairs(form.iter()));
    }
    assert!(form.as_view().is_ordered() && !sum.as_view().is_ordered());
    assert!(sum.estimated_size() >= 240 && own.estimated_size() > 240 && form.estimated_size() >= 160);
    let mut union = TupleUnionBuilder::new(OwnSum).build().unwrap();
    union.update(&own).unwrap();
    let mut both = TupleIntersection::new(OwnSum);
    both.update(&own).unwrap();
    assert!(union.estimated_size() > 0 && both.estimated_size() > 0);
    let texts = format!("{sum:?} {own:?} {form:?} {:?} {union:?} {both:?}", sum.as_view());
    assert!(texts.contains("retained: 10"));
    assert_eq!(pairs(sum.try_iter().unwrap()), pairs(sum.try_compact(false).unwrap().try_iter().unwrap()));
    assert_eq!(form.try_serialize().unwrap(), form.serialize());
}

/// The least or the greatest value, but as a policy of a caller's own, whose summaries are a map's.
#[derive(Clone, Copy)]
struct OwnExtreme {
    first: u64,
    kept: fn(u64, u64) -> u64,
}

impl SummaryPolicy for OwnExtreme {
    type Summary = u64;

    fn create(&self) -> u64 {
        self.first
    }
}

impl SummaryUpdatePolicy<u64> for OwnExtreme {
    fn update(&self, summary: &mut u64, value: u64) {
        *summary = (self.kept)(*summary, value);
    }
}

impl SummaryCombinePolicy for OwnExtreme {
    fn combine(&self, summary: &mut u64, other: &u64) {
        *summary = (self.kept)(*summary, *other);
    }
}

/// A sketch that was given three values of each key.
fn extreme_of<P>(policy: P, lg_k: u8, keys: std::ops::Range<u64>) -> TupleSketch<P>
where
    P: SummaryUpdatePolicy<u64>,
{
    let mut sketch = TupleSketchBuilder::new(policy).lg_k(lg_k).build().unwrap();
    for round in 0..3 {
        keys.clone()
            .for_each(|it| sketch.update(it, (it + 1).wrapping_mul(0x9e37_79b9_7f4a_7c15).rotate_left(21 * round)));
    }
    sketch
}

fn check_extreme<P>(policy: P, first: u64, kept: fn(u64, u64) -> u64)
where
    P: SummaryPolicy<Summary = u64> + SummaryUpdatePolicy<u64> + SummaryCombinePolicy + Copy,
{
    let own = OwnExtreme { first, kept };
    for (lg_k, count) in [(12, 1000), (5, 3000)] {
        let (a, b) = (extreme_of(policy, lg_k, 0..count), extreme_of(policy, lg_k, count / 2..2 * count));
        let (own_a, own_b) = (extreme_of(own, lg_k, 0..count), extreme_of(own, lg_k, count / 2..2 * count));
        assert_same(&a.compact(true), &own_a.compact(true));
        assert_same(&b.compact(false), &own_b.compact(false));
        let mut both = TupleUnionBuilder::new(policy).lg_k(lg_k).build().unwrap();
        let mut own_both = TupleUnionBuilder::new(own).lg_k(lg_k).build().unwrap();
        let (mut shared, mut own_shared) = (TupleIntersection::new(policy), TupleIntersection::new(own));
        for view in [a.as_view(), own_b.as_view(), b.compact(true).as_view(), own_a.compact(false).as_view()] {
            both.update(view).unwrap();
            own_both.update(view).unwrap();
            shared.update(view).unwrap();
            own_shared.update(view).unwrap();
        }
        assert_same(&both.to_sketch(true), &own_both.to_sketch(true));
        assert_same(&shared.to_sketch(true).unwrap(), &own_shared.to_sketch(true).unwrap());
        let mut sketch = a;
        sketch.reset();
        sketch.update("ann", 7);
        sketch.update("ann", 9);
        assert_eq!(summaries(sketch.iter()), [kept(7, 9)]);
    }
    let mut full = TupleSketchBuilder::new(policy).build().unwrap();
    let mut both = TupleUnionBuilder::new(policy).build().unwrap();
    for _ in 0..2 {
        full.update("ann", u64::MAX);
        both.update(&full).unwrap();
    }
    assert_eq!(summaries(both.to_sketch(true).iter()), [u64::MAX]);
}

#[test]
fn least_and_greatest_values_are_those_of_a_policy_of_ones_own() {
    check_extreme(MinPolicy, u64::MAX, u64::min);
    check_extreme(MaxPolicy, 0, u64::max);
}
