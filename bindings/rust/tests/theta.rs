//! Theta sketches: keys, builders, states, images, operators.
//!
//! The original's 29 documented examples of both families run over this crate as they are (checks/rust); none is left
//! out. Its tests, and where this crate has what they show:
//!
//! - `theta_and_compact_theta_equivalent`: `a_compact_sketch_has_what_the_sketch_has`.
//! - `compact_theta_serialize_deserialize_round_trip_equivalent_to_compact_and_theta`: the same.
//! - `compact_theta_serialize_compressed_round_trip_tail_entries`: left out, since compressed images are.
//! - `compact_theta_serialize_compressed_round_trip_more_than_255_entries`: left out likewise.
//! - `compact_theta_serialize_compressed_round_trip_estimation_mode`: left out likewise.
//!
//! What its examples show of theta sketches, by their item, and the test of it here:
//!
//! - `ResizeFactor`: `a_resize_factor_changes_no_answer`.
//! - `theta`, `ThetaSketch::estimate`: `few_keys_are_counted_exactly`.
//! - `ThetaSketch::update`: `keys_are_what_hash_writes`.
//! - `ThetaSketch::iter`: `calls_with_try_return_what_others_do`.
//! - `ThetaSketch::compact`: `a_compact_sketch_has_what_the_sketch_has`.
//! - `ThetaSketch::lower_bound`, `ThetaSketch::upper_bound`: `many_keys_are_estimated_within_bounds`.
//! - `ThetaSketchView`: `views_show_what_sketches_have`.
//! - `ThetaSketchBuilder::lg_k`, `ThetaSketchBuilder::build`, and these of unions:
//!   `settings_out_of_range_are_refused_with_reasons`.
//! - `ThetaSketchBuilder::seed`, and that of unions: `sketches_of_other_seeds_are_refused`.
//! - `ThetaSketchBuilder::sampling_probability`: `a_sketch_begins_at_its_starting_theta`.
//! - `ThetaUnionBuilder::sampling_probability`: `a_union_begins_at_its_starting_theta`.
//! - `ThetaANotB`: `a_difference_keeps_what_the_second_lacks`.
#![cfg(feature = "theta")]

use kaftanclay::common::{NumStdDev, ResizeFactor};
use kaftanclay::error::ErrorKind;
use kaftanclay::hash::value::raw_bytes;
use kaftanclay::theta::{
    CompactThetaSketch, ThetaANotB, ThetaEntry, ThetaIntersection, ThetaSketch, ThetaSketchBuilder, ThetaSketchView,
    ThetaUnion, ThetaUnionBuilder,
};
use std::collections::BTreeSet;
use std::hash::Hash;

const MAX_THETA: u64 = i64::MAX as u64;
const EMPTY_IMAGE: [u8; 8] = [1, 3, 3, 0, 0, 0x1e, 0, 0];

fn sketch(lg_k: u8) -> ThetaSketch {
    ThetaSketchBuilder::default().lg_k(lg_k).build().unwrap()
}

fn sketch_of(lg_k: u8, numbers: std::ops::Range<u64>) -> ThetaSketch {
    let mut sketch = sketch(lg_k);
    for number in numbers {
        sketch.update(number);
    }
    sketch
}

fn union_of<'a>(lg_k: u8, sketches: impl IntoIterator<Item = ThetaSketchView<'a>>) -> ThetaUnion {
    let mut union = ThetaUnionBuilder::default().lg_k(lg_k).build().unwrap();
    for sketch in sketches {
        union.update(sketch).unwrap();
    }
    union
}

fn hashes(entries: impl Iterator<Item = ThetaEntry>) -> Vec<u64> {
    entries.map(|it| it.hash()).collect()
}

/// Those of a sketch that promises no order.
fn sorted(entries: impl Iterator<Item = ThetaEntry>) -> Vec<u64> {
    let mut hashes = hashes(entries);
    hashes.sort_unstable();
    hashes
}

fn hash_of(value: impl Hash) -> u64 {
    let mut sketch = sketch(4);
    sketch.update(value);
    let found = hashes(sketch.iter());
    assert_eq!(found.len(), 1);
    found[0]
}

fn assert_same(a: &CompactThetaSketch, b: &CompactThetaSketch) {
    assert_eq!(a.is_empty(), b.is_empty());
    assert_eq!(a.theta64(), b.theta64());
    assert_eq!(a.num_retained(), b.num_retained());
    assert_eq!(a.is_ordered(), b.is_ordered());
    assert_eq!(a.seed_hash(), b.seed_hash());
    assert_eq!(a.estimate().to_bits(), b.estimate().to_bits());
    assert_eq!(hashes(a.iter()), hashes(b.iter()));
    assert_eq!(a.serialize(), b.serialize());
}

#[test]
fn keys_are_what_hash_writes() {
    assert_eq!(hash_of("ann"), 5478876170378336244);
    assert_eq!(hash_of(raw_bytes::from_str("ann")), 7769657259150280956);
    assert_eq!(hash_of("ann"), hash_of(String::from("ann")));
    assert_eq!(hash_of("ann"), hash_of(raw_bytes::from_slice(b"ann\xff")));
    assert_eq!(hash_of(7_u64), hash_of(raw_bytes::from_slice(&[7, 0, 0, 0, 0, 0, 0, 0])));
    assert_eq!(hash_of(7_u32), hash_of(raw_bytes::from_slice(&[7, 0, 0, 0])));
    assert_eq!(hash_of(-1_i16), hash_of(u16::MAX));
    assert_eq!(hash_of((1_u8, "x")), hash_of(raw_bytes::from_slice(b"\x01x\xff")));
    assert_ne!(hash_of(7_u32), hash_of(7_u64));
    assert_ne!(hash_of(7_u64), hash_of("7"));
}

#[test]
fn long_keys_are_gathered_whole() {
    for length in [0, 1, 62, 63, 64, 65, 127, 1000] {
        let text = "k".repeat(length);
        let bytes = [text.as_bytes(), b"\xff"].concat();
        assert_eq!(hash_of(&text), hash_of(raw_bytes::from_slice(&bytes)), "of {length} bytes");
        let pieces: Vec<u8> = vec![7; length];
        let counted = [&(length as u64).to_le_bytes()[..], &pieces].concat();
        assert_eq!(hash_of(&pieces), hash_of(raw_bytes::from_slice(&counted)), "of a slice of {length}");
    }
    assert_eq!(hash_of(()), hash_of(raw_bytes::from_slice(&[])));
}

#[test]
fn few_keys_are_counted_exactly() {
    let mut sketch = sketch(12);
    assert!(sketch.is_empty());
    assert_eq!(sketch.estimate(), 0.0);
    for number in 0..2000 {
        sketch.update(number);
        sketch.update(number);
    }
    assert!(!sketch.is_empty() && !sketch.is_estimation_mode());
    assert_eq!((sketch.num_retained(), sketch.estimate(), sketch.theta()), (2000, 2000.0, 1.0));
    assert_eq!((sketch.theta64(), sketch.seed_hash(), sketch.lg_k()), (MAX_THETA, 0x93cc, 12));
    assert_eq!(sketch.lower_bound(NumStdDev::Three), 2000.0);
    assert_eq!(sketch.upper_bound(NumStdDev::Three), 2000.0);
}

#[test]
fn many_keys_are_estimated_within_bounds() {
    let sketch = sketch_of(10, 0..100_000);
    assert!(sketch.is_estimation_mode() && sketch.theta64() < MAX_THETA);
    assert_eq!(sketch.estimate(), sketch.num_retained() as f64 / sketch.theta());
    assert!((sketch.estimate() - 100_000.0).abs() < 12_000.0);
    let mut widths = Vec::new();
    for deviations in [NumStdDev::One, NumStdDev::Two, NumStdDev::Three] {
        let (lower, upper) = (sketch.lower_bound(deviations), sketch.upper_bound(deviations));
        assert!(lower <= sketch.estimate() && sketch.estimate() <= upper);
        assert_eq!((lower.fract(), upper.fract()), (0.0, 0.0));
        widths.push(upper - lower);
        let compact = sketch.compact(false);
        assert_eq!((compact.lower_bound(deviations), compact.upper_bound(deviations)), (lower, upper));
    }
    assert!(widths[0] < widths[1] && widths[1] < widths[2]);
}

#[test]
fn settings_out_of_range_are_refused_with_reasons() {
    let builder = ThetaSketchBuilder::default;
    let refused = [
        (builder().lg_k(3), "lg_k is 3, and must be from 4 to 26"),
        (builder().lg_k(27), "lg_k is 27, and must be from 4 to 26"),
        (builder().sampling_probability(0.0), "the sampling probability is 0, and must be above 0, at most 1"),
        (builder().sampling_probability(1.5), "the sampling probability is 1.5, and must be above 0, at most 1"),
        (builder().sampling_probability(-0.1), "the sampling probability is -0.1, and must be above 0, at most 1"),
        (builder().sampling_probability(f32::NAN), "the sampling probability is NaN, and must be above 0, at most 1"),
        (
            builder().sampling_probability(1e-30),
            "the sampling probability is 0.000000000000000000000000000001, and theta must be from 1 to 2^63 - 1",
        ),
        (builder().starting_theta(0), "the starting theta is 0, and theta must be from 1 to 2^63 - 1"),
        (
            builder().starting_theta(1 << 63),
            "the starting theta is 9223372036854775808, and theta must be from 1 to 2^63 - 1",
        ),
    ];
    for (builder, reason) in refused {
        let error = builder.build().unwrap_err();
        assert_eq!((error.kind(), error.message()), (ErrorKind::InvalidArgument, reason));
        assert_eq!(error.to_string(), format!("InvalidArgument: {reason}"));
    }
    for lg_k in [4, 5, 26] {
        assert_eq!(builder().lg_k(lg_k).resize_factor(ResizeFactor::X2).build().unwrap().lg_k(), lg_k);
    }
    let union = ThetaUnionBuilder::default;
    assert!(union().lg_k(3).build().is_err() && union().starting_theta(0).build().is_err());
    assert!(union().clone().lg_k(4).build().is_ok());
}

/// A seed whose hash is 0, which no sketch may have.
fn seed_of_hash_0() -> u64 {
    (0..2_000_000).find(|seed| ThetaANotB::with_seed(*seed).is_err()).expect("one of 2^16 seeds has the hash 0")
}

#[test]
fn a_seed_of_hash_0_is_refused() {
    let seed = seed_of_hash_0();
    let argument = ErrorKind::InvalidArgument;
    assert_eq!(ThetaSketchBuilder::default().seed(seed).build().unwrap_err().kind(), argument);
    assert_eq!(ThetaUnionBuilder::default().seed(seed).build().unwrap_err().kind(), argument);
    assert_eq!(ThetaIntersection::with_seed(seed).unwrap_err().kind(), argument);
    let error = ThetaANotB::with_seed(seed).unwrap_err();
    assert_eq!(error.message(), format!("the seed {seed} has the hash 0: choose another"));
    let error = CompactThetaSketch::deserialize_with_seed(&EMPTY_IMAGE, seed).unwrap_err();
    assert_eq!(error.kind(), ErrorKind::InvalidData);
}

#[test]
fn a_resize_factor_changes_no_answer() {
    let images: Vec<_> = [ResizeFactor::X1, ResizeFactor::X2, ResizeFactor::X4, ResizeFactor::X8]
        .into_iter()
        .map(|factor| {
            assert_eq!(factor.value(), 1 << factor.lg_value());
            let mut sketch = ThetaSketchBuilder::default().lg_k(5).resize_factor(factor).build().unwrap();
            (0..500).for_each(|it| sketch.update(it));
            sketch.compact(true).serialize()
        })
        .collect();
    assert!(images.iter().all(|it| *it == images[0]));
}

#[test]
fn a_sketch_begins_at_its_starting_theta() {
    let build = || ThetaSketchBuilder::default().lg_k(12).sampling_probability(0.5).build().unwrap();
    let mut sketch = build();
    assert_eq!((sketch.theta64(), sketch.theta(), sketch.estimate()), (MAX_THETA, 1.0, 0.0));
    assert!(!sketch.is_estimation_mode());
    (0..1000).for_each(|it| sketch.update(it));
    assert_eq!((sketch.theta64(), sketch.theta()), (1 << 62, 0.5));
    assert!(sketch.num_retained() > 400 && sketch.num_retained() < 600);
    assert_eq!(sketch.estimate(), 2.0 * sketch.num_retained() as f64);
    sketch.reset();
    assert!(sketch.is_empty());
    sketch.update_hash(MAX_THETA);
    assert_eq!((sketch.is_empty(), sketch.num_retained(), sketch.theta64()), (false, 0, 1 << 62));
    let compact = sketch.compact(false);
    assert_eq!((compact.is_empty(), compact.is_ordered(), compact.estimate()), (false, false, 0.0));
}

#[test]
fn trim_keeps_the_least_hashes() {
    let mut sketch = sketch(5);
    let mut number = 0;
    while sketch.num_retained() < 40 {
        sketch.update(number);
        number += 1;
    }
    let all = sorted(sketch.iter());
    sketch.trim();
    assert_eq!((sketch.num_retained(), sketch.theta64()), (32, all[32]));
    assert_eq!(sorted(sketch.iter()), &all[..32]);
    sketch.try_trim().unwrap();
    assert_eq!(sketch.num_retained(), 32);
    sketch.reset();
    assert_eq!((sketch.is_empty(), sketch.num_retained(), sketch.theta64()), (true, 0, MAX_THETA));
}

/// Output number `number` of splitmix64.
fn random(number: u64) -> u64 {
    let mut x = number.wrapping_add(1).wrapping_mul(0x9e37_79b9_7f4a_7c15);
    x = (x ^ (x >> 30)).wrapping_mul(0xbf58_476d_1ce4_e5b9);
    x = (x ^ (x >> 27)).wrapping_mul(0x94d0_49bb_1331_11eb);
    x ^ (x >> 31)
}

/// What is known of a sketch without a call is so: beside all hashes since the last reset, and a form that is made anew.
#[test]
fn screened_hashes_and_readings_follow_each_change() {
    for start in [MAX_THETA, 1 << 61] {
        let mut sketch = ThetaSketchBuilder::default().lg_k(5).starting_theta(start).build().unwrap();
        let mut given = BTreeSet::new();
        let mut resets = 0;
        for turn in 0..10_000 {
            let hash = random(turn) >> 1;
            match random(!turn) % 1000 {
                0 => {
                    sketch.reset();
                    given.clear();
                    resets += 1;
                    assert!(sketch.is_empty());
                    // Sketches before the reset screened these.
                    for hash in [u64::MAX, MAX_THETA - 1] {
                        sketch.update_hash(hash);
                        given.insert(hash);
                    }
                }
                1..=3 => sketch.trim(),
                4..=40 => {
                    sketch.update(turn);
                    given.insert(hash_of(turn));
                }
                41..=43 => {
                    let hash = [0, sketch.theta64() - 1, sketch.theta64()][turn as usize % 3];
                    sketch.update_hash(hash);
                    given.insert(hash);
                }
                _ => {
                    sketch.update_hash(hash);
                    given.insert(hash);
                }
            }
            let form = sketch.compact(true);
            let retained: Vec<u64> = given.range(1..form.theta64()).copied().collect();
            assert_eq!(hashes(form.iter()), retained, "after turn {turn}");
            assert_eq!((sketch.is_empty(), sketch.theta64()), (given.is_empty(), form.theta64()));
            for _ in 0..2 {
                assert_eq!((sketch.num_retained(), sketch.estimate()), (retained.len(), form.estimate()));
                assert_eq!(sketch.upper_bound(NumStdDev::Two), form.upper_bound(NumStdDev::Two));
            }
        }
        assert!(resets > 3);
    }
}

#[test]
fn a_compact_sketch_has_what_the_sketch_has() {
    for (lg_k, count) in [(12, 0), (12, 1), (12, 2000), (5, 5000)] {
        let sketch = sketch_of(lg_k, 0..count);
        for ordered in [false, true] {
            let compact = sketch.compact(ordered);
            assert_eq!(compact.is_empty(), sketch.is_empty());
            assert_eq!(compact.is_estimation_mode(), sketch.is_estimation_mode());
            assert_eq!(compact.num_retained(), sketch.num_retained());
            assert_eq!(compact.theta64(), sketch.theta64());
            assert_eq!(compact.estimate().to_bits(), sketch.estimate().to_bits());
            assert_eq!(compact.is_ordered(), ordered || count < 2);
            assert_eq!(sorted(compact.iter()), sorted(sketch.iter()));
            assert_same(&compact, &CompactThetaSketch::deserialize(&compact.serialize()).unwrap());
            assert_same(&compact, &compact.clone());
        }
    }
}

#[test]
fn images_have_the_bytes_of_the_format() {
    assert_eq!(sketch(12).compact(true).serialize(), EMPTY_IMAGE);
    let mut one = sketch(12);
    one.update("ann");
    let image = [&[1, 3, 3, 0, 0, 0x1a, 0xcc, 0x93][..], &5478876170378336244_u64.to_le_bytes()].concat();
    assert_eq!(one.compact(false).serialize(), image);
    one.update("bob");
    let (ordered, unordered) = (one.compact(true).serialize(), one.compact(false).serialize());
    assert_eq!(&ordered[..16], [2, 3, 3, 0, 0, 0x1a, 0xcc, 0x93, 2, 0, 0, 0, 0, 0, 0, 0]);
    assert_eq!((ordered[5], unordered[5]), (0x1a, 0x0a));
    let many = sketch_of(4, 0..1000).compact(true);
    assert_eq!(&many.serialize()[..8], [3, 3, 3, 0, 0, 0x1a, 0xcc, 0x93]);
    assert_eq!(many.serialize()[16..24], many.theta64().to_le_bytes());
    assert_eq!(many.serialize().len(), 24 + 8 * many.num_retained());
}

#[test]
fn an_unordered_image_keeps_its_order() {
    let ascending = sketch_of(12, 0..3).compact(true);
    let mut image = ascending.serialize();
    image[5] = 0x0a;
    image[16..].rotate_left(8);
    let read = CompactThetaSketch::deserialize(&image).unwrap();
    assert!(!read.is_ordered());
    assert_eq!(read.serialize(), image);
    let mut back = hashes(read.iter());
    back.rotate_right(1);
    assert_eq!(back, hashes(ascending.iter()));
    assert_same(&union_of(12, [read.as_view()]).to_sketch(true), &ascending);
    assert_same(&ThetaANotB::default().compute(&read, &sketch(12), true).unwrap(), &ascending);
    let copy = ThetaANotB::default().compute(&read, &sketch(12), false).unwrap();
    assert_eq!((copy.is_ordered(), sorted(copy.iter())), (false, hashes(ascending.iter())));
}

#[test]
fn images_of_older_versions_are_read() {
    let first: Vec<u8> = [&[3, 1, 3, 0, 0, 0, 0, 0, 2, 0, 0, 0, 0, 0, 0, 0][..], &MAX_THETA.to_le_bytes()].concat();
    let entries = [5_u64.to_le_bytes(), 9_u64.to_le_bytes()].concat();
    let read = CompactThetaSketch::deserialize(&[&first[..], &entries].concat()).unwrap();
    assert_eq!((read.is_ordered(), hashes(read.iter()), read.theta64()), (true, vec![5, 9], MAX_THETA));
    let second = [2, 2, 3, 0, 0, 0, 0xcc, 0x93, 2, 0, 0, 0, 0, 0, 0, 0];
    let read = CompactThetaSketch::deserialize(&[&second[..], &entries].concat()).unwrap();
    assert_eq!((read.is_ordered(), hashes(read.iter())), (true, vec![5, 9]));
    assert_eq!(read.serialize()[..6], [2, 3, 3, 0, 0, 0x1a]);
}

#[test]
fn damaged_images_are_refused() {
    let image = sketch_of(5, 0..1000).compact(true).serialize();
    let damaged = |at: usize, byte: u8| {
        let mut image = image.clone();
        image[at] = byte;
        image
    };
    let mut twice = image.clone();
    twice.copy_within(24..32, 32);
    let mut descending = image.clone();
    descending[24..40].rotate_left(8);
    let wrong = [
        (image[..7].to_vec(), "cut in its preamble"),
        (image[..image.len() - 1].to_vec(), "cut in its hashes"),
        (damaged(0, 0), "no preamble"),
        (damaged(0, 4), "a longer preamble"),
        (damaged(1, 4), "version 4"),
        (damaged(1, 0), "version 0"),
        (damaged(2, 9), "another family"),
        (damaged(6, 0), "another seed"),
        (damaged(23, 0xff), "a theta that is too large"),
        (damaged(31, 0x7f), "a hash above theta"),
        (twice, "a hash twice"),
        (descending, "hashes that don't ascend"),
        (Vec::new(), "no bytes"),
    ];
    for (image, what) in wrong {
        let error = CompactThetaSketch::deserialize(&image).expect_err(what);
        assert_eq!(error.kind(), ErrorKind::InvalidData, "{what}");
    }
    let longer = [&image[..], b"more"].concat();
    assert_eq!(CompactThetaSketch::deserialize(&longer).unwrap().serialize(), image);
}

#[test]
fn an_image_is_read_under_its_seed() {
    let mut seven = ThetaSketchBuilder::default().seed(7).build().unwrap();
    seven.update(1);
    let image = seven.compact(true).serialize();
    assert!(CompactThetaSketch::deserialize(&image).is_err());
    let read = CompactThetaSketch::deserialize_with_seed(&image, 7).unwrap();
    assert_eq!((read.seed_hash(), &image[6..8]), (seven.seed_hash(), &seven.seed_hash().to_le_bytes()[..]));
    assert_ne!(read.seed_hash(), 0x93cc);
    // The seed of an empty sketch isn't checked.
    assert_eq!(CompactThetaSketch::deserialize_with_seed(&EMPTY_IMAGE, 7).unwrap().seed_hash(), read.seed_hash());
}

#[test]
fn a_union_has_the_least_hashes_of_all() {
    let (a, b) = (sketch_of(12, 0..1000), sketch_of(12, 500..1500));
    let union =
        union_of(12, [a.as_view(), b.compact(true).as_view(), b.compact(false).as_view(), sketch(12).as_view()]);
    assert_same(&union.to_sketch(true), &sketch_of(12, 0..1500).compact(true));
    assert!(!union.to_sketch(false).is_ordered());
    let (a, b) = (sketch_of(10, 0..50_000), sketch_of(10, 25_000..75_000));
    let mut union = union_of(10, [a.as_view(), b.as_view()]);
    let mut whole = sketch_of(10, 0..75_000);
    whole.trim();
    assert_same(&union.try_to_sketch(true).unwrap(), &whole.compact(true));
    union.reset();
    assert!(union.to_sketch(true).is_empty());
    union.update(&a).unwrap();
    let mut trimmed = sketch_of(10, 0..50_000);
    trimmed.trim();
    assert_same(&union.to_sketch(true), &trimmed.compact(true));
}

#[test]
fn a_union_begins_at_its_starting_theta() {
    let mut union = ThetaUnionBuilder::default().sampling_probability(0.25).build().unwrap();
    union.update(&sketch(12)).unwrap();
    assert!(union.to_sketch(true).is_empty());
    let all = sketch_of(12, 0..1000);
    for _ in 0..2 {
        union.update(&all).unwrap();
        let below: Vec<u64> = sorted(all.iter()).into_iter().filter(|it| *it < 1 << 61).collect();
        assert_eq!((union.to_sketch(true).theta64(), hashes(union.to_sketch(true).iter())), (1 << 61, below));
        union.reset();
        assert_eq!(union.to_sketch(true).theta64(), MAX_THETA);
    }
}

#[test]
fn an_intersection_has_the_shared_hashes() {
    let (a, b) = (sketch_of(12, 0..1000), sketch_of(12, 500..1500));
    let mut intersection = ThetaIntersection::default();
    assert!(!intersection.has_result() && intersection.to_sketch(true).is_none());
    intersection.update(&a).unwrap();
    assert!(intersection.has_result());
    assert_same(&intersection.to_sketch(true).unwrap(), &a.compact(true));
    intersection.update(&b.compact(false)).unwrap();
    assert_same(&intersection.to_sketch(true).unwrap(), &sketch_of(12, 500..1000).compact(true));
    // Nothing is shared while theta is that of all hashes: empty for good.
    intersection.update(&sketch_of(12, 5000..5001)).unwrap();
    assert!(intersection.to_sketch(true).unwrap().is_empty());
    intersection.update(&a).unwrap();
    assert!(intersection.try_to_sketch(false).unwrap().unwrap().is_empty());
    let mut intersection = ThetaIntersection::default();
    intersection.update(&sketch(12)).unwrap();
    assert!(intersection.has_result() && intersection.to_sketch(true).unwrap().is_empty());
}

#[test]
fn an_intersection_of_estimates_has_the_lesser_theta() {
    let (a, b) = (sketch_of(10, 0..50_000), sketch_of(10, 25_000..75_000).compact(true));
    let mut intersection = ThetaIntersection::default();
    intersection.update(&a).unwrap();
    intersection.update(&b).unwrap();
    let both = intersection.to_sketch(true).unwrap();
    assert_eq!(both.theta64(), a.theta64().min(b.theta64()));
    assert!((both.estimate() - 25_000.0).abs() < 6_000.0);
    // Disjoint samples share nothing, and the intersection isn't empty: theta is below its greatest value.
    let mut intersection = ThetaIntersection::default();
    intersection.update(&a).unwrap();
    intersection.update(&sketch_of(10, 1_000_000..1_050_000)).unwrap();
    let none = intersection.to_sketch(false).unwrap();
    assert_eq!((none.is_empty(), none.num_retained(), none.is_ordered()), (false, 0, false));
}

#[test]
fn a_difference_keeps_what_the_second_lacks() {
    let (a, b) = (sketch_of(12, 0..1000), sketch_of(12, 500..1500));
    let (ca, cb) = (a.compact(true), b.compact(true));
    let a_not_b = ThetaANotB::default();
    let wanted = sketch_of(12, 0..500).compact(true);
    assert_same(&a_not_b.compute(&a, &b, true).unwrap(), &wanted);
    assert_same(&a_not_b.compute(&ca, &b, false).unwrap(), &wanted);
    assert_same(&a_not_b.compute(&a, &cb, true).unwrap(), &wanted);
    assert_same(&a_not_b.compute(ca.as_view(), cb.as_view(), true).unwrap(), &wanted);
    assert!(!a_not_b.compute(&a, &b, false).unwrap().is_ordered());
    assert!(a_not_b.compute(&a, &a, true).unwrap().is_empty());
    assert!(a_not_b.compute(&ca, &ca, true).unwrap().is_empty());
    assert!(a_not_b.compute(&ca, &ca.clone(), true).unwrap().is_empty());
    assert_same(&a_not_b.compute(&ca, &sketch(12), true).unwrap(), &ca);
    assert!(a_not_b.compute(&sketch(12), &cb, true).unwrap().is_empty());
}

/// A form of one hash is always ordered, and a sketch never.
#[test]
fn a_difference_of_one_hash_promises_what_is_asked() {
    let (few, many) = (sketch_of(12, 0..1), sketch_of(4, 1..1000));
    let a_not_b = ThetaANotB::default();
    for (second, name) in [(many.as_view(), "a sketch"), (many.compact(true).as_view(), "a form")] {
        let asked = a_not_b.compute(&few, second, true).unwrap();
        let unasked = a_not_b.compute(&few, second, false).unwrap();
        assert_eq!((asked.is_ordered(), unasked.is_ordered()), (true, false), "without {name}");
        assert_eq!((asked.theta64(), unasked.theta64()), (many.theta64(), many.theta64()));
        assert_eq!(hashes(asked.iter()), hashes(unasked.iter()));
        assert_eq!(unasked.serialize()[5], 0x0a);
        assert!(a_not_b.compute(&few.compact(false), second, false).unwrap().is_ordered());
    }
    assert!(a_not_b.compute(&few, &sketch(12), false).unwrap().is_ordered());
    assert!(a_not_b.compute(&sketch(12), &many, false).unwrap().is_empty());
}

#[test]
fn sketches_of_other_seeds_are_refused() {
    let mut other = ThetaSketchBuilder::default().seed(7).build().unwrap();
    let own = sketch_of(12, 0..10);
    let mut union = union_of(12, [own.as_view()]);
    let mut intersection = ThetaIntersection::default();
    let a_not_b = ThetaANotB::default();
    // The seed of an empty sketch isn't checked.
    union.update(&other).unwrap();
    assert_eq!(a_not_b.compute(&other, &own, true).unwrap().seed_hash(), other.seed_hash());
    a_not_b.compute(&own, &other, true).unwrap();
    other.update(1);
    let reason = format!("the sketch's seed has the hash {:#06x}, and 0x93cc is needed", other.seed_hash());
    for error in [
        union.update(&other).unwrap_err(),
        union.update(&other.compact(true)).unwrap_err(),
        intersection.update(&other).unwrap_err(),
        a_not_b.compute(&own, &other, true).unwrap_err(),
        a_not_b.compute(&other, &own, true).unwrap_err(),
    ] {
        assert_eq!(error.kind(), ErrorKind::InvalidArgument);
        assert!(error.message().starts_with(&reason), "{error}");
    }
    let mut seven = ThetaUnionBuilder::default().seed(7).build().unwrap();
    seven.update(&other).unwrap();
    assert_same(&seven.to_sketch(true), &other.compact(true));
    assert!(!intersection.has_result());
    assert_same(&union.to_sketch(true), &own.compact(true));
    // An empty intersection stays empty, whatever comes.
    intersection.update(&sketch(12)).unwrap();
    intersection.update(&other).unwrap();
}

#[test]
fn views_show_what_sketches_have() {
    let sketch = sketch_of(5, 0..1000);
    let compact = sketch.compact(true);
    for view in [sketch.as_view(), compact.as_view(), ThetaSketchView::from(&sketch)] {
        assert_eq!(view.theta64(), sketch.theta64());
        assert_eq!(view.num_retained(), sketch.num_retained());
        assert_eq!((view.seed_hash(), view.is_empty()), (0x93cc, false));
        assert_eq!(view.iter().size_hint(), (sketch.num_retained(), Some(sketch.num_retained())));
        assert_eq!(sorted(view.try_iter().unwrap()), hashes(compact.iter()));
    }
    assert!(compact.as_view().is_ordered() && !sketch.as_view().is_ordered());
}

#[test]
fn sizes_and_texts_are_there() {
    let (few, many) = (sketch_of(12, 0..10), sketch_of(12, 0..100_000));
    assert!(few.estimated_size() < many.estimated_size());
    assert_eq!(many.estimated_size(), 8 << 13);
    let form = many.compact(true);
    assert_eq!(form.estimated_size(), 8 * form.num_retained());
    let listed = hashes(form.iter());
    assert_eq!(form.clone().estimated_size(), 16 * form.num_retained());
    assert_eq!(hashes(form.clone().iter()), listed);
    let union = union_of(12, [few.as_view()]);
    let mut intersection = ThetaIntersection::default();
    assert_eq!(intersection.estimated_size(), 0);
    intersection.update(&few).unwrap();
    assert!(union.estimated_size() >= 80 && intersection.estimated_size() == 80);
    let texts = format!("{few:?} {:?} {:?} {union:?} {intersection:?}", few.compact(true), few.as_view());
    assert!(texts.contains("retained: 10"));
}

#[test]
fn calls_with_try_return_what_others_do() {
    let mut sketch = sketch(12);
    sketch.try_update("ann").unwrap();
    sketch.try_update_hash(5).unwrap();
    assert_eq!(sorted(sketch.try_iter().unwrap()), [5, 5478876170378336244]);
    let compact = sketch.try_compact(true).unwrap();
    assert_eq!(hashes(compact.try_iter().unwrap()), hashes(compact.iter()));
    assert_eq!(compact.try_serialize().unwrap(), compact.serialize());
}
