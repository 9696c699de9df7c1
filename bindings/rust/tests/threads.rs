//! Which threads may use what, and reads of one sketch by several threads at once.
#![cfg(all(feature = "theta", feature = "tuple"))]

use kaftanclay::error::Error;
use kaftanclay::hash::value::raw_bytes::RawBytes;
use kaftanclay::theta::{
    CompactThetaSketch, ThetaANotB, ThetaEntry, ThetaIntersection, ThetaSketch, ThetaSketchBuilder, ThetaSketchView,
    ThetaUnion, ThetaUnionBuilder,
};
use kaftanclay::tuple::{
    CompactTupleSketch, DefaultUnionPolicy, DefaultUpdatePolicy, TupleANotB, TupleEntry, TupleIntersection,
    TupleSketch, TupleSketchBuilder, TupleSketchView, TupleUnion, TupleUnionBuilder,
};
use std::panic::{RefUnwindSafe, UnwindSafe};
use std::sync::Arc;
use std::thread;

fn is_shared<T: Send + Sync + Unpin + UnwindSafe + RefUnwindSafe>() {}

#[test]
fn every_type_is_send_and_sync() {
    is_shared::<ThetaSketch>();
    is_shared::<CompactThetaSketch>();
    is_shared::<ThetaSketchView<'_>>();
    is_shared::<ThetaEntry>();
    is_shared::<ThetaSketchBuilder>();
    is_shared::<ThetaUnion>();
    is_shared::<ThetaUnionBuilder>();
    is_shared::<ThetaIntersection>();
    is_shared::<ThetaANotB>();
    is_shared::<TupleSketch<DefaultUpdatePolicy<u64>>>();
    is_shared::<TupleSketch<DefaultUpdatePolicy<i32>>>();
    is_shared::<CompactTupleSketch<u64>>();
    is_shared::<CompactTupleSketch<String>>();
    is_shared::<TupleSketchView<'_, f64>>();
    is_shared::<TupleEntry<Vec<u8>>>();
    is_shared::<TupleSketchBuilder<DefaultUpdatePolicy<u64>>>();
    is_shared::<TupleUnion<DefaultUnionPolicy<u64>>>();
    is_shared::<TupleUnionBuilder<DefaultUnionPolicy<i32>>>();
    is_shared::<TupleIntersection<DefaultUnionPolicy<u64>>>();
    is_shared::<TupleANotB>();
    is_shared::<RawBytes<'_>>();
    is_shared::<Error>();
}

/// A summary that another thread may read, and not own, is no reason against sharing its sketch.
#[test]
fn summaries_decide_what_may_be_shared() {
    fn is_sync<T: Sync>() {}
    fn is_send<T: Send>() {}
    type OfOneThread = std::sync::MutexGuard<'static, u8>;
    is_sync::<CompactTupleSketch<OfOneThread>>();
    is_send::<CompactTupleSketch<std::cell::Cell<u8>>>();
}

fn sketch(numbers: std::ops::Range<u64>) -> ThetaSketch {
    let mut sketch = ThetaSketchBuilder::default().lg_k(10).build().unwrap();
    numbers.for_each(|it| sketch.update(it));
    sketch
}

#[test]
fn threads_read_one_sketch_at_once() {
    let (a, b) = (Arc::new(sketch(0..5000)), Arc::new(sketch(2500..7500)));
    let (ca, cb) = (Arc::new(a.compact(true)), Arc::new(b.compact(false)));
    let wanted = ThetaANotB::default().compute(&*ca, &*cb, true).unwrap().serialize();
    let threads: Vec<_> = (0..4)
        .map(|number| {
            let (a, b, ca, cb, wanted) = (a.clone(), b.clone(), ca.clone(), cb.clone(), wanted.clone());
            thread::spawn(move || {
                for _ in 0..200 {
                    assert_eq!(a.estimate(), ca.estimate());
                    assert_eq!(b.iter().count(), cb.iter().count());
                    let a_not_b = ThetaANotB::default();
                    if number % 2 == 0 {
                        assert_eq!(a_not_b.compute(&*ca, &*cb, true).unwrap().serialize(), wanted);
                    } else {
                        a_not_b.compute(&*cb, &*ca, true).unwrap();
                        assert!(a_not_b.compute(&*ca, &*ca, true).unwrap().num_retained() == 0);
                    }
                    let mut union = ThetaUnionBuilder::default().lg_k(10).build().unwrap();
                    union.update(&*a).unwrap();
                    union.update(&*cb).unwrap();
                    assert!(union.to_sketch(true).estimate() > 5000.0);
                }
            })
        })
        .collect();
    threads.into_iter().for_each(|it| it.join().unwrap());
}

#[test]
fn threads_read_one_sketch_of_sums_at_once() {
    let mut sums = TupleSketchBuilder::new(DefaultUpdatePolicy::<u64>::default()).lg_k(8).build().unwrap();
    (0..2000_u64).for_each(|it| sums.update(it, it));
    let compact = sums.compact(true);
    let total: u64 = compact.iter().map(|it| *it.summary()).sum();
    thread::scope(|scope| {
        for _ in 0..4 {
            scope.spawn(|| {
                for _ in 0..100 {
                    assert_eq!(sums.iter().map(|it| *it.summary()).sum::<u64>(), total);
                    assert_eq!(compact.clone().iter().map(|it| *it.summary()).sum::<u64>(), total);
                    let mut union = TupleUnionBuilder::new(DefaultUnionPolicy::<u64>::default()).build().unwrap();
                    union.update(&sums).unwrap();
                    union.update(&compact).unwrap();
                    assert_eq!(union.to_sketch(true).iter().map(|it| *it.summary()).sum::<u64>(), 2 * total);
                }
            });
        }
    });
}

#[test]
fn a_sketch_moves_to_another_thread() {
    let moved = thread::spawn(|| sketch(0..1000)).join().unwrap();
    assert!(moved.num_retained() > 900);
    thread::spawn(move || drop(moved)).join().unwrap();
}
