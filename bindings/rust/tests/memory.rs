//! Memory that is refused: the tests that are ignored run in a process of their own, which may have little.
#![cfg(all(feature = "theta", feature = "tuple"))]

use kaftanclay::common::ResizeFactor;
use kaftanclay::error::ErrorKind;
use kaftanclay::theta::{ThetaSketchBuilder, ThetaUnionBuilder};
use kaftanclay::tuple::{DefaultUpdatePolicy, TupleSketchBuilder};
use std::panic::{catch_unwind, AssertUnwindSafe};
use std::process::Command;

/// Runs an ignored test where a process may have so many KiB.
fn run_with(kibibytes: u32, test: &str) {
    let program = std::env::current_exe().unwrap();
    let script = format!("ulimit -v {kibibytes} && exec \"$0\" --ignored --exact {test} --test-threads 1");
    let done = Command::new("sh").arg("-c").arg(script).arg(program).output().unwrap();
    let said = String::from_utf8_lossy(&done.stdout);
    assert!(done.status.success() && said.contains("1 passed"), "{said}{}", String::from_utf8_lossy(&done.stderr));
}

#[test]
fn memory_that_is_refused_is_an_error() {
    run_with(400_000, "few_slots_or_an_error");
    run_with(400_000, "updates_or_an_error");
    run_with(400_000, "sums_or_an_error");
}

#[test]
#[ignore = "it needs a limit of memory"]
fn few_slots_or_an_error() {
    let build = || ThetaSketchBuilder::default().lg_k(26).resize_factor(ResizeFactor::X1).build();
    assert_eq!(build().unwrap_err().kind(), ErrorKind::OutOfMemory);
    assert_eq!(build().unwrap_err().message(), "memory was refused");
    let of_sums = TupleSketchBuilder::new(DefaultUpdatePolicy::<u64>::default()).lg_k(26);
    assert_eq!(of_sums.resize_factor(ResizeFactor::X1).build().unwrap_err().kind(), ErrorKind::OutOfMemory);
    let of_own = TupleSketchBuilder::new(DefaultUpdatePolicy::<i64>::default()).lg_k(26);
    assert_eq!(of_own.resize_factor(ResizeFactor::X1).build().unwrap_err().kind(), ErrorKind::OutOfMemory);
}

#[test]
#[ignore = "it needs a limit of memory"]
fn updates_or_an_error() {
    let mut sketch = ThetaSketchBuilder::default().lg_k(26).build().unwrap();
    let refused = (0..u64::MAX).find_map(|it| sketch.try_update(it).err().map(|error| (it, error)));
    let (key, error) = refused.unwrap();
    assert_eq!(error.kind(), ErrorKind::OutOfMemory);
    // The sketch is as before, and takes the keys that it has.
    assert_eq!((sketch.num_retained() as u64, sketch.estimate()), (key, key as f64));
    sketch.update(key - 1);
    let stopped = catch_unwind(AssertUnwindSafe(|| sketch.update(key))).unwrap_err();
    let reason = "kaftanclay: memory was refused; a call whose name begins with try_ returns this as an error";
    assert_eq!(stopped.downcast_ref::<String>().unwrap(), reason);
    assert_eq!(sketch.num_retained() as u64, key);
    // A union that ran out of memory has failed until it is reset.
    let mut union = ThetaUnionBuilder::default().lg_k(26).build().unwrap();
    let merged = (0..8).find_map(|part| {
        let mut more = ThetaSketchBuilder::default().lg_k(26).build().unwrap();
        (0..900_000).for_each(|it| more.update((part, it)));
        union.update(&more).err()
    });
    assert_eq!(merged.unwrap().kind(), ErrorKind::OutOfMemory);
    assert_eq!(union.update(&sketch).unwrap_err().kind(), ErrorKind::Failed);
    assert_eq!(union.try_to_sketch(true).unwrap_err().kind(), ErrorKind::Failed);
    union.reset();
    assert!(union.to_sketch(true).is_empty());
}

#[test]
#[ignore = "it needs a limit of memory"]
fn sums_or_an_error() {
    let mut sketch = TupleSketchBuilder::new(DefaultUpdatePolicy::<u64>::default()).lg_k(26).build().unwrap();
    let refused = (0..u64::MAX).find_map(|it| sketch.try_update(it, 1).err().map(|error| (it, error)));
    let (key, error) = refused.unwrap();
    assert_eq!((error.kind(), sketch.num_retained() as u64), (ErrorKind::OutOfMemory, key));
    sketch.update(key - 1, 1);
    drop(sketch);
    let mut own = TupleSketchBuilder::new(DefaultUpdatePolicy::<i64>::default()).lg_k(26).build().unwrap();
    let refused = (0..u64::MAX).find_map(|it| own.try_update(it, 1).err().map(|error| (it, error)));
    let (key, error) = refused.unwrap();
    assert_eq!((error.kind(), own.num_retained() as u64), (ErrorKind::OutOfMemory, key));
    // An update of a key that it has may take memory too, for the look at its hash.
    if let Err(error) = own.try_update(key - 1, 1) {
        assert_eq!((error.kind(), own.num_retained() as u64), (ErrorKind::OutOfMemory, key));
    }
}
