//! Two threads make all calls by `&` of the same objects at once, and each has the answers of one that is alone.
//!
//! checks/rust runs it under helgrind too, which tells a write that another thread may read meanwhile. So it is a program
//! without a test harness, which has threads of its own, and what the first call keeps has been asked for before:
//! helgrind knows locks and joins, but not the atomic flags behind which that is kept.
#![allow(clippy::unwrap_used)]

use kaftanclay::common::NumStdDev;
use kaftanclay::theta::{
    CompactThetaSketch, ThetaANotB, ThetaIntersection, ThetaSketch, ThetaSketchBuilder, ThetaSketchView, ThetaUnion,
    ThetaUnionBuilder,
};
use kaftanclay::tuple::{
    CompactTupleSketch, DefaultUnionPolicy, DefaultUpdatePolicy, SummaryCombinePolicy, SummaryPolicy,
    SummaryUpdatePolicy, TupleANotB, TupleIntersection, TupleSketch, TupleSketchBuilder, TupleSketchView, TupleUnion,
    TupleUnionBuilder,
};
use std::sync::Arc;
use std::thread;

const KEYS: u64 = 600;
const TURNS: usize = 2;

/// Sums, but as a policy of a caller's own.
#[derive(Debug, Default, Clone, Copy)]
struct OwnSum;

impl SummaryPolicy for OwnSum {
    type Summary = u64;

    fn create(&self) -> u64 {
        0
    }
}

impl SummaryUpdatePolicy<u64> for OwnSum {
    fn update(&self, summary: &mut u64, value: u64) {
        *summary += value;
    }
}

impl SummaryCombinePolicy for OwnSum {
    fn combine(&self, summary: &mut u64, other: &u64) {
        *summary += *other;
    }
}

struct Thetas {
    sketch: ThetaSketch,
    forms: [CompactThetaSketch; 2],
    union: ThetaUnion,
    intersection: ThetaIntersection,
}

impl Thetas {
    fn new() -> Self {
        let mut sketch = ThetaSketchBuilder::default().lg_k(8).build().unwrap();
        (0..KEYS).for_each(|it| sketch.update(it));
        let forms = [sketch.compact(true), sketch.compact(false)];
        let mut union = ThetaUnionBuilder::default().lg_k(7).build().unwrap();
        let mut intersection = ThetaIntersection::default();
        union.update(&sketch).unwrap();
        intersection.update(&forms[1]).unwrap();
        // The state and the hashes that are kept are those of the first call.
        let _ = (sketch.estimate(), forms.each_ref().map(|it| it.iter().count()));
        Self { sketch, forms, union, intersection }
    }

    fn read(&self, found: &mut Vec<Vec<u8>>) {
        let views = [self.sketch.as_view(), self.forms[0].as_view(), self.forms[1].as_view()];
        for view in views {
            let mut hashes: Vec<u64> = view.iter().map(|it| it.hash()).collect();
            hashes.sort_unstable();
            found.push(format!("{hashes:?} {view:?} {} {}", view.theta64(), view.seed_hash()).into_bytes());
        }
        let sketch = &self.sketch;
        let bounds = (sketch.lower_bound(NumStdDev::One), sketch.estimate(), sketch.upper_bound(NumStdDev::One));
        let sizes = (sketch.estimated_size(), self.union.estimated_size(), self.intersection.estimated_size());
        found.push(format!("{bounds:?} {sizes:?} {}", sketch.seed_hash()).into_bytes());
        for form in &self.forms {
            let known = (form.is_ordered(), form.seed_hash(), form.estimated_size(), form.is_estimation_mode());
            found.push(format!("{known:?} {}", form.upper_bound(NumStdDev::Two)).into_bytes());
            found.push(form.clone().serialize());
        }
        for ordered in [true, false] {
            found.push(sketch.compact(ordered).serialize());
            found.push(self.union.to_sketch(ordered).serialize());
            found.push(self.intersection.to_sketch(ordered).unwrap().serialize());
        }
        for first in views {
            for second in views {
                found.push(operated(first, second));
            }
        }
    }
}

/// What operators make of two sketches.
fn operated(first: ThetaSketchView<'_>, second: ThetaSketchView<'_>) -> Vec<u8> {
    let mut union = ThetaUnionBuilder::default().lg_k(8).build().unwrap();
    let mut intersection = ThetaIntersection::default();
    for view in [first, second] {
        union.update(view).unwrap();
        intersection.update(view).unwrap();
    }
    let difference = ThetaANotB::default().compute(first, second, true).unwrap();
    [union.to_sketch(true), intersection.to_sketch(true).unwrap(), difference].map(|it| it.serialize()).concat()
}

/// Tuple sketches under a policy, and operators under another.
struct Tuples<P: SummaryPolicy, Q: SummaryCombinePolicy<Summary = u64>> {
    sketch: TupleSketch<P>,
    forms: [CompactTupleSketch<u64>; 2],
    union: TupleUnion<Q>,
    intersection: TupleIntersection<Q>,
}

impl<P, Q> Tuples<P, Q>
where
    P: SummaryPolicy<Summary = u64> + SummaryUpdatePolicy<u64> + Default,
    Q: SummaryCombinePolicy<Summary = u64> + Default,
{
    fn new() -> Self {
        let mut sketch = TupleSketchBuilder::new(P::default()).lg_k(8).build().unwrap();
        (0..KEYS).for_each(|it| sketch.update(it, it));
        let forms = [sketch.compact(true), sketch.compact(false)];
        let mut union = TupleUnionBuilder::new(Q::default()).lg_k(7).build().unwrap();
        let mut intersection = TupleIntersection::new(Q::default());
        union.update(&sketch).unwrap();
        intersection.update(&forms[1]).unwrap();
        // The state, and what is lent of sums, are kept by the first call.
        let _ = (sketch.estimate(), sketch.iter().count(), forms.each_ref().map(|it| it.iter().count()));
        Self { sketch, forms, union, intersection }
    }

    fn read(&self, found: &mut Vec<Vec<u8>>) {
        let views = [self.sketch.as_view(), self.forms[0].as_view(), self.forms[1].as_view()];
        for view in views {
            let mut pairs: Vec<(u64, u64)> = view.iter().map(|it| (it.hash(), *it.summary())).collect();
            pairs.sort_unstable();
            found.push(format!("{pairs:?} {view:?} {} {}", view.theta64(), view.seed_hash()).into_bytes());
        }
        let sketch = &self.sketch;
        let bounds = (sketch.lower_bound(NumStdDev::One), sketch.estimate(), sketch.upper_bound(NumStdDev::One));
        let sizes = (sketch.estimated_size(), self.union.estimated_size(), self.intersection.estimated_size());
        found.push(format!("{bounds:?} {sizes:?} {}", sketch.seed_hash()).into_bytes());
        for form in &self.forms {
            let known = (form.is_ordered(), form.seed_hash(), form.estimated_size(), form.is_estimation_mode());
            found.push(format!("{known:?} {}", form.upper_bound(NumStdDev::Two)).into_bytes());
            found.push(form.clone().serialize());
        }
        for ordered in [true, false] {
            found.push(sketch.compact(ordered).serialize());
            found.push(self.union.to_sketch(ordered).serialize());
            found.push(self.intersection.to_sketch(ordered).unwrap().serialize());
        }
        for first in views {
            for second in views {
                found.push(operated_tuples::<Q>(first, second));
            }
        }
    }
}

/// What operators make of two tuple sketches.
fn operated_tuples<Q>(first: TupleSketchView<'_, u64>, second: TupleSketchView<'_, u64>) -> Vec<u8>
where
    Q: SummaryCombinePolicy<Summary = u64> + Default,
{
    let mut union = TupleUnionBuilder::new(Q::default()).lg_k(8).build().unwrap();
    let mut intersection = TupleIntersection::new(Q::default());
    for view in [first, second] {
        union.update(view).unwrap();
        intersection.update(view).unwrap();
    }
    let difference = TupleANotB::default().compute(first, second, true).unwrap();
    [union.to_sketch(true), intersection.to_sketch(true).unwrap(), difference].map(|it| it.serialize()).concat()
}

type Sums = DefaultUpdatePolicy<u64>;

struct Shared {
    thetas: Thetas,
    sums: Tuples<Sums, DefaultUnionPolicy<u64>>,
    own: Tuples<OwnSum, OwnSum>,
    /// Each kind under operators of the other.
    sums_under_own: Tuples<Sums, OwnSum>,
    own_under_sums: Tuples<OwnSum, DefaultUnionPolicy<u64>>,
}

impl Shared {
    fn new() -> Self {
        let (thetas, sums, own) = (Thetas::new(), Tuples::new(), Tuples::new());
        Self { thetas, sums, own, sums_under_own: Tuples::new(), own_under_sums: Tuples::new() }
    }

    fn read(&self) -> Vec<Vec<u8>> {
        let mut found = Vec::new();
        self.thetas.read(&mut found);
        self.sums.read(&mut found);
        self.own.read(&mut found);
        self.sums_under_own.read(&mut found);
        self.own_under_sums.read(&mut found);
        found
    }
}

fn main() {
    let shared = Arc::new(Shared::new());
    let threads: Vec<_> = (0..2)
        .map(|_| {
            let shared = Arc::clone(&shared);
            thread::spawn(move || (0..TURNS).map(|_| shared.read()).collect::<Vec<_>>())
        })
        .collect();
    let answers: Vec<_> = threads.into_iter().flat_map(|it| it.join().unwrap()).collect();
    let alone = shared.read();
    assert!(answers.iter().all(|it| *it == alone), "two threads that read at once have other answers than one alone");
    println!("readers: {} answers of each of {} turns are those of one thread alone", alone.len(), answers.len());
}
