//! Nanoseconds of processor time an item of the original crate, of this one, and of the proved crates below the border to
//! C, in one run: `speed [ROUNDS] [WORD]`, of the rows whose names have the word.
//!
//! `bench/rust/run.py` builds and runs it with all three; checks/rust leaves it at bindings/rust/build/release/speed. The
//! first twenty rows are cases that bench/plans/sketch_bench.rt.txt describes, on its input; behind them are small sketches
//! and others. In each round the crates run in turns, and a row has the least of all rounds. If SKETCH_BENCH names the
//! built program of bench/plans/sketch_bench.rt.txt, it runs in turns with them: then a row that this has as a case has
//! its time too, and what this crate takes more, the cost of the border, which is that of this crate's lines and of the
//! calls of C. `same` says that the numbers of all answers are one. Give it a core of its own, as by `taskset -c 3`, on a
//! quiet machine. docs/use/PERFORMANCE.md has a run.

use std::hint::black_box;
use std::os::unix::process::CommandExt;
use std::process::Command;

/// The nanoseconds that this thread has had of a processor.
fn processor_time() -> u64 {
    extern "C" {
        fn clock_gettime(clock: i32, out: *mut [i64; 2]) -> i32;
    }
    const OF_THIS_THREAD: i32 = 3;
    let mut time = [0; 2];
    // SAFETY: on x86-64 Linux a timespec is two numbers of 64 bits.
    unsafe { clock_gettime(OF_THIS_THREAD, &mut time) };
    time[0] as u64 * 1_000_000_000 + time[1] as u64
}

/// Nanoseconds, and a number that depends on the answer alone, if there is one.
type Found = (u64, Option<u64>);

/// How many items a run has, and the run.
type Case = (u64, Box<dyn FnMut() -> Found>);

/// Times a run. Its answer is checked and dropped when the clock has stopped.
fn timed<T>(run: impl FnOnce() -> T, check: impl FnOnce(&T) -> Option<u64>) -> Found {
    let begun = processor_time();
    let answer = black_box(run());
    let taken = processor_time() - begun;
    (taken, check(&answer))
}

/// Output number i of splitmix64, halved.
fn h(i: u64) -> u64 {
    let mut x = i.wrapping_add(1).wrapping_mul(0x9e37_79b9_7f4a_7c15);
    x = (x ^ (x >> 30)).wrapping_mul(0xbf58_476d_1ce4_e5b9);
    x = (x ^ (x >> 27)).wrapping_mul(0x94d0_49bb_1331_11eb);
    (x ^ (x >> 31)) >> 1
}

fn hashes(from: u64, to: u64) -> Vec<u64> {
    (from..to).map(h).collect()
}

/// 4096 hashes again and again.
fn repeated(count: u64) -> Vec<u64> {
    (0..count).map(|it| h(it % 4096)).collect()
}

fn summed(theta: u64, count: usize, numbers: impl Iterator<Item = u64>) -> Option<u64> {
    Some(numbers.fold(theta.wrapping_add(count as u64), u64::wrapping_add))
}

/// The xor of an image's words.
fn check_image(image: &[u8]) -> Option<u64> {
    Some(image.chunks(8).fold(0, |sum, it| {
        let mut word = [0; 8];
        word[..it.len()].copy_from_slice(it);
        sum ^ u64::from_le_bytes(word)
    }))
}

/// The cases of a crate.
macro_rules! cases {
    ($module:ident, $krate:ident) => {
        mod $module {
            use super::{check_image, h, hashes, repeated, summed, timed, Case};
            use std::rc::Rc;
            use $krate::theta::{
                CompactThetaSketch, ThetaANotB, ThetaIntersection, ThetaSketch, ThetaSketchBuilder, ThetaSketchView,
                ThetaUnionBuilder,
            };
            use $krate::tuple::{
                CompactTupleSketch, DefaultUnionPolicy, DefaultUpdatePolicy, SummaryCombinePolicy, SummaryPolicy,
                SummaryUpdatePolicy, TupleSketch, TupleSketchBuilder, TupleUnionBuilder,
            };

            /// A policy that adds, and isn't the crate's.
            #[derive(Default)]
            struct Added;

            impl SummaryPolicy for Added {
                type Summary = u64;

                fn create(&self) -> u64 {
                    0
                }
            }

            impl SummaryUpdatePolicy<u64> for Added {
                fn update(&self, summary: &mut u64, value: u64) {
                    *summary += value;
                }
            }

            impl SummaryCombinePolicy for Added {
                fn combine(&self, summary: &mut u64, other: &u64) {
                    *summary += *other;
                }
            }

            fn check(it: &ThetaSketch) -> Option<u64> {
                summed(it.theta64(), it.num_retained(), it.iter().map(|it| it.hash()))
            }

            fn check_form(it: &CompactThetaSketch) -> Option<u64> {
                summed(it.theta64(), it.num_retained(), it.iter().map(|it| it.hash()))
            }

            fn check_sums<P: SummaryPolicy<Summary = u64>>(it: &TupleSketch<P>) -> Option<u64> {
                summed(it.theta64(), it.num_retained(), it.iter().map(|it| it.hash().wrapping_mul(*it.summary())))
            }

            fn check_form_of_sums(it: &CompactTupleSketch<u64>) -> Option<u64> {
                summed(it.theta64(), it.num_retained(), it.iter().map(|it| it.hash().wrapping_mul(*it.summary())))
            }

            fn sketch(lg_k: u8) -> ThetaSketch {
                ThetaSketchBuilder::default().lg_k(lg_k).build().unwrap()
            }

            fn screening() -> ThetaSketch {
                ThetaSketchBuilder::default().starting_theta(1).build().unwrap()
            }

            fn fed(lg_k: u8, hashes: &[u64]) -> ThetaSketch {
                let mut sketch = sketch(lg_k);
                hashes.iter().for_each(|it| sketch.update_hash(*it));
                sketch
            }

            fn of_values<T: std::hash::Hash>(lg_k: u8, values: impl Iterator<Item = T>) -> ThetaSketch {
                let mut sketch = sketch(lg_k);
                values.for_each(|it| sketch.update(it));
                sketch
            }

            fn summing<P: SummaryPolicy + SummaryUpdatePolicy<u64> + Default>() -> TupleSketch<P> {
                TupleSketchBuilder::new(P::default()).lg_k(12).build().unwrap()
            }

            fn fed_sums<P>(hashes: &[u64]) -> TupleSketch<P>
            where
                P: SummaryPolicy + SummaryUpdatePolicy<u64> + Default,
            {
                let mut sketch = summing::<P>();
                hashes.iter().for_each(|it| sketch.update_hash(*it, 1));
                sketch
            }

            fn sums_of_keys<P>(keys: u64) -> TupleSketch<P>
            where
                P: SummaryPolicy + SummaryUpdatePolicy<u64> + Default,
            {
                let mut sketch = summing::<P>();
                (0..keys).for_each(|it| sketch.update(it, 1));
                sketch
            }

            fn united<'a>(sketches: impl Iterator<Item = ThetaSketchView<'a>>) -> CompactThetaSketch {
                let mut union = ThetaUnionBuilder::default().lg_k(12).build().unwrap();
                sketches.for_each(|it| union.update(it).unwrap());
                union.to_sketch(true)
            }

            fn united_sums<P>(sketches: &[CompactTupleSketch<u64>]) -> CompactTupleSketch<u64>
            where
                P: SummaryCombinePolicy<Summary = u64> + Default,
            {
                let mut union = TupleUnionBuilder::new(P::default()).lg_k(12).build().unwrap();
                sketches.iter().for_each(|it| union.update(it).unwrap());
                union.to_sketch(true)
            }

            fn met(a: ThetaSketchView<'_>, b: ThetaSketchView<'_>) -> CompactThetaSketch {
                let mut intersection = ThetaIntersection::default();
                intersection.update(a).unwrap();
                intersection.update(b).unwrap();
                intersection.to_sketch(true).unwrap()
            }

            fn minus(a: ThetaSketchView<'_>, b: ThetaSketchView<'_>) -> CompactThetaSketch {
                ThetaANotB::default().compute(a, b, true).unwrap()
            }

            /// The hashes of sketch number j of a union.
            fn part(j: u64) -> Vec<u64> {
                hashes(8192 * j, 8192 * (j + 1))
            }

            fn case_of_union(case: &str, n: u64) -> Case {
                let sketches: Rc<Vec<ThetaSketch>> = Rc::new((0..n).map(|it| fed(12, &part(it))).collect());
                let forms: Vec<CompactThetaSketch> = sketches.iter().map(|it| it.compact(true)).collect();
                match case {
                    "union" => (n, Box::new(move || timed(|| united(forms.iter().map(|it| it.as_view())), check_form))),
                    "union_same" => {
                        (n, Box::new(move || timed(|| united((0..n).map(|_| forms[0].as_view())), check_form)))
                    }
                    _ => (n, Box::new(move || timed(|| united(sketches.iter().map(|it| it.as_view())), check_form))),
                }
            }

            fn case_of_two(case: &str, n: u64) -> Case {
                let (a, b) = (fed(16, &hashes(0, 2 * n)), fed(16, &hashes(n, 3 * n)));
                let items = (a.num_retained() + b.num_retained()) as u64;
                let (x, y) = (a.compact(true), b.compact(true));
                match case {
                    "meet" => (items, Box::new(move || timed(|| met(x.as_view(), y.as_view()), check_form))),
                    "meet_mut" => (items, Box::new(move || timed(|| met(a.as_view(), b.as_view()), check_form))),
                    "minus" => (items, Box::new(move || timed(|| minus(x.as_view(), y.as_view()), check_form))),
                    _ => (items, Box::new(move || timed(|| minus(a.as_view(), b.as_view()), check_form))),
                }
            }

            fn case_of_form(case: &str, n: u64) -> Case {
                let sketch = fed(16, &hashes(0, n));
                let form = sketch.compact(true);
                let image = form.serialize();
                let read = CompactThetaSketch::deserialize;
                match case {
                    "compact" => (n, Box::new(move || timed(|| sketch.compact(true), check_form))),
                    "compact(false)" => (n, Box::new(move || timed(|| sketch.compact(false), check_form))),
                    "serialize" => (n, Box::new(move || timed(|| form.serialize(), |it| check_image(it)))),
                    "deserialize" => (n, Box::new(move || timed(|| read(&image).unwrap(), check_form))),
                    "iter" => (n, Box::new(move || timed(|| check(&sketch), |it| *it))),
                    "iter of a form" => (n, Box::new(move || timed(|| check_form(&form), |it| *it))),
                    _ => (n, Box::new(move || timed(|| read(&form.serialize()).unwrap(), check_form))),
                }
            }

            fn case_of_updates(case: &str, n: u64) -> Case {
                let list = match case {
                    "hash12" | "hash20" | "tuple12" | "screened" => hashes(0, n),
                    "repeat12" | "tuple_sum12" => repeated(n),
                    _ => Vec::new(),
                };
                type Sums = DefaultUpdatePolicy<u64>;
                match case {
                    "update_screened" => (
                        n,
                        Box::new(move || {
                            let mut sketch = screening();
                            timed(|| (0..n).for_each(|it| sketch.update(it)), |()| None)
                        }),
                    ),
                    "screened" => (
                        n,
                        Box::new(move || {
                            let mut sketch = screening();
                            timed(|| list.iter().for_each(|it| sketch.update_hash(*it)), |()| None)
                        }),
                    ),
                    "update12" => (n, Box::new(move || timed(|| of_values(12, 0..n), check))),
                    "hash20" => (n, Box::new(move || timed(|| fed(20, &list), check))),
                    "tuple12" | "tuple_sum12" => (n, Box::new(move || timed(|| fed_sums::<Sums>(&list), check_sums))),
                    "tuple keys" => (n, Box::new(move || timed(|| sums_of_keys::<Sums>(n), check_sums))),
                    "own keys" => (n, Box::new(move || timed(|| sums_of_keys::<Added>(n), check_sums))),
                    "texts" => {
                        let texts: Vec<String> = (0..n).map(|it| format!("customer-{it:08}")).collect();
                        (n, Box::new(move || timed(|| of_values(12, texts.iter().map(String::as_str)), check)))
                    }
                    _ => (n, Box::new(move || timed(|| fed(12, &list), check))),
                }
            }

            /// Sketches of five keys, each built, updated, asked for its estimate and dropped.
            fn small(n: u64) -> Case {
                let one = |first: u64| of_values(12, first..first + 5).estimate();
                (n, Box::new(move || timed(|| (0..n).map(|it| one(5 * it)).sum::<f64>(), |it| Some(*it as u64))))
            }

            fn estimates(n: u64) -> Case {
                let sketch = fed(12, &hashes(0, 100_000));
                let one = move || std::hint::black_box(&sketch).estimate();
                (n, Box::new(move || timed(|| (0..n).map(|_| one()).sum::<f64>(), |it| Some(it.to_bits()))))
            }

            fn case_of_sums<P, Q>(n: u64) -> Case
            where
                P: SummaryPolicy<Summary = u64> + SummaryUpdatePolicy<u64> + Default,
                Q: SummaryCombinePolicy<Summary = u64> + Default + 'static,
            {
                let forms: Vec<_> = (0..n).map(|it| fed_sums::<P>(&part(it)).compact(true)).collect();
                (n, Box::new(move || timed(|| united_sums::<Q>(&forms), check_form_of_sums)))
            }

            pub fn case(case: &str, n: u64) -> Case {
                debug_assert_eq!(h(0), 0x7110_541c_bd8e_e6d7);
                match case {
                    "union" | "union_same" | "union_mut" => case_of_union(case, n),
                    "meet" | "meet_mut" | "minus" | "minus_mut" => case_of_two(case, n),
                    "compact" | "compact(false)" | "serialize" | "deserialize" | "round" | "iter"
                    | "iter of a form" => case_of_form(case, n),
                    "tuple_union" => case_of_sums::<DefaultUpdatePolicy<u64>, DefaultUnionPolicy<u64>>(n),
                    "own_union" => case_of_sums::<Added, Added>(n),
                    "small" => small(n),
                    "estimate" => estimates(n),
                    _ => case_of_updates(case, n),
                }
            }
        }
    };
}
cases!(of_original, original);
cases!(of_ours, kaftanclay);

const MANY: u64 = 10_000_000;

/// A row: its name, the case and its size, and the case of the proved crates, if they have it.
type Row = (&'static str, &'static str, u64, Option<&'static str>);

/// How many rows there are of the cases that PERFORMANCE.md has of the proved crates too.
const FIRST: usize = 20;

const ROWS: [Row; 32] = [
    ("distinct hashes (hash12)", "hash12", MANY, Some("hash12")),
    ("the same, of 4096 hashes", "hash12", 4096, Some("hash12")),
    ("4096 hashes again and again (repeat12)", "repeat12", MANY, Some("repeat12")),
    ("distinct hashes (hash20)", "hash20", MANY, Some("hash20")),
    ("numbers (update12)", "update12", MANY, Some("update12")),
    ("the same, all screened", "update_screened", MANY, Some("update_screened")),
    ("union of 1000 compact forms", "union", 1000, Some("union")),
    ("one form united with itself", "union_same", 1000, Some("union_same")),
    ("union of sketches that take updates", "union_mut", 1000, Some("union_mut")),
    ("intersection of compact forms", "meet", 65536, Some("meet")),
    ("intersection of sketches", "meet_mut", 65536, Some("meet_mut")),
    ("difference of compact forms", "minus", 65536, Some("minus")),
    ("difference of sketches", "minus_mut", 65536, Some("minus_mut")),
    ("compact form, ordered", "compact", 65536, Some("compact")),
    ("writing", "serialize", 65536, Some("serialize")),
    ("reading", "deserialize", 65536, Some("deserialize")),
    ("reading what was written", "round", 65536, Some("round")),
    ("tuples, distinct (tuple12)", "tuple12", MANY, Some("tuple12")),
    ("tuples, summed (tuple_sum12)", "tuple_sum12", MANY, Some("tuple_sum12")),
    ("union of 1000 compact tuples", "tuple_union", 1000, Some("tuple_union")),
    ("build, five updates, `estimate`, drop", "small", 10_000, Some("small")),
    ("hashes, all screened", "screened", MANY, Some("screened")),
    ("texts of 17 bytes", "texts", 1_000_000, None),
    ("3000 texts of 17 bytes", "texts", 3000, None),
    ("`estimate`", "estimate", 1000, None),
    ("`iter` of a sketch", "iter", 65536, None),
    ("`iter` of a compact form", "iter of a form", 65536, None),
    ("compact form, unordered", "compact(false)", 65536, None),
    ("tuples of keys, sums", "tuple keys", 1_000_000, None),
    ("tuples of keys, own policy", "own keys", 1_000_000, None),
    ("3000 tuples of keys, own policy", "own keys", 3000, None),
    ("union of 100 compact tuples, own policy", "own_union", 100, None),
];

/// A run of a case by the program of the proved crates: how many items it had, and what it found.
fn run_proved(program: &str, case: &str, size: u64) -> (u64, Found) {
    let done = Command::new(program).args([case, &size.to_string(), "1"]).output().expect("SKETCH_BENCH is a program");
    let text = String::from_utf8_lossy(&done.stdout);
    let words: Vec<&str> = text.split_whitespace().collect();
    let [_, _, items, _, taken, check] = words[..] else {
        panic!("{program} {case} {size} 1 printed {text}");
    };
    let number = |word: &str, base| u64::from_str_radix(word, base).expect("it prints numbers");
    // Sketches that screen all have no number here.
    let check = (!case.ends_with("screened")).then(|| number(check, 16));
    (number(items, 10), (number(taken, 10), check))
}

/// Runs all in turns, prints the least times, and returns the ratio of this crate's to the original's.
fn compare(rounds: usize, (name, case, size, proved_case): Row, program: Option<&str>) -> f64 {
    let ((items, mut original), (ours_items, mut ours)) = (of_original::case(case, size), of_ours::case(case, size));
    let (mut least, mut checks) = ([f64::MAX; 3], Vec::new());
    let mut keep = |at: usize, items: u64, (taken, check): Found| {
        least[at] = f64::min(least[at], taken as f64 / items as f64);
        checks.extend(check);
    };
    for _ in 0..rounds {
        keep(0, items, original());
        keep(1, ours_items, ours());
        if let (Some(program), Some(case)) = (program, proved_case) {
            let (items, found) = run_proved(program, case, size);
            keep(2, items, found);
        }
    }
    let [original, ours, proved] = least;
    let border = if proved < f64::MAX { format!("{proved:.2} | {:.2}", ours - proved) } else { " | ".to_string() };
    let same = if checks.windows(2).all(|it| it[0] == it[1]) { "same" } else { "DIFFERENT" };
    println!("| {name} | {original:.2} | {ours:.2} | {border} | {:.2} | {same} |", ours / original);
    ours / original
}

fn main() {
    const KEPT: (&str, &str) =
        ("GLIBC_TUNABLES", "glibc.malloc.trim_threshold=1073741824:glibc.malloc.mmap_threshold=1073741824");
    // No run pays for fresh pages by the mood of malloc: none are given back between runs.
    if std::env::var_os(KEPT.0).is_none() {
        let program = std::env::current_exe().expect("the program has a name");
        let failed = Command::new(program).args(std::env::args_os().skip(1)).env(KEPT.0, KEPT.1).exec();
        panic!("speed: {failed}");
    }
    let rounds: usize = std::env::args().nth(1).map_or(7, |it| it.parse().expect("ROUNDS is a number"));
    let word = std::env::args().nth(2).unwrap_or_default();
    let proved = std::env::var("SKETCH_BENCH").ok();
    println!("| case | original | here | below the border | border | ratio | answers |\n|---|---|---|---|---|---|---|");
    let mut ratios = Vec::new();
    for (at, row) in ROWS.into_iter().enumerate().filter(|it| it.1 .0.contains(&word)) {
        // Short cases run more often.
        let rounds = if at >= FIRST && row.2 < 100_000 { 4 * rounds } else { rounds };
        let ratio = compare(rounds, row, proved.as_deref());
        ratios.extend((at < FIRST).then(|| ratio.ln()));
    }
    if !ratios.is_empty() {
        let mean = (ratios.iter().sum::<f64>() / ratios.len() as f64).exp();
        println!("geometric mean of the ratios of {} of the first {FIRST}: {mean:.2}", ratios.len());
    }
}
