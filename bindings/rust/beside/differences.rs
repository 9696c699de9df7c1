//! The same random programs on the original crate and on this one, in one process: `differences FIRST LAST` runs those
//! of these numbers, prints how much it compared, what the pages say that differs, and everything else that does, and
//! fails if there is any. checks/rust builds it.
//!
//! A program builds sketches of some seed, updates them with values of many types, trims and resets them, makes compact
//! forms, unites, intersects and subtracts both kinds, and writes and reads images, both crates' and damaged ones. All
//! that can be read of the results is compared: images byte for byte, and entries as sets if neither is ordered.

use kaftanclay as k;
use original as o;
use std::collections::BTreeMap;
use std::fmt::Debug;
use std::hash::{Hash, Hasher};

const MAX_THETA: u64 = i64::MAX as u64;

/// SplitMix64.
struct Random(u64);

impl Random {
    fn next(&mut self) -> u64 {
        self.0 = self.0.wrapping_add(0x9e37_79b9_7f4a_7c15);
        let mut x = self.0;
        x = (x ^ (x >> 30)).wrapping_mul(0xbf58_476d_1ce4_e5b9);
        x = (x ^ (x >> 27)).wrapping_mul(0x94d0_49bb_1331_11eb);
        x ^ (x >> 31)
    }

    fn below(&mut self, bound: u64) -> u64 {
        self.next() % bound
    }

    fn one_in(&mut self, count: u64) -> bool {
        self.below(count) == 0
    }

    fn of<T: Copy>(&mut self, items: &[T]) -> T {
        items[self.below(items.len() as u64) as usize]
    }

    fn index(&mut self, length: usize) -> usize {
        self.below(length as u64) as usize
    }
}

#[derive(Default)]
struct Log {
    program: u64,
    done: BTreeMap<String, u64>,
    known: BTreeMap<String, u64>,
    found: BTreeMap<String, (u64, String)>,
}

impl Log {
    fn did(&mut self, what: &str) {
        *self.done.entry(what.to_string()).or_default() += 1;
    }

    /// A difference that docs/use/DIFFERENCES.md has.
    fn knows(&mut self, what: &str) {
        *self.known.entry(what.to_string()).or_default() += 1;
    }

    fn differs(&mut self, what: String, example: String) {
        let program = self.program;
        let found = self.found.entry(what).or_insert_with(|| (0, format!("program {program}: {example}")));
        found.0 += 1;
    }

    fn same<T: PartialEq + Debug>(&mut self, what: &str, original: T, ours: T) {
        self.did("comparisons");
        if original != ours {
            self.differs(what.to_string(), format!("the original has {original:?}, and this crate {ours:?}"));
        }
    }

    /// Both results, if both calls succeed.
    fn both<A, B>(
        &mut self,
        what: &str,
        original: Result<A, o::error::Error>,
        ours: Result<B, k::error::Error>,
    ) -> Option<(A, B)> {
        let of = |kind: &dyn Debug| format!("{kind:?}");
        let kinds = (original.as_ref().err().map(|it| of(&it.kind())), ours.as_ref().err().map(|it| of(&it.kind())));
        if kinds.0.is_some() {
            self.did(&format!("refused: {what}"));
        }
        self.same(what, kinds.0, kinds.1);
        Some((original.ok()?, ours.ok()?))
    }
}

/// What a program chooses once.
struct Course {
    seed: u64,
    keys: u64,
}

impl Course {
    fn new(random: &mut Random) -> Self {
        let seed = if random.one_in(4) { 7 + random.below(3) } else { 9001 };
        Self { seed, keys: random.of(&[20, 200, 3000, 1 << 40]) }
    }

    /// The seed of the program, or seldom another one.
    fn seed(&self, random: &mut Random) -> u64 {
        if random.one_in(8) {
            77
        } else {
            self.seed
        }
    }
}

fn lg_k(random: &mut Random) -> u8 {
    match random.below(40) {
        0 => random.of(&[0, 3, 27, 255]),
        1..=4 => 8 + random.below(3) as u8,
        _ => 4 + random.below(4) as u8,
    }
}

fn starting_theta(random: &mut Random) -> u64 {
    match random.below(12) {
        0 | 1 => (MAX_THETA as f64 * f64::from(random.below(1000) as f32 / 1000.0)) as u64,
        2 if random.one_in(3) => random.of(&[0, 1, 2, MAX_THETA - 1, MAX_THETA + 1]),
        _ => MAX_THETA,
    }
}

fn factors(random: &mut Random) -> (o::common::ResizeFactor, k::common::ResizeFactor) {
    use {k::common::ResizeFactor as K, o::common::ResizeFactor as O};
    random.of(&[(O::X1, K::X1), (O::X2, K::X2), (O::X4, K::X4), (O::X8, K::X8)])
}

/// How many updates come one after another.
fn updates(random: &mut Random) -> u64 {
    random.of(&[0, 1, 1, 3, 20, 100, 400])
}

/// A value of some type.
#[derive(Clone, Debug)]
enum Value {
    Unsigned(u8, u64),
    Signed(u8, i64),
    Wide(i128),
    Bit(bool),
    Letter(char),
    Text(String),
    Bytes(Vec<u8>),
    Numbers(Vec<u64>),
    Nine([u8; 9]),
    Pair(u32, String),
    Some(Option<u64>),
    Nothing,
    Nested(u64, i64, &'static str, [Option<char>; 2]),
}

impl Hash for Value {
    /// As the value inside, without a mark of its own.
    fn hash<H: Hasher>(&self, state: &mut H) {
        match self {
            Self::Unsigned(1, n) => (*n as u8).hash(state),
            Self::Unsigned(2, n) => (*n as u16).hash(state),
            Self::Unsigned(4, n) => (*n as u32).hash(state),
            Self::Unsigned(8, n) => n.hash(state),
            Self::Unsigned(_, n) => (*n as usize).hash(state),
            Self::Signed(1, n) => (*n as i8).hash(state),
            Self::Signed(2, n) => (*n as i16).hash(state),
            Self::Signed(4, n) => (*n as i32).hash(state),
            Self::Signed(8, n) => n.hash(state),
            Self::Signed(_, n) => (*n as isize).hash(state),
            Self::Wide(n) => n.hash(state),
            Self::Bit(it) => it.hash(state),
            Self::Letter(it) => it.hash(state),
            Self::Text(it) => it.hash(state),
            Self::Bytes(it) => it[..].hash(state),
            Self::Numbers(it) => it.hash(state),
            Self::Nine(it) => it.hash(state),
            Self::Pair(a, b) => (a, b).hash(state),
            Self::Some(it) => it.hash(state),
            Self::Nothing => ().hash(state),
            Self::Nested(a, b, c, d) => (a, b, c, d).hash(state),
        }
    }
}

fn value(random: &mut Random, course: &Course) -> Value {
    let n = random.below(course.keys);
    match random.below(16) {
        0..=2 => Value::Unsigned(random.of(&[1, 2, 4, 8, 0]), n),
        3 | 4 => Value::Signed(random.of(&[1, 2, 4, 8, 0]), n as i64 - 5),
        5 => Value::Wide((n as i128) << 60),
        6 => Value::Bit(n % 2 == 0),
        7 => Value::Letter(char::from_u32(n as u32 % 0xd000).unwrap()),
        8 => Value::Text(format!("key{n}")),
        9 => Value::Text(format!("{}{n}", "long ".repeat((n % 40) as usize))),
        10 => Value::Bytes((0..n % 200).map(|it| it as u8).collect()),
        11 => Value::Numbers(vec![n; (n % 12) as usize]),
        12 => Value::Nine([n as u8; 9]),
        13 => Value::Pair(n as u32, format!("t{}", n % 7)),
        14 if random.one_in(2) => Value::Nothing,
        14 => Value::Some((n % 3 != 0).then_some(n)),
        _ => Value::Nested(n, -(n as i64), "x", [Some('a'), None]),
    }
}

/// A hash of a caller's own.
fn hash(random: &mut Random) -> u64 {
    match random.below(6) {
        0 => random.of(&[0, 1, 2, MAX_THETA, MAX_THETA - 1]),
        _ => (random.below(300) + 1).wrapping_mul(0x9e37_79b9_7f4a_7c15) >> 1,
    }
}

/// An image with some damage, or with another preamble.
fn damaged(random: &mut Random, image: &[u8], width: usize) -> Vec<u8> {
    let mut bytes = image.to_vec();
    let length = bytes.len();
    match random.below(9) {
        0 => bytes.truncate(random.index(length + 1)),
        1 => bytes.extend_from_slice(&[1, 2, 3][..random.index(4)]),
        2 => bytes[random.index(length.min(24))] ^= 1 << random.below(8),
        3 => bytes[random.index(length)] = random.next() as u8,
        4 => bytes[5] ^= random.of(&[0x10, 4, 8, 2, 1, 0x20]),
        5 => bytes[1] = random.below(5) as u8,
        6 => bytes[3] = random.of(&[0, 1, 5, 6]),
        7 if length >= 24 + 2 * width => {
            if random.one_in(2) {
                bytes[length - 2 * width..].rotate_left(width);
            } else {
                bytes.copy_within(length - width.., length - 2 * width);
            }
        }
        // The preamble of version 1 or 2 before the last hashes.
        _ => {
            let hashes = random.index((length / 8).min(6));
            let version = 1 + random.below(2) as u8;
            let longs = if version == 1 { 3 } else { 1 + random.below(3) as u8 };
            let mut old = vec![longs, version, bytes[2], 12, 0, 0x1a, bytes[6], bytes[7]];
            if longs >= 2 {
                old.extend_from_slice(&(hashes as u64).to_le_bytes());
            }
            if longs >= 3 {
                old.extend_from_slice(&MAX_THETA.to_le_bytes());
            }
            old.extend_from_slice(&bytes[length - 8 * hashes..]);
            bytes = old;
        }
    }
    bytes
}

/// Why this crate refuses an image that the original reads, if the pages say so.
fn reason(hashes: &[u64], ordered: bool) -> Option<&'static str> {
    let mut sorted = hashes.to_vec();
    sorted.sort_unstable();
    if sorted.windows(2).any(|it| it[0] == it[1]) {
        Some("an image with a hash twice is refused")
    } else if ordered && sorted != hashes {
        Some("an ordered image whose hashes don't ascend is refused")
    } else {
        None
    }
}

/// What both families have, for sketches and compact forms.
macro_rules! same_state {
    ($log:expr, $at:expr, $a:expr, $b:expr) => {{
        let (log, at, a, b): (&mut Log, &str, _, _) = ($log, $at, $a, $b);
        log.same(&format!("{at}: is_empty"), a.is_empty(), b.is_empty());
        log.same(&format!("{at}: theta64"), a.theta64(), b.theta64());
        log.same(&format!("{at}: theta"), a.theta().to_bits(), b.theta().to_bits());
        log.same(&format!("{at}: num_retained"), a.num_retained(), b.num_retained());
        log.same(&format!("{at}: estimate"), a.estimate().to_bits(), b.estimate().to_bits());
        log.same(&format!("{at}: is_estimation_mode"), a.is_estimation_mode(), b.is_estimation_mode());
        log.same(&format!("{at}: seed_hash"), a.seed_hash(), b.seed_hash());
        use {k::common::NumStdDev as K, o::common::NumStdDev as O};
        if !a.is_estimation_mode() {
            log.same(&format!("{at}: lower_bound"), a.lower_bound(O::Two), b.lower_bound(K::Two));
            log.same(&format!("{at}: upper_bound"), a.upper_bound(O::Three), b.upper_bound(K::Three));
        } else if b.lower_bound(K::One) > b.estimate() || b.upper_bound(K::One) < b.estimate() {
            log.differs(format!("{at}: the estimate isn't within its bounds"), format!("{}", b.estimate()));
        }
    }};
}

/// A module with the programs of one family and policy.
macro_rules! family {
    (
        $name:ident, $title:literal, $width:expr, $small:expr,
        leaves $ol:ty, $kl:ty; forms $of:ty, $kf:ty;
        builders $ob:expr, $kb:expr; unions $ou:expr, $ku:expr; intersections $oi:expr, $ki:expr;
        differences $oa:ty, $ka:ty; entry $item:ty, $o_entry:expr, $k_entry:expr;
        update $update:expr
    ) => {
        mod $name {
            use super::*;

            type Leaf = ($ol, $kl);
            type Form = ($of, $kf);

            fn entries(a: impl Iterator<Item = $item>) -> Vec<$item> {
                a.collect()
            }

            fn same_leaf(log: &mut Log, at: &str, (a, b): &Leaf) {
                let at = &format!("{}, {at}", $title);
                same_state!(log, at, a, b);
                log.same(&format!("{at}: lg_k"), a.lg_k(), b.lg_k());
                let (mut x, mut y) = (entries(a.iter().map($o_entry)), entries(b.iter().map($k_entry)));
                x.sort();
                y.sort();
                log.same(&format!("{at}: entries"), x, y);
            }

            /// `exact` if the order of an unordered form is that of an image.
            fn same_form(log: &mut Log, at: &str, (a, b): &Form, exact: bool) {
                let at = &format!("{}, {at}", $title);
                same_state!(log, at, a, b);
                log.same(&format!("{at}: is_ordered"), a.is_ordered(), b.is_ordered());
                let (x, y) = (a.serialize(), b.serialize());
                let (mut hx, mut hy) = (entries(a.iter().map($o_entry)), entries(b.iter().map($k_entry)));
                if exact || a.is_ordered() {
                    log.same(&format!("{at}: image"), x, y);
                } else {
                    if hx != hy {
                        log.knows("the order of the entries of an unordered form");
                    }
                    hx.sort();
                    hy.sort();
                    let head = x.len() - $width * hx.len();
                    log.same(&format!("{at}: length of the image"), x.len(), y.len());
                    log.same(&format!("{at}: preamble"), &x[..head], &y[..head.min(y.len())]);
                }
                log.same(&format!("{at}: entries"), hx, hy);
            }

            fn read(log: &mut Log, at: &str, bytes: &[u8], seed: u64) -> Option<Form> {
                log.did(&format!("{}: {at}", $title));
                let (a, b) = (<$of>::deserialize_with_seed(bytes, seed), <$kf>::deserialize_with_seed(bytes, seed));
                if let (Ok(a), Err(_)) = (&a, &b) {
                    let hashes: Vec<u64> = a.iter().map(|it| it.hash()).collect();
                    if let Some(known) = reason(&hashes, a.is_ordered()) {
                        log.knows(known);
                        return None;
                    }
                    log.differs(format!("{}, {at}: refused here alone", $title), format!("{bytes:02x?}"));
                    return None;
                }
                let form = log.both(&format!("{}, {at}", $title), a, b)?;
                same_form(log, at, &form, true);
                Some(form)
            }

            fn images(random: &mut Random, log: &mut Log, forms: &mut Vec<Form>, seed: u64) {
                let (a, b) = &forms[random.index(forms.len())];
                let (x, y) = (a.serialize(), b.serialize());
                let seed = if random.one_in(6) { 77 } else { seed };
                let new = [read(log, "the original's image", &x, seed), read(log, "this crate's image", &y, seed)];
                forms.extend(new.into_iter().flatten());
                for _ in 0..3 {
                    let bytes = damaged(random, &x, $width);
                    if let Some(form) = read(log, "a damaged image", &bytes, seed) {
                        if random.one_in(3) {
                            forms.push(form);
                        }
                    }
                }
            }

            /// Passes a sketch of either kind to a call of each crate.
            macro_rules! with_any {
                ($random:expr, $leaves:expr, $forms:expr, $a:ident, $b:ident => $call:expr) => {
                    if $forms.is_empty() || $random.one_in(2) {
                        let ($a, $b) = &$leaves[$random.index($leaves.len())];
                        let ($a, $b) = ($a.as_view(), $b.as_view());
                        $call
                    } else {
                        let ($a, $b) = &$forms[$random.index($forms.len())];
                        let ($a, $b) = ($a.as_view(), $b.as_view());
                        $call
                    }
                };
            }

            fn unite(random: &mut Random, log: &mut Log, leaves: &[Leaf], forms: &mut Vec<Form>, seed: u64) {
                let (lg_k, start, (fo, fk)) = (lg_k(random), starting_theta(random), factors(random));
                let built = log.both(
                    &format!("{}, building a union", $title),
                    $ou.lg_k(lg_k).resize_factor(fo).starting_theta(start).seed(seed).build(),
                    $ku.lg_k(lg_k).resize_factor(fk).starting_theta(start).seed(seed).build(),
                );
                let Some((mut a, mut b)) = built else { return };
                for _ in 0..random.below(6) {
                    if random.one_in(12) {
                        a.reset();
                        b.reset();
                    }
                    let updated = with_any!(random, leaves, forms, x, y => (a.update(x), b.update(y)));
                    log.did("updates of unions");
                    log.both(&format!("{}, a union's update", $title), updated.0, updated.1);
                    let ordered = !random.one_in(3);
                    let form = (a.to_sketch(ordered), b.to_sketch(ordered));
                    same_form(log, "union", &form, false);
                    if random.one_in(3) {
                        forms.push(form);
                    }
                }
            }

            fn intersect(random: &mut Random, log: &mut Log, leaves: &[Leaf], forms: &mut Vec<Form>, seed: u64) {
                let (mut a, mut b) = ($oi(seed).unwrap(), $ki(seed).unwrap());
                for _ in 0..random.below(5) {
                    let updated = with_any!(random, leaves, forms, x, y => (a.update(x), b.update(y)));
                    log.did("updates of intersections");
                    log.both(&format!("{}, an intersection's update", $title), updated.0, updated.1);
                    log.same(&format!("{}, has_result", $title), a.has_result(), b.has_result());
                    let ordered = !random.one_in(3);
                    match (a.to_sketch(ordered), b.to_sketch(ordered)) {
                        (None, None) => {}
                        (Some(x), Some(y)) => {
                            same_form(log, "intersection", &(x.clone(), y.clone()), false);
                            if random.one_in(3) {
                                forms.push((x, y));
                            }
                        }
                        (x, y) => log.same("an intersection has a value", x.is_some(), y.is_some()),
                    }
                }
            }

            fn subtract(random: &mut Random, log: &mut Log, leaves: &[Leaf], forms: &mut Vec<Form>, seed: u64) {
                let (a, b) = (<$oa>::with_seed(seed).unwrap(), <$ka>::with_seed(seed).unwrap());
                let ordered = !random.one_in(3);
                let (x, y) = with_any!(random, leaves, forms, p, q => {
                    if random.one_in(6) {
                        (a.compute(p, p, ordered), b.compute(q, q, ordered))
                    } else {
                        with_any!(random, leaves, forms, r, s => (a.compute(p, r, ordered), b.compute(q, s, ordered)))
                    }
                });
                log.did("differences");
                if let Some(form) = log.both(&format!("{}, a difference", $title), x, y) {
                    same_form(log, "difference", &form, false);
                    forms.push(form);
                }
            }

            pub fn program(random: &mut Random, log: &mut Log) {
                let course = Course::new(random);
                let mut leaves: Vec<Leaf> = Vec::new();
                let mut forms: Vec<Form> = Vec::new();
                for _ in 0..4 + random.below(14) {
                    let step = if leaves.is_empty() { 0 } else { random.below(11) };
                    match step {
                        0 => {
                            let (lg_k, start, (fo, fk)) = (lg_k(random), starting_theta(random), factors(random));
                            let seed = course.seed(random);
                            log.did(concat!($title, ": sketches"));
                            leaves.extend(log.both(
                                concat!($title, ", building a sketch"),
                                $ob.lg_k(lg_k).resize_factor(fo).starting_theta(start).seed(seed).build(),
                                $kb.lg_k(lg_k).resize_factor(fk).starting_theta(start).seed(seed).build(),
                            ));
                        }
                        1..=3 => {
                            let leaf = random.index(leaves.len());
                            for _ in 0..updates(random) {
                                log.did("updates");
                                let value = value(random, &course);
                                let update: fn(&mut Random, &mut Leaf, Value) = $update;
                                update(random, &mut leaves[leaf], value);
                            }
                            same_leaf(log, "sketch", &leaves[leaf]);
                        }
                        4 => {
                            let leaf = random.index(leaves.len());
                            let (a, b) = &mut leaves[leaf];
                            if random.one_in(3) {
                                a.reset();
                                b.reset();
                            } else {
                                a.trim();
                                b.trim();
                            }
                            same_leaf(log, "trimmed or reset", &leaves[leaf]);
                        }
                        5 => {
                            let ((a, b), ordered) = (&leaves[random.index(leaves.len())], !random.one_in(3));
                            let form = (a.compact(ordered), b.compact(ordered));
                            same_form(log, "compact", &form, false);
                            forms.push(form);
                        }
                        6 | 7 if !forms.is_empty() => images(random, log, &mut forms, course.seed),
                        8 => unite(random, log, &leaves, &mut forms, course.seed),
                        9 => intersect(random, log, &leaves, &mut forms, course.seed),
                        _ => subtract(random, log, &leaves, &mut forms, course.seed),
                    }
                    // The original's sums wrap around: no sum comes near that.
                    let small: fn(&$item) -> bool = $small;
                    forms.retain(|(_, it)| it.iter().map($k_entry).all(|it| small(&it)));
                    if forms.len() > 12 {
                        forms.remove(0);
                    }
                }
            }
        }
    };
}

family! {
    theta, "theta", 8, |_| true,
    leaves o::theta::ThetaSketch, k::theta::ThetaSketch;
    forms o::theta::CompactThetaSketch, k::theta::CompactThetaSketch;
    builders o::theta::ThetaSketchBuilder::default(), k::theta::ThetaSketchBuilder::default();
    unions o::theta::ThetaUnionBuilder::default(), k::theta::ThetaUnionBuilder::default();
    intersections o::theta::ThetaIntersection::with_seed, k::theta::ThetaIntersection::with_seed;
    differences o::theta::ThetaANotB, k::theta::ThetaANotB;
    entry u64, |it: o::theta::ThetaEntry| it.hash(), |it: k::theta::ThetaEntry| it.hash();
    update |random, (a, b), value| {
        if random.one_in(8) {
            let hash = hash(random);
            a.update_hash(hash);
            b.update_hash(hash);
        } else {
            a.update(value.clone());
            b.update(value);
        }
    }
}

/// A policy of both crates. What it makes depends on the order of values and of sketches.
#[derive(Debug, Default, Clone, Copy)]
struct Mixed;

/// A policy of both crates that adds, and isn't one of theirs.
#[derive(Debug, Default, Clone, Copy)]
struct Added;

macro_rules! policies {
    ($($krate:ident)*) => {$(
        impl $krate::tuple::SummaryPolicy for Mixed {
            type Summary = u32;

            fn create(&self) -> u32 {
                17
            }
        }

        impl $krate::tuple::SummaryUpdatePolicy<u64> for Mixed {
            fn update(&self, summary: &mut u32, value: u64) {
                *summary = summary.wrapping_mul(31).wrapping_add(value as u32);
            }
        }

        impl $krate::tuple::SummaryCombinePolicy for Mixed {
            fn combine(&self, summary: &mut u32, other: &u32) {
                *summary = summary.wrapping_mul(37) ^ other;
            }
        }

        impl $krate::tuple::SummaryPolicy for Added {
            type Summary = u64;

            fn create(&self) -> u64 {
                0
            }
        }

        impl $krate::tuple::SummaryUpdatePolicy<u64> for Added {
            fn update(&self, summary: &mut u64, value: u64) {
                *summary += value;
            }
        }

        impl $krate::tuple::SummaryCombinePolicy for Added {
            fn combine(&self, summary: &mut u64, other: &u64) {
                *summary = summary.wrapping_add(*other) % (1 << 50);
            }
        }
    )*};
}
policies!(o k);

/// The programs of tuple sketches with these policies.
macro_rules! tuples {
    ($name:ident, $title:literal, $summary:ty, $value:ty; updates $ou:ty, $ku:ty; combines $oc:ty, $kc:ty) => {
        family! {
            $name, $title, 8 + size_of::<$summary>(), |it| i128::from(it.1).abs() < 1 << 50,
            leaves o::tuple::TupleSketch<$ou>, k::tuple::TupleSketch<$ku>;
            forms o::tuple::CompactTupleSketch<$summary>, k::tuple::CompactTupleSketch<$summary>;
            builders o::tuple::TupleSketchBuilder::new(<$ou>::default()),
                k::tuple::TupleSketchBuilder::new(<$ku>::default());
            unions o::tuple::TupleUnionBuilder::new(<$oc>::default()),
                k::tuple::TupleUnionBuilder::new(<$kc>::default());
            intersections |seed| o::tuple::TupleIntersection::with_seed(<$oc>::default(), seed),
                |seed| k::tuple::TupleIntersection::with_seed(<$kc>::default(), seed);
            differences o::tuple::TupleANotB, k::tuple::TupleANotB;
            entry (u64, $summary), |it: &o::tuple::TupleEntry<$summary>| (it.hash(), *it.summary()),
                |it: &k::tuple::TupleEntry<$summary>| (it.hash(), *it.summary());
            update |random, (a, b), value| {
                let number = (random.next() >> random.of(&[30, 50, 60])) as $value;
                if random.one_in(8) {
                    let hash = hash(random);
                    a.update_hash(hash, number);
                    b.update_hash(hash, number);
                } else {
                    a.update(value.clone(), number);
                    b.update(value, number);
                }
            }
        }
    };
}

tuples! {
    sums, "sums", u64, u64;
    updates o::tuple::DefaultUpdatePolicy<u64>, k::tuple::DefaultUpdatePolicy<u64>;
    combines o::tuple::DefaultUnionPolicy<u64>, k::tuple::DefaultUnionPolicy<u64>
}
tuples! {
    numbers, "signed sums", i64, i64;
    updates o::tuple::DefaultUpdatePolicy<i64>, k::tuple::DefaultUpdatePolicy<i64>;
    combines o::tuple::DefaultUnionPolicy<i64>, k::tuple::DefaultUnionPolicy<i64>
}
tuples! {
    mixed, "own policies", u32, u64;
    updates Mixed, Mixed;
    combines Mixed, Mixed
}
tuples! {
    sums_then_own, "sums under own policies", u64, u64;
    updates o::tuple::DefaultUpdatePolicy<u64>, k::tuple::DefaultUpdatePolicy<u64>;
    combines Added, Added
}
tuples! {
    own_then_sums, "own sums under sums", u64, u64;
    updates Added, Added;
    combines o::tuple::DefaultUnionPolicy<u64>, k::tuple::DefaultUnionPolicy<u64>
}

fn main() {
    let numbers: Vec<u64> = std::env::args().skip(1).filter_map(|it| it.parse().ok()).collect();
    let [first, last] = numbers[..] else {
        eprintln!("usage: differences FIRST LAST");
        std::process::exit(2);
    };
    // The original takes lg_k from 5, unless it is told.
    o::set_min_lg_k(4);
    let mut log = Log::default();
    for program in first..last {
        log.program = program;
        let mut random = Random(program.wrapping_mul(0x1234_5678_9abc_def1));
        match program % 9 {
            0 => sums::program(&mut random, &mut log),
            1 => numbers::program(&mut random, &mut log),
            2 => mixed::program(&mut random, &mut log),
            3 => sums_then_own::program(&mut random, &mut log),
            4 => own_then_sums::program(&mut random, &mut log),
            _ => theta::program(&mut random, &mut log),
        }
    }
    println!("programs: {}", last - first);
    log.done.iter().for_each(|(what, count)| println!("{what}: {count}"));
    log.known.iter().for_each(|(what, count)| println!("differs as the pages say: {what}: {count}"));
    for (what, (count, example)) in &log.found {
        println!("DIFFERS: {what}: {count} times; {}", example.chars().take(600).collect::<String>());
    }
    if !log.found.is_empty() {
        std::process::exit(1);
    }
}
