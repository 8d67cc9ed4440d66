//! Bucketlets aimed at a checker that does not try every pair of ends.

use super::Group::*;
use super::{Comparison, Group};
use crate::coding::class_number;
use crate::generate::passes::{placed, Aimed, Placed, AIMS, PLACES, WIDTHS};
use crate::generate::Random;
use crate::program::QhVerdict;
use crate::words::{write, Bucket};
use std::collections::BTreeMap;

/// How often a group met what it is there for.
pub(super) type Marks = BTreeMap<(usize, &'static str), u64>;

/// What each group is to meet; it means little without.
const TO_MEET: [(Group, &[&str]); 2] = [
    (
        CheckNear,
        &[
            ACCEPTED,
            "a bucket fails",
            "theta above the whole count",
            "a count at theta",
            "an estimate at theta",
            "a count at q times the estimate",
            "an estimate at q times the count",
            "a whole count at q times the number",
            "a number at q times the whole count",
        ],
    ),
    (
        CheckBeyond,
        &[
            ACCEPTED,
            "a bucket fails",
            "the whole",
            "the whole alone",
            "the whole, and from a later start",
            "from the first start",
            "from a later start",
            "from the last start",
            "one range alone",
            "a count above theta alone",
            "an estimate above theta alone",
            "both above theta",
            "a count of theta + 1",
            "an estimate just above theta",
            "to the last end",
            "the first of its bucket",
            "between others",
            "the last of its bucket",
            "in the first bucket",
            "in a later bucket",
            "the first place is free",
            "the eighth place is free",
        ],
    ),
];

const ACCEPTED: &str = "accepted";

/// How often numbers are chosen anew where those chosen give no bucketlet.
const TRIES: usize = 30;

/// The widest bucketlet whose ranges are gone through for what is met.
const WIDEST_LOOKED_AT: usize = 511;

/// A range with its count and its estimate, both times the width, that fails.
struct Failure {
    start: usize,
    end: usize,
    count: u64,
    estimate: u64,
}

/// The ranges of a bucketlet: those that fail, and what those that fit come up to.
struct Ranges {
    failures: Vec<Failure>,
    edges: Vec<&'static str>,
}

impl Ranges {
    /// Each range by the words of document 01, both numbers times w.
    fn of(aimed: &Aimed) -> Ranges {
        let Aimed { part, class, bound } = aimed;
        let [theta, qn, qd] = [bound.theta, bound.qn, bound.qd].map(u64::from);
        let (w, s) = (part.len() as u64, u64::from(class_number(*class)));
        let theta = theta * w;
        let mut ranges = Ranges { failures: Vec::new(), edges: Vec::new() };
        for start in 0..part.len() {
            let mut count = 0;
            for end in start + 1..=part.len() {
                count += w * u64::from(part[end - 1]);
                let estimate = (end - start) as u64 * s;
                let whole = end - start == part.len();
                let (more, less) = (qd * count > qn * estimate, qd * estimate > qn * count);
                if (more || less) && (whole || count.max(estimate) > theta) {
                    ranges.failures.push(Failure { start, end, count, estimate });
                    continue;
                }
                let (count_at_q, estimate_at_q) = (qd * count == qn * estimate, qd * estimate == qn * count);
                let edges = [
                    (whole && count > 0 && count_at_q, "a whole count at q times the number"),
                    (whole && s > 0 && estimate_at_q, "a number at q times the whole count"),
                    (whole && count < theta, "theta above the whole count"),
                    (!whole && count > theta && count_at_q, "a count at q times the estimate"),
                    (!whole && estimate > theta && estimate_at_q, "an estimate at q times the count"),
                    (!whole && more && count == theta, "a count at theta"),
                    (!whole && less && estimate == theta, "an estimate at theta"),
                ];
                ranges.edges.extend(edges.into_iter().filter_map(|(met, mark)| met.then_some(mark)));
            }
        }
        ranges.edges.sort();
        ranges.edges.dedup();
        ranges
    }

    /// What is there to be met where a range of the bucketlet is what fails first.
    fn marks(&self, aimed: &Aimed) -> Vec<&'static str> {
        let (w, s) = (aimed.part.len(), u64::from(class_number(aimed.class)));
        let theta = u64::from(aimed.bound.theta) * w as u64;
        let Some(first) = self.failures.first() else {
            return Vec::new();
        };
        let whole = first.end - first.start == w;
        let later = self.failures.iter().any(|failure| failure.start > 0);
        let alone = self.failures.len() == 1;
        let marks = [
            (whole, "the whole"),
            (whole && alone, "the whole alone"),
            (whole && later, "the whole, and from a later start"),
            (!whole && first.start == 0, "from the first start"),
            (first.start > 0, "from a later start"),
            (first.start > 0 && first.start + 1 == w, "from the last start"),
            (!whole && first.end == w, "to the last end"),
            (!whole && alone, "one range alone"),
            (!whole && first.count > theta && first.estimate <= theta, "a count above theta alone"),
            (!whole && first.count <= theta && first.estimate > theta, "an estimate above theta alone"),
            (!whole && first.count > theta && first.estimate > theta, "both above theta"),
            (!whole && first.count == theta + w as u64, "a count of theta + 1"),
            (!whole && first.estimate > theta && first.estimate - s <= theta, "an estimate just above theta"),
        ];
        marks.into_iter().filter_map(|(met, mark)| met.then_some(mark)).collect()
    }
}

/// Where the bucketlet that fails stands.
fn marks_of_place(placed: &Placed) -> [&'static str; 3] {
    let Bucket { widths, eighth_free, .. } = placed.histogram.buckets[placed.bucket];
    let used = |places: &[u32]| places.iter().any(|&width| width > 0);
    let (before, after) = (used(&widths[..placed.place]), used(&widths[placed.place + 1..]));
    [
        match (before, after) {
            (false, _) => "the first of its bucket",
            (true, true) => "between others",
            (true, false) => "the last of its bucket",
        },
        if placed.bucket == 0 { "in the first bucket" } else { "in a later bucket" },
        if eighth_free { "the eighth place is free" } else { "the first place is free" },
    ]
}

impl Comparison<'_> {
    pub(super) fn aimed_at_a_pass(&mut self) {
        let mut random = self.random(21);
        for w in WIDTHS {
            for (aim, place) in AIMS.into_iter().flat_map(|aim| PLACES.map(|place| (aim, place))) {
                for _ in 0..self.volume.aimed_of(w) {
                    if let Some([near, beyond]) = (0..TRIES).find_map(|_| aim(&mut random, w, place)) {
                        self.aimed(&mut random, CheckNear, &near);
                        self.aimed(&mut random, CheckBeyond, &beyond);
                    }
                }
            }
        }
        self.met_often(&TO_MEET);
    }

    /// Fails a group that seldom met what it is there for.
    pub(super) fn met_often(&mut self, to_meet: &[(Group, &[&'static str])]) {
        for (group, mark) in to_meet.iter().flat_map(|&(group, marks)| marks.iter().map(move |&mark| (group, mark))) {
            let times = self.marks.get(&(group as usize, mark)).copied().unwrap_or(0);
            let seldom = times < self.volume.outcomes;
            self.note(group, seldom.then(|| format!("{mark}: only {times} times")));
        }
    }

    pub(super) fn mark(&mut self, group: Group, marks: Vec<&'static str>) {
        for mark in marks {
            *self.marks.entry((group as usize, mark)).or_default() += 1;
        }
    }

    /// Checks a list with the bucketlet in it, and counts what that met.
    fn aimed(&mut self, random: &mut Random, group: Group, aimed: &Aimed) {
        self.counts.lists += 1;
        self.counts.foreign += 1;
        let placed = placed(random, aimed);
        let words = write(&placed.histogram);
        let QhVerdict { accepted, sort, start, .. } = self.verdict(group, &placed.frequencies, &words);
        let mut marks = Vec::new();
        match (accepted, sort) {
            (1, _) => marks.push(ACCEPTED),
            (_, 3) => marks.push("a bucket fails"),
            _ => {}
        }
        let inside = placed.start..placed.start + aimed.part.len() as u32;
        let fails_inside = matches!(sort, 1 | 2) && inside.contains(&start);
        if aimed.part.len() <= WIDEST_LOOKED_AT && (accepted == 1 || fails_inside) {
            let ranges = Ranges::of(aimed);
            marks.extend(if fails_inside { ranges.marks(aimed) } else { ranges.edges });
        }
        if fails_inside {
            marks.extend(marks_of_place(&placed));
        }
        self.mark(group, marks);
    }
}
