//! Lists aimed at a builder that keeps one start for each bound.

use super::calls::most_words;
use super::Group::*;
use super::{Comparison, Group};
use crate::build::{grow, Way, WAYS};
use crate::coding::{class_for, class_number};
use crate::generate::starts::{after, fitted, slow, AIMS, LONG, MOST_AHEAD, SHORT};
use crate::list::{running_sums, Bound};
use crate::words::{read, WIDEST_FREE, WIDEST_LISTED};

/// What each group is to meet; it means little without.
const TO_MEET: [(Group, &[&str]); 2] = [
    (
        BuildStarts,
        &[
            "it goes on to the end",
            "dense ranges stop it",
            "thin ranges stop it",
            "a light range stops it",
            "from the first entry",
            "from a later entry",
            "a range that ended earlier",
            "a range that ends there",
            "a count one above theta",
            "a count one above a q-th of theta",
            "a count of theta would",
            "a count of a q-th of theta would",
            "the dense bound moves often",
            "the thin bound moves often",
            "moved from a start that was light",
            "moved from a start that was heavy",
            "equally steep",
            "zeros first",
            "zeros between",
            "zeros last",
        ],
    ),
    (BuildLongStarts, &["511 entries", "4,095 entries"]),
];

/// One in so many short lists, a long one.
const ONE_LONG_IN: usize = 40;

/// At how many ends a bound that moves often does.
const OFTEN: usize = 5;

/// A range by its ends, its count and its length.
#[derive(Clone, Copy)]
struct Range {
    start: usize,
    end: usize,
    f: u64,
    n: u64,
}

/// The bucketlet at the start of a list, told from all ranges.
struct Bucketlet<'a> {
    list: &'a [u32],
    theta: u64,
    qn: u64,
    qd: u64,
    before: Vec<u64>,
    w: usize,
}

impl Bucketlet<'_> {
    fn of(list: &[u32], bound: Bound) -> Bucketlet<'_> {
        let [theta, qn, qd] = [bound.theta, bound.qn, bound.qd].map(u64::from);
        let before = running_sums(list.iter().map(|&frequency| frequency.into()));
        Bucketlet { list, theta, qn, qd, before, w: grow(Way::Rule, list, list.len(), bound) }
    }

    fn ranges_to(&self, end: usize) -> impl Iterator<Item = Range> + '_ {
        let range =
            move |start: usize| Range { start, end, f: self.before[end] - self.before[start], n: (end - start) as u64 };
        (0..end).map(range)
    }

    fn number(&self, w: usize) -> u64 {
        class_number(class_for(self.before[w])).into()
    }

    /// What stops it, if all that does is alike.
    fn stop(&self) -> Vec<&'static str> {
        if self.w == self.list.len() {
            return vec!["it goes on to the end"];
        }
        let (v, s) = (self.w as u64 + 1, self.number(self.w + 1));
        let dense = |range: &Range| range.f > self.theta && self.qd * range.f * v > self.qn * range.n * s;
        let few = |range: &Range| range.n * s > self.theta * v && self.qd * range.n * s > self.qn * range.f * v;
        let light = |range: &Range| self.qn * range.f <= self.qd * self.theta;
        let failing: Vec<Range> =
            (1..=self.w + 1).flat_map(|end| self.ranges_to(end)).filter(|range| dense(range) || few(range)).collect();
        let all = |holds: &dyn Fn(&Range) -> bool| failing.iter().all(holds);
        let marks = [
            (all(&dense), "dense ranges stop it"),
            (all(&|range| few(range) && !light(range)), "thin ranges stop it"),
            (all(&light), "a light range stops it"),
            (all(&|range| range.start == 0), "from the first entry"),
            (all(&|range| range.start > 0), "from a later entry"),
            (all(&|range| range.end <= self.w), "a range that ended earlier"),
            (all(&|range| range.end > self.w), "a range that ends there"),
            (all(&|range| dense(range) && range.f == self.theta + 1), "a count one above theta"),
            (
                all(&|range| !light(range) && self.qn * (range.f - 1) <= self.qd * self.theta),
                "a count one above a q-th of theta",
            ),
        ];
        chosen(marks)
    }

    /// What would stop it if a count of the threshold were above it.
    fn near(&self) -> Vec<&'static str> {
        let (w, s) = (self.w as u64, self.number(self.w));
        let any = |holds: &dyn Fn(Range) -> bool| (1..=self.w).flat_map(|end| self.ranges_to(end)).any(holds);
        let dense = |range: Range| range.f == self.theta && self.qd * range.f * w > self.qn * range.n * s;
        let qth = self.qd * self.theta / self.qn;
        let thin = |range: Range| range.f == qth && self.qd * range.n * s > self.qn * range.f * w;
        chosen([(any(&dense), "a count of theta would"), (any(&thin), "a count of a q-th of theta would")])
    }

    /// At how many ends a bound moves, and how.
    fn moves(
        &self,
        often: &'static str,
        heavy: impl Fn(u64) -> bool,
        slope: impl Fn(Range) -> (u64, u64),
    ) -> Vec<&'static str> {
        let (mut greatest, mut ends) = ((0, 1), 0);
        let mut last: Option<usize> = None;
        let (mut from_light, mut from_heavy, mut equal) = (false, false, false);
        for end in 1..=self.w {
            let mut start = None;
            for range in self.ranges_to(end).filter(|range| heavy(range.f)) {
                let (top, bottom) = slope(range);
                equal |= top * greatest.1 == greatest.0 * bottom;
                if top * greatest.1 > greatest.0 * bottom {
                    (greatest, start) = ((top, bottom), Some(range.start));
                }
            }
            let Some(start) = start else {
                continue;
            };
            ends += 1;
            if let Some(last) = last {
                let was_heavy = start < last && heavy(self.before[last] - self.before[start]);
                (from_heavy, from_light) = (from_heavy || was_heavy, from_light || !was_heavy);
            }
            last = Some(end);
        }
        chosen([
            (ends >= OFTEN, often),
            (from_light, "moved from a start that was light"),
            (from_heavy, "moved from a start that was heavy"),
            (equal, "equally steep"),
        ])
    }

    fn zeros(&self) -> Vec<&'static str> {
        let part = &self.list[..self.w];
        let inside = part.iter().skip_while(|&&f| f == 0).collect::<Vec<_>>();
        let between = inside.iter().rev().skip_while(|&&&f| f == 0).any(|&&f| f == 0);
        chosen([(part[0] == 0, "zeros first"), (between, "zeros between"), (part[self.w - 1] == 0, "zeros last")])
    }

    fn marks(&self) -> Vec<&'static str> {
        let dense = self.moves("the dense bound moves often", |f| f > self.theta, |range| (range.f, range.n));
        let above = |f: u64| self.qn * f > self.qd * self.theta;
        let thin = self.moves("the thin bound moves often", above, |range| (range.n, range.f));
        [self.stop(), self.near(), dense, thin, self.zeros()].concat()
    }
}

fn chosen<const N: usize>(marks: [(bool, &'static str); N]) -> Vec<&'static str> {
    marks.into_iter().filter_map(|(met, mark)| met.then_some(mark)).collect()
}

impl Comparison<'_> {
    pub(super) fn aimed_at_starts(&mut self) {
        let mut random = self.random(22);
        for (aim, length) in AIMS.into_iter().flat_map(|aim| SHORT.map(|length| (aim, length))) {
            for _ in 0..self.volume.starts {
                let (list, bound) = aim(&mut random, length);
                let ahead = random.below(MOST_AHEAD as u64 + 1) as usize;
                self.counts.lists += 1;
                for bound in [Some(bound), fitted(&mut random, &list, bound)].into_iter().flatten() {
                    self.started(BuildStarts, Way::Rule, &WAYS, &after(ahead, &list, bound), bound);
                    self.mark(BuildStarts, Bucketlet::of(&list, bound).marks());
                }
            }
        }
        for (aim, length) in AIMS.into_iter().flat_map(|aim| LONG.map(|length| (aim, length))) {
            for _ in 0..self.volume.starts / ONE_LONG_IN {
                let (list, bound) = aim(&mut random, length);
                let ahead = random.below(MOST_AHEAD as u64 + 1) as usize;
                self.long_started(&after(ahead, &list, bound), bound);
            }
        }
        for _ in 0..self.volume.outcomes {
            // At the first place, between and at the eighth.
            for ahead in [0, 3, 7] {
                let (list, bound) = slow(&mut random, LONG[LONG.len() - 1]);
                self.long_started(&after(ahead, &list, bound), bound);
            }
        }
        self.met_often(&TO_MEET);
    }

    /// Builds a list by one of some ways, which must all agree.
    fn started(&mut self, group: Group, way: Way, ways: &[Way], frequencies: &[u32], bound: Bound) -> Vec<u32> {
        let words = self.build(group, way, frequencies, bound, most_words(frequencies) + 3);
        self.counts.built += 1;
        self.ways_agree(ways, frequencies, bound);
        words.expect("the list is good and the words are enough")
    }

    fn long_started(&mut self, frequencies: &[u32], bound: Bound) {
        self.counts.lists += 1;
        let words = self.started(BuildLongStarts, Way::FewerRanges, &WAYS[1..], frequencies, bound);
        let buckets = read(&words).expect("a built histogram reads well").buckets;
        let met = |width: u32| buckets.iter().any(|bucket| bucket.widths.contains(&width));
        self.mark(BuildLongStarts, chosen([(met(WIDEST_LISTED), "511 entries"), (met(WIDEST_FREE), "4,095 entries")]));
    }
}
