//! The accuracy rule on accepted pairs, for one range and for several, and the largest factors met.

use super::calls::shown;
use super::{Comparison, Group};
use crate::demand::{broken_rule, k_of, Form, Pair, Rule, Side, Used, KS, SIDES};
use crate::estimate::answered;
use crate::generate::Random;
use crate::list::{running_sums, Bound};
use crate::search::MOST_RANGES;
use crate::words::{read, Histogram};
use std::ops::RangeInclusive;

/// The ranges that use up most of the promise for one number of them, one k and one side.
#[derive(Clone, Debug)]
pub(super) struct Largest {
    rule: Rule,
    used: Used,
    text: String,
}

/// For each number of ranges, each k and each side.
pub(super) type Largests = Vec<Vec<[Option<Largest>; 2]>>;

pub(super) fn no_largests() -> Largests {
    vec![vec![[None, None]; KS.len()]; MOST_RANGES]
}

/// A list, and a histogram that is accepted for it.
pub(super) struct Accepted<'a> {
    frequencies: &'a [u32],
    sums: Vec<u64>,
    histogram: Histogram,
}

/// A range with its count and its estimate.
#[derive(Clone, Copy)]
struct Measured {
    range: (u32, u32),
    pair: Pair,
}

impl<'a> Accepted<'a> {
    pub(super) fn new(frequencies: &'a [u32], words: &[u32]) -> Accepted<'a> {
        let sums = running_sums(frequencies.iter().map(|&frequency| frequency.into()));
        Accepted { frequencies, sums, histogram: read(words).expect("an accepted histogram reads well") }
    }

    fn bound(&self) -> Bound {
        self.histogram.head.bound
    }

    fn measured(&self, (x, y): (u32, u32)) -> Measured {
        let count = self.sums[y as usize] - self.sums[x as usize];
        Measured { range: (x, y), pair: Pair { count, estimate: answered(&self.histogram, x, y) } }
    }

    /// Of some ranges the one that uses up most when it is asked many times over, if the rule then speaks of it.
    fn farthest(&self, all: &[Measured], side: Side) -> Option<Measured> {
        let twice = 2 * u64::from(self.bound().theta);
        let share = |one: &Measured| {
            let [count, estimate, twice] = [one.pair.count, one.pair.estimate, twice].map(|number| number as f64);
            let factor = match side {
                Side::Count => count / estimate,
                Side::Estimate => estimate / count,
            };
            factor * (1.0 - twice / count.max(estimate))
        };
        let spoken_of = all.iter().filter(|one| one.pair.count.max(one.pair.estimate) > twice);
        spoken_of.max_by(|a, b| share(a).total_cmp(&share(b))).copied()
    }
}

/// The rule whose share is kept for so many ranges and one of `KS`.
fn kept_rule(bound: Bound, ranges: usize, k: u32) -> Rule {
    let form = if ranges == 1 { Form::Asked } else { Form::Shorter };
    Rule { form, bound, ranges: ranges as u64, k: k_of(ranges as u64, k) }
}

impl Comparison<'_> {
    /// Demand 3 on ranges of an accepted pair, and the rule for several on some of them at a time.
    pub(super) fn demand_three(
        &mut self,
        (one, several): (Group, Group),
        frequencies: &[u32],
        words: &[u32],
        ranges: impl IntoIterator<Item = (u32, u32)>,
    ) {
        self.counts.accepted += 1;
        let accepted = Accepted::new(frequencies, words);
        let all: Vec<Measured> = ranges.into_iter().map(|range| accepted.measured(range)).collect();
        self.counts.ranges += all.len() as u64;
        for one_of_them in &all {
            self.rule(one, &accepted, std::slice::from_ref(one_of_them));
        }
        let mut random = self.random_of_pair(frequencies, words);
        self.several(&mut random, several, &accepted, &all);
    }

    /// A stream of its own for each accepted pair too, so that no other pair moves it.
    fn random_of_pair(&self, frequencies: &[u32], words: &[u32]) -> Random {
        let numbers = frequencies.iter().chain(words);
        numbers.fold(self.random(17), |mut random, &number| Random::new(random.word() ^ u64::from(number)))
    }

    /// For each number of ranges, and one that no search has, any so many, which may overlap, and the farthest one so
    /// many times.
    fn several(&mut self, random: &mut Random, group: Group, accepted: &Accepted, all: &[Measured]) {
        let farthest = SIDES.map(|side| accepted.farthest(all, side));
        for number in (2..=MOST_RANGES).chain([100]) {
            let any: Vec<Measured> = (0..number).map(|_| random.pick(all)).collect();
            self.sum(group, accepted, &any);
            for one in farthest.into_iter().flatten() {
                self.sum(group, accepted, &vec![one; number]);
            }
        }
    }

    fn sum(&mut self, group: Group, accepted: &Accepted, summed: &[Measured]) {
        self.counts.sums += 1;
        self.rule(group, accepted, summed);
    }

    /// The rule on the ranges of a search.
    pub(super) fn rule_for_search(&mut self, group: Group, accepted: &Accepted, ranges: &[(u32, u32)]) {
        let all: Vec<Measured> = ranges.iter().map(|&range| accepted.measured(range)).collect();
        self.sum(group, accepted, &all);
    }

    fn rule(&mut self, group: Group, accepted: &Accepted, summed: &[Measured]) {
        let bound = accepted.bound();
        let pair: Pair = summed.iter().map(|one| one.pair).sum();
        let text = || {
            let Pair { count, estimate } = pair;
            let ranges: Vec<String> = summed.iter().map(|Measured { range: (x, y), .. }| format!("{x}..{y}")).collect();
            format!("{count} estimated {estimate}, {} of {}, {bound}", shown(&ranges), shown(accepted.frequencies))
        };
        let failing = broken_rule(bound, summed.len() as u64, pair);
        self.note(group, failing.map(|rule| format!("{:?} k {}: {}", rule.form, rule.k, text())));
        self.keep_largest(summed.len(), pair, bound, text);
    }

    fn keep_largest(&mut self, ranges: usize, pair: Pair, bound: Bound, text: impl Fn() -> String) {
        let kept = self.largest.get_mut(ranges - 1).into_iter().flatten();
        for (k, largest) in KS.into_iter().zip(kept) {
            let rule = kept_rule(bound, ranges, k);
            if !rule.applies(pair) {
                // Nor does it for any larger k.
                break;
            }
            for (side, largest) in SIDES.into_iter().zip(largest) {
                let used = rule.used(pair, side);
                let larger = |other: &Largest| used.more_than(other.used);
                if largest.as_ref().is_none_or(larger) {
                    *largest = Some(Largest { rule, used, text: text() });
                }
            }
        }
    }

    /// The largest of some numbers of ranges.
    fn largest_of(&self, ranges: RangeInclusive<usize>, place: usize, side: Side) -> Option<&Largest> {
        let all = ranges.filter_map(|number| self.largest[number - 1][place][side as usize].as_ref());
        all.reduce(|a, b| if b.used.more_than(a.used) { b } else { a })
    }

    pub(super) fn show_largest(&mut self) {
        self.show("largest factors above k theta, beside q k/(k - 2), and the share of it");
        self.show_factors(1..=1, KS.map(|k| format!("k {k}")), ["count/estimate", "(estimate-1)/count"]);
        self.show("the same of 2 to 16 ranges, nothing taken off, beside q k/(k - 2r)");
        let above_twice = KS.map(|k| format!("k 2r + {}", k - 2));
        self.show_factors(2..=MOST_RANGES, above_twice, ["count/estimate", "estimate/count"]);
    }

    fn show_factors(&mut self, ranges: RangeInclusive<usize>, ks: [String; KS.len()], names: [&str; 2]) {
        for (place, k) in ks.iter().enumerate() {
            for (side, name) in SIDES.into_iter().zip(names) {
                let largest = self.largest_of(ranges.clone(), place, side);
                let text = largest.map_or("none".to_string(), |Largest { rule, used, text }| {
                    let (share, promised) = (used.value(), rule.promise());
                    format!("{:.6} of {promised:.6} ({share:.6}): {text}", share * promised)
                });
                self.show(&format!("  {k} {name} {text}"));
            }
        }
    }

    /// Whether some ranges went beyond what k - 2r + 1 in place of k - 2r would promise.
    pub(super) fn near(&self, ranges: usize, place: usize, side: Side) -> bool {
        let largest = self.largest_of(ranges..=ranges, place, side);
        largest.is_some_and(|largest| largest.rule.goes_beyond_next(largest.used))
    }

    /// The tests of the rule mean little unless some ranges come so near.
    pub(super) fn near_enough(&mut self, group: Group, ranges: usize, place: usize, side: Side) {
        let far = !self.near(ranges, place, side);
        self.note(group, far.then(|| format!("{ranges} ranges, k {} {side:?}", k_of(ranges as u64, KS[place]))));
    }
}
