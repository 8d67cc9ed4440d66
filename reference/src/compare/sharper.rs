//! What request (vi) says of the builder's own histograms: the sharper rule by the other program's answers, its whole
//! bucketlets and buckets, and the largest shares of the factor met.

use super::calls::{most_words, shown};
use super::Group::*;
use super::{Comparison, Group};
use crate::build::Way;
use crate::check::readable;
use crate::demand::{Pair, SIDES};
use crate::generate::ranges::{all_ranges, ranges_about};
use crate::generate::sharper::{jostled, known, Near};
use crate::generate::Random;
use crate::list::{running_sums, Bound};
use crate::program::QhEstimate;
use crate::sharper::{first_beyond, strictest, Sharper, HALVES};
use std::rc::Rc;

/// A list, and the builder's histogram of it, whose answers are tested in a group.
pub(super) struct Own {
    group: Group,
    frequencies: Vec<u32>,
    sums: Vec<u64>,
    bound: Bound,
    words: Vec<u32>,
}

impl Own {
    /// The true count of a range and its answer, if it is one of the list.
    fn pair(&self, (x, y): (u32, u32), answer: QhEstimate) -> Option<Pair> {
        let within = answer.refusal == 0 && x <= y;
        let end = self.sums.get(y as usize).filter(|_| within)?;
        Some(Pair { count: end - self.sums[x as usize], estimate: answer.estimate })
    }
}

/// The most entries of a list that is asked for all its ranges.
const SHORT: u32 = 24;

/// The range that uses up most of the factor for k 3, where one half is the larger, on one side.
#[derive(Clone, Debug)]
pub(super) struct Most {
    rule: Sharper,
    /// For printing; it decides nothing else.
    share: f64,
    text: String,
}

/// For each half and each side, of the ranges that need this half.
pub(super) type Mosts = [[Option<Most>; 2]; 2];

impl Comparison<'_> {
    /// From here on, whatever these words answer is tested: they are the builder's for the list.
    pub(super) fn own(&mut self, group: Group, frequencies: &[u32], bound: Bound, words: &[u32]) {
        let sums = running_sums(frequencies.iter().map(|&frequency| frequency.into()));
        let (frequencies, words) = (frequencies.to_vec(), words.to_vec());
        self.own = Some(Rc::new(Own { group, frequencies, sums, bound, words }));
    }

    /// The rule on an answer of the other program, if the words are the builder's for the list in hand.
    pub(super) fn sharper_rule(&mut self, words: &[u32], range: (u32, u32), answer: QhEstimate) {
        let Some(own) = self.own.clone().filter(|own| own.words == words) else {
            return;
        };
        let Some(pair) = own.pair(range, answer) else {
            return;
        };
        let rule = strictest(own.bound, pair);
        let text = || {
            let (Pair { count, estimate }, (x, y)) = (pair, range);
            format!("{count} estimated {estimate}, {x}..{y} of {}, {}", shown(&own.frequencies), own.bound)
        };
        let failing = rule.filter(|rule| !rule.holds(pair));
        self.note(own.group, failing.map(|rule| format!("k {}: {}", rule.k, text())));
        if let Some(rule) = rule {
            self.keep_most(rule, pair, text);
        }
    }

    /// For k 3, which speaks of all that a larger k speaks of: the larger k is, the less is allowed beyond q.
    fn keep_most(&mut self, rule: Sharper, pair: Pair, text: impl Fn() -> String) {
        let rule = Sharper { k: 3, ..rule };
        let kept = &mut self.most[rule.halves()[0] as usize];
        for (side, most) in SIDES.into_iter().zip(kept).filter(|(side, _)| rule.needs_larger_half(pair, *side)) {
            let share = rule.used(pair, side).value();
            if most.as_ref().is_none_or(|other| share > other.share) {
                *most = Some(Most { rule, share, text: text() });
            }
        }
    }

    pub(super) fn show_most(&mut self) {
        self.show(
            "the same of the builder's own histograms for k 3, beside the half of the sharper factor that is needed",
        );
        for (kept, half) in self.most.clone().into_iter().zip(["5k/(4(k - 2))", "q k/(k - 1)"]) {
            for (most, side) in kept.into_iter().zip(["count/estimate", "(estimate-1)/count"]) {
                let text = most.map_or("none".to_string(), |Most { rule, share, text }| {
                    let promised = rule.promise();
                    format!("{:.6} of {promised:.6} ({share:.6}): {text}", share * promised)
                });
                self.show(&format!("  {half} {side} {text}"));
            }
        }
    }

    pub(super) fn lists_near_the_sharper_rule(&mut self) {
        let mut random = self.random(18);
        for near in known() {
            self.list_near(&mut random, &near);
            for _ in 0..self.volume.near {
                let other = jostled(&mut random, &near);
                self.list_near(&mut random, &other);
            }
        }
        self.both_halves_are_needed();
    }

    fn list_near(&mut self, random: &mut Random, near: &Near) {
        let Near { frequencies, bound, x, y } = near;
        self.counts.lists += 1;
        self.counts.built += 1;
        let words = self.build(BuildDirected, Way::FewerRanges, frequencies, *bound, most_words(frequencies));
        let words = words.expect("the list is good and the words are enough");
        self.own(SharperDirected, frequencies, *bound, &words);
        let ranges = match frequencies.len() as u32 {
            d @ ..=SHORT => all_ranges(d).collect(),
            d => ranges_about(random, d, (*x, *y)),
        };
        if !self.ask_directed(frequencies, &words, ranges) {
            self.fail(BuildDirected, &format!("not accepted: {}, {bound}", shown(frequencies)));
        }
    }

    /// The tests of the rule mean little unless some ranges need one half, and some the other, on both sides.
    fn both_halves_are_needed(&mut self) {
        for (half, side) in HALVES.into_iter().flat_map(|half| SIDES.map(|side| (half, side))) {
            let far = self.most[half as usize][side as usize].is_none();
            self.note(SharperNear, far.then(|| format!("{half:?} {side:?}")));
        }
    }

    /// The whole bucketlets and buckets of a histogram that the other program built.
    pub(super) fn wholes(&mut self, frequencies: &[u32], bound: Bound, words: &[u32]) {
        let beyond = match readable(frequencies, words) {
            Ok(histogram) => first_beyond(frequencies, &histogram).map(|whole| format!("{whole:?}")),
            Err(refusal) => Some(format!("not read: {refusal}")),
        };
        self.note(BuildWholes, beyond.map(|text| format!("{}, {bound}: {text}", shown(frequencies))));
    }
}
