//! The accuracy rule: on an accepted pair, for r ranges and a whole k above 2r, if their true count or their answer,
//! the sum of their estimates, is above k theta, then the two are within q k/(k - 2r) of each other. For one range this
//! is demand 3. The ranges need no order. Of ranges whose sums are all 0 it says nothing: their count is 0, and their
//! answer at most r.

use crate::list::Bound;
use std::iter::Sum;

/// The k of one range that directed lists aim at, and whose largest shares are kept for printing.
pub const KS: [u32; 11] = [3, 4, 5, 6, 7, 8, 9, 10, 11, 12, 100];

/// The same for more ranges, as far above twice their number.
pub fn k_of(ranges: u64, k: u32) -> u64 {
    u64::from(k) - 2 + 2 * ranges
}

/// Which of the two numbers is the larger.
#[derive(Clone, Copy, Debug, PartialEq, Eq)]
pub enum Side {
    Count,
    Estimate,
}

pub const SIDES: [Side; 2] = [Side::Count, Side::Estimate];

/// The true count of some ranges, and the sum of their answered estimates.
#[derive(Clone, Copy, Debug, PartialEq, Eq)]
pub struct Pair {
    pub count: u64,
    pub estimate: u64,
}

impl Sum for Pair {
    fn sum<I: Iterator<Item = Pair>>(pairs: I) -> Pair {
        let none = Pair { count: 0, estimate: 0 };
        pairs.fold(none, |a, b| Pair { count: a.count + b.count, estimate: a.estimate + b.estimate })
    }
}

/// How much of a promised factor is used up, as a fraction.
#[derive(Clone, Copy, Debug)]
pub struct Used {
    pub numerator: u128,
    pub denominator: u128,
}

impl Used {
    pub fn more_than(self, other: Used) -> bool {
        self.numerator * other.denominator > other.numerator * self.denominator
    }

    /// Whether it is more than the whole factor.
    pub fn is_above_all(self) -> bool {
        self.numerator > self.denominator
    }

    pub fn value(self) -> f64 {
        self.numerator as f64 / self.denominator as f64
    }
}

/// How the rule is stated.
#[derive(Clone, Copy, Debug, PartialEq, Eq)]
pub enum Form {
    /// As demand 3 and request (ii) ask: the answer is allowed the less than 1 that rounding up adds to each range.
    Asked,
    /// The shorter rule: nothing is allowed for rounding, and neither number reaches that multiple of the other.
    Shorter,
}

pub const FORMS: [Form; 2] = [Form::Asked, Form::Shorter];

/// The rule for so many ranges and one k above twice their number.
#[derive(Clone, Copy, Debug, PartialEq, Eq)]
pub struct Rule {
    pub form: Form,
    pub bound: Bound,
    pub ranges: u64,
    pub k: u64,
}

impl Rule {
    /// Demand 3.
    pub fn of_one_range(bound: Bound, k: u32) -> Rule {
        Rule { form: Form::Asked, bound, ranges: 1, k: k.into() }
    }

    /// By how much k is above 2r.
    fn above(self) -> u64 {
        self.k - 2 * self.ranges
    }

    /// Whether the rule speaks of the ranges. As it is asked, a count of just k theta is taken in too, since the factor
    /// holds there as well.
    pub fn applies(self, pair: Pair) -> bool {
        let edge = self.k * u64::from(self.bound.theta);
        match self.form {
            Form::Asked => pair.count >= edge || pair.estimate >= edge + self.ranges,
            Form::Shorter => pair.count > edge || pair.estimate > edge,
        }
    }

    /// Count over answer, or answer over count, as a share of the promised factor. As it is asked, one for each range
    /// is taken off the answer where that is the larger.
    pub fn used(self, pair: Pair, side: Side) -> Used {
        let allowed = match self.form {
            Form::Asked => self.ranges,
            Form::Shorter => 0,
        };
        let (a, b) = match side {
            Side::Count => (pair.count, pair.estimate),
            Side::Estimate => (pair.estimate.saturating_sub(allowed), pair.count),
        };
        let [qn, qd, k, above] = [self.bound.qn.into(), self.bound.qd.into(), self.k, self.above()].map(u128::from);
        Used { numerator: u128::from(a) * qd * above, denominator: u128::from(b) * qn * k }
    }

    /// The share is below 1; as it is asked, the count's may be 1.
    pub fn holds(self, pair: Pair) -> bool {
        let [count, estimate] = SIDES.map(|side| self.used(pair, side));
        let whole = self.form == Form::Asked && count.numerator == count.denominator;
        (whole || count.numerator < count.denominator) && estimate.numerator < estimate.denominator
    }

    /// Whether a share of the factor is more than all of what k - 2r + 1 in place of k - 2r would promise.
    pub fn goes_beyond_next(self, used: Used) -> bool {
        let above = u128::from(self.above());
        used.numerator * (above + 1) > used.denominator * above
    }

    /// What is promised, for printing.
    pub fn promise(self) -> f64 {
        f64::from(self.bound.qn) * self.k as f64 / (f64::from(self.bound.qd) * self.above() as f64)
    }
}

/// The rule for the largest k for which it speaks of the ranges, if that is above 2r. It asks for most, since the
/// factor falls as k grows.
pub fn strictest(form: Form, bound: Bound, ranges: u64, pair: Pair) -> Option<Rule> {
    let reached = match form {
        Form::Asked => pair.count.max(pair.estimate.saturating_sub(ranges)),
        Form::Shorter => pair.count.max(pair.estimate).saturating_sub(1),
    };
    let k = reached / u64::from(bound.theta);
    (k > 2 * ranges).then_some(Rule { form, bound, ranges, k })
}

/// A rule that some ranges break.
pub fn broken_rule(bound: Bound, ranges: u64, pair: Pair) -> Option<Rule> {
    let mut rules = FORMS.into_iter().filter_map(|form| strictest(form, bound, ranges, pair));
    rules.find(|rule| !rule.holds(pair))
}
