//! Runs the reference and another program on the same inputs and compares every answer.

mod adding_up;
mod calls;
mod coding;
mod directed;
mod factors;
mod journals;
mod large;
mod passes;
mod searches;
mod sharper;
mod sheets;
mod slips;
mod small;
mod starts;
mod worksheets;
mod zeros;

use crate::demand::KS;
use crate::generate::journals::FAULTS;
use crate::generate::slips::LAST_QD;
use crate::generate::Random;
use crate::program::Program;
use adding_up::PairOutcomes;
use factors::{no_largests, Largests};
use journals::Outcomes;
use passes::Marks;
use sharper::{Mosts, Own};
use std::io::Write;
use std::rc::Rc;
use std::time::Instant;

macro_rules! groups {
    ($($group:ident: $name:literal,)*) => {
        /// The groups of comparisons. Each passes if it ran and nothing in it failed.
        #[derive(Clone, Copy, Debug, PartialEq, Eq)]
        enum Group { $($group),* }

        const GROUPS: &[&str] = &[$($name),*];
    };
}

groups! {
    ClassOf: "class of a count",
    NumberOfClass: "number of a class",
    CodeOfTotal: "code of a total",
    NumberOfTotal: "number of a code",
    Ways: "build: the reference's ways agree",
    BuildSmall: "build: small lists",
    BuildWide: "build: widths about 511 and 4,095",
    BuildLarge: "build: large lists",
    BuildReal: "build: real lists",
    BuildZeros: "build: lists with zeros",
    BuildRefused: "build: refusals and lent words",
    BuildSlips: "build: q about 8",
    BuildStarts: "build: short lists aimed at a lowest start",
    BuildLongStarts: "build: long lists aimed at a lowest start",
    BuildDirected: "build: lists directed at the sharper rule",
    BuildWholes: "build: whole bucketlets and buckets within 5/4",
    CheckBuilt: "check: built histograms",
    CheckForeign: "check: foreign histograms",
    CheckOther: "check: other lists than the one built for",
    CheckDamaged: "check: damaged words",
    CheckRandom: "check: random words",
    CheckLarge: "check: wide and large lists",
    CheckReal: "check: real lists",
    CheckDirected: "check: directed lists",
    CheckZeros: "check: lists with zeros, and class 0",
    CheckSlips: "check: q about 8",
    CheckNear: "check: bucketlets up to theta or q",
    CheckBeyond: "check: bucketlets a hair beyond",
    EstimateBuilt: "estimate: built histograms",
    EstimateForeign: "estimate: foreign histograms",
    EstimateDamaged: "estimate: damaged words",
    EstimateRandom: "estimate: random words",
    EstimateLarge: "estimate: wide and large lists",
    EstimateReal: "estimate: real lists",
    EstimateDirected: "estimate: directed lists",
    EstimateZeros: "estimate: lists with zeros, and class 0",
    EstimateSlips: "estimate: q about 8",
    EstimateWorksheets: "estimate: each range of a worksheet",
    EstimateSearches: "estimate: the ranges of a search one by one",
    SharperSmall: "estimate: the sharper rule, small lists",
    SharperLarge: "estimate: the sharper rule, wide and large lists",
    SharperReal: "estimate: the sharper rule, real lists",
    SharperZeros: "estimate: the sharper rule, lists with zeros",
    SharperDirected: "estimate: the sharper rule, directed lists",
    SharperWorksheets: "estimate: the sharper rule, ranges of worksheets",
    SharperSearches: "estimate: the sharper rule, ranges of searches",
    SharperNear: "estimate: directed lists need both halves of the sharper factor",
    FindSmall: "find: built and foreign histograms",
    FindDamaged: "find: damaged words",
    FindRandom: "find: random words",
    FindLarge: "find: wide and large lists",
    FindReal: "find: real lists",
    FindSlips: "find: q about 8",
    FillBuilt: "fill: built histograms",
    FillForeign: "fill: foreign histograms",
    FillDamaged: "fill: damaged words",
    FillRandom: "fill: random words",
    FillLarge: "fill: wide and large lists",
    FillReal: "fill: real lists",
    FillZeros: "fill: lists with zeros, and class 0",
    FillShort: "fill: too few places",
    FillSlips: "fill: q about 8",
    AnswerBuilt: "answer: built histograms",
    AnswerForeign: "answer: foreign histograms",
    AnswerDamaged: "answer: damaged words",
    AnswerRandom: "answer: random words",
    AnswerLarge: "answer: wide and large lists",
    AnswerReal: "answer: real lists",
    AnswerZeros: "answer: lists with zeros, and class 0",
    AnswerShort: "answer: too few places, and every length",
    AnswerTotals: "answer: other running totals",
    AnswerOutside: "answer: a word left over, and ranges outside",
    AnswerTwoFaults: "answer: two faults at once",
    AnswerSlips: "answer: q about 8",
    SearchBuilt: "search: built histograms",
    SearchForeign: "search: foreign histograms",
    SearchDamaged: "search: damaged words",
    SearchRandom: "search: random words",
    SearchLarge: "search: wide and large lists",
    SearchReal: "search: real lists",
    SearchZeros: "search: lists with zeros, and class 0",
    SearchDirected: "search: directed lists",
    SearchShort: "search: all of a few words",
    SearchOutside: "search: ranges outside",
    SearchNumber: "search: no range, too many, and a word left over",
    SearchOrder: "search: ranges out of order",
    SearchTwoFaults: "search: two faults at once",
    SearchSlips: "search: q about 8",
    ReplayWays: "replay: the reference's ways agree",
    ReplayGood: "replay: good journals, and up to either bound",
    ReplayBeside: "replay: other lists than the one made for",
    ReplayLarge: "replay: large lists and long journals",
    ReplayReal: "replay: real lists",
    ReplayFew: "replay: all of a few lines",
    ReplayExtreme: "replay: all of a few lines with extreme changes",
    ReplayRandom: "replay: random journals",
    ReplayLists: "replay: no entry, too many, and too large a sum",
    ReplayNumber: "replay: too many lines, and lists of unequal length",
    ReplayOutside: "replay: entries outside",
    ReplayBelow: "replay: a frequency below 0",
    ReplayAbove: "replay: the sum above its limit",
    ReplayTwoFaults: "replay: two faults at once",
    ReplayMoved: "replay: what each frequency and the sum moved by",
    ReplayPairs: "replay: pairs of journals",
    ReplayJoined: "replay: two journals one after the other, and joined",
    ReplayBackwards: "replay: backwards brings the list back",
    SheetGood: "sheet: good input",
    SheetDamaged: "sheet: damaged input",
    SheetSlips: "sheet: q about 8",
    SheetProgram: "sheet: what the listing program prints",
    DemandBuilt: "demand 3: built histograms",
    DemandForeign: "demand 3: foreign histograms",
    DemandDirected: "demand 3: directed lists",
    DemandLarge: "demand 3: wide and large lists",
    DemandReal: "demand 3: real lists",
    DemandZeros: "demand 3: lists with zeros",
    DemandSlips: "demand 3: q about 8",
    DemandNear: "demand 3: directed lists tell k - 2 from k - 1",
    SumsBuilt: "the rule for r ranges: built histograms",
    SumsForeign: "the rule for r ranges: foreign histograms",
    SumsDirected: "the rule for r ranges: directed lists",
    SumsLarge: "the rule for r ranges: wide and large lists",
    SumsReal: "the rule for r ranges: real lists",
    SumsZeros: "the rule for r ranges: lists with zeros",
    SumsSlips: "the rule for r ranges: q about 8",
    SumsSearches: "the rule for r ranges: the ranges of a search",
    SumsNear: "the rule for r ranges: directed lists tell k - 2r from k - 2r + 1",
}

/// The groups that one kind of histogram is asked in.
#[derive(Clone, Copy)]
struct Asking {
    check: Group,
    estimate: Group,
    find: Group,
    /// Of one range, and of several.
    demand: (Group, Group),
}

/// How much is compared.
#[derive(Clone, Copy, Debug)]
pub struct Volume {
    pub codings: u32,
    pub small: usize,
    /// The most entries of the lists that are all tried.
    pub tiny: u32,
    pub wide: usize,
    /// Whether a list of the widest bucketlets that is accepted is checked: to try its 33 million ranges takes a third
    /// as long as all the rest of a test.
    pub widest_accepted: bool,
    pub longest: usize,
    pub directed: usize,
    /// How often each list that is directed at the sharper rule is changed.
    pub near: usize,
    /// How many of `KS`, from the first on, lists are directed at for several ranges.
    pub ks_of_several: usize,
    /// How many bucketlets are aimed at a checker that does not try every pair, of each sort, width and place.
    pub aimed: usize,
    /// How many short lists are aimed at a builder that keeps one start for each bound, of each sort and length.
    pub starts: usize,
    pub sheets: usize,
    /// The last qd beside which each q about 8 is tried.
    pub last_qd: u32,
    /// The most lines of the journals that are all tried.
    pub lines: u32,
    /// One in so many faults of a sort is put beside one in so many of another, on one in so many lists.
    pub one_in: usize,
    /// How many sorts of faults are put beside each other; the last take long.
    pub sorts: usize,
    /// How often at least each group of journals is to meet each of its outcomes.
    pub outcomes: u64,
}

impl Volume {
    pub const FULL: Volume = Volume {
        codings: 1_000_000,
        small: 20_000,
        tiny: 5,
        wide: 80,
        widest_accepted: true,
        longest: 65_536,
        directed: 300,
        near: 60,
        ks_of_several: KS.len(),
        aimed: 40,
        starts: 300,
        sheets: 3_000,
        last_qd: LAST_QD,
        lines: 3,
        one_in: 1,
        sorts: FAULTS.len(),
        outcomes: 10,
    };

    /// Enough to find the known faults in a test.
    pub const QUICK: Volume = Volume {
        codings: 3_000,
        small: 150,
        tiny: 3,
        wide: 0,
        widest_accepted: false,
        longest: 600,
        directed: 10,
        near: 1,
        ks_of_several: 1,
        aimed: 2,
        starts: 10,
        sheets: 120,
        last_qd: 4,
        lines: 2,
        one_in: 3,
        sorts: FAULTS.len() - 2,
        outcomes: 2,
    };

    /// Of a width: to try every pair of ends of the wide ones takes long.
    fn aimed_of(&self, w: u64) -> usize {
        match w {
            0..100 => self.aimed,
            100..1_000 => self.aimed / 10,
            _ => self.aimed / 40,
        }
    }
}

#[derive(Clone, Copy, Debug, Default)]
struct Counts {
    lists: u64,
    built: u64,
    foreign: u64,
    damaged: u64,
    random: u64,
    checks: u64,
    accepted: u64,
    estimates: u64,
    worksheets: u64,
    answers: u64,
    searches: u64,
    summed: u64,
    journals: u64,
    replayed: u64,
    lines: u64,
    pairs: u64,
    backwards: u64,
    ranges: u64,
    sums: u64,
    mismatches: u64,
}

#[derive(Clone, Copy, Debug, Default)]
struct Tally {
    compared: u64,
    mismatches: u64,
}

pub struct Comparison<'a> {
    program: &'a dyn Program,
    volume: Volume,
    seed: u64,
    real: Vec<Vec<u32>>,
    counts: Counts,
    largest: Largests,
    /// The builder's histogram that is in hand, once there is one.
    own: Option<Rc<Own>>,
    most: Mosts,
    outcomes: Outcomes,
    pair_outcomes: PairOutcomes,
    marks: Marks,
    tallies: Vec<Tally>,
    /// What the bytes lent for a sheet hold before the call.
    sheet_contents: Vec<u8>,
    out: &'a mut dyn Write,
}

/// How many mismatches of a group are shown.
const SHOWN: u64 = 3;

impl<'a> Comparison<'a> {
    pub fn new(
        program: &'a dyn Program,
        volume: Volume,
        seed: u64,
        real: Vec<Vec<u32>>,
        out: &'a mut dyn Write,
    ) -> Comparison<'a> {
        Comparison {
            program,
            volume,
            seed,
            real,
            counts: Counts::default(),
            largest: no_largests(),
            own: None,
            most: Mosts::default(),
            outcomes: Outcomes::default(),
            pair_outcomes: PairOutcomes::default(),
            marks: Marks::default(),
            tallies: vec![Tally::default(); GROUPS.len()],
            sheet_contents: calls::sheet_contents(),
            out,
        }
    }

    /// Compares all, prints the figures and the last line, and answers whether all passed.
    pub fn run(&mut self) -> bool {
        self.part("codings", Comparison::codings);
        self.part("small lists", Comparison::small_lists);
        self.part("wide lists", Comparison::wide_lists);
        self.part("large lists", Comparison::large_lists);
        self.part("extremes", Comparison::extremes);
        self.part("real lists", Comparison::real_lists);
        self.part("lists with zeros", Comparison::lists_with_zeros);
        self.part("q about 8", Comparison::slips);
        self.part("refusals of the builder", Comparison::build_refusals);
        self.part("every bit", Comparison::every_bit);
        self.part("random words", Comparison::random_words);
        self.part("bucketlets aimed at a pass", Comparison::aimed_at_a_pass);
        self.part("lists aimed at a lowest start", Comparison::aimed_at_starts);
        self.part("directed lists", Comparison::directed_lists);
        self.part("the sharper rule", Comparison::lists_near_the_sharper_rule);
        self.part("worksheets", Comparison::worksheets);
        self.part("searches", Comparison::searches);
        self.part("journals", Comparison::journals);
        self.part("sheets", Comparison::sheets);
        self.show_largest();
        self.show_most();
        self.report()
    }

    /// Only the part that replays journals, which no other part does. The groups of the others do not run.
    pub fn run_journals(&mut self) -> bool {
        self.part("journals", Comparison::journals);
        self.report()
    }

    /// Only the part that is aimed at a checker which does not try every pair of ends.
    pub fn run_passes(&mut self) -> bool {
        self.part("bucketlets aimed at a pass", Comparison::aimed_at_a_pass);
        self.report()
    }

    /// Only the part that is aimed at a builder which keeps one start for each bound.
    pub fn run_starts(&mut self) -> bool {
        self.part("lists aimed at a lowest start", Comparison::aimed_at_starts);
        self.report()
    }

    fn part(&mut self, name: &str, run: impl FnOnce(&mut Self)) {
        let begun = Instant::now();
        run(self);
        let seconds = begun.elapsed().as_secs_f64();
        self.show(&format!("{name}: {seconds:.1} s"));
    }

    /// A stream of its own for each part, so that one part's volume does not move another.
    fn random(&self, part: u64) -> Random {
        let mut random = Random::new(self.seed ^ (part << 56));
        random.word();
        random
    }

    fn show(&mut self, line: &str) {
        // A reader that has gone is no reason to stop: the exit status still tells.
        let _ = writeln!(self.out, "{line}");
    }

    /// Counts one comparison, and shows what failed.
    fn note(&mut self, group: Group, mismatch: Option<String>) {
        self.tallies[group as usize].compared += 1;
        if let Some(text) = mismatch {
            self.fail(group, &text);
        }
    }

    fn fail(&mut self, group: Group, text: &str) {
        let tally = &mut self.tallies[group as usize];
        tally.mismatches += 1;
        self.counts.mismatches += 1;
        if tally.mismatches <= SHOWN {
            let name = GROUPS[group as usize];
            self.show(&format!("MISMATCH in {name}\n  {text}"));
        }
    }

    fn report(&mut self) -> bool {
        let (mut passed, mut failed) = (0, 0);
        for (name, tally) in GROUPS.iter().zip(self.tallies.clone()) {
            let Tally { compared, mismatches } = tally;
            // A group that did not run shows nothing.
            let good = compared > 0 && mismatches == 0;
            let verdict = if good { "passed" } else { "FAILED" };
            (passed, failed) = (passed + i32::from(good), failed + i32::from(!good));
            self.show(&format!("{verdict}  {name}: {compared}, {mismatches} mismatches"));
        }
        self.show_counts();
        self.show(&format!("{passed} passed, {failed} failed"));
        failed == 0
    }

    fn show_counts(&mut self) {
        let Counts { lists, built, foreign, damaged, random, .. } = self.counts;
        let Counts { checks, accepted, estimates, ranges, sums, mismatches, .. } = self.counts;
        let Counts { worksheets, answers, searches, summed, .. } = self.counts;
        let Counts { journals, replayed, lines, pairs, backwards, .. } = self.counts;
        self.show(&format!("{lists} lists"));
        self.show(&format!("histograms: {built} built, {foreign} foreign, {damaged} damaged, {random} random"));
        self.show(&format!("{checks} checks by every pair of ends and by a pass"));
        self.show(&format!("{estimates} estimates, {accepted} accepted pairs with {ranges} ranges and {sums} sums"));
        self.show(&format!("{worksheets} worksheets with {answers} answers, {searches} searches with {summed} summed"));
        self.show(&format!("{journals} journals, {replayed} of them replayed, with {lines} lines"));
        self.show(&format!("{pairs} pairs of journals in turn and joined, {backwards} journals backwards"));
        self.show(&format!("{mismatches} mismatches, seed {}", self.seed));
    }
}
