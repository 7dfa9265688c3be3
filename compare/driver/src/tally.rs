//! What was asked, what was met, and where the two sides disagree.

use crate::{
    inputs::Input,
    rows::Row,
    shapes::{Refuses, Verification},
};
use std::{collections::BTreeMap, fmt::Debug};

/// A disagreement, with the smallest input that shows one of its kind, and how many there are.
pub struct Disagreement {
    pub question: String,
    pub expected: String,
    pub got: String,
    pub input: Input,
    pub count: u64,
}

#[derive(Default)]
pub struct Tally {
    pub cases: BTreeMap<&'static str, u64>,
    pub questions: BTreeMap<&'static str, u64>,
    pub refusals: BTreeMap<u32, u64>,
    pub verdicts: BTreeMap<u32, u64>,
    pub rows: BTreeMap<Row, (u64, Input)>,
    pub regrouped: u64,
    pub disagreements: BTreeMap<String, Disagreement>,
    /// What is expected of the last verification.
    pub verified: Option<Verification>,
    /// Whether one disagreement is enough.
    one_is_enough: bool,
    input: Input,
}

impl Tally {
    /// A tally that ends at the first disagreement.
    pub fn until_first() -> Tally {
        Tally { one_is_enough: true, ..Tally::default() }
    }

    pub fn begin(&mut self, input: &Input) {
        *self.cases.entry(input.kind).or_default() += 1;
        self.input.clone_from(input);
    }

    /// A known difference was met.
    pub fn row(&mut self, row: Row) {
        let size = self.input.size();
        let (count, smallest) = self.rows.entry(row).or_insert_with(|| (0, self.input.clone()));
        *count += 1;
        if size < smallest.size() {
            smallest.clone_from(&self.input);
        }
    }

    /// Compares verifications, and keeps what was expected.
    pub fn verdict(&mut self, expected: Verification, got: Verification) {
        *self.verdicts.entry(expected.number).or_default() += 1;
        self.verified = Some(expected);
        self.held("verify", (), expected, got);
    }

    /// Compares whole answers, refusals 6 to 9 as one.
    pub fn held<T: Refuses + Debug + PartialEq>(&mut self, question: &'static str, with: impl Debug, expected: T, got: T) {
        *self.refusals.entry(expected.told().number).or_default() += 1;
        let (mut a, mut b) = (expected, got);
        a.tell(expected.told().grouped());
        b.tell(got.told().grouped());
        if a == b && expected != got {
            self.regrouped += 1;
        }
        let kind = (expected.told().number, got.told().number);
        self.same(question, with, kind, (a, expected), (b, got));
    }

    /// Compares plain values.
    pub fn equal<T: Copy + Debug + PartialEq>(&mut self, question: &'static str, with: impl Debug, expected: T, got: T) {
        self.same(question, with, (0, 0), (expected, expected), (got, got));
    }

    fn same<T: Debug + PartialEq>(&mut self, question: &'static str, with: impl Debug, kind: (u32, u32), a: (T, T), b: (T, T)) {
        *self.questions.entry(question).or_default() += 1;
        if a.0 == b.0 {
            return;
        }
        let size = self.input.size();
        let make = || Disagreement {
            question: format!("{question} {with:?}"),
            expected: format!("{:?}", a.1),
            got: format!("{:?}", b.1),
            input: self.input.clone(),
            count: 0,
        };
        let key = format!("{question} {kind:?}");
        let kept = self.disagreements.entry(key).or_insert_with(make);
        let count = kept.count + 1;
        if size < kept.input.size() {
            *kept = make();
        }
        kept.count = count;
    }

    /// Whether nothing more need be asked.
    pub fn is_done(&self) -> bool {
        self.one_is_enough && !self.disagreements.is_empty()
    }

    pub fn total(&self) -> u64 {
        self.cases.values().sum()
    }
}
