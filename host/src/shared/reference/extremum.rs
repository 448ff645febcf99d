//! Ordinal rows and sums: the types that the lifted files name. Connective theories have none.

use super::Threshold;

#[expect(dead_code, reason = "the lifted files match on it")]
#[derive(Clone, Copy, Debug, PartialEq, Eq, Hash)]
pub enum ExtremumCutRule {
    Prefix(u64),
    Suffix(u64),
}

#[derive(Clone, Copy, Debug, PartialEq, Eq, Hash)]
pub struct ExtremumRow<'a> {
    pub conditions: &'a [usize],
    pub ranks: &'a [u64],
    pub rank_count: u64,
}

#[derive(Clone, Copy, Debug, PartialEq, Eq, Hash)]
pub struct ExtremumCut<'a> {
    pub row: ExtremumRow<'a>,
    pub rule: &'a ExtremumCutRule,
}

#[derive(Clone, Copy, Debug, PartialEq, Eq, Hash)]
pub struct ExtremaMeasure {
    pub minimum: u64,
    pub maximum: u64,
}

const NONE: &str = "a connective theory has no numeric node";

impl ExtremumCutRule {
    pub fn holds(&self, _: ExtremaMeasure) -> bool {
        unreachable!("{NONE}")
    }
}

impl ExtremumRow<'_> {
    pub fn reduce<E>(self, _: impl FnMut(usize) -> Result<bool, E>) -> Result<ExtremaMeasure, E> {
        unreachable!("{NONE}")
    }
}

impl ExtremumCut<'_> {
    pub fn endpoint_truth(self) -> Option<bool> {
        unreachable!("{NONE}")
    }

    pub fn qualifies(self, _: u64) -> bool {
        unreachable!("{NONE}")
    }
}

impl Threshold<'_> {
    pub fn selected_sum<E>(self, _: impl FnMut(usize) -> Result<bool, E>) -> Result<i128, E> {
        unreachable!("{NONE}")
    }
}
