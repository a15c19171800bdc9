//! What both pictures of a plan tell beside the grid.

use super::PlanPicture;
use super::grid::Grid;
use super::lines::{COLUMNS, Row, listed, words};
use sibukyaran::{BabyPass, GiantTreeLevel};
use std::collections::BTreeSet;

impl PlanPicture {
    /// How the rotations are reached.
    pub(super) fn ways(&self) -> Vec<Row> {
        let Some((_, levels)) = &self.tree else {
            let own = "each but 0 from the input, by its own key";
            let babies = if self.plan.baby_steps.len() > 1 { own } else { "the input alone" };
            let giants = if self.plan.giant_steps.is_empty() { "none" } else { "each but 0 turned by its own key" };
            let row = |name, sentence| Row::new(name, words(sentence, COLUMNS));
            return vec![row("babies", babies), row("giants", giants)];
        };
        let passes = if self.passes.is_empty() {
            vec![Row::new("passes", listed(["none", "the input is the only baby"]))]
        } else {
            let width = widest(self.passes.iter().map(|pass| pass.0));
            part("passes", self.passes.iter().map(|pass| pass_row(pass, width)))
        };
        let width = widest(levels.iter().map(|level| level.rot));
        let levels = part("levels", levels.iter().map(|level| level_row(level, width)));
        self.closure_row().into_iter().chain(passes).chain(levels).collect()
    }

    /// The babies that no diagonal has, if there are any but 0, which every plan has.
    fn closure_row(&self) -> Option<Row> {
        let read: BTreeSet<&i64> = self.plan.index.iter().flatten().collect();
        let added = listed(self.plan.baby_steps.iter().filter(|baby| **baby != 0 && !read.contains(baby)));
        (!added.is_empty()).then(|| Row { name: "closure", head: "adds ".into(), items: added })
    }

    /// Keys, switches and diagonals.
    pub(super) fn sums(&self) -> Vec<Row> {
        let distinct = self.keys.iter().collect::<BTreeSet<_>>().len();
        let shared = if distinct < self.keys.len() { ", equal rotations share one" } else { "" };
        let count = if distinct == 0 { "none".to_string() } else { format!("{distinct}{shared}, for the rotations") };
        let keys = words(&count, COLUMNS).into_iter().chain(listed(&self.keys));
        vec![
            Row::new("keys", keys.collect()),
            Row::new("switches", vec![self.switches.to_string()]),
            Row::new("diagonals", vec![format!("{} of {}", self.diagonals(), self.slots)]),
        ]
    }

    /// The leaves of the rows, where a row is one giant of a tree.
    pub(super) fn leaves(&self, grid: &Grid) -> &[usize] {
        match &self.tree {
            Some((leaves, _)) if grid.down == 1 => leaves,
            _ => &[],
        }
    }

    /// The number of diagonals.
    pub(super) fn diagonals(&self) -> usize {
        self.plan.index.iter().map(Vec::len).sum()
    }
}

/// The digits of the largest rotation.
fn widest(rotations: impl Iterator<Item = i64>) -> usize {
    rotations.map(|rotation| rotation.to_string().len()).max().unwrap_or(1)
}

/// Rows of which the first has the name of all.
fn part(name: &'static str, rows: impl Iterator<Item = Row>) -> Vec<Row> {
    let mut rows: Vec<Row> = rows.collect();
    if let Some(first) = rows.first_mut() {
        first.name = name;
    }
    rows
}

/// A pass: each baby that it makes, after the one that it is made from.
fn pass_row((rotation, moves): &BabyPass, width: usize) -> Row {
    let moves = moves.iter().map(|(source, target)| format!("{source} -> {target}"));
    Row { name: "", head: format!("by {rotation:>width$}: "), items: listed(moves) }
}

/// A level: each pair with its parent. An even without its odd becomes the parent unswitched, and is not there.
fn level_row(level: &GiantTreeLevel, width: usize) -> Row {
    let pair = |&(even, odd): &(Option<usize>, usize)| match even {
        Some(even) => format!("{even} + {odd} -> {}", odd / 2),
        None => format!("{odd} alone -> {}", odd / 2),
    };
    let pairs =
        if level.pairs.is_empty() { listed(["no pair", "no key"]) } else { listed(level.pairs.iter().map(pair)) };
    Row { name: "", head: format!("by {:>width$}: ", level.rot), items: pairs }
}
