//! Pictures of a plan and of cost by width, as text for a terminal and as SVG.
//!
//! Both kinds are written from whole numbers alone, so that one input gives the same bytes everywhere. What has no room
//! is drawn together or counted, and the picture says so.

mod cost_svg;
mod cost_text;
mod grid;
mod lines;
mod plan_rows;
mod plan_svg;
mod plan_text;
mod scale;
mod svg;
#[cfg(test)]
mod tests;

use sibukyaran::{BabyPass, GiantTree, LinearTransformationPlan};

/// What a picture of a plan shows.
pub struct PlanPicture {
    /// What stands above it.
    pub title: String,
    /// The slots.
    pub slots: usize,
    /// The plan: its giants are drawn down, its babies across.
    pub plan: LinearTransformationPlan,
    /// The passes over the plan's babies.
    pub passes: Vec<BabyPass>,
    /// The tree over the plan's giants; none per rotation.
    pub tree: Option<GiantTree>,
    /// The rotations that need keys, in the plan's order.
    pub keys: Vec<u64>,
    /// The key switches of a run.
    pub switches: usize,
}

impl PlanPicture {
    /// The picture for a terminal, in lines of at most 100 characters.
    pub fn text(&self) -> String {
        plan_text::text(self)
    }

    /// The picture as an SVG document, about 900 wide or less.
    pub fn svg(&self) -> String {
        plan_svg::svg(self)
    }
}

/// Cost by width: rising widths with their costs.
pub struct CostPicture {
    /// What stands above it.
    pub title: String,
    /// The slots.
    pub slots: usize,
    /// The number of diagonals.
    pub diagonals: usize,
    /// The widths, rising, each with its cost.
    pub costs: Vec<(usize, usize)>,
    /// The width that poulpy's search answers.
    pub best: usize,
}

impl CostPicture {
    /// The picture for a terminal: a chart of at most 72 columns, and lines of at most 100 characters below it.
    pub fn text(&self) -> String {
        cost_text::text(self)
    }

    /// The picture as an SVG document, about 900 wide or less.
    pub fn svg(&self) -> String {
        cost_svg::svg(self)
    }
}
