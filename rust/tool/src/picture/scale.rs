//! Where widths and costs stand in a chart.

use super::CostPicture;
use super::lines::{Row, listed};

/// From a largest width of so many times the least on, their scale is logarithmic: the widths of least cost, which are
/// near the root of the number of diagonals, would all stand at one end.
const WIDTHS_APART: usize = 64;
/// The same for costs.
const COSTS_APART: usize = 16;

/// A scale from low to high over a room of places.
pub struct Scale {
    /// Whether equal ratios, and not equal differences, are equally far apart.
    pub is_logarithmic: bool,
    /// The number at place 0.
    low: usize,
    /// The number at the last place.
    high: usize,
    /// The last place.
    pub room: usize,
}

/// 4096 times the logarithm to base 2 of a number from 1 and below 2^32, from whole numbers alone, so that it is the
/// same everywhere.
fn logarithm(number: usize) -> usize {
    let whole = number.ilog2();
    // The number as 1.31 bits; each squaring gives the next bit of its logarithm.
    let mut part = (number as u64) << (31 - whole);
    let mut answer = whole as usize;
    for _ in 0..12 {
        part = (part * part) >> 31;
        let bit = part >> 32;
        part >>= bit;
        answer = 2 * answer + bit as usize;
    }
    answer
}

impl Scale {
    /// A scale of numbers from low to high; one that is logarithmic begins and ends at powers of two.
    fn new(is_logarithmic: bool, low: usize, high: usize, room: usize) -> Scale {
        if !is_logarithmic {
            return Scale { is_logarithmic, low, high, room };
        }
        let low = 1 << low.max(1).ilog2();
        Scale { is_logarithmic, low, high: high.next_power_of_two(), room }
    }

    /// What is equally far apart.
    fn value(&self, number: usize) -> usize {
        if self.is_logarithmic { logarithm(number.max(1)) } else { number }
    }

    /// The place of a number from low to high.
    pub fn place(&self, number: usize) -> usize {
        let (low, high) = (self.value(self.low), self.value(self.high));
        let range = (high - low).max(1);
        ((self.value(number) - low) * self.room + range / 2) / range
    }

    /// At most so many round numbers from low to high.
    pub fn ticks(&self, most: usize) -> Vec<usize> {
        if self.is_logarithmic {
            let powers: Vec<usize> =
                (0..32).map(|bit| 1 << bit).filter(|n| (self.low..=self.high).contains(n)).collect();
            return powers.iter().copied().step_by(powers.len().div_ceil(most).max(1)).collect();
        }
        let steps = (0..10).flat_map(|zeros| [1, 2, 5].map(|digit| digit * 10_usize.pow(zeros)));
        let ticks = |step: usize| self.low.div_ceil(step) * step..=self.high;
        let step = steps.into_iter().find(|&step| ticks(step).step_by(step).count() <= most).unwrap_or(1);
        ticks(step).step_by(step).collect()
    }
}

/// Widths that stand on one place, and their least and largest costs.
pub struct Bar {
    /// The place.
    pub place: usize,
    /// The least cost.
    pub least: usize,
    /// The largest cost.
    pub largest: usize,
}

impl CostPicture {
    /// The scales of widths and costs. Where each width can have a place of its own, neighbours are equally far apart.
    pub(super) fn scales(&self, across: usize, up: usize) -> (Scale, Scale) {
        let (low, high) = (self.costs.first().map_or(1, |c| c.0), self.costs.last().map_or(1, |c| c.0));
        let is_logarithmic = high / low.max(1) >= WIDTHS_APART;
        let steps = (high - low).max(1);
        let room = if is_logarithmic || steps > across { across } else { across / steps * steps };
        let widths = Scale::new(is_logarithmic, low, high, room);

        let least = self.costs.iter().map(|c| c.1).min().unwrap_or(0);
        let high = self.costs.iter().map(|c| c.1).max().unwrap_or(0);
        let is_logarithmic = high / least.max(1) >= COSTS_APART;
        (widths, Scale::new(is_logarithmic, if is_logarithmic { least } else { 0 }, high, up))
    }

    /// What a reader of the chart has to know.
    pub(super) fn notes(&self, widths: &Scale, costs: &Scale) -> Vec<String> {
        let scales = match (widths.is_logarithmic, costs.is_logarithmic) {
            (true, true) => "Both scales are logarithmic. ",
            (true, false) => "The scale of widths is logarithmic. ",
            (false, true) => "The scale of costs is logarithmic. ",
            (false, false) => "",
        };
        let is_shared = self.bars(widths).len() < self.costs.len();
        let bars = "Widths that stand on one place are one bar, from their least cost to their largest.";
        let note = format!("{scales}{}", if is_shared { bars } else { "" });
        if note.is_empty() { Vec::new() } else { vec![note] }
    }

    /// The bars, left to right.
    pub(super) fn bars(&self, widths: &Scale) -> Vec<Bar> {
        let mut bars: Vec<Bar> = Vec::new();
        for &(width, cost) in &self.costs {
            let place = widths.place(width);
            match bars.last_mut().filter(|bar| bar.place == place) {
                Some(bar) => (bar.least, bar.largest) = (bar.least.min(cost), bar.largest.max(cost)),
                None => bars.push(Bar { place, least: cost, largest: cost }),
            }
        }
        bars
    }

    /// The cost of the best width, if that is among the widths.
    pub(super) fn best_cost(&self) -> Option<usize> {
        let place = self.costs.binary_search_by_key(&self.best, |c| c.0).ok()?;
        Some(self.costs[place].1)
    }

    /// What is told below the chart.
    pub(super) fn rows(&self) -> Vec<Row> {
        let diagonals = Row::new("diagonals", vec![format!("{} of {}", self.diagonals, self.slots)]);
        let Some(cost) = self.best_cost() else {
            return vec![Row::new("best", vec![format!("width {}, which is not drawn", self.best)]), diagonals];
        };
        let widths = |is_such: &dyn Fn(usize) -> bool| -> Vec<String> {
            listed(self.costs.iter().filter(|c| c.0 != self.best && is_such(c.1)).map(|c| c.0))
        };
        let mut rows = vec![Row::new("best", listed([format!("width {}", self.best), format!("cost {cost}")]))];
        let (ties, cheaper) = (widths(&|c| c == cost), widths(&|c| c < cost));
        rows.push(counted("ties", "of the same cost", ties));
        if let Some(least) = self.costs.iter().map(|c| c.1).min().filter(|least| *least < cost) {
            let what = format!("that poulpy's search does not ask, the least cost {least}");
            rows.push(counted("cheaper", &what, cheaper));
        }
        rows.push(diagonals);
        rows
    }
}

/// How many other widths there are, and which.
fn counted(name: &'static str, what: &str, mut widths: Vec<String>) -> Row {
    let count = match widths.len() {
        0 => format!("no other width {what}"),
        1 => format!("1 other width {what}:"),
        many => format!("{many} other widths {what}:"),
    };
    widths.insert(0, count);
    Row::new(name, widths)
}
