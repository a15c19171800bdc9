//! The marks of a plan as rows and columns, neighbours together where there are too many.

use sibukyaran::LinearTransformationPlan;

/// The shade of a cell whose diagonals are all there.
pub const FULL: usize = 10;

/// The marks of a plan.
pub struct Grid {
    /// How many giants a row stands for.
    pub down: usize,
    /// How many babies a column stands for.
    pub across: usize,
    /// The first giant of each row.
    pub giants: Vec<i64>,
    /// The first baby of each column.
    pub babies: Vec<i64>,
    /// For each row the shades of its cells: 0 for no diagonal, `FULL` for all that a cell has room for, and between
    /// them the tenths.
    pub shades: Vec<Vec<usize>>,
    /// For each column whether a diagonal has one of its babies.
    pub is_read: Vec<bool>,
}

/// The least power of two by which so many are at most the most.
fn group(count: usize, most: usize) -> usize {
    count.div_ceil(most).next_power_of_two()
}

impl Grid {
    /// The grid of a plan, within so many rows and columns.
    pub fn new(plan: &LinearTransformationPlan, most_rows: usize, most_columns: usize) -> Grid {
        let down = group(plan.giant_steps.len(), most_rows);
        let across = group(plan.baby_steps.len(), most_columns);
        let babies: Vec<i64> = plan.baby_steps.iter().copied().step_by(across).collect();
        let shades: Vec<Vec<usize>> = plan.index.chunks(down).map(|row| shades_of(row, plan, across)).collect();
        let is_read = (0..babies.len()).map(|column| shades.iter().any(|row| row[column] > 0)).collect();
        Grid { down, across, giants: plan.giant_steps.iter().copied().step_by(down).collect(), babies, shades, is_read }
    }

    /// Whether a cell stands for more than one giant and baby.
    pub fn is_grouped(&self) -> bool {
        self.down * self.across > 1
    }

    /// What a reader of the cells has to know: how columns without diagonals look, and what shades mean.
    pub fn notes(&self, unread: &str, shades: &str) -> Vec<String> {
        let mut notes = Vec::new();
        if !self.giants.is_empty() && self.is_read.contains(&false) {
            notes.push(format!("{unread}: babies that no diagonal has."));
        }
        if self.is_grouped() {
            notes.push(format!(
                "Too many to draw one by one: a cell stands for {} and {}, with the labels of the first; {shades}.",
                counted(self.down, "giant", "giants"),
                counted(self.across, "baby", "babies")
            ));
        }
        notes
    }
}

/// The shades of one row, which stands for some giants.
fn shades_of(row: &[Vec<i64>], plan: &LinearTransformationPlan, across: usize) -> Vec<usize> {
    let mut counts = vec![0; plan.baby_steps.len().div_ceil(across)];
    for baby in row.iter().flatten() {
        let place = plan.baby_steps.binary_search(baby).expect("the plan's babies have each giant's");
        counts[place / across] += 1;
    }
    let rooms = plan.baby_steps.chunks(across).map(|column| column.len() * row.len());
    counts.into_iter().zip(rooms).map(|(count, room)| shade(count, room)).collect()
}

/// The tenths of a cell's room, where 0 is none at all and `FULL` is all.
fn shade(count: usize, room: usize) -> usize {
    if count == 0 { 0 } else { (FULL * count / room).max(1) }
}

/// How many neighbours a row or a column stands for.
fn counted(count: usize, one: &str, many: &str) -> String {
    if count == 1 { format!("1 {one}") } else { format!("up to {count} {many}") }
}
