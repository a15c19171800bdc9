//! The picture of a plan as text.

use super::PlanPicture;
use super::grid::{FULL, Grid};
use super::lines::{COLUMNS, joined, row_lines, sentence};

/// The most rows of cells.
const MOST_ROWS: usize = 64;
/// What stands left of the cells: a giant and two blanks.
const GIANT: usize = 7;
/// What stands right of them: a leaf, and up to two characters by which the last label stands out.
const LEAF: usize = 7;
/// The most characters of cells.
const CELLS: usize = COLUMNS - GIANT - LEAF;

/// The picture.
pub fn text(picture: &PlanPicture) -> String {
    let grid = Grid::new(&picture.plan, MOST_ROWS, CELLS);
    let mut lines = sentence(&picture.title, COLUMNS);
    lines.push(String::new());
    lines.extend(grid_lines(&grid, picture.leaves(&grid)));
    for note in grid.notes("Blank columns", ". is none, : less than half, + half or more, # all") {
        lines.extend(sentence(&note, COLUMNS));
    }
    lines.push(String::new());
    lines.extend(row_lines(&picture.ways()));
    lines.extend(row_lines(&picture.sums()));
    joined(&lines)
}

/// Labels above, and a line for each row.
fn grid_lines(grid: &Grid, leaves: &[usize]) -> Vec<String> {
    let digits = grid.babies.last().map_or(1, |baby| baby.to_string().len());
    let count = grid.babies.len();
    let width = [digits + 1, 2, 1].into_iter().find(|width| width * count <= CELLS).unwrap_or(1);
    let labels = labels(&grid.babies, width, (digits + 1).div_ceil(width).next_power_of_two());
    let end = labels.len().max(width * count);
    let leaf = if leaves.is_empty() { "" } else { " leaf" };
    let mut lines = vec![format!("{:>5}  baby", "giant"), format!("{:GIANT$}{labels:<end$}{leaf}", "")];
    for (row, giant) in grid.giants.iter().enumerate() {
        let cells = cells(grid, row, width);
        let leaf = leaves.get(row).map_or(String::new(), |leaf| format!("{leaf:>5}"));
        lines.push(format!("{giant:>5}  {cells:<end$}{leaf}"));
    }
    if grid.giants.is_empty() {
        lines.push(format!("{:>5}", "none"));
    }
    lines
}

/// The label of every so many columns.
fn labels(babies: &[i64], width: usize, stride: usize) -> String {
    babies
        .iter()
        .step_by(stride)
        .map(|baby| format!("{baby:<0$}", width * stride))
        .collect::<String>()
        .trim_end()
        .into()
}

/// The cells of a row.
fn cells(grid: &Grid, row: usize, width: usize) -> String {
    let cell = |(&shade, &is_read): (&usize, &bool)| {
        let mark = match shade {
            0 if !is_read => ' ',
            0 => '.',
            FULL => '#',
            shade if 2 * shade < FULL => ':',
            _ => '+',
        };
        format!("{mark:<width$}")
    };
    grid.shades[row].iter().zip(&grid.is_read).map(cell).collect()
}
