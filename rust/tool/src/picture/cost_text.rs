//! The picture of cost by width as text.

use super::CostPicture;
use super::lines::{COLUMNS, joined, row_lines, sentence};
use super::scale::Scale;

/// The last place of a chart of 72 columns, which has a label of 6 left of it and may have one of 5 at its end.
const ACROSS: usize = 59;
/// The last place of the chart upward.
const UP: usize = 11;

/// The picture.
pub fn text(picture: &CostPicture) -> String {
    let mut lines = sentence(&picture.title, COLUMNS);
    lines.push(String::new());
    if picture.costs.is_empty() {
        lines.push("No width.".into());
    } else {
        lines.extend(chart(picture));
    }
    lines.push(String::new());
    lines.extend(row_lines(&picture.rows()));
    joined(&lines)
}

/// Costs upward, widths to the right, and a note where places are not one width each.
fn chart(picture: &CostPicture) -> Vec<String> {
    let (widths, costs) = picture.scales(ACROSS, UP);
    let mut cells = vec![vec![' '; widths.room + 1]; costs.room + 1];
    for bar in picture.bars(&widths) {
        for row in &mut cells[costs.place(bar.least)..=costs.place(bar.largest)] {
            row[bar.place] = 'o';
        }
    }
    if let Some(cost) = picture.best_cost() {
        cells[costs.place(cost)][widths.place(picture.best)] = '@';
    }
    let ticks = costs.ticks(6);
    let label = |row: usize| ticks.iter().find(|&&n| costs.place(n) == row).map_or(String::new(), usize::to_string);
    let mut lines = vec!["  cost".to_string()];
    let rows = cells.iter().enumerate().rev();
    lines.extend(rows.map(|(row, cells)| format!("{:>6} |{}", label(row), String::from_iter(cells))));
    lines.push(format!("{:>6} +{}", "", "-".repeat(widths.room + 1)));
    lines.push(format!("{:>6}  {}", "width", labels(&widths)));
    lines.push("@ is the best width.".into());
    lines.extend(picture.notes(&widths, &costs).iter().flat_map(|note| sentence(note, COLUMNS)));
    lines
}

/// Round widths, each from its place on, as many as do not touch.
fn labels(widths: &Scale) -> String {
    let mut line = String::new();
    for tick in widths.ticks(16) {
        let place = widths.place(tick);
        if line.is_empty() || line.len() < place {
            line = format!("{line:<place$}{tick}");
        }
    }
    line
}
