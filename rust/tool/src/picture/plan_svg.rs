//! The picture of a plan as SVG.

use super::PlanPicture;
use super::grid::{FULL, Grid};
use super::svg::{ACCENT, FAINT, GROUND, INK, LINE, MARGIN, PALE, Svg, mono};

/// The most rows and columns of cells; more are drawn together.
const MOST: usize = 512;
/// The largest side of a cell.
const SIDE: usize = 28;
/// From this side on, cells have lines between them and each diagonal a mark of its own.
const APART: usize = 6;
/// The characters in a line of the panel beside the grid.
const PANEL: usize = 34;

/// Where the cells stand.
struct Frame {
    /// The left side of all.
    left: usize,
    /// The upper side of all.
    top: usize,
    /// The width of a cell.
    wide: usize,
    /// The height of a cell.
    high: usize,
    /// How many there are across.
    columns: usize,
    /// How many there are down.
    rows: usize,
}

impl Frame {
    /// Square cells where they are large, and wider ones where labels and diagonals then have room.
    fn new(grid: &Grid, slots: usize) -> Frame {
        let (columns, rows) = (grid.babies.len(), grid.giants.len());
        let side = |count: usize| (MOST / count.max(1)).min(SIDE);
        let (mut wide, mut high) = (side(columns), side(rows));
        if wide.min(high) >= APART {
            (wide, high) = (wide.min(high), wide.min(high));
        }
        let lettered = (mono(digits(&grid.babies)) + 4).max(diagonal_room(slots));
        if lettered * columns <= MOST {
            wide = wide.max(lettered);
        }
        Frame { left: MARGIN + mono(digits(&grid.giants).max("giant".len())) + 6, top: 0, wide, high, columns, rows }
    }

    /// The left side of a column.
    fn x(&self, column: usize) -> usize {
        self.left + column * self.wide
    }

    /// The upper side of a row.
    fn y(&self, row: usize) -> usize {
        self.top + row * self.high
    }

    /// The right side of all.
    fn right(&self) -> usize {
        self.x(self.columns)
    }

    /// The lower side of all.
    fn bottom(&self) -> usize {
        self.y(self.rows)
    }

    /// Whether cells are large enough to be told apart.
    fn is_apart(&self) -> bool {
        self.wide.min(self.high) >= APART
    }

    /// Every how many rows there is room for a label; powers of two, as labels are rounder then.
    fn row_stride(&self) -> usize {
        14_usize.div_ceil(self.high).next_power_of_two()
    }

    /// The line on which a row's label stands.
    fn label_y(&self, row: usize) -> usize {
        // Where one label stands for several rows, it is beside the first.
        let high = if self.row_stride() > 1 { self.high.max(8) } else { self.high };
        self.y(row) + high / 2 + 4
    }
}

/// The digits of the largest of rising rotations.
fn digits(rotations: &[i64]) -> usize {
    rotations.last().map_or(1, |rotation| rotation.to_string().len())
}

/// How wide a mark with its diagonal is.
fn diagonal_room(slots: usize) -> usize {
    6 * slots.to_string().len() + 10
}

/// The picture.
pub fn svg(picture: &PlanPicture) -> String {
    let grid = Grid::new(&picture.plan, MOST, MOST);
    let leaves = picture.leaves(&grid);
    let mut frame = Frame::new(&grid, picture.slots);
    let leaf_digits = leaves.last().map_or(0, |leaf| leaf.to_string().len().max("leaf".len()));
    let leaf_end = frame.right() + 12 + mono(leaf_digits);
    let panel_left = leaf_end + 24;
    let width = panel_left + mono(PANEL) + MARGIN;

    let mut svg = Svg::default();
    let top = svg.headline(&picture.title, width);
    frame.top = top + 44;
    draw_ground(&mut svg, &grid, &frame);
    draw_marks(&mut svg, &grid, &frame);
    draw_diagonals(&mut svg, picture, &grid, &frame);
    draw_labels(&mut svg, &grid, &frame);
    draw_leaves(&mut svg, leaves, &frame, leaf_end);
    let beside = svg.panel(&picture.ways(), panel_left, top, PANEL);
    let below = svg.table(&picture.sums(), beside.max(frame.bottom()) + 18, width);
    let notes = grid.notes("Grey columns", "the darker, the more of its diagonals are there");
    let end = svg.notes(&notes, below + 6, width);
    svg.finish(width, end + MARGIN, &picture.title, &description(picture))
}

/// What is drawn, for those who do not see it.
fn description(picture: &PlanPicture) -> String {
    format!(
        "A grid of {} giants down and {} babies across with the marks of {} diagonals; beside it how the rotations are \
         reached; below it the keys, and the number of key switches, {}.",
        picture.plan.giant_steps.len(),
        picture.plan.baby_steps.len(),
        picture.diagonals(),
        picture.switches
    )
}

/// Columns that no diagonal has, in grey, and the lines of the grid.
fn draw_ground(svg: &mut Svg, grid: &Grid, frame: &Frame) {
    svg.group(&[("fill", &GROUND)], |svg| {
        for column in (0..frame.columns).filter(|&column| !grid.is_read[column]) {
            svg.rect(frame.x(column), frame.top, frame.wide, frame.rows * frame.high);
        }
    });
    svg.group(&[("stroke", &LINE), ("shape-rendering", &"crispEdges")], |svg| {
        // Small cells have a line around them all.
        let every = |count: usize| if frame.is_apart() { 1 } else { count.max(1) };
        for row in (0..=frame.rows).step_by(every(frame.rows)) {
            svg.line(frame.left, frame.y(row), frame.right(), frame.y(row));
        }
        for column in (0..=frame.columns).step_by(every(frame.columns)) {
            svg.line(frame.x(column), frame.top, frame.x(column), frame.bottom());
        }
    });
}

/// A square for each diagonal, or where cells are small one path for each row and shade.
fn draw_marks(svg: &mut Svg, grid: &Grid, frame: &Frame) {
    for shade in 1..=FULL {
        let opacity = format!("{}.{}", shade / FULL, shade % FULL);
        svg.group(&[("class", &"marks"), ("fill", &ACCENT), ("fill-opacity", &opacity)], |svg| {
            for (row, shades) in grid.shades.iter().enumerate().filter(|(_, shades)| shades.contains(&shade)) {
                if frame.is_apart() {
                    draw_squares(svg, frame, row, shades);
                } else {
                    svg.path(&runs(frame, row, shades, shade));
                }
            }
        });
    }
}

/// The squares of a row. Cells that are drawn together are small, so that here a diagonal is there or not.
fn draw_squares(svg: &mut Svg, frame: &Frame, row: usize, shades: &[usize]) {
    let inset = (frame.wide.min(frame.high) / 10).max(1);
    for column in (0..frame.columns).filter(|&column| shades[column] > 0) {
        svg.rect(frame.x(column) + inset, frame.y(row) + inset, frame.wide - 2 * inset, frame.high - 2 * inset);
    }
}

/// The neighbours of one shade in a row, each run of them a rectangle of a path.
fn runs(frame: &Frame, row: usize, shades: &[usize], shade: usize) -> String {
    let (mut path, mut column) = (String::new(), 0);
    for run in shades.chunk_by(|a, b| a == b) {
        if run[0] == shade {
            let wide = run.len() * frame.wide;
            path += &format!("M{} {}h{wide}v{}h-{wide}z", frame.x(column), frame.y(row), frame.high);
        }
        column += run.len();
    }
    path
}

/// In each mark its diagonal, where there is room.
fn draw_diagonals(svg: &mut Svg, picture: &PlanPicture, grid: &Grid, frame: &Frame) {
    if grid.is_grouped() || diagonal_room(picture.slots) > frame.wide || frame.high < 14 {
        return;
    }
    svg.numbers(10, "#ffffff", "middle", |svg| {
        for (row, giant) in grid.giants.iter().enumerate() {
            for (column, baby) in grid.babies.iter().enumerate().filter(|(column, _)| grid.shades[row][*column] > 0) {
                svg.text(
                    frame.x(column) + frame.wide / 2,
                    frame.y(row) + frame.high / 2 + 4,
                    &(giant + baby).to_string(),
                );
            }
        }
    });
}

/// The babies above the columns, paler where no diagonal has them, and the giants left of the rows.
fn draw_labels(svg: &mut Svg, grid: &Grid, frame: &Frame) {
    svg.words(12, PALE, "normal", |svg| {
        svg.text(MARGIN, frame.top - 6, "giant");
        svg.text(frame.left, frame.top - 24, "baby");
        if grid.giants.is_empty() {
            svg.text(MARGIN, frame.top + 14, "none");
        }
    });
    let stride = (mono(digits(&grid.babies)) + 4).div_ceil(frame.wide).next_power_of_two();
    for (is_read, colour) in [(true, INK), (false, FAINT)] {
        svg.numbers(12, colour, "middle", |svg| {
            for column in (0..frame.columns).step_by(stride).filter(|&column| grid.is_read[column] == is_read) {
                svg.text(frame.x(column) + frame.wide / 2, frame.top - 6, &grid.babies[column].to_string());
            }
        });
    }
    svg.numbers(12, INK, "end", |svg| {
        for row in (0..frame.rows).step_by(frame.row_stride()) {
            svg.text(frame.left - 6, frame.label_y(row), &grid.giants[row].to_string());
        }
    });
}

/// The leaves right of the rows.
fn draw_leaves(svg: &mut Svg, leaves: &[usize], frame: &Frame, right: usize) {
    if leaves.is_empty() {
        return;
    }
    svg.numbers(12, PALE, "end", |svg| {
        svg.text(right, frame.top - 6, "leaf");
        for row in (0..frame.rows).step_by(frame.row_stride()) {
            svg.text(right, frame.label_y(row), &leaves[row].to_string());
        }
    });
}
