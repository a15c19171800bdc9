//! The picture of cost by width as SVG.

use super::CostPicture;
use super::scale::{Bar, Scale};
use super::svg::{ACCENT, INK, LEADING, LINE, MARGIN, PALE, Svg};

/// The width of the picture.
const WIDTH: usize = 860;
/// The left end of the chart.
const LEFT: usize = 72;
/// The last place of the chart to the right, and so the most bars.
const ACROSS: usize = 760;
/// The last place of the chart upward.
const UP: usize = 260;

/// The most widths with a label: as many powers of two as there are.
const MOST_TICKS: usize = 17;

/// The picture.
pub fn svg(picture: &CostPicture) -> String {
    let (widths, costs) = picture.scales(ACROSS, UP);
    let mut svg = Svg::default();
    let top = svg.headline(&picture.title, WIDTH) + 36;
    let floor = top + UP;
    if picture.costs.is_empty() {
        svg.words(12, PALE, "normal", |svg| svg.text(LEFT, top + UP / 2, "No width."));
    } else {
        draw_axes(&mut svg, &widths, &costs, floor);
        draw_bars(&mut svg, &picture.bars(&widths), &widths, &costs, floor);
    }
    if let Some(cost) = picture.best_cost() {
        draw_best(&mut svg, picture, LEFT + widths.place(picture.best), floor - costs.place(cost), floor);
    }
    let below = svg.table(&picture.rows(), floor + 3 * LEADING, WIDTH);
    let end = svg.notes(&picture.notes(&widths, &costs), below + 6, WIDTH);
    let description = format!(
        "A chart of the costs of {} widths for {} diagonals in {} slots; the best width is {}.",
        picture.costs.len(),
        picture.diagonals,
        picture.slots,
        picture.best
    );
    svg.finish(WIDTH, end + MARGIN, &picture.title, &description)
}

/// Lines and labels at round costs, and labels at round widths.
fn draw_axes(svg: &mut Svg, widths: &Scale, costs: &Scale, floor: usize) {
    svg.group(&[("stroke", &LINE), ("shape-rendering", &"crispEdges")], |svg| {
        for cost in costs.ticks(6) {
            svg.line(LEFT, floor - costs.place(cost), LEFT + ACROSS, floor - costs.place(cost));
        }
        for width in widths.ticks(MOST_TICKS) {
            svg.line(LEFT + widths.place(width), floor + 8, LEFT + widths.place(width), floor + 12);
        }
        svg.line(LEFT, floor + 8, LEFT + ACROSS, floor + 8);
    });
    svg.numbers(12, INK, "end", |svg| {
        for cost in costs.ticks(6) {
            svg.text(LEFT - 10, floor - costs.place(cost) + 4, &cost.to_string());
        }
    });
    svg.numbers(12, INK, "middle", |svg| {
        for width in widths.ticks(MOST_TICKS) {
            svg.text(LEFT + widths.place(width), floor + 26, &width.to_string());
        }
    });
    svg.words(12, PALE, "normal", |svg| {
        svg.text(MARGIN, floor - UP - 14, "cost");
        svg.text(MARGIN, floor + 26, "width");
    });
}

/// The bars. One cost alone is a short bar.
fn draw_bars(svg: &mut Svg, bars: &[Bar], widths: &Scale, costs: &Scale, floor: usize) {
    let half = (widths.room / bars.len().max(1) / 2).clamp(1, 6);
    svg.group(&[("class", &"bars"), ("fill", &"#8c8c8c")], |svg| {
        for bar in bars {
            let (least, largest) = (costs.place(bar.least), costs.place(bar.largest));
            svg.rect(LEFT + bar.place - half, floor - largest - 2, 2 * half, largest - least + 4);
        }
    });
}

/// The best width: a disc, a line through the chart and words above it, which end or begin there.
fn draw_best(svg: &mut Svg, picture: &CostPicture, x: usize, y: usize, floor: usize) {
    let top = floor - UP;
    svg.group(&[("stroke", &ACCENT), ("fill", &ACCENT)], |svg| {
        svg.line(x, top - 8, x, floor + 8);
        svg.disc(x, y, 5);
    });
    let anchor = if x < LEFT + ACROSS / 2 { "start" } else { "end" };
    svg.numbers(12, ACCENT, anchor, |svg| svg.text(x, top - 14, &format!("best width {}", picture.best)));
}
