use super::lines::wrapped;
use super::svg::FAINT;
use super::{CostPicture, PlanPicture};
use sibukyaran::LinearTransformationStrategy::{self, Bsgs, BsgsPowersOfTwo, Direct};
use sibukyaran::{LinearTransformationLayout, optimal_bsgs_giant_step};

fn plan(indexes: impl IntoIterator<Item = i64>, slots: usize, strategy: LinearTransformationStrategy) -> PlanPicture {
    let layout = LinearTransformationLayout { indexes: indexes.into_iter().collect(), slots, strategy };
    let plan = layout.index().unwrap();
    PlanPicture {
        title: "A plan".into(),
        slots,
        passes: plan.rotations.baby_passes(plan.baby_steps.clone()).unwrap(),
        tree: plan.rotations.giant_tree(plan.giant_steps.clone()).unwrap(),
        keys: layout.key_rotations().unwrap(),
        switches: layout.key_switches().unwrap(),
        plan,
    }
}

fn example(strategy: LinearTransformationStrategy) -> PlanPicture {
    plan([0, 1, 2, 5, 15], 16, strategy)
}

/// Plans with many babies, many giants, many of both, gaps, one diagonal and none.
fn plans() -> Vec<PlanPicture> {
    vec![
        example(BsgsPowersOfTwo { giant_step: 4 }),
        example(Bsgs { giant_step: 4 }),
        example(Direct),
        plan(-7..=5, 128, BsgsPowersOfTwo { giant_step: 4 }),
        plan(-255..=255, 65_536, BsgsPowersOfTwo { giant_step: 32 }),
        plan(-255..=255, 65_536, Direct),
        plan(0..65_536, 65_536, BsgsPowersOfTwo { giant_step: 256 }),
        plan(0..65_536, 65_536, Bsgs { giant_step: 65_536 }),
        plan((0..65_536).step_by(3), 65_536, BsgsPowersOfTwo { giant_step: 2_048 }),
        plan(0..300, 65_536, BsgsPowersOfTwo { giant_step: 92 }),
        plan([6, 13, 30, 47, 100, 1_023, 700], 1_024, BsgsPowersOfTwo { giant_step: 32 }),
        plan([7], 16, BsgsPowersOfTwo { giant_step: 4 }),
        plan([], 16, BsgsPowersOfTwo { giant_step: 4 }),
        plan([], 1, Bsgs { giant_step: 1 }),
    ]
}

fn cost(indexes: &[i64], slots: usize) -> CostPicture {
    let cost_of = |giant_step| {
        let layout = LinearTransformationLayout { indexes: indexes.to_vec(), slots, strategy: Bsgs { giant_step } };
        (giant_step, layout.cost().unwrap())
    };
    CostPicture {
        title: "Costs".into(),
        slots,
        diagonals: indexes.len(),
        costs: (1..slots).map(cost_of).collect(),
        best: optimal_bsgs_giant_step(indexes.iter().copied(), slots).unwrap(),
    }
}

/// All diagonals of 65,536 slots, whose costs are known without a plan of each width.
fn all_widths() -> CostPicture {
    let costs = (1..65_536).map(|width: usize| (width, 2 * width.max(65_536_usize.div_ceil(width)))).collect();
    CostPicture { title: "Costs".into(), slots: 65_536, diagonals: 65_536, costs, best: 256 }
}

fn costs() -> Vec<CostPicture> {
    let range: Vec<i64> = (-7..=5).collect();
    vec![all_widths(), cost(&[0, 1, 2, 5, 15], 16), cost(&range, 128), cost(&[], 16), cost(&[0], 2), cost(&[0], 1)]
}

fn texts() -> Vec<String> {
    plans().iter().map(PlanPicture::text).chain(costs().iter().map(CostPicture::text)).collect()
}

fn svgs() -> Vec<String> {
    plans().iter().map(PlanPicture::svg).chain(costs().iter().map(CostPicture::svg)).collect()
}

/// Whether each `&` begins one of the entities that the writer knows.
fn is_escaped(text: &str) -> bool {
    text.split('&').skip(1).all(|rest| ["amp;", "lt;", "gt;", "quot;"].iter().any(|entity| rest.starts_with(entity)))
}

/// Whether attributes are names with quoted values.
fn has_attributes(mut rest: &str) -> bool {
    while let Some((name, tail)) = rest.split_once("=\"") {
        let Some((_, after)) = tail.split_once('"') else { return false };
        if !name.strip_prefix(' ').is_some_and(|name| !name.is_empty() && !name.contains([' ', '"'])) {
            return false;
        }
        rest = after;
    }
    rest.is_empty()
}

/// Whether a document is one element with balanced tags, quoted attributes and escaped text that XML takes.
fn is_well_formed(document: &str) -> bool {
    let mut open: Vec<&str> = Vec::new();
    let mut pieces = document.split('<');
    let mut is_good = pieces.next() == Some("");
    for (n, piece) in pieces.enumerate() {
        let Some((tag, text)) = piece.split_once('>') else { return false };
        is_good &= (n == 0) == open.is_empty();
        is_good &= is_escaped(tag) && is_escaped(text) && !text.contains('>');
        is_good &= !text.contains(|c: char| c.is_control() && c != '\n' || c == '\u{ffff}');
        if let Some(name) = tag.strip_prefix('/') {
            is_good &= open.pop() == Some(name);
            continue;
        }
        let content = tag.strip_suffix('/').unwrap_or(tag);
        let end = content.find(' ').unwrap_or(content.len());
        is_good &= end > 0 && has_attributes(&content[end..]);
        if !tag.ends_with('/') {
            open.push(&content[..end]);
        }
    }
    is_good && open.is_empty()
}

/// What stands in the groups that have a mark in their tag.
fn groups<'a>(svg: &'a str, mark: &str) -> Vec<&'a str> {
    let parts = svg.split("<g ").filter_map(|part| part.split_once('>'));
    parts.filter(|(tag, _)| tag.contains(mark)).map(|(_, rest)| rest.split("</g>").next().unwrap()).collect()
}

/// How many cells the runs of a path have, whose rectangles begin with `h` and their width.
fn drawn_cells(paths: &str, wide: usize) -> usize {
    let width = |run: &str| run[1..].split('v').next()?.parse::<usize>().ok();
    paths.split('M').filter_map(|run| width(&run[run.find('h')?..])).map(|width| width / wide).sum()
}

#[test]
fn the_example_with_powers_of_two_is_drawn_so() {
    let text = "\
A plan

giant  baby
       0 1 2 3  leaf
    0  # # # .     0
    4  . # . .     1
   12  . . . #     3

passes     by 1: 0 -> 1
           by 2: 0 -> 2, 1 -> 3
levels     by 4: 0 + 1 -> 0, 3 alone -> 1
           by 8: 0 + 1 -> 0
keys       4, for the rotations 1, 2, 4, 8
switches   6
diagonals  5 of 16
";
    assert_eq!(example(BsgsPowersOfTwo { giant_step: 4 }).text(), text);
}

#[test]
fn the_example_per_rotation_is_drawn_so() {
    let text = "\
A plan

giant  baby
       0 1 2 3
    0  # # # .
    4  . # . .
   12  . . . #

babies     each but 0 from the input, by its own key
giants     each but 0 turned by its own key
keys       5, for the rotations 1, 2, 3, 4, 12
switches   5
diagonals  5 of 16
";
    assert_eq!(example(Bsgs { giant_step: 4 }).text(), text);
}

#[test]
fn an_empty_map_is_drawn_so() {
    let text = "\
A plan

giant  baby
       0
 none

passes     none, the input is the only baby
levels     by 12: no pair, no key
keys       none
switches   0
diagonals  0 of 16
";
    assert_eq!(plan([], 16, BsgsPowersOfTwo { giant_step: 4 }).text(), text);
}

#[test]
fn costs_are_drawn_so() {
    let text = "\
Costs

  cost
     6 |o        o                 o                 @        o
       |
       |
       |
     4 |                  o                 o
       |
       |
     2 |
       |
       |
       |
     0 |
       +-------------------------------------------------------
 width  1        2        3        4        5        6        7
@ is the best width.

best       width 6, cost 6
ties       4 other widths of the same cost: 1, 2, 4, 7
cheaper    2 other widths that poulpy's search does not ask, the least cost 4: 3, 5
diagonals  3 of 8
";
    assert_eq!(cost(&[0, 2, 5], 8).text(), text);
}

#[test]
fn equal_rotations_share_a_key() {
    let mut picture = example(BsgsPowersOfTwo { giant_step: 4 });
    picture.keys = vec![1, 2, 2];
    assert!(picture.text().contains("keys       2, equal rotations share one, for the rotations 1, 2, 2\n"));
}

#[test]
fn babies_of_the_closure_alone_are_blank_and_faint() {
    let picture = plan([6, 13], 16, BsgsPowersOfTwo { giant_step: 16 });
    assert_eq!(picture.plan.baby_steps, [0, 1, 2, 5, 6, 13]);
    let text = picture.text();
    assert!(text.contains("       0  1  2  5  6  13  leaf\n    0              #  #"), "{text}");
    assert!(text.contains("\nBlank columns: babies that no diagonal has.\n"));
    assert!(text.contains("\nclosure    adds 1, 2, 5\n"));
    let svg = picture.svg();
    let faint: String = groups(&svg, FAINT).concat();
    let labels: Vec<&str> = faint.split("</text>").filter_map(|text| Some(text.split_once("\">")?.1)).collect();
    assert_eq!(labels, ["0", "1", "2", "5"]);
    assert!(svg.contains(">Grey columns: babies that no diagonal has.<"));
}

#[test]
fn each_diagonal_has_a_mark() {
    let mut drawn = Vec::new();
    for picture in plans() {
        let svg = picture.svg();
        let marks = groups(&svg, "class=\"marks\"").concat();
        if !marks.contains("<path") {
            assert_eq!(marks.matches("<rect ").count(), picture.diagonals());
            drawn.push(picture.diagonals());
        }
    }
    assert_eq!(drawn, [5, 5, 5, 13, 511, 7, 1, 0, 0]);
    let svg = plan(0..65_536, 65_536, BsgsPowersOfTwo { giant_step: 256 }).svg();
    assert_eq!(drawn_cells(&groups(&svg, "class=\"marks\"").concat(), 2), 65_536);
}

#[test]
fn marks_have_their_diagonals() {
    let svg = example(BsgsPowersOfTwo { giant_step: 4 }).svg();
    let names = groups(&svg, "#ffffff\" text-anchor").concat();
    let names: Vec<&str> = names.split("</text>").filter_map(|text| Some(text.split_once("\">")?.1)).collect();
    assert_eq!(names, ["0", "1", "2", "5", "15"]);
}

#[test]
fn the_checker_refuses_what_is_not_well_formed() {
    assert!(is_well_formed("<a b=\"1\"><c/>x &amp; y</a>\n"));
    for bad in
        ["<a><b></a></b>", "<a>", "<a>x & y</a>", "<a>x > y</a>", "<a b=1></a>", "<a b=\"1></a>", "<a/>x<", "<a/><b/>"]
    {
        assert!(!is_well_formed(bad), "{bad}");
    }
}

#[test]
fn every_svg_is_well_formed() {
    let mut strange = example(Bsgs { giant_step: 4 });
    strange.title = "a < b & \"c\" > d\u{7}\u{1b}[1m\ne\u{ffff}-->".into();
    for svg in svgs().into_iter().chain([strange.svg()]) {
        assert!(is_well_formed(&svg), "{svg}");
    }
    assert!(strange.svg().contains("<title>a &lt; b &amp; &quot;c&quot; &gt; d [1m e --&gt;</title>"));
}

#[test]
fn every_svg_is_narrow_and_says_what_it_shows() {
    for svg in svgs() {
        let width = svg.strip_prefix("<svg xmlns=\"http://www.w3.org/2000/svg\" width=\"").unwrap();
        let width: usize = width.split('"').next().unwrap().parse().unwrap();
        assert!(width <= 910, "{width}");
        assert!(svg.contains("\n<title>") && svg.contains("\n<desc>A "));
        assert!(svg.contains(&format!("<g fill=\"#ffffff\">\n<rect x=\"0\" y=\"0\" width=\"{width}\"")));
    }
}

#[test]
fn lines_fit_and_have_no_blanks_at_their_ends() {
    let mut long = example(Direct);
    long.title = "word ".repeat(50) + &"x".repeat(300);
    for text in texts().into_iter().chain([long.text()]) {
        assert!(text.ends_with('\n'));
        for line in text.lines() {
            assert!(line.chars().count() <= 100 && line.trim_end() == line, "{line:?}");
        }
    }
}

#[test]
fn the_same_input_gives_the_same_bytes() {
    assert!(texts() == texts() && svgs() == svgs());
}

#[test]
fn what_is_drawn_together_is_said() {
    let is_said = |picture: &PlanPicture| [picture.text(), picture.svg()].map(|told| told.contains("Too many to draw"));
    assert_eq!(is_said(&plan(-255..=255, 65_536, BsgsPowersOfTwo { giant_step: 32 })), [false, false]);
    assert_eq!(is_said(&plan(0..65_536, 65_536, Bsgs { giant_step: 256 })), [true, false]);
    let thirds = plan((0..65_536).step_by(3), 65_536, BsgsPowersOfTwo { giant_step: 2_048 });
    assert_eq!(is_said(&thirds), [true, true]);
    assert!(thirds.text().contains("a cell stands for 1 giant and up to 32 babies, with the labels"));
    assert!(thirds.svg().contains("a cell stands for 1 giant and up to 4 babies, with the labels"));
    // Of 32 numbers 10 or 11 are thirds, of 4 one or two.
    assert!(thirds.text().contains(&format!(" 2048  {}    1\n", ":".repeat(64))));
    let shades = groups(&thirds.svg(), "class=\"marks\"").len();
    assert_eq!(shades, 2);
}

#[test]
fn cells_that_are_drawn_together_show_how_full_they_are() {
    // Of each 32 babies one giant has 14 and the next has the other 18; the last has all but the first 32.
    let is_there = |&k: &i64| if k < 4_096 { (k % 32 < 14) == (k < 2_048) } else { k >= 4_128 };
    let text = plan((0..6_144).filter(is_there), 65_536, Bsgs { giant_step: 2_048 }).text();
    let rows = format!("    0  {}\n 2048  {}\n 4096  .{}\n", ":".repeat(64), "+".repeat(64), "#".repeat(63));
    assert!(text.contains(&rows), "{text}");
}

#[test]
fn lists_that_are_cut_say_how_much() {
    let items: Vec<String> = (1..=1_000).map(|n| format!("{n},")).collect();
    assert_eq!(wrapped(&items, 20, 2), ["1, 2, 3, 4, 5, 6, 7,", "8, 9, and 991 more"]);
    assert_eq!(wrapped(&items[..8], 20, 2), ["1, 2, 3, 4, 5, 6, 7,", "8,"]);
    let picture = plan(0..65_536, 65_536, BsgsPowersOfTwo { giant_step: 256 });
    assert!(picture.text().contains("13 -> 141, and 114 more\n"));
    assert!(picture.svg().contains(">2 \u{2192} 130, and 125 more<"));
}

#[test]
fn powers_of_two_are_equally_far_apart() {
    let (widths, costs) = all_widths().scales(160, 80);
    let places: Vec<usize> = (0..=16).map(|bit| widths.place(1 << bit)).collect();
    assert_eq!(places, (0..=160).step_by(10).collect::<Vec<usize>>());
    // From 512 to 131072; the root of 2 has half a place more.
    assert_eq!([512, 724, 1_024, 131_072].map(|cost| costs.place(cost)), [0, 5, 10, 80]);
    assert_eq!(costs.ticks(5), [512, 2_048, 8_192, 32_768, 131_072]);
}

#[test]
fn bars_go_from_the_least_cost_to_the_largest() {
    let picture = all_widths();
    let (widths, _) = picture.scales(16, 11);
    for bar in picture.bars(&widths) {
        let costs = || picture.costs.iter().filter(|c| widths.place(c.0) == bar.place).map(|c| c.1);
        assert_eq!((Some(bar.least), Some(bar.largest)), (costs().min(), costs().max()));
    }
}

#[test]
fn widths_that_have_no_place_each_still_fill_the_chart() {
    let picture = cost(&[0, 1, 2, 5, 15], 64);
    let (widths, _) = picture.scales(59, 11);
    assert!(!widths.is_logarithmic);
    assert_eq!([1, 63].map(|width| widths.place(width)), [0, 59]);
    assert!(picture.text().contains("Widths that stand on one place are one bar"));
    assert!(!picture.svg().contains("Widths that stand on one place are one bar"));
}

#[test]
fn many_widths_are_few_bars() {
    let svg = all_widths().svg();
    let bars = groups(&svg, "class=\"bars\"").concat().matches("<rect ").count();
    assert!((300..1_000).contains(&bars), "{bars}");
    let one_by_one = groups(&cost(&[0, 1, 2, 5, 15], 16).svg(), "class=\"bars\"").concat().matches("<rect ").count();
    assert_eq!(one_by_one, 15);
    for told in [svg, all_widths().text()] {
        assert!(told.contains("Both scales are logarithmic."));
        assert!(told.contains("width 256, cost 512"));
        assert!(told.contains("no other width of the same cost"));
    }
    assert!(all_widths().text().lines().take(17).all(|line| line.len() <= 72));
}
