//! `width`, `plan` and `keys`.

use std::fmt::Write;

use sibukyaran::{
    BsgsRotations, LinearTransformationLayout, LinearTransformationPlan, LinearTransformationStrategy as Strategy,
    optimal_bsgs_giant_step,
};

use crate::args::{Args, Command, number};
use crate::failure::Failure;
use crate::files::{self, Outputs};
use crate::json::Json;
use crate::picture::{CostPicture, PlanPicture};
use crate::progress::Steps;

/// What to say of a map or a list in place of it.
macro_rules! of_diagonals {
    ($text:literal) => {
        concat!(
            "MAP is a map file, or - for a pipe. In its place --slots N and --diagonals LIST, whole numbers between\n\
             commas in any order, each of which counts modulo slots.",
            $text
        )
    };
}

pub const WIDTH: Command = Command {
    name: "width",
    about: "the best widths with their costs",
    usage: "(MAP | --slots N --diagonals LIST) [--most M] [--picture] [--svg FILE] [--json]",
    help: of_diagonals!(
        "\n\nThe cost of a width is twice the larger of the numbers of distinct babies and distinct giants. The widths are\n\
         those that the best one is chosen from: the multiples of the smallest gap between diagonals, below slots. The M\n\
         best are listed (10 without it), of equal cost the larger first.\n\n\
         --picture   cost by width, as text\n\
         --svg FILE  the same as a picture; - for a pipe"
    ),
    options: &["--slots", "--diagonals", "--most", "--svg"],
    flags: &["--picture", "--json"],
    words: (0, 1),
    run: width,
};

pub const PLAN: Command = Command {
    name: "plan",
    about: "how a map's diagonals are split into babies and giants",
    usage: "(MAP | --slots N --diagonals LIST) --strategy S [--picture] [--svg FILE] [--json]",
    help: of_diagonals!(
        "\n\nS is bsgs:W (a key for each rotation of the plan of width W), powers:W (the same plan by keys of powers of two)\n\
         or direct (a rotation for each diagonal). Without :W the best width is taken.\n\n\
         --picture   the plan as a grid, as text: giants down, babies across, a mark for each diagonal\n\
         --svg FILE  the same as a picture; - for a pipe"
    ),
    options: &["--slots", "--diagonals", "--strategy", "--svg"],
    flags: &["--picture", "--json"],
    words: (0, 1),
    run: plan,
};

pub const KEYS: Command = Command {
    name: "keys",
    about: "the rotations that a run of the plan needs keys for",
    usage: "(MAP | --slots N --diagonals LIST) --strategy S [--json] [-o FILE]",
    help: of_diagonals!(
        "\n\nS is as for 'plan'. The list has each rotation once, one a line, rising.\n\n\
         -o FILE  the list; without it, or with -, to standard output"
    ),
    options: &["--slots", "--diagonals", "--strategy", "-o"],
    flags: &["--json"],
    words: (0, 1),
    run: keys,
};

/// The diagonals of a map, or those that are listed, and slots.
fn diagonals(args: &Args) -> Result<(Vec<i64>, usize), Failure> {
    match (args.word(0), args.option("--diagonals")) {
        (Some(name), None) if args.option("--slots").is_none() => {
            let map = files::read_map(name)?;
            Ok((map.indexes(), map.slots()))
        }
        (None, Some(list)) => {
            let words = list.split(',').map(str::trim).filter(|word| !word.is_empty());
            let list = words.map(|word| number("--diagonals", word)).collect::<Result<_, Failure>>()?;
            Ok((list, args.needed_number("--slots")?))
        }
        _ => Err(Failure::Usage("give either a map file, or --slots and --diagonals".to_string())),
    }
}

/// A strategy by its text, of the best width where it has none.
pub fn strategy(text: &str, indexes: &[i64], slots: usize) -> Result<Strategy, Failure> {
    let (name, width) = text.split_once(':').map_or((text, None), |(name, width)| (name, Some(width)));
    let giant_step = || match width {
        Some(width) => number("--strategy", width),
        None => Ok(optimal_bsgs_giant_step(indexes.iter().copied(), slots)?),
    };
    match (name, width) {
        ("bsgs", _) => Ok(Strategy::Bsgs { giant_step: giant_step()? }),
        ("powers", _) => Ok(Strategy::BsgsPowersOfTwo { giant_step: giant_step()? }),
        ("direct", None) => Ok(Strategy::Direct),
        _ => Err(Failure::Usage(format!("--strategy: '{text}' is none of bsgs, bsgs:W, powers, powers:W, direct"))),
    }
}

/// A strategy as `--strategy` takes it.
pub fn strategy_text(strategy: Strategy) -> String {
    match strategy {
        Strategy::Bsgs { giant_step } => format!("bsgs:{giant_step}"),
        Strategy::BsgsPowersOfTwo { giant_step } => format!("powers:{giant_step}"),
        Strategy::Direct => "direct".to_string(),
    }
}

fn layout(args: &Args) -> Result<LinearTransformationLayout, Failure> {
    let (indexes, slots) = diagonals(args)?;
    let strategy = strategy(args.needed("--strategy")?, &indexes, slots)?;
    Ok(LinearTransformationLayout { indexes, slots, strategy })
}

/// The rotations that need keys, each once, rising.
pub fn key_list(layout: &LinearTransformationLayout) -> Result<Vec<u64>, Failure> {
    let mut keys = layout.key_rotations()?;
    keys.sort_unstable();
    keys.dedup();
    Ok(keys)
}

/// The numbers of a list between blanks.
fn joined<T: ToString>(list: &[T]) -> String {
    list.iter().map(T::to_string).collect::<Vec<_>>().join(" ")
}

/// A plan in words.
fn told(layout: &LinearTransformationLayout, plan: &LinearTransformationPlan) -> Result<String, Failure> {
    let diagonals: usize = plan.index.iter().map(Vec::len).sum();
    let mut text = format!("{} slots, {diagonals} diagonals, {}\n", layout.slots, strategy_text(layout.strategy));
    let keys = key_list(layout)?;
    let mut line = |what: &str, list: String| {
        let _ = writeln!(text, "{what:<9} {list}");
    };
    line("babies", joined(&plan.baby_steps));
    line("giants", joined(&plan.giant_steps));
    for (giant, babies) in plan.giant_steps.iter().zip(&plan.index) {
        line("", format!("{giant}: {}", joined(babies)));
    }
    if let BsgsRotations::PowersOfTwo { baby_step, giant_step, .. } = plan.rotations {
        line("steps", format!("{baby_step} for babies, {giant_step} for giants"));
    }
    line("keys", format!("{} ({})", keys.len(), joined(&keys)));
    line("switches", layout.key_switches()?.to_string());
    Ok(text)
}

fn picture(layout: &LinearTransformationLayout, plan: LinearTransformationPlan) -> Result<PlanPicture, Failure> {
    Ok(PlanPicture {
        title: format!("Plan: {} slots, {}", layout.slots, strategy_text(layout.strategy)),
        slots: layout.slots,
        passes: plan.rotations.baby_passes(plan.baby_steps.iter().copied())?,
        tree: plan.rotations.giant_tree(plan.giant_steps.iter().copied())?,
        keys: key_list(layout)?,
        switches: layout.key_switches()?,
        plan,
    })
}

/// Writes the picture that is asked for, and then the text; a picture that goes through a pipe stands alone.
fn show(args: &Args, text: String, svg: impl FnOnce() -> String) -> Result<(), Failure> {
    let mut outputs = Outputs::default();
    if let Some(name) = args.option("--svg") {
        outputs.add(name, svg().into_bytes());
    }
    let alone = outputs.has_pipe();
    outputs.write()?;
    if alone { Ok(()) } else { files::print_text(&text) }
}

fn plan_json(layout: &LinearTransformationLayout, plan: &LinearTransformationPlan) -> Result<Json, Failure> {
    Ok(Json::Object(vec![
        ("slots", Json::number(layout.slots as u64)),
        ("strategy", Json::Text(strategy_text(layout.strategy))),
        ("babies", Json::numbers(&plan.baby_steps)),
        ("giants", Json::numbers(&plan.giant_steps)),
        ("index", Json::List(plan.index.iter().map(|babies| Json::numbers(babies)).collect())),
        ("keys", Json::numbers(&key_list(layout)?)),
        ("switches", Json::number(layout.key_switches()? as u64)),
    ]))
}

fn plan(args: &Args) -> Result<(), Failure> {
    let layout = layout(args)?;
    let plan = layout.index()?;
    let text = if args.has("--json") { format!("{}\n", plan_json(&layout, &plan)?) } else { told(&layout, &plan)? };
    if !args.has("--picture") && args.option("--svg").is_none() {
        return files::print_text(&text);
    }
    let picture = picture(&layout, plan)?;
    let text = if args.has("--picture") { format!("{text}\n{}", picture.text()) } else { text };
    show(args, text, || picture.svg())
}

fn keys(args: &Args) -> Result<(), Failure> {
    let keys = key_list(&layout(args)?)?;
    let bytes =
        if args.has("--json") { format!("{}\n", Json::numbers(&keys)).into_bytes() } else { files::list_bytes(&keys) };
    files::write_one(args.option("-o").unwrap_or(files::PIPE), bytes)
}

/// The widths that the best one is chosen from, and what each costs, of diagonals that rise below slots.
fn widths(indexes: &[i64], slots: usize, best: usize) -> Result<Vec<(usize, usize)>, Failure> {
    let gap = indexes.windows(2).map(|two| (two[1] - two[0]) as usize).min().unwrap_or(slots);
    let all: Vec<usize> = (gap..slots).step_by(gap).collect();
    // One diagonal or none has one width, 1.
    let all = if all.is_empty() { vec![best] } else { all };
    let mut steps = Steps::new("widths", all.len());
    let mut layout = LinearTransformationLayout { indexes: indexes.to_vec(), slots, strategy: Strategy::Direct };
    let mut costs = Vec::with_capacity(all.len());
    for (done, width) in all.into_iter().enumerate() {
        layout.strategy = Strategy::Bsgs { giant_step: width };
        costs.push((width, layout.cost()?));
        steps.done(done);
    }
    Ok(costs)
}

/// What is told of a width, by name.
type Row = [(&'static str, usize); 6];

fn row(indexes: &[i64], slots: usize, (width, cost): (usize, usize)) -> Result<Row, Failure> {
    let by = |strategy| LinearTransformationLayout { indexes: indexes.to_vec(), slots, strategy };
    let each = by(Strategy::Bsgs { giant_step: width });
    let powers = by(Strategy::BsgsPowersOfTwo { giant_step: width });
    Ok([
        ("width", width),
        ("cost", cost),
        ("keys", key_list(&each)?.len()),
        ("switches", each.key_switches()?),
        ("powers_keys", key_list(&powers)?.len()),
        ("powers_switches", powers.key_switches()?),
    ])
}

fn rows_json(rows: &[Row]) -> String {
    let object = |row: &Row| Json::Object(row.iter().map(|&(name, n)| (name, Json::number(n as u64))).collect());
    format!("{}\n", Json::List(rows.iter().map(object).collect()))
}

fn rows_text(rows: &[Row]) -> String {
    let line = |row: &Row| {
        let [width, cost, keys, switches, powers_keys, powers_switches] = row.map(|(_, n)| n);
        format!("{width:>8} {cost:>8} {keys:>17} {switches:>8} {powers_keys:>20} {powers_switches:>8}\n")
    };
    let head = "   width     cost  a key each: keys switches  powers of two: keys switches\n";
    head.to_string() + &rows.iter().map(line).collect::<String>()
}

fn width(args: &Args) -> Result<(), Failure> {
    let (indexes, slots) = diagonals(args)?;
    let most = args.number("--most")?.unwrap_or(10);
    // By Direct each diagonal is a giant: those of the list, each once, rising.
    let indexes = LinearTransformationLayout { indexes, slots, strategy: Strategy::Direct }.index()?.giant_steps;
    let best = optimal_bsgs_giant_step(indexes.iter().copied(), slots)?;
    let costs = widths(&indexes, slots, best)?;
    let mut least = costs.clone();
    least.sort_by_key(|&(width, cost)| (cost, std::cmp::Reverse(width)));
    let rows = least.iter().take(most).map(|&width| row(&indexes, slots, width)).collect::<Result<Vec<_>, _>>()?;
    let diagonals = indexes.len();
    let head = format!("{slots} slots, {diagonals} diagonals: best width {best}, of {}\n", costs.len());
    let text = if args.has("--json") { rows_json(&rows) } else { head + &rows_text(&rows) };
    let picture = CostPicture { title: format!("Cost by width: {slots} slots"), slots, diagonals, costs, best };
    let text = if args.has("--picture") { format!("{text}\n{}", picture.text()) } else { text };
    show(args, text, || picture.svg())
}
