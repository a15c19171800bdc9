//! `run`: the keyed run of a map on an input, with the keys that are held.

use std::hint::black_box;
use std::time::{Duration, Instant};

use sibukyaran::{Diagonals, KeyedRun, LinearTransformationStrategy as Strategy, Refusal, rotate_slots_into};

use crate::args::{Args, Command};
use crate::failure::Failure;
use crate::files::{self, Outputs};
use crate::json::Json;
use crate::plan::{strategy, strategy_text};
use crate::progress::watched;

pub const RUN: Command = Command {
    name: "run",
    about: "runs a map on an input with the keys that are held",
    usage: "MAP INPUT --strategy S --keys FILE [-n N] [-o FILE] [--log FILE] [--state FILE] [--text] [--json]",
    help: "MAP is a map file; INPUT is a vector of as many slots. S is as for 'plan'. Either may be - for a pipe.\n\n\
           --keys FILE   the rotations whose keys are held, one a line, in any order\n\
           -n N          stop after N key switches; without it the run goes on to its end\n\
           -o FILE       the answer of a finished run; without it, or with -, to standard output\n\
           --log FILE    the rotation of each switch that was made, one a line\n\
           --state FILE  plan, pairs, cache and nodes as the run leaves them, as JSON\n\
           --text        INPUT and the answer have one number a line, in place of eight bytes a slot, least first\n\
           --json        tells what the run made as JSON\n\n\
           What the run made is told on standard output, or on standard error where that has the answer, the log or the state.\n\
           A run that stops before its end has no answer, and the file of -o stays as it was.",
    options: &["--strategy", "--keys", "-n", "-o", "--log", "--state"],
    flags: &["--text", "--json"],
    words: (2, 2),
    run,
};

/// What a run is expected to take, by the time of one diagonal and of one rotation; nothing for a short one.
fn expected(map: &Diagonals, input: &[u64], strategy: Strategy) -> Result<Duration, Refusal> {
    let Some((_, first)) = map.iter().next().filter(|_| input.len() == map.slots()) else {
        return Ok(Duration::ZERO);
    };
    if map.count() * map.slots() < 1 << 24 {
        return Ok(Duration::ZERO);
    }
    let mut one = Diagonals::new(map.slots())?;
    one.set(0, first)?;
    let start = Instant::now();
    let mut vector = one.evaluate(input, Strategy::Direct)?;
    let product = start.elapsed();
    rotate_slots_into(input, 1, &mut vector)?;
    let rotation = start.elapsed() - product;
    let switches = map.layout(strategy).key_switches()?;
    Ok(product * map.count() as u32 + rotation * switches as u32)
}

/// Whether the memory of a run can be had: a vector for each baby but 0 and for each giant.
fn has_memory(map: &Diagonals, strategy: Strategy) -> Result<(), Failure> {
    let plan = map.layout(strategy).index()?;
    let words = (plan.baby_steps.len() - 1 + plan.giant_steps.len()) * map.slots();
    let mut memory: Vec<u64> = Vec::new();
    let had = memory.try_reserve_exact(words);
    // Or the compiler may leave out what nobody uses.
    black_box(&memory);
    had.map_err(|_| {
        let mebibytes = words >> 17;
        Failure::Input(format!(
            "the run takes {mebibytes} MiB of memory, which cannot be had: another width takes less"
        ))
    })
}

/// A vector where there is one.
fn vector_json(vector: Option<&[u64]>) -> Json {
    vector.map_or(Json::Null, Json::numbers)
}

/// Plan, pairs, cache and nodes.
fn state(run: &KeyedRun) -> Json {
    let giants = run.giants().len();
    let pair = |&(even, odd): &(Option<usize>, usize)| {
        Json::List(vec![even.map_or(Json::Null, |even| Json::number(even as u64)), Json::number(odd as u64)])
    };
    let level = |level: &sibukyaran::GiantTreeLevel| {
        let pairs = Json::List(level.pairs.iter().map(pair).collect());
        Json::Object(vec![("rotation", Json::number(level.rot)), ("pairs", pairs)])
    };
    Json::Object(vec![
        ("babies", Json::numbers(run.babies())),
        ("giants", Json::numbers(run.giants())),
        ("index", Json::List((0..giants).map(|g| Json::numbers(run.babies_of(g))).collect())),
        ("levels", Json::List(run.levels().iter().map(level).collect())),
        ("switches", Json::number(run.switches() as u64)),
        ("finished", Json::Truth(run.is_finished())),
        ("log", Json::numbers(run.log())),
        ("cache", Json::List(run.babies()[1..].iter().map(|&baby| vector_json(run.cached(baby))).collect())),
        ("nodes", Json::List((0..giants).map(|g| vector_json(run.node(g))).collect())),
    ])
}

/// What the run made, as JSON or in words.
fn told(run: &KeyedRun, strategy: Strategy, json: bool) -> String {
    let (made, all) = (run.switches(), run.all_switches());
    if json {
        let fields = vec![
            ("strategy", Json::Text(strategy_text(strategy))),
            ("switches", Json::number(made as u64)),
            ("all_switches", Json::number(all as u64)),
            ("finished", Json::Truth(run.is_finished())),
        ];
        return format!("{}\n", Json::Object(fields));
    }
    let end = if run.is_finished() { "finished" } else { "stopped before its end, so there is no answer yet" };
    format!("{}: {made} of {all} key switches, {end}\n", strategy_text(strategy))
}

fn run(args: &Args) -> Result<(), Failure> {
    let [map, input] = [0, 1].map(|at| args.word(at).expect("the command has two words"));
    let (out, text) = (args.option("-o").unwrap_or(files::PIPE), args.has("--text"));
    if !text {
        files::takes_bytes(out)?;
    }
    let map = files::read_map(map)?;
    let input = files::read_vector(input, text)?;
    let strategy = strategy(args.needed("--strategy")?, &map.indexes(), map.slots())?;
    let held = files::read_list(args.needed("--keys")?)?;
    let n = args.number("-n")?.unwrap_or(u64::MAX);
    has_memory(&map, strategy)?;
    let expected = expected(&map, &input, strategy)?;
    let run = watched("running", expected, || map.evaluate_keyed_up_to(&input, strategy, &held, n))?;
    let mut outputs = Outputs::default();
    if let Some(answer) = run.out() {
        outputs.add(out, files::vector_bytes(answer, text));
    }
    if let Some(name) = args.option("--log") {
        outputs.add(name, files::list_bytes(run.log()));
    }
    if let Some(name) = args.option("--state") {
        outputs.add(name, format!("{}\n", state(&run)).into_bytes());
    }
    let alone = out == files::PIPE || outputs.has_pipe();
    outputs.write()?;
    let told = told(&run, strategy, args.has("--json"));
    // What goes through a pipe stands alone.
    if alone {
        eprint!("{told}");
        return Ok(());
    }
    files::print_text(&told)
}
