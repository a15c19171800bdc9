//! `map`: maps from terms, from a matrix and by name; set, shown, transposed, shrunk.

use std::fmt::Write;

use sibukyaran::{Diagonals, Refusal, maps};

use crate::args::{Args, Command, number};
use crate::failure::Failure;
use crate::files;
use crate::json::Json;

/// What to say of the option that all commands have that write a map.
macro_rules! writes_map {
    ($text:literal) => {
        concat!($text, "\n\n-o FILE  the map file; without it, or with -, to a pipe")
    };
}

pub const TERMS: Command = Command {
    name: "map terms",
    about: "a map from terms that repeat after a period",
    usage: "TERMS --slots N --period P [-o FILE]",
    help: writes_map!(
        "TERMS has a term a line, i j w: output i sums w times input j, and so on every P slots, so that output\n\
         i + q P sums w times input (j + q P) mod N. A negative w counts modulo 2^64. Lines that begin with # say nothing."
    ),
    options: &["--slots", "--period", "-o"],
    flags: &[],
    words: (1, 1),
    run: from_terms,
};

pub const MATRIX: Command = Command {
    name: "map matrix",
    about: "a map from a matrix as text",
    usage: "MATRIX [-o FILE]",
    help: writes_map!(
        "MATRIX has a row a line, numbers between blanks or commas, as many as there are rows. Diagonals that have an\n\
         entry other than 0 are stored whole; 'map shrink' stores them at their period."
    ),
    options: &["-o"],
    flags: &[],
    words: (1, 1),
    run: from_matrix,
};

pub const BUILD: Command = Command {
    name: "map build",
    about: "a matrix map by its name",
    usage: "NAME --slots N [--log-d L] [-k K] [--count C] [--matrices FILE] [--terms FILE] [--values FILE] [--rotation R] \
            [--text] [-o FILE]",
    help: writes_map!(
        "NAME is one of\n\
         \x20 sigma, tau, transpose, tau_rep, first_row, first_col: with --log-d;\n\
         \x20 rotate_rows, rotate_cols, rows_upper, rows_lower, cols_left, cols_right, rows_left, rows_right,\n\
         \x20 rotate_rows_rep: with --log-d and the shift -k, which the first two take modulo d;\n\
         \x20 right_mul, left_mul, right_jkls, left_jkls: with --log-d, --count (1 without it) and --matrices, a vector of\n\
         \x20 the public matrices row after row; left_mul_rep: the same with one matrix;\n\
         \x20 per_matrix_map: with --log-d and --terms, a term i j w a line, i below d * d;\n\
         \x20 slot_product: with --values, a vector, and --rotation (0 without it).\n\
         Matrices are d by d, d = 2^L. Vectors are eight bytes a slot, least first; with --text, one number a line."
    ),
    options: &["--slots", "--log-d", "-k", "--count", "--matrices", "--terms", "--values", "--rotation", "-o"],
    flags: &["--text"],
    words: (1, 1),
    run: build,
};

pub const SET: Command = Command {
    name: "map set",
    about: "a map with a diagonal replaced or inserted",
    usage: "MAP INDEX VALUES [--text] [-o FILE]",
    help: writes_map!(
        "INDEX is any whole number and counts modulo slots. VALUES is a vector, one period of the diagonal, whose length\n\
         divides slots: eight bytes a slot, least first, or with --text one number a line."
    ),
    options: &["-o"],
    flags: &["--text"],
    words: (3, 3),
    run: set,
};

pub const SHOW: Command = Command {
    name: "map show",
    about: "what a map holds",
    usage: "MAP [--json]",
    help: "MAP is a map file, or - for a pipe. Of long diagonals the first values are shown; --json has all.",
    options: &[],
    flags: &["--json"],
    words: (1, 1),
    run: show,
};

pub const TRANSPOSE: Command = Command {
    name: "map transpose",
    about: "a map with its matrix transposed",
    usage: "MAP [-o FILE]",
    help: writes_map!("MAP is a map file, or - for a pipe."),
    options: &["-o"],
    flags: &[],
    words: (1, 1),
    run: transpose,
};

pub const SHRINK: Command = Command {
    name: "map shrink",
    about: "a map stored at the smallest period that holds it",
    usage: "MAP [-o FILE]",
    help: writes_map!("MAP is a map file, or - for a pipe."),
    options: &["-o"],
    flags: &[],
    words: (1, 1),
    run: shrink,
};

fn write(args: &Args, map: &Diagonals) -> Result<(), Failure> {
    files::write_bytes(args.option("-o"), map.write_map_file())
}

/// The file that is the command's first word.
fn named(args: &Args) -> &str {
    args.word(0).expect("the command has a first word")
}

/// The terms i j w of a file.
fn read_terms(name: &str) -> Result<Vec<(usize, usize, u64)>, Failure> {
    let term = |(at, row): (usize, Vec<u64>)| match row[..] {
        [i, j, w] => Ok((i as usize, j as usize, w)),
        _ => Err(Failure::Input(format!("{name}, line {at}: it has {} numbers, and a term has three", row.len()))),
    };
    files::read_rows(name)?.into_iter().map(term).collect()
}

fn from_terms(args: &Args) -> Result<(), Failure> {
    let (slots, period) = (args.needed_number("--slots")?, args.needed_number("--period")?);
    write(args, &Diagonals::from_slot_map(slots, period, read_terms(named(args))?)?)
}

fn from_matrix(args: &Args) -> Result<(), Failure> {
    let name = named(args);
    let rows = files::read_rows(name)?;
    let n = rows.len();
    if let Some((at, row)) = rows.iter().find(|(_, row)| row.len() != n) {
        let text = format!("{name}, line {at}: it has {} numbers, and there are {n} rows", row.len());
        return Err(Failure::Input(text));
    }
    let entries = |(i, (_, row)): (usize, &(usize, Vec<u64>))| {
        let entry = |(j, &w)| (w != 0).then_some((i, j, w));
        row.iter().enumerate().filter_map(entry).collect::<Vec<_>>()
    };
    write(args, &Diagonals::from_slot_map(n, n, rows.iter().enumerate().flat_map(entries))?)
}

/// A matrix map of slots and log_d, of these and a shift, of these and public matrices.
enum Builder {
    Plain(fn(usize, usize) -> Result<Diagonals, Refusal>),
    Shift(fn(usize, usize, usize) -> Result<Diagonals, Refusal>),
    Product(fn(usize, usize, usize, &[u64]) -> Result<Diagonals, Refusal>),
    Terms,
    Values,
}

/// Entry (r, c) of public matrix s; 0 where a list is too short, which is refused afterwards.
fn entry(b: &[u64], log_d: usize) -> impl Fn(usize, usize, usize) -> u64 {
    move |s, r, c| b.get((((s << log_d) + r) << log_d) + c).copied().unwrap_or(0)
}

fn builder(name: &str) -> Option<Builder> {
    use Builder::{Plain, Product, Shift, Terms, Values};
    Some(match name {
        "sigma" => Plain(maps::sigma),
        "tau" => Plain(maps::tau),
        "transpose" => Plain(maps::transpose),
        "tau_rep" => Plain(maps::tau_rep),
        "first_row" => Plain(maps::first_row),
        "first_col" => Plain(maps::first_col),
        "rotate_rows" => Shift(maps::rotate_rows),
        "rotate_cols" => Shift(maps::rotate_cols),
        "rows_upper" => Shift(maps::rows_upper),
        "rows_lower" => Shift(maps::rows_lower),
        "cols_left" => Shift(maps::cols_left),
        "cols_right" => Shift(maps::cols_right),
        "rows_left" => Shift(maps::rows_left),
        "rows_right" => Shift(maps::rows_right),
        "rotate_rows_rep" => Shift(maps::rotate_rows_rep),
        "right_mul" => Product(|slots, log_d, count, b| maps::right_mul(slots, log_d, count, entry(b, log_d))),
        "left_mul" => Product(|slots, log_d, count, b| maps::left_mul(slots, log_d, count, entry(b, log_d))),
        "right_jkls" => Product(|slots, log_d, count, b| maps::right_jkls(slots, log_d, count, entry(b, log_d))),
        "left_jkls" => Product(|slots, log_d, count, b| maps::left_jkls(slots, log_d, count, entry(b, log_d))),
        "left_mul_rep" => Product(|slots, log_d, _, b| maps::left_mul_rep(slots, log_d, entry(b, log_d))),
        "per_matrix_map" => Terms,
        "slot_product" => Values,
        _ => return None,
    })
}

/// A product by public matrices. Refusal 7, of their length, comes after those of slots and matrices.
fn product(
    args: &Args,
    slots: usize,
    map: fn(usize, usize, usize, &[u64]) -> Result<Diagonals, Refusal>,
) -> Result<Diagonals, Failure> {
    let (log_d, count) = (args.needed_number("--log-d")?, args.number("--count")?.unwrap_or(1));
    let b = files::read_vector(args.needed("--matrices")?, args.has("--text"))?;
    let map = map(slots, log_d, count, &b)?;
    let wanted = count << (2 * log_d);
    if b.len() != wanted {
        let argument = "the list of the public matrices";
        return Err(Refusal::Length { argument, length: b.len(), wanted, multiple: false }.into());
    }
    Ok(map)
}

fn build(args: &Args) -> Result<(), Failure> {
    let name = named(args);
    let Some(builder) = builder(name) else {
        return Err(Failure::Usage(format!("there is no matrix map '{name}': see 'sibukyaran map build --help'")));
    };
    let slots = args.needed_number("--slots")?;
    let map = match builder {
        Builder::Plain(map) => map(slots, args.needed_number("--log-d")?)?,
        Builder::Shift(map) => map(slots, args.needed_number("--log-d")?, args.needed_number("-k")?)?,
        Builder::Product(map) => product(args, slots, map)?,
        Builder::Terms => {
            maps::per_matrix_terms(slots, args.needed_number("--log-d")?, read_terms(args.needed("--terms")?)?)?
        }
        Builder::Values => {
            let values = files::read_vector(args.needed("--values")?, args.has("--text"))?;
            maps::slot_product(slots, &values, args.number("--rotation")?.unwrap_or(0))?
        }
    };
    write(args, &map)
}

fn set(args: &Args) -> Result<(), Failure> {
    let [index, values] = [1, 2].map(|at| args.word(at).expect("the command has three words"));
    let mut map = files::read_map(named(args))?;
    map.set(number("INDEX", index)?, files::read_vector(values, args.has("--text"))?)?;
    write(args, &map)
}

/// How many values of a diagonal are shown.
const SHOWN: usize = 16;

/// What a map holds, as text.
pub fn described(map: &Diagonals) -> String {
    let values = map.lent().values.len();
    let mut text = format!("{} slots, {} diagonals, {values} values\n", map.slots(), map.count());
    for (offset, values) in map.iter() {
        let first: Vec<String> = values.iter().take(SHOWN).map(u64::to_string).collect();
        let more = values.len().saturating_sub(SHOWN);
        let more = if more > 0 { format!(" and {more} more") } else { String::new() };
        let _ = writeln!(text, "{offset:>6}: {}{more}", first.join(" "));
    }
    text
}

fn show(args: &Args) -> Result<(), Failure> {
    let map = files::read_map(named(args))?;
    if !args.has("--json") {
        return files::print_text(&described(&map));
    }
    let diagonal = |(offset, values): (usize, &[u64])| {
        Json::Object(vec![("offset", Json::number(offset as u64)), ("values", Json::numbers(values))])
    };
    let all = Json::List(map.iter().map(diagonal).collect());
    let json = Json::Object(vec![("slots", Json::number(map.slots() as u64)), ("diagonals", all)]);
    files::print_text(&format!("{json}\n"))
}

fn transpose(args: &Args) -> Result<(), Failure> {
    let mut map = files::read_map(named(args))?;
    map.transpose();
    write(args, &map)
}

fn shrink(args: &Args) -> Result<(), Failure> {
    let mut map = files::read_map(named(args))?;
    map.shrink_period();
    write(args, &map)
}
