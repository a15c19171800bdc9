//! `check`: what a map file holds, or why it is refused; and whether an answer is the map's.

use sibukyaran::{Diagonals, LinearTransformationStrategy as Strategy};

use crate::args::{Args, Command};
use crate::failure::Failure;
use crate::files;
use crate::json::Json;
use crate::map::described;

pub const CHECK: Command = Command {
    name: "check",
    about: "what a map file holds, or why it is refused",
    usage: "FILE [--input FILE --answer FILE] [--text] [--json]",
    help: "FILE is a map file, or - for a pipe.\n\n\
           --input FILE   a vector\n\
           --answer FILE  a vector that should be the map's product with it, slot for slot; another one is told, exit 1\n\
           --text         both have one number a line, in place of eight bytes a slot, least first\n\
           --json         tells slots, diagonals and values as JSON",
    options: &["--input", "--answer"],
    flags: &["--text", "--json"],
    words: (1, 1),
    run: check,
};

/// Whether an answer is the product of the map and an input, by the plain run.
fn check_answer(map: &Diagonals, input: &[u64], answer: &[u64]) -> Result<String, Failure> {
    let product = map.evaluate(input, Strategy::Direct)?;
    if answer.len() != product.len() {
        let text = format!("the answer has {} slots, and the map has {}", answer.len(), product.len());
        return Err(Failure::Input(text));
    }
    match (0..product.len()).find(|&slot| answer[slot] != product[slot]) {
        Some(slot) => Err(Failure::Input(format!(
            "the answer is not the product: slot {slot} has {}, and it must be {}",
            answer[slot], product[slot]
        ))),
        None => Ok(format!("the answer is the product of the map and the input in all {} slots\n", product.len())),
    }
}

fn json(map: &Diagonals, bytes: usize, checked: bool) -> String {
    let values = map.lent().values.len();
    let mut fields = vec![
        ("slots", Json::number(map.slots() as u64)),
        ("diagonals", Json::number(map.count() as u64)),
        ("values", Json::number(values as u64)),
        ("bytes", Json::number(bytes as u64)),
    ];
    if checked {
        fields.push(("answer", Json::Truth(true)));
    }
    format!("{}\n", Json::Object(fields))
}

fn check(args: &Args) -> Result<(), Failure> {
    let bytes = files::read(args.word(0).expect("the command has a word"))?;
    let map = Diagonals::read_map_file(&bytes)?;
    let text = args.has("--text");
    let checked = match (args.option("--input"), args.option("--answer")) {
        (None, None) => None,
        (Some(input), Some(answer)) => {
            let (input, answer) = (files::read_vector(input, text)?, files::read_vector(answer, text)?);
            Some(check_answer(&map, &input, &answer)?)
        }
        _ => return Err(Failure::Usage("--input and --answer go together".to_string())),
    };
    if args.has("--json") {
        return files::print_text(&json(&map, bytes.len(), checked.is_some()));
    }
    files::print_text(&checked.unwrap_or_else(|| format!("a map file of {} bytes: {}", bytes.len(), described(&map))))
}
