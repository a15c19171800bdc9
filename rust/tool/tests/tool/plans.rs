//! `width`, `plan` and `keys`.

use sibukyaran::Diagonals;

use crate::bench::Bench;

/// Document 01's E6 in place of a map.
const E6: &str = "--slots 16 --diagonals 0,1,2,5,-1";

fn e6() -> Diagonals {
    let mut map = Diagonals::new(16).unwrap();
    [0, 1, 2, 5, 15].into_iter().for_each(|k| map.set(k, [1]).unwrap());
    map
}

/// A folder with E6's map.
fn bench(name: &str) -> Bench {
    let bench = Bench::new(name);
    bench.write("e6.map", e6().write_map_file());
    bench
}

#[test]
fn a_plan_is_told() {
    let bench = bench("plan");
    let text = "16 slots, 5 diagonals, powers:4\n\
                babies    0 1 2 3\n\
                giants    0 4 12\n\
                \x20         0: 0 1 2\n\
                \x20         4: 1\n\
                \x20         12: 3\n\
                steps     1 for babies, 4 for giants\n\
                keys      4 (1 2 4 8)\n\
                switches  6\n";
    assert_eq!(bench.does("plan e6.map --strategy powers:4").text(), text);
    assert_eq!(bench.does(&format!("plan {E6} --strategy powers:4")).text(), text);
    assert_eq!(bench.piped("plan - --strategy powers:4", &bench.read("e6.map")).text(), text);
    let json = "{\"slots\":16,\"strategy\":\"direct\",\"babies\":[0],\"giants\":[0,1,2,5,15],\
                \"index\":[[0],[0],[0],[0],[0]],\"keys\":[1,2,5,15],\"switches\":4}\n";
    assert_eq!(bench.does("plan e6.map --strategy direct --json").text(), json);
    // The best width.
    assert!(bench.does("plan --slots 8 --diagonals 0,2,5 --strategy bsgs").text().contains("bsgs:6\n"));
}

#[test]
fn keys_are_listed() {
    let bench = bench("keys");
    assert_eq!(bench.does("keys e6.map --strategy powers:4").text(), "1\n2\n4\n8\n");
    assert_eq!(bench.does(&format!("keys {E6} --strategy bsgs:4 --json")).text(), "[1,2,3,4,12]\n");
    assert!(bench.does("keys e6.map --strategy bsgs:4 -o keys.txt").out.is_empty());
    assert_eq!(bench.text("keys.txt"), "1\n2\n3\n4\n12\n");
    // A pass and a level of one rotation are one key.
    assert_eq!(bench.does("keys --slots 4 --diagonals 0,1,2,3 --strategy powers:2").text(), "1\n2\n");
    assert_eq!(bench.does("keys --slots 4 --diagonals= --strategy powers:2").text(), "");
}

#[test]
fn widths_are_listed_with_their_costs() {
    let bench = bench("width");
    let text = "8 slots, 3 diagonals: best width 6, of 3\n\
                \x20  width     cost  a key each: keys switches  powers of two: keys switches\n\
                \x20      6        6                 2        2                    3        3\n\
                \x20      4        6                 3        3                    3        3\n";
    assert_eq!(bench.does("width --slots 8 --diagonals 5,0,2,8 --most 2").text(), text);
    let json = "[{\"width\":6,\"cost\":6,\"keys\":2,\"switches\":2,\"powers_keys\":3,\"powers_switches\":3}]\n";
    assert_eq!(bench.does("width --slots 8 --diagonals 0,2,5 --most 1 --json").text(), json);
    assert!(bench.does("width e6.map").text().starts_with("16 slots, 5 diagonals: best width 5, of 15\n"));
    for (diagonals, count, cost) in [("3", 1, 2), ("", 0, 0)] {
        let told = bench.does(&format!("width --slots 8 --diagonals={diagonals}"));
        assert!(told.text().starts_with(&format!("8 slots, {count} diagonals: best width 1, of 1\n")), "{told:?}");
        assert!(told.text().contains(&format!("\n       1 {cost:>8} ")), "{told:?}");
    }
}

#[test]
fn the_first_width_is_the_best() {
    let bench = Bench::new("first-width");
    for diagonals in ["0,1", "0,1,2,3,4,5,6,7", "0,3,9,12", "1,2,4,8,16,32", "0,7,14,21,63"] {
        let told = bench.does(&format!("width --slots 64 --diagonals {diagonals}"));
        let lines: Vec<&str> = told.text().lines().collect();
        let best = lines[0].split("best width ").nth(1).unwrap().split(',').next().unwrap();
        assert_eq!(lines[2].split_whitespace().next(), Some(best), "{diagonals}");
    }
}

#[test]
fn bad_plans_are_refused() {
    let bench = bench("bad-plan");
    bench.write("keys.txt", "kept\n");
    let step = "the giant step is 0: it must be from 1 to 65536";
    bench.refused("plan e6.map --strategy powers:0 --svg plan.svg", 3, step);
    bench.refused("keys e6.map --strategy bsgs:0 -o keys.txt", 3, step);
    let slots = "slots is 65537: it must be from 1 to 65536";
    for command in ["plan", "keys", "width"] {
        let strategy = if command == "width" { "" } else { "--strategy direct" };
        bench.refused(&format!("{command} --slots 65537 --diagonals 1 {strategy}"), 1, slots);
        bench.not_taken(&format!("{command} none.map {strategy}"), "none.map: No such file");
        bench.misused(&format!("{command} {strategy}"), "give either a map file, or --slots and --diagonals");
        bench.misused(&format!("{command} e6.map --slots 4 {strategy}"), "give either a map file");
        bench.misused(&format!("{command} --slots 4 --diagonals 1,x {strategy}"), "--diagonals: 'x' is no number");
        bench.misused(&format!("{command} e6.map --colour {strategy}"), "there is no option --colour");
    }
    bench.misused("plan e6.map", "--strategy is missing");
    bench.misused("plan e6.map --strategy", "--strategy has no value");
    bench.misused("plan e6.map --strategy direct:4", "--strategy: 'direct:4' is none of");
    bench.misused("plan e6.map --strategy powers:x", "--strategy: 'x' is no number");
    bench.misused("keys e6.map --strategy best", "--strategy: 'best' is none of");
    bench.not_taken("plan e6.map --strategy direct --svg no/plan.svg", "no/plan.svg: No such file");
}

#[test]
fn pictures_are_written() {
    let bench = bench("pictures");
    for words in ["plan e6.map --strategy powers:4", "width e6.map"] {
        let plain = bench.does(words).text().to_string();
        let told = bench.does(&format!("{words} --picture --svg picture.svg"));
        assert!(told.text().starts_with(&plain) && told.text().len() > plain.len() + 50, "{words}");
        let svg = bench.text("picture.svg");
        assert!(svg.starts_with("<svg ") && svg.trim_end().ends_with("</svg>"), "{words}");
        bench.does(&format!("{words} --svg again.svg"));
        assert_eq!(bench.text("again.svg"), svg, "{words}: the same picture each time");
        assert_eq!(bench.does(&format!("{words} --svg -")).text(), svg, "{words}: alone through a pipe");
    }
}

#[test]
fn the_pictures_of_the_readme_are_current() {
    let bench = Bench::new("readme");
    let docs = concat!(env!("CARGO_MANIFEST_DIR"), "/../../docs/pictures");
    let terms = concat!(env!("CARGO_MANIFEST_DIR"), "/week/average.terms");
    bench.does(&format!("map terms {terms} --slots 128 --period 8 -o average.map"));
    bench.does("plan average.map --strategy powers:4 --svg plan.svg");
    bench.does("width average.map --svg width.svg");
    for name in ["plan.svg", "width.svg"] {
        let held = std::fs::read_to_string(format!("{docs}/{name}")).unwrap_or_default();
        assert!(held == bench.text(name), "docs/pictures/{name} is not what the tool draws: run tools/pictures");
    }
}
