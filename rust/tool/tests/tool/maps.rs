//! `map` and `check`.

use sibukyaran::{Diagonals, maps};

use crate::bench::{Bench, vector};

/// Document 01's E3 as terms.
const TERMS: &str = "# E3\n0 1 5\n0, 1, 7\n\n1 0 2\n";

fn e3() -> Diagonals {
    Diagonals::from_slot_map(4, 2, [(0, 1, 5), (0, 1, 7), (1, 0, 2)]).unwrap()
}

/// A folder with E3's terms and its map.
fn bench(name: &str) -> Bench {
    let bench = Bench::new(name);
    bench.write("terms.txt", TERMS);
    bench.write("e3.map", e3().write_map_file());
    bench
}

#[test]
fn terms_become_a_map() {
    let bench = bench("terms");
    assert!(bench.does("map terms terms.txt --slots 4 --period 2 -o out.map").out.is_empty());
    assert_eq!(bench.read("out.map"), e3().write_map_file());
    assert_eq!(bench.does("map terms terms.txt --slots=4 --period=2").out, e3().write_map_file());
    assert_eq!(bench.piped("map terms - --slots 4 --period 2 -o -", TERMS.as_bytes()).out, e3().write_map_file());
    bench.write("negative.txt", "0 0 -1\n");
    bench.does("map terms negative.txt --slots 2 --period 1 -o out.map");
    assert_eq!(Diagonals::read_map_file(&bench.read("out.map")).unwrap().get(0), Some(&[u64::MAX][..]));
}

#[test]
fn bad_terms_are_refused_and_the_file_stays() {
    let bench = bench("bad-terms");
    let build = |rest: &str| format!("map terms terms.txt {rest} -o e3.map");
    bench.refused(&build("--slots 0 --period 2"), 1, "slots is 0: it must be from 1 to 65536");
    bench.refused(&build("--slots 65537 --period 1"), 1, "slots is 65537: it must be from 1 to 65536");
    bench.refused(&build("--slots 4 --period 3"), 4, "the period is 3: it must be at least 1 and divide the 4 slots");
    let term = "term 2 has i = 1 and j = 0: i must be below the period 1 and j below the 4 slots";
    bench.refused(&build("--slots 4 --period 1"), 8, term);
    bench.not_taken("map terms none.txt --slots 4 --period 2 -o e3.map", "none.txt: No such file");
    bench.write("two.txt", "0 1\n");
    bench.not_taken(
        "map terms two.txt --slots 4 --period 2 -o e3.map",
        "two.txt, line 1: it has 2 numbers, and a term has",
    );
    bench.write("words.txt", "0 1 2\n0 one 2\n");
    bench.not_taken("map terms words.txt --slots 4 --period 2 -o e3.map", "words.txt, line 2: 'one' is no number");
    bench.not_taken("map terms e3.map --slots 4 --period 2 -o e3.map", "e3.map");
    bench.not_taken("map terms terms.txt --slots 4 --period 2 -o no/folder.map", "no/folder.map: No such file");
    bench.misused("map terms terms.txt --slots four --period 2", "--slots: 'four' is no number");
    bench.misused("map terms terms.txt --slots 4", "--period is missing");
    bench.misused("map terms --slots 4 --period 2", "an argument is missing");
}

#[test]
fn a_matrix_becomes_a_map() {
    let bench = Bench::new("matrix");
    // E4's matrix.
    bench.write("m.txt", "0 12 0 0\n2 0 0 0\n0 0 0 12\n0,0,2,0\n");
    bench.does("map matrix m.txt -o m.map");
    let shown = "4 slots, 2 diagonals, 8 values\n     1: 12 0 12 0\n     3: 0 2 0 2\n";
    assert_eq!(bench.does("map show m.map").text(), shown);
    bench.does("map shrink m.map -o small.map");
    assert_eq!(bench.read("small.map"), e3().write_map_file());
    bench.write("odd.txt", "1 2\n3\n");
    bench.not_taken("map matrix odd.txt -o m.map", "odd.txt, line 2: it has 1 numbers, and there are 2 rows");
    bench.write("none.txt", "# nothing\n");
    bench.refused("map matrix none.txt -o m.map", 1, "slots is 0: it must be from 1 to 65536");
    bench.misused("map matrix", "an argument is missing");
}

#[test]
fn every_matrix_map_is_built_by_its_name() {
    let bench = Bench::new("build");
    let b: Vec<u64> = (1..=8).collect();
    bench.write("b.vec", vector(&b));
    bench.write("b.txt", "1\n2\n3\n4\n");
    bench.write("terms.txt", "0 3 1\n3 5 2\n");
    let built = |words: &str| {
        bench.does(&format!("map build {words} --slots 8 -o out.map"));
        Diagonals::read_map_file(&bench.read("out.map")).unwrap()
    };
    type Plain = fn(usize, usize) -> Result<Diagonals, sibukyaran::Refusal>;
    let plain: [(&str, Plain); 6] = [
        ("sigma", maps::sigma),
        ("tau", maps::tau),
        ("transpose", maps::transpose),
        ("tau_rep", maps::tau_rep),
        ("first_row", maps::first_row),
        ("first_col", maps::first_col),
    ];
    for (name, map) in plain {
        assert_eq!(built(&format!("{name} --log-d 1")), map(8, 1).unwrap(), "{name}");
    }
    type Shift = fn(usize, usize, usize) -> Result<Diagonals, sibukyaran::Refusal>;
    let shifts: [(&str, Shift); 9] = [
        ("rotate_rows", maps::rotate_rows),
        ("rotate_cols", maps::rotate_cols),
        ("rows_upper", maps::rows_upper),
        ("rows_lower", maps::rows_lower),
        ("cols_left", maps::cols_left),
        ("cols_right", maps::cols_right),
        ("rows_left", maps::rows_left),
        ("rows_right", maps::rows_right),
        ("rotate_rows_rep", maps::rotate_rows_rep),
    ];
    for (name, map) in shifts {
        assert_eq!(built(&format!("{name} --log-d 1 -k 1")), map(8, 1, 1).unwrap(), "{name}");
    }
    for (name, map) in &shifts[..2] {
        assert_eq!(built(&format!("{name} --log-d 1 -k 65535")), map(8, 1, 1).unwrap(), "{name}");
    }
    let entry = |s: usize, r: usize, c: usize| b[4 * s + 2 * r + c];
    let of_two = "--log-d 1 --count 2 --matrices b.vec";
    assert_eq!(built(&format!("right_mul {of_two}")), maps::right_mul(8, 1, 2, entry).unwrap());
    assert_eq!(built(&format!("left_mul {of_two}")), maps::left_mul(8, 1, 2, entry).unwrap());
    assert_eq!(built(&format!("right_jkls {of_two}")), maps::right_jkls(8, 1, 2, entry).unwrap());
    assert_eq!(built(&format!("left_jkls {of_two}")), maps::left_jkls(8, 1, 2, entry).unwrap());
    let of_one = "left_mul_rep --log-d 1 --matrices b.txt --text";
    assert_eq!(built(of_one), maps::left_mul_rep(8, 1, entry).unwrap());
    let terms = maps::per_matrix_terms(8, 1, [(0, 3, 1), (3, 5, 2)]).unwrap();
    assert_eq!(built("per_matrix_map --log-d 1 --terms terms.txt"), terms);
    let product = maps::slot_product(8, &[1, 2, 3, 4], -1).unwrap();
    assert_eq!(built("slot_product --values b.txt --text --rotation -1"), product);
}

#[test]
fn bad_matrix_maps_are_refused() {
    let bench = bench("bad-build");
    bench.write("b.vec", vector(&[1, 2, 3]));
    bench.write("terms.txt", "0 0 1\n4 0 1\n");
    let build = |words: &str| format!("map build {words} -o e3.map");
    bench.refused(&build("sigma --slots 0 --log-d 1"), 1, "slots is 0: it must be from 1 to 65536");
    bench.refused(&build("sigma --slots 4 --log-d 9"), 5, "log_d is 9: it must be from 0 to 8");
    let tiles = "count is 1 and d is 2: count * d * d must divide the 6 slots";
    bench.refused(&build("sigma --slots 6 --log-d 1"), 5, tiles);
    bench.refused(&build("rows_lower --slots 4 --log-d 1 -k 3"), 6, "k is 3: the shift must be from 0 to 2");
    let round = "k is 65537: the shift must be from 0 to 65536";
    bench.refused(&build("rotate_rows --slots 4 --log-d 1 -k 65537"), 6, round);
    bench.refused(&build("rotate_rows_rep --slots 4 --log-d 1 -k 2"), 6, "k is 2: the shift must be from 1 to 1");
    bench.refused(
        &build("rotate_rows_rep --slots 4 --log-d 0 -k 0"),
        6,
        "k is 0: there is no shift of matrices of one row",
    );
    let length = "the list of the public matrices has length 3: it must be 4";
    bench.refused(&build("right_mul --slots 4 --log-d 1 --matrices b.vec"), 7, length);
    let count = "count is 0: it must be at least 1";
    bench.refused(&build("right_mul --slots 4 --log-d 1 --count 0 --matrices b.vec"), 5, count);
    let term = "term 1 has i = 4 and j = 0: i must be below the period 4 and j below the 8 slots";
    bench.refused(&build("per_matrix_map --slots 8 --log-d 1 --terms terms.txt"), 8, term);
    let values = "the length of the values is 3: it must be at least 1 and divide the 4 slots";
    bench.refused(&build("slot_product --slots 4 --values b.vec"), 4, values);
    bench.misused(&build("omega --slots 4 --log-d 1"), "there is no matrix map 'omega'");
    bench.misused(&build("sigma --slots 4"), "--log-d is missing");
    bench.misused(&build("rows_upper --slots 4 --log-d 1"), "-k is missing");
    bench.misused(&build("left_mul --slots 4 --log-d 1"), "--matrices is missing");
}

#[test]
fn a_diagonal_is_set() {
    let bench = bench("set");
    bench.write("one.vec", vector(&[9]));
    bench.write("two.txt", "7\n8\n");
    bench.write("three.vec", vector(&[1, 2, 3]));
    bench.does("map set e3.map -3 one.vec -o out.map");
    assert_eq!(bench.does("map show out.map").text(), "4 slots, 2 diagonals, 3 values\n     1: 9\n     3: 0 2\n");
    // In its own place.
    bench.does("map set out.map 2 two.txt --text -o out.map");
    assert_eq!(bench.does("map show out.map").text().lines().nth(2), Some("     2: 7 8"));
    let length = "the length of the values is 3: it must be at least 1 and divide the 4 slots";
    bench.refused("map set e3.map 0 three.vec -o e3.map", 4, length);
    bench.not_taken("map set e3.map 0 two.txt -o e3.map", "two.txt: it has 4 bytes, which is no multiple of 8");
    bench.misused("map set e3.map first one.vec -o e3.map", "INDEX: 'first' is no number");
    bench.misused("map set e3.map 1", "an argument is missing");
    bench.misused("map set - 1 - -o e3.map", "one of the files can be a pipe");
}

#[test]
fn a_map_is_shown_and_transposed() {
    let bench = bench("show");
    assert_eq!(bench.does("map show e3.map").text(), "4 slots, 2 diagonals, 4 values\n     1: 12 0\n     3: 0 2\n");
    let json = "{\"slots\":4,\"diagonals\":[{\"offset\":1,\"values\":[12,0]},{\"offset\":3,\"values\":[0,2]}]}\n";
    assert_eq!(bench.does("map show e3.map --json").text(), json);
    let transposed = bench.does("map transpose e3.map").out;
    let told = bench.piped("map show -", &transposed);
    // E5.
    assert_eq!(told.text(), "4 slots, 2 diagonals, 4 values\n     1: 2 0\n     3: 0 12\n");
    bench.write("long.map", Diagonals::from_slot_map(32, 32, [(0, 0, 1)]).unwrap().write_map_file());
    assert!(bench.does("map show long.map").text().ends_with(" 0 and 16 more\n"));
    bench.write("short.map", &bench.read("e3.map")[..9]);
    for words in ["map show short.map", "map transpose short.map -o e3.map", "map shrink short.map -o e3.map"] {
        bench.refused(words, 13, "the bytes are no map file: there are 9, and 24 are asked for");
    }
    bench.misused("map show", "an argument is missing");
    bench.misused("map turn e3.map", "there is no command 'map' like that");
}

#[test]
fn a_file_is_checked() {
    let bench = bench("check");
    let text = bench.does("check e3.map");
    assert_eq!(text.text(), "a map file of 56 bytes: 4 slots, 2 diagonals, 4 values\n     1: 12 0\n     3: 0 2\n");
    assert_eq!(bench.does("check e3.map --json").text(), "{\"slots\":4,\"diagonals\":2,\"values\":4,\"bytes\":56}\n");
    let file = bench.read("e3.map");
    assert_eq!(bench.piped("check -", &file).status, Some(0));
    let changed = |at: usize, byte: u8| {
        let mut file = file.clone();
        file[at] = byte;
        file
    };
    for (bytes, fault) in [
        (vec![], "there are 0, and 8 are asked for"),
        (file[..55].to_vec(), "there are 55, and 56 are asked for"),
        ([&file[..], &[0]].concat(), "there are 57, and only 56 are asked for"),
        (changed(0, 0), "slots is 0: it must be from 1 to 65536"),
        (changed(2, 2), "slots is 131076: it must be from 1 to 65536"),
        (changed(8, 4), "offset 0 is 4: it must be below the 4 slots"),
        (changed(16, 1), "offset 1 is 1: it must be above the one before it, 1"),
        (changed(12, 3), "length 0 is 3: it must be at least 1 and divide the 4 slots"),
        (changed(12, 0), "length 0 is 0: it must be at least 1 and divide the 4 slots"),
        (changed(12, 4), "there are 56, and 72 are asked for"),
    ] {
        bench.write("bad.map", bytes);
        bench.refused("check bad.map", 13, &format!("the bytes are no map file: {fault}"));
    }
}

#[test]
fn an_answer_is_checked() {
    let bench = bench("answer");
    bench.write("in.txt", "1\n2\n3\n4\n");
    bench.write("good.txt", "24\n2\n48\n6\n");
    bench.write("bad.txt", "24\n2\n48\n7\n");
    bench.write("short.txt", "24\n2\n48\n");
    let told = bench.does("check e3.map --input in.txt --answer good.txt --text");
    assert_eq!(told.text(), "the answer is the product of the map and the input in all 4 slots\n");
    let json = bench.does("check e3.map --input in.txt --answer good.txt --text --json");
    assert_eq!(json.text(), "{\"slots\":4,\"diagonals\":2,\"values\":4,\"bytes\":56,\"answer\":true}\n");
    let wrong = "the answer is not the product: slot 3 has 7, and it must be 6";
    bench.not_taken("check e3.map --input in.txt --answer bad.txt --text", wrong);
    bench.not_taken(
        "check e3.map --input in.txt --answer short.txt --text",
        "the answer has 3 slots, and the map has 4",
    );
    let input = "the input has length 3: it must be 4";
    bench.refused("check e3.map --input short.txt --answer good.txt --text", 7, input);
    bench.misused("check e3.map --input in.txt", "--input and --answer go together");
    bench.misused("check e3.map --input - --answer -", "one of the files can be a pipe");
}
