//! `run`.

use sibukyaran::{Diagonals, LinearTransformationStrategy::BsgsPowersOfTwo};

use crate::bench::{Bench, vector};

/// E6's map with a value for each diagonal, an input, and the keys of E7.
fn bench(name: &str) -> Bench {
    let bench = Bench::new(name);
    bench.write("e6.map", map().write_map_file());
    bench.write("in.vec", vector(&input()));
    bench.write("in.txt", input().iter().map(|slot| format!("{slot}\n")).collect::<String>());
    bench.write("keys.txt", "8\n1\n# the level's\n4\n2\n");
    bench.write("few.txt", "8\n1\n4\n");
    bench.write("held.vec", "as it was");
    bench
}

fn map() -> Diagonals {
    let mut map = Diagonals::new(16).unwrap();
    [0, 1, 2, 5, 15].into_iter().for_each(|k| map.set(k, [k as u64 + 1]).unwrap());
    map
}

fn input() -> Vec<u64> {
    (0..16).map(|slot| slot * slot).collect()
}

fn product() -> Vec<u64> {
    map().evaluate(&input(), BsgsPowersOfTwo { giant_step: 4 }).unwrap()
}

const RUN: &str = "run e6.map in.vec --strategy powers:4 --keys keys.txt";

#[test]
fn a_run_writes_answer_log_and_state() {
    let bench = bench("run");
    let told = bench.does(&format!("{RUN} -o held.vec --log log.txt --state state.json"));
    assert_eq!(told.text(), "powers:4: 6 of 6 key switches, finished\n");
    assert_eq!(bench.read("held.vec"), vector(&product()));
    assert_eq!(bench.text("log.txt"), "1\n2\n2\n4\n4\n8\n");
    let state = bench.text("state.json");
    let front = "{\"babies\":[0,1,2,3],\"giants\":[0,4,12],\"index\":[[0,1,2],[1],[3]],\"levels\":[\
                 {\"rotation\":4,\"pairs\":[[0,1],[null,3]]},{\"rotation\":8,\"pairs\":[[0,1]]}],\
                 \"switches\":6,\"finished\":true,\"log\":[1,2,2,4,4,8],\"cache\":[[1,4,9,";
    assert!(state.starts_with(front), "{state}");
    assert!(!bench.files().keys().any(|name| name.contains("part")), "nothing is left beside the files");
}

#[test]
fn a_run_reads_and_writes_text_and_pipes() {
    let bench = bench("pipes");
    let words = "run e6.map in.txt --text --strategy bsgs:4 --keys all.txt -o out.txt --json";
    bench.write("all.txt", "1\n2\n3\n4\n12\n");
    let json = "{\"strategy\":\"bsgs:4\",\"switches\":5,\"all_switches\":5,\"finished\":true}\n";
    assert_eq!(bench.does(words).text(), json);
    assert_eq!(bench.text("out.txt"), product().iter().map(|slot| format!("{slot}\n")).collect::<String>());
    for out in ["", "-o -"] {
        let told = bench.piped(&format!("run e6.map - --strategy powers:4 --keys keys.txt {out}"), &vector(&input()));
        assert_eq!((told.status, &told.out), (Some(0), &vector(&product())));
        assert_eq!(told.err, "powers:4: 6 of 6 key switches, finished\n");
    }
    let told = bench.run(&format!("{RUN} --log - -o held.vec"));
    assert_eq!((told.text(), told.err.is_empty()), ("1\n2\n2\n4\n4\n8\n", false));
    let told = bench.piped("run - in.vec --strategy direct --keys all.txt -o out.vec", &map().write_map_file());
    assert_eq!(told.status, Some(1), "direct needs the keys 1 2 5 15");
    bench.misused("run - - --strategy direct --keys all.txt", "one of the files can be a pipe");
}

#[test]
fn a_run_stops_after_n_switches() {
    let bench = bench("stops");
    for n in 0..6 {
        let told = bench.does(&format!("{RUN} -n {n} -o held.vec --log log.txt"));
        let text = format!("powers:4: {n} of 6 key switches, stopped before its end, so there is no answer yet\n");
        assert_eq!(told.text(), text);
        assert_eq!(bench.text("held.vec"), "as it was", "{n}");
        assert_eq!(bench.text("log.txt").lines().count(), n);
    }
    let told = bench.run(&format!("{RUN} -n 4 --state state.json"));
    assert!(told.out.is_empty() && told.err.contains("4 of 6"), "{told:?}");
    let state = bench.text("state.json");
    assert!(state.contains("\"finished\":false,\"log\":[1,2,2,4],"), "{state}");
    let told = bench.run(&format!("{RUN} -n 2 --state state.json"));
    assert!(told.out.is_empty() && told.err.contains("2 of 6"), "{told:?}");
    // The third baby and the nodes are not made yet.
    assert!(bench.text("state.json").ends_with(",null],\"nodes\":[null,null,null]}\n"));
}

#[test]
fn a_key_that_is_missing_refuses_the_run() {
    let bench = bench("missing");
    let words = "run e6.map in.vec --strategy powers:4 --keys few.txt -o held.vec --log log.txt --state state.json";
    bench.refused(words, 11, "the key for rotation 2 is not held: 1 of the plan's 4 are missing");
    bench.write("none.txt", "");
    let words = "run e6.map in.vec --strategy bsgs:4 --keys none.txt -n 0 -o held.vec";
    bench.refused(words, 11, "the key for rotation 1 is not held: 5 of the plan's 5 are missing");
}

#[test]
fn bad_runs_are_refused_and_files_stay() {
    let bench = bench("bad-run");
    let rest = "--keys keys.txt -o held.vec";
    let step = "the giant step is 65537: it must be from 1 to 65536";
    bench.refused(&format!("run e6.map in.vec --strategy powers:65537 {rest}"), 3, step);
    bench.write("short.vec", vector(&[1, 2]));
    let input = "the input has length 2: it must be 16";
    bench.refused(&format!("run e6.map short.vec --strategy powers:4 {rest}"), 7, input);
    let file = "the bytes are no map file: slots is 0: it must be from 1 to 65536";
    bench.refused(&format!("run in.vec in.vec --strategy powers:4 {rest}"), 13, file);
    bench.not_taken(&format!("run e6.map in.txt --strategy powers:4 {rest}"), "in.txt: it has");
    bench.not_taken(&format!("run e6.map none.vec --strategy powers:4 {rest}"), "none.vec: No such file");
    bench.write("wrong.txt", "1 2\n");
    bench
        .not_taken("run e6.map in.vec --strategy powers:4 --keys wrong.txt -o held.vec", "wrong.txt, line 1: it has 2");
    bench.misused(&format!("{RUN} -o held.vec --log held.vec"), "two outputs have one name");
    // One file that cannot be written keeps the others as they were.
    bench.not_taken(&format!("{RUN} -o held.vec --log no/log.txt"), "no/log.txt: No such file");
    bench.misused("run e6.map in.vec --strategy powers:4", "--keys is missing");
    bench.misused("run e6.map --strategy powers:4 --keys keys.txt", "an argument is missing");
    bench.misused(&format!("{RUN} -n -1"), "-n: '-1' is no number");
    bench.misused(&format!("{RUN} -n 1 -n 2"), "-n is given twice");
}

#[test]
fn a_run_without_the_memory_is_not_begun() {
    let bench = bench("memory");
    let mut file = vec![0, 0, 1, 0, 0, 0, 1, 0];
    for k in 0..65_536u32 {
        file.extend([k.to_le_bytes(), 1u32.to_le_bytes()].concat());
    }
    file.extend(vec![0; 8 * 65_536]);
    bench.write("all.map", &file);
    bench.write("in.vec", vec![0; 8 * 65_536]);
    bench.write("keys.txt", (1..65_536).map(|k| format!("{k}\n")).collect::<String>());
    let told = bench.run("run all.map in.vec --strategy bsgs:65536 --keys keys.txt -n 0 -o held.vec");
    // Where 32 GiB can be promised, the run stops before it has written a word of them.
    if told.status != Some(0) {
        assert_eq!(told.status, Some(1), "{}", told.err);
        let memory = "sibukyaran: the run takes 32768 MiB of memory, which cannot be had";
        assert!(told.err.starts_with(memory), "{}", told.err);
    }
    assert_eq!(bench.text("held.vec"), "as it was");
}

#[test]
fn a_long_run_shows_how_far_it_is() {
    let bench = Bench::new("long");
    let (slots, count) = (65_536u32, 32_768u32);
    let mut file = [slots.to_le_bytes(), count.to_le_bytes()].concat();
    (0..count).for_each(|k| file.extend([k.to_le_bytes(), 1u32.to_le_bytes()].concat()));
    (0..count).for_each(|k| file.extend(u64::from(k).to_le_bytes()));
    bench.write("wide.map", &file);
    bench.write("in.vec", vec![0; 8 * slots as usize]);
    bench.write("keys.txt", (0..16).map(|i| format!("{}\n", 1 << i)).collect::<String>());
    let told = bench.run("run wide.map in.vec --strategy powers:256 --keys keys.txt -o out.vec");
    assert_eq!(told.status, Some(0), "{}", told.err);
    assert!(told.err.starts_with("running: 1 s, about "), "{}", told.err);
    assert!(told.err.lines().all(|line| line.ends_with(" %")), "{}", told.err);
}
