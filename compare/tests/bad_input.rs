//! Bad input to the tools: a clear error that names the line, a non-zero exit, no panic.

use compare::landed::{Changed, PassedOver, LANDED};
use compare::limits::SIDE_EDGES;
use compare::stored::Case;
use compare::vector;
use std::io::Write;
use std::process::{Command, Output, Stdio};

fn oracle(input: &[u8]) -> Output {
    let mut child = Command::new(env!("CARGO_BIN_EXE_oracle"))
        .stdin(Stdio::piped())
        .stdout(Stdio::piped())
        .stderr(Stdio::piped())
        .spawn()
        .expect("the oracle starts");
    child.stdin.take().expect("a pipe").write_all(input).expect("the oracle reads");
    child.wait_with_output().expect("the oracle ends")
}

fn stored(arguments: &[&str]) -> Output {
    Command::new(env!("CARGO_BIN_EXE_stored")).args(arguments).output().expect("stored starts")
}

fn complains(output: &Output, words: &str) {
    let said = String::from_utf8_lossy(&output.stderr);
    assert_eq!(output.status.code(), Some(1), "{said}");
    assert!(said.contains(words) && !said.contains("panicked"), "`{said}` should say `{words}`");
}

#[test]
fn answers_up_to_end() {
    let output = oracle(b"# a comment\n\ndelta 1 4010000000000000 -1\nend\nnot read\n");
    assert_eq!(output.status.code(), Some(0));
    assert_eq!(output.stdout, b"ok 3fdc000000000000\n");
}

#[test]
fn answers_within_ranges() {
    let cases =
        b"round_within 0 1 4000000000000000 1 4014000000000000 1 1 1\nsolve_within 0 1 4000000000000000 1 4014000000000000 100000\n\
        solve_within 0 1 4014000000000000 1 4000000000000000 none\nend\n";
    let output = oracle(cases);
    assert_eq!(output.status.code(), Some(0));
    assert_eq!(output.stdout, b"ok bfd0000000000000 0 2 1 2\nok 2 1 2\nrefused 35 0 0\n");
    complains(&oracle(b"round_within 0 1 4000000000000000\n"), "line 1: the case is cut off: word 5 should be the number of mosts");
}

/// One answer a line.
fn answers(cases: &[&str]) -> String {
    let output = oracle((cases.join("\n") + "\nend\n").as_bytes());
    assert_eq!(output.status.code(), Some(0), "{}", String::from_utf8_lossy(&output.stderr));
    String::from_utf8(output.stdout).expect("text")
}

/// A free edge that wants 1: a limit of 0 turns its search back, and the word `none` does not.
#[test]
fn limits() {
    let free = "0 1 3ff0000000000000";
    let rounds = [format!("round {free} 1 0 none"), format!("round {free} 1 0 0"), format!("round {free} 1 0 100001")];
    assert_eq!(answers(&rounds.each_ref().map(String::as_str)), "ok bff0000000000000 0 1 0:+1 1 1\nok none 1 0 - 1 0\nundecided 10\n");
    let list = answers(&["rounds 0 1 0 3 1 3ff0000000000000 0 1 3ff0000000000000 none 1 3ff0000000000000 4294967295"]);
    assert_eq!(list, "ok 3 ok none 1 0 - 1 0 ok bff0000000000000 0 1 0:+1 1 1 undecided 10 1 1\n");
    let limits = ["none", "0", "1", "100000", "100001", "4294967295"];
    let solves = limits.map(|limit| format!("solve {free} {limit}"));
    let solved = "ok 1 1 1\nok 0 1 0\nok 1 1 1\nok 1 1 1\nundecided 10\nundecided 10\n";
    assert_eq!(answers(&solves.each_ref().map(String::as_str)), solved);
    let solves = limits.map(|limit| format!("solve_within {free} 1 4000000000000000 {limit}"));
    assert_eq!(answers(&solves.each_ref().map(String::as_str)), solved.replace("undecided 10", "refused 10 0 0"));
    // Behind 1, before 8, 2 and 35.
    let order = ["solve 1 0 0 100001", "solve 0 1 0000000000000000 100001", "solve 0 1 0000000000000000 0"];
    assert_eq!(answers(&order), "undecided 1\nundecided 10\nrefused 2 0 0\n");
    let order = ["solve_within 1 0 0 0 100001", "solve_within 0 1 0000000000000000 0 100001", "solve_within 0 1 0000000000000000 0 none"];
    assert_eq!(answers(&order), "refused 1 0 0\nrefused 10 0 0\nrefused 8 0 0\n");
}

#[test]
fn bad_limits() {
    for word in ["never", "None", "-1", "+5", "4294967296", "1e5"] {
        let wrong = format!("line 1: word 4, the limit: `{word}` is neither `none` nor a whole number from 0 to 4294967295");
        complains(&oracle(format!("solve 0 0 {word}\nend\n").as_bytes()), &wrong);
        complains(&oracle(format!("round 0 0 0 {word}\nend\n").as_bytes()), "word 5, the limit");
        complains(&oracle(format!("rounds 0 0 1 0 {word}\nend\n").as_bytes()), "word 6, the limit");
        complains(&oracle(format!("round_within 0 0 0 0 {word}\nend\n").as_bytes()), "word 6, the limit");
        complains(&oracle(format!("solve_within 0 0 0 {word}\nend\n").as_bytes()), "word 5, the limit");
    }
    complains(&oracle(b"solve 0 0\nend\n"), "line 1: the case is cut off: word 4 should be the limit");
    complains(&oracle(b"solve 0 0 none 5\nend\n"), "line 1: word 5 `5` is one too many");
}

#[test]
fn cut_off() {
    complains(&oracle(b""), "line 1: the input is cut off");
    complains(&oracle(b"root 4010000000000000\n"), "line 2: the input is cut off");
    complains(&oracle(b"root 40100000"), "line 1: word 2, a number: `40100000`");
    complains(&oracle(b"energy 2 1\n"), "line 1: the case is cut off: word 4 should be number 1 of 2 counts");
    complains(&oracle(b"hold 4000000000 1\nend\n"), "line 1: the case is cut off");
}

#[test]
fn no_numbers() {
    complains(&oracle(b"root 4010000000000000\nroot zzzz000000000000\nend\n"), "line 2: word 2, a number: `zzzz000000000000`");
    complains(&oracle(b"root +400000000000000\nend\n"), "is not the 16 hexadecimal digits");
    complains(&oracle(b"energy 1 -1 1 3ff0000000000000\nend\n"), "`-1` is no whole number");
    complains(&oracle(b"energy 1 4294967296 0\nend\n"), "from 0 to 4294967295");
    complains(&oracle(b"delta 1 3ff0000000000000 2\nend\n"), "`2` is no sign");
    complains(&oracle(b"at 0 7ff0000000000000\nend\n"), "must be finite");
}

#[test]
fn other_words() {
    complains(&oracle(b"rot 4010000000000000\nend\n"), "line 1: `rot` is no operation");
    complains(&oracle(b"root 4010000000000000 1\nend\n"), "line 1: word 3 `1` is one too many");
    complains(&oracle(b"\xff\xfe\nend\n"), "line 1: this is no text");
}

#[test]
fn no_file() {
    let output = Command::new(env!("CARGO_BIN_EXE_oracle")).arg("tests/no-such-file").output().expect("the oracle starts");
    complains(&output, "tests/no-such-file");
    complains(&stored(&[]), "usage");
    complains(&stored(&["unwritten", "tests/no-such-file"]), "tests/no-such-file");
}

/// A vector, with these words about its places.
fn of_places(places: &str) -> String {
    format!("{{\"fn\":\"constraints_hold\",\"in\":{{{places}\"regions\":[],\"counts\":[]}},\"out\":{{\"refusal\":0,\"hold\":1}}}}\n")
}

#[test]
fn places_of_vectors() {
    for places in [String::new(), format!("\"places\":{SIDE_EDGES},")] {
        assert!(matches!(vector::case(&of_places(&places)), Ok(Some(_))), "{places}");
    }
    assert!(vector::case(&of_places("\"places\":\"many\",")).is_err());
}

/// A vector of a solve of nothing, with these words about its limit.
fn of_limit(function: &str, limit: &str) -> Result<Option<u32>, String> {
    let given = format!("\"regions\":[],\"ideals\":[],{limit}\"counts\":[]");
    let line = format!("{{\"fn\":\"{function}\",\"in\":{{{given}}},\"out\":{{\"refusal\":0,\"moves\":0,\"counts\":[]}}}}");
    match vector::case(&line)? {
        Some(Case::Solve(case)) => Ok(case.limit),
        other => panic!("{other:?}"),
    }
}

/// 01's vectors of a solve have no limit and mean the Rust's; those of 02 have one, or null.
#[test]
fn limits_of_vectors() {
    assert_eq!(of_limit("solve", ""), Ok(Some(100_000)));
    assert_eq!(of_limit("solve_limit", "\"limit\":0,"), Ok(Some(0)));
    assert_eq!(of_limit("solve_limit", "\"limit\":100001,"), Ok(Some(100_001)));
    assert_eq!(of_limit("solve_limit", "\"limit\":null,"), Ok(None));
    assert_eq!(of_limit("solve_limit", ""), Err("no field `limit`".to_string()));
    assert!(of_limit("solve_limit", "\"limit\":-1,").is_err());
    assert!(of_limit("solve_limit", "\"limit\":\"many\",").is_err());
    assert_eq!(of_limit("solve_log", "").map(|_| ()), Err("`solve_log` is no function".to_string()));
}

#[test]
fn broken_vectors() {
    let fewer = of_places(&format!("\"places\":{},", SIDE_EDGES - 1));
    let broken = [
        ("places", &fewer[..], "line 1: `places`: in this vector a side has"),
        ("cut", "{\"fn\":\"energy\",\"in\":{", "cut off"),
        ("open", "{\"fn\":\"energy\",\"in\":{\n", "line 1: cut off"),
        ("word", "\n", "line 1: cut off where a value"),
        ("number", "{\"fn\":\"energy\",\"in\":{\"counts\":[1x],\"ideals\":[]},\"out\":{}}\n", "line 1: `1x` is no number"),
        ("field", "{\"fn\":\"energy\",\"in\":{\"counts\":[]},\"out\":{}}\n", "line 1: no field `ideals`"),
        (
            "wrong",
            "{\"fn\":\"energy\",\"in\":{\"counts\":[],\"ideals\":[]},\"out\":{\"refusal\":0,\"energy\":\"3ff0000000000000\"}}\n",
            "line 1: the vector says",
        ),
        (
            "root",
            "{\"fn\":\"root\",\"in\":{\"x\":\"4010000000000000\"},\"out\":{\"refusal\":0,\"root\":\"4010000000000000\"}}\n",
            "line 1: the vector says",
        ),
        ("curves", "{\"fn\":\"coons_curves\",\"in\":{\"curves\":[[],[],[]]},\"out\":{\"refusal\":0}}\n", "line 1: `curves` has 3 lists"),
    ];
    for (name, text, words) in broken {
        let path = std::env::temp_dir().join(format!("compare-{}-{name}.jsonl", std::process::id()));
        std::fs::write(&path, text).expect("a temporary file");
        let output = stored(&["unwritten", &path.to_string_lossy()]);
        std::fs::remove_file(&path).expect("the temporary file");
        complains(&output, words);
    }
}

// ------------------------------------------------------------------------------------------------------------------------------------
// Vectors that do not hold today
// ------------------------------------------------------------------------------------------------------------------------------------

/// Whether a vector with these words about it holds, and how many were passed over as changed and as not applying.
fn holds(list: &str, words: &str) -> Result<(bool, usize, usize), String> {
    let (mut changed, mut passed_over) = (Changed::default(), PassedOver::default());
    changed.add(list)?;
    let holds = changed.holds(&format!("{{{words}\"fn\":\"at\"}}"), &mut passed_over)?;
    Ok((holds, passed_over.changed, passed_over.not_applying))
}

/// By its id only under an item that has landed; by `from` and `until`. There is no item 99, so it never lands.
#[test]
fn vectors_of_today() {
    assert_eq!(LANDED, [2, 5, 7, 9, 12, 13]);
    let list = "{\n\"item 99\": [\n\"a\"\n],\n\"item 12\": [\"b\", \"c\"]\n}";
    let (kept, changed, not_applying) = (Ok((true, 0, 0)), Ok((false, 1, 0)), Ok((false, 0, 1)));
    assert_eq!(holds(list, ""), kept);
    assert_eq!(holds(list, "\"id\":7,"), kept);
    assert_eq!(holds(list, "\"id\":\"a\","), kept);
    assert_eq!(holds(list, "\"id\":\"c\","), changed);
    assert_eq!(holds(list, "\"id\":\"c\",\"from\":[99],"), changed);
    assert_eq!(holds("{}", "\"id\":\"c\","), kept);
    for (items, expected) in [
        ("\"from\":[],\"until\":[],\"either\":[12],", &kept),
        ("\"from\":[9,12],\"until\":[99],", &kept),
        ("\"from\":[9,12,99],\"until\":[],", &not_applying),
        ("\"from\":[9],\"until\":[12],", &not_applying),
        ("\"from\":[9],\"either\":[99],", &kept),
    ] {
        assert_eq!(holds(list, items), *expected, "{items}");
    }
    assert!(holds("{}", "\"from\":9,").is_err());
    assert!(holds("{}", "\"until\":[\"9\"],").is_err());
}

/// The file of this name with this text, as long as `run` takes.
fn with_file<T>(name: &str, text: &str, run: impl FnOnce(&str) -> T) -> T {
    let path = std::env::temp_dir().join(format!("compare-{}-{name}", std::process::id()));
    std::fs::write(&path, text).expect("a temporary file");
    let done = run(&path.to_string_lossy());
    std::fs::remove_file(&path).expect("the temporary file");
    done
}

#[test]
fn bad_lists() {
    complains(&stored(&["unwritten", "tests/no-such-file.json"]), "tests/no-such-file.json");
    let bad = [
        ("list", "[]\n", "a list of changed vectors has them by item"),
        ("item", "{\"12\": []}", "`12` is no item of 02"),
        ("number", "{\"item twelve\": []}", "`item twelve` is no item of 02"),
        ("ids", "{\"item 2\": [5]}", "Number(5) is no text"),
        ("open", "{\"item 12\": [\"a\"", "cut off"),
    ];
    for (name, text, words) in bad {
        complains(&with_file(&format!("{name}.json"), text, |path| stored(&["unwritten", path])), words);
    }
}

/// A vector that is wrong is passed over if a list has it under an item that has landed, wherever the list stands; and its function is then
/// not asked for. There is no item 99.
#[test]
fn stored_passes_over() {
    let wrong =
        "{\"id\":\"a\",\"fn\":\"root\",\"in\":{\"x\":\"4010000000000000\"},\"out\":{\"refusal\":0,\"root\":\"4010000000000000\"}}\n";
    let later = "{\"id\":\"b\",\"fn\":\"no_such\",\"from\":[99],\"until\":[],\"in\":{},\"out\":{}}\n";
    let broken = "{\"id\":\"c\",\"fn\":\"rot\",\"in\":{},\"out\":{}}\n";
    let run = |item: u32| {
        with_file(&format!("item-{item}.json"), &format!("{{\"item {item}\": [\"a\"]}}"), |list| {
            // The last line ends the run, so that no file is written.
            with_file(&format!("item-{item}.jsonl"), &[wrong, later, broken].concat(), |vectors| stored(&["unwritten", vectors, list]))
        })
    };
    complains(&run(12), "line 3: `rot` is no function");
    let fewer = |item: u32| {
        with_file(&format!("less-{item}.json"), &format!("{{\"item {item}\": [\"a\"]}}"), |list| {
            with_file(&format!("less-{item}.jsonl"), &[wrong, later].concat(), |vectors| {
                stored(&["unwritten", list, vectors, "tests/none"])
            })
        })
    };
    let output = fewer(12);
    complains(&output, "tests/none");
    let said = String::from_utf8_lossy(&output.stdout);
    assert!(said.contains("0 vectors, 0 left out as too slow; 0 of inner functions; 1 changed by 02; 1 do not apply"), "{said}");
    complains(&fewer(99), "line 1: the vector says");
}
