//! The tools that link this library: differences are found, and bad input gets a clear error and a non-zero exit.
#![cfg(feature = "library")]

use compare::farm::record;
use compare::grids::{Boundary, Grid, Source, Tile};
use compare::limits::{RECORD, SIDE_EDGES};
use compare::stored::Case;
use compare::together::call::{difference, Call, Spacing, Step};
use compare::together::{expected, line, roots, turned};
use compare::{former, generate_limits, generate_ranges, generate_stones, generate_strips, generate_turned};
use std::process::{Command, Output};

fn replay(arguments: &[&str]) -> Output {
    Command::new(env!("CARGO_BIN_EXE_replay")).args(arguments).output().expect("replay starts")
}

/// A replay of a file with this text.
fn replayed(name: &str, text: &[u8]) -> Output {
    let path = std::env::temp_dir().join(format!("together-{}-{name}.jsonl", std::process::id()));
    std::fs::write(&path, text).expect("a temporary file");
    let output = replay(&[&path.to_string_lossy()]);
    std::fs::remove_file(&path).expect("the temporary file");
    output
}

fn complains(output: &Output, words: &str) {
    let said = String::from_utf8_lossy(&output.stdout) + String::from_utf8_lossy(&output.stderr);
    assert_eq!(output.status.code(), Some(1), "{said}");
    assert!(said.contains(words) && !said.contains("panicked"), "`{said}` should say `{words}`");
}

const ROOT: &str = r#"{"id":"a","fn":"root","in":{"x":"4010000000000000"},"out":{"refusal":0,"root":"4000000000000000"}}"#;

#[test]
fn nothing_differs() {
    let output = replayed("same", format!("{ROOT}\n").as_bytes());
    assert_eq!(output.status.code(), Some(0));
    assert!(String::from_utf8_lossy(&output.stdout).contains("1 as expected, 0 different"));
}

#[test]
fn differences() {
    let changed = [
        ("root", ROOT.replace("\"4000000000000000\"", "\"4000000000000001\""), "value: expected 2.0000000000000004e0"),
        ("refusal", ROOT.replace("\"refusal\":0", "\"refusal\":28,\"places\":[0,0]"), "refusal: expected 28, came 0"),
        (
            "counts",
            r#"{"id":"b","fn":"round","in":{"regions":[],"ideals":["3ff0000000000000"],"counts":[0],"limit":1},
                "out":{"refusal":0,"cost":"bff0000000000000","cut":0,"counts":[0]}}"#
                .replace('\n', ""),
            "output of 32 bits at 0: expected 0, came 1",
        ),
        (
            "steps",
            r#"{"id":"c","fn":"rounds","in":{"regions":[],"counts":[0],"steps":[]},
                "out":{"steps":[{"refusal":1,"places":[0,0],"counts":[0]}]}}"#
                .replace('\n', ""),
            "1 answers are expected, 0 came",
        ),
    ];
    for (name, line, words) in changed {
        complains(&replayed(name, format!("{ROOT}\n{line}\n").as_bytes()), words);
    }
}

/// Vectors that are listed as changed by an item that has landed, or do not apply by their own items, are passed over and counted. There
/// is no item 99, so it never lands.
#[test]
fn passed_over() {
    let wrong = ROOT.replace("\"4000000000000000\"", "\"4000000000000001\"");
    let later = wrong.replace("\"id\":\"a\"", "\"id\":\"b\",\"from\":[9,99],\"until\":[]");
    let ended = wrong.replace("\"id\":\"a\"", "\"id\":\"c\",\"from\":[],\"until\":[12]").replace("root", "rot");
    let now = ROOT.replace("\"id\":\"a\"", "\"id\":\"d\",\"from\":[9,12],\"until\":[99]");
    let temporary = |name: &str| std::env::temp_dir().join(format!("together-{}-{name}", std::process::id()));
    let run = |item: u32| {
        let (list, vectors) = (temporary(&format!("{item}.json")), temporary(&format!("{item}.jsonl")));
        std::fs::write(&list, format!("{{\"item {item}\": [\"a\"]}}")).expect("a temporary file");
        std::fs::write(&vectors, format!("{wrong}\n{later}\n{ended}\n{now}\n")).expect("a temporary file");
        let output = replay(&[&vectors.to_string_lossy(), &list.to_string_lossy()]);
        complains(&replay(&[&list.to_string_lossy()]), "usage");
        for path in [list, vectors] {
            std::fs::remove_file(path).expect("the temporary file");
        }
        output
    };
    let output = run(12);
    assert_eq!(output.status.code(), Some(0));
    let said = String::from_utf8_lossy(&output.stdout);
    assert!(said.contains("1 as expected, 0 different") && said.contains("; 1 changed by 02; 2 do not apply"), "{said}");
    complains(&run(99), "1 as expected, 1 different, 0 of inner functions, which are not exported; 2 do not apply");
    complains(&replay(&["tests/no-such-file.json"]), "tests/no-such-file.json");
}

/// A vector may say how many places a side has: as many as here, or as before, when it is repacked.
#[test]
fn places() {
    let hold = |places: usize, regions: &[u16]| {
        let line = r#"{"id":"d","fn":"constraints_hold","in":{"places":P,"regions":R,"counts":[3,3]},"out":{"refusal":0,"hold":true}}"#;
        let line = line.replace('P', &places.to_string()).replace('R', &format!("{regions:?}"));
        replayed(&format!("places-{places}"), format!("{line}\n").as_bytes())
    };
    // Edge 0 on the bottom, edge 1 on the top.
    let mut before = [0; former::RECORD];
    let top = former::RECORD / 2;
    (before[0], before[top], before[top + 1]) = (1, 1, 1);
    assert_eq!(hold(former::PLACES.into(), &before).status.code(), Some(0));
    assert_eq!(hold(SIDE_EDGES, &former::repacked(&before)).status.code(), Some(0));
    for other in [former::PLACES as usize + 1, SIDE_EDGES - 1, SIDE_EDGES + 1] {
        complains(&hold(other, &[]), &format!("line 1: `places`: in this vector a side has {other}, and here it has {SIDE_EDGES}"));
    }
}

#[test]
fn bad_files() {
    let bad: [(&str, &[u8], &str); 7] = [
        ("empty", b"", "cut off: the last line has no end"),
        ("cut", b"{\"id\":\"a\",\"fn\":\"root\"", "cut off: the last line has no end"),
        ("open", b"{\"id\":\"a\",\"fn\":\"root\"\n", "line 1: cut off"),
        ("bytes", b"\xff\xfe\n", "this is no text"),
        ("function", b"{\"id\":\"a\",\"fn\":\"rot\",\"in\":{},\"out\":{}}\n", "line 1: `rot` is no function"),
        ("number", b"{\"id\":\"a\",\"fn\":\"root\",\"in\":{\"x\":\"4\"},\"out\":{}}\n", "line 1: `4` is not the 16 hexadecimal digits"),
        (
            "length",
            b"{\"id\":\"a\",\"fn\":\"coons_curves\",\"in\":{\"curves\":[[],[],[],[]],\"n_u\":1,\"n_v\":1,\"out_len\":4000000000},\"out\":{}}\n",
            "4000000000 values are more than",
        ),
    ];
    for (name, text, words) in bad {
        complains(&replayed(name, text), words);
    }
    complains(&replay(&[]), "usage");
    complains(&replay(&["tests/no-such-file"]), "tests/no-such-file");
}

#[test]
fn bad_numbers() {
    let scale = |arguments: &[&str]| Command::new(env!("CARGO_BIN_EXE_scale")).args(arguments).output().expect("scale starts");
    complains(&scale(&[]), "usage");
    complains(&scale(&["1"]), "usage");
    complains(&scale(&["1", "-5"]), "`-5` is no whole number");
    complains(&scale(&["seed", "5"]), "`seed` is no whole number");
    let roots = |arguments: &[&str]| Command::new(env!("CARGO_BIN_EXE_roots")).args(arguments).output().expect("roots starts");
    complains(&roots(&["1"]), "usage");
    complains(&roots(&["1", "many"]), "`many` is no whole number");
    let growth = |folder: &str| Command::new(env!("CARGO_BIN_EXE_growth")).arg(folder).output().expect("growth starts");
    complains(&growth("tests/no-such-folder"), "tests/no-such-folder: this is no folder");
    let speed = |words: &[&str]| Command::new(env!("CARGO_BIN_EXE_speed")).args(words).output().expect("speed starts");
    complains(&speed(&["tests/no-such-file"]), "tests/no-such-file");
    complains(&speed(&["all", "limits", "tests/no-such-file"]), "tests/no-such-file");
    complains(&speed(&["limits", "all", "all"]), "usage: speed grids, or speed [all] [limits] [FARMS]");
}

/// Roots that are rounded down, and refusals with another number, are told, each one.
#[test]
fn wrong_roots() {
    assert_eq!(roots::table(1, 1000, roots::expected), 0);
    let rounded_down = |x: f64| {
        let (number, root) = roots::expected(x);
        (number, if root * root > x { root.next_down() } else { root })
    };
    assert!(roots::table(1, 1000, rounded_down) > 1000);
    // half of all exponents have the sign set, 16 values each
    let refused = 2048 * 16;
    let as_one = |x: f64| (roots::expected(x).0.min(1), roots::expected(x).1);
    assert!(roots::table(1, 0, as_one) >= refused);
}

#[test]
fn bad_farms() {
    let list = format!("{RECORD} 0");
    let farm = format!("a|{list}|1 3ff0000000000000|1|1|0|1|1 1|3:1 0\n");
    let bad = [
        ("cut", &format!("a|{RECORD}")[..], "cut off: the last line has no end"),
        ("fields", &format!("a|{list}\n"), "line 1: 2 fields and not nine"),
        ("list", &farm, "line 1: the case is cut off"),
        ("number", &farm.replace(&list, "0").replace("|1|1 1|", "|x|1 1|"), "line 1: `x` is no number of entries"),
        ("open", &farm.replace("|1|0|", "|0|0|"), "line 1: the solve of a is not at its end"),
    ];
    for (name, text, words) in bad {
        let path = std::env::temp_dir().join(format!("together-{}-{name}.txt", std::process::id()));
        std::fs::write(&path, text).expect("a temporary file");
        let output = Command::new(env!("CARGO_BIN_EXE_speed")).arg(&path).output().expect("speed starts");
        std::fs::remove_file(&path).expect("the temporary file");
        complains(&output, words);
    }
}

/// A call with a limit or without one is read as it is written.
#[test]
fn written_limits() {
    for limit in [None, Some(0), Some(100_001)] {
        let steps = vec![Step::new(vec![1.0], limit), Step::new(Spacing::Within { least: vec![1.0], most: vec![2.0] }, limit)];
        let mut calls = vec![Call::Rounds { regions: vec![], counts: vec![0], steps: steps.clone() }];
        for step in steps {
            calls.push(Call::Solve { regions: vec![], spacing: step.spacing.clone(), counts: vec![7], limit });
            calls.push(Call::Round { regions: vec![], counts: vec![0], step });
        }
        for call in calls {
            let effects = expected::effects(&call).expect("the oracle and the model answer");
            let (again, came) = line::read(&line::write("a", "", &call, &effects)).expect("a line").case.expect("no inner function");
            assert_eq!(again, call);
            assert_eq!(difference(&effects, &came), None, "{call:?}");
        }
    }
}

/// The generated cases of ranges, of limits, of turned sheets, of stones and of strips, which `scale` does not make, or not all.
#[test]
fn generated() {
    let cases = [generate_ranges::all(), generate_limits::all(), generate_turned::all(), generate_stones::all(), generate_strips::all()];
    for case in cases.into_iter().flat_map(|cases| cases.expect("the oracle and the model answer")) {
        let call = match case {
            Case::Solve(c) => Call::Solve { regions: c.records, spacing: c.spacing, counts: c.before, limit: c.limit },
            Case::Round(c) => Call::Round { regions: c.records, counts: c.before, step: Step::new(c.step.spacing, c.step.limit) },
            Case::Rounds(c) => {
                let steps = c.steps.into_iter().map(|step| Step::new(step.spacing, step.limit)).collect();
                Call::Rounds { regions: c.records, counts: c.before, steps }
            }
            Case::Hold(c) => Call::Hold { regions: c.records, counts: c.counts },
            Case::Grid(c) => grid(c),
            Case::Tile(Tile { boundary, n_u, n_v, lent_points: points, lent_cells: indices, .. }) => match boundary {
                Boundary::Curves(curves) => Call::MeshCurves { curves, cells: [n_u, n_v], points, indices },
                Boundary::Loop(boundary) => Call::Mesh { boundary, cells: [n_u, n_v], points, indices },
            },
            other => panic!("{} is not generated here", other.operation()),
        };
        let effects = expected::effects(&call).expect("the oracle and the model answer");
        assert_eq!(difference(&effects, &call.made()), None, "{call:?}");
    }
}

fn grid(case: Grid) -> Call {
    let out = case.lent;
    match case.source {
        Source::Parameters(curves, s) => Call::FromParameters { curves, seams: [s.bottom, s.right, s.top, s.left], out },
        Source::Even(Boundary::Curves(curves), n_u, n_v) => Call::Curves { curves, cells: [n_u, n_v], out },
        Source::Even(Boundary::Loop(boundary), n_u, n_v) => Call::Checked { boundary, cells: [n_u, n_v], out },
        Source::Lay(r) => Call::Lay { record: r.record, counts: r.counts, breaks: r.breaks, curves: r.curves, out },
    }
}

// ------------------------------------------------------------------------------------------------------------------------------------
// Turned sheets
// ------------------------------------------------------------------------------------------------------------------------------------

/// A round on one tile with these edges at its bottom and its top; by two entries a search comes to one edge of each.
fn tile(bottom: &[u16], top: &[u16]) -> Call {
    Call::Round { regions: record([bottom, &[], top, &[]]), counts: vec![0; 3], step: Step::new(vec![1.0; 3], 2) }
}

/// The lines of two calls, the second one said to be the first on a turned sheet.
fn pair(before: &Call, after: &Call) -> String {
    let effects = |call| expected::effects(call).expect("the oracle answers");
    let lines = [line::write("a", "", before, &effects(before)), line::write("b", turned::RULE, after, &effects(after))];
    lines.join("\n") + "\n"
}

#[test]
fn turned_sheets() {
    let (call, same) = (tile(&[0], &[1, 2]), tile(&[1, 2], &[0]));
    let output = replayed("turned", pair(&call, &same).as_bytes());
    assert_eq!(output.status.code(), Some(0));
    assert!(String::from_utf8_lossy(&output.stdout).contains("2 as expected, 0 different"));
    assert!(String::from_utf8_lossy(&output.stdout).contains("1 are the case before on a turned sheet"));
    let mut later = same.clone();
    if let Call::Round { step, .. } = &mut later {
        step.limit = None;
    }
    let not_turned = [
        ("as-it-was", pair(&call, &call), "line 2: turned sheet: no sides are exchanged"),
        ("backwards", pair(&call, &tile(&[2, 1], &[0])), "line 2: turned sheet: the regions are not those of the case before, turned"),
        ("input", pair(&call, &later), "line 2: turned sheet: besides the regions, the input is not that of the case before"),
        (
            "answer",
            pair(&call, &same).replacen("\"cut\":1", "\"cut\":0", 1),
            "line 2: turned sheet: the answer is not that of the case before: cut: expected 0, came 1",
        ),
        (
            "first",
            pair(&call, &same).lines().skip(1).map(|line| format!("{line}\n")).collect(),
            "line 1: turned sheet: there is no case before it",
        ),
    ];
    for (name, text, words) in not_turned {
        complains(&replayed(&format!("turned-{name}"), text.as_bytes()), words);
    }
}

/// What `scale` holds a turned call against: all is the same but 3 to 5, which stay in their region and pair of sides.
#[test]
fn effects_of_turned_sheets() {
    let effects = |call: &Call| expected::effects(call).expect("the oracle answers");
    let differs = |before: &Call, after: &Call| turned::difference(&effects(before), &after.made()).is_some();
    assert!(!differs(&tile(&[0], &[1, 2]), &tile(&[1, 2], &[0])));
    assert!(differs(&tile(&[0], &[1, 2]), &tile(&[2, 1], &[0])));
    assert!(!differs(&tile(&[3], &[0, 0]), &tile(&[0, 0], &[3])));
    assert!(differs(&tile(&[3], &[0, 0]), &tile(&[0], &[1, 2])));
    let on = |sides: [&[u16]; 4]| Call::Hold { regions: record(sides), counts: vec![1, 1, 2] };
    assert!(!differs(&on([&[2], &[], &[0, 1], &[]]), &on([&[0, 1], &[], &[2], &[]])));
    assert!(differs(&on([&[2], &[], &[0, 1], &[]]), &on([&[2], &[], &[0], &[]])));
}
