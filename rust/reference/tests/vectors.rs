//! Runs every request of vectors/level-04.txt and compares with the agreed answer.
//! Its README says how a line is written.

use reference::{
    add_case, check_plan, check_task, pairs_before_fault, print_check, step, steps, write_plan,
    Answer, Run,
};
use std::collections::BTreeMap;
use std::fmt::Display;
use std::str::FromStr;

const FILE: &str = concat!(env!("CARGO_MANIFEST_DIR"), "/../../vectors/level-04.txt");

const KINDS: [&str; 8] = [
    "task", "check", "write", "step", "steps", "pairs", "late", "print",
];

#[test]
fn all_vectors_agree() {
    let text = std::fs::read_to_string(FILE).expect("vectors/level-04.txt is there");
    let lines: Vec<&str> = text.lines().collect();
    let mut agreed: BTreeMap<&str, usize> = BTreeMap::new();
    let mut differences = Vec::new();
    for (index, pair) in lines.chunks(2).enumerate() {
        let [request, expected] = pair else {
            panic!("the last request has no answer");
        };
        let expected = expected.strip_prefix("= ").expect("an answer line");
        let found = answer(request);
        if found == expected {
            *agreed.entry(word(request, 0)).or_default() += 1;
        } else {
            let line = 2 * index + 1;
            differences.push(format!("line {line}: expected {expected}, found {found}"));
        }
    }
    for (kind, count) in &agreed {
        println!("{kind}: {count} agreed");
    }
    assert!(differences.is_empty(), "{}", differences.join("\n"));
    for kind in KINDS {
        assert!(agreed.contains_key(kind), "no {kind} line");
    }
}

fn answer(request: &str) -> String {
    let file = |index| bytes(word(request, index));
    let task = || file(1);
    match word(request, 0) {
        "task" => shown(check_task(&task())),
        "check" => {
            let mut program = file(3);
            let answer = check_plan(&task(), &file(2), &mut program);
            format!("{} {}", shown(answer), hex(&program))
        }
        "write" => {
            let mut plan = file(3);
            let answer = write_plan(&task(), &file(2), &mut plan);
            format!("{} {}", shown(answer), hex(&plan))
        }
        "step" => {
            let mut run = run(request, 3);
            let answer = step(&task(), &file(2), &mut run);
            format!("{} {}", shown(answer), shown_run(&run))
        }
        "steps" => {
            let count = number(request, 3);
            let mut run = run(request, 4);
            let answer = steps(&task(), &file(2), count, &mut run);
            let numbers = format!("{} {} {}", answer.number, answer.place, answer.made);
            format!("{numbers} {}", shown_run(&run))
        }
        "pairs" => pairs_before_fault(number(request, 1), &file(2)).to_string(),
        "late" => {
            let mut buffer = file(1);
            let [start, goal_true, goal_false] = [3, 4, 5].map(|index| number(request, index));
            let run = run(request, 6);
            let task_len = number(request, 2);
            let answer = add_case(&mut buffer, task_len, start, goal_true, goal_false, &run);
            format!("{} {}", shown(answer), hex(&buffer))
        }
        "print" => print_check(&task(), &file(2)).replace('\n', "|"),
        other => panic!("unknown request {other}"),
    }
}

fn word(request: &str, index: usize) -> &str {
    request.split(' ').nth(index).expect("one more word")
}

fn number<T: FromStr>(request: &str, index: usize) -> T {
    let number = word(request, index).parse();
    number.ok().expect("a number that fits")
}

fn shown(answer: Answer) -> String {
    format!("{} {}", answer.number, answer.value)
}

/// From this word on: case, facts, steps, depth, then procedure and line of each frame.
fn run(request: &str, first: usize) -> Run {
    let numbers: Vec<u64> = request
        .split(' ')
        .skip(first)
        .map(|number| number.parse().expect("a decimal number"))
        .collect();
    assert_eq!(numbers.len(), 36, "a run record");
    let byte = |index: usize| u8::try_from(numbers[index]).expect("a byte");
    Run {
        facts: numbers[1],
        steps: u16::try_from(numbers[2]).expect("two bytes"),
        case: byte(0),
        depth: byte(3),
        frames: std::array::from_fn(|frame| [byte(4 + 2 * frame), byte(5 + 2 * frame)]),
    }
}

fn shown_run(run: &Run) -> String {
    let head: [&dyn Display; 4] = [&run.case, &run.facts, &run.steps, &run.depth];
    let frames = run.frames.iter().flatten().map(u8::to_string);
    let numbers: Vec<String> = head.iter().map(ToString::to_string).chain(frames).collect();
    numbers.join(" ")
}

fn bytes(word: &str) -> Vec<u8> {
    if word == "-" {
        return Vec::new();
    }
    let (digits, odd) = word.as_bytes().as_chunks::<2>();
    assert!(odd.is_empty(), "an even number of digits");
    digits
        .iter()
        .map(|pair| {
            let pair = std::str::from_utf8(pair).expect("text");
            u8::from_str_radix(pair, 16).expect("hexadecimal digits")
        })
        .collect()
}

fn hex(bytes: &[u8]) -> String {
    if bytes.is_empty() {
        return "-".to_string();
    }
    bytes.iter().map(|byte| format!("{byte:02x}")).collect()
}
