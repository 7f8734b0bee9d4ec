//! The worked examples of the double-click task, actions' pairs, effects that fire together, the single step at its step bound, and numbers
//! of steps.
//! Buffers are full of a mark, so that every byte kept or filled shows.

mod double_click;

use double_click::{answer, open, positions, record, sets, DoubleClick, MARK, PROGRAM, TASK};
use reference::{
    check_plan, check_task, pairs_before_fault, print_check, step, steps, write_plan, Run,
    StepsAnswer,
};

const PLAN: [u8; 49] = [
    5, 0, 16, 0, 0, 0, 2, 2, 0, //
    5, 0, 16, 0, 0, 1, 1, 0, 0, //
    5, 0, 16, 0, 0, 2, 4, 0, 0, //
    5, 0, 17, 0, 0, 0, 2, 2, 0, //
    5, 0, 17, 0, 0, 2, 4, 0, 0, //
    0, 0, 5, 0,
];

const FOUR_STEPS: DoubleClick = DoubleClick {
    step_bound: 4,
    ..TASK
};

const MOST_STEPS: DoubleClick = DoubleClick {
    step_bound: 4096,
    ..TASK
};

/// A second effect raises the fact that the first one lowers, `open`.
const STAYS_OPEN: DoubleClick = DoubleClick {
    more_effects: &[[0, 0, 1, 0]],
    ..TASK
};

/// The plan with its record at this offset replaced by these bytes.
fn plan_with(offset: usize, new: &[u8]) -> Vec<u8> {
    [&PLAN[..offset], new, &PLAN[offset + 9..]].concat()
}

#[test]
fn task_is_accepted() {
    let task = TASK.bytes();
    assert_eq!(task.len(), 122);
    assert_eq!(check_task(&task), answer(0, 0));
}

#[test]
fn plan_is_accepted_and_written_back() {
    let task = TASK.bytes();
    let mut program = [MARK; 12];
    assert_eq!(check_plan(&task, &PLAN, &mut program), answer(0, 5));
    assert_eq!(program, [&PROGRAM[..], &[MARK; 3]].concat()[..]);
    let mut plan = [MARK; 52];
    assert_eq!(write_plan(&task, &PROGRAM, &mut plan), answer(0, 5));
    assert_eq!(plan, [&PLAN[..], &[MARK; 3]].concat()[..]);
}

#[test]
fn plans_are_refused() {
    let kind_16_again = plan_with(27, &[5, 0, 16, 0, 0, 0, 2, 2, 0]);
    let end_on_line_0 = plan_with(0, &[5, 0, 16, 0, 0, 0, 4, 0, 0]);
    let call_0 = plan_with(0, &[5, 0, 16, 0, 0, 0, 3, 0, 0]);
    let byte_added = [&PLAN[..], &[0]].concat();
    let table = [
        ("*2", FOUR_STEPS, PLAN.to_vec(), answer(14, 36)),
        ("*3", TASK, kind_16_again, answer(18, 27)),
        ("*4", TASK, plan_with(36, &[]), answer(23, 36)),
        ("*5", TASK, plan_with(9, &[]), answer(17, 9)),
        ("*6", TASK, byte_added, answer(24, 49)),
        ("*7", TASK, end_on_line_0, answer(15, 0)),
        ("*8", TASK, call_0, answer(21, 0)),
        ("*9", TASK, Vec::new(), answer(11, 0)),
        ("*13", STAYS_OPEN, PLAN.to_vec(), answer(22, 18)),
    ];
    for (name, task, plan, expected) in table {
        let mut program = [MARK; 12];
        let found = check_plan(&task.bytes(), &plan, &mut program);
        assert_eq!(found, expected, "{name}");
        assert_eq!(program, [MARK; 12], "{name}");
    }
}

#[test]
fn programs_are_refused() {
    let table = [
        ("*2", FOUR_STEPS, PROGRAM, answer(14, 4)),
        ("*10", TASK, [2, 2, 0, 0, 0, 0, 4, 0, 0], answer(28, 1)),
        ("*11", TASK, [1, 0, 0, 4, 0, 0, 0, 0, 0], answer(19, 2)),
        ("*12", TASK, [2, 2, 0, 2, 2, 1, 4, 0, 0], answer(22, 2)),
        ("*13", STAYS_OPEN, PROGRAM, answer(22, 2)),
        ("48 bytes", TASK, PROGRAM, answer(29, 49)),
    ];
    for (name, task, program, expected) in table {
        let mut plan = [MARK; 48];
        let found = write_plan(&task.bytes(), &program, &mut plan);
        assert_eq!(found, expected, "{name}");
        assert_eq!(plan, [MARK; 48], "{name}");
    }
}

#[test]
fn tasks_are_refused() {
    let last_line = DoubleClick {
        last_line: 32,
        ..TASK
    };
    let actions = DoubleClick {
        actions: 65,
        ..TASK
    };
    let unknown_fact = DoubleClick {
        facts: 63,
        first_start: 1 << 63,
        ..TASK
    };
    let table = [
        ("n 32", last_line, 5, 0),
        ("65th action", actions, 4, 10 + 64 * 52),
        ("F 63 with bit 63", unknown_fact, 6, 10 + 52),
    ];
    for (name, task, number, place) in table {
        assert_eq!(check_task(&task.bytes()), answer(number, place), "{name}");
    }
}

#[test]
fn pairs_before_the_first_fault_are_counted() {
    let last = 1 << 63;
    let others = last - 1;
    let table = [
        ("no bytes", 2, vec![], 0),
        ("15 bytes", 2, vec![0; 15], 0),
        ("17 bytes", 2, [sets(&[1, 2]), vec![MARK]].concat(), 1),
        ("100 pairs", 2, vec![0; 1600], 100),
        ("double-click", 2, sets(&[1, 0, 0, 0, 2, 1]), 3),
        ("fact 2 of 2 true", 2, sets(&[4, 0]), 0),
        ("fact 2 of 2 false", 2, sets(&[0, 4]), 0),
        ("a fact named both ways", 2, sets(&[3, 2]), 0),
        ("a fact in two pairs", 2, sets(&[1, 0, 0, 1]), 2),
        ("good, bad, good", 2, sets(&[1, 2, 4, 0, 1, 2]), 1),
        ("bad, good, bad", 2, sets(&[0, 4, 0, 0, 1, 1]), 0),
        ("good, good, bad", 2, sets(&[0, 3, 3, 0, 1, 1]), 2),
        ("F 0 with no fact", 0, sets(&[0, 0]), 1),
        ("F 0 with bit 0", 0, sets(&[1, 0]), 0),
        ("F 0 with bit 0, false", 0, sets(&[0, 1]), 0),
        ("F 63 without bit 63", 63, sets(&[others, 0, 0, others]), 2),
        ("F 63 with bit 63", 63, sets(&[last, 0]), 0),
        ("F 63 with bit 63, false", 63, sets(&[0, last]), 0),
        ("F 64 with bit 63", 64, sets(&[last, others]), 1),
        ("F 64 with bit 63, twice", 64, sets(&[last, last]), 0),
        ("F 255 with bit 63", 255, sets(&[others, last]), 1),
        ("F 255 with bit 63, twice", 255, sets(&[last, last]), 0),
    ];
    for (name, facts, body, expected) in table {
        assert_eq!(pairs_before_fault(facts, &body), expected, "{name}");
    }
}

/// Of two conditional effects one raises fact 0, if fact 1 is true, and the other lowers it, if fact 2 is.
#[test]
fn raised_beats_lowered() {
    let raises = [0b010, 0, 0b001, 0];
    let lowers = [0b100, 0, 0, 0b001];
    let act_end = [1, 0, 0, 4, 0, 0];
    let table = [
        ("none fires", 0b000, 0b000),
        ("none fires", 0b001, 0b001),
        ("one raises", 0b010, 0b011),
        ("one raises", 0b011, 0b011),
        ("one lowers", 0b100, 0b100),
        ("one lowers", 0b101, 0b100),
        ("both fire", 0b110, 0b111),
        ("both fire", 0b111, 0b111),
    ];
    for effects in [[raises, lowers], [lowers, raises]] {
        let action = [[0, 0].as_slice(), effects.as_flattened()].concat();
        let task = [
            record(1, &[3, 1, 1, 1, 1, 0]),
            record(2, &sets(&action)),
            record(4, &sets(&[0, 0, 0])),
            record(5, &[]),
        ]
        .concat();
        for (name, facts, after) in table {
            let mut run = open(0, facts, 0, 0);
            assert_eq!(step(&task, &act_end, &mut run), answer(0, 1), "{name}");
            assert_eq!(run, open(0, after, 1, 1), "{name} in {facts:03b}");
        }
    }
}

#[test]
fn answers_are_printed() {
    let task = TASK.bytes();
    assert_eq!(
        print_check(&task, &PLAN),
        "accepted 5\nprocedure 0\n0 goto 2 0\n1 act 0\n2 end\n"
    );
    let written_twice = plan_with(27, &[5, 0, 16, 0, 0, 0, 2, 2, 0]);
    assert_eq!(print_check(&task, &written_twice), "refused 18 27\n");
    let too_long = vec![0; 65_537];
    assert_eq!(print_check(&too_long, &PLAN), "refused 30 65536\n");
    assert_eq!(print_check(&task, &too_long), "refused 30 65536\n");
}

#[test]
fn step_bound_holds_for_a_single_step() {
    let task = TASK.bytes();
    let open = Run {
        facts: 1,
        steps: 4,
        case: 0,
        depth: 1,
        frames: [[0, 0]; 16],
    };
    let finished = Run {
        case: 2,
        depth: 0,
        ..open
    };
    let table = [
        (open, 5, answer(14, 5)),
        (open, 6, answer(31, 0)),
        (finished, 5, answer(0, 0)),
        (finished, 6, answer(31, 0)),
    ];
    for (run, steps, expected) in table {
        let before = Run { steps, ..run };
        let mut after = before;
        assert_eq!(step(&task, &PROGRAM, &mut after), expected, "{before:?}");
        assert_eq!(after, before);
    }
    let mut last = open;
    assert_eq!(step(&task, &PROGRAM, &mut last), answer(0, 1));
    assert_eq!((last.steps, last.frames[0]), (5, [0, 1]));
}

/// A caller who asks for steps.
struct Caller<'a> {
    task: &'a [u8],
    program: &'a [u8],
    run: Run,
}

impl Caller<'_> {
    /// The answer's number, place and steps made, and the record afterwards, are these.
    fn gets(&mut self, count: u64, [number, place, made]: [u16; 3], after: Run) {
        let expected = StepsAnswer {
            number: number.into(),
            place: place.into(),
            made,
        };
        let answer = steps(self.task, self.program, count, &mut self.run);
        assert_eq!((answer, self.run), (expected, after), "{count} steps");
    }
}

#[test]
fn steps_stop_at_the_number_or_the_finish() {
    let positions = positions();
    for from in 0..=5 {
        for count in [0, 1, 2, 3, 4, 5, 6, 40, 4096, 4097, u64::MAX] {
            let made = count.min(5 - from) as u16;
            let to = from as usize + usize::from(made);
            let mut caller = Caller {
                task: &TASK.bytes(),
                program: &PROGRAM,
                run: positions[from as usize],
            };
            caller.gets(count, [0, 0, made], positions[to]);
        }
    }
}

#[test]
fn steps_before_a_refusal_stay_made() {
    let act_end = [1, 0, 0, 4, 0, 0, 0, 0, 0];
    let goto_call = [2, 1, 1, 3, 0, 0, 4, 0, 0];
    let goto_goto = [2, 2, 0, 2, 2, 1, 4, 0, 0];
    let goto_empty = [2, 2, 0, 0, 0, 0, 4, 0, 0];
    let table = [
        (FOUR_STEPS, PROGRAM, [14, 4, 4], open(1, 2, 2, 4)),
        (TASK, act_end, [19, 2, 2], open(1, 2, 0, 2)),
        (TASK, goto_call, [21, 1, 1], open(0, 1, 1, 1)),
        (TASK, goto_goto, [22, 2, 2], open(0, 1, 2, 2)),
        (STAYS_OPEN, PROGRAM, [22, 2, 2], open(0, 3, 2, 2)),
        (TASK, goto_empty, [28, 1, 1], open(0, 1, 1, 1)),
    ];
    for (task, program, [number, place, made], after) in table {
        let task = &task.bytes();
        let mut caller = Caller {
            task,
            program: &program,
            run: positions()[0],
        };
        for count in [u64::from(made) + 1, 40, u64::MAX] {
            caller.run = positions()[0];
            caller.gets(count, [number, place, made], after);
            // The place counts the steps of the run, the steps made are those of the call.
            caller.gets(count, [number, place, 0], after);
            caller.gets(0, [0, 0, 0], after);
        }
        // The good steps alone are not refused.
        caller.run = positions()[0];
        caller.gets(made.into(), [0, 0, made], after);
    }
}

#[test]
fn no_more_than_4096_steps_in_a_call() {
    // Line 0 jumps to itself while fact 1 is false.
    let never_ends = [2, 0, 1, 4, 0, 0, 0, 0, 0];
    let after = |steps| open(0, 1, 0, steps);
    let mut caller = Caller {
        task: &MOST_STEPS.bytes(),
        program: &never_ends,
        run: after(0),
    };
    for count in [4096, 4097, 1 << 16, 1 << 32, u64::MAX] {
        caller.run = after(0);
        caller.gets(count, [0, 0, 4096], after(4096));
        caller.gets(0, [0, 0, 0], after(4096));
        caller.gets(1, [14, 4096, 0], after(4096));
    }
    caller.run = after(0);
    caller.gets(4095, [0, 0, 4095], after(4095));
    caller.gets(4097, [14, 4096, 1], after(4096));
}

#[test]
fn questions_up_to_31_come_before_no_steps() {
    let task = TASK.bytes();
    let op_5 = [2, 2, 0, 1, 0, 0, 5, 0, 0];
    let [start, .., finished] = positions();
    let impossible = open(0, 1, 0, 6);
    let (whole, cut, program) = (&task[..], &task[..121], &op_5[..]);
    let table = [
        (cut, program, impossible, [1, 118, 0]),
        (whole, &op_5[..8], impossible, [25, 0, 0]),
        (whole, program, impossible, [26, 6, 0]),
        (whole, program, finished, [26, 6, 0]),
        (whole, program, start, [26, 6, 0]),
        (whole, &PROGRAM[..], impossible, [31, 0, 0]),
    ];
    for (task, program, run, answer) in table {
        for count in [0, 1, u64::MAX] {
            Caller { task, program, run }.gets(count, answer, run);
        }
    }
}
