//! The double-click task built from names, and every mistake by name.

use super::words::*;
use super::*;

const BOUNDS: Bounds = Bounds {
    last_line: 2,
    stack: 1,
    steps: 5,
};

/// The double-click task before it is built.
fn double_click() -> TaskBuilder {
    let goal = [is("bib"), not("open")];
    TaskBuilder::new(BOUNDS)
        .facts(["open", "bib"])
        .actions([action("enter")
            .needs([is("open")])
            .effects([always().raises(["bib"]).lowers(["open"])])])
        .procedures(["main"])
        .cases([
            case("first click").start(["open"]).goal(goal.clone()),
            case("second click").start(["bib"]).goal(goal),
        ])
}

fn double_click_program(model: &Model) -> Program {
    let main = procedure("main", [goto_unless(2, "open"), act("enter"), end()]);
    model.program([main]).unwrap()
}

#[test]
fn double_click_has_the_bytes_of_the_formats_page() {
    let model = double_click().build().unwrap();
    assert_eq!(model.task_bytes().len(), 122);
    let stored = include_bytes!("../../../../samples/double-click/task.bin");
    assert_eq!(model.task_bytes(), stored);

    let program = double_click_program(&model);
    let bytes = [2, 2, 0, 1, 0, 0, 4, 0, 0];
    assert_eq!(program.bytes(), bytes);
    assert_eq!(model.program_of(&bytes), Some(program));
}

#[test]
fn double_click_plan_is_its_five_steps() {
    let model = double_click().build().unwrap();
    let program = double_click_program(&model);
    let step = |kind, line| Step {
        kind,
        procedure: 0,
        line,
        instruction: program.line(0, line).unwrap(),
    };
    let steps = [
        step(StepKind::Write, 0),
        step(StepKind::Write, 1),
        step(StepKind::Write, 2),
        step(StepKind::Repeat, 0),
        step(StepKind::Repeat, 2),
    ];
    let plan = plan_bytes(&steps);
    let expected: [&[u8]; 6] = [
        &[5, 0, 16, 0, 0, 0, 2, 2, 0],
        &[5, 0, 16, 0, 0, 1, 1, 0, 0],
        &[5, 0, 16, 0, 0, 2, 4, 0, 0],
        &[5, 0, 17, 0, 0, 0, 2, 2, 0],
        &[5, 0, 17, 0, 0, 2, 4, 0, 0],
        &[0, 0, 5, 0],
    ];
    assert_eq!(plan, expected.concat());
    assert_eq!(steps_of(&plan), Some(steps.to_vec()));
    assert_eq!(
        model.plan_listing(&steps[2..4]),
        "write main 2 end\nrepeat main 0 goto 2 unless open\n"
    );
}

#[test]
fn bytes_of_another_form_are_no_plan() {
    let closing: &[u8] = &[0, 0, 5, 0];
    let step = [5, 0, 16, 0, 0, 1, 1, 0, 0];
    let another_kind = [5, 0, 18, 0, 0, 1, 1, 0, 0];
    let too_short = [4, 0, 16, 0, 0, 1, 1, 0];
    let no_instruction = [5, 0, 16, 0, 0, 1, 9, 0, 0];
    let empty_line = [5, 0, 16, 0, 0, 1, 0, 0, 0];
    assert_eq!(steps_of(closing), Some(Vec::new()));
    assert_eq!(steps_of(&[]), None);
    assert_eq!(steps_of(&step), None, "not closed");
    assert_eq!(steps_of(&step[..8]), None, "cut off");
    assert_eq!(steps_of(&[closing, &step].concat()), None, "not the end");
    assert_eq!(steps_of(&[closing, closing].concat()), None, "closed twice");
    for record in [&another_kind[..], &too_short, &no_instruction, &empty_line] {
        assert_eq!(steps_of(&[record, closing].concat()), None, "{record:?}");
    }
}

#[test]
fn bytes_of_another_length_are_no_program() {
    let model = double_click().build().unwrap();
    for length in [0, 3, 8, 10, 18] {
        assert_eq!(model.program_of(&vec![0; length]), None, "{length}");
    }
    assert_eq!(model.program_of(&[9; 9]), None, "no instruction");
    assert_eq!(model.program_of(&[0; 9]), Some(Program::empty(1, 2)));
}

#[test]
fn every_instruction_is_read_from_its_bytes() {
    let instructions = [
        Instruction::Empty,
        Instruction::Act(63),
        Instruction::Goto {
            target: 31,
            unless: 63,
        },
        Instruction::Call(7),
        Instruction::End,
    ];
    for instruction in instructions {
        assert_eq!(
            Instruction::from_bytes(instruction.bytes()),
            Some(instruction)
        );
    }
    for no_instruction in [
        [0, 1, 0],
        [1, 0, 1],
        [3, 0, 1],
        [4, 0, 1],
        [4, 1, 0],
        [5, 0, 0],
    ] {
        assert_eq!(Instruction::from_bytes(no_instruction), None);
    }
}

#[test]
fn a_listing_has_every_line_and_shows_a_number_without_a_name() {
    let model = double_click().build().unwrap();
    let bytes = [3, 0, 0, 1, 9, 0, 0, 0, 0];
    let program = Program::from_bytes(&bytes, 2).unwrap();
    assert_eq!(
        model.listing(&program),
        "procedure 0 main\n0 call main\n1 act 9\n2 empty\n"
    );
}

#[test]
fn preset_lines_stand_in_the_task_and_in_every_program() {
    let give_bib = procedure("give bib", [act("enter"), empty(), end()]);
    let model = double_click()
        .procedures(["give bib"])
        .presets([give_bib.clone()])
        .build()
        .unwrap();
    let presets = [[5, 0, 3, 0, 1, 0, 1, 0, 0], [5, 0, 3, 0, 1, 2, 4, 0, 0]].concat();
    // Behind the bounds (10 bytes) and the action (52).
    assert_eq!(model.task_bytes()[62..80], presets);

    let program = model.program([]).unwrap();
    assert_eq!(program.bytes()[9..], [1, 0, 0, 0, 0, 0, 4, 0, 0]);
    let twice = model.program([give_bib]).unwrap_err();
    assert_eq!(
        twice.to_string(),
        "procedure `give bib`, line 0: the line is given twice"
    );
}

/// Every count at its largest gives the largest file that docs/FORMATS.md knows, and it passes.
#[test]
fn the_largest_task_passes() {
    let every_bound = Bounds {
        last_line: 31,
        stack: 16,
        steps: 4096,
    };
    let lines = || [vec![act("0"); 31], vec![end()]].concat();
    let eight_effects = |name| action(name).effects(vec![always().raises(["63"]); 8]);
    let model = TaskBuilder::new(every_bound)
        .facts(numbered(64))
        .actions(numbered(64).into_iter().map(eight_effects))
        .procedures(numbered(8))
        .presets(numbered(8).into_iter().map(|name| procedure(name, lines())))
        .cases(numbered(32).into_iter().map(case))
        .build()
        .unwrap();
    assert_eq!(model.task_bytes().len(), 20_878);
    assert!(crate::Task::check(model.task_bytes()).is_ok());
    assert_eq!(model.names().facts_in(1 << 63), ["63"]);
}

#[test]
fn facts_of_a_set_have_their_names() {
    let model = double_click().build().unwrap();
    assert_eq!(model.names().facts_in(0b11), ["open", "bib"]);
    assert_eq!(model.names().facts_in(0b10), ["bib"]);
    assert_eq!(model.names().facts.number("bib"), Some(1));
    assert_eq!(model.names().facts.number("number"), None);
}

#[test]
fn a_case_in_sets() {
    let model = double_click().build().unwrap();
    let third = || case("third click").start(["bib"]);
    let goal = Goal {
        true_facts: 0b10,
        false_facts: 0b01,
    };
    let sets = model.case_sets(&third().goal([is("bib"), not("open")]));
    assert_eq!(sets, Ok((0b10, goal)));
    assert_eq!(model.case_sets(&third()), Ok((0b10, Goal::default())));
    let mistake = model.case_sets(&third().goal([is("late")])).unwrap_err();
    assert_eq!(
        mistake.to_string(),
        "case `third click`: no fact is named `late`"
    );
}

fn numbered(count: usize) -> Vec<String> {
    (0..count).map(|number| number.to_string()).collect()
}

/// What is said of a task that has one mistake.
#[track_caller]
fn assert_mistake(task: TaskBuilder, said: &str) {
    assert_eq!(task.build().unwrap_err().to_string(), said);
}

#[test]
fn counts_and_bounds_out_of_range_are_mistakes() {
    let with = |last_line, stack, steps| {
        TaskBuilder::new(Bounds {
            last_line,
            stack,
            steps,
        })
    };
    assert_mistake(with(32, 1, 5), "the last line: 32 is not in 1 to 31");
    assert_mistake(with(0, 1, 5), "the last line: 0 is not in 1 to 31");
    assert_mistake(with(2, 17, 5), "the stack bound: 17 is not in 1 to 16");
    assert_mistake(with(2, 1, 4097), "the step bound: 4097 is not in 1 to 4096");
    assert_mistake(with(2, 1, 5), "facts: 0 is not in 1 to 64");
    let task = double_click;
    assert!(task().facts(numbered(62)).build().is_ok());
    assert_mistake(task().facts(numbered(63)), "facts: 65 is not in 1 to 64");
    let actions = numbered(64).into_iter().map(action);
    assert_mistake(task().actions(actions), "actions: 65 is not in 1 to 64");
    assert_mistake(
        task().procedures(numbered(8)),
        "procedures: 9 is not in 1 to 8",
    );
    let cases = numbered(31).into_iter().map(case);
    assert_mistake(task().cases(cases), "cases: 33 is not in 1 to 32");
    let effects = |count| task().actions([action("wait").effects(vec![always(); count])]);
    assert!(effects(8).build().is_ok());
    assert_mistake(effects(9), "action `wait`: effects: 9 is not in 0 to 8");
}

#[test]
fn unclear_names_are_mistakes() {
    let task = double_click;
    assert_mistake(task().facts([""]), "\"\" is no name for a fact");
    assert_mistake(task().facts(["a\nb"]), "\"a\\nb\" is no name for a fact");
    assert_mistake(task().facts(["bib"]), "two facts are named `bib`");
    assert_mistake(
        task().procedures(["main"]),
        "two procedures are named `main`",
    );
    assert_mistake(
        task().actions([action("enter")]),
        "two actions are named `enter`",
    );
    assert_mistake(
        task().cases([case("first click")]),
        "two cases are named `first click`",
    );
    let wait = || action("wait");
    let needs = wait().needs([is("late")]);
    assert_mistake(
        task().actions([needs]),
        "action `wait`: no fact is named `late`",
    );
    let raises = wait().effects([always().raises(["late"])]);
    assert_mistake(
        task().actions([raises]),
        "action `wait`: no fact is named `late`",
    );
    let start = case("third").start(["late"]);
    assert_mistake(
        task().cases([start]),
        "case `third`: no fact is named `late`",
    );
    let goal = case("third").goal([not("late")]);
    assert_mistake(
        task().cases([goal]),
        "case `third`: no fact is named `late`",
    );
}

#[test]
fn a_fact_both_ways_is_a_mistake() {
    let task = double_click;
    let both = || [is("bib"), not("open"), not("bib")];
    let said = "action `wait`: `bib` stands both ways";
    assert_mistake(task().actions([action("wait").needs(both())]), said);
    let condition = action("wait").effects([when(both())]);
    assert_mistake(task().actions([condition]), said);
    let change = always().lowers(["bib"]).raises(["bib"]);
    assert_mistake(task().actions([action("wait").effects([change])]), said);
    let goal = case("third").goal(both());
    assert_mistake(task().cases([goal]), "case `third`: `bib` stands both ways");
}

/// What is said of a program whose main procedure has these lines.
#[track_caller]
fn assert_lines_mistake<const N: usize>(lines: [Instruction<String>; N], said: &str) {
    let model = double_click().build().unwrap();
    let mistake = model.program([procedure("main", lines)]).unwrap_err();
    assert_eq!(mistake.to_string(), said);
}

#[test]
fn lines_that_cannot_be_are_mistakes() {
    let not_allowed =
        |line, text| format!("procedure `main`, line {line}: `{text}` may not stand here");
    assert_lines_mistake([end()], &not_allowed(0, "end"));
    let on_line_2 = |instruction| [empty(), empty(), instruction];
    assert_lines_mistake(on_line_2(act("enter")), &not_allowed(2, "act enter"));
    assert_lines_mistake(on_line_2(call("main")), &not_allowed(2, "call main"));
    let goto_0 = on_line_2(goto_unless(0, "bib"));
    assert_lines_mistake(goto_0, &not_allowed(2, "goto 0 unless bib"));
    let beyond = [goto_unless(3, "bib")];
    assert_lines_mistake(beyond, &not_allowed(0, "goto 3 unless bib"));

    let unknown = |kind, name| format!("procedure `main`, line 0: no {kind} is named `{name}`");
    assert_lines_mistake([act("leave")], &unknown("action", "leave"));
    assert_lines_mistake([goto_unless(2, "late")], &unknown("fact", "late"));
    assert_lines_mistake([call("other")], &unknown("procedure", "other"));
    let four = [empty(), empty(), empty(), empty()];
    assert_lines_mistake(four, "procedure `main`: lines: 4 is not in 0 to 3");

    let model = double_click().build().unwrap();
    let other = model.program([procedure("other", [])]).unwrap_err();
    assert_eq!(
        other.to_string(),
        "the program's lines: no procedure is named `other`"
    );
}
