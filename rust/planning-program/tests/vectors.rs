//! The agreed answers of vectors/level-04.txt, asked of the library's entries, of the wrapper and of the program `check_plan`; and runs by
//! single steps beside the plans that they should follow.

mod pairs;
mod requests;

use pairs::pairs_before_fault;
use planning_program::raw::{self, Answer, StepsAnswer};
use planning_program::{Goal, Progress, Refusal, Run, StepsRefusal, Task};
use requests::words::shown;
use requests::{number, of_kind, shown_steps_with_run, shown_with_buffer, shown_with_run, Vector};
use std::path::{Path, PathBuf};
use std::process::Command;

/// A place in the repository.
fn in_repository(path: &str) -> PathBuf {
    let root = Path::new(env!("CARGO_MANIFEST_DIR")).join("../..");
    root.join(path)
}

/// Every request gets its agreed answer.
fn agree(requests: &[Vector], answer: impl Fn(&Vector) -> String) {
    let difference = |vector: &Vector| {
        let Vector { line, expected, .. } = vector;
        let given = answer(vector);
        (given != *expected).then(|| format!("line {line}: expected {expected}, got {given}\n"))
    };
    let differences: String = requests.iter().filter_map(difference).collect();
    assert!(differences.is_empty(), "{differences}");
}

/// The requests of a kind but those that this question turns down.
fn of_kind_but(kind: &str, question: u32) -> Vec<Vector> {
    let mut requests = of_kind(kind);
    requests.retain(|v| v.answer().number != question);
    requests
}

/// The two numbers of what the wrapper gives.
fn answer_of(result: Result<usize, Refusal>) -> Answer {
    let (number, value) = match result {
        Ok(value) => (0, u32::try_from(value).expect("32 bits")),
        Err(Refusal { question, place }) => (question.into(), place),
    };
    Answer { number, value }
}

/// The three numbers of what the wrapper gives for a number of steps.
fn steps_answer_of(result: Result<u16, StepsRefusal>) -> StepsAnswer {
    match result {
        Ok(made) => StepsAnswer {
            number: 0,
            place: 0,
            made,
        },
        Err(StepsRefusal { refusal, made }) => StepsAnswer {
            number: refusal.question.into(),
            place: refusal.place,
            made,
        },
    }
}

#[test]
fn no_other_kinds() {
    let expected: usize = requests::COUNTS.iter().map(|(_, count)| count).sum();
    assert_eq!(requests::all().len(), expected);
}

#[test]
fn tasks() {
    agree(&of_kind("task"), |v| shown(raw::check_task(&v.task())));
    agree(&of_kind("task"), |v| {
        shown(answer_of(Task::check(&v.task()).map(|_| 0)))
    });
}

#[test]
fn checks() {
    agree(&of_kind("check"), |v| {
        let mut program = v.buffer();
        let answer = raw::check_plan(&v.task(), &v.other(), &mut program);
        shown_with_buffer(answer, &program)
    });
    agree(&of_kind("check"), |v| {
        let (task, mut program) = (v.task(), v.buffer());
        let result =
            Task::check(&task).and_then(|task| task.check_plan_into(&v.other(), &mut program));
        shown_with_buffer(answer_of(result), &program)
    });
}

/// The wrapper's own buffer has room, so nothing is turned down for the want of it.
#[test]
fn checks_with_an_allocated_program() {
    agree(&of_kind_but("check", 10), |v| {
        let (task, mut buffer) = (v.task(), v.buffer());
        let result = Task::check(&task).and_then(|task| task.check_plan(&v.other()));
        let steps = result.map(|checked| {
            buffer[..checked.program.len()].copy_from_slice(&checked.program);
            checked.steps
        });
        shown_with_buffer(answer_of(steps), &buffer)
    });
}

#[test]
fn writes() {
    agree(&of_kind("write"), |v| {
        let mut plan = v.buffer();
        let answer = raw::write_plan(&v.task(), &v.other(), &mut plan);
        shown_with_buffer(answer, &plan)
    });
    agree(&of_kind("write"), |v| {
        let (task, mut plan) = (v.task(), v.buffer());
        let result =
            Task::check(&task).and_then(|task| task.write_plan_into(&v.other(), &mut plan));
        shown_with_buffer(answer_of(result), &plan)
    });
}

/// As for the checker, nothing is turned down for want of room.
#[test]
fn writes_with_an_allocated_plan() {
    agree(&of_kind_but("write", 29), |v| {
        let (task, mut buffer) = (v.task(), v.buffer());
        let result = Task::check(&task).and_then(|task| task.write_plan(&v.other()));
        let steps = result.map(|plan| {
            buffer[..plan.len()].copy_from_slice(&plan);
            plan.len() / 9
        });
        shown_with_buffer(answer_of(steps), &buffer)
    });
}

#[test]
fn single_steps() {
    agree(&of_kind("step"), |v| {
        let mut run = v.run();
        let answer = raw::step(&v.task(), &v.other(), &mut run);
        shown_with_run(answer, &run)
    });
    agree(&of_kind("step"), |v| {
        let (task, mut run) = (v.task(), Run::from(v.run()));
        let result = Task::check(&task).and_then(|task| run.step(&task, &v.other()));
        let made = result.map(|progress| usize::from(progress == Progress::Stepped));
        shown_with_run(answer_of(made), run.record())
    });
}

#[test]
fn steps() {
    agree(&of_kind("steps"), |v| {
        let mut run = v.run();
        let answer = raw::steps(&v.task(), &v.other(), v.count(), &mut run);
        shown_steps_with_run(answer, &run)
    });
    agree(&of_kind("steps"), |v| {
        let (task, mut run) = (v.task(), Run::from(v.run()));
        let result = Task::check(&task)
            .map_err(|refusal| StepsRefusal { refusal, made: 0 })
            .and_then(|task| run.steps(&task, &v.other(), v.count()));
        shown_steps_with_run(steps_answer_of(result), run.record())
    });
}

#[test]
fn pairs_of_actions() {
    agree(&of_kind("pairs"), |v| {
        pairs_before_fault(number(v.words[1]), &v.other()).to_string()
    });
}

#[test]
fn late_cases() {
    agree(&of_kind("late"), |v| {
        let (mut buffer, [start, goal_true, goal_false]) = (v.task(), v.sets());
        let run = &v.run();
        let answer = raw::add_case(&mut buffer, v.task_len(), start, goal_true, goal_false, run);
        shown_with_buffer(answer, &buffer)
    });
    agree(&of_kind("late"), |v| {
        let (mut buffer, [start, true_facts, false_facts]) = (v.task(), v.sets());
        let goal = Goal {
            true_facts,
            false_facts,
        };
        let result = Run::from(v.run()).add_case(&mut buffer, v.task_len(), start, goal);
        shown_with_buffer(answer_of(result), &buffer)
    });
}

#[test]
fn prints() {
    let program = in_repository("crates/check_plan/out/check_plan");
    assert!(program.exists(), "no {}: run rust/build", program.display());
    let program = program.canonicalize().expect("the program's path");
    let name = format!("prints-{}", std::process::id());
    let folder = Path::new(env!("CARGO_TARGET_TMPDIR")).join(name);
    std::fs::create_dir_all(&folder).expect("a folder");
    agree(&of_kind("print"), |v| {
        std::fs::write(folder.join("task.bin"), v.task()).expect("task.bin");
        std::fs::write(folder.join("plan.bin"), v.other()).expect("plan.bin");
        let run = Command::new(&program).current_dir(&folder).output();
        let printed = run.expect("the program runs").stdout;
        String::from_utf8_lossy(&printed).replace('\n', "|")
    });
    std::fs::remove_dir_all(&folder).expect("the folder goes");
}

/// Runs a program by single steps beside its plan, to the finish and one call beyond.
fn run_beside(name: &str, task: &Task, program: &[u8], plan: &[u8]) {
    let lines = usize::from(task.last_line()) + 1;
    let mut run = Run::start(task);
    let records = plan[..plan.len() - 4].chunks(9);
    let steps = records.len();
    for record in records {
        let [procedure, line] = *run.frames().last().expect("a frame");
        let at = 3 * (usize::from(procedure) * lines + usize::from(line));
        let expected = [&[procedure, line], &program[at..at + 3]].concat();
        assert_eq!(record[4..], expected, "{name}: {run:?}");
        let progress = run.step(task, program);
        assert_eq!(progress, Ok(Progress::Stepped), "{name}: {run:?}");
    }
    let finish = run;
    let reached = (
        finish.case(),
        finish.steps_made().into(),
        finish.is_finished(),
    );
    assert_eq!(reached, (task.cases(), steps, true), "{name}: {run:?}");
    assert_eq!(run.step(task, program), Ok(Progress::Finished), "{name}");
    assert_eq!(run, finish, "{name}");
}

#[test]
fn runs_of_the_writes() {
    let mut requests = of_kind("write");
    requests.retain(|v| v.answer().number == 0);
    assert_eq!(requests.len(), 15);
    for v in requests {
        let (name, task, program) = (format!("line {}", v.line), v.task(), v.other());
        let task = Task::check(&task).expect("a task that passes");
        let plan = task.write_plan(&program).expect("the writer accepts");
        run_beside(&name, &task, &program, &plan);
    }
}

#[test]
fn runs_of_the_samples() {
    let mut samples = 0;
    for entry in std::fs::read_dir(in_repository("samples")).expect("samples") {
        let folder = entry.expect("a sample").path();
        let name = folder.display().to_string();
        let [task, plan] = ["task.bin", "plan.bin"].map(|file| std::fs::read(folder.join(file)));
        let (Ok(task), Ok(plan)) = (task, plan) else {
            continue;
        };
        let task = Task::check(&task).unwrap_or_else(|no| panic!("{name}: {no}"));
        let checked = task
            .check_plan(&plan)
            .unwrap_or_else(|no| panic!("{name}: {no}"));
        assert_eq!(task.write_plan(&checked.program), Ok(plan.clone()));
        run_beside(&name, &task, &checked.program, &plan);
        samples += 1;
    }
    assert!(samples > 0, "no sample");
}
