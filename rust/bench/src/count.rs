//! Instructions of a call, counted by callgrind: the program runs itself as a child under valgrind.

use crate::entry::{measured, Call, Entry};
use crate::inputs::INPUTS;
use crate::sides::{Side, SIDES};
use std::env;
use std::process::{Command, Stdio};
use std::thread;

/// Long blocks are cleared and copied by vector loops. The C library's other way is one instruction, which callgrind would count once for each byte.
const BLOCKS: &str =
    "glibc.cpu.x86_rep_stosb_threshold=1000000:glibc.cpu.x86_rep_movsb_threshold=1000000";

/// Whether valgrind can be run.
pub fn is_possible() -> bool {
    let mut valgrind = Command::new("valgrind");
    valgrind.arg("--version").stdout(Stdio::null());
    valgrind.status().is_ok_and(|status| status.success())
}

/// The instructions inside `measured` in a child that makes this call, with no more of the caller's environment than it needs.
pub fn instructions(input: &str, entry: Entry, side: &Side) -> u64 {
    let output = Command::new("valgrind")
        .env_clear()
        .env("PATH", env::var_os("PATH").unwrap_or_default())
        .env("GLIBC_TUNABLES", BLOCKS)
        .args(["--tool=callgrind", "--callgrind-out-file=/dev/null"])
        .arg("--toggle-collect=measured")
        .arg(env::current_exe().expect("the path of this program"))
        .args(["count", input, entry.name(), side.name])
        .output()
        .expect("valgrind runs");
    let report = String::from_utf8_lossy(&output.stderr);
    assert!(output.status.success(), "{report}");
    let collected = report.lines().find_map(collected);
    collected.unwrap_or_else(|| panic!("no count from valgrind:\n{report}"))
}

/// The number in callgrind's line `==PID== Collected : NUMBER`.
fn collected(line: &str) -> Option<u64> {
    let (_, number) = line.split_once("Collected : ")?;
    number.trim().parse().ok()
}

/// What the child does, in a thread: the stack and the heap of one begin at a page, whatever the arguments and the environment are, so block
/// copies are aligned alike in every run. Gives nothing when a name is unknown.
pub fn count_here(input: &str, entry: &str, side: &str) -> Option<()> {
    thread::scope(|scope| {
        let counting = scope.spawn(|| count_in_thread(input, entry, side));
        counting.join().expect("the thread counts")
    })
}

fn count_in_thread(input: &str, entry: &str, side: &str) -> Option<()> {
    let (_, make) = INPUTS.iter().find(|(name, _)| *name == input)?;
    let input = make();
    let entry = input.entries.iter().find(|each| each.name() == entry)?;
    let side = SIDES.iter().find(|each| each.name == side)?;
    measured(&mut Call::new(side, *entry, &input));
    Some(())
}
