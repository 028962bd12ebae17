//! What a call took, in counts that no other work on the machine moves: the transitions of an answer, and the processor's instructions, counted
//! by callgrind where valgrind is installed.

#![forbid(unsafe_code)]

use crate::reading::Decision;
use std::env;
use std::process::Command;

/// The letters that a decision tried before it stopped: all of them at every state, or up to the one that led to the last state, which accepts.
/// The path area has the state and the letter from which each state was numbered.
pub fn tried(decision: Decision, letters: usize, path: &[u16]) -> usize {
    match decision {
        Decision::Never { states } => states * letters,
        Decision::Found { states: 1, .. } => 0,
        Decision::Found { states, .. } => path[2 * states - 2] as usize * letters + path[2 * states - 1] as usize + 1,
        other => panic!("{other:?}"),
    }
}

/// valgrind's version, if it is installed.
pub fn valgrind() -> Option<String> {
    let output = Command::new("valgrind").arg("--version").output().ok()?;
    String::from_utf8_lossy(&output.stdout).trim().strip_prefix("valgrind-").map(String::from)
}

/// The instructions of this program with the arguments, from its start to its end. callgrind counts an instruction that fills or copies byte after
/// byte once for each byte, and so the C library is asked to do without.
pub fn instructions(arguments: &[&str]) -> Option<u64> {
    let output = Command::new("valgrind")
        .args(["--tool=callgrind", "--callgrind-out-file=/dev/null"])
        .arg(env::current_exe().ok()?)
        .args(arguments)
        .env("GLIBC_TUNABLES", "glibc.cpu.hwcaps=-ERMS,-FSRM")
        .output()
        .ok()?;
    if output.status.success() {
        collected(&String::from_utf8_lossy(&output.stderr))
    } else {
        None
    }
}

/// The count in what callgrind tells at the end.
pub fn collected(told: &str) -> Option<u64> {
    let (_, count) = told.lines().find_map(|line| line.split_once("Collected :"))?;
    count.trim().parse().ok()
}
