//! Measures the checker as a ratio to unproved Rust written for speed, both in this one run.
//!
//!     bench [SAMPLES [TASK]]
//!
//! Prints the median nanoseconds of a call of each side, and the median of their ratios. Before a task is timed, both
//! sides must give the same answer and leave the same bytes in what both are lent. Judging's `work` is not looked at: the
//! peers have rows of their own instead. No time is demanded here. TASK restricts it to the tasks whose name has that
//! text. What stands behind a semicolon says which peer it is.
//!
//! The workspace's settings free this crate of the checks of overflow that the other crates have: a peer written for
//! speed has none.

#[cfg(test)]
mod agreement;
mod calls;
mod cases;
mod peers;
mod timing;

use calls::Told;
use cases::{Judging, Running};
use peers::judge::Judge;
use peers::plain_judge::PlainJudge;
use peers::run::Runner;
use peers::Answer;
use std::hint::black_box;
use std::io::Write;
use std::path::Path;
use std::process::{Command, Stdio};
use timing::Times;

struct Bench {
    samples: usize,
    wanted: String,
}

fn main() {
    let mut words = std::env::args().skip(1);
    let samples = words.next().map_or(1001, |word| word.parse().expect("SAMPLES is a number"));
    let bench = Bench { samples, wanted: words.next().unwrap_or_default() };
    println!("{:<60} {:>11} {:>11} {:>7} {:>9}", "task", "proved ns", "peer ns", "ratio", "repeats");
    let mixed = cases::mixed_judging();
    bench.judge("judge, 4,096 positions, 64 nodes", &mixed);
    bench.judge("judge, 4,096 positions, one until", &cases::single_until());
    bench.runs();
    bench.translate("translate, 64 nodes", &mixed.code);
    bench.read_table("read table, 6,348 numbers", &cases::longest_table());
    bench.program("scancheck, a process, 60,000 bytes", &cases::longest_input(&mixed.code));
}

impl Bench {
    fn wants(&self, task: &str) -> bool {
        task.contains(&self.wanted)
    }

    fn print(&self, task: &str, times: Times) {
        let Times { proved, peer, ratio, repeats } = times;
        println!("{task:<60} {proved:>11.0} {peer:>11.0} {ratio:>7.2} {repeats:>9}");
    }

    /// Against a peer with rows of words, and against a plain one with a byte for each position.
    fn judge(&self, name: &str, case: &Judging) {
        let mut judge = Judge::default();
        self.judge_against(&format!("{name}; words of bits"), case, |code, trace, start, list| {
            judge.judge(false, code, trace, start, list)
        });
        let mut judge = PlainJudge::default();
        self.judge_against(&format!("{name}; a byte a position"), case, |code, trace, start, list| {
            judge.judge(false, code, trace, start, list)
        });
    }

    fn judge_against(
        &self,
        task: &str,
        case: &Judging,
        mut peer: impl FnMut(&[u8], &[u8], usize, &mut [u8]) -> Answer,
    ) {
        if !self.wants(task) {
            return;
        }
        let Judging { code, depth, trace, start } = case;
        let row = (trace.len() / 5).div_ceil(8);
        let mut work = vec![0; depth * row];
        let mut list = vec![255; 2 * trace.len() / 5];
        let mut peer_list = list.clone();

        let told = calls::judge(false, code, trace, *start, &mut work, &mut list);
        same(task, told, peer(code, trace, *start, &mut peer_list));
        assert_eq!(list, peer_list, "{task}");
        assert_eq!(told.refusal, 0, "{task}");

        let times = timing::compare(
            self.samples,
            || {
                let [code, trace] = black_box([code, trace]);
                let told = calls::judge(false, code, trace, black_box(*start), &mut work, &mut list);
                black_box((told, &mut list));
            },
            || {
                let [code, trace] = black_box([code, trace]);
                let answer = peer(code, trace, black_box(*start), &mut peer_list);
                black_box((answer, &mut peer_list)).0.unwrap();
            },
        );
        self.print(task, times);
    }

    fn runs(&self) {
        self.run("run, full table, all 8 acting", &cases::busy_run());
        self.run("run, 1 process, idle", &cases::idle_run(1));
        self.run("run, 8 processes, idle", &cases::idle_run(8));
    }

    /// Against a peer that does all tests at every position, and against one that does those that a step can change.
    fn run(&self, name: &str, case: &Running) {
        self.run_against::<false>(&format!("{name}, {} scans; all tests", case.scans), case);
        self.run_against::<true>(&format!("{name}, {} scans; changed tests", case.scans), case);
    }

    fn run_against<const KEPT: bool>(&self, task: &str, case: &Running) {
        if !self.wants(task) {
            return;
        }
        let Running { table, inputs, positions, loop_start, trace, .. } = case;
        let mut proved_trace = vec![255; 20480];
        let mut peer_trace = proved_trace.clone();
        let mut runner = Runner::new();

        let answer = runner.run::<KEPT>(table, inputs, &mut peer_trace);
        assert_eq!(answer, Ok((*positions, *loop_start)), "{task}");
        assert_eq!(&peer_trace, trace, "{task}");
        same(task, calls::run(table, inputs, &mut proved_trace), answer);
        assert_eq!(&proved_trace, trace, "{task}");

        let proved = || {
            let [table, inputs] = black_box([table, inputs]);
            black_box((calls::run(table, inputs, &mut proved_trace), &mut proved_trace));
        };
        let peer = || {
            let [table, inputs] = black_box([table, inputs]);
            let answer = runner.run::<KEPT>(table, inputs, &mut peer_trace);
            black_box((answer, &mut peer_trace)).0.unwrap();
        };
        self.print(task, timing::compare(self.samples, proved, peer));
    }

    fn translate(&self, task: &str, code: &[u8]) {
        if !self.wants(task) {
            return;
        }
        let mut out = vec![255; 1408];
        let mut peer_out = out.clone();
        let mut scratch = peers::translate::Scratch::new();

        let told = calls::translate(code, &mut out);
        same(task, told, peers::translate::translate(code, &mut peer_out, &mut scratch));
        assert_eq!(out, peer_out, "{task}");
        assert_eq!(told.refusal, 0, "{task}");

        let times = timing::compare(
            self.samples,
            || {
                black_box((calls::translate(black_box(code), &mut out), &mut out));
            },
            || {
                let answer = peers::translate::translate(black_box(code), &mut peer_out, &mut scratch);
                black_box((answer, &mut peer_out)).0.unwrap();
            },
        );
        self.print(task, times);
    }

    fn read_table(&self, task: &str, code: &[u8]) {
        if !self.wants(task) {
            return;
        }
        let mut out = vec![0; 6348];
        let mut peer_out = out.clone();
        let mut scratch = Vec::new();

        let told = calls::read_table(code, &mut out);
        same(task, told, peers::table::read_table(code, &mut peer_out, &mut scratch));
        assert_eq!(out, peer_out, "{task}");
        assert_eq!((told.refusal, told.first), (0, 6348), "{task}");

        let times = timing::compare(
            self.samples,
            || {
                black_box((calls::read_table(black_box(code), &mut out), &mut out));
            },
            || {
                let answer = peers::table::read_table(black_box(code), &mut peer_out, &mut scratch);
                black_box((answer, &mut peer_out)).0.unwrap();
            },
        );
        self.print(task, times);
    }

    /// The program itself, that `rt run` in crates/scancheck writes, against a program of the peers. Starting a process is in both.
    fn program(&self, task: &str, input: &[u8]) {
        if !self.wants(task) {
            return;
        }
        let proved = Path::new(env!("CARGO_MANIFEST_DIR")).join("../../crates/scancheck/out/scancheck");
        let peer = std::env::current_exe().unwrap().with_file_name("peer");
        let text = printed(&proved, input);
        assert_eq!(text, printed(&peer, input), "{task}");
        assert!(text.starts_with(b"positions 4096 "), "{task}");

        let times = timing::compare(
            self.samples,
            || {
                black_box(printed(&proved, input));
            },
            || {
                black_box(printed(&peer, input));
            },
        );
        self.print(task, times);
    }
}

/// What a program prints for an input.
fn printed(program: &Path, input: &[u8]) -> Vec<u8> {
    let mut child = Command::new(program)
        .stdin(Stdio::piped())
        .stdout(Stdio::piped())
        .spawn()
        .unwrap_or_else(|error| panic!("{}: {error}", program.display()));
    // Both programs read all of their input before they print.
    child.stdin.take().unwrap().write_all(input).unwrap();
    let output = child.wait_with_output().unwrap();
    assert!(output.status.success(), "{}", program.display());
    output.stdout
}

/// Both sides must have told the same.
fn same(task: &str, told: Told, answer: Answer) {
    assert_eq!(told, Told::from(answer), "{task}");
}
