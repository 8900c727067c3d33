//! The peers give the second program's answers, on accepted, damaged and extreme inputs.

use crate::peers::judge::Judge;
use crate::peers::plain_judge::PlainJudge;
use crate::peers::run::Runner;
use crate::peers::{self, Answer};
use second::random::{self, Random};
use second::random_report::report_case;
use second::random_run::run_case;
use second::refusal::Refusal;
use second::requirement::Which;
use second::run::{run, Ran};
use second::{judging, report, table, translation};

const CASES: u64 = 5_000;

fn expected<T>(result: Result<T, Refusal>, values: impl Fn(T) -> (usize, usize)) -> Answer {
    result.map(values).map_err(|refusal| peers::Refusal { number: refusal.number() as u8, place: refusal.place })
}

#[test]
fn judging_agrees() {
    let mut judge = Judge::default();
    let mut plain = PlainJudge::default();
    for seed in 0..CASES {
        let mut random = Random::new(seed);
        let case = match seed % 100 {
            0 => random::long_judging_case(&mut random),
            1..=29 => random::damaged_judging_case(&mut random),
            _ => random::judging_case(&mut random),
        };
        // The peer has rows of its own, so the work that is lent is always enough here.
        let mut work = vec![0; 76 * 512];
        let mut list = case.list.clone();
        let mut peer_list = case.list.clone();
        let translated = case.which == Which::Translated;
        let judged = judging::judge(case.which, &case.code, &case.trace, case.loop_start, &mut work, &mut list);
        let answer = judge.judge(translated, &case.code, &case.trace, case.loop_start, &mut peer_list);
        let expected = expected(judged, |judged| (judged.holds as usize, judged.findings));
        assert_eq!(answer, expected, "seed {seed}");
        assert_eq!(list, peer_list, "seed {seed}");
        let mut peer_list = case.list.clone();
        let answer = plain.judge(translated, &case.code, &case.trace, case.loop_start, &mut peer_list);
        assert_eq!(answer, expected, "seed {seed}");
        assert_eq!(list, peer_list, "seed {seed}");
    }
}

#[test]
fn running_agrees() {
    let mut runner = Runner::new();
    for seed in 0..CASES {
        let case = run_case(&mut Random::new(seed));
        let mut trace = vec![7; case.room];
        let expected: Answer = match run(&case.table, &case.inputs, &mut trace) {
            Ran::Closed { positions, loop_start, .. } => Ok((positions, loop_start)),
            Ran::Refused(refused) => expected(Err(refused.refusal), |()| (0, 0)),
        };
        let mut peer_trace = vec![7; case.room];
        assert_eq!(runner.run::<false>(&case.table, &case.inputs, &mut peer_trace), expected, "seed {seed}");
        assert_eq!(trace, peer_trace, "seed {seed}");
        let mut peer_trace = vec![7; case.room];
        assert_eq!(runner.run::<true>(&case.table, &case.inputs, &mut peer_trace), expected, "seed {seed}");
        assert_eq!(trace, peer_trace, "seed {seed}");
    }
}

#[test]
fn translating_agrees() {
    let mut scratch = peers::translate::Scratch::new();
    for seed in 0..CASES {
        let case = random::translating_case(&mut Random::new(seed));
        let mut buffer = case.buffer.clone();
        let mut peer_buffer = case.buffer.clone();
        let translated = translation::translate(&case.code, &mut buffer);
        let answer = peers::translate::translate(&case.code, &mut peer_buffer, &mut scratch);
        assert_eq!(answer, expected(translated, |count| (count, 0)), "seed {seed}");
        assert_eq!(buffer, peer_buffer, "seed {seed}");
    }
}

#[test]
fn reading_agrees() {
    let mut scratch = Vec::new();
    for seed in 0..CASES {
        let mut random = Random::new(seed);
        let mut numbers = random::table(&mut random, 8);
        if random.once_in(3) {
            random::damage_table_field(&mut random, &mut numbers);
        }
        let mut code = second::code::bytes_of_numbers(&numbers);
        if random.once_in(3) {
            random::damage_bytes(&mut random, &mut code);
        }
        let room = random::buffer_length(&mut random, numbers.len());
        let mut out = vec![7; room];
        let mut peer_out = out.clone();
        let read = table::read_table(&code, &mut out);
        let answer = peers::table::read_table(&code, &mut peer_out, &mut scratch);
        assert_eq!(answer, expected(read, |count| (count, 0)), "seed {seed}");
        assert_eq!(out, peer_out, "seed {seed}");
    }
}

#[test]
fn reports_agree() {
    for seed in 0..CASES {
        let input = report_case(&mut Random::new(seed));
        assert_eq!(peers::report::report(&input), report::report(&input), "seed {seed}");
    }
}
