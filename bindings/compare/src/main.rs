//! Runs the proved library and the original on random texts and options, call by call:
//!
//!     compare [--first | --plant] [ROUNDS [SEED]]
//!
//! An answer has to be that of the original with the documented differences put right, in each
//! byte, in what is borrowed, and in the place that it is borrowed from. Where the original answers
//! otherwise, the differences that had to be put right are counted, by call and by what words stand
//! between. It ends with status 1 if an answer is another; with `--first` it does so at once. With
//! `--plant` it answers wrongly in place of the library, in one way after another, and ends with
//! status 1 if one of these faults is not noticed.
mod answer;
mod breaks;
mod calls;
mod causes;
mod characters;
mod choices;
mod division;
mod drawn;
mod faults;
mod functions;
mod judge;
mod least_cost;
mod original;
mod random;
mod rows;
mod texts;

use answer::Answer;
use calls::{Call, CALLS};
use causes::Cause;
use choices::Separator;
use drawn::Drawn;
use faults::{faults, Fault};
use judge::{judge, Unexplained, Verdict};
use random::Random;
use std::collections::BTreeMap;
use std::ops::Range;
use std::panic;
use std::process::ExitCode;

/// As many unexplained differences are printed.
const PRINTED: u64 = 20;

/// What is done in each round.
#[derive(Clone, Copy, PartialEq, Eq)]
enum Task {
    Compare,
    /// Compare until a difference is not explained.
    CompareUntilFirst,
    Plant,
}

impl Task {
    /// The rounds that suffice to notice what is planted. Some of it shows in few texts.
    fn usual_rounds(self) -> u64 {
        match self {
            Task::Compare => 10_000,
            Task::CompareUntilFirst => 50_000,
            Task::Plant => 200_000,
        }
    }
}

/// What the command line asks for.
struct Request {
    task: Task,
    /// Round after round is its own seed, so each can be run again by itself.
    rounds: Range<u64>,
}

impl Request {
    fn read(words: impl Iterator<Item = String>) -> Option<Request> {
        let mut words = words.peekable();
        let task = match words.next_if(|word| word.starts_with("--")).as_deref() {
            None => Task::Compare,
            Some("--first") => Task::CompareUntilFirst,
            Some("--plant") => Task::Plant,
            Some(_) => return None,
        };
        let numbers: Vec<u64> = words.map(|word| word.parse().ok()).collect::<Option<_>>()?;
        let (rounds, seed) = match numbers[..] {
            [] => (task.usual_rounds(), 1),
            [rounds] => (rounds, 1),
            [rounds, seed] => (rounds, seed),
            _ => return None,
        };
        Some(Request { task, rounds: seed..seed.checked_add(rounds)? })
    }
}

/// A call, as its place in [`CALLS`], and what words stand between in it.
type Kind = (usize, Option<Separator>);

/// What was counted of calls of a kind.
#[derive(Default)]
struct Counts {
    same: u64,
    explained: u64,
    unexplained: u64,
    causes: BTreeMap<Cause, u64>,
}

impl Counts {
    fn add(&mut self, verdict: &Verdict) {
        match verdict {
            Verdict::Same => self.same += 1,
            Verdict::Explained(causes) => {
                self.explained += 1;
                for &cause in causes {
                    *self.causes.entry(cause).or_default() += 1;
                }
            }
            Verdict::Unexplained(_) => self.unexplained += 1,
        }
    }
}

fn print_unexplained(round: u64, call: &Call, drawn: &Drawn, answer: &Answer, why: &Unexplained) {
    println!("round {round}, {}: {drawn:?}", call.name);
    println!("  here       {answer:?}");
    println!("  original   {:?}", why.original);
    println!("  put right  {:?}", why.mended);
    if why.has_stand_ins {
        println!("             where other characters stand for those of which the tables differ");
    }
    for riddle in &why.riddles {
        println!("  {riddle}");
    }
}

/// Compares all calls in one round, and returns how many answers are not explained. No more than
/// `printed` of these are printed.
fn compare_round(round: u64, counts: &mut BTreeMap<Kind, Counts>, mut printed: u64) -> u64 {
    let drawn = Drawn::new(&mut Random::new(round));
    let mut unexplained = 0;
    for (place, call) in CALLS.iter().enumerate() {
        let answer = call.proved_answer(&drawn);
        let verdict = judge(call, &drawn, &answer);
        counts.entry((place, (call.separator)(&drawn))).or_default().add(&verdict);
        if let Verdict::Unexplained(why) = &verdict {
            unexplained += 1;
            if printed > 0 {
                printed -= 1;
                print_unexplained(round, call, &drawn, &answer, why);
            }
        }
    }
    unexplained
}

fn print_counts(counts: &BTreeMap<Kind, Counts>) {
    for (&(place, separator), Counts { same, explained, unexplained, causes }) in counts {
        let separator = separator.map_or(String::new(), |separator| separator.to_string());
        println!(
            "{:14}{separator:19}{same:9} the same {explained:8} explained {unexplained:5} not",
            CALLS[place].name
        );
        for (cause, count) in causes {
            println!("{:33}{count:9} {cause}", "");
        }
    }
}

/// Compares all calls in each round. Whether all answers are explained.
fn compare(rounds: Range<u64>, ends_at_first: bool) -> bool {
    let mut counts = BTreeMap::new();
    let (mut unexplained, mut done) = (0, 0);
    for round in rounds.clone() {
        let left = PRINTED.saturating_sub(unexplained);
        unexplained += compare_round(round, &mut counts, left);
        done += 1;
        if ends_at_first && unexplained > 0 {
            break;
        }
    }
    print_counts(&counts);
    let total = done * CALLS.len() as u64;
    println!("{total} calls from seed {}, {unexplained} not explained", rounds.start);
    for ch in characters::left_out() {
        let code = u32::from(ch);
        println!("U+{code:04X} was left out: the tables differ, and no other can stand in for it");
    }
    unexplained == 0
}

/// The round in which a fault is first noticed, and the honest answer is not objected to.
fn noticed(fault: &Fault, mut rounds: Range<u64>) -> Option<u64> {
    let objects = |drawn: &Drawn, answer: &Answer| {
        matches!(judge(fault.call, drawn, answer), Verdict::Unexplained(_))
    };
    rounds.find(|&round| {
        let drawn = Drawn::new(&mut Random::new(round));
        objects(&drawn, &(fault.answer)(&drawn))
            && !objects(&drawn, &fault.call.proved_answer(&drawn))
    })
}

/// Plants each fault. Whether all of them are noticed.
fn plant(rounds: Range<u64>) -> bool {
    let mut missed = 0;
    for fault in faults() {
        let (call, name) = (fault.call.name, fault.name);
        match noticed(fault, rounds.clone()) {
            Some(round) => {
                println!("{call:14}{name}: noticed after {} rounds", round - rounds.start + 1);
            }
            None => {
                missed += 1;
                println!("{call:14}{name}: NOT NOTICED");
            }
        }
    }
    println!("{} faults planted, {missed} not noticed", faults().count());
    missed == 0
}

fn main() -> ExitCode {
    let Some(request) = Request::read(std::env::args().skip(1)) else {
        eprintln!("usage: compare [--first | --plant] [ROUNDS [SEED]]");
        return ExitCode::from(2);
    };
    // A panic of the original is an answer, and its message would only be in the way.
    panic::set_hook(Box::new(|_| {}));
    let is_good = match request.task {
        Task::Compare => compare(request.rounds, false),
        Task::CompareUntilFirst => compare(request.rounds, true),
        Task::Plant => plant(request.rounds),
    };
    ExitCode::from(u8::from(!is_good))
}
