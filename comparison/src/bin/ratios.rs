//! The jobs of bench/ratios: one call, made by the proved code or by the independent program.
//!
//!     ratios jobs              the jobs' names
//!     ratios time JOB          nanoseconds of a call, proved and independent: the best of several, taking turns
//!     ratios once JOB WHO      the call once, by `proved` or `independent`, for whoever counts its instructions
//!     ratios short JOB         the same by the proved code, with few events, for whoever measures its stack; the job
//!                              `nothing` makes no call, and `run_fields`, `class` and `answer` are jobs only here
//!     ratios input             the largest text that the program is not to refuse

use comparison::product;
use independent::fields::Fields;
use independent::message::Message;
use independent::shop::{Shape, Shop, FREE};
use independent::{run, search, withdrawal, worst};
use std::hint::black_box;
use std::process::ExitCode;
use std::time::Instant;

const JOBS: [&str; 4] = ["search", "worst_count", "run", "withdraw"];
/// Events of the run.
const BUDGET: u32 = 100_000;
/// Turns of each side.
const TURNS: usize = 15;

#[derive(Clone, Copy, PartialEq)]
enum Side {
    Proved,
    Independent,
}

/// What the jobs work on.
struct Bench {
    leaves: Vec<u8>,
    owners: Vec<u32>,
    messages: Vec<Message>,
    log: Vec<u8>,
}

impl Bench {
    fn new() -> Bench {
        let owner = |index: u32| if index.is_multiple_of(2) { index / 2 } else { FREE };
        Bench {
            leaves: (0..1_024).map(|leaf| (leaf % 2) as u8).collect(),
            owners: (0..64).map(owner).collect(),
            messages: (0..512).map(message).collect(),
            log: vec![0; 16 * BUDGET as usize],
        }
    }

    /// One call. What it answers is used, so that it is made.
    #[inline(never)]
    fn measured(&mut self, job: &str, side: Side, budget: u32) -> u32 {
        let proved = side == Side::Proved;
        let (m, t) = black_box((2, 1_024));
        match job {
            "search" if proved => product::search(m, t, &self.leaves, &mut self.log).rows,
            "search" => search::search(m, t, &self.leaves, &mut self.log).map_or(0, |found| found.rows),
            "worst_count" if proved => product::worst_count(m, t, 512).slots,
            "worst_count" => worst::worst_count(m, t, 512).unwrap_or(0),
            "run" if proved => product::run(&shop(), &self.owners, &mut self.messages, &mut self.log, budget).events,
            "run" => {
                run::run(&shop(), &self.owners, &mut self.messages, &mut self.log, budget).map_or(0, |end| end.events)
            }
            "nothing" => m,
            "run_fields" => {
                let mut columns = self.columns();
                let [stations, arrivals, relatives, lengths, sent] = &mut columns;
                let fields = Fields { stations, arrivals, relatives, lengths, sent };
                product::run_fields(&shop(), &self.owners, fields, &mut self.log, budget).events
            }
            "class" => product::class(t, m, black_box(9), 10).refusal,
            "answer" => product::answer(largest_input().as_bytes(), &mut self.log) as u32,
            "withdraw" if proved => product::withdraw(&mut self.messages, 0).kept,
            _ => withdrawal::withdraw(&mut self.messages, 0).map_or(0, |counts| counts.kept),
        }
    }

    /// The messages field by field.
    fn columns(&self) -> [Vec<u32>; 5] {
        let of = |one: &Message| [one.station, one.arrival, one.relative, one.length, one.sent];
        std::array::from_fn(|place| self.messages.iter().map(|one| of(one)[place]).collect())
    }

    /// Nanoseconds of one call. A withdrawal gets its whole list back first.
    fn time(&mut self, job: &str, side: Side) -> u128 {
        let calls = if job == "run" { 1 } else { 200 };
        let mut sum = 0;
        for _ in 0..calls {
            self.messages = (0..512).map(message).collect();
            let began = Instant::now();
            black_box(self.measured(job, side, BUDGET));
            sum += began.elapsed().as_nanos();
        }
        sum / calls
    }
}

/// 32 stations, classes of 10 slots, a time tree of 64 leaves and 64 static indices, four branches each.
fn shop() -> Shop {
    let tree = Shape { branches: 4, leaves: 64 };
    black_box(Shop {
        stations: 32,
        width: 10,
        offset: 0,
        compression: 1,
        time: tree,
        fixed: tree,
    })
}

/// Every 6,500 slots each station gets a message; four stations at a time have the same deadline.
fn message(number: u32) -> Message {
    let station = number % 32;
    Message {
        station,
        arrival: number / 32 * 6_500,
        relative: 5_000 + station / 4 * 100,
        length: 1 + number % 4,
        sent: 0,
    }
}

fn time(job: &str) -> (u128, u128) {
    let mut bench = Bench::new();
    let mut best = (u128::MAX, u128::MAX);
    for _ in 0..TURNS {
        best.0 = best.0.min(bench.time(job, Side::Proved));
        best.1 = best.1.min(bench.time(job, Side::Independent));
    }
    best
}

/// Every number as long as it may be written, 1,024 owners and 512 messages.
fn largest_input() -> String {
    let number = |number: u32| format!("{number:010}");
    let line = |numbers: &[u32]| numbers.iter().map(|&one| number(one)).collect::<Vec<_>>().join(" ") + "\n";
    let owners: Vec<u32> = (0..1_024).map(|index| index % 32).collect();
    let mut text = line(&[32, 10, 0, 1, 4, 64, 2, 1_024]) + &line(&owners);
    for one in (0..512).map(message) {
        text += &line(&[one.station, one.arrival, one.relative, one.length]);
    }
    text
}

fn main() -> ExitCode {
    let words: Vec<String> = std::env::args().skip(1).collect();
    let words: Vec<&str> = words.iter().map(String::as_str).collect();
    match words[..] {
        ["jobs"] => println!("{}", JOBS.join("\n")),
        ["time", job] if JOBS.contains(&job) => {
            let (proved, independent) = time(job);
            println!("{proved} {independent}");
        }
        ["once", job, "proved"] if JOBS.contains(&job) => {
            println!("{}", Bench::new().measured(job, Side::Proved, BUDGET))
        }
        ["once", job, "independent"] if JOBS.contains(&job) => {
            println!("{}", Bench::new().measured(job, Side::Independent, BUDGET));
        }
        ["short", job] => println!("{}", Bench::new().measured(job, Side::Proved, 100)),
        ["input"] => print!("{}", largest_input()),
        _ => {
            eprintln!("jobs, time JOB, once JOB proved, once JOB independent, short JOB or input");
            return ExitCode::from(2);
        }
    }
    ExitCode::SUCCESS
}
