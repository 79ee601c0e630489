//! Compares the proved calls with the independent program.
//!
//!     comparison calls [SEED [COUNT]]          every limit, then COUNT random cases
//!     comparison case SEED NUMBER              one random case again
//!     comparison answers [SEED [COUNT]]        the same for the program's answer to a text, as a call
//!     comparison texts PROGRAM [SEED [COUNT]]  the same for the program that reads a shop as text
//!     comparison faults                        the errors that a build with the feature `wrong` can commit, by call
//!
//! With FAULT=NAME in the environment, such a build commits that error. The last line says how many cases were equal.
//! The status is 0 where all were, 1 where a case differed, and 2 where the comparison itself could not be had.

use comparison::answer::Answer;
use comparison::case::{shrunk, Case, Tally};
use comparison::class::Class;
use comparison::random::Random;
use comparison::run::{Run, RunFields};
use comparison::search::Search;
use comparison::text;
use comparison::trees::{Count, Place};
use comparison::withdrawal::Withdraw;
use std::io;
use std::process::ExitCode;

const SEED: u64 = 1;
const CALLS: u64 = 1_000_000;
const ANSWERS: u64 = 20_000;
const TEXTS: u64 = 2_000;

fn main() -> ExitCode {
    let words: Vec<String> = std::env::args().skip(1).collect();
    let words: Vec<&str> = words.iter().map(String::as_str).collect();
    let number = |place: usize, otherwise| {
        words
            .get(place)
            .map_or(Some(otherwise), |word| word.parse::<u64>().ok())
    };
    let result = commit_fault().and_then(|()| match words.first() {
        Some(&"calls") => Some(Ok(compare_calls(number(1, SEED)?, number(2, CALLS)?))),
        Some(&"case") => Some(Ok(compare_one(number(1, SEED)?, number(2, 0)?))),
        Some(&"answers") => Some(Ok(compare_answers(number(1, SEED)?, number(2, ANSWERS)?))),
        Some(&"texts") => Some(compare_texts(words.get(1)?, number(2, SEED)?, number(3, TEXTS)?)),
        Some(&"faults") => Some(Ok(list_faults())),
        _ => None,
    });
    match result {
        Some(Ok(true)) => ExitCode::SUCCESS,
        Some(Ok(false)) => ExitCode::from(1),
        Some(Err(error)) => {
            eprintln!("the program could not be run: {error}");
            ExitCode::from(2)
        }
        None => {
            eprintln!(
                "calls [SEED [COUNT]], case SEED NUMBER, answers [SEED [COUNT]], texts PROGRAM [SEED [COUNT]] or faults"
            );
            ExitCode::from(2)
        }
    }
}

/// Chooses the error that the environment names.
#[cfg(feature = "wrong")]
fn commit_fault() -> Option<()> {
    let Ok(name) = std::env::var("FAULT") else {
        return Some(());
    };
    let fault = independent::fault::ALL
        .iter()
        .find(|fault| format!("{fault:?}") == name)?;
    independent::fault::choose(*fault);
    Some(())
}

#[cfg(not(feature = "wrong"))]
fn commit_fault() -> Option<()> {
    std::env::var("FAULT").is_err().then_some(())
}

fn list_faults() -> bool {
    for fault in independent::fault::ALL {
        println!("{fault:?} {}", fault.call());
    }
    true
}

/// Runs one case; prints the smallest input where it differs.
fn equal<C: Case>(case: &C, seed: u64, number: u64, again: &str, tally: &mut Tally) -> bool {
    let noise = || Random::of_case(!seed, number);
    let seen = case.run(&mut noise());
    tally.note(C::CALL, seen.answer);
    if seen.difference.is_none() {
        return true;
    }
    let (smallest, how) = shrunk(case, noise);
    println!("{} differs: {how}", C::CALL);
    println!("smallest input found: {smallest:?}");
    println!("run it again: {again}");
    false
}

/// One random case: which call it is of is part of it.
fn random_case(seed: u64, number: u64, tally: &mut Tally) -> bool {
    let mut random = Random::of_case(seed, number);
    let again = format!("comparison case {seed} {number}");
    let again = again.as_str();
    match random.within(0, 15) {
        0..=2 => equal(&Search::random(&mut random), seed, number, again, tally),
        3 => equal(&Count::random(&mut random), seed, number, again, tally),
        4 => equal(&Place::random(&mut random), seed, number, again, tally),
        5 | 6 => equal(&Class::random(&mut random), seed, number, again, tally),
        7..=9 => equal(&Withdraw::random(&mut random), seed, number, again, tally),
        10..=12 => equal(&Run::random(&mut random), seed, number, again, tally),
        _ => equal(&RunFields::random(&mut random), seed, number, again, tally),
    }
}

fn compare_limits<C: Case>(again: &str, tally: &mut Tally, cases: &mut u64) -> bool {
    C::limits().iter().enumerate().all(|(number, case)| {
        *cases += 1;
        equal(case, SEED, number as u64, again, tally)
    })
}

fn compare_calls(seed: u64, count: u64) -> bool {
    let mut tally = Tally::default();
    let mut cases = 0;
    let again = "comparison calls";
    let limits = compare_limits::<Search>(again, &mut tally, &mut cases)
        && compare_limits::<Count>(again, &mut tally, &mut cases)
        && compare_limits::<Place>(again, &mut tally, &mut cases)
        && compare_limits::<Class>(again, &mut tally, &mut cases)
        && compare_limits::<Withdraw>(again, &mut tally, &mut cases)
        && compare_limits::<Run>(again, &mut tally, &mut cases)
        && compare_limits::<RunFields>(again, &mut tally, &mut cases);
    let all = limits && (0..count).all(|number| random_case(seed, number, &mut tally));
    tally.print();
    if !all {
        return false;
    }
    println!("{} cases at the limits and {count} of seed {seed} were equal", cases);
    count == 0 || saw_every_answer(&tally)
}

fn unseen<C: Case>(tally: &Tally) -> Vec<String> {
    tally.missing(C::CALL, C::ANSWERS)
}

fn saw_every_answer(tally: &Tally) -> bool {
    let missing = [
        unseen::<Search>(tally),
        unseen::<Count>(tally),
        unseen::<Place>(tally),
        unseen::<Class>(tally),
        unseen::<Withdraw>(tally),
        unseen::<Run>(tally),
        unseen::<RunFields>(tally),
    ];
    none_missing(&missing.concat())
}

/// A comparison in which a call never came to one of its answers shows too little.
fn none_missing(missing: &[String]) -> bool {
    for answer in missing {
        println!("never seen: {answer}");
    }
    missing.is_empty()
}

fn compare_one(seed: u64, number: u64) -> bool {
    let mut tally = Tally::default();
    let same = random_case(seed, number, &mut tally);
    tally.print();
    same
}

fn compare_answers(seed: u64, count: u64) -> bool {
    let mut tally = Tally::default();
    let mut cases = 0;
    let again = format!("comparison answers {seed} {count}");
    let all = compare_limits::<Answer>("comparison answers", &mut tally, &mut cases)
        && (0..count).all(|number| {
            let case = Answer::random(&mut Random::of_case(seed, number));
            equal(&case, seed, number, &again, &mut tally)
        });
    tally.print();
    if !all {
        return false;
    }
    println!("{cases} answers at the limits and {count} of seed {seed} were equal");
    count == 0 || none_missing(&unseen::<Answer>(&tally))
}

fn compare_texts(program: &str, seed: u64, count: u64) -> io::Result<bool> {
    let limits = text::limit_texts();
    let whole = limits.len();
    let random = (0..count).map(|number| text::random_text(&mut Random::of_case(seed, number)));
    let mut tally = Tally::default();
    for input in limits.into_iter().chain(random) {
        let seen = text::compared(program, &input)?;
        tally.note("program", seen.answer);
        if let Some(how) = seen.difference {
            let shortest = text::shrunk(program, &input)?;
            println!("program differs: {how}");
            println!("shortest input found: {:?}", String::from_utf8_lossy(&shortest));
            println!("run it again: comparison texts {program} {seed} {count}");
            return Ok(false);
        }
    }
    tally.print();
    println!("{whole} texts at the limits and {count} of seed {seed} were equal");
    Ok(none_missing(&tally.missing("program", &text::ANSWERS)))
}
