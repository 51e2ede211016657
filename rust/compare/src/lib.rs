//! Holds engines against each other in one process, on random calls: the
//! second program's, the archive's, and a third one where it is given. Every
//! answer, refusal, place, word, lock and buffer is equal, and so is every
//! call's record, as the second program and the archive write it. Their plain
//! engines and their books of standard jobs are held against each other by
//! themselves.

pub mod books;
mod edges;
mod pair;
pub mod plain;
mod records;
mod told;

pub use pair::{Difference, Pair};
use second::generate::{Generator, Kind, Random};
use second::script::Call;
pub use told::{Archive, Calls, Second, Told};

/// How far it has come is told after so many calls, runs or cases, and so many
/// more.
const PROGRESS: u64 = 10_000_000;

/// The calls at the edges, then random ones, history after history, until
/// there were at least so many. The same seed makes the same calls, whatever
/// the third engine is.
pub fn compare(
    seed: u64,
    calls: u64,
    third: Option<Box<dyn Calls>>,
    told: impl Fn(u64),
) -> Result<Pair, Difference> {
    let mut pair = Pair::new(third);
    edges::compare(&mut pair)?;
    let mut progress = PROGRESS;
    let mut history = seed;
    while pair.calls < calls {
        one_history(&mut pair, history, calls)?;
        history = history.wrapping_add(1);
        while pair.calls >= progress {
            told(progress);
            progress += PROGRESS;
        }
    }
    Ok(pair)
}

/// The calls of one history, which starts with a setup, until there were so
/// many in all; one in four is of the kind where a shortcut shows soonest.
fn one_history(pair: &mut Pair, seed: u64, calls: u64) -> Result<(), Difference> {
    let mut random = Random::new(!seed);
    let kind = match random.below(4) {
        0 => Kind::Narrow,
        _ => Kind::Wide,
    };
    let mut generator = Generator::new(seed, kind);
    for _ in 0..200 + random.below(600) {
        if pair.calls >= calls {
            break;
        }
        let call = generator.next(pair.second());
        perform(pair, &call)?;
    }
    pair.compare_words()?;
    pair.compare_sheets()
}

/// Makes one call on all. Steps of one line are calls of their own.
fn perform(pair: &mut Pair, call: &Call) -> Result<(), Difference> {
    let Call::Step { worker, times } = *call else {
        pair.compare(call)?;
        return Ok(());
    };
    let step = Call::Step { worker, times: 1 };
    for _ in 0..times {
        if !pair.compare(&step)? {
            break;
        }
    }
    Ok(())
}

#[cfg(test)]
mod tests {
    use super::*;
    use second::engine::{Engine, Wrong};

    #[test]
    fn equal_calls() {
        let pair = compare(1, 200_000, None, |_| ()).unwrap_or_else(|no| panic!("{no}"));
        assert!(pair.calls >= 200_000 && pair.readings >= 200_000);
        // Every refusal, of which none has number 10, and accepted calls.
        for number in (0..=16).filter(|&number| number != 10) {
            assert!(pair.told[number] >= 10, "{number}: {:?}", pair.told);
        }
        let answers = pair.answers;
        assert!(answers.iter().all(|&times| times >= 10), "{answers:?}");
        // Jobs of every length, and the longest runs, by owners and helpers.
        let (begun, steps) = (pair.begun, pair.steps);
        assert!(begun[1..].iter().all(|&times| times >= 2), "{begun:?}");
        let longest = [Engine::LONGEST_HELP, Engine::LONGEST_TRY];
        let longest = longest.map(|number| steps[number as usize]);
        assert!(longest.iter().all(|&times| times >= 2), "{longest:?}");
        let records = &pair.records;
        assert!(records.count() >= 100_000);
        for number in [0, 5, 6, 13, 17] {
            assert!(records.told[number] >= 10, "{:?}", records.told);
        }
    }

    /// The comparison is not blind: where the archive's engine alone makes a
    /// step more, it is soon noticed, unless that worker is dropped first.
    #[test]
    fn a_step_too_many() {
        let (mut apart, mut noticed) = (0, 0);
        for seed in 0..100 {
            let mut pair = Pair::new(None);
            let mut generator = Generator::new(seed, Kind::Narrow);
            let mut go_on = |pair: &mut Pair, calls: u32| {
                (0..calls).try_for_each(|_| {
                    let call = generator.next(pair.second());
                    perform(pair, &call)
                })
            };
            go_on(&mut pair, 50).unwrap_or_else(|no| panic!("{no}"));
            apart += u32::from(pair.one_step_apart());
            noticed += u32::from(go_on(&mut pair, 300).is_err());
        }
        println!("{apart} apart, {noticed} noticed");
        assert!(apart >= 80 && noticed >= 70 && noticed <= apart);
    }

    /// Nor is it where a third engine takes a shortcut, miscounts or answers
    /// wrongly.
    #[test]
    fn a_third_that_is_wrong() {
        for wrong in [
            Wrong::MarkBeforeLook,
            Wrong::SwapByValue,
            Wrong::ReleaseBeforeMark,
            Wrong::FreeThoughHelped,
            Wrong::FreeThoughHeld,
            Wrong::HelpedFromStepFour,
            Wrong::OwnReading,
            Wrong::EveryCommitCounts,
            Wrong::OwnSheetCounts,
            Wrong::NotTakenOfWorn,
            Wrong::WornAtStepFour,
            Wrong::LogsOverlap,
        ] {
            let third = Box::new(Second(Engine::wrong(wrong)));
            let found = compare(1, 200_000, Some(third), |_| ());
            assert!(found.is_err(), "{wrong:?} is not noticed");
        }
    }
}
