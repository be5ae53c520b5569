//! Random well-formed sets, with few bases so that the processes contend.

use crate::random::Random;
use crate::routine::{holds_after, Call, Hold, Kind, Routine, Set, MAX_CALLS, MAX_PROCESSES};

type Calls = Vec<Call>;

pub fn any(random: &mut Random) -> Set {
    match random.below(10) {
        0..=4 => passing(random),
        5..=6 => failing(random),
        7 => unordered(random),
        _ => loose(random),
    }
}

pub fn passing(random: &mut Random) -> Set {
    let bases = some_bases(random);
    let lists = lists(random, |random| passing_calls(random, bases));
    Set::new(bases, lists)
}

/// Passing but for one slip in one block, now and then for a second one elsewhere.
pub fn failing(random: &mut Random) -> Set {
    let bases = some_bases(random);
    let mut lists = lists(random, |random| passing_calls(random, bases));
    let last = lists.len() - 1;
    let block = if random.chance(40) {
        last
    } else {
        random.below(last + 1)
    };
    slip(random, &mut lists[block], bases);
    if random.chance(25) {
        let block = random.below(last + 1);
        slip(random, &mut lists[block], bases);
    }
    Set::new(bases, lists)
}

/// No logic error, but bases taken in any order, so that processes may block each other.
pub fn unordered(random: &mut Random) -> Set {
    let bases = random.between(2, 4);
    let lists = lists(random, |random| {
        let length = random.between(2, 10);
        balanced_calls(random, length, |random, held| {
            let free: Vec<usize> = (1..=bases)
                .filter(|&b| held.iter().all(|call| call.base != b))
                .collect();
            (!free.is_empty()).then(|| random.pick(&free))
        })
    });
    Set::new(bases, lists)
}

/// Any calls, with some logic errors among them.
pub fn loose(random: &mut Random) -> Set {
    let bases = some_bases(random);
    let lists = lists(random, |random| {
        let length = some_length(random);
        let mut calls = Calls::new();
        while calls.len() < length {
            let wrong = random.chance(12);
            calls.extend(loose_call(random, &calls, bases, wrong));
        }
        calls
    });
    Set::new(bases, lists)
}

/// A call that is a logic error after `calls` or is none, as asked; nothing if none was found.
fn loose_call(random: &mut Random, calls: &[Call], bases: usize, wrong: bool) -> Option<Call> {
    let holds = holds_after(calls);
    let kind = random.pick(&Kind::ALL);
    (0..4)
        .map(|_| Call::new(kind, random.between(1, bases)))
        .find(|call| call.is_logic_error(&holds) == wrong)
}

/// More blocks than the limit, or a block with more calls than it; otherwise in order.
pub fn beyond_limits(random: &mut Random) -> Set {
    let mut set = passing(random);
    if random.chance(50) {
        let blocks = random.pick(&[9, 9, 10, 16]);
        let lists = (0..blocks).map(|_| passing_calls(random, set.bases));
        return Set::new(set.bases, lists.collect());
    }
    let bases = set.bases;
    let length = random.pick(&[33, 34, 64, 252]);
    let long = (0..length).map(|_| Call::new(random.pick(&Kind::ALL), random.between(1, bases)));
    let routine = Routine::new(long.collect());
    let block = random.below(set.processes());
    set.routines[block] = routine;
    set
}

fn lists(random: &mut Random, mut calls: impl FnMut(&mut Random) -> Calls) -> Vec<Calls> {
    let processes = random.pick(&[1, 2, 2, 2, 3, 3, 4, 4, 5, 6, 7, MAX_PROCESSES]);
    (0..processes).map(|_| calls(random)).collect()
}

fn some_bases(random: &mut Random) -> usize {
    random.pick(&[1, 1, 1, 2, 2, 2, 3, 3, 4, 7, 15, 16])
}

fn some_length(random: &mut Random) -> usize {
    match random.below(20) {
        0 => 0,
        1 => 31,
        2 => MAX_CALLS,
        _ => random.between(1, 10),
    }
}

fn passing_calls(random: &mut Random, bases: usize) -> Calls {
    let length = some_length(random);
    balanced_calls(random, length, |random, held| {
        let lowest = held.iter().map(|call| call.base).max().unwrap_or(0) + 1;
        let highest = if random.chance(60) {
            bases.min(lowest + 1)
        } else {
            bases
        };
        (lowest <= bases).then(|| random.between(lowest, highest))
    })
}

/// Takes and their releases, at most `length` calls; `choose` names a base that may be taken
/// while the takes given to it are held, and some base while there are none.
fn balanced_calls(
    random: &mut Random,
    length: usize,
    choose: impl Fn(&mut Random, &[Call]) -> Option<usize>,
) -> Calls {
    let mut calls = Calls::new();
    let mut held = Calls::new();
    while calls.len() + held.len() + 2 <= length {
        match choose(random, &held) {
            Some(base) if held.is_empty() || random.chance(55) => {
                let take = Call::new(random.pick(&[Kind::Modlock, Kind::Readlock]), base);
                calls.push(take);
                held.push(take);
            }
            _ => calls.push(release_one(random, &mut held)),
        }
    }
    while !held.is_empty() {
        calls.push(release_one(random, &mut held));
    }
    calls
}

fn release_one(random: &mut Random, held: &mut Calls) -> Call {
    let take = held.swap_remove(random.below(held.len()));
    release_of(take)
}

fn release_of(take: Call) -> Call {
    let kind = match take.kind {
        Kind::Modlock => Kind::Unlock,
        _ => Kind::Decrease,
    };
    Call::new(kind, take.base)
}

/// Breaks one rule of the judge.
fn slip(random: &mut Random, calls: &mut Calls, bases: usize) {
    match random.below(6) {
        0 | 1 => take_too_low(random, calls, bases),
        2 => release_unheld(random, calls, bases, Kind::Unlock),
        3 => release_unheld(random, calls, bases, Kind::Decrease),
        4 => end_holding(random, calls, bases),
        _ => change_call(random, calls, bases),
    }
    calls.truncate(MAX_CALLS);
}

/// A take of a base that is not above all held.
fn take_too_low(random: &mut Random, calls: &mut Calls, bases: usize) {
    let top = |at: usize| {
        let holds = holds_after(&calls[..at]);
        holds.iter().rposition(|&hold| hold != Hold::Free)
    };
    let places: Vec<(usize, usize)> = (0..calls.len())
        .filter_map(|at| top(at).map(|index| (at, index + 1)))
        .collect();
    let (at, highest) = if places.is_empty() {
        let base = random.between(1, bases);
        calls.insert(0, Call::new(Kind::Modlock, base));
        calls.insert(1, Call::new(Kind::Unlock, base));
        (1, base)
    } else {
        random.pick(&places)
    };
    let kind = random.pick(&[Kind::Modlock, Kind::Readlock]);
    let take = Call::new(kind, random.between(1, highest));
    calls.insert(at, take);
    if random.chance(50) {
        calls.insert(at + 1, release_of(take));
    }
}

/// An unlock of a base that is not modified, or a decrease of one that is not read.
fn release_unheld(random: &mut Random, calls: &mut Calls, bases: usize, kind: Kind) {
    loop {
        let at = random.between(0, calls.len());
        let release = Call::new(kind, random.between(1, bases));
        if release.is_logic_error(&holds_after(&calls[..at])) {
            return calls.insert(at, release);
        }
    }
}

fn end_holding(random: &mut Random, calls: &mut Calls, bases: usize) {
    if calls.len() == MAX_CALLS || (!calls.is_empty() && random.chance(50)) {
        calls.pop();
    } else {
        let kind = random.pick(&[Kind::Modlock, Kind::Readlock]);
        calls.push(Call::new(kind, random.between(1, bases)));
    }
}

fn change_call(random: &mut Random, calls: &mut Calls, bases: usize) {
    if calls.is_empty() {
        return;
    }
    let at = random.below(calls.len());
    if random.chance(50) {
        calls[at].kind = random.pick(&Kind::ALL);
    } else {
        calls[at].base = random.between(1, bases);
    }
}

#[cfg(test)]
mod tests {
    use super::*;
    use crate::{file, judge};

    #[test]
    fn passing_sets_pass() {
        let mut random = Random::new(1);
        for _ in 0..2000 {
            assert_eq!(judge::judge(&passing(&mut random)), Ok(()));
        }
    }

    #[test]
    fn most_failing_sets_fail() {
        let mut random = Random::new(2);
        let sets = (0..2000).map(|_| failing(&mut random));
        let failed = sets.filter(|set| judge::judge(set).is_err()).count();
        assert!(failed > 1700, "{failed}");
    }

    #[test]
    fn every_set_is_well_formed() {
        let mut random = Random::new(3);
        for _ in 0..2000 {
            let set = any(&mut random);
            assert_eq!(file::read(&file::write(&set)), Ok(set));
        }
    }

    #[test]
    fn sets_beyond_the_limits_are_refused() {
        let mut random = Random::new(4);
        for _ in 0..500 {
            let bytes = file::write(&beyond_limits(&mut random));
            let number = file::read(&bytes).map_err(|refusal| refusal.number);
            assert!(matches!(number, Err(1 | 3)));
        }
    }
}
