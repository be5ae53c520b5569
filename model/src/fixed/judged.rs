//! Files on either side of refusal 4.

use super::{file_of, vector, Vector};
use crate::routine::{decrease, modlock, readlock, unlock, Call};

pub fn vectors() -> Vec<Vector> {
    [judged_good(), judged_bad(), judged_in_order()].concat()
}

fn passes(name: &'static str, calls: &[Call]) -> Vector {
    vector(name, file_of(3, [calls]), "READ 1 3", "PASSES")
}

fn judged_good() -> Vec<Vector> {
    let (m, r, u, d) = (modlock, readlock, unlock, decrease);
    let takes = (1..=16).map(modlock);
    let all: Vec<Call> = takes.chain((1..=16).map(unlock)).collect();
    vec![
        passes(
            "not only the last taken",
            &[m(1), m(3), u(3), m(2), u(2), u(1)],
        ),
        passes(
            "again after release",
            &[m(1), u(1), m(1), u(1), r(1), d(1), r(1), d(1)],
        ),
        passes("lower after release", &[m(3), u(3), r(2), d(2), m(1), u(1)]),
        passes("released as taken", &[r(1), m(2), r(3), d(1), u(2), d(3)]),
        passes(
            "higher after the lowest",
            &[m(1), r(2), u(1), m(3), d(2), u(3)],
        ),
        vector("sixteen held", file_of(16, [&all]), "READ 1 16", "PASSES"),
    ]
}

fn fails(name: &'static str, calls: &[Call], judge: &'static str) -> Vector {
    vector(name, file_of(3, [calls]), "READ 1 3", judge)
}

fn judged_bad() -> Vec<Vector> {
    let (m, r, u, d) = (modlock, readlock, unlock, decrease);
    let mut full = [m(1), u(1)].repeat(15);
    full.extend([m(1), m(2)]);
    vec![
        fails("read twice", &[r(1), r(1)], "REFUSED 4 1 2"),
        fails("modify 2 then 1", &[m(2), m(1)], "REFUSED 4 1 2"),
        fails("modify 1 alone", &[m(1)], "REFUSED 4 1 2"),
        fails("decrease of a modified", &[m(1), d(1)], "REFUSED 4 1 2"),
        fails("unlock of a read", &[r(1), u(1)], "REFUSED 4 1 2"),
        fails("3 held, then 2", &[m(3), m(2), u(2), u(3)], "REFUSED 4 1 2"),
        fails("3 read, then 2", &[r(3), m(2), u(2), d(3)], "REFUSED 4 1 2"),
        fails(
            "3 held, 1 released, then 2",
            &[m(1), m(3), u(1), r(2)],
            "REFUSED 4 1 4",
        ),
        fails(
            "slip without releases",
            &[m(1), m(3), u(3), m(2)],
            "REFUSED 4 1 5",
        ),
        fails("modify twice", &[m(1), m(1)], "REFUSED 4 1 2"),
        fails("modify, then read", &[m(1), r(1)], "REFUSED 4 1 2"),
        fails("read, then modify", &[r(1), m(1)], "REFUSED 4 1 2"),
        fails("unlock of nothing", &[u(1)], "REFUSED 4 1 1"),
        fails("decrease of nothing", &[d(1)], "REFUSED 4 1 1"),
        fails("unlock of another", &[m(2), u(1)], "REFUSED 4 1 2"),
        fails("unlock twice", &[m(1), u(1), u(1)], "REFUSED 4 1 3"),
        fails("decrease twice", &[r(1), d(1), d(1)], "REFUSED 4 1 3"),
        fails("read 1 alone", &[r(1)], "REFUSED 4 1 2"),
        fails("32 calls, something held", &full, "REFUSED 4 1 33"),
    ]
}

fn judged_in_order() -> Vec<Vector> {
    let (m, u) = (modlock, unlock);
    let good: &[Call] = &[m(1), u(1)];
    let open: &[Call] = &[m(1)];
    let bad: &[Call] = &[u(1)];
    let judged = |name, file, judge| vector(name, file, "READ 2 2", judge);
    let ring = file_of(2, [&[m(1), m(2)], &[m(2), m(1)]]);
    let mut eight = [good; 8];
    eight[7] = open;
    vec![
        judged("block 2", file_of(2, [good, bad]), "REFUSED 4 2 1"),
        judged(
            "block 2, at its end",
            file_of(2, [good, open]),
            "REFUSED 4 2 2",
        ),
        judged(
            "end of block 1 first",
            file_of(2, [open, bad]),
            "REFUSED 4 1 2",
        ),
        judged("both calls", file_of(2, [bad, bad]), "REFUSED 4 1 1"),
        judged("an empty block 1", file_of(2, [&[], bad]), "REFUSED 4 2 1"),
        judged("the ring", ring, "REFUSED 4 1 3"),
        vector("block 8", file_of(1, eight), "READ 8 1", "REFUSED 4 8 2"),
    ]
}
