//! Paths within a bound, which are found, or none, wherever the solver may learn enough. What is answered is proved.

use gipsat_solver::Solver;
use gipsat_uses::bounded::{Search, path_within};
use giputils::bitvec::{BitVec, BitVecError};
use std::alloc::{AllocError, Global};
use std::test::Fail;

// A transition system of so many bits that begins at 0, by the masks of its transitions and what they flip.
#[derive(Clone, Copy)]
struct System<'a> {
    width: usize,
    transitions: &'a [(usize, usize)],
    goal: usize,
}

// The transitions of a system, each a mask and what it flips.
fn transitions(alloc: Global, system: System<'_>) -> Result<Vec<(BitVec, BitVec)>, BitVecError> {
    let mut transitions = Vec::new(alloc);
    for &(mask, flips) in system.transitions {
        let mask = BitVec::from_usize(alloc, system.width, mask)?;
        let flips = BitVec::from_usize(alloc, system.width, flips)?;
        transitions.reserve(1)?;
        transitions.push_reserved((mask, flips));
    }
    Ok(transitions)
}

// Whether a path within a bound is found, or none, where so many clauses may be learned at each length.
fn is_decided(
    alloc: Global,
    system: System<'_>,
    bound: u8,
    limit: usize,
) -> Result<bool, BitVecError> {
    let start = BitVec::zero(alloc, system.width)?;
    let goal = BitVec::from_usize(alloc, system.width, system.goal)?;
    let transitions = transitions(alloc, system)?;
    Ok(is_found(alloc, &start, &transitions, &goal, bound, limit)?)
}

fn is_found(
    alloc: Global,
    start: &BitVec,
    transitions: &[(BitVec, BitVec)],
    goal: &BitVec,
    bound: u8,
    limit: usize,
) -> Result<bool, AllocError> {
    let bound = usize::from(bound);
    if start.len() != goal.len() || start.len() > 64 || transitions.len() > 64 {
        return Ok(false);
    }
    let Some(variables) = (bound + 1).checked_mul(start.len() + transitions.len()) else {
        return Ok(false);
    };
    if variables > 1 << 31 {
        return Ok(false);
    }
    let search = path_within::<Solver>(alloc, start, transitions, goal, bound, limit)?;
    Ok(!matches!(search, Search::Unknown(_)))
}

// Counts in three bits: one bit is flipped with all below it, where these are true.
const COUNTER: &[(usize, usize)] = &[(0, 1), (1, 3), (3, 7)];

// Counts in eight bits.
const LONG_COUNTER: &[(usize, usize)] = &[
    (0, 1),
    (1, 3),
    (3, 7),
    (7, 15),
    (15, 31),
    (31, 63),
    (63, 127),
    (127, 255),
];

// The width of a system, its transitions, a goal, a bound, a limit, and whether it is decided.
const PATHS: &[(usize, &[(usize, usize)], usize, u8, usize, bool)] = &[
    // The start has the goal.
    (3, COUNTER, 0, 0, 1000, true),
    (3, COUNTER, 1, 1, 1000, true),
    (3, COUNTER, 7, 6, 1000, true),
    (3, COUNTER, 7, 7, 1000, true),
    (8, LONG_COUNTER, 60, 59, 1000, true),
    (8, LONG_COUNTER, 60, 60, 1000, true),
    // No step leads to the goal.
    (2, &[(0, 1), (2, 2)], 2, 8, 1000, true),
    // States of no bit.
    (0, &[], 0, 3, 1000, true),
    // No clause may be learned.
    (3, COUNTER, 1, 1, 0, false),
];

#[test]
fn a_path_within_a_bound_is_found_or_none(rt: HostRuntime) -> Result<(), Fail> {
    for &(width, transitions, goal, bound, limit, decided) in PATHS {
        let system = System {
            width,
            transitions,
            goal,
        };
        assert!(rt; is_decided(rt.alloc(), system, bound, limit)? == decided);
    }
    Ok(())
}

// The next of a row of numbers that look like chance.
fn next(seed: u64) -> u64 {
    seed.wrapping_mul(6_364_136_223_846_793_005)
        .wrapping_add(1_442_695_040_888_963_407)
}

// Whether a system is decided that has two to four transitions and is made of a seed.
fn is_one_decided(alloc: Global, seed: u64) -> Result<bool, BitVecError> {
    let a = (next(seed) >> 33) as usize;
    let b = (next(next(seed)) >> 33) as usize;
    let all = [
        (a & 3, b >> 4 & 15),
        (a >> 4 & 3, b >> 8 & 15),
        (a >> 8 & 15, b >> 12 & 15),
        (a >> 12 & 15, b >> 16 & 15),
    ];
    let system = System {
        width: 2 + a % 3,
        transitions: all.get(..2 + b % 3).unwrap_or(&all),
        goal: (a >> 16 & 15) % (4 << (a % 3)),
    };
    is_decided(alloc, system, 16, 1000)
}

#[test]
fn systems_by_chance_are_decided(rt: HostRuntime) -> Result<(), Fail> {
    for seed in 0..200u64 {
        assert!(rt; is_one_decided(rt.alloc(), seed)?, "seed {seed}");
    }
    Ok(())
}
