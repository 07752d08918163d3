//! Circuits by chance, and what is left of them: the same literals become true, by the same traces and invariants.

use crate::circuits::chosen::{bits, chance, circuit, clauses};
use gipmc_circuits::{Netlist, Trace, Verdict, certify, replay};
use gipmc_reduce::{Bounds, Correspondence};
use gipsat_cnf::Literal;
use gipsat_plain::Plain;
use std::alloc::{AllocError, Global};

// A circuit by chance, and what is left of it.
#[derive(Drop)]
struct Pair {
    whole: Netlist,
    sweep: Correspondence,
}

fn by_chance(alloc: Global, seed: &mut u32) -> Result<Pair, AllocError> {
    let circuit = circuit(alloc, seed)?;
    let whole = Netlist::new(alloc, circuit)?.ok_or(AllocError)?;
    let bounds = Bounds {
        with_gates: chance(seed, 3) != 0,
        moments: chance(seed, 8) as usize,
        ..Bounds::default()
    };
    let made = Correspondence::new::<Plain>(alloc, &whole, &whole.circuit.bads, bounds)?;
    let sweep = made.ok_or(AllocError)?;
    Ok(Pair { whole, sweep })
}

// How many latches and gates are gone.
fn gone(pair: &Pair) -> usize {
    let whole = &pair.whole.circuit;
    let left = &pair.sweep.netlist.circuit;
    let latches = whole.latches.len().saturating_sub(left.latches.len());
    latches.saturating_add(whole.gates.len().saturating_sub(left.gates.len()))
}

// The first bad literal.
fn first(literals: &[Literal]) -> Result<Literal, AllocError> {
    literals.first().copied().ok_or(AllocError)
}

// A trace by chance of up to three moments, with so many latches.
fn trace(alloc: Global, seed: &mut u32, latches: usize) -> Result<Trace, AllocError> {
    let latches = bits(alloc, chance(seed, 16) as usize, latches)?;
    let mut inputs = Vec::new(alloc);
    for _ in 0..=chance(seed, 3) {
        let row = bits(alloc, chance(seed, 4) as usize, 2)?;
        inputs.push(row)?;
    }
    Ok(Trace { latches, inputs })
}

// Whether the trace of what is left makes each bad literal true exactly if that of the circuit does, and whether it makes
// one true.
fn fail_alike(
    alloc: Global,
    pair: &Pair,
    trace: &Trace,
    carried: &Trace,
) -> Result<(bool, bool), AllocError> {
    let left = &pair.sweep.netlist;
    let (own, bads) = (&left.circuit.bads, &pair.whole.circuit.bads);
    let mut same = own.len() == bads.len();
    let mut fails = false;
    for (own, bad) in own.iter().zip(bads.iter()) {
        let is = replay(alloc, left, *own, trace)?;
        same = same && is == replay(alloc, &pair.whole, *bad, carried)?;
        fails = fails || is;
    }
    Ok((same, fails))
}

// The same of a trace by chance. And how much is gone.
fn replay_alike(alloc: Global, seed: &mut u32) -> Result<(bool, bool, usize), AllocError> {
    let pair = by_chance(alloc, seed)?;
    let trace = trace(alloc, seed, pair.sweep.netlist.circuit.latches.len())?;
    let carried = pair.sweep.trace_of(alloc, &pair.whole, &trace)?;
    let (same, fails) = fail_alike(alloc, &pair, &trace, &carried)?;
    Ok((same, fails, gone(&pair)))
}

#[test]
fn traces_are_carried(rt: HostRuntime) -> Result<(), AllocError> {
    let mut seed = 2;
    let mut count = 0_usize;
    let mut merged = 0_usize;
    for _ in 0..300 {
        let (same, fails, gone) = replay_alike(rt.alloc(), &mut seed)?;
        assert!(rt; same);
        count = count.saturating_add(usize::from(fails));
        merged = merged.saturating_add(gone);
    }
    assert!(rt; count >= 10);
    assert!(rt; merged >= 900);
    Ok(())
}

// Whether clauses by chance that certify what is left certify the circuit, together with those of the merges; and
// whether they do.
fn certify_alike(alloc: Global, seed: &mut u32) -> Result<(bool, bool), AllocError> {
    let pair = by_chance(alloc, seed)?;
    let own = clauses(alloc, seed, &pair.sweep.netlist.circuit)?;
    let all = pair.sweep.clauses_of(alloc, &own)?;
    let bad = first(&pair.sweep.netlist.circuit.bads)?;
    let is = certify::<Plain>(alloc, &pair.sweep.netlist, bad, &own, 1000)? == Verdict::Certified;
    let bad = first(&pair.whole.circuit.bads)?;
    let carries = certify::<Plain>(alloc, &pair.whole, bad, &all, 1000)? == Verdict::Certified;
    Ok((carries || !is, is))
}

#[test]
fn invariants_are_carried(rt: HostRuntime) -> Result<(), AllocError> {
    let mut seed = 3;
    let mut count = 0_usize;
    for _ in 0..100 {
        let (carries, is) = certify_alike(rt.alloc(), &mut seed)?;
        assert!(rt; carries);
        count = count.saturating_add(usize::from(is));
    }
    assert!(rt; count >= 10);
    Ok(())
}
