//! One search for several bad literals.

use crate::engines::small::{SHIFTER, THREE, made};
use gipmc_circuits::Netlist;
use gipmc_engines::{Bounds, Engine, Finding, Plan, Technique, Tries, check_all};
use gipsat_cnf::Literal;
use gipsat_plain::Plain;
use std::alloc::{AllocError, Global};

// What is found out about one of several, in short.
#[derive(Clone, Copy, PartialEq, Eq)]
enum Said {
    // A trace of so many moments fails.
    Fails(usize),
    Safe,
    // It is k-inductive for this k.
    Inductive(usize),
    // No trace of at most so many transitions fails.
    Within(usize),
    Unknown,
}

fn said_by(finding: &Finding) -> Said {
    match finding {
        Finding::Fails(trace) => Said::Fails(trace.inputs.len()),
        Finding::Safe => Said::Safe,
        Finding::Inductive(k) => Said::Inductive(*k),
        Finding::NoFailureWithin(depth) => Said::Within(*depth),
        Finding::Unknown => Said::Unknown,
    }
}

// A literal that is never true, both latches of the register, an input, both latches again, and one that is not there.
fn literals() -> [Literal; 5] {
    [
        Literal::new(0, true),
        Literal::new(4, true),
        Literal::new(1, true),
        Literal::new(4, true),
        Literal::new(9, true),
    ]
}

// The plan of an engine, by so many rounds of simulation, as deep as this.
fn plan(engine: Engine, rounds: usize, depth: usize) -> Plan {
    Plan {
        engine,
        tries: Tries {
            rounds,
            ..Tries::default()
        },
        bounds: Bounds {
            depth,
            ..Bounds::default()
        },
        ..Plan::default()
    }
}

// What a plan finds out about the first `count` of them.
fn found_out(alloc: Global, plan: &Plan, count: usize) -> Result<[Said; 5], AllocError> {
    let netlist = made(alloc, SHIFTER)?;
    let bads = literals();
    let found = check_all::<Plain, _>(alloc, &netlist, &bads[..count.min(5)], plan, &mut ())?;
    let mut said = [Said::Unknown; 5];
    for (place, finding) in found.each.iter().enumerate() {
        if place < 5 {
            said[place] = said_by(finding);
        }
    }
    Ok(said)
}

#[test]
fn finds_out_about_each_as_deep_as_it_may(rt: HostRuntime) -> Result<(), AllocError> {
    let (open, fails, now) = (Said::Unknown, Said::Fails(3), Said::Fails(1));
    let deep = found_out(rt.alloc(), &plan(Engine::Bounded, 1, 9), 5)?;
    assert!(rt; deep == [Said::Within(9), fails, now, fails, open]);
    let shallow = found_out(rt.alloc(), &plan(Engine::Bounded, 1, 1), 5)?;
    assert!(rt; shallow == [Said::Within(1), Said::Within(1), now, Said::Within(1), open]);
    Ok(())
}

#[test]
fn finds_out_about_each(rt: HostRuntime) -> Result<(), AllocError> {
    let (open, fails, now) = (Said::Unknown, Said::Fails(3), Said::Fails(1));
    let simulated = found_out(rt.alloc(), &plan(Engine::Simulation, 1, 0), 5)?;
    assert!(rt; simulated == [open, fails, now, fails, open]);
    let by_ic3 = found_out(rt.alloc(), &plan(Engine::Ic3, 1, 9), 4)?;
    assert!(rt; by_ic3 == [Said::Safe, fails, now, fails, open]);
    for &rounds in &[0, 1] {
        let by_all = found_out(rt.alloc(), &plan(Engine::All, rounds, 9), 4)?;
        assert!(rt; by_all == [Said::Safe, fails, now, fails, open]);
    }
    // No moment at all makes the first one true.
    let by_induction = found_out(rt.alloc(), &plan(Engine::Induction, 1, 9), 4)?;
    assert!(rt; by_induction == [Said::Inductive(0), fails, now, fails, open]);
    Ok(())
}

#[test]
fn finds_constants_alone_without_calls(rt: HostRuntime) -> Result<(), AllocError> {
    let without = Plan {
        bounds: Bounds {
            calls: 0,
            ..Bounds::default()
        },
        ..plan(Engine::Ic3, 1, 9)
    };
    let open = Said::Unknown;
    assert!(rt; found_out(rt.alloc(), &without, 4)? == [Said::Safe, open, open, open, open]);
    Ok(())
}

#[test]
fn explores_states_alone(rt: HostRuntime) -> Result<(), AllocError> {
    let (open, fails, now) = (Said::Unknown, Said::Fails(3), Said::Fails(1));
    let found = found_out(rt.alloc(), &plan(Engine::Explicit, 0, 0), 4)?;
    assert!(rt; found == [Said::Safe, fails, now, fails, open]);
    Ok(())
}

// Which engines found out what stands about the first four literals.
fn engines_of(alloc: Global, engine: Engine) -> Result<[Option<Technique>; 4], AllocError> {
    let netlist = made(alloc, SHIFTER)?;
    let plan = plan(engine, 1, 9);
    let bads = literals();
    let found = check_all::<Plain, _>(alloc, &netlist, &bads[..4], &plan, &mut ())?;
    Ok([
        found.engine(0),
        found.engine(1),
        found.engine(2),
        found.engine(3),
    ])
}

#[test]
fn tells_which_engine_decided(rt: HostRuntime) -> Result<(), AllocError> {
    let sim = Some(Technique::Simulation);
    let constant = Some(Technique::Ternary);
    let bmc = Some(Technique::Bounded);
    let step = Some(Technique::Induction);
    let states = Some(Technique::Explicit);
    let ic3 = Some(Technique::Ic3);
    for &(engine, wanted) in &[
        (Engine::Simulation, [None, sim, sim, sim]),
        (Engine::Bounded, [bmc, bmc, bmc, bmc]),
        (Engine::Ic3, [constant, ic3, ic3, ic3]),
        (Engine::Induction, [step, bmc, bmc, bmc]),
        (Engine::Explicit, [states, states, states, states]),
        (Engine::All, [constant, sim, sim, sim]),
    ] {
        assert!(rt; engines_of(rt.alloc(), engine)? == wanted);
    }
    Ok(())
}

// The greatest variable of the clauses.
fn greatest_variable(clauses: &[Vec<Literal>]) -> u32 {
    let mut greatest = 0;
    for clause in clauses {
        for l in clause {
            greatest = greatest.max(l.variable());
        }
    }
    greatest
}

// The greatest variable of the invariant by which IC3 shows that gate 6 of the counter is never true.
fn greatest_of(alloc: Global, netlist: &Netlist, names_gates: bool) -> Result<u32, AllocError> {
    let plan = Plan {
        names_gates,
        ..plan(Engine::Ic3, 1, 0)
    };
    let bads = [Literal::new(6, true)];
    let found = check_all::<Plain, _>(alloc, netlist, &bads, &plan, &mut ())?;
    Ok(greatest_variable(&found.invariant))
}

#[test]
fn names_gates_where_the_plan_lets_it(rt: HostRuntime) -> Result<(), AllocError> {
    let netlist = made(rt.alloc(), THREE)?;
    // The latches are 2 and 3, and latches alone decide the gate.
    assert!(rt; greatest_of(rt.alloc(), &netlist, false)? == 3);
    assert!(rt; greatest_of(rt.alloc(), &netlist, true)? == 6);
    Ok(())
}
