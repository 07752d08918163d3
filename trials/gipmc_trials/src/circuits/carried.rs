//! Clauses of a part: they are carried into the whole circuit and back, and certify there what they certify here.

use gipmc_circuits::{Netlist, Verdict, certify};
use gipmc_reduce::{Cone, certify_all};
use gipmc_uses::pages::traces::two_latches;
use gipsat_cnf::Literal;
use gipsat_plain::Plain;
use std::alloc::{AllocError, Global};

// The literal of a variable, and with a minus its negation.
fn literal(number: i16) -> Literal {
    Literal::new(u32::from(number.unsigned_abs()), number > 0)
}

// The clauses of these numbers.
fn clauses(alloc: Global, numbers: &[&[i16]]) -> Result<Vec<Vec<Literal>>, AllocError> {
    let mut clauses = Vec::new(alloc);
    for numbers in numbers {
        let mut clause = Vec::new(alloc);
        for number in *numbers {
            clause.push(literal(*number))?;
        }
        clauses.reserve(1)?;
        clauses.push_reserved(clause);
    }
    Ok(clauses)
}

// What is said of clauses of the part for the first bad literal.
fn said_of_part(alloc: Global, part: &Cone, own: &[Vec<Literal>]) -> Result<Verdict, AllocError> {
    let bad = part
        .netlist
        .circuit
        .bads
        .first()
        .copied()
        .ok_or(AllocError)?;
    certify::<Plain>(alloc, &part.netlist, bad, own, 1000)
}

// What is said of the same of the whole circuit, alone and by parts.
fn said_of_whole(
    alloc: Global,
    whole: &Netlist,
    bad: Literal,
    named: &[Vec<Literal>],
) -> Result<(Verdict, Option<Verdict>), AllocError> {
    let said = certify::<Plain>(alloc, whole, bad, named, 1000)?;
    let verdicts = certify_all::<Plain>(alloc, whole, &[bad], named, 1000)?;
    Ok((said, verdicts.first().copied()))
}

// Whether the clauses of a part are these, once they are carried there and back, and this is said of them here and there.
fn is_said(
    alloc: Global,
    whole: &Netlist,
    bad: Literal,
    named: &[Vec<Literal>],
    verdict: Verdict,
) -> Result<bool, AllocError> {
    let part = Cone::new(alloc, whole, &[bad])?.ok_or(AllocError)?;
    let own = part.names.clauses(alloc, named)?.ok_or(AllocError)?;
    let back = part.names.clauses_of(alloc, &own)?;
    let of_part = said_of_part(alloc, &part, &own)?;
    let of_whole = said_of_whole(alloc, whole, bad, &back)?;
    Ok(are_same(&back, named) && of_part == verdict && of_whole == (verdict, Some(verdict)))
}

// Whether the clauses have the same literals.
fn are_same(clauses: &[Vec<Literal>], others: &[Vec<Literal>]) -> bool {
    if clauses.len() != others.len() {
        return false;
    }
    for (clause, other) in clauses.iter().zip(others) {
        if clause.as_slice() != other.as_slice() {
            return false;
        }
    }
    true
}

// A bad literal, clauses of its part in the numbers of the whole circuit, and what is said of them.
const SAID: &[(i16, &[&[i16]], Verdict)] = &[
    (3, &[&[-3]], Verdict::Certified),
    (3, &[&[3, -3], &[-3]], Verdict::Certified),
    (3, &[], Verdict::NotSafe),
    (3, &[&[3, -3]], Verdict::NotSafe),
    (3, &[&[-3], &[3]], Verdict::NotInitial(1)),
    // Latch 2 rises.
    (2, &[&[-2]], Verdict::NotInductive(0)),
    (-2, &[&[2]], Verdict::NotInitial(0)),
];

#[test]
fn clauses_certify_a_part_as_they_do_the_whole(rt: HostRuntime) -> Result<(), AllocError> {
    let whole = two_latches(rt.alloc())?;
    for &(bad, numbers, verdict) in SAID {
        let named = clauses(rt.alloc(), numbers)?;
        assert!(rt; is_said(rt.alloc(), &whole, literal(bad), &named, verdict)?);
    }
    Ok(())
}

// Whether clauses can be carried into the part for this literal.
fn is_of_part(
    alloc: Global,
    whole: &Netlist,
    bad: Literal,
    numbers: &[&[i16]],
) -> Result<bool, AllocError> {
    let part = Cone::new(alloc, whole, &[bad])?.ok_or(AllocError)?;
    let named = clauses(alloc, numbers)?;
    Ok(part.names.clauses(alloc, &named)?.is_some())
}

#[test]
fn clauses_of_other_variables_are_of_no_part(rt: HostRuntime) -> Result<(), AllocError> {
    let whole = two_latches(rt.alloc())?;
    assert!(rt; is_of_part(rt.alloc(), &whole, literal(3), &[&[3], &[]])?);
    assert!(rt; !is_of_part(rt.alloc(), &whole, literal(3), &[&[3], &[-2]])?);
    assert!(rt; is_of_part(rt.alloc(), &whole, literal(2), &[&[-2, 1]])?);
    assert!(rt; !is_of_part(rt.alloc(), &whole, literal(2), &[&[-2, 3]])?);
    Ok(())
}
