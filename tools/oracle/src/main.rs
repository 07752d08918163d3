//! Answers the calls of a list by the Rust crate giputils, for tools/make_lists.py: `giputils-oracle heap`, `bits` or
//! `galloc`. README.md beside this has the calls.

use giputils::allocator::Gallocator;
use giputils::bitvec::BitVec;
use giputils::grc::Grc;
use giputils::heap::{BinaryHeap, BinaryHeapCmp};
use std::cell::RefCell;
use std::collections::HashMap;
use std::io::{self, BufRead, Write};
use std::process::ExitCode;

/// The answer to a call; `None` to a line that is no call.
type Answer = Option<String>;

/// A container that answers calls.
trait Answers {
    fn answer(&mut self, call: &[&str]) -> Answer;
}

fn said(answer: impl ToString) -> Answer {
    Some(answer.to_string())
}

/// The answer to a call that gives nothing.
fn done(_: ()) -> Answer {
    said("ok")
}

/// The answer to a call whose condition does not hold: it is not made.
fn skipped() -> Answer {
    said("skipped")
}

/// Items between the brackets, with a space between two of them.
fn list(items: impl IntoIterator<Item = String>, [open, close]: [char; 2]) -> Answer {
    said(format!(
        "{open}{}{close}",
        items.into_iter().collect::<Vec<_>>().join(" ")
    ))
}

// The heap.

/// Compares keys by rank, and then by number.
#[derive(Default)]
struct Ranks(RefCell<HashMap<u32, u32>>);

impl Ranks {
    fn of(&self, key: u32) -> (u32, u32) {
        (self.0.borrow().get(&key).copied().unwrap_or(0), key)
    }
}

impl BinaryHeapCmp<u32> for Ranks {
    fn gte(&self, s: u32, o: u32) -> bool {
        self.of(s) >= self.of(o)
    }
}

struct Heap {
    ranks: Grc<Ranks>,
    keys: BinaryHeap<u32, Ranks>,
}

impl Heap {
    fn new() -> Self {
        let ranks = Grc::new(Ranks::default());
        Heap {
            keys: BinaryHeap::new(ranks.clone()),
            ranks,
        }
    }
}

impl Answers for Heap {
    fn answer(&mut self, call: &[&str]) -> Answer {
        match *call {
            ["push", key] => done(self.keys.push(key.parse().ok()?)),
            ["up", key] => done(self.keys.up(key.parse().ok()?)),
            ["down", key] => done(self.keys.down(key.parse().ok()?)),
            ["update", key] => done(self.keys.update(key.parse().ok()?)),
            ["clear"] => done(self.keys.clear()),
            ["len"] => said(self.keys.len()),
            ["is_empty"] => said(self.keys.is_empty()),
            ["pop"] => said(self.keys.pop().map_or("none".to_string(), |key| key.to_string())),
            ["rank", key, rank] => {
                self.ranks.0.borrow_mut().insert(key.parse().ok()?, rank.parse().ok()?);
                done(())
            }
            ["elements"] => {
                let mut keys = self.keys.elements().to_vec();
                keys.sort();
                list(keys.iter().map(u32::to_string), ['[', ']'])
            }
            _ => None,
        }
    }
}

// The index allocator.

#[derive(Default)]
struct Allocator {
    values: Gallocator<u64>,
    /// How many values there are, which the crate does not tell.
    len: usize,
}

impl Answers for Allocator {
    fn answer(&mut self, call: &[&str]) -> Answer {
        match *call {
            ["alloc", value] => {
                self.len += 1;
                said(self.values.alloc(value.parse().ok()?))
            }
            ["len"] => said(self.len),
            ["gc"] => {
                let mut moves: Vec<(usize, usize)> = self.values.gc().into_iter().collect();
                moves.sort();
                self.len = moves.len();
                list(moves.iter().map(|(from, to)| format!("{from}:{to}")), ['{', '}'])
            }
            [name, index, ..] => {
                let index: usize = index.parse().ok()?;
                match (name, &call[2..]) {
                    ("dealloc" | "is_removed" | "read", []) | ("write", [_]) if index >= self.len => skipped(),
                    ("dealloc", []) => done(self.values.dealloc(index)),
                    ("is_removed", []) => said(self.values.is_removed(index)),
                    ("read", []) => said(self.values[index]),
                    ("write", [value]) => done(self.values[index] = value.parse().ok()?),
                    _ => None,
                }
            }
            _ => None,
        }
    }
}

// Bit vectors.

struct Bits(BitVec);

fn bit(text: &str) -> Option<bool> {
    Some(text.parse::<u8>().ok()? != 0)
}

/// The bits of a text, the first one first.
fn bits(text: &str) -> Option<Vec<bool>> {
    text.chars().map(|digit| bit(digit.encode_utf8(&mut [0; 4]))).collect()
}

/// The vector that has this text, which begins with the last bit.
fn vector(text: &str) -> Option<BitVec> {
    Some(BitVec::from(bits(text)?.iter().rev()))
}

impl Bits {
    fn replace(&mut self, other: BitVec) -> Answer {
        self.0 = other;
        done(())
    }

    /// Logic with another vector of the same length, by value and by assignment, which have to agree.
    fn combine(&mut self, name: &str, other: BitVec) -> Answer {
        if other.len() != self.0.len() {
            return skipped();
        }
        let old = self.0.clone();
        let by_value = match name {
            "and" => {
                self.0 &= &other;
                old & other
            }
            "or" => {
                self.0 |= &other;
                old | other
            }
            _ => {
                self.0 ^= &other;
                old ^ other
            }
        };
        if by_value == self.0 {
            done(())
        } else {
            said("by value and by assignment differ")
        }
    }

    /// What an iterator gives from the front (`n`) and from the back (`b`): a bit, or `-`.
    fn walk(&self, steps: &str) -> Answer {
        let mut bits = self.0.iter();
        steps
            .chars()
            .map(|step| {
                let bit = match step {
                    'n' => bits.next(),
                    'b' => bits.next_back(),
                    _ => return None,
                };
                Some(bit.map_or('-', |bit| if bit { '1' } else { '0' }))
            })
            .collect()
    }
}

impl Answers for Bits {
    fn answer(&mut self, call: &[&str]) -> Answer {
        let v = &mut self.0;
        match *call {
            ["push", item] => done(v.push(bit(item)?)),
            ["push_word", _] if v.len() % 64 != 0 => skipped(),
            ["push_word", word] => done(v.push_word(word.parse().ok()?)),
            ["extend", items] => done(v.extend(bits(items)?)),
            ["clear"] => done(v.clear()),
            ["set", index, _] | ["get", index] if index.parse::<usize>().ok()? >= v.len() => skipped(),
            ["set", index, item] => done(v.set(index.parse().ok()?, bit(item)?)),
            ["get", index] => said(v.get(index.parse().ok()?)),
            ["invert"] => {
                let negated = !&*v;
                self.replace(negated)
            }
            [name @ ("and" | "or" | "xor"), other] => self.combine(name, vector(other)?),
            ["len"] => said(v.len()),
            ["word_len"] => said(v.word_len()),
            ["to_usize"] => said(v.to_usize()),
            ["is_empty"] => said(v.is_empty()),
            ["is_zero" | "is_one" | "is_ones"] if v.is_empty() => skipped(),
            ["is_zero"] => said(v.is_zero()),
            ["is_one"] => said(v.is_one()),
            ["is_ones"] => said(v.is_ones()),
            ["try_bool"] => said(v.try_bool().map_or("none".to_string(), |bit| format!("some {bit}"))),
            ["bin"] => said(&*v),
            ["hex"] => said(format!("{v:x}")),
            ["HEX"] => said(format!("{v:X}")),
            ["iter", steps] => self.walk(steps),
            ["from", items] => self.replace(BitVec::from(&bits(items)?)),
            ["from_elem", len, item] => self.replace(BitVec::from_elem(len.parse().ok()?, bit(item)?)),
            ["from_usize", len, word] => self.replace(BitVec::from_usize(len.parse().ok()?, word.parse().ok()?)),
            ["zero", len] => self.replace(BitVec::zero(len.parse().ok()?)),
            ["ones" | "one", "0"] => skipped(),
            ["ones", len] => self.replace(BitVec::ones(len.parse().ok()?)),
            ["one", len] => self.replace(BitVec::one(len.parse().ok()?)),
            _ => None,
        }
    }
}

// The program.

/// Answers each line, and tells whether all were calls.
fn answer_all(container: &mut dyn Answers) -> io::Result<bool> {
    let mut out = io::BufWriter::new(io::stdout().lock());
    let mut are_calls = true;
    for line in io::stdin().lock().lines() {
        let answer = container.answer(&line?.split(' ').collect::<Vec<_>>());
        are_calls &= answer.is_some();
        writeln!(out, "{}", answer.as_deref().unwrap_or("bad"))?;
    }
    out.flush()?;
    Ok(are_calls)
}

fn main() -> ExitCode {
    let words: Vec<String> = std::env::args().skip(1).collect();
    let mut container: Box<dyn Answers> = match words.iter().map(String::as_str).collect::<Vec<_>>()[..] {
        ["heap"] => Box::new(Heap::new()),
        ["bits"] => Box::new(Bits(BitVec::new())),
        ["galloc"] => Box::new(Allocator::default()),
        _ => {
            eprintln!("usage: giputils-oracle heap|bits|galloc");
            return ExitCode::from(2);
        }
    };
    match answer_all(&mut *container) {
        Ok(true) => ExitCode::SUCCESS,
        Ok(false) => ExitCode::from(2),
        Err(error) => {
            eprintln!("giputils-oracle: {error}");
            ExitCode::FAILURE
        }
    }
}
