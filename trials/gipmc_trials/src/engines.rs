//! Tests of the engines: searches in slices and within bounds, what they are told to find out about several literals, and
//! observers that stop them; and examples.
mod bads;
mod bounded;
mod examples;
mod explicit;
mod found;
mod probed;
mod refusing;
mod several;
mod simulation;
mod slices;
mod small;
mod stopped;
mod stopper;
mod turns;
