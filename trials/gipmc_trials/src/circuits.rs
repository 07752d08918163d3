//! Tests of circuits, of their parts, of what is left where equal variables are merged, and of the longer circuits that
//! show liveness; and examples of each.
mod built;
mod carried;
mod chances;
mod chosen;
mod copies;
mod examples;
mod limited;
mod longer;
mod numbers;
mod uses;
mod widths;
