//! Tests of circuits, witnesses and invariants as texts, where what is written is read again; of answers, which a lost write
//! or an observer ends; and examples.
mod again;
mod converted;
mod justice;
mod live;
mod lost;
mod numbered;
mod observers;
mod refused;
mod written;
