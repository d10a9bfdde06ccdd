//! Every call of the table beside its reference, and what the documents say of single codes.

mod alike;
mod circuits;
mod demand3;
mod drivers;
mod editions;
mod listed;
mod methods;
mod partial;
mod round_trips;
mod stepped;
mod turned;
mod turns;
mod updates;
mod wear;
mod worked;
