//! The codes of the source papers: what is printed there of them, and what follows from a formula or a
//! second, plain method, compared with the engine's answers. No expected value comes from the engine.

mod codes;
mod corpora;
mod flat;
mod flattened;
mod full2;
mod graphs;
mod plain;
mod summary;
mod table3;
mod worked;
