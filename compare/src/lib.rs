//! The proved scorer of LGT sheets beside an implementation written apart.
//!
//! `reference` scores a sheet in ordinary Rust, written from the rules alone, its gene tree as lines or as Newick text, with a history or
//! without. `enumeration` scores small sheets once more by the definitions, setting by setting; `histories` lists all histories of small
//! families, and `replay` checks one. `families`, `extremes`, `trees` and `damage` make sheets and texts, `worked`, `worked_newick`,
//! `worked_history` and `limits` hold those worked out by hand, `proved` calls the static library. `calls` is a call by either side,
//! `comparing` compares one, `differential` says on which, and `tally` counts. `workloads` are what `benchmark` times. `outcome` is what
//! a call comes to as test programs show it, and `corpus`, `history_test`, `newick_test` and `random_test` write what those have to read
//! and write.

pub mod benchmark;
pub mod calls;
pub mod comparing;
pub mod corpus;
pub mod damage;
pub mod differential;
pub mod enumeration;
pub mod extremes;
pub mod families;
pub mod histories;
pub mod history_test;
pub mod limits;
pub mod newick_test;
pub mod outcome;
pub mod proved;
pub mod random;
pub mod random_test;
pub mod reference;
pub mod replay;
pub mod tally;
pub mod test_program;
pub mod trees;
pub mod worked;
pub mod worked_history;
pub mod worked_newick;
pub mod workloads;
