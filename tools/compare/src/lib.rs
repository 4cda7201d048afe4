//! The made fonts of the comparison and their damaged copies, for tools/fuzz: the same files as in main.rs, and what these need.

#![allow(dead_code)]

pub mod blocking_cases;
mod bodies;
pub mod cases;
mod cut;
mod cut_model;
mod cut_model_bodies;
mod cut_model_codes;
mod cut_model_dicts;
pub mod damage;
mod decimal;
pub mod domain;
pub mod fonts;
pub mod heavy;
mod hooked;
mod layout;
pub mod model;
mod numbers;
mod original;
mod record;
pub mod small_fonts;
pub mod trace_edges;

#[path = "../../oracle/src/generator.rs"]
pub mod generator;

// `rustfmt::skip` keeps cargo fmt out of docs/src.
#[rustfmt::skip]
#[path = "../../../docs/src/crates/efterscript-fonts/src/cff/mod.rs"]
mod cff;
include!("../../oracle/src/siblings.rs");
