//! The Rust, lifted at build time, over stand-ins for the modules that are not at hand.

pub mod algebra;
pub mod atomic_choice;
pub mod copying;
mod extremum;
pub mod operand_evaluation;

// The heap of the program that this is compiled into.
pub(crate) use crate::heap;
pub use extremum::{ExtremaMeasure, ExtremumCut, ExtremumCutRule, ExtremumRow};
pub use theory::{
    AdmissionLimits, FormulaParts, Interpretation, Node, NodeView, NumericDomain, OperandSpan,
    Theory, Threshold,
};

include!(concat!(env!("OUT_DIR"), "/lifted.rs"));

/// The work bound of a module that is not at hand; the meter never stops.
pub struct EvaluationWorkspace;

impl EvaluationWorkspace {
    pub fn work_bound(_: &Theory) -> u128 {
        0
    }
}
