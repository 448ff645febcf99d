//! Copies of the theory's columns.

use super::theory::AdmissionError;

pub fn copy<T: Clone>(values: &[T]) -> Result<Vec<T>, AdmissionError> {
    Ok(values.to_vec())
}
