//! The truth of And and Or: operands are read up to the first that decides.

pub fn reduce<E>(
    operands: &[usize],
    conjunction: bool,
    mut read: impl FnMut(usize) -> Result<bool, E>,
) -> Result<bool, E> {
    for &operand in operands {
        if read(operand)? != conjunction {
            return Ok(!conjunction);
        }
    }
    Ok(conjunction)
}
