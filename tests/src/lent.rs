//! What a call puts at the start of a lent slice.

use crate::sheet::{Part, Refusal};

/// Puts a result at the start of the out slice and answers its length; refusal 21, with nothing changed, where it does not fit.
pub fn fill(out: &mut [u8], result: &[u8]) -> Result<usize, Refusal> {
    room(Part::Out, out.len(), result.len())?;
    out[..result.len()].copy_from_slice(result);
    Ok(result.len())
}

/// Refusal 21 where the slice lent for a part has fewer cells than are needed.
pub fn room(part: Part, lent: usize, needed: usize) -> Result<(), Refusal> {
    if lent < needed {
        return Err(Refusal { number: 21, part, place: needed });
    }
    Ok(())
}
