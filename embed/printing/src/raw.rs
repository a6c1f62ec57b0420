//! The function of the library, with the safe function that calls it. A slice is a
//! pointer and then a length.

use crate::Error;

mod library {
    extern "C" {
        pub fn hoard_list(
            catalogue: *const u32,
            cells: usize,
            list: *mut u32,
            length: usize,
        ) -> u64;
    }
}

/// The word of a refusal.
const REFUSED: u32 = 4;

/// How many pieces were listed.
#[inline]
pub(crate) fn hoard_list(catalogue: &[u32], list: &mut [u32]) -> Result<usize, Error> {
    // SAFETY: each pointer comes with the length of the slice that it is of, and the list
    // is lent by `&mut`, so it does not overlap the catalogue.
    let answer = unsafe {
        library::hoard_list(catalogue.as_ptr(), catalogue.len(), list.as_mut_ptr(), list.len())
    };
    let (word, number) = ((answer >> 32) as u32, answer as u32);
    if word == REFUSED {
        Err(Error::of(number))
    } else {
        Ok(number as usize)
    }
}
