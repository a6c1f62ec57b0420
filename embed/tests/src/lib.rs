//! The register beside the other implementation. Each call is made of both; the
//! answers, and every lent cell and byte, are compared after it. After a refused
//! call, an Ask and a next they are compared with what they were before.

pub mod hostile;
mod pair;
mod planned;
mod same;

pub use pair::Pair;
pub use planned::{look, used, Look};
pub use same::{answer, record_read, record_written, register_step};

use other::Sizes;

/// Every size of a room.
pub fn every_size() -> impl Iterator<Item = Sizes> {
    let all = (1..=16).flat_map(|slots| (1..=7).map(move |drives| (drives, slots)));
    all.flat_map(|(drives, slots)| (1..=4).map(move |servers| Sizes { servers, drives, slots }))
}

/// The sizes as 32-bit numbers.
pub fn numbers(sizes: Sizes) -> (u32, u32, u32) {
    (sizes.servers as u32, sizes.drives as u32, sizes.slots as u32)
}
