//! coupe's refiners, unchanged, without the rest of coupe. build.sh copies them
//! into target/coupe; this file, descending.rs and main.rs alone are written by hand.
#![allow(dead_code)]

#[path = "../target/coupe"]
mod algorithms {
    include!("../target/coupe/error.rs");
    pub mod arc_swap;
    pub mod fiduccia_mattheyses;
    pub mod fm_btree;
    pub mod fm_low;
    pub mod kernighan_lin;
}
#[path = "../target/coupe/defer.rs"]
mod defer;
pub mod descending;
#[path = "../target/coupe/imbalance.rs"]
pub mod imbalance;
#[path = "../target/coupe/topology/mod.rs"]
mod topology;
#[path = "../target/coupe/work_share.rs"]
mod work_share;

pub use algorithms::*;
pub use topology::Topology;

include!("../target/coupe/lib_tail.rs");
