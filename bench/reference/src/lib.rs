//! coupe's refiners and measures, unchanged, behind C functions (reference.h). The graph comes in the types that coupe
//! wants, so that no conversion is counted with its work. Each function is to be called inside `reference_inside`,
//! on the one thread of a rayon pool.

use oracle::arc_swap::ArcSwap;
use oracle::kernighan_lin::KernighanLin;
use oracle::{Partition as _, Topology as _};
use rayon::iter::{IntoParallelRefIterator as _, ParallelIterator as _};
use sprs::CsMatView;
use std::slice::{from_raw_parts, from_raw_parts_mut};

/// Runs `work` on the thread of a pool of one.
#[unsafe(no_mangle)]
pub extern "C" fn reference_inside(work: extern "C" fn()) {
    let pool = rayon::ThreadPoolBuilder::new().num_threads(1).build().unwrap();
    pool.install(|| work());
}

/// A graph in coupe's types. KL alone is on f64, as coupe has it.
#[repr(C)]
pub struct Graph {
    n: usize,
    a: usize,
    starts: *const usize,
    neighbours: *const usize,
    arc_weights: *const i64,
    weights: *const i64,
    float_arc_weights: *const f64,
    float_weights: *const f64,
}

impl Graph {
    /// The rows over lent lists, for coupe's own topology/sprs.rs.
    unsafe fn rows<E>(&self, arc_weights: *const E) -> CsMatView<'_, E> {
        unsafe {
            CsMatView {
                indptr: from_raw_parts(self.starts, self.n + 1),
                indices: from_raw_parts(self.neighbours, self.a),
                data: from_raw_parts(arc_weights, self.a),
            }
        }
    }
    unsafe fn matrix(&self) -> CsMatView<'_, i64> {
        unsafe { self.rows(self.arc_weights) }
    }
    unsafe fn weights(&self) -> &[i64] {
        unsafe { from_raw_parts(self.weights, self.n) }
    }
}

/// What a run answers. Of FM: passes, moves and rewound moves. Of arc-swap: passes and its four counts.
#[repr(C)]
pub struct Run {
    passes: u64,
    counts: [u64; 4],
}

macro_rules! fm {
    ($name:ident, $module:ident) => {
        #[unsafe(no_mangle)]
        pub unsafe extern "C" fn $name(
            graph: &Graph,
            labels: *mut usize,
            passes: usize,
            moves: usize,
            bad: usize,
            imbalance: f64,
        ) -> Run {
            unsafe {
                let mut fm = oracle::$module::FiducciaMattheyses::default();
                fm.max_passes = Some(passes);
                fm.max_moves_per_pass = Some(moves);
                fm.max_imbalance = Some(imbalance);
                fm.max_bad_move_in_a_row = bad;
                let labels = from_raw_parts_mut(labels, graph.n);
                let m = fm.partition(labels, (graph.matrix(), graph.weights())).unwrap();
                let made: usize = m.moves_per_pass.iter().sum();
                let rewound: usize = m.rewinded_moves_per_pass.iter().sum();
                Run {
                    passes: m.moves_per_pass.len() as u64,
                    counts: [made as u64, rewound as u64, 0, 0],
                }
            }
        }
    };
}
fm!(reference_fm, fiduccia_mattheyses);
fm!(reference_fm_lowest, fm_low);

/// KL. It panics, and the process ends, where a part runs out of vertices.
#[unsafe(no_mangle)]
pub unsafe extern "C" fn reference_kl(graph: &Graph, labels: *mut usize, passes: usize, swaps: usize, bad: usize) {
    unsafe {
        let mut kl = KernighanLin {
            max_passes: Some(passes),
            max_flips_per_pass: Some(swaps),
            max_imbalance_per_flip: None,
            max_bad_move_in_a_row: bad,
        };
        let labels = from_raw_parts_mut(labels, graph.n);
        let weights = from_raw_parts(graph.float_weights, graph.n);
        let Ok(()) = kl.partition(labels, (graph.rows(graph.float_arc_weights), weights));
    }
}

#[unsafe(no_mangle)]
pub unsafe extern "C" fn reference_arc_swap(graph: &Graph, labels: *mut usize, imbalance: f64) -> Run {
    unsafe {
        let labels = from_raw_parts_mut(labels, graph.n);
        let m = ArcSwap { max_imbalance: Some(imbalance) }
            .partition(labels, (graph.matrix(), graph.weights()))
            .unwrap();
        let counts = [m.move_attempts, m.move_count, m.no_gain_count, m.bad_balance_count];
        Run {
            passes: m.pass_count as u64,
            counts: counts.map(|c| c as u64),
        }
    }
}

#[unsafe(no_mangle)]
pub unsafe extern "C" fn reference_edge_cut(graph: &Graph, labels: *const usize) -> i64 {
    unsafe { graph.matrix().edge_cut(from_raw_parts(labels, graph.n)) }
}

#[unsafe(no_mangle)]
pub unsafe extern "C" fn reference_lambda_cut(graph: &Graph, labels: *const usize) -> i64 {
    unsafe {
        let weights = graph.weights().par_iter().cloned();
        graph.matrix().lambda_cut(from_raw_parts(labels, graph.n), weights)
    }
}

/// The loads of the first `parts` parts.
#[unsafe(no_mangle)]
pub unsafe extern "C" fn reference_loads(graph: &Graph, labels: *const usize, parts: usize, loads: *mut i64) {
    unsafe {
        let weights = graph.weights().par_iter().cloned();
        let sums = oracle::imbalance::compute_parts_load(from_raw_parts(labels, graph.n), parts, weights);
        from_raw_parts_mut(loads, parts).copy_from_slice(&sums);
    }
}
