//! The limit: a plain pass of maximum and sum in eight independent lanes, block by block. (Both in one loop, in eight
//! or sixteen lanes, is slower where a maximum of unsigned numbers takes several instructions.)

const LANES: usize = 8;
const BLOCK: usize = 96;

fn add(highest: &mut [u32; LANES], sums: &mut [u64; LANES], block: &[u32]) {
    for lanes in block.chunks_exact(LANES) {
        for (top, &reading) in highest.iter_mut().zip(lanes) {
            *top = (*top).max(reading);
        }
    }
    for lanes in block.chunks_exact(LANES) {
        for (sum, &reading) in sums.iter_mut().zip(lanes) {
            *sum += reading as u64;
        }
    }
}

/// The highest reading and the sum of a series of whole blocks.
#[inline(never)]
pub fn pass(series: &[u32]) -> (u32, u64) {
    let mut highest = [0; LANES];
    let mut sums = [0; LANES];
    for block in series.chunks_exact(BLOCK) {
        add(&mut highest, &mut sums, block);
    }
    (highest.iter().copied().fold(0, u32::max), sums.iter().sum())
}
