//! Searches by the library, and how many were made.

use crate::plane::Pair;
use belt::Refusal;

/// Makes searches and counts them.
pub(crate) struct Search {
    /// The blocks of the frame.
    blocks: usize,
    /// The blocks that were searched.
    searched: usize,
    /// The words of the first search, where it was made already.
    known: Option<Vec<u32>>,
    threads: usize,
    input_half: Vec<u16>,
    ref_half: Vec<u16>,
}

impl Search {
    /// For a frame of so many blocks, whose first search may have been made already, on so many threads.
    pub(crate) fn new(blocks: usize, known: Option<&[u32]>, threads: usize) -> Self {
        let known = known.map(<[u32]>::to_vec);
        Self { blocks, searched: 0, known, threads, input_half: Vec::new(), ref_half: Vec::new() }
    }

    /// The motion of each block of the first plane in the second: a word for each.
    pub(crate) fn words(&mut self, pair: Pair<'_>) -> Result<Vec<u32>, Refusal> {
        let (width, height) = (pair.first.width, pair.first.height);
        let (samples, half) = (belt::sample_count(width, height), belt::half_plane_values(width, height));
        self.searched += samples;
        if let Some(words) = self.known.take() {
            return Ok(words);
        }
        self.input_half.resize(half, 0);
        self.ref_half.resize(half, 0);
        let mut words = vec![0; samples];
        belt::search_parallel(
            &pair.first.pels,
            &pair.second.pels,
            width,
            height,
            &vec![belt::UNSORTED; samples],
            &mut self.input_half,
            &mut self.ref_half,
            &mut words,
            self.threads,
        )?;
        Ok(words)
    }

    /// How many searches of the whole frame were made; one of the half planes is a quarter.
    pub(crate) fn spent(&self) -> f64 {
        self.searched as f64 / self.blocks.max(1) as f64
    }
}
