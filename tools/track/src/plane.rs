//! Planes of 16 bits a pel: halved, moved by whole pels, and pairs of them.

use belt::BLOCK_SIDE;

/// A picture in memory, row by row.
#[derive(Clone, Debug, PartialEq, Eq)]
pub(crate) struct Plane {
    pub(crate) width: usize,
    pub(crate) height: usize,
    pub(crate) pels: Vec<u16>,
}

impl Plane {
    /// The whole blocks of a row of blocks.
    pub(crate) fn columns(&self) -> usize {
        self.width / BLOCK_SIDE
    }

    /// How many whole blocks it has.
    pub(crate) fn blocks(&self) -> usize {
        belt::sample_count(self.width, self.height)
    }

    /// The first pel of a block, across and down.
    pub(crate) fn corner(&self, block: usize) -> (usize, usize) {
        (block % self.columns() * BLOCK_SIDE, block / self.columns() * BLOCK_SIDE)
    }

    /// The pels of a row.
    #[inline]
    pub(crate) fn row(&self, y: usize) -> &[u16] {
        &self.pels[y * self.width..][..self.width]
    }

    /// The row nearest to a place.
    #[inline]
    pub(crate) fn row_near(&self, y: isize) -> &[u16] {
        self.row(y.clamp(0, self.height as isize - 1) as usize)
    }

    /// Halved sides, rounded down; each value is the mean of four.
    pub(crate) fn halved(&self) -> Self {
        let (width, height) = (self.width / 2, self.height / 2);
        let mut pels = Vec::with_capacity(width * height);
        for y in 0..height {
            let rows = self.row(2 * y).chunks_exact(2).zip(self.row(2 * y + 1).chunks_exact(2));
            let mean = |(top, bottom): (&[u16], &[u16])| {
                let sum: u32 = [top[0], top[1], bottom[0], bottom[1]].into_iter().map(u32::from).sum();
                ((sum + 2) / 4) as u16
            };
            pels.extend(rows.map(mean));
        }
        Self { width, height, pels }
    }

    /// What it shows so many pels further right and down, its edges repeated.
    pub(crate) fn moved(&self, right: isize, down: isize) -> Self {
        let mut pels = Vec::with_capacity(self.pels.len());
        let last = self.width as isize - 1;
        for y in 0..self.height as isize {
            let row = self.row_near(y + down);
            pels.extend((0..=last).map(|x| row[(x + right).clamp(0, last) as usize]));
        }
        Self { pels, ..*self }
    }
}

/// Two planes of the same sides, and for each whole block whether it counts.
#[derive(Clone, Copy, Debug)]
pub(crate) struct Pair<'a> {
    pub(crate) first: &'a Plane,
    pub(crate) second: &'a Plane,
    pub(crate) kept: &'a [bool],
}

impl Pair<'_> {
    /// The same pair the other way round.
    pub(crate) fn exchanged(self) -> Self {
        Self { first: self.second, second: self.first, ..self }
    }
}

/// Two planes halved.
#[derive(Clone, Debug)]
pub(crate) struct Halved {
    first: Plane,
    second: Plane,
    kept: Vec<bool>,
}

impl Halved {
    pub(crate) fn of(pair: Pair<'_>) -> Self {
        let (first, second) = (pair.first.halved(), pair.second.halved());
        let kept = kept_halved(pair.kept, pair.first, &first);
        Self { first, second, kept }
    }

    pub(crate) fn pair(&self) -> Pair<'_> {
        Pair { first: &self.first, second: &self.second, kept: &self.kept }
    }
}

/// Which blocks of a halved plane count: those whose four blocks do.
fn kept_halved(kept: &[bool], plane: &Plane, halved: &Plane) -> Vec<bool> {
    let (columns, fine) = (halved.columns(), plane.columns());
    let whole = |block: usize| {
        let corner = 2 * (block / columns) * fine + 2 * (block % columns);
        [0, 1, fine, fine + 1].into_iter().all(|step| kept[corner + step])
    };
    (0..halved.blocks()).map(whole).collect()
}

/// Which blocks still count if the second plane is seen so many pels further right and down: not those that would be
/// seen outside it.
pub(crate) fn kept_moved(kept: &[bool], plane: &Plane, right: isize, down: isize) -> Vec<bool> {
    let inside = |from: usize, by: isize, side: usize| {
        let from = from as isize + by;
        from >= 0 && from + BLOCK_SIDE as isize <= side as isize
    };
    let seen = |block: usize| {
        let (x, y) = plane.corner(block);
        inside(x, right, plane.width) && inside(y, down, plane.height)
    };
    kept.iter().enumerate().map(|(block, &kept)| kept && seen(block)).collect()
}

#[cfg(test)]
mod tests {
    use super::*;

    fn plane(width: usize, height: usize) -> Plane {
        Plane { width, height, pels: (0..width * height).map(|i| i as u16).collect() }
    }

    #[test]
    fn a_half_is_the_mean_of_four() {
        assert_eq!(plane(5, 3).halved().pels, [3, 5]);
        assert_eq!(plane(1, 9).halved().pels, []);
    }

    #[test]
    fn a_moved_plane_repeats_its_edges() {
        let plane = plane(3, 2);
        assert_eq!(plane.moved(1, 0).pels, [1, 2, 2, 4, 5, 5]);
        assert_eq!(plane.moved(-9, 9).pels, [3, 3, 3, 3, 3, 3]);
    }

    #[test]
    fn blocks_that_leave_the_picture_do_not_count() {
        let plane = plane(48, 32);
        assert_eq!(kept_moved(&[true; 6], &plane, 1, 0), [true, true, false, true, true, false]);
        assert_eq!(kept_moved(&[true; 6], &plane, 0, -1), [false, false, false, true, true, true]);
        assert_eq!(kept_moved(&[true; 6], &plane, -99, 0), [false; 6]);
        assert_eq!(kept_halved(&[true; 6], &plane, &plane.halved()), [true]);
        assert_eq!(kept_halved(&[true, true, false, true, false, true], &plane, &plane.halved()), [false]);
    }
}
