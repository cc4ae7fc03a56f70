//! Models of motion before any grid, and how far apart they are over a picture.

use belt::{Fitted, Motion};

/// The type without motion.
pub(crate) const IDENTITY: u8 = 0;
/// The type of one motion for all.
pub(crate) const TRANSLATION: u8 = 1;
/// The type with one turn and one zoom.
pub(crate) const ROTZOOM: u8 = 2;
/// The type with any linear part.
pub(crate) const AFFINE: u8 = 3;

/// The types that are fitted.
pub(crate) const TYPES: [u8; 3] = [TRANSLATION, ROTZOOM, AFFINE];

/// A model of motion from the first frame to the second, x first (docs/RULES.md, 'Model'), in pels and before the grid:
/// what the first frame shows at (x, y) stands at (m2·x + m3·y + m0, m4·x + m5·y + m1) in the second.
#[derive(Clone, Copy, Debug, PartialEq)]
pub struct Model {
    /// 0 identity, 1 translation, 2 rotation-zoom, 3 affine.
    pub gm_type: u8,
    /// m0 to m5; those that the type doesn't have are the identity's.
    pub numbers: [f64; 6],
}

impl Model {
    /// No motion.
    pub const IDENTITY: Self = Self { gm_type: IDENTITY, numbers: [0.0, 0.0, 1.0, 0.0, 0.0, 1.0] };

    /// One motion for all.
    pub(crate) fn translation(right: f64, down: f64) -> Self {
        Self { gm_type: TRANSLATION, numbers: [right, down, 1.0, 0.0, 0.0, 1.0] }
    }

    /// A rotation-zoom.
    pub(crate) fn rotzoom(m0: f64, m1: f64, m2: f64, m3: f64) -> Self {
        Self { gm_type: ROTZOOM, numbers: [m0, m1, m2, m3, -m3, m2] }
    }

    /// What a fit of the library says, if all of it is finite.
    pub fn of_fitted(fitted: &Fitted) -> Option<Self> {
        let [m0, m1, m2, m3, ..] = fitted.numbers;
        let model = match fitted.gm_type {
            TRANSLATION => Self::translation(m0, m1),
            ROTZOOM => Self::rotzoom(m0, m1, m2, m3),
            gm_type => Self { gm_type, numbers: fitted.numbers },
        };
        model.numbers.iter().all(|number| number.is_finite()).then_some(model)
    }

    /// How many numbers its type has.
    pub(crate) fn parameters(&self) -> usize {
        2 * usize::from(self.gm_type)
    }

    /// Its motion at a place, in pels. The origin is the centre of the first pel.
    pub fn motion_at(&self, x: f64, y: f64) -> Motion {
        let [m0, m1, m2, m3, m4, m5] = self.numbers;
        Motion { u: (m2 - 1.0) * x + m3 * y + m0, v: m4 * x + (m5 - 1.0) * y + m1 }
    }

    /// Its motion in the middle of a picture.
    pub fn middle(&self, width: usize, height: usize) -> Motion {
        self.motion_at((width as f64 - 1.0) / 2.0, (height as f64 - 1.0) / 2.0)
    }

    /// Its zoom, above 1 for a load that grew; of an affine model, that of the rotation-zoom nearest to it.
    pub fn zoom(&self) -> f64 {
        let (along, across) = self.nearest_rotzoom();
        along.hypot(across)
    }

    /// Its turn in degrees, clockwise on a screen; of an affine model, as for [`Model::zoom`].
    pub fn degrees(&self) -> f64 {
        let (along, across) = self.nearest_rotzoom();
        across.atan2(along).to_degrees()
    }

    fn nearest_rotzoom(&self) -> (f64, f64) {
        let [_, _, m2, m3, m4, m5] = self.numbers;
        ((m2 + m5) / 2.0, (m4 - m3) / 2.0)
    }

    /// How far its linear part is from none: the largest of the four numbers.
    pub(crate) fn linear(&self) -> f64 {
        let [_, _, m2, m3, m4, m5] = self.numbers;
        [m2 - 1.0, m3, m4, m5 - 1.0].into_iter().fold(0.0, |most, number| number.abs().max(most))
    }

    /// The root of its motion's mean square over a picture, in pels.
    pub fn rms(&self, width: usize, height: usize) -> f64 {
        let [_, _, m2, m3, m4, m5] = self.numbers;
        let Motion { u, v } = self.middle(width, height);
        let spread = |side: usize| (side as f64 * side as f64 - 1.0).max(0.0) / 12.0;
        let across = (m2 - 1.0) * (m2 - 1.0) + m4 * m4;
        let down = m3 * m3 + (m5 - 1.0) * (m5 - 1.0);
        (u * u + v * v + across * spread(width) + down * spread(height)).sqrt()
    }

    /// The root of the mean square of what lies between its motion and another's over a picture, in pels.
    pub fn apart(&self, other: &Self, width: usize, height: usize) -> f64 {
        let mut between = Self { gm_type: AFFINE, ..*self };
        between.numbers.iter_mut().zip(other.numbers).for_each(|(number, other)| *number -= other);
        between.numbers[2] += 1.0;
        between.numbers[5] += 1.0;
        between.rms(width, height)
    }

    /// First this one, then another.
    pub(crate) fn then(&self, next: &Self) -> Self {
        let ([a0, a1, a2, a3, a4, a5], [b0, b1, b2, b3, b4, b5]) = (self.numbers, next.numbers);
        let numbers = [
            b2 * a0 + b3 * a1 + b0,
            b4 * a0 + b5 * a1 + b1,
            b2 * a2 + b3 * a4,
            b2 * a3 + b3 * a5,
            b4 * a2 + b5 * a4,
            b4 * a3 + b5 * a5,
        ];
        Self { gm_type: self.gm_type.max(next.gm_type), numbers }
    }

    /// The same motion on planes of twice the sides: a pel of a half plane lies between two.
    pub fn doubled(&self) -> Self {
        let [m0, m1, m2, m3, m4, m5] = self.numbers;
        let (m0, m1) = (2.0 * m0 - 0.5 * (m2 - 1.0 + m3), 2.0 * m1 - 0.5 * (m4 + m5 - 1.0));
        Self { numbers: [m0, m1, m2, m3, m4, m5], ..*self }
    }
}

#[cfg(test)]
mod tests {
    use super::*;

    const TURNED: Model = Model { gm_type: AFFINE, numbers: [3.0, -2.0, 1.01, -0.02, 0.03, 0.98] };

    fn near(one: Motion, other: (f64, f64)) {
        assert!((one.u - other.0).abs() < 1e-9 && (one.v - other.1).abs() < 1e-9, "{one:?} {other:?}");
    }

    #[test]
    fn the_rms_is_that_of_all_pels() {
        let (width, height) = (31, 20);
        let places = (0..width * height).map(|i| TURNED.motion_at((i % width) as f64, (i / width) as f64));
        let square = places.map(|Motion { u, v }| u * u + v * v).sum::<f64>() / (width * height) as f64;
        assert!((square.sqrt() - TURNED.rms(width, height)).abs() < 1e-9);
        assert_eq!(TURNED.apart(&TURNED, width, height), 0.0);
        assert_eq!(Model::translation(3.0, 4.0).apart(&Model::IDENTITY, width, height), 5.0);
        assert!((TURNED.apart(&Model::IDENTITY, width, height) - TURNED.rms(width, height)).abs() < 1e-9);
    }

    #[test]
    fn one_motion_follows_another() {
        let next = Model::rotzoom(-4.0, 1.5, 0.97, 0.05);
        let Motion { u, v } = TURNED.motion_at(100.0, -7.0);
        let then = next.motion_at(100.0 + u, -7.0 + v);
        near(TURNED.then(&next).motion_at(100.0, -7.0), (u + then.u, v + then.v));
        let (there, back) = (Model::translation(3.0, -2.5), Model::translation(-3.0, 2.5));
        assert_eq!(there.then(&back).rms(640, 480), 0.0);
    }

    #[test]
    fn a_half_planes_model_moves_twice_as_far() {
        // the half plane's pel 10, 4 is the full plane's place 20.5, 8.5
        let Motion { u, v } = TURNED.motion_at(10.0, 4.0);
        near(TURNED.doubled().motion_at(20.5, 8.5), (2.0 * u, 2.0 * v));
    }

    #[test]
    fn zoom_and_turn_are_the_librarys() {
        let model = belt::Model([0, 0, 65526, -1144, 1144, 65526]);
        let own = Model::rotzoom(0.0, 0.0, 65526.0 / 65536.0, -1144.0 / 65536.0);
        assert_eq!((own.zoom(), own.degrees()), (model.zoom(), model.degrees()));
    }

    #[test]
    fn fits_are_read_as_the_library_writes_them() {
        // blocks that move by a hundredth of their place
        let words: Vec<u32> = [(0, 0), (10, 0), (0, 10), (10, 10)]
            .map(|(row, column): (u32, u32)| row << 26 | column << 20 | (223 + row) << 11 | (223 + column) << 2)
            .into();
        for fitted in [belt::fit_rotzoom(&words), belt::fit_affine(&words)] {
            let model = Model::of_fitted(&fitted.unwrap()).unwrap();
            near(model.motion_at(7.5, 167.5), (0.0, 1.25));
            assert!((model.zoom() - (1.0 + 1.25 / 160.0)).abs() < 1e-9);
        }
        assert!(Model::of_fitted(&belt::fit_translation(&[]).unwrap()).is_none());
    }
}
