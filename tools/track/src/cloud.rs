//! Words as places and motions, and how far they lie from a model.

use crate::model::Model;
use belt::MotionSample;

/// A list of words with what they say, each number a list of its own.
#[derive(Clone, Debug, Default)]
pub(crate) struct Cloud {
    pub(crate) words: Vec<u32>,
    pub(crate) x: Vec<f32>,
    pub(crate) y: Vec<f32>,
    pub(crate) u: Vec<f32>,
    pub(crate) v: Vec<f32>,
}

impl FromIterator<u32> for Cloud {
    fn from_iter<I: IntoIterator<Item = u32>>(words: I) -> Self {
        let mut cloud = Self::default();
        for word in words {
            let MotionSample { x, y, u, v } = MotionSample::of_word(word);
            cloud.words.push(word);
            cloud.x.push(x as f32);
            cloud.y.push(y as f32);
            cloud.u.push(u as f32);
            cloud.v.push(v as f32);
        }
        cloud
    }
}

impl Cloud {
    pub(crate) fn len(&self) -> usize {
        self.words.len()
    }

    /// For each word the square of its distance from a model, in square pels.
    pub(crate) fn squares(&self, model: &Model) -> impl Iterator<Item = f32> {
        let [m0, m1, m2, m3, m4, m5] = model.numbers;
        let [a, b, c, d, e, f] = [m0, m2 - 1.0, m3, m1, m4, m5 - 1.0].map(|number| number as f32);
        let places = self.x.iter().zip(&self.y).zip(self.u.iter().zip(&self.v));
        places.map(move |((x, y), (u, v))| {
            let (off_u, off_v) = (b * x + c * y + a - u, e * x + f * y + d - v);
            off_u * off_u + off_v * off_v
        })
    }

    /// How many words lie within so many pels of a model.
    pub(crate) fn agreeing(&self, model: &Model, within: f32) -> usize {
        self.squares(model).filter(|&square| square <= within * within).count()
    }

    /// The words that lie within so many pels of a model, in their order, put into a list.
    pub(crate) fn within(&self, model: &Model, within: f32, words: &mut Vec<u32>) {
        let near = self.words.iter().zip(self.squares(model)).filter(|(_, square)| *square <= within * within);
        words.clear();
        words.extend(near.map(|(word, _)| word));
    }

    /// The words further than so many pels from a model.
    pub(crate) fn beyond(&self, model: &Model, within: f32) -> Self {
        let far = self.words.iter().zip(self.squares(model)).filter(|(_, square)| *square > within * within);
        far.map(|(&word, _)| word).collect()
    }

    /// About so many of its words, evenly chosen.
    pub(crate) fn thinned(&self, most: usize) -> Self {
        let step = self.len().div_ceil(most.max(1)).max(1);
        self.words.iter().copied().step_by(step).collect()
    }
}

#[cfg(test)]
mod tests {
    use super::*;

    #[test]
    fn distances_are_the_librarys() {
        let words: Vec<u32> =
            (0..40u32).map(|i| (i % 8) << 26 | (i % 5) << 20 | (i * 11 % 447) << 11 | (i * 7 % 447) << 2).collect();
        let cloud: Cloud = words.iter().copied().collect();
        let grid = belt::Model([70_000, -30_000, 66_000, 100, -2_000, 65_000]);
        let model = Model { gm_type: 3, numbers: grid.0.map(|number| f64::from(number) / 65536.0) };
        for pels in [1.0, 10.0, 25.0] {
            assert_eq!(cloud.agreeing(&model, pels as f32), grid.agreeing(&words, pels));
        }
        let mut near = Vec::new();
        cloud.within(&model, 20.0, &mut near);
        assert_eq!(near.len() + cloud.beyond(&model, 20.0).len(), 40);
        assert_eq!(cloud.thinned(39).len(), 20);
        assert_eq!(cloud.thinned(40).len(), 40);
        assert_eq!(Cloud::default().thinned(0).len(), 0);
    }
}
