//! A type that the caller names: fitted by the library to all blocks, or without those that lie far off, and counted if at
//! least half of them agree.

use crate::answer::{Answer, How, Status};
use crate::found::many_at_end;
use crate::model::Model;
use crate::warning::Warning;
use crate::{Options, Planes, Refused, refit};
use belt::{Motion, Sample};

/// Below this root of the mean square of the motion over the picture, in pels, a load stands still.
const STILL: f64 = 1.0 / 16.0;
/// The share of blocks that agree below which nothing is measured.
const FEW: f64 = 0.5;

/// A type that is named, and how it is fitted.
#[derive(Clone, Copy, Debug, PartialEq)]
pub struct Named {
    /// 1 translation, 2 rotation-zoom, 3 affine.
    pub gm_type: u8,
    /// Without the blocks that lie far off.
    pub is_trimmed: bool,
    /// A block agrees within so many pels.
    pub within: f64,
}

impl Named {
    /// The words that agree with a model.
    fn agreeing(&self, words: &[u32], model: &Model) -> Vec<u32> {
        let is_near = |word: &u32| {
            let Sample { x, y, motion, .. } = Sample::of_word(*word);
            let Motion { u, v } = model.motion_at(x, y);
            (motion.u - u).hypot(motion.v - v) <= self.within
        };
        words.iter().copied().filter(is_near).collect()
    }

    /// The model of some words, fitted again over those that agree, and how many do; nothing if none do.
    fn fit(&self, words: &[u32]) -> (Option<Model>, Model, usize) {
        let first = match self.is_trimmed {
            true => belt::fit_trimmed(self.gm_type, words).ok().and_then(|trimmed| Model::of_fitted(&trimmed.fitted)),
            false => refit::fit(self.gm_type, words),
        };
        let own = first.as_ref().map(|model| self.agreeing(words, model)).unwrap_or_default();
        let again = if own.is_empty() { None } else { refit::fit(self.gm_type, &own) };
        let agree = again.map_or(own.len(), |model| self.agreeing(words, &model).len());
        (again, again.or(first).unwrap_or(Model { gm_type: self.gm_type, ..Model::IDENTITY }), agree)
    }
}

impl Planes {
    /// The answer of a named type, by words that were searched already, one for each whole block: mostly those of the
    /// frames as they are. Of these planes it has what the parts of the picture do. `mask` says of each block whether it is left out.
    ///
    /// # Errors
    ///
    /// [`Refused`] where a list has the wrong length.
    pub fn named(&self, named: &Named, words: &[u32], mask: Option<&[bool]>) -> Result<Answer, Refused> {
        let found = self.measure(Some(words), &Options { fast: true, mask })?;
        let is_kept = |at: usize| !mask.is_some_and(|mask| mask[at]);
        let kept: Vec<u32> = words.iter().enumerate().filter(|(at, _)| is_kept(*at)).map(|(_, &word)| word).collect();
        let (fitted, model, agree) = named.fit(&kept);
        let status = match found.status {
            status @ (Status::Flat | Status::NoBlocks) => status,
            _ if fitted.is_none() || (agree as f64) < FEW * kept.len() as f64 => Status::Unexplained,
            _ if model.rms(self.first.width, self.first.height) <= STILL => Status::Still,
            _ => Status::Measured,
        };
        let can_be = !matches!(status, Status::Flat | Status::NoBlocks);
        let few_agree = (status == Status::Unexplained).then_some(Warning::FewAgree);
        let end_of_range = (can_be && many_at_end(&kept)).then_some(Warning::EndOfRange);
        Ok(Answer {
            status,
            how: if named.is_trimmed { How::Trimmed } else { How::Plain },
            agree,
            within: named.within,
            usable: kept.len(),
            blocks: words.len(),
            predicted: f64::INFINITY,
            warnings: few_agree.into_iter().chain(end_of_range).collect(),
            ..found
        }
        .with_model(model, self.first.width, self.first.height))
    }
}

#[cfg(test)]
mod tests {
    use super::*;
    use crate::Frame;

    /// Planes of noise that went six pels right and two up, and the words of their search.
    fn searched() -> (Planes, Vec<u32>) {
        let (mut first, mut second) = (vec![0; 160 * 160], vec![0; 160 * 160]);
        belt::make_practice_planes(3, 160, 160, -2, 6, &mut first, &mut second).unwrap();
        let [a, b] = [&first, &second].map(|pels| Frame { pels, width: 160, height: 160, most: 65_535 });
        let planes = Planes::of(&a, &b).unwrap();
        let words = planes.measure(None, &Options::default()).unwrap().words;
        (planes, words)
    }

    fn named(gm_type: u8, is_trimmed: bool) -> Named {
        Named { gm_type, is_trimmed, within: 0.25 }
    }

    #[test]
    fn each_type_is_fitted_plain_and_trimmed() {
        let (planes, words) = searched();
        for (gm_type, is_trimmed) in [(1, false), (2, true), (3, true)] {
            let answer = planes.named(&named(gm_type, is_trimmed), &words, None).unwrap();
            assert_eq!((answer.status, answer.model.gm_type, answer.usable), (Status::Measured, gm_type, 100));
            assert_eq!(answer.how.name(), if is_trimmed { "trimmed" } else { "plain" });
            assert!((answer.right - 6.0).hypot(answer.down + 2.0) < 0.05 && answer.agree >= 80, "{answer:?}");
            assert!(answer.warnings.is_empty() && !answer.predicted.is_finite());
        }
    }

    #[test]
    fn what_half_of_the_blocks_deny_is_unexplained() {
        let (planes, words) = searched();
        let spread: Vec<u32> =
            words.iter().zip(0u32..).map(|(word, i)| word & !(511 << 2) | (i % 2 * 446) << 2).collect();
        let answer = planes.named(&named(1, false), &spread, None).unwrap();
        assert_eq!((answer.status, answer.warnings[0]), (Status::Unexplained, Warning::FewAgree));
        assert!(answer.warnings.contains(&Warning::EndOfRange));
        let still: Vec<u32> = words.iter().map(|word| word >> 20 << 20 | 223 << 11 | 223 << 2).collect();
        assert_eq!(planes.named(&named(2, false), &still, None).unwrap().status, Status::Still);
    }

    #[test]
    fn masked_blocks_are_left_out() {
        let (planes, words) = searched();
        let mask: Vec<bool> = (0..100).map(|block| block >= 50).collect();
        assert_eq!(planes.named(&named(1, false), &words, Some(&mask)).unwrap().usable, 50);
        let none = planes.named(&named(1, false), &words, Some(&[true; 100])).unwrap();
        assert_eq!((none.status, none.usable, none.warnings.len()), (Status::NoBlocks, 0, 0));
        assert!(planes.named(&named(1, false), &words[1..], None).is_err());
    }
}
