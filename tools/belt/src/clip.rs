//! The frames of a clip one after the other, each read once: of a Y4M file or pipe all, of a folder its pictures.

use crate::failure::Failure;
use crate::measure::{judged, lent};
use frames::{Frame, Opened, Part, named, open, shown};
use std::collections::VecDeque;
use std::fs;
use std::path::{Path, PathBuf};
use std::sync::OnceLock;
use track::{Detail, Refused};

/// The frames that are taken, counted from 0 over the whole clip.
#[derive(Clone, Copy, Debug, PartialEq, Eq)]
pub struct Chosen {
    pub from: u64,
    /// The last, if it isn't the clip's.
    pub to: u64,
    /// One of so many.
    pub every: u64,
}

impl Chosen {
    fn takes(self, number: u64) -> bool {
        (self.from..=self.to).contains(&number) && (number - self.from) % self.every == 0
    }

    /// How many of the clip's first frames are taken.
    fn count(self, frames: u64) -> u64 {
        let end = frames.min(self.to.saturating_add(1));
        end.saturating_sub(self.from).div_ceil(self.every)
    }
}

/// A frame in its turn, or why it can't be read.
pub struct Turn {
    pub number: u64,
    pub name: String,
    /// The frames a second that its file says.
    pub rate: Option<f64>,
    pub frame: Result<Frame, String>,
    /// The frame without its light, once it is asked for: two pairs share it.
    detail: OnceLock<Result<Detail, Refused>>,
}

impl Turn {
    /// The frame without its light.
    pub fn detail(&self, frame: &Frame) -> Result<&Detail, Refused> {
        self.detail.get_or_init(|| Detail::of(&lent(frame))).as_ref().map_err(|refused| *refused)
    }
}

/// A clip whose frames come one after the other.
pub struct Clip {
    places: VecDeque<PathBuf>,
    /// The file whose frames come next, the name of its frames without their numbers, and the number of the next in it.
    file: Option<(frames::Clip, String, u64)>,
    part: Part,
    chosen: Chosen,
    /// The number of the next frame.
    next: u64,
    /// Whether a frame was taken.
    begun: bool,
}

impl Clip {
    /// The pictures and clips of some places, a part of each.
    pub fn of(places: Vec<PathBuf>, part: Part, chosen: Chosen) -> Clip {
        Clip { places: places.into(), file: None, part, chosen, next: 0, begun: false }
    }

    /// How many frames will be taken, where that can be told: of pictures, or of a file that holds a clip.
    pub fn frames(&self) -> Option<u64> {
        let frames = match (&self.places.iter().collect::<Vec<_>>()[..], self.places.front()) {
            ([_], Some(place)) => frames_of(place)?,
            (places, _) if places.iter().any(|place| place.as_path() == Path::new("-")) => return None,
            (places, _) => places.len() as u64,
        };
        Some(self.chosen.count(frames))
    }

    /// The next frame of the file that is open.
    fn next_of_file(&mut self) -> Option<Turn> {
        let taken = self.chosen.takes(self.next).then_some(self.part);
        let (clip, place, number) = self.file.as_mut()?;
        let rate = clip.rate;
        let frame = match clip.next(taken) {
            Some(frame) => frame,
            None => {
                self.file = None;
                return None;
            }
        };
        let name = format!("{place}#{number}");
        *number += 1;
        let number = self.next;
        self.next += 1;
        let named = |frame: Option<Frame>| frame.map(|frame| Frame { name: name.clone(), ..frame });
        let frame = frame.map(named).transpose()?;
        taken.map(|_| Turn { number, name, rate, frame, detail: OnceLock::new() })
    }

    /// The next place: a clip to go through, or a picture. A first one that can't be measured at its size ends all.
    fn next_place(&mut self, place: &Path) -> Result<Option<Turn>, Failure> {
        let name = if place == Path::new("-") { "-".into() } else { shown(place) };
        let opened = open(place);
        let judge = |opened: &Opened| judged(&name, self.part, opened.sides());
        if !self.begun {
            opened.as_ref().map_or(Ok(()), judge)?;
        }
        let is_one = named(place).0 != place;
        if !is_one && opened.as_ref().is_ok_and(Opened::is_clip) {
            self.file = opened.ok().and_then(Opened::into_clip).map(|clip| (clip, name, 0));
            return Ok(None);
        }
        let number = self.next;
        self.next += 1;
        if !self.chosen.takes(number) {
            return Ok(None);
        }
        let rate = opened.as_ref().ok().and_then(Opened::rate);
        let frame = opened.map_err(Failure::from).and_then(|opened| {
            judge(&opened)?;
            Ok(opened.read(self.part)?)
        });
        let frame = frame.map_err(|failure| failure.what());
        Ok(Some(Turn { number, name, rate, frame, detail: OnceLock::new() }))
    }
}

/// How many frames a file holds, where that can be told without reading it.
fn frames_of(place: &Path) -> Option<u64> {
    let (file, _) = named(place);
    if place == Path::new("-") || file != place {
        return (file != place).then_some(1);
    }
    let bytes = fs::metadata(place).ok().filter(|data| data.is_file())?.len();
    let Some(clip) = open(place).ok()?.into_clip() else { return Some(1) };
    Some((bytes - clip.head).div_ceil(clip.size() + 6))
}

impl Iterator for Clip {
    type Item = Result<Turn, Failure>;

    fn next(&mut self) -> Option<Self::Item> {
        while self.next <= self.chosen.to {
            let turn = if self.file.is_some() {
                self.next_of_file()
            } else {
                let place = self.places.pop_front()?;
                match self.next_place(&place) {
                    Ok(turn) => turn,
                    Err(failure) => return Some(Err(failure)),
                }
            };
            if let Some(turn) = turn {
                self.begun = true;
                return Some(Ok(turn));
            }
        }
        None
    }
}
