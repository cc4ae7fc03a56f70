//! Which model a job is to find, how types are called, and models in pels.

use crate::cli::Type;
use belt::Settings;
use track::Model;

/// The types as options and files name them, by their codes.
pub const TYPES: [&str; 4] = ["identity", "translation", "rotzoom", "affine"];

/// The type of no motion: an election has it where it elects none of the others.
pub const IDENTITY: u8 = 0;

/// The code of a type's name.
pub fn code(name: &str) -> Option<u8> {
    (0..).zip(TYPES).find(|(_, own)| *own == name).map(|(code, _)| code)
}

/// A type in a sentence.
pub fn words(gm_type: u8) -> &'static str {
    ["standing still", "a translation", "a rotation-zoom", "an affine model"][usize::from(gm_type)]
}

/// The model that a job is to find.
#[derive(Clone, Copy, Debug, PartialEq, Eq)]
pub enum Asked {
    /// The library elects the type, and trims.
    Elected,
    /// A type, fitted to all samples.
    Plain(u8),
    /// A type, fitted without the samples that lie far off.
    Trimmed(u8),
}

impl Asked {
    /// What `--type` and `--trim` name. An election trims, so without a type `--trim` changes nothing.
    pub fn of(gm_type: Option<Type>, trim: bool) -> Asked {
        match gm_type {
            None => Asked::Elected,
            Some(kind) if trim => Asked::Trimmed(kind as u8),
            Some(kind) => Asked::Plain(kind as u8),
        }
    }

    /// A job's settings.
    pub fn settings(self, frame: u16, reference: u8, flag: u8, start: usize) -> Settings {
        let (gm_type, trim, elect) = match self {
            Asked::Elected => (IDENTITY, 0, 1),
            Asked::Plain(kind) => (kind, 0, 0),
            Asked::Trimmed(kind) => (kind, 1, 0),
        };
        let mut settings = Settings::elect(frame).reference(reference).start(start);
        (settings.gm_type, settings.flag, settings.trim, settings.elect) = (gm_type, flag, trim, elect);
        settings
    }
}

/// A model on the grid, in pels.
pub fn of_grid(gm_type: u8, model: belt::Model) -> Model {
    Model { gm_type, numbers: model.0.map(|number| f64::from(number) / 65536.0) }
}

#[cfg(test)]
mod tests {
    use super::*;
    use belt::GmType;

    #[test]
    fn settings_are_what_is_asked() {
        let settings = |asked: Asked| asked.settings(5, 7, 1, 3);
        let plain = Settings::fit(5, GmType::Rotzoom).reference(7).start(3);
        assert_eq!(settings(Asked::of(Some(Type::Rotzoom), false)), plain);
        assert_eq!(settings(Asked::of(Some(Type::Rotzoom), true)), plain.trim());
        assert_eq!(Asked::of(None, true), Asked::Elected);
        assert_eq!(settings(Asked::Elected), Settings::elect(5).reference(7).start(3));
    }
}
