//! A pair as a row: a name and a value for each column, the same in a table and in JSON.

use super::Pair;
use crate::measure::Measured;
use crate::model::TYPES;
use belt::Motion;
use serde::ser::{Serialize, SerializeMap, Serializer};
use serde_json::{Value, json};
use track::Status;

/// Digits behind the point: a millionth of a pel is no knowledge.
const DIGITS: f64 = 1e6;

/// A number with so many digits, and no -0.
fn rounded(number: Option<f64>) -> Value {
    number.map(|number| (number * DIGITS).round() / DIGITS + 0.0).into()
}

/// A pair's columns in order.
pub struct Row {
    cells: Vec<(&'static str, Value)>,
    /// Why the pair is bad: in a table it stands among the warnings.
    reason: Option<String>,
}

impl Row {
    pub fn of(pair: &Pair) -> Row {
        let (found, known, way) = (pair.found.as_ref().ok(), pair.known(), pair.way());
        let middle = known.map(Measured::middle);
        // in pels of the picture, as all else
        let stored = found.map(|measured| (measured.stored_middle(), measured.times as f64));
        let answer = found.map(|measured| &measured.answer);
        let mut cells = vec![
            ("pair", pair.number.into()),
            ("first", pair.first.as_str().into()),
            ("second", pair.second.as_str().into()),
            ("time_s", rounded(pair.time())),
            ("status", pair.status().into()),
            ("how", known.map(|measured| measured.answer.how.name()).into()),
            ("type", known.map(|measured| TYPES[usize::from(measured.answer.model.gm_type)]).into()),
            ("right_pels", rounded(middle.map(|middle| middle.u))),
            ("down_pels", rounded(middle.map(|middle| middle.v))),
            ("zoom", rounded(known.map(|measured| measured.model().zoom()))),
            ("angle_degrees", rounded(known.map(|measured| measured.model().degrees()))),
            ("stored_right", rounded(stored.map(|(stored, times)| times * stored.u))),
            ("stored_down", rounded(stored.map(|(stored, times)| times * stored.v))),
            ("agree", answer.map(|answer| answer.agree).into()),
            ("usable", answer.map(|answer| answer.usable).into()),
            ("blocks", answer.map(|answer| answer.blocks).into()),
            ("score", rounded(known.map(Measured::score))),
            ("warnings", found.map_or(json!([]), |measured| json!(measured.warnings))),
        ];
        if pair.scale.millimetres.is_some() {
            let moved = known.filter(|measured| measured.answer.status == Status::Measured).and(way);
            let direction = moved.map(|Motion { u, v }| v.atan2(u).to_degrees());
            let speed = pair.scale.rate.and(pair.speed());
            cells.extend([("speed_mm_s", rounded(speed)), ("direction_degrees", rounded(direction))]);
        }
        Row { cells, reason: pair.found.as_ref().err().cloned() }
    }

    /// The names of the columns, as a line of a table.
    pub fn names(&self) -> csv::Result<Vec<u8>> {
        line(self.cells.iter().map(|(name, _)| name.to_string()))
    }

    /// The values, as a line of a table: of warnings the names.
    pub fn values(&self) -> csv::Result<Vec<u8>> {
        let name = |warning: &Value| warning["name"].as_str().unwrap_or_default().to_string();
        line(self.cells.iter().map(|(_, cell)| match cell {
            Value::Null => String::new(),
            Value::String(text) => text.clone(),
            Value::Array(warnings) => {
                let names = || warnings.iter().map(name).collect::<Vec<_>>().join(" ");
                self.reason.clone().unwrap_or_else(names)
            }
            Value::Number(number) if number.is_f64() => number.as_f64().unwrap_or_default().to_string(),
            other => other.to_string(),
        }))
    }

    /// The same row with more columns.
    pub fn with(mut self, more: impl IntoIterator<Item = (&'static str, f64)>) -> Row {
        self.cells.extend(more.into_iter().map(|(name, number)| (name, rounded(Some(number)))));
        self
    }
}

fn line(values: impl Iterator<Item = String>) -> csv::Result<Vec<u8>> {
    let mut line = csv::Writer::from_writer(Vec::new());
    line.write_record(values)?;
    line.into_inner().map_err(|error| std::io::Error::other(error.to_string()).into())
}

/// An object, with the reason of a bad pair last.
impl Serialize for Row {
    fn serialize<S: Serializer>(&self, serializer: S) -> Result<S::Ok, S::Error> {
        let mut object = serializer.serialize_map(None)?;
        self.cells.iter().try_for_each(|(name, cell)| object.serialize_entry(name, cell))?;
        object.serialize_entry("reason", &self.reason)?;
        object.end()
    }
}
