//! What was measured, for programs: one object in one line.

use super::words;
use crate::measure::{Measured, Warning};
use crate::model::{self, TYPES};
use belt::{Motion, StoredModel};
use serde::Serialize;

/// A value as a line.
pub fn line(value: &impl Serialize) -> String {
    serde_json::to_string(value).expect("numbers and texts are JSON") + "\n"
}

/// A motion in pels: nulls where none is known.
#[derive(Default, Serialize)]
struct Moved {
    r#type: Option<&'static str>,
    right_pels: Option<f64>,
    down_pels: Option<f64>,
    first_pel_right: Option<f64>,
    first_pel_down: Option<f64>,
    zoom: Option<f64>,
    angle_degrees: Option<f64>,
}

impl Moved {
    fn of(model: &track::Model, middle: Motion) -> Moved {
        let first = model.motion_at(0.0, 0.0);
        Moved {
            r#type: Some(TYPES[usize::from(model.gm_type)]),
            right_pels: Some(middle.u),
            down_pels: Some(middle.v),
            first_pel_right: Some(first.u),
            first_pel_down: Some(first.v),
            zoom: Some(model.zoom()),
            angle_degrees: Some(model.degrees()),
        }
    }
}

/// A model with its type, in pels and as stored.
#[derive(Serialize)]
pub struct Model {
    r#type: &'static str,
    first_pel_right: f64,
    first_pel_down: f64,
    zoom: f64,
    angle_degrees: f64,
    numbers: [i32; 6],
}

pub fn model((&gm_type, stored): (&u8, &StoredModel)) -> Model {
    let model = model::of_grid(gm_type, stored.x_first(gm_type));
    let Motion { u, v } = model.motion_at(0.0, 0.0);
    Model {
        r#type: TYPES[usize::from(gm_type)],
        first_pel_right: u,
        first_pel_down: v,
        zoom: model.zoom(),
        angle_degrees: model.degrees(),
        numbers: stored.0,
    }
}

#[derive(Serialize)]
struct Common {
    right_pels: f64,
    down_pels: f64,
    share: f64,
}

#[derive(Serialize)]
struct Stored {
    #[serde(flatten)]
    model: Moved,
    numbers: [i32; 6],
    score_square_pels: f64,
}

#[derive(Serialize)]
struct Header {
    bits: usize,
    start: usize,
    reference: u8,
    precision: &'static str,
    bytes: String,
}

#[derive(Serialize)]
struct Pair<'a> {
    input: &'a str,
    reference: &'a str,
    width: usize,
    height: usize,
    halved: usize,
    status: &'static str,
    how: Option<&'static str>,
    measured: Moved,
    stored: Stored,
    blocks: usize,
    usable: usize,
    agree: usize,
    share_that_agrees: f64,
    within_pels: f64,
    predicted: Option<f64>,
    share_that_stood_still: f64,
    commonest: Option<Common>,
    header: Header,
    frame: u16,
    models: Vec<Model>,
    warnings: &'a [Warning],
}

pub fn pair(measured: &Measured) -> String {
    let Measured { answer, settings, report, .. } = measured;
    let common = |track::Common { motion, share }| Common { right_pels: motion.u, down_pels: motion.v, share };
    let known = answer.status.is_known();
    line(&Pair {
        input: &measured.input,
        reference: &measured.reference,
        width: measured.width,
        height: measured.height,
        halved: measured.times.trailing_zeros() as usize,
        status: answer.status.name(),
        how: known.then(|| answer.how.name()),
        measured: match known {
            true => Moved::of(&measured.model(), measured.middle()),
            false => Moved::default(),
        },
        stored: Stored {
            model: Moved::of(&measured.stored_model(), measured.stored_middle()),
            numbers: measured.stored.row_first(measured.stored_type).0,
            score_square_pels: report.score,
        },
        blocks: answer.blocks,
        usable: answer.usable,
        agree: answer.agree,
        share_that_agrees: measured.share(),
        within_pels: answer.within,
        predicted: measured.predicted(),
        share_that_stood_still: answer.shares.still,
        commonest: measured.commonest().map(common),
        header: Header {
            bits: report.bits,
            start: settings.start,
            reference: settings.reference,
            precision: if settings.flag == 1 { "high" } else { "low" },
            bytes: words::hexadecimal(&measured.header).replace(' ', ""),
        },
        frame: settings.frame,
        models: report.types.iter().zip(&report.models).map(model).collect(),
        warnings: &measured.warnings,
    })
}
