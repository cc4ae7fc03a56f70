//! Motion in words and numbers with units.

use crate::measure::Measured;
use crate::model::{self, Asked};
use belt::Motion;
use indicatif::HumanCount;
use track::{Common, How, Model, Status};

/// Motions below this many pels are none.
const STILL: f64 = 0.0005;
/// The least error that is told, in pels.
const LEAST_ERROR: f64 = 0.001;

/// A whole number with commas.
pub fn count(number: usize) -> String {
    HumanCount(number as u64).to_string()
}

/// So many of something, in the plural but for one.
pub fn many(number: usize, name: &str) -> String {
    format!("{} {name}{}", count(number), if number == 1 { "" } else { "s" })
}

/// A share of 1 as per cent, never rounded up to all.
pub fn per_cent(share: f64) -> String {
    format!("{:.0} %", if share < 1.0 { (share * 100.0).floor() } else { 100.0 })
}

/// A length with up to three digits, so that an eighth is whole.
fn length(number: f64, unit: &str) -> String {
    let text = format!("{number:.3}");
    let text = text.trim_end_matches('0').trim_end_matches('.');
    if text == "1" { format!("1 {}", unit.trim_end_matches('s')) } else { format!("{text} {unit}") }
}

pub fn pels(number: f64) -> String {
    length(number, "pels")
}

/// A motion in words, of pels or another unit.
pub fn motion_in(motion: Motion, unit: &str) -> String {
    let part = |far: f64, back: &str, on: &str| match far {
        far if far.abs() < STILL => None,
        far => Some(format!("{} {}", length(far.abs(), unit), if far < 0.0 { back } else { on })),
    };
    let parts = [part(motion.u, "left", "right"), part(motion.v, "up", "down")];
    let parts: Vec<String> = parts.into_iter().flatten().collect();
    if parts.is_empty() { format!("0 {unit}") } else { parts.join(" and ") }
}

pub fn motion(motion: Motion) -> String {
    motion_in(motion, "pels")
}

/// A zoom in words.
fn zoom(zoom: f64) -> String {
    let change = (zoom - 1.0) * 100.0;
    match format!("{:.2}", change.abs()).as_str() {
        "0.00" => "the same size".into(),
        text => format!("{text} % {}", if change > 0.0 { "larger" } else { "smaller" }),
    }
}

/// A turn in words.
fn turn(degrees: f64) -> String {
    match format!("{:.3}", degrees.abs()).as_str() {
        "0.000" => "0°".into(),
        text => format!("{text}° {}", if degrees > 0.0 { "clockwise" } else { "anticlockwise" }),
    }
}

/// What a model does to a picture, in one sentence's words.
pub fn moved(model: &Model, middle: Motion) -> String {
    let mut parts = Vec::new();
    if middle.u.hypot(middle.v) >= STILL {
        parts.push(format!("moved {}", motion(middle)));
    }
    if model.gm_type > 1 {
        let (size, angle) = (zoom(model.zoom()), turn(model.degrees()));
        if size != "the same size" {
            parts.push(format!("became {size}"));
        }
        if angle != "0°" {
            parts.push(format!("turned {angle}"));
        }
    }
    match parts.as_slice() {
        [] => "didn't move".into(),
        [one] => one.clone(),
        [first @ .., last] => format!("{} and {last}", first.join(", ")),
    }
}

/// What was measured, in a sentence without its end; where nothing could be, why.
pub fn sentence(measured: &Measured) -> String {
    match measured.answer.status {
        Status::NoBlocks if measured.blocks.is_empty() => {
            "Nothing was measured: no whole 16×16 block lies in the picture, and a motion needs one".into()
        }
        Status::NoBlocks => "Nothing was measured: no block is left to measure".into(),
        Status::Flat => "Nothing was measured: a picture is flat, every pel is the same".into(),
        Status::Unexplained => "It isn't known how it moved: no motion explains the blocks".into(),
        Status::Still if measured.warnings.iter().any(|warning| warning.name == "part-moves") => {
            format!("{} stood still, and a part moved on its own", per_cent(measured.answer.shares.still))
        }
        Status::Still => "It stood still".into(),
        Status::Measured => format!("It {}", moved(&measured.model(), measured.middle())),
    }
}

/// Bytes as hexadecimal digits.
pub fn hexadecimal(bytes: &[u8]) -> String {
    bytes.iter().map(|byte| format!("{byte:02X}")).collect::<Vec<_>>().join(" ")
}

/// What the blocks that don't stand still do most, where there are such.
pub fn rest(measured: &Measured) -> String {
    let told = |Common { motion: own, share }| {
        format!("the commonest motion of the rest is {}, of {}", motion(own), per_cent(share))
    };
    measured.commonest().map(told).unwrap_or_default()
}

/// The type, and how the model was found.
fn kind(measured: &Measured) -> String {
    let name = match measured.answer.status {
        Status::Still => "standing still",
        _ => model::words(measured.answer.model.gm_type),
    };
    let how = match measured.answer.how {
        How::Plain => return name.into(),
        How::Trimmed => "fitted without the blocks that lie far off",
        How::Elected => "elected",
        How::Robust => "robust: as most of the blocks say that can tell their motion",
        How::HalfSize => "half-size: as the blocks say at half the size",
        How::Shifted => "shifted: the second picture was moved first, by what it shows at less size",
    };
    format!("{name}, {how}")
}

/// How many blocks agree.
fn agreement(measured: &Measured) -> String {
    let answer = &measured.answer;
    let (agree, usable, share) = (count(answer.agree), many(answer.usable, "block"), per_cent(measured.share()));
    let which = match answer.how {
        How::Plain | How::Trimmed => "",
        How::HalfSize => " of the half size that can tell their motion",
        _ => " that can tell their motion",
    };
    let halved = if measured.times > 1 { " of the halved picture" } else { "" };
    let masked = match measured.blocks.len() - measured.used().count() {
        0 => String::new(),
        masked => format!("; {} left out", many(masked, "block")),
    };
    format!("{agree} of {usable}{which} ({share}) within {}{halved}{masked}", pels(answer.within))
}

/// The rows of what was measured.
fn measured_rows(measured: &Measured, row: &mut impl FnMut(&str, String)) {
    let Measured { answer, .. } = measured;
    match answer.status {
        Status::Flat | Status::NoBlocks => return row("measured", "nothing".into()),
        Status::Unexplained => {
            row("measured", "nothing".into());
            if measured.commonest().is_some() {
                row("  blocks", format!("{} stood still; {}", per_cent(answer.shares.still), rest(measured)));
            }
            return;
        }
        Status::Measured | Status::Still => row("measured", kind(measured)),
    }
    let model = measured.model();
    if answer.status == Status::Still {
        row("  shift", format!("{}, too little to be told from none", motion(measured.middle())));
    } else if model.gm_type > 1 {
        row("  shift", format!("{}, in the middle of the picture", motion(measured.middle())));
        row("", format!("{}, at its first pel", motion(model.motion_at(0.0, 0.0))));
        row("  zoom", format!("{:.5} ({})", model.zoom(), zoom(model.zoom())));
        row("  angle", turn(model.degrees()));
    } else {
        row("  shift", motion(measured.middle()));
    }
    if let Some(error) = measured.predicted() {
        row("  error", format!("about {} to be expected", pels(error.max(LEAST_ERROR))));
    }
    row("agreement", agreement(measured));
}

/// The rows of what is stored.
fn stored_rows(measured: &Measured, row: &mut impl FnMut(&str, String)) {
    let settings = &measured.settings;
    let halved = if measured.times > 1 { ", in pels of the halved picture" } else { "" };
    let stored = moved(&measured.stored_model(), measured.stored_middle());
    row(
        "stored",
        match measured.asked {
            Asked::Elected if measured.is_stored_still() => "standing still: the library elects no type".into(),
            _ => format!("{}: {stored}{halved}", model::words(measured.stored_type)),
        },
    );
    row("  score", format!("{:.4} square pels over all blocks", measured.report.score));
    let header = hexadecimal(&measured.header);
    let (bits, start, reference) = (measured.report.bits, settings.start, settings.reference);
    row("  header", format!("{bits} bits from bit {start}, reference {reference}: {header}"));
    let numbers = measured.stored.row_first(measured.stored_type).0;
    row("  model", numbers.map(|number| number.to_string()).join(" "));
}

/// The whole report of a pair.
pub fn pair(measured: &Measured) -> String {
    let Measured { input, reference, width, height, times, .. } = measured;
    let halved = if *times > 1 { format!(" (1/{times} of the picture's)") } else { String::new() };
    let blocks = many(measured.blocks.len(), "block");
    let mut lines = vec![
        format!("{input} to {reference}: {width}×{height} pels{halved}, {blocks} of 16×16"),
        format!("{}.", sentence(measured)),
        String::new(),
    ];
    let mut row = |name: &str, text: String| lines.push(format!("  {name:<10} {text}"));
    measured_rows(measured, &mut row);
    stored_rows(measured, &mut row);
    for found in &measured.warnings {
        lines.push(format!("\nwarning: {}: {}", found.name, found.text));
    }
    lines.join("\n") + "\n"
}

/// One line of a pair among many, with its speed where that is told.
pub fn line(measured: &Measured, speed: Option<&str>) -> String {
    let (input, reference) = (&measured.input, &measured.reference);
    let mut line = format!("{input} to {reference}: {}", sentence(measured));
    if let Some(speed) = speed {
        line += &format!("; {speed}");
    }
    if measured.answer.status.is_known() {
        line += &format!("; {} agree", per_cent(measured.share()));
    }
    if let Some(first) = measured.warnings.first() {
        line += &format!("; warning: {}: {}", first.name, first.text);
    }
    line + "\n"
}

#[cfg(test)]
mod tests {
    use super::*;
    use crate::measure::tests::{frame, job};
    use crate::measure::{Job, measure};

    #[test]
    fn numbers_have_commas() {
        assert_eq!([0, 999, 1000, 4096, 1234567].map(count), ["0", "999", "1,000", "4,096", "1,234,567"]);
        assert_eq!([0, 1, 4096].map(|n| many(n, "block")), ["0 blocks", "1 block", "4,096 blocks"]);
        assert_eq!([0.0, 0.999, 1.0].map(per_cent), ["0 %", "99 %", "100 %"]);
    }

    #[test]
    fn directions_have_names() {
        let said = |u, v| motion(Motion { u, v });
        assert_eq!(said(2.5, -1.0), "2.5 pels right and 1 pel up");
        assert_eq!(said(-0.125, 30.0), "0.125 pels left and 30 pels down");
        assert_eq!(said(0.0, 0.0), "0 pels");
    }

    #[test]
    fn a_model_is_a_sentence() {
        let still = Motion { u: 0.0, v: 0.0 };
        let grid = |numbers| model::of_grid(2, belt::Model(numbers));
        assert_eq!(moved(&Model::IDENTITY, still), "didn't move");
        assert_eq!(moved(&grid([0, 0, 66191, 0, 0, 66191]), still), "became 1.00 % larger");
        let said = moved(&grid([0, 0, 65526, -1144, 1144, 65526]), Motion { u: 1.0, v: 0.0 });
        assert_eq!(said, "moved 1 pel right and turned 1.000° clockwise");
        let said = moved(&grid([0, 0, 64881, 1144, -1144, 64881]), Motion { u: 0.0, v: 2.0 });
        assert_eq!(said, "moved 2 pels down, became 0.98 % smaller and turned 1.010° anticlockwise");
    }

    #[test]
    fn a_report_has_every_number_with_its_unit() {
        let job = Job { start: 3, reference: 7, ..job(1) };
        let found = measure(&job, &frame("a", 64, 64, 2, 4), &frame("b", 64, 64, 0, 0)).unwrap();
        let text = pair(&found);
        let wanted = [
            "a to b: 64×64 pels, 16 blocks of 16×16\nIt moved 4 pels right and 2 pels down.\n",
            "  measured   a translation\n    shift    4 pels right and 2 pels down\n",
            " of 16 blocks (",
            ") within 0.25 pels\n",
            "  stored     a translation: moved 4 pels right and 2 pels down\n",
            " square pels over all blocks\n",
            " bits from bit 3, reference 7: ",
            "    model    131072 262144 65536 0 0 65536\n",
        ];
        for part in wanted {
            assert!(text.contains(part), "{part:?} in {text}");
        }
        assert!(line(&found, None).starts_with("a to b: It moved 4 pels right and 2 pels down; "));
    }
}
