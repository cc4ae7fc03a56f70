//! A clip as a plot: speed above, path below, over time. However long the clip, it has so many points at most.

use super::{Pair, Scale};
use belt::Motion;
use plotters::coord::Shift;
use plotters::prelude::*;
use std::error::Error;

const SIZE: (u32, u32) = (960, 640);
/// Pairs are gathered by two as soon as there are more points than this.
const MOST: usize = 2048;
/// The room above all values, of theirs, in which the legend hides none.
const HEADROOM: f64 = 0.45;
/// With fewer points than this each has a dot.
const FEW: usize = 150;
const SPEED: RGBColor = RGBColor(0, 0, 0);
const RIGHT: RGBColor = RGBColor(0, 114, 178);
const DOWN: RGBColor = RGBColor(213, 94, 0);
const WARNED: RGBColor = RGBColor(204, 60, 120);
const NOTHING: RGBColor = RGBColor(225, 225, 225);

/// A pair, or some that follow each other.
#[derive(Clone, Copy, Debug)]
struct Point {
    /// When its first frame was taken, and its last.
    time: [f64; 2],
    /// The least and the most of the speeds that are known, their sum and their number.
    range: [f64; 2],
    sum: f64,
    known: u32,
    /// Whether a pair of it has no motion, and whether one is warned of.
    nothing: bool,
    warned: bool,
    /// Where the path is at its end, right and down.
    end: [f64; 2],
}

impl Point {
    fn and(self, next: Point) -> Point {
        Point {
            time: [self.time[0], next.time[1]],
            range: [self.range[0].min(next.range[0]), self.range[1].max(next.range[1])],
            sum: self.sum + next.sum,
            known: self.known + next.known,
            nothing: self.nothing || next.nothing,
            warned: self.warned || next.warned,
            end: next.end,
        }
    }

    fn middle(&self) -> f64 {
        (self.time[0] + self.time[1]) / 2.0
    }

    /// The mean speed, where one is known.
    fn speed(&self) -> Option<f64> {
        (self.known > 0).then(|| self.sum / f64::from(self.known))
    }
}

/// What is gathered of a clip for its plot.
pub struct Plot {
    points: Vec<Point>,
    /// The pairs of each point but the last, and those that the last has so far.
    each: u64,
    last: u64,
    scale: Scale,
    end: [f64; 2],
}

impl Plot {
    pub fn new() -> Plot {
        Plot { points: Vec::new(), each: 1, last: 0, scale: Scale::default(), end: [0.0; 2] }
    }

    pub fn add(&mut self, pair: &Pair) {
        self.scale = pair.scale;
        let at = |frame: u64| frame as f64 / pair.scale.rate.unwrap_or(1.0);
        let times = pair.scale.length().1;
        if let Some(Motion { u, v }) = pair.way() {
            self.end = [self.end[0] + u * times, self.end[1] + v * times];
        }
        let speed = pair.speed();
        let point = Point {
            time: [at(pair.frames.0), at(pair.frames.1)],
            range: speed.map_or([f64::INFINITY, f64::NEG_INFINITY], |speed| [speed; 2]),
            sum: speed.unwrap_or(0.0),
            known: u32::from(speed.is_some()),
            nothing: speed.is_none(),
            warned: pair.is_warned(),
            end: self.end,
        };
        match self.points.last_mut() {
            Some(own) if self.last < self.each => {
                *own = own.and(point);
                self.last += 1;
            }
            _ => {
                self.points.push(point);
                self.last = 1;
            }
        }
        if self.points.len() > MOST {
            // an odd one stays alone, and takes as many more
            let merged = self.points.chunks(2).map(|two| two.iter().copied().reduce(Point::and).expect("one or two"));
            self.points = merged.collect();
            self.each *= 2;
        }
    }

    /// The plot as SVG. What was drawn, right and down in pels from pair to pair, stands behind what was found.
    pub fn svg(&self, title: &str, drawn: &[[f64; 2]]) -> Result<String, Box<dyn Error>> {
        let mut file = String::new();
        {
            let area = SVGBackend::with_string(&mut file, SIZE).into_drawing_area();
            area.fill(&WHITE)?;
            let area = area.titled(title, ("sans-serif", 20))?;
            let (above, below) = area.split_vertically(300);
            self.speed(&above, drawn)?;
            self.path(&below, drawn)?;
            area.present()?;
        }
        Ok(file)
    }

    /// How long a pair takes; without a rate a pair is the unit.
    fn seconds(&self, point: &Point) -> f64 {
        self.scale.rate.map_or(1.0, |_| point.time[1] - point.time[0])
    }

    /// The whole of the time.
    fn times(&self) -> std::ops::Range<f64> {
        let ends = (self.points.first(), self.points.last());
        let (first, last) = (ends.0.map_or(0.0, |point| point.time[0]), ends.1.map_or(0.0, |point| point.time[1]));
        first..if last > first { last } else { first + 1.0 }
    }

    fn chart<'a, 'f>(
        &self,
        area: &'a Area<'f>,
        values: std::ops::Range<f64>,
        name: &str,
    ) -> Result<Chart<'a, 'f>, Box<dyn Error>> {
        let values = values.start..values.end + HEADROOM * (values.end - values.start);
        let mut chart = ChartBuilder::on(area)
            .margin(10)
            .margin_right(24)
            .x_label_area_size(40)
            .y_label_area_size(70)
            .build_cartesian_2d(self.times(), values.clone())?;
        let time = if self.scale.rate.is_some() { "time in seconds" } else { "frame" };
        let nothing = self.points.iter().filter(|point| point.nothing);
        let bands = nothing.map(|point| [(point.time[0], values.start), (point.time[1], values.end)]);
        let bands: Vec<_> = bands.map(|corners| Rectangle::new(corners, NOTHING.filled())).collect();
        let some = !bands.is_empty();
        let bands = chart.draw_series(bands)?;
        if some {
            let key = |(x, y): (i32, i32)| Rectangle::new([(x, y - 5), (x + 18, y + 5)], NOTHING.filled());
            bands.label("nothing measured").legend(key);
        }
        let mut mesh = chart.configure_mesh();
        mesh.x_desc(time).y_desc(name).x_labels(12).y_labels(8).light_line_style(TRANSPARENT).max_light_lines(0);
        mesh.bold_line_style(BLACK.mix(0.12)).draw()?;
        Ok(chart)
    }

    fn speed(&self, area: &Area<'_>, drawn: &[[f64; 2]]) -> Result<(), Box<dyn Error>> {
        let length = self.scale.length().1;
        let most = self.points.iter().map(|point| point.range[1]).fold(0.0, f64::max);
        let top = if most > 0.0 { 1.12 * most } else { 1.0 };
        let mut chart = self.chart(area, -0.03 * top..top, &format!("speed in {}", self.scale.speed()))?;
        if !drawn.is_empty() {
            let speed = |point: &Point, [right, down]: &[f64; 2]| right.hypot(*down) * length / self.seconds(point);
            let steps = self.points.iter().zip(drawn);
            let steps = steps.flat_map(|(point, step)| point.time.map(|time| (time, speed(point, step))));
            line(&mut chart, steps.collect(), SPEED.mix(0.3).stroke_width(5), "as drawn")?;
        }
        if self.each > 1 {
            let band = |point: &Point| {
                let [least, most] = point.range;
                PathElement::new([(point.middle(), least), (point.middle(), most)], SPEED.mix(0.3))
            };
            chart.draw_series(self.points.iter().filter(|point| point.known > 0).map(band))?;
        }
        let runs: Vec<Vec<(f64, f64)>> = self.runs(|point| point.speed().map(|speed| (point.middle(), speed)));
        self.series(&mut chart, runs, SPEED, "speed")?;
        let warned: Vec<&Point> = self.points.iter().filter(|point| point.warned).collect();
        if !warned.is_empty() {
            // a ring around what is known, a dot where nothing is
            let mark = |point: &&Point| match point.speed() {
                Some(speed) => Circle::new((point.middle(), speed), 6, WARNED.stroke_width(2)),
                None => Circle::new((point.middle(), 0.0), 2, WARNED.filled()),
            };
            let key = |(x, y): (i32, i32)| Circle::new((x + 9, y), 6, WARNED.stroke_width(2));
            chart.draw_series(warned.iter().map(mark))?.label("warned of").legend(key);
        }
        legend(&mut chart)
    }

    fn path(&self, area: &Area<'_>, drawn: &[[f64; 2]]) -> Result<(), Box<dyn Error>> {
        let ends = self.points.iter().flat_map(|point| point.end);
        let (least, most) = ends.fold((0.0f64, 0.0f64), |(least, most), end| (least.min(end), most.max(end)));
        let room = (0.08 * (most - least)).max(0.5);
        let name = format!("path in {}", self.scale.length().0);
        let mut chart = self.chart(area, least - room..most + room, &name)?;
        for (axis, colour, name) in [(0, RIGHT, "right"), (1, DOWN, "down")] {
            let mut way = vec![(self.times().start, 0.0)];
            for (point, step) in self.points.iter().zip(drawn) {
                let before = way.last().map_or(0.0, |last| last.1);
                way.push((point.time[1], before + step[axis] * self.scale.length().1));
            }
            if !drawn.is_empty() {
                line(&mut chart, way, colour.mix(0.3).stroke_width(5), &format!("{name}, as drawn"))?;
            }
            // from where the pair begins
            let mut before = 0.0;
            let mut ends = self.runs(|point| point.speed().map(|_| (point.time[1], point.end[axis])));
            for run in &mut ends {
                let begins = self.points.iter().find(|point| Some(&point.time[1]) == run.first().map(|end| &end.0));
                run.insert(0, (begins.map_or(0.0, |point| point.time[0]), before));
                before = run.last().map_or(before, |end| end.1);
            }
            self.series(&mut chart, ends, colour, name)?;
        }
        legend(&mut chart)
    }

    /// The places of points that follow each other without a gap.
    fn runs(&self, place: impl Fn(&Point) -> Option<(f64, f64)>) -> Vec<Vec<(f64, f64)>> {
        let known = self.points.split(|point| point.known == 0);
        known.map(|run| run.iter().filter_map(&place).collect()).filter(|run: &Vec<_>| !run.is_empty()).collect()
    }

    /// Lines with gaps, and dots where there is room for them.
    fn series(
        &self,
        chart: &mut Chart<'_, '_>,
        runs: Vec<Vec<(f64, f64)>>,
        colour: RGBColor,
        name: &str,
    ) -> Result<(), Box<dyn Error>> {
        for (number, run) in runs.into_iter().enumerate() {
            // one alone is a dot
            if self.points.len() <= FEW || run.len() == 1 {
                chart.draw_series(run.iter().map(|place| Circle::new(*place, 3, colour.filled())))?;
            }
            line(chart, run, colour.stroke_width(2), if number == 0 { name } else { "" })?;
        }
        Ok(())
    }
}

type Area<'f> = DrawingArea<SVGBackend<'f>, Shift>;

type Chart<'a, 'f> = ChartContext<
    'a,
    SVGBackend<'f>,
    Cartesian2d<plotters::coord::types::RangedCoordf64, plotters::coord::types::RangedCoordf64>,
>;

/// A line, and its key if it has a name.
fn line(
    chart: &mut Chart<'_, '_>,
    places: Vec<(f64, f64)>,
    style: ShapeStyle,
    name: &str,
) -> Result<(), Box<dyn Error>> {
    let drawn = chart.draw_series([PathElement::new(places, style)])?;
    if !name.is_empty() {
        drawn.label(name).legend(move |(x, y)| PathElement::new([(x, y), (x + 18, y)], style));
    }
    Ok(())
}

fn legend<'a, 'f: 'a>(chart: &mut Chart<'a, 'f>) -> Result<(), Box<dyn Error>> {
    let mut labels = chart.configure_series_labels();
    labels.position(SeriesLabelPosition::UpperLeft).background_style(WHITE.mix(0.85)).border_style(BLACK.mix(0.4));
    labels.draw()?;
    Ok(())
}

#[cfg(test)]
mod tests {
    use super::super::tests::pair;
    use super::*;

    #[test]
    fn gaps_part_the_lines_and_warnings_are_marked() {
        let mut plot = Plot::new();
        let moves = [Some(4), Some(4), None, Some(-6), Some(-6)];
        moves.iter().zip(0..).for_each(|(right, number)| plot.add(&pair(number, *right, Scale::default())));
        let speeds = plot.runs(|point| point.speed().map(|speed| (point.middle(), speed)));
        assert_eq!(speeds.iter().map(Vec::len).collect::<Vec<_>>(), [2, 2]);
        assert!((plot.end[0] + 4.0).abs() < 0.2);
        let svg = plot.svg("a & b", &[]).unwrap();
        let numbers = |name: &str, element: &str| -> f64 {
            let from = element.find(&format!(" {name}=\"")).unwrap() + name.len() + 3;
            element[from..].split('"').next().unwrap().parse().unwrap()
        };
        let elements = |name: &str, with: &str| -> Vec<String> {
            let own = svg.split('<').filter(|element| element.starts_with(name) && element.contains(with));
            own.map(String::from).collect()
        };
        // no dot lies under the legend of its chart, which is the half of the picture that it is in
        for legend in elements("rect", "opacity=\"0.85\"") {
            let (top, end) = (numbers("y", &legend), numbers("y", &legend) + numbers("height", &legend));
            let dots = elements("circle", "r=\"3\"").iter().map(|dot| numbers("cy", dot)).collect::<Vec<_>>();
            assert!(dots.iter().all(|dot| *dot < top - 5.0 || *dot > end), "{legend}: {dots:?}");
        }
        assert!(svg.contains("nothing measured") && svg.contains("a &amp; b") && !svg.contains("warned of"), "{svg}");
    }

    #[test]
    fn a_long_clip_has_no_more_points() {
        let mut plot = Plot::new();
        let mut one = pair(0, Some(4), Scale::default());
        let speed = one.speed().unwrap();
        for number in 0..20_000 {
            one.frames = (number, number + 1);
            plot.add(&one);
        }
        assert!(plot.points.len() <= MOST && plot.points.len() > MOST / 4, "{}", plot.points.len());
        assert_eq!(plot.points.iter().map(|point| u64::from(point.known)).sum::<u64>(), 20_000);
        assert!(plot.points.windows(2).all(|two| two[0].time[1] == two[1].time[0]));
        assert!((plot.end[0].abs() - 20_000.0 * speed).abs() < 1.0);
        assert!(plot.svg("long", &[]).unwrap().len() < 1 << 20);
    }
}
