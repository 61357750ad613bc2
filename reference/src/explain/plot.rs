//! A plot of factor by age, drawn as SVG.

use super::shown::decimal;

pub struct Plot {
    pub title: String,
    pub points: Vec<Point>,
}

/// A factor, in units of the tenth decimal, with the name of its place on the
/// axis. The last point is the composite and is not joined to the others.
pub struct Point {
    pub name: String,
    pub factor: u64,
    pub has_unpaid: bool,
}

/// The drawing's own units, in which the page scales it.
const WIDTH: f64 = 760.0;
const HEIGHT: f64 = 356.0;
const LEFT: f64 = 62.0;
const RIGHT: f64 = 748.0;
const TOP: f64 = 48.0;
const BOTTOM: f64 = 296.0;

/// Where a factor is written from its point, and over two ages of what rise it
/// is written aside.
const ABOVE: f64 = -10.0;
const BELOW: f64 = 18.0;
const ASIDE: f64 = 14.0;
const STEEP: f64 = 40.0;

/// At most so many steps stand on the axis of factors.
const MOST_STEPS: u64 = 6;

/// The factors at the ends of the axis, and the step between two marks.
struct Scale {
    lowest: u64,
    highest: u64,
    step: u64,
}

impl Scale {
    fn of(points: &[Point]) -> Scale {
        let factors = || points.iter().map(|point| point.factor);
        let lowest = factors().min().unwrap_or(0);
        let highest = factors().max().unwrap_or(0);
        let step = step_for(highest - lowest);
        let scale = Scale {
            lowest: lowest / step * step,
            highest: highest.div_ceil(step) * step,
            step,
        };
        if scale.lowest < scale.highest {
            return scale;
        }
        let lowest = scale.lowest.saturating_sub(step);
        let highest = lowest + step;
        Scale {
            lowest,
            highest,
            step,
        }
    }

    fn height(&self, factor: u64) -> f64 {
        let part = (self.highest - factor) as f64 / (self.highest - self.lowest) as f64;
        TOP + part * (BOTTOM - TOP)
    }

    fn marks(&self) -> impl Iterator<Item = u64> + '_ {
        (self.lowest..=self.highest).step_by(self.step as usize)
    }

    fn mark_name(&self, mark: u64) -> String {
        let decimals = 10 - self.step.ilog10();
        decimal(mark / 10_u64.pow(10 - decimals), decimals)
    }
}

/// The smallest of 0.0001, 0.0002, 0.0005, 0.001 .. that takes few steps.
fn step_for(spread: u64) -> u64 {
    let powers = (6..=9).map(|exponent| 10_u64.pow(exponent));
    let mut steps = powers.flat_map(|power| [power, 2 * power, 5 * power]);
    let found = steps.find(|step| spread / step < MOST_STEPS);
    found.unwrap_or(10_000_000_000)
}

impl Plot {
    pub fn svg(&self) -> String {
        let scale = Scale::of(&self.points);
        let title = &self.title;
        let mut svg = format!(
            "<svg viewBox=\"0 0 {WIDTH} {HEIGHT}\" role=\"img\" aria-label=\"{title}\">\
             <title>{title}</title>\n"
        );
        svg += &self.axes(&scale);
        svg += &self.line(&scale);
        for (place, point) in self.points.iter().enumerate() {
            svg += &self.mark(place, point, &scale);
        }
        svg + "</svg>"
    }

    /// How far from the left a point stands.
    fn across(&self, place: usize) -> f64 {
        let column = (RIGHT - LEFT) / self.points.len().max(1) as f64;
        LEFT + column * (place as f64 + 0.5)
    }

    fn axes(&self, scale: &Scale) -> String {
        let mut axes = String::new();
        for mark in scale.marks() {
            let height = scale.height(mark);
            axes += &format!(
                "<line class=\"grid\" x1=\"{LEFT}\" x2=\"{RIGHT}\" y1=\"{height:.1}\" \
                 y2=\"{height:.1}\"/>\n"
            );
            let name = scale.mark_name(mark);
            axes += &svg_text("end", LEFT - 8.0, height + 4.0, &name);
        }
        let middle = (LEFT + RIGHT) / 2.0;
        axes += &svg_text("start", 4.0, 18.0, "factor");
        let ages = "age (prior: the composite, for the prior row)";
        axes + &svg_text("middle", middle, BOTTOM + 53.0, ages)
    }

    /// The line through the ages.
    fn line(&self, scale: &Scale) -> String {
        let ages = self.points.len().saturating_sub(1);
        let places = self.points[..ages]
            .iter()
            .enumerate()
            .map(|(place, point)| {
                format!(
                    "{:.1},{:.1}",
                    self.across(place),
                    scale.height(point.factor)
                )
            });
        let places = places.collect::<Vec<_>>().join(" ");
        format!("<polyline class=\"curve\" points=\"{places}\"/>\n")
    }

    /// A point, its factor beside the line and its name below the axis. Where
    /// nothing is unpaid the point is hollow.
    fn mark(&self, place: usize, point: &Point, scale: &Scale) -> String {
        let (across, height) = (self.across(place), scale.height(point.factor));
        let class = if point.has_unpaid { "point" } else { "hollow" };
        let decimals = if self.points.len() > 8 { 4 } else { 6 };
        let factor = rounded(point.factor, decimals);
        let mut mark =
            format!("<circle class=\"{class}\" cx=\"{across:.1}\" cy=\"{height:.1}\" r=\"4\"/>\n");
        let (aside, above) = self.beside_the_line(place, scale);
        mark += &svg_text("middle value", across + aside, height + above, &factor);
        mark + &svg_text("middle", across, BOTTOM + 32.0, &point.name)
    }

    /// How far from its point a factor is written so that the line does not go
    /// through it: below where the line bends upwards, and aside where it is
    /// steep.
    fn beside_the_line(&self, place: usize, scale: &Scale) -> (f64, f64) {
        let ages = &self.points[..self.points.len().saturating_sub(1)];
        let height = |place: usize| Some(scale.height(ages.get(place)?.factor));
        let before = place.checked_sub(1).and_then(height);
        let (Some(before), Some(here), Some(after)) = (before, height(place), height(place + 1))
        else {
            return (0.0, ABOVE);
        };
        let rise = before - after;
        let aside = if rise.abs() > STEEP {
            ASIDE * rise.signum()
        } else {
            0.0
        };
        if before + after < 2.0 * here {
            (aside, BELOW)
        } else {
            (-aside, ABOVE)
        }
    }
}

/// A factor with fewer decimals, a half up.
fn rounded(factor: u64, decimals: u32) -> String {
    let unit = 10_u64.pow(10 - decimals);
    decimal((factor + unit / 2) / unit, decimals)
}

fn svg_text(class: &str, x: f64, y: f64, text: &str) -> String {
    format!("<text class=\"{class}\" x=\"{x:.1}\" y=\"{y:.1}\">{text}</text>\n")
}
