//! The plot: how many times as fast as `Type::parse` each group is, and the cost by length.

use crate::clock::Call;
use crate::groups::is_goal;
use crate::lengths::{LENGTHS, WAYS};
use crate::report::{Measured, GOAL};
use crate::stats::Spread;
use crate::svg::Svg;

const WIDTH: f64 = 760.0;
const LEFT: f64 = 50.0;

const OURS: [(Call, &str); 2] = [(Call::Ordinary, "ordinary"), (Call::Strict, "strict")];

pub fn drawn(all: &[Measured], lines: &[Measured]) -> String {
    let mut svg = Svg::new(WIDTH, 500.0, "Our readers beside Type::parse");
    let goals: Vec<&Measured> = all.iter().filter(|one| is_goal(&one.group)).collect();
    svg.text("title", LEFT, 20.0, "Times as fast as Type::parse");
    legend(&mut svg, 20.0, &["ordinary", "strict"]);
    bars(&mut svg, &goals);
    svg.text(
        "title",
        LEFT,
        285.0,
        "Nanoseconds by length in bytes, texts without marks",
    );
    legend(&mut svg, 285.0, &["ordinary", "strict", "Type::parse"]);
    panels(&mut svg, lines);
    svg.done()
}

fn legend(svg: &mut Svg, y: f64, names: &[&str]) {
    for (place, name) in names.iter().enumerate() {
        let x = 480.0 + 85.0 * place as f64;
        let class = if *name == "Type::parse" {
            "theirs"
        } else {
            name
        };
        svg.rect(class, x, y - 9.0, 10.0, 10.0);
        svg.text("", x + 14.0, y, name);
    }
}

/// The bars' scale: each step up is twice as fast.
struct Scale {
    low: f64,
    high: f64,
}

impl Scale {
    const TOP: f64 = 45.0;
    const BOTTOM: f64 = 225.0;

    /// Whole steps around all values, 1 and the goal.
    fn around(values: impl Iterator<Item = Spread>) -> Scale {
        let mut scale = Scale {
            low: 0.0,
            high: GOAL.log2(),
        };
        for value in values {
            scale.low = scale.low.min(value.low.log2().floor());
            scale.high = scale.high.max(value.high.log2().ceil());
        }
        scale
    }

    fn y(&self, value: f64) -> f64 {
        let share = (value.log2() - self.low) / (self.high - self.low);
        Scale::BOTTOM - share * (Scale::BOTTOM - Scale::TOP)
    }

    fn grid(&self, svg: &mut Svg) {
        for step in self.low as i32..=self.high as i32 {
            let value = f64::from(step).exp2();
            let class = match value {
                v if v == GOAL => "goal",
                1.0 => "axis",
                _ => "grid",
            };
            let y = self.y(value);
            svg.path(class, &[(LEFT, y), (WIDTH - 20.0, y)]);
            svg.text("end", LEFT - 6.0, y + 4.0, &value.to_string());
        }
        let goal = self.y(GOAL) - 4.0;
        svg.text("end", WIDTH - 20.0, goal, "goal");
    }
}

/// Bars from 1, up for faster and down for slower, with the spread as a line.
fn bars(svg: &mut Svg, goals: &[&Measured]) {
    let value = |one: &Measured, call| one.faster(call, Call::Theirs);
    let all = goals
        .iter()
        .flat_map(|one| OURS.map(|(call, _)| value(one, call)));
    let scale = Scale::around(all);
    scale.grid(svg);
    let step = (WIDTH - 20.0 - LEFT) / goals.len() as f64;
    for (place, one) in goals.iter().enumerate() {
        let middle = LEFT + step * (place as f64 + 0.5);
        for ((call, class), x) in OURS.into_iter().zip([middle - 38.0, middle + 4.0]) {
            bar(svg, &scale, class, x, value(one, call));
        }
        let name = format!("({}) {}", one.group.key, one.group.name);
        svg.text("middle", middle, Scale::BOTTOM + 18.0, &name);
        let refuses = match one.group.says.strict {
            [0] => continue,
            [0, ..] => "strict refuses some",
            _ => "strict refuses",
        };
        svg.text("middle", middle, Scale::BOTTOM + 32.0, refuses);
    }
}

/// One bar, its spread as a line with ends, and its number.
fn bar(svg: &mut Svg, scale: &Scale, class: &str, x: f64, spread: Spread) {
    let (y, one) = (scale.y(spread.median), scale.y(1.0));
    svg.rect(class, x, y.min(one), 34.0, (y - one).abs());
    let (low, high) = (scale.y(spread.low), scale.y(spread.high));
    let middle = x + 17.0;
    svg.path("axis", &[(middle, low), (middle, high)]);
    for end in [low, high] {
        svg.path("axis", &[(middle - 6.0, end), (middle + 6.0, end)]);
    }
    let over = high.min(one) - 4.0;
    svg.text("value", middle, over, &format!("{:.2}", spread.median));
}

/// A step of 1, 2 or 5 times a power of ten that divides the range into at most five.
fn tick(most: f64) -> f64 {
    let ten = 10f64.powf((most / 5.0).log10().floor());
    let steps = [1.0, 2.0, 5.0, 10.0].map(|step| step * ten);
    steps
        .into_iter()
        .find(|step| most / step <= 5.0)
        .unwrap_or(most)
}

/// One panel for each way to make a text longer, all of one scale.
fn panels(svg: &mut Svg, lines: &[Measured]) {
    let readers = [(Call::Theirs, "theirs"), OURS[0], OURS[1]];
    let times = lines
        .iter()
        .flat_map(|one| readers.map(|(call, _)| one.ns(call)));
    let most = times.fold(1.0, f64::max);
    let y = |ns: f64| 470.0 - 150.0 * ns / most;
    for (place, (way, four)) in WAYS.iter().zip(lines.chunks(LENGTHS.len())).enumerate() {
        let left = LEFT + 235.0 * place as f64;
        let x = |bytes: usize| left + 200.0 * bytes as f64 / 1024.0;
        for n in 0..=(most / tick(most)) as usize {
            let ns = n as f64 * tick(most);
            svg.path(
                if n == 0 { "axis" } else { "grid" },
                &[(left, y(ns)), (x(1024), y(ns))],
            );
            if place == 0 {
                svg.text("end", LEFT - 6.0, y(ns) + 4.0, &ns.to_string());
            }
        }
        for length in LENGTHS {
            svg.text("middle", x(length), 486.0, &length.to_string());
        }
        for (call, class) in readers {
            let points = LENGTHS
                .iter()
                .zip(four)
                .map(|(bytes, one)| (x(*bytes), y(one.ns(call))));
            svg.path(class, &points.collect::<Vec<_>>());
        }
        svg.text("", left + 6.0, 308.0, &format!("longer by {}", way.name));
    }
}

#[cfg(test)]
mod tests {
    use super::*;

    #[test]
    fn ticks_are_round_and_few() {
        assert_eq!(tick(7937.0), 2000.0);
        assert_eq!(tick(100.0), 20.0);
        assert_eq!(tick(26.0), 10.0);
    }

    #[test]
    fn the_scale_holds_1_and_the_goal() {
        let spread = Spread {
            low: 0.3,
            median: 0.4,
            high: 0.5,
        };
        let scale = Scale::around([spread].into_iter());
        assert_eq!((scale.low, scale.high), (-2.0, 1.0));
        assert_eq!(scale.y(2.0), Scale::TOP);
        assert_eq!(scale.y(0.25), Scale::BOTTOM);
    }
}
