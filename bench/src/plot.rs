//! The plot of growth: instructions of a decision by C, L and clause length, as SVG.
use crate::plan::{Series, Task};

const PANEL: (f64, f64) = (260.0, 220.0);
const LEFT: f64 = 70.0;
const TOP: f64 = 60.0;
const GAP: f64 = 50.0;

/// The lines of a panel: task of the group, name, colour, dashes.
const LINES: [(usize, &str, &str, &str); 3] = [
    (0, "proved, decision", "#1b6ca8", ""),
    (2, "proved, its validation alone", "#0b2f4a", "2 5"),
    (1, "plain Rust, decision", "#c8641b", ""),
];

/// One panel: where it stands, and the ranges of its axes.
struct Panel<'a> {
    series: &'a Series,
    left: f64,
    most: f64,
}

fn label(x: f64, y: f64, anchor: &str, text: &str) -> String {
    format!("<text x=\"{x:.1}\" y=\"{y:.1}\" text-anchor=\"{anchor}\">{text}</text>\n")
}

fn line(x1: f64, y1: f64, x2: f64, y2: f64, style: &str) -> String {
    format!("<line x1=\"{x1:.1}\" y1=\"{y1:.1}\" x2=\"{x2:.1}\" y2=\"{y2:.1}\" {style}/>\n")
}

impl Panel<'_> {
    fn scaled(&self, number: usize) -> f64 {
        if self.series.logarithmic {
            (number as f64).log2()
        } else {
            number as f64
        }
    }

    /// The ends of the horizontal axis: from 0, or from the first point where it is logarithmic.
    fn ends(&self) -> (f64, f64) {
        let points = &self.series.points;
        let first = if self.series.logarithmic {
            self.scaled(points[0].0)
        } else {
            0.0
        };
        (first, self.scaled(points[points.len() - 1].0))
    }

    fn x(&self, number: usize) -> f64 {
        let (from, to) = self.ends();
        self.left + PANEL.0 * (self.scaled(number) - from) / (to - from)
    }

    fn y(&self, thousands: f64) -> f64 {
        TOP + PANEL.1 * (1.0 - thousands / self.most)
    }

    fn axes(&self) -> String {
        let (bottom, right) = (TOP + PANEL.1, self.left + PANEL.0);
        let mut svg = String::new();
        for tick in 0..=4 {
            let thousands = self.most * f64::from(tick) / 4.0;
            let y = self.y(thousands);
            svg += &line(self.left, y, right, y, "stroke=\"#ddd\"");
            svg += &label(self.left - 6.0, y + 4.0, "end", &format!("{thousands:.0}"));
        }
        for &(number, _) in &self.series.points {
            let x = self.x(number);
            svg += &line(x, bottom, x, bottom + 5.0, "stroke=\"#444\"");
            svg += &label(x, bottom + 18.0, "middle", &number.to_string());
        }
        let scale = if self.series.logarithmic { " (logarithmic)" } else { "" };
        svg += &line(self.left, bottom, right, bottom, "stroke=\"#444\"");
        svg += &line(self.left, TOP, self.left, bottom, "stroke=\"#444\"");
        svg += &label(
            self.left + PANEL.0 / 2.0,
            bottom + 38.0,
            "middle",
            &format!("{}{scale}", self.series.axis),
        );
        svg + &label(self.left + PANEL.0 / 2.0, TOP - 10.0, "middle", self.series.title)
    }

    fn curve(&self, task: usize, colour: &str, dashes: &str) -> String {
        let place = |(number, group): &(usize, crate::plan::Group)| {
            (self.x(*number), self.y(group.tasks[task].instructions / 1000.0))
        };
        let places: Vec<(f64, f64)> = self.series.points.iter().map(place).collect();
        let path: Vec<String> = places.iter().map(|(x, y)| format!("{x:.1},{y:.1}")).collect();
        let mut svg = format!(
            "<polyline points=\"{}\" fill=\"none\" stroke=\"{colour}\" stroke-width=\"2\" stroke-dasharray=\"{dashes}\"/>\n",
            path.join(" ")
        );
        if dashes.is_empty() {
            for (x, y) in places {
                svg += &format!("<circle cx=\"{x:.1}\" cy=\"{y:.1}\" r=\"3\" fill=\"{colour}\"/>\n");
            }
        }
        svg
    }
}

/// The end of the vertical axis: a multiple of 200 thousand instructions above all points.
fn most(growth: &[Series]) -> f64 {
    let tasks = growth
        .iter()
        .flat_map(|series| series.points.iter().flat_map(|(_, group)| &group.tasks));
    let largest = tasks.map(|task: &Task| task.instructions / 1000.0).fold(0.0, f64::max);
    200.0 * (largest / 200.0).ceil()
}

fn legend() -> String {
    let mut svg = String::new();
    for (i, (_, name, colour, dashes)) in LINES.iter().enumerate() {
        let x = LEFT + 230.0 * i as f64;
        let style = format!("stroke=\"{colour}\" stroke-width=\"2\" stroke-dasharray=\"{dashes}\"");
        svg += &line(x, 20.0, x + 30.0, 20.0, &style);
        svg += &label(x + 36.0, 24.0, "start", name);
    }
    svg
}

/// The whole plot.
pub fn plot(growth: &[Series]) -> String {
    let width = LEFT + growth.len() as f64 * (PANEL.0 + GAP);
    let height = TOP + PANEL.1 + 55.0;
    let mut svg = format!(
        "<svg xmlns=\"http://www.w3.org/2000/svg\" viewBox=\"0 0 {width} {height}\" width=\"{width}\" height=\"{height}\" \
         font-family=\"sans-serif\" font-size=\"12\">\n<rect width=\"100%\" height=\"100%\" fill=\"white\"/>\n"
    );
    svg += &legend();
    let middle = TOP + PANEL.1 / 2.0;
    svg += &format!(
        "<text x=\"18\" y=\"{middle}\" text-anchor=\"middle\" transform=\"rotate(-90 18 {middle})\">thousand instructions per decision</text>\n"
    );
    for (i, series) in growth.iter().enumerate() {
        let panel = Panel {
            series,
            left: LEFT + i as f64 * (PANEL.0 + GAP),
            most: most(growth),
        };
        svg += &panel.axes();
        for (task, _, colour, dashes) in LINES {
            svg += &panel.curve(task, colour, dashes);
        }
    }
    svg + "</svg>\n"
}
