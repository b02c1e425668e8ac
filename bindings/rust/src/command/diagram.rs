//! `--diagram`: the p-T diagram as SVG, drawn from the library's own answers. The same bytes each time.
use crate::grid::{rectangles, Class, Rectangle};
use crate::picture::{Picture, END, MIDDLE};
use climboat::{b23_pressure, saturation_pressure, Reading, Refusal};
use std::fmt::Write;

// T and p are logarithmic: on a linear axis region 5, 1,200 K wide, would take more room than the others together. The width is one decade of T, from COLDEST on; p has fifty units to a decade.
// A cell of the grid is one unit wide and high.
const LEFT: f64 = 84.0;
const TOP: f64 = 74.0;
const WIDTH: usize = 850;
const HEIGHT: usize = 565;
const COLDEST: f64 = 250.0;
const HIGHEST: f64 = 200.0;
const DECADE: f64 = 50.0;

/// Where the plot ends.
const RIGHT: f64 = LEFT + WIDTH as f64;
const BOTTOM: f64 = TOP + HEIGHT as f64;

const CRITICAL_T: f64 = 647.096;
const CRITICAL_P: f64 = 22.064;

fn x_of(t: f64) -> f64 {
    LEFT + WIDTH as f64 * (t / COLDEST).log10()
}

fn y_of(p: f64) -> f64 {
    TOP + DECADE * (HIGHEST.log10() - p.log10())
}

fn temperature_of(column: usize) -> f64 {
    COLDEST * 10_f64.powf((column as f64 + 0.5) / WIDTH as f64)
}

fn pressure_of(row: usize) -> f64 {
    10_f64.powf(HIGHEST.log10() - (row as f64 + 0.5) / DECADE)
}

fn colour(class: &Class) -> &'static str {
    match class {
        Class::Answered(regions) => match regions[..] {
            [1] => "#9cc9ea",
            [2] => "#fbdca8",
            [5] => "#f4b183",
            _ => "#a9d8a4",
        },
        Class::Refused(numbers) => {
            let regions = |number| numbers.get(number).map_or(&[][..], Vec::as_slice);
            match (regions(&2), regions(&3)) {
                ([1, 2, 5], []) => "#dcdcdc",
                ([5], [1, 2]) => "#efc4c0",
                ([1, 5], [2]) => "#d2c3e3",
                ([1, 2], [5]) => "#c5dcd2",
                _ => "#ffffff",
            }
        }
    }
}

/// Some regions in words, with what they do: `region 1 answers`, `regions 1 and 2 answer`.
fn doing(regions: &[u32], verb: &str) -> String {
    let ending = if regions.len() == 1 { "s" } else { "" };
    format!("{} {verb}{ending}", words(regions))
}

/// `region 1`, `regions 1 and 2`, `regions 1, 2 and 5`.
fn words(regions: &[u32]) -> String {
    let numbers: Vec<String> = regions.iter().map(u32::to_string).collect();
    match numbers.split_last() {
        Some((last, [])) => format!("region {last}"),
        Some((last, before)) => format!("regions {} and {last}", before.join(", ")),
        None => "no region".to_string(),
    }
}

fn named(class: &Class) -> String {
    match class {
        Class::Answered(regions) => words(regions),
        Class::Refused(numbers) => {
            let numbers: Vec<String> = numbers
                .keys()
                .map(|number| format!("by {number}"))
                .collect();
            format!("refused {}", numbers.join(" and "))
        }
    }
}

fn meaning(class: &Class) -> String {
    match class {
        Class::Answered(regions) => doing(regions, "answer"),
        Class::Refused(numbers) => {
            let parts = numbers
                .iter()
                .enumerate()
                .map(|(place, (number, regions))| {
                    let who = match place {
                        0 => doing(regions, "refuse"),
                        _ => words(regions),
                    };
                    format!("{who} by {number}")
                });
            parts.collect::<Vec<_>>().join(", ")
        }
    }
}

const TITLE: &str = "What regions 1, 2 and 5 answer for p and T";
const STYLE: &str = ".saturation{stroke:#0b3d91;stroke-width:2.5;fill:none}
.b23{stroke:#8a1c1c;stroke-width:2.5;fill:none}";

/// The whole picture.
pub fn svg() -> String {
    let temperatures: Vec<f64> = (0..WIDTH).map(temperature_of).collect();
    let pressures: Vec<f64> = (0..HEIGHT).map(pressure_of).collect();
    let cells = rectangles(&temperatures, &pressures);
    let mut picture = Picture::new(1020.0, 870.0, TITLE, STYLE);
    for (class, cells) in &cells {
        picture.cells(class, cells);
    }
    picture.temperatures();
    picture.pressures();
    picture.limits();
    picture.curve("saturation", 273.15, CRITICAL_T, saturation_pressure);
    picture.curve("b23", 623.15, 863.15, b23_pressure);
    picture.critical_point();
    picture.labels();
    picture.legend(cells.keys());
    picture.end()
}

impl Picture {
    fn upwards(&mut self, x: f64, y: f64, text: &str) {
        let turned = format!("{MIDDLE} transform=\"rotate(-90 {x:.1} {y:.1})\"");
        self.text(x, y, &turned, text);
    }

    fn cells(&mut self, class: &Class, cells: &[Rectangle]) {
        let mut path = String::new();
        for cell in cells {
            let (x, y) = (LEFT as usize + cell.x, TOP as usize + cell.y);
            let _ = write!(path, "M{x} {y}h{0}v{1}h-{0}z", cell.width, cell.height);
        }
        self.put(&format!(
            "<path fill=\"{}\" shape-rendering=\"crispEdges\" d=\"{path}\"/>",
            colour(class)
        ));
    }

    fn temperatures(&mut self) {
        for t in [300, 400, 500, 600, 700, 800, 900, 1000, 1200, 1500, 2000] {
            let x = x_of(f64::from(t));
            self.line("grid", (x, TOP), (x, BOTTOM));
            self.text(x, BOTTOM + 19.0, MIDDLE, &t.to_string());
        }
        let middle = (LEFT + RIGHT) / 2.0;
        self.text(middle, BOTTOM + 42.0, MIDDLE, "temperature T in K");
    }

    fn pressures(&mut self) {
        for exponent in -9..=2 {
            let y = y_of(10_f64.powi(exponent));
            self.line("grid", (LEFT, y), (RIGHT, y));
            let sign = if exponent < 0 { "\u{2212}" } else { "" };
            let power = format!(
                "10<tspan dy=\"-5\" style=\"font-size:10px\">{sign}{}</tspan>",
                exponent.abs()
            );
            self.text(LEFT - 8.0, y + 5.0, END, &power);
        }
        self.upwards(24.0, (TOP + BOTTOM) / 2.0, "pressure p in MPa");
    }

    /// Where the ranges end. Their numbers stand where no label can meet them: outside the plot, or behind the end of their line.
    fn limits(&mut self) {
        for t in [273.15, 623.15, 863.15, 1073.15, 2273.15] {
            let (x, name) = (x_of(t), format!("{t} K"));
            self.line("limit", (x, TOP), (x, BOTTOM));
            self.text(x, TOP - 8.0, &format!(" class=\"small\"{MIDDLE}"), &name);
        }
        let warm = x_of(1073.15);
        for (p, name, left, right) in [
            (100.0, "100 MPa", LEFT, warm),
            (50.0, "50 MPa", warm, RIGHT),
            (1.0e-8, "1.0e-8 MPa", LEFT, RIGHT),
        ] {
            let y = y_of(p);
            self.line("limit", (left, y), (right, y));
            self.text(right + 7.0, y + 4.0, " class=\"small\"", name);
        }
    }

    /// A line of the release, through the points that its call answers.
    fn curve(
        &mut self,
        kind: &str,
        from: f64,
        to: f64,
        pressure: fn(f64) -> Result<Reading, Refusal>,
    ) {
        let pieces = 80;
        let piece = (to - from) / f64::from(pieces);
        let temperatures = (0..=pieces).map(|place| (from + piece * f64::from(place)).min(to));
        let points: Vec<String> = temperatures
            .filter_map(|t| {
                pressure(t)
                    .ok()
                    .map(|reading| format!("{:.1} {:.1}", x_of(t), y_of(reading.value)))
            })
            .collect();
        self.put(&format!(
            "<path class=\"{kind}\" d=\"M{}\"/>",
            points.join("L")
        ));
    }

    fn critical_point(&mut self) {
        let (x, y) = (x_of(CRITICAL_T), y_of(CRITICAL_P));
        self.line("leader", (x, y), (x + 20.0, y + 56.0));
        self.put(&format!(
            "<circle cx=\"{x:.1}\" cy=\"{y:.1}\" r=\"4.5\" fill=\"#1c1c1c\"/>"
        ));
        self.text(x + 8.0, y + 70.0, "", "critical point");
        let coordinates = [format!("{CRITICAL_T} K"), format!("{CRITICAL_P} MPa")];
        for (place, coordinate) in coordinates.iter().enumerate() {
            let below = y + 86.0 + 14.0 * place as f64;
            self.text(x + 8.0, below, " class=\"small\"", coordinate);
        }
    }

    /// What a point is said to be is what the library says of it; only the places are chosen.
    fn labels(&mut self) {
        let name = format!(" class=\"name\"{MIDDLE}");
        let small = format!(" class=\"small\"{MIDDLE}");
        self.text(LEFT, 32.0, " class=\"name\"", TITLE);
        for (p, t, what) in [
            (9.0, 390.0, "water"),
            (3.0e-4, 490.0, "steam"),
            (3.0e-4, 1560.0, "steam from 1073.15 K on"),
        ] {
            self.text(x_of(t), y_of(p), &name, &named(&Class::of(p, t)));
            self.text(x_of(t), y_of(p) + 18.0, MIDDLE, what);
        }
        for (p, t) in [(2.6e-9, 412.0), (2.6e-9, 817.0), (2.6e-9, 1560.0)] {
            self.text(x_of(t), y_of(p), MIDDLE, &named(&Class::of(p, t)));
        }
        for (p, t) in [(1.0e-4, 261.5), (1.0e-4, 2384.0)] {
            self.upwards(x_of(t) + 4.5, y_of(p), &named(&Class::of(p, t)));
        }
        self.text(x_of(470.0), y_of(0.45), "", "saturation line");
        self.text(x_of(795.0), y_of(24.0), "", "B23");
        self.text(x_of(680.0), y_of(62.0), &small, "region 3");
    }

    fn legend<'a>(&mut self, classes: impl Iterator<Item = &'a Class>) {
        let (left, right, top) = (LEFT, LEFT + 400.0, BOTTOM + 62.0);
        for (place, class) in classes.enumerate() {
            let y = top + 22.0 * place as f64;
            self.swatch(left, y, colour(class));
            self.text(left + 36.0, y + 12.0, "", &meaning(class));
        }
        let lines = [
            ("saturation", "saturation line, to the critical point"),
            ("b23", "B23, the boundary between regions 2 and 3"),
            ("limit", "where a range ends"),
        ];
        for (place, (kind, meaning)) in lines.into_iter().enumerate() {
            let y = top + 22.0 * place as f64;
            self.line(kind, (right, y + 8.0), (right + 26.0, y + 8.0));
            self.text(right + 36.0, y + 12.0, "", meaning);
        }
        let notes = [
            "2: T out of range; 3: p out of range. Region 3 is left out.",
            "On the saturation line and at 1073.15 K the named region answers.",
        ];
        for (place, note) in notes.into_iter().enumerate() {
            let y = top + 22.0 * (lines.len() + place) as f64 + 12.0;
            self.text(right, y, "", note);
        }
    }
}
