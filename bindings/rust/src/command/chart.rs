//! `log .. --chart`: the readings of a log over its lines, as SVG. Those that are answered are a line, those that are refused are bands with their number. The same bytes each time.
use crate::bands::Band;
use crate::log::{counted, Tally};
use crate::picture::{Picture, END, MIDDLE};
use crate::readings::{Gap, Readings, Stretch};
use crate::request::Log;
use crate::scale::Scale;
use climboat::Cause;
use std::collections::BTreeMap;

const LEFT: f64 = 118.0;
const RIGHT: f64 = 968.0;
const CENTRE: f64 = (LEFT + RIGHT) / 2.0;
const TOP: f64 = 100.0;
const BOTTOM: f64 = 380.0;
/// The height of a lane and of a row of the key; and between the plot and the first lane.
const ROW: f64 = 22.0;
const SPACE: f64 = 8.0;

const STYLE: &str = ".reading{stroke:#0b3d91;stroke-width:2;stroke-linejoin:round;fill:none}
.alone{stroke:#0b3d91;stroke-linecap:round}
.band{fill-opacity:.45}
.number{font-weight:bold}
.none{paint-order:stroke;stroke:#fafafa;stroke-width:8px;stroke-linejoin:round}
.frame{stroke:#1c1c1c;stroke-opacity:.55;fill:none}";

/// The whole picture.
pub fn svg(log: Log, tally: Tally, readings: &Readings) -> String {
    let gaps = readings.stretches();
    let rows = ROW * gaps.len() as f64;
    let end = match gaps.is_empty() {
        true => BOTTOM,
        false => BOTTOM + SPACE + rows,
    };
    let (symbol, region) = (log.property.symbol(), log.region.number());
    let title = format!("{symbol} of region {region} over a log");
    let mut chart = Chart {
        picture: Picture::new(1020.0, end + 94.0 + rows, &title, STYLE),
        log,
        tally,
        readings,
        end,
    };
    chart.heading();
    chart.gaps(&gaps);
    chart.lines();
    chart.values();
    chart.key(&gaps);
    chart.picture.end()
}

/// How a gap is shown: in stripes of an angle, a width and a colour, and in words.
struct Look {
    id: String,
    angle: i32,
    width: f64,
    colour: &'static str,
    /// what its lane is called, and what stands over its bands
    name: String,
    short: String,
    meaning: &'static str,
}

impl Look {
    fn of(gap: Gap) -> Look {
        let Gap::Refused(number) = gap else {
            return Look {
                id: "bad".to_string(),
                angle: 0,
                width: 6.0,
                colour: "#1c1c1c",
                name: "bad line".to_string(),
                short: "bad".to_string(),
                meaning: "it could not be read as p and T, so that nothing was asked",
            };
        };
        let (angle, colour) = match number {
            1 => (45, "#8a1c1c"),
            2 => (-45, "#0b6e4f"),
            3 => (90, "#6a3fa0"),
            _ => (20, "#a05a00"),
        };
        // what the number means, without what to do
        let sentence = Cause::of(number).map_or("", Cause::sentence);
        Look {
            id: format!("refused{number}"),
            angle,
            width: 2.4,
            colour,
            name: format!("refused by {number}"),
            short: number.to_string(),
            meaning: sentence.split("; ").next().unwrap_or(sentence),
        }
    }

    /// The stripes, over a tint of their colour: a narrow band may lie between two of them.
    fn pattern(&self) -> String {
        let Look {
            id,
            angle,
            width,
            colour,
            ..
        } = self;
        let tint = format!("<path d=\"M0 0H6V6H0z\" fill=\"{colour}\" fill-opacity=\".35\"/>");
        let stripe = format!("<path d=\"M3 0V6\" stroke=\"{colour}\" stroke-width=\"{width}\"/>");
        format!("<pattern id=\"{id}\" width=\"6\" height=\"6\" patternUnits=\"userSpaceOnUse\" patternTransform=\"rotate({angle})\">{tint}{stripe}</pattern>")
    }

    fn fill(&self) -> String {
        format!("url(#{})", self.id)
    }
}

struct Chart<'a> {
    picture: Picture,
    log: Log,
    tally: Tally,
    readings: &'a Readings,
    /// where the lanes end, and the axis of lines is
    end: f64,
}

impl Chart<'_> {
    /// Where so many lines end.
    fn x_of(&self, lines: f64) -> f64 {
        LEFT + (RIGHT - LEFT) * lines / self.readings.lines.max(1) as f64
    }

    /// What is asked for, in its unit.
    fn wanted(&self) -> String {
        let property = self.log.property;
        format!("{} in {}", property.symbol(), property.unit())
    }

    fn heading(&mut self) {
        let lines = counted(self.readings.lines, "line");
        let region = self.log.region.number();
        let what = format!(
            "{} of region {region}, over a log of {lines}",
            self.wanted()
        );
        self.picture.text(LEFT, 34.0, " class=\"name\"", &what);
        let Tally {
            places,
            refused,
            bad,
        } = self.tally;
        let answered = places - refused;
        let [places, bad] = [counted(places, "place"), counted(bad, "bad line")];
        let tally = format!("{places} asked: {answered} answered, {refused} refused; {bad}");
        self.picture.text(LEFT, 58.0, "", &tally);
    }

    /// The bands of each gap over the plot, and again in a lane of its own under it, by which they are told apart without colour.
    fn gaps(&mut self, gaps: &BTreeMap<Gap, Vec<Stretch>>) {
        let mut numbers = Vec::new();
        for (place, (&gap, stretches)) in gaps.iter().enumerate() {
            let look = Look::of(gap);
            let bands = Band::all(stretches, (LEFT, RIGHT), |lines| self.x_of(lines));
            let top = BOTTOM + SPACE + ROW * place as f64;
            self.picture.put(&look.pattern());
            self.areas(&look, &bands, " class=\"band\"", (TOP, BOTTOM));
            self.areas(&look, &bands, "", (top, top + 15.0));
            self.picture.text(LEFT - 8.0, top + 12.0, END, &look.name);
            self.stretches(&bands, top + 12.0);
            numbers.extend(bands.iter().map(|band| (band.middle(), look.short.clone())));
        }
        self.numbers(numbers);
    }

    fn areas(&mut self, look: &Look, bands: &[Band], class: &str, (top, bottom): (f64, f64)) {
        let path: String = bands.iter().map(|band| band.path(top, bottom)).collect();
        let fill = look.fill();
        self.picture
            .put(&format!("<path{class} fill=\"{fill}\" d=\"{path}\"/>"));
    }

    /// Beside each band of a lane its lines: behind it, or before it, or nowhere, where it would meet another.
    fn stretches(&mut self, bands: &[Band], y: f64) {
        let nexts = bands.iter().skip(1).map(|band| band.left).chain([RIGHT]);
        let mut taken = LEFT;
        for (band, next) in bands.iter().zip(nexts) {
            let lines = band.lines();
            let width = 4.0 + 6.8 * lines.chars().count() as f64;
            let behind = band.right + width < next;
            let x = if behind {
                band.right + 4.0
            } else {
                band.left - width
            };
            if behind || x > taken {
                self.picture.text(x, y, " class=\"small\"", &lines);
            }
            taken = if behind { x + width } else { band.right };
        }
    }

    /// Over each band its number, where it does not meet the one before.
    fn numbers(&mut self, mut numbers: Vec<(f64, String)>) {
        numbers.sort_by(|a, b| a.0.total_cmp(&b.0));
        let attributes = format!(" class=\"number\"{MIDDLE}");
        let mut taken = 0.0;
        for (middle, number) in numbers {
            let half = 4.5 * number.len() as f64;
            if middle - half > taken {
                self.picture.text(middle, TOP - 7.0, &attributes, &number);
                taken = middle + half + 3.0;
            }
        }
    }

    /// The axis of lines, under the lanes.
    fn lines(&mut self) {
        let end = self.end;
        let ticks = Scale::whole(self.readings.lines, 12.0).ticks();
        for (line, digits) in ticks.into_iter().skip(1) {
            let x = self.x_of(line - 0.5);
            self.picture.line("grid", (x, TOP), (x, end));
            self.picture.text(x, end + 18.0, MIDDLE, &digits);
        }
        self.picture.put(&format!("<path class=\"frame\" d=\"M{LEFT} {TOP}H{RIGHT}V{end}H{LEFT}zM{LEFT} {BOTTOM}H{RIGHT}\"/>"));
        self.picture
            .text(CENTRE, end + 40.0, MIDDLE, "line of the log");
    }

    /// The axis of values and the readings; or a word, where none is answered.
    fn values(&mut self) {
        let middle = (TOP + BOTTOM) / 2.0;
        let Some((low, high)) = self.readings.range() else {
            let none = match self.tally.places {
                0 => "the log has no reading",
                _ => "no reading is answered",
            };
            let attributes = format!(" class=\"none\"{MIDDLE}");
            return self.picture.text(CENTRE, middle, &attributes, none);
        };
        let scale = Scale::around(low, high, 7.0);
        let y_of = |value: f64| BOTTOM - (BOTTOM - TOP) * scale.share(value);
        for (value, digits) in scale.ticks() {
            let y = y_of(value);
            self.picture.line("grid", (LEFT, y), (RIGHT, y));
            self.picture.text(LEFT - 8.0, y + 4.5, END, &digits);
        }
        let attributes = format!(" class=\"small\"{END}");
        let wanted = self.wanted();
        self.picture
            .text(LEFT - 8.0, TOP - 22.0, &attributes, &wanted);
        self.readings(y_of);
    }

    /// The answered readings: pieces of a line, and dots for those that stand alone.
    fn readings(&mut self, y_of: impl Fn(f64) -> f64) {
        let (mut lines, mut dots) = (String::new(), String::new());
        for piece in self.readings.pieces((RIGHT - LEFT) as u64) {
            let points = piece.iter().map(|&(line, value)| {
                format!("{:.1} {:.1}", self.x_of(line as f64 - 0.5), y_of(value))
            });
            let points: Vec<String> = points.collect();
            match &points[..] {
                [point] => dots.push_str(&format!("M{point}h0")),
                _ => lines.push_str(&format!("M{}", points.join("L"))),
            }
        }
        // as large as there is room between two lines
        let size = (self.x_of(1.0) - LEFT).clamp(2.0, 6.0);
        self.picture
            .put(&format!("<path class=\"reading\" d=\"{lines}\"/>"));
        self.picture.put(&format!(
            "<path class=\"alone\" stroke-width=\"{size:.1}\" d=\"{dots}\"/>"
        ));
    }

    /// What the line and the bands mean, and how often each occurs.
    fn key(&mut self, gaps: &BTreeMap<Gap, Vec<Stretch>>) {
        let mut y = self.end + 62.0;
        let answered = counted(self.tally.places - self.tally.refused, "place");
        let line = "the line; it breaks wherever a reading is refused or a line is bad";
        self.picture
            .line("reading", (LEFT, y + 8.0), (LEFT + 26.0, y + 8.0));
        self.row(y, &format!("answered: {answered}"), line);
        for (&gap, stretches) in gaps {
            let look = Look::of(gap);
            let places = stretches.iter().map(|stretch| stretch.places).sum();
            let places = counted(places, if gap == Gap::Bad { "line" } else { "place" });
            y += ROW;
            self.picture.swatch(LEFT, y, &look.fill());
            self.row(y, &format!("{}: {places}", look.name), look.meaning);
        }
    }

    fn row(&mut self, y: f64, what: &str, meaning: &str) {
        self.picture.text(LEFT + 36.0, y + 12.0, "", what);
        self.picture.text(LEFT + 232.0, y + 12.0, "", meaning);
    }
}
