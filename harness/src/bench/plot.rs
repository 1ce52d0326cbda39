//! The growth plot, as SVG: two panels with logarithmic axes.

use super::growth::Growth;
use std::fmt::Write;

const WIDTH: f64 = 420.0;
const HEIGHT: f64 = 300.0;
const LEFT: f64 = 70.0;
const TOP: f64 = 40.0;
const COLOURS: [&str; 3] = ["#1f5fa8", "#2f8f4e", "#b8442e"];

/// A curve: its name and its points.
struct Curve<'a> {
    name: &'a str,
    colour: &'a str,
    points: Vec<(f64, f64)>,
}

/// A value on a logarithmic axis of whole decades.
struct Axis {
    low: f64,
    high: f64,
}

impl Axis {
    fn of(values: impl Iterator<Item = f64> + Clone) -> Axis {
        let low = values.clone().fold(f64::MAX, f64::min).log10().floor();
        let high = values.fold(f64::MIN, f64::max).log10().ceil();
        Axis { low, high: high.max(low + 1.0) }
    }

    fn place(&self, value: f64) -> f64 {
        (value.log10() - self.low) / (self.high - self.low)
    }

    fn decades(&self) -> impl Iterator<Item = f64> {
        (self.low as i32..=self.high as i32).map(|power| 10f64.powi(power))
    }
}

fn short(value: f64) -> String {
    match value {
        v if v >= 1e9 => format!("{} G", v / 1e9),
        v if v >= 1e6 => format!("{} M", v / 1e6),
        v if v >= 1e3 => format!("{} k", v / 1e3),
        v => format!("{v}"),
    }
}

fn panel(svg: &mut String, left: f64, title: &str, curves: &[Curve]) {
    let points = || curves.iter().flat_map(|curve| curve.points.iter());
    let (x, y) = (Axis::of(points().map(|p| p.0)), Axis::of(points().map(|p| p.1)));
    let at_x = |value: f64| left + x.place(value) * WIDTH;
    let at_y = |value: f64| TOP + (1.0 - y.place(value)) * HEIGHT;
    writeln!(svg, "<text x='{left}' y='{}' font-weight='bold'>{title}</text>", TOP - 16.0).unwrap();
    for value in x.decades() {
        let at = at_x(value);
        writeln!(svg, "<path d='M{at:.1} {TOP}V{:.1}' stroke='#ddd'/>", TOP + HEIGHT).unwrap();
        writeln!(svg, "<text x='{at:.1}' y='{:.1}' text-anchor='middle'>{}</text>", TOP + HEIGHT + 18.0, short(value)).unwrap();
    }
    for value in y.decades() {
        let at = at_y(value);
        writeln!(svg, "<path d='M{left} {at:.1}H{:.1}' stroke='#ddd'/>", left + WIDTH).unwrap();
        writeln!(svg, "<text x='{:.1}' y='{:.1}' text-anchor='end'>{}</text>", left - 6.0, at + 4.0, short(value)).unwrap();
    }
    for (index, curve) in curves.iter().enumerate() {
        let line: Vec<String> = curve.points.iter().map(|p| format!("{:.1},{:.1}", at_x(p.0), at_y(p.1))).collect();
        writeln!(svg, "<polyline points='{}' fill='none' stroke='{}' stroke-width='2'/>", line.join(" "), curve.colour).unwrap();
        for point in &curve.points {
            writeln!(svg, "<circle cx='{:.1}' cy='{:.1}' r='3' fill='{}'/>", at_x(point.0), at_y(point.1), curve.colour).unwrap();
        }
        let down = TOP + 16.0 + 16.0 * index as f64;
        writeln!(svg, "<text x='{:.1}' y='{down:.1}' fill='{}'>{}</text>", left + 10.0, curve.colour, curve.name).unwrap();
    }
    writeln!(svg, "<text x='{:.1}' y='{:.1}' text-anchor='middle'>edits</text>", left + WIDTH / 2.0, TOP + HEIGHT + 36.0).unwrap();
}

pub fn growth(rows: &[Growth], names: &[&str]) -> String {
    let curve = |name, colour, value: &dyn Fn(&Growth) -> f64| Curve {
        name,
        colour,
        points: rows.iter().map(|row| (row.edits as f64, value(row))).collect(),
    };
    let bytes = [
        curve("server's end", COLOURS[0], &|row| row.server_bytes as f64),
        curve("server's graph", COLOURS[2], &|row| row.graph_bytes as f64),
    ];
    let mut times: Vec<Curve> = Vec::new();
    for (index, &name) in names.iter().chain(&["graph"]).enumerate() {
        let colour = if name == "graph" { COLOURS[2] } else { COLOURS[index % 2] };
        times.push(curve(name, colour, &move |row| row.times[index]));
    }
    let (wide, high) = (2.0 * (WIDTH + LEFT) + 40.0, TOP + HEIGHT + 50.0);
    let mut svg =
        format!("<svg xmlns='http://www.w3.org/2000/svg' width='{wide}' height='{high}' font-family='sans-serif' font-size='12'>\n");
    writeln!(svg, "<rect width='100%' height='100%' fill='white'/>").unwrap();
    panel(&mut svg, LEFT, "Bytes kept at the server", &bytes);
    panel(&mut svg, 2.0 * LEFT + WIDTH, "Nanoseconds per edit, whole sheet", &times);
    svg + "</svg>\n"
}
