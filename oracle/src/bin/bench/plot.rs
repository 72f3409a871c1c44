//! The drawing docs/speed.svg, by hand: the ratios to the Rust, the reads over memcpy, insert as the free list grows. Its colours follow
//! the reader's light or dark scheme.

use crate::{
    document::{grouped, is_read, ratio, to_memcpy, to_rust, to_rust_without_log, COPY_TARGETS},
    measure::Measure,
};
use std::fmt::Write;

const WIDTH: f64 = 920.0;
const LEFT: f64 = 190.0;
const RIGHT: f64 = 850.0;

const STYLE: &str = "
  .page { fill: #ffffff } .word { fill: #1f2328 } .soft { fill: #59636e } .grid { stroke: #d1d9e0 } .axis { stroke: #59636e }
  .ours { fill: #0969da } .ours-line { stroke: #0969da } .rust { fill: #bc4c00 } .rust-line { stroke: #bc4c00 }
  .hollow { fill: #ffffff; stroke: #0969da } .target { stroke: #1a7f37 } .target-word { fill: #1a7f37 }
  @media (prefers-color-scheme: dark) {
    .page { fill: #0d1117 } .word { fill: #f0f6fc } .soft { fill: #9198a1 } .grid { stroke: #30363d } .axis { stroke: #9198a1 }
    .ours { fill: #58a6ff } .ours-line { stroke: #58a6ff } .rust { fill: #f0883e } .rust-line { stroke: #f0883e }
    .hollow { fill: #0d1117; stroke: #58a6ff } .target { stroke: #3fb950 } .target-word { fill: #3fb950 }
  }
  text { font: 13px system-ui, -apple-system, 'Segoe UI', 'DejaVu Sans', sans-serif } .title { font-size: 16px; font-weight: 600 }
  .small { font-size: 12px } .end { text-anchor: end } .middle { text-anchor: middle } line, polyline { fill: none; stroke-width: 1 }
  .thick { stroke-width: 2 } .dashed { stroke-dasharray: 6 4 }
";

/// A logarithmic axis: values from `least` to `most` laid between two places.
struct Axis {
    least: f64,
    most: f64,
    from: f64,
    to: f64,
}

impl Axis {
    fn at(&self, value: f64) -> f64 {
        let part = (value / self.least).ln() / (self.most / self.least).ln();
        self.from + part * (self.to - self.from)
    }
}

struct Drawing {
    text: String,
    y: f64,
}

impl Drawing {
    fn line(&mut self, class: &str, from: (f64, f64), to: (f64, f64)) {
        writeln!(self.text, r#"<line class="{class}" x1="{:.1}" y1="{:.1}" x2="{:.1}" y2="{:.1}"/>"#, from.0, from.1, to.0, to.1).unwrap();
    }

    fn dot(&mut self, class: &str, at: (f64, f64), radius: f64) {
        writeln!(self.text, r#"<circle class="{class}" cx="{:.1}" cy="{:.1}" r="{radius}"/>"#, at.0, at.1).unwrap();
    }

    fn word(&mut self, class: &str, at: (f64, f64), words: &str) {
        writeln!(self.text, r#"<text class="{class}" x="{:.1}" y="{:.1}">{words}</text>"#, at.0, at.1).unwrap();
    }

    fn curve(&mut self, class: &str, points: &[(f64, f64)]) {
        let points: Vec<String> = points.iter().map(|(x, y)| format!("{x:.1},{y:.1}")).collect();
        writeln!(self.text, r#"<polyline class="{class}" points="{}"/>"#, points.join(" ")).unwrap();
    }

    fn title(&mut self, words: &str) {
        self.y += 34.0;
        self.word("word title", (30.0, self.y), words);
        self.y += 24.0;
    }

    /// Lines of a grid down to `bottom`, each with its value below it.
    fn grid(&mut self, axis: &Axis, values: &[f64], bottom: f64) {
        for value in values {
            let x = axis.at(*value);
            self.line("grid", (x, self.y), (x, bottom));
            let words = if *value < 1_000.0 { value.to_string() } else { grouped(*value as usize) };
            self.word("soft small middle", (x, bottom + 17.0), &words);
        }
    }

    fn target(&mut self, axis: &Axis, value: f64, bottom: f64, words: &str) {
        let x = axis.at(value);
        self.line("target thick dashed", (x, self.y - 6.0), (x, bottom));
        self.word("target-word small middle", (x, self.y - 11.0), words);
    }
}

fn heading(measure: &Measure) -> String {
    if measure.bytes == 32 {
        "E = 64, 32 bytes".into()
    } else {
        format!("multipart, {} bytes", grouped(measure.bytes))
    }
}

/// Each call's time over the Rust's, a dot a call; for writing calls a second one with the log's share taken off.
fn ratios(d: &mut Drawing, measures: &[Measure]) {
    d.title("Each call's time over the Rust's");
    d.dot("ours", (LEFT + 6.0, d.y - 4.0), 5.0);
    d.word("soft small", (LEFT + 17.0, d.y), "over plan and enactment, or over the read");
    d.dot("hollow thick", (LEFT + 316.0, d.y - 4.0), 4.0);
    d.word("soft small", (LEFT + 327.0, d.y), "the log's share taken off the Rust's time");
    d.y += 34.0;
    let axis = Axis { least: 0.01, most: 2.0, from: LEFT, to: RIGHT };
    let (row, gap) = (23.0, 32.0);
    let groups = measures.chunk_by(|a, b| a.bytes == b.bytes);
    let bottom = d.y + groups.clone().map(|group| gap + row * group.len() as f64).sum::<f64>();
    d.grid(&axis, &[0.01, 0.02, 0.05, 0.1, 0.2, 0.5, 1.0, 2.0], bottom);
    d.target(&axis, 1.0, bottom, "target: at most 1");
    let one = axis.at(1.0);
    for group in groups {
        d.y += gap - 10.0;
        d.word("word small", (30.0, d.y), &heading(&group[0]));
        d.y += 10.0;
        for m in group {
            let y = d.y + row / 2.0;
            let x = axis.at(to_rust(m));
            d.word("word end", (LEFT - 14.0, y + 4.0), m.call);
            d.line("ours-line thick", (one, y), (x, y));
            if !is_read(m) {
                d.dot("hollow thick", (axis.at(to_rust_without_log(m)), y), 4.0);
            }
            d.dot("ours", (x, y), 5.0);
            d.word("word small end", (x - 9.0, y + 4.0), &ratio(to_rust(m)));
            d.y += row;
        }
    }
    d.y = bottom + 38.0;
    d.word(
        "soft small middle",
        ((LEFT + RIGHT) / 2.0, d.y),
        "library's time / Rust's time, logarithmic; left of the line the library is faster",
    );
}

/// The copying read over memcpy, the library's and the Rust's.
fn over_memcpy(d: &mut Drawing, measures: &[Measure]) {
    d.title("The copying read over memcpy of as many bytes");
    d.dot("ours", (LEFT + 6.0, d.y - 4.0), 5.0);
    d.word("soft small", (LEFT + 17.0, d.y), "library, into a lent output");
    d.dot("rust", (LEFT + 316.0, d.y - 4.0), 5.0);
    d.word("soft small", (LEFT + 327.0, d.y), "Rust, into a new vector");
    d.y += 18.0;
    let axis = Axis { least: 0.8, most: 40.0, from: LEFT, to: RIGHT };
    let row = 52.0;
    let reads: Vec<&Measure> = measures.iter().filter(|m| m.call == "read").collect();
    let bottom = d.y + row * reads.len() as f64 + 8.0;
    d.grid(&axis, &[1.0, 2.0, 5.0, 10.0, 20.0, 40.0], bottom);
    let one = axis.at(1.0);
    d.line("axis", (one, d.y), (one, bottom));
    for m in reads {
        d.word("word end", (LEFT - 14.0, d.y + row / 2.0 + 4.0), &format!("{} bytes", grouped(m.bytes)));
        let theirs = m.times.rust.median() / m.times.memcpy.median();
        let most = COPY_TARGETS.iter().find(|(bytes, _)| *bytes == m.bytes).map(|(_, most)| *most);
        for (class, value, y) in [("ours", to_memcpy(m), d.y + 16.0), ("rust", theirs, d.y + 36.0)] {
            let x = axis.at(value);
            d.line(&format!("{class}-line thick"), (one, y), (x, y));
            d.dot(class, (x, y), 5.0);
            let right = most.map_or(x, |most| x.max(axis.at(most)));
            d.word("word small", (right + 10.0, y + 4.0), &ratio(value));
        }
        if let Some(most) = most {
            let limit = axis.at(most);
            d.line("target thick dashed", (limit, d.y + 4.0), (limit, d.y + row - 4.0));
            let right = axis.at(to_memcpy(m).max(theirs)) + 50.0;
            d.word("target-word small", (right.max(axis.at(2.0) + 14.0), d.y + row / 2.0 + 4.0), &format!("target: at most {most}"));
        }
        d.y += row;
    }
    d.y = bottom + 38.0;
    d.word("soft small middle", ((LEFT + RIGHT) / 2.0, d.y), "time / memcpy's time, logarithmic; memcpy itself is 1");
}

/// Insert's time by the length of the free list. A list of no members has no place on a logarithmic axis: the tables have it.
fn growing(d: &mut Drawing, in_order: &[Measure], shuffled: &[Measure]) {
    d.title("Insert of 32 bytes at E = 64 as the free list grows: time of a call");
    let (top, bottom) = (d.y, d.y + 300.0);
    let x_axis = Axis { least: 1.0, most: 30_000.0, from: LEFT - 40.0, to: RIGHT - 90.0 };
    let y_axis = Axis { least: 10.0, most: 1_000_000.0, from: bottom, to: top };
    d.grid(&x_axis, &[1.0, 10.0, 100.0, 1_000.0, 10_000.0], bottom);
    for (value, words) in [(10.0, "10 ns"), (100.0, "100 ns"), (1e3, "1 µs"), (1e4, "10 µs"), (1e5, "100 µs"), (1e6, "1 ms")] {
        let y = y_axis.at(value);
        d.line("grid", (x_axis.from, y), (x_axis.to, y));
        d.word("soft small end", (x_axis.from - 10.0, y + 4.0), words);
    }
    let rust = |m: &Measure| m.times.rust.median();
    let ours = |m: &Measure| m.times.ours.median();
    let series: [(&str, &str, &str, &[Measure], &dyn Fn(&Measure) -> f64, f64); 3] = [
        ("ours-line thick", "ours", "library, any order", shuffled, &ours, -4.0),
        ("ours-line thick dashed", "ours", "library, in order", in_order, &ours, 14.0),
        ("rust-line thick", "rust", "Rust", shuffled, &rust, 0.0),
    ];
    for (line, dot, name, measures, value, lower) in series {
        let grown: Vec<&Measure> = measures.iter().filter(|m| m.bytes > 0).collect();
        let points: Vec<(f64, f64)> = grown.iter().map(|m| (x_axis.at(m.bytes as f64), y_axis.at(value(m)))).collect();
        d.curve(line, &points);
        points.iter().for_each(|point| d.dot(dot, *point, 3.0));
        if let Some((x, y)) = points.last() {
            d.word("word small", (x + 8.0, y + 4.0 + lower), name);
        }
    }
    d.y = bottom + 38.0;
    d.word("soft small middle", ((x_axis.from + x_axis.to) / 2.0, d.y), "members of the free list; both axes are logarithmic");
}

pub fn drawing(measures: &[Measure], in_order: &[Measure], shuffled: &[Measure]) -> String {
    let mut d = Drawing { text: String::new(), y: 10.0 };
    ratios(&mut d, measures);
    over_memcpy(&mut d, measures);
    growing(&mut d, in_order, shuffled);
    let height = d.y + 24.0;
    let title = "Speed of the library beside the Rust";
    format!(
        "<svg xmlns=\"http://www.w3.org/2000/svg\" viewBox=\"0 0 {WIDTH} {height}\" width=\"{WIDTH}\" height=\"{height}\" role=\"img\" \
         aria-label=\"{title}\">\n<title>{title}</title>\n<style>{STYLE}</style>\n<rect class=\"page\" width=\"{WIDTH}\" \
         height=\"{height}\" rx=\"8\"/>\n{}</svg>\n",
        d.text
    )
}
