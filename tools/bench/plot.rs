//! The plots: a bar for each printer, or for each reader, at each workload.

use std::fmt::Write;

use crate::results::{Results, OURS};

const WIDTH: f64 = 760.0;
/// Where the bars start, and how long the longest is.
const LEFT: f64 = 90.0;
const LONGEST: f64 = 520.0;
const BAR: f64 = 14.0;
const STEP: f64 = 18.0;
/// From a workload's name to its first bar, and from its last bar to the next name.
const HEAD: f64 = 26.0;
const GAP: f64 = 20.0;
const TOP: f64 = 52.0;

const OUR_COLOUR: &str = "#1f6fb4";
const OTHER_COLOUR: &str = "#b4bcc4";

/// The plot as an SVG file.
pub fn svg(results: &Results) -> String {
    let Results { basis, names, compared, all } = results;
    let most = all.iter().flat_map(|measured| &measured.nanoseconds[..*compared]).fold(0.0, |most: f64, time| most.max(*time));
    let height = TOP + all.len() as f64 * (HEAD + *compared as f64 * STEP + GAP);
    let mut svg = format!(
        "<svg xmlns=\"http://www.w3.org/2000/svg\" viewBox=\"0 0 {WIDTH} {height}\" width=\"{WIDTH}\" height=\"{height}\" \
         font-family=\"sans-serif\" font-size=\"12\" fill=\"#222\">\n\
         <title>Nanoseconds per number at each workload</title>\n\
         <rect width=\"{WIDTH}\" height=\"{height}\" fill=\"white\"/>\n\
         <text x=\"12\" y=\"26\" font-size=\"15\">Nanoseconds per number, and the ratio to {basis}; shorter is better</text>\n"
    );
    let mut y = TOP;
    for measured in all {
        text(&mut svg, 12.0, y + 12.0, "start", "bold", measured.name);
        y += HEAD;
        for (which, nanoseconds) in measured.nanoseconds[..*compared].iter().enumerate() {
            let (colour, weight) = if which == OURS { (OUR_COLOUR, "bold") } else { (OTHER_COLOUR, "normal") };
            let length = nanoseconds / most * LONGEST;
            text(&mut svg, LEFT - 8.0, y + 11.0, "end", weight, names[which]);
            bar(&mut svg, y, length, colour);
            let label = format!("{nanoseconds:.1}  ({:.2})", measured.ratio(which));
            text(&mut svg, LEFT + length + 6.0, y + 11.0, "start", weight, &label);
            y += STEP;
        }
        y += GAP;
    }
    svg + "</svg>\n"
}

fn bar(svg: &mut String, y: f64, length: f64, colour: &str) {
    writeln!(svg, "<rect x=\"{LEFT}\" y=\"{y}\" width=\"{length:.1}\" height=\"{BAR}\" fill=\"{colour}\"/>")
        .expect("a string takes it");
}

fn text(svg: &mut String, x: f64, y: f64, anchor: &str, weight: &str, text: &str) {
    writeln!(svg, "<text x=\"{x:.1}\" y=\"{y}\" text-anchor=\"{anchor}\" font-weight=\"{weight}\">{text}</text>")
        .expect("a string takes it");
}
