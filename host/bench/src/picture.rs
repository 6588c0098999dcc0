//! The picture: a row for each measurement, and in it a mark for each opponent on a log scale.

use crate::measurement::{Measurement, Opponent};

/// The opponents that are shown, with their colours, and their marks, for those who see no colours;
/// where their numbers end, and where their words in the legend begin. What comes later lies above.
#[rustfmt::skip]
const SHOWN: [(Opponent, &str, &str, f64, f64, &str); 3] = [
    (Opponent::Gecode, "#1a7f37", "▲", 874.0, 630.0, "Gecode, its tables built"),
    (Opponent::Packed, "#b35900", "■", 816.0, 420.0, "the same, valid rows packed"),
    (Opponent::Hand, "#0b5cad", "●", 758.0, 20.0, "hand-optimised, valid rows in words as in the library"),
];

const BOLD: &str = "font-weight=\"bold\"";
const MIDDLE: &str = "text-anchor=\"middle\"";

/// Where the rows begin.
const TOP: f64 = 126.0;

/// The picture of these measurements; the machine is named in it.
pub fn svg(measurements: &[Measurement], machine: &str) -> String {
    let (mut y, mut kind, mut rows) = (TOP, None, String::new());
    for it in measurements {
        if kind.replace(it.kind) != Some(it.kind) {
            y += 25.0;
            rows += &text(20.0, y, BOLD, it.kind.title());
        }
        y += 17.0;
        rows += &row(it, y);
    }
    let (head, scale, height) = (head(machine), scale(y + 6.0), y + 20.0);
    format!(
        "<svg xmlns=\"http://www.w3.org/2000/svg\" width=\"900\" height=\"{height}\" \
         viewBox=\"0 0 900 {height}\" font-family=\"sans-serif\" font-size=\"11\" fill=\"#1b1f24\">\n\
         <rect width=\"900\" height=\"{height}\" fill=\"#ffffff\"/>\n{head}{scale}{rows}</svg>\n"
    )
}

fn head(machine: &str) -> String {
    let large = &format!("{BOLD} font-size=\"19\"");
    let title = "The proved library's time over its opponents'";
    let words = "Ratios of medians, log scale. Left of 1 the library is faster, right of 1 it is \
                 slower. Dashes: 1.1.";
    let mut head = text(20.0, 34.0, large, title);
    head += &text(20.0, 56.0, "", words);
    head += &text(20.0, 73.0, "", machine);
    for (_, colour, mark, _, at, words) in SHOWN {
        let style = format!("fill=\"{colour}\"");
        head += &text(at, 94.0, &style, &format!("{mark} {words}"));
    }
    head
}

/// The lines of the scale, down to here.
fn scale(end: f64) -> String {
    let line = |ratio: f64, style: &str| {
        let x = x(ratio);
        format!("<path d=\"M{x:.1} {TOP}V{end}\" stroke=\"#1b1f24\" {style}/>\n")
    };
    let faint = "stroke-opacity=\"0.2\"";
    let mut scale = line(1.1, "stroke-dasharray=\"3\" stroke-opacity=\"0.6\"");
    for tick in [0.1, 0.2, 0.5, 1.0, 2.0, 5.0, 10.0] {
        scale += &line(tick, if tick == 1.0 { "" } else { faint });
        scale += &text(x(tick), TOP - 8.0, MIDDLE, &tick.to_string());
    }
    scale
}

/// The name, the marks and the numbers. A bar joins the line at 1 to the hand-optimised engine's mark.
fn row(it: &Measurement, y: f64) -> String {
    let mut row = text(30.0, y, "", &it.book);
    for (opponent, colour, mark, end, ..) in SHOWN {
        if let Some(at) = it.ratio(opponent).map(x) {
            if opponent == Opponent::Hand {
                let (from, middle) = (x(1.0), y - 4.0);
                let path = format!("M{from:.1} {middle}H{at:.1}");
                row += &format!("<path d=\"{path}\" stroke=\"{colour}\" stroke-width=\"3\"/>\n");
            }
            row += &text(at, y, &format!("fill=\"{colour}\" {MIDDLE}"), mark);
        }
        let style = format!("fill=\"{colour}\" text-anchor=\"end\"");
        row += &text(end, y, &style, &it.ratio_text(opponent));
    }
    row
}

/// Where a ratio stands: 0.1 at the left end, 12 at the right one, and none outside.
fn x(ratio: f64) -> f64 {
    let part = (ratio / 0.1).ln() / (12.0_f64 / 0.1).ln();
    232.0 + 468.0 * part.clamp(0.0, 1.0)
}

fn text(x: f64, y: f64, style: &str, words: &str) -> String {
    format!("<text x=\"{x:.1}\" y=\"{y}\" {style}>{words}</text>\n")
}
