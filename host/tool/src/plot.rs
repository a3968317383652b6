//! Charts in SVG: panels with axes and curves, a legend, a caption.

use crate::markup::{escaped, FONT};

/// A chart: panels side by side, all with the same sorts of curve.
pub(crate) struct Chart {
    pub(crate) title: String,
    /// The name of each sort of curve.
    pub(crate) curves: Vec<String>,
    pub(crate) panels: Vec<Panel>,
    /// Lines below it.
    pub(crate) caption: Vec<String>,
}

/// Axes with curves.
pub(crate) struct Panel {
    pub(crate) title: String,
    pub(crate) across: Axis,
    pub(crate) up: Axis,
    /// The points of each curve, in the order of the chart's names.
    pub(crate) curves: Vec<Vec<(f64, f64)>>,
}

/// What an axis shows, and its ticks.
pub(crate) struct Axis {
    /// With the unit.
    pub(crate) label: &'static str,
    pub(crate) low: f64,
    pub(crate) step: f64,
    /// Steps from its low end to its high end.
    pub(crate) steps: u32,
    /// Decimals of its ticks.
    pub(crate) decimals: usize,
}

impl Axis {
    /// From 0, with at most six steps of 1, 2 or 5 tenths, hundredths or
    /// thousandths, to the least end that isn't below the greatest value.
    pub(crate) fn throughput(values: impl Iterator<Item = f64>) -> Axis {
        let greatest = values.fold(0.0, f64::max);
        let thousandths = [5.0, 10.0, 20.0, 50.0, 100.0, 200.0, 500.0, 1_000.0];
        let fits = |step: &f64| greatest * 1_000.0 <= step * 6.0;
        let step = thousandths.into_iter().find(fits).unwrap_or(1_000.0);
        Axis {
            label: "throughput (canisters in a round)",
            low: 0.0,
            step: step / 1_000.0,
            steps: ((greatest * 1_000.0 / step).ceil() as u32).max(1),
            decimals: if step < 10.0 { 3 } else { 2 },
        }
    }

    fn ticks(&self) -> impl Iterator<Item = f64> + '_ {
        (0..=self.steps).map(|at| self.low + self.step * f64::from(at))
    }

    /// 0 at the low end, 1 at the high end.
    fn part(&self, value: f64) -> f64 {
        (value - self.low) / (self.step * f64::from(self.steps))
    }
}

/// Panels in a row of the chart.
const ROW: usize = 3;
/// Pixels left of, above and below a panel's plot, and right of it.
const LEFT: f64 = 62.0;
const ABOVE: f64 = 30.0;
const BELOW: f64 = 48.0;
const RIGHT: f64 = 16.0;
/// Height of a plot.
const HIGH: f64 = 230.0;
/// Height of a line of text.
const LINE: f64 = 20.0;
/// Around the chart.
const MARGIN: f64 = 14.0;

/// How a sort of curve is drawn.
struct Sort {
    colour: &'static str,
    dashes: &'static str,
    /// The shape around (0, 0).
    marker: &'static str,
    /// Whether the marker is an outline, which shows what is below it.
    hollow: bool,
}

/// None is told by colour alone. The colours are Okabe and Ito's.
const SORTS: [Sort; 5] = [
    sort(
        "#0072b2",
        "none",
        "M-4 0A4 4 0 1 0 4 0A4 4 0 1 0-4 0Z",
        false,
    ),
    sort("#d55e00", "7 3", "M-4-4H4V4H-4Z", false),
    sort("#009e73", "2 3", "M0-5 5 4H-5Z", false),
    sort("#cc79a7", "9 3 2 3", "M0-5 5 0 0 5-5 0Z", false),
    sort("#000000", "4 4", "M-6-4H6L0 6Z", true),
];

const fn sort(
    colour: &'static str,
    dashes: &'static str,
    marker: &'static str,
    hollow: bool,
) -> Sort {
    Sort {
        colour,
        dashes,
        marker,
        hollow,
    }
}

/// The whole chart. The same chart gives the same bytes.
pub(crate) fn svg(chart: &Chart) -> String {
    let rows = chart.panels.len().div_ceil(ROW);
    let wide = if chart.panels.len() == 1 {
        560.0
    } else {
        290.0
    };
    let (cell_width, cell_height) = (LEFT + wide + RIGHT, ABOVE + HIGH + BELOW);
    let width = 2.0 * MARGIN + cell_width * chart.panels.len().min(ROW) as f64;
    let top = MARGIN + 26.0;
    let foot = top + cell_height * rows as f64;
    let height = foot + LINE * (chart.caption.len() + 1) as f64 + MARGIN + 6.0;
    let panels: String = chart
        .panels
        .iter()
        .enumerate()
        .map(|(at, panel)| {
            let x = MARGIN + cell_width * (at % ROW) as f64 + LEFT;
            let y = top + cell_height * (at / ROW) as f64 + ABOVE;
            panel_at(panel, x, y, wide)
        })
        .collect();
    let caption: String = chart
        .caption
        .iter()
        .enumerate()
        .map(|(at, line)| {
            let y = foot + LINE * (at as f64 + 2.0);
            text("", MARGIN, y, line)
        })
        .collect();
    format!(
        "<svg xmlns=\"http://www.w3.org/2000/svg\" role=\"img\" aria-labelledby=\"title about\" \
         width=\"{width}\" height=\"{height}\" viewBox=\"0 0 {width} {height}\" \
         font-family=\"{FONT}\" font-size=\"13\">\n\
         <title id=\"title\">{}</title>\n<desc id=\"about\">{}</desc>\n{STYLE}\
         <rect width=\"{width}\" height=\"{height}\" fill=\"#fff\"/>\n{}{panels}{}{caption}</svg>\n",
        escaped(&chart.title),
        escaped(&chart.caption.join(" ")),
        text(" class=\"heading\"", MARGIN, MARGIN + 14.0, &chart.title),
        legend(&chart.curves, foot + 14.0),
    )
}

const STYLE: &str = "<style>\n\
@media print{:root{width:100%;height:100%}}\n\
.heading{font-size:17px;font-weight:bold}\n\
.name{font-weight:bold}\n\
.middle{text-anchor:middle}\n\
.end{text-anchor:end}\n\
.grid{stroke:#ddd}\n\
.axis{stroke:#000;fill:none}\n\
.curve{fill:none;stroke-width:1.8}\n\
</style>\n";

/// A panel whose plot has its north-west corner at (x, y).
fn panel_at(panel: &Panel, x: f64, y: f64, wide: f64) -> String {
    let curves: String = panel
        .curves
        .iter()
        .zip(SORTS.iter().cycle())
        .map(|(points, sort)| {
            let at = |(across, up): &(f64, f64)| {
                let east = wide * panel.across.part(*across);
                (east, HIGH * (1.0 - panel.up.part(*up)))
            };
            curve(&points.iter().map(at).collect::<Vec<_>>(), sort)
        })
        .collect();
    format!(
        "<g class=\"panel\" transform=\"translate({x} {y})\">\n{}{}{}\
         <path class=\"axis\" d=\"M0 0V{HIGH}H{wide}\"/>\n{curves}</g>\n",
        text(" class=\"name\"", 0.0, -10.0, &panel.title),
        across_axis(&panel.across, wide),
        up_axis(&panel.up, wide),
    )
}

fn across_axis(axis: &Axis, wide: f64) -> String {
    let ticks = axis.ticks().map(|value| {
        let x = wide * axis.part(value);
        let words = format!("{value:.*}", axis.decimals);
        let tick = format!("<path class=\"axis\" d=\"M{x:.1} {HIGH}v5\"/>");
        tick + &text(" class=\"middle\"", x, HIGH + 19.0, &words)
    });
    let label = text(" class=\"middle\"", wide / 2.0, HIGH + 38.0, axis.label);
    ticks.collect::<String>() + &label
}

fn up_axis(axis: &Axis, wide: f64) -> String {
    let ticks = axis.ticks().map(|value| {
        let y = HIGH * (1.0 - axis.part(value));
        let words = format!("{value:.*}", axis.decimals);
        let line = format!("<path class=\"grid\" d=\"M0 {y:.1}H{wide}\"/>");
        line + &text(" class=\"end\"", -6.0, y + 4.0, &words)
    });
    let label = format!(
        "<text class=\"middle\" transform=\"translate(-46 {}) rotate(-90)\">{}</text>\n",
        HIGH / 2.0,
        escaped(axis.label)
    );
    ticks.collect::<String>() + &label
}

/// A line through the points, and a marker on each.
fn curve(points: &[(f64, f64)], sort: &Sort) -> String {
    let Sort {
        colour,
        dashes,
        marker,
        hollow,
    } = sort;
    let line: Vec<_> = points
        .iter()
        .map(|(x, y)| format!("{x:.1},{y:.1}"))
        .collect();
    let markers: String = points
        .iter()
        .map(|(x, y)| format!("<path transform=\"translate({x:.1} {y:.1})\" d=\"{marker}\"/>"))
        .collect();
    let look = match hollow {
        true => format!("fill=\"none\" stroke=\"{colour}\" stroke-width=\"1.4\""),
        false => format!("fill=\"{colour}\" stroke=\"#fff\" stroke-width=\"0.6\""),
    };
    format!(
        "<polyline class=\"curve\" stroke=\"{colour}\" stroke-dasharray=\"{dashes}\" \
         points=\"{}\"/>\n<g {look}>{markers}</g>\n",
        line.join(" ")
    )
}

/// Each sort of curve with its name, in a row.
fn legend(names: &[String], y: f64) -> String {
    let sample = |x: f64| [(x, y - 4.0), (x + 18.0, y - 4.0), (x + 36.0, y - 4.0)];
    let entries = names.iter().zip(SORTS.iter().cycle()).enumerate();
    entries
        .map(|(at, (name, sort))| {
            let x = MARGIN + 6.0 + 125.0 * at as f64;
            curve(&sample(x), sort) + &text("", x + 48.0, y, name)
        })
        .collect()
}

fn text(class: &str, x: f64, y: f64, words: &str) -> String {
    format!(
        "<text{class} x=\"{x:.1}\" y=\"{y:.1}\">{}</text>\n",
        escaped(words)
    )
}

#[cfg(test)]
mod tests {
    use super::*;

    #[test]
    fn axes_reach_the_greatest_value() {
        for (greatest, step, steps) in [
            (0.0, 0.005, 1),
            (0.03, 0.005, 6),
            (0.12, 0.02, 6),
            (0.1236, 0.05, 3),
            (0.6592, 0.2, 4),
            (1.2, 0.2, 6),
            (4.0, 1.0, 4),
        ] {
            let axis = Axis::throughput([0.0, greatest].into_iter());
            assert_eq!((axis.step, axis.steps), (step, steps), "{greatest}");
            assert!(axis.part(greatest) <= 1.0 + 1e-9);
        }
    }

    #[test]
    fn no_two_sorts_share_colour_dashes_or_marker() {
        for (at, one) in SORTS.iter().enumerate() {
            for other in &SORTS[at + 1..] {
                assert_ne!(one.colour, other.colour);
                assert_ne!(one.dashes, other.dashes);
                assert_ne!(one.marker, other.marker);
            }
        }
    }
}
