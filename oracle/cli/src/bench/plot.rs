//! Two plots side by side, on logarithmic axes, as SVG.

/// Nanoseconds of each engine at a number of frames or registers.
pub(crate) struct Row {
    pub(crate) at: usize,
    pub(crate) least: Vec<f64>,
}

const COLOURS: [&str; 4] = ["#b03a2e", "#1f618d", "#7d6608", "#777777"];
const WIDE: f64 = 360.0;
const HIGH: f64 = 260.0;
const LEFT: f64 = 50.0;
const TOP: f64 = 30.0;

pub(crate) fn svg(names: &[&str], frames: &[Row], regs: &[Row]) -> String {
    let all = || frames.iter().chain(regs).flat_map(|r| &r.least);
    let low = 10f64.powf(all().copied().fold(f64::MAX, f64::min).log10().floor());
    let high = 10f64.powf(all().copied().fold(0.0, f64::max).log10().ceil());
    let mut out = format!(
        "<svg xmlns=\"http://www.w3.org/2000/svg\" viewBox=\"0 0 {} {}\" font-family=\"sans-serif\" font-size=\"11\">\n\
         <rect width=\"100%\" height=\"100%\" fill=\"white\"/>\n",
        2.0 * (WIDE + LEFT) + 30.0,
        HIGH + TOP + 70.0
    );
    out += &part(names, frames, "frames of 4 registers", LEFT, low, high);
    out += &part(names, regs, "registers, up to 255 in a frame", 2.0 * LEFT + WIDE, low, high);
    let mut x = LEFT;
    for (i, name) in names.iter().enumerate() {
        let (name, y) = (name.replace('`', ""), TOP + HIGH + 55.0);
        let colour = COLOURS[(i + COLOURS.len() - names.len()) % COLOURS.len()];
        out += &format!(
            "<line x1=\"{x}\" y1=\"{y}\" x2=\"{}\" y2=\"{y}\" stroke=\"{colour}\" stroke-width=\"2\"/>\
             <text x=\"{}\" y=\"{}\">{name}</text>\n",
            x + 18.0,
            x + 23.0,
            y + 4.0
        );
        x += 50.0 + 6.5 * name.len() as f64;
    }
    out + "</svg>\n"
}

fn part(names: &[&str], rows: &[Row], title: &str, left: f64, low: f64, high: f64) -> String {
    let (first, last) = (rows[0].at as f64, rows[rows.len() - 1].at as f64);
    let x = |at: usize| left + WIDE * (at as f64 / first).ln() / (last / first).ln();
    let y = |ns: f64| TOP + HIGH * (1.0 - (ns / low).ln() / (high / low).ln());
    let bottom = TOP + HIGH;
    let mut out =
        format!("<text x=\"{left}\" y=\"{}\">ns a round trip, by {title}</text>\n", TOP - 12.0);
    let mut tick = low;
    while tick <= high {
        let at = y(tick);
        out += &format!(
            "<line x1=\"{left}\" y1=\"{at:.1}\" x2=\"{:.1}\" y2=\"{at:.1}\" stroke=\"#ddd\"/>\
             <text x=\"{:.1}\" y=\"{:.1}\" text-anchor=\"end\">{tick}</text>\n",
            left + WIDE,
            left - 4.0,
            at + 4.0
        );
        tick *= 10.0;
    }
    for r in rows {
        let at = x(r.at);
        out += &format!(
            "<line x1=\"{at:.1}\" y1=\"{TOP}\" x2=\"{at:.1}\" y2=\"{bottom}\" stroke=\"#eee\"/>\
             <text x=\"{at:.1}\" y=\"{:.1}\" text-anchor=\"middle\">{}</text>\n",
            bottom + 15.0,
            r.at
        );
    }
    for i in 0..names.len() {
        let points: Vec<String> =
            rows.iter().map(|r| format!("{:.1},{:.1}", x(r.at), y(r.least[i]))).collect();
        let colour = COLOURS[(i + COLOURS.len() - names.len()) % COLOURS.len()];
        out += &format!(
            "<polyline points=\"{}\" fill=\"none\" stroke=\"{colour}\" stroke-width=\"2\"/>\n",
            points.join(" ")
        );
    }
    out
}
