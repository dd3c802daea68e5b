//! Curves as a picture: panels above each other over one axis.

/// Colours that people who confuse red and green can tell apart; one for each curve.
pub const COLOURS: [&str; 7] = ["#0072b2", "#d55e00", "#009e73", "#cc79a7", "#e69f00", "#56b4e9", "#000000"];

/// Curves over the same points; a point without a value is a gap.
pub struct Panel {
    pub label: String,
    pub curves: Vec<Vec<Option<f64>>>,
}

pub struct Picture {
    pub title: String,
    /// What is the same for all curves.
    pub fixed: String,
    pub over: String,
    pub from: f64,
    pub to: f64,
    /// What sets each curve apart.
    pub curves: Vec<String>,
    pub panels: Vec<Panel>,
}

const WIDTH: f64 = 860.0;
const LEFT: f64 = 116.0;
const RIGHT: f64 = 830.0;
const MIDDLE: f64 = (LEFT + RIGHT) / 2.0;
const PANEL: f64 = 260.0;
const BETWEEN: f64 = 50.0;
const GREY: &str = "#555";

/// The picture as SVG.
pub fn draw(picture: &Picture) -> String {
    let (heading, top) = heading(picture);
    let height = top + picture.panels.len() as f64 * (PANEL + BETWEEN) + 24.0;
    let mut out = format!(
        "<svg xmlns=\"http://www.w3.org/2000/svg\" width=\"{WIDTH}\" height=\"{height}\" viewBox=\"0 0 {WIDTH} {height}\" \
         font-family=\"sans-serif\" font-size=\"13\">\n<rect width=\"{WIDTH}\" height=\"{height}\" fill=\"white\"/>\n{heading}"
    );
    for (at, panel) in picture.panels.iter().enumerate() {
        out += &draw_panel(picture, panel, at, top + at as f64 * (PANEL + BETWEEN));
    }
    out + &text(MIDDLE, height - 14.0, "middle", "black", &picture.over) + "</svg>\n"
}

/// A text; its anchor is start, middle or end.
fn text(x: f64, y: f64, anchor: &str, colour: &str, content: &str) -> String {
    let content = content.replace('&', "&amp;").replace('<', "&lt;").replace('>', "&gt;");
    format!("<text x=\"{x:.1}\" y=\"{y:.1}\" text-anchor=\"{anchor}\" fill=\"{colour}\">{content}</text>\n")
}

/// A text in lines of about so many characters, broken at blanks.
fn lines(content: &str, most: usize) -> Vec<String> {
    let mut list: Vec<String> = Vec::new();
    for word in content.split(' ') {
        match list.last_mut() {
            Some(line) if line.chars().count() + 1 + word.chars().count() <= most => *line = format!("{line} {word}"),
            _ => list.push(word.to_string()),
        }
    }
    list
}

/// Title, what is the same for all curves, and what sets each apart; and where the first panel begins.
fn heading(picture: &Picture) -> (String, f64) {
    let (mut out, mut y) = (String::from("<g font-size=\"18\">\n"), 30.0);
    for line in lines(&picture.title, 70) {
        out += &text(LEFT, y, "start", "black", &line);
        y += 22.0;
    }
    out += "</g>\n";
    for line in lines(&picture.fixed, 105) {
        out += &text(LEFT, y, "start", GREY, &line);
        y += 20.0;
    }
    let mut x = LEFT;
    for (at, (label, colour)) in picture.curves.iter().zip(COLOURS).enumerate().filter(|_| picture.curves.len() > 1) {
        let drawn = picture.panels.first().and_then(|panel| panel.curves.get(at)).is_some_and(|curve| curve.iter().any(Option::is_some));
        let label = if drawn { label.clone() } else { format!("{label} (no value)") };
        let width = 7.5 * label.chars().count() as f64 + 24.0;
        if x > LEFT && x + width > RIGHT {
            (x, y) = (LEFT, y + 20.0);
        }
        out += &text(x, y + 2.0, "start", colour, &label);
        x += width;
    }
    (out, y + 20.0)
}

/// The span of a panel's values: (low, high, whether values beyond are cut off); none where there is no value.
fn span(panel: &Panel) -> Option<(f64, f64, bool)> {
    let mut values: Vec<f64> = panel.curves.iter().flatten().flatten().copied().collect();
    values.sort_by(f64::total_cmp);
    let (low, high) = (values.first()?.max(-8e307), values.last()?.min(8e307));
    let (inner_low, inner_high) = (values[values.len() / 20], values[values.len() - 1 - values.len() / 20]);
    let inner = inner_high - inner_low;
    let cut = inner > 0.0 && high - low > 20.0 * inner;
    let (low, high) = if cut { ((inner_low - inner / 2.0).max(low), (inner_high + inner / 2.0).min(high)) } else { (low, high) };
    let edge = match high - low {
        0.0 if low == 0.0 => 1.0,
        0.0 => low.abs() * 0.1,
        range => range * 0.04,
    };
    Some((low - edge, high + edge, cut))
}

fn draw_panel(picture: &Picture, panel: &Panel, number: usize, top: f64) -> String {
    let bottom = top + PANEL;
    let mut out = side(&panel.label, (top + bottom) / 2.0) + &gaps(panel, top);
    for (value, label) in ticks(picture.from, picture.to, 8.0) {
        let x = LEFT + (value - picture.from) / (picture.to - picture.from) * (RIGHT - LEFT);
        out += &format!("<path d=\"M{x:.1} {top}V{bottom}\" stroke=\"#ddd\"/>\n");
        out += &text(x, bottom + 18.0, "middle", "black", &label);
    }
    let frame = format!("<rect x=\"{LEFT}\" y=\"{top}\" width=\"{}\" height=\"{PANEL}\"", RIGHT - LEFT);
    let Some((low, high, cut)) = span(panel) else {
        return out + &frame + &format!(" fill=\"none\" stroke=\"{GREY}\"/>\n") + &text(MIDDLE, top + PANEL / 2.0, "middle", GREY, "no value anywhere");
    };
    let y_of = |value: f64| bottom - (value / 2.0 - low / 2.0) / (high / 2.0 - low / 2.0) * PANEL;
    for (value, label) in ticks(low, high, 6.0) {
        out += &format!("<path d=\"M{LEFT} {:.1}H{RIGHT}\" stroke=\"#ddd\"/>\n", y_of(value));
        out += &text(LEFT - 8.0, y_of(value) + 4.5, "end", "black", &label);
    }
    out += &format!("{frame} fill=\"none\" stroke=\"{GREY}\"/>\n<clipPath id=\"panel{number}\">{frame}/></clipPath>\n");
    if cut {
        out += &text(RIGHT, top - 6.0, "end", GREY, "values beyond the frame are cut off");
    }
    for (curve, colour) in panel.curves.iter().zip(COLOURS) {
        let ys: Vec<Option<f64>> = curve.iter().map(|value| value.map(y_of)).collect();
        out += &format!("<path clip-path=\"url(#panel{number})\" d=\"{}\" fill=\"none\" stroke=\"{colour}\"", line(&ys, top, bottom));
        out += " stroke-width=\"2\" stroke-linecap=\"round\"/>\n";
    }
    out
}

/// The label at the left of a panel, upright, in two lines where it is long.
fn side(label: &str, middle: f64) -> String {
    let lines = lines(label, 42);
    let mut out = format!("<g transform=\"rotate(-90 24 {middle})\">\n");
    for (at, line) in lines.iter().enumerate() {
        out += &text(24.0, middle + 16.0 * at as f64 - 8.0 * (lines.len() - 1) as f64, "middle", "black", line);
    }
    out + "</g>\n"
}

fn x_of(at: usize, count: usize) -> f64 {
    LEFT + (RIGHT - LEFT) * at as f64 / (count.max(2) - 1) as f64
}

/// Grey where no curve of a panel has a value.
fn gaps(panel: &Panel, top: f64) -> String {
    let count = panel.curves.iter().map(Vec::len).max().unwrap_or(0);
    let empty = |at: usize| panel.curves.iter().all(|curve| curve.get(at).is_none_or(Option::is_none));
    let (mut out, mut at) = (String::new(), 0);
    while at < count {
        let end = (at..count).find(|next| !empty(*next)).unwrap_or(count);
        if end > at {
            let (from, to) = ((x_of(at, count) - 0.9).max(LEFT), (x_of(end - 1, count) + 0.9).min(RIGHT));
            out += &format!("<rect x=\"{from:.1}\" y=\"{top}\" width=\"{:.1}\" height=\"{PANEL}\" fill=\"#e8e8e8\"/>\n", to - from);
            if to - from > 80.0 && end - at < count {
                out += &text((from + to) / 2.0, top + PANEL - 10.0, "middle", GREY, "no value");
            }
        }
        at = end + 1;
    }
    out
}

/// The path through the points: it stops at a gap, and where a curve leaves the frame on one side and comes back on the other.
fn line(ys: &[Option<f64>], top: f64, bottom: f64) -> String {
    let mut out = String::new();
    let mut last: Option<f64> = None;
    for (at, y) in ys.iter().enumerate() {
        let x = x_of(at, ys.len());
        let Some(y) = y.map(|y| y.clamp(top - 2000.0, bottom + 2000.0)) else {
            last = None;
            continue;
        };
        let jumps = last.is_some_and(|last| last < top && y > bottom || last > bottom && y < top);
        match last {
            Some(_) if !jumps => out += &format!("L{x:.1} {y:.1}"),
            _ => out += &format!("M{x:.1} {y:.1}h0"),
        }
        last = Some(y);
    }
    out
}

/// Round numbers within a span, about so many, with their texts.
fn ticks(low: f64, high: f64, about: f64) -> Vec<(f64, String)> {
    let rough = (high / about - low / about).max(f64::MIN_POSITIVE);
    let unit = 10f64.powf(rough.log10().floor());
    let step = [1.0, 2.0, 5.0, 10.0].iter().map(|factor| factor * unit).find(|step| *step >= rough).unwrap_or(10.0 * unit);
    let decimals = (-step.log10().floor()).clamp(0.0, 300.0) as usize;
    let first = (low / step).ceil();
    let label = |value: f64| match value.abs() {
        0.0 => "0".to_string(),
        size if size >= 1e7 || step < 1e-5 => format!("{value:.3e}"),
        _ => format!("{value:.decimals$}"),
    };
    (0..20).map(|at| (first + f64::from(at)) * step).take_while(|value| *value <= high).map(|value| (value, label(value))).collect()
}
