//! The plot: time a call against n, a small chart for each set, both axes by powers of two.
use crate::sets::SIZES;
use crate::Row;
use std::fmt::Write;

const WIDTH: f64 = 300.0;
const HEIGHT: f64 = 220.0;
const LEFT: f64 = 46.0;
const TOP: f64 = 58.0;
const LOW: f64 = -1.0; // half a microsecond
const HIGH: f64 = 15.0; // 33 milliseconds
const LINES: [(&str, &str); 3] =
    [("ours", "#1b7837"), ("Rust", "#b2182b"), ("Rust without its clock", "#2166ac")];

pub fn svg(rows: &[Row]) -> String {
    let mut names: Vec<&str> = Vec::new();
    for row in
        rows.iter().filter(|row| !names.contains(&row.name)).map(|row| row.name).collect::<Vec<_>>()
    {
        if !names.contains(&row) {
            names.push(row);
        }
    }
    let (w, h) = (WIDTH * names.len() as f64, HEIGHT * 2.0 + TOP + 20.0);
    let mut text = format!("<svg xmlns='http://www.w3.org/2000/svg' width='{w}' height='{h}' font-family='sans-serif' font-size='11'>\n<rect width='{w}' height='{h}' fill='white'/>\n");
    writeln!(text, "<text x='{LEFT}' y='18' font-size='14'>Microseconds a call of reduce, by decisions: less is better</text>").unwrap();
    for (k, (name, colour)) in LINES.iter().enumerate() {
        let x = LEFT + 170.0 * k as f64;
        writeln!(text, "<rect x='{x}' y='26' width='18' height='4' fill='{colour}'/><text x='{}' y='32'>{name}</text>", x + 24.0).unwrap();
    }
    for (column, name) in names.iter().enumerate() {
        for (down, small_block) in [false, true].into_iter().enumerate() {
            let chosen: Vec<&Row> =
                rows.iter().filter(|r| r.name == *name && r.small_block == small_block).collect();
            let at = (WIDTH * column as f64 + LEFT, TOP + HEIGHT * down as f64);
            text += &chart(
                at,
                &format!("{name}, small block {}", if small_block { "on" } else { "off" }),
                &chosen,
            );
        }
    }
    text + "</svg>\n"
}

fn chart((x, y): (f64, f64), title: &str, rows: &[&Row]) -> String {
    let (w, h) = (WIDTH - LEFT - 14.0, HEIGHT - 52.0);
    let across = |n: usize| x + w * ((n as f64).log2() - 3.0) / 3.0;
    let down = |micros: f64| y + 16.0 + h * (HIGH - micros.log2()) / (HIGH - LOW);
    let mut text = format!("<text x='{x}' y='{}' font-weight='bold'>{title}</text>\n", y + 8.0);
    for power in (0..=14).step_by(2) {
        let at = down(f64::from(1 << power));
        writeln!(text, "<line x1='{x}' x2='{}' y1='{at:.1}' y2='{at:.1}' stroke='#ddd'/><text x='{}' y='{:.1}' text-anchor='end'>{}</text>", x + w, x - 4.0, at + 4.0, 1 << power).unwrap();
    }
    for n in SIZES {
        writeln!(
            text,
            "<text x='{:.1}' y='{:.1}' text-anchor='middle'>{n}</text>",
            across(n),
            y + h + 32.0
        )
        .unwrap();
    }
    for (k, (_, colour)) in LINES.iter().enumerate() {
        let points: Vec<String> = rows
            .iter()
            .map(|r| {
                format!(
                    "{:.1},{:.1}",
                    across(r.n),
                    down([r.times.ours, r.times.rust, r.times.still][k])
                )
            })
            .collect();
        writeln!(
            text,
            "<polyline points='{}' fill='none' stroke='{colour}' stroke-width='2'/>",
            points.join(" ")
        )
        .unwrap();
    }
    text
}
