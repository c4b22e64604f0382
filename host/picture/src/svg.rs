//! The picture: the names on the left, a wave for each, a time axis in microseconds. Places are in tenths of a unit, so that
//! the same dump is the same picture everywhere.

use crate::wave::{Wave, Wire};
use std::fmt::Write;

const WIDTH: u64 = 9_600;
const LEFT: u64 = 640;
const RIGHT: u64 = 200;
const TOP: u64 = 140;
const ROW: u64 = 270;
/// The height of a wave in its row.
const HIGH: u64 = 150;
const AXIS: u64 = 420;

const FONT: &str = "font-family=\"Helvetica, Arial, sans-serif\" font-size=\"13\"";
const INK: &str = "#24292f";
const GREY: &str = "#57606a";
const GRID: &str = "#e4e8ec";

/// Tenths as units.
fn units(tenths: u64) -> String {
    format!("{}.{}", tenths / 10, tenths % 10)
}

/// Where a time lies. A little room is left after the last change.
fn across(wave: &Wave, time: u64) -> u64 {
    let span = wave.end + wave.end / 40 + 1;
    LEFT + time * (WIDTH - LEFT - RIGHT) / span
}

/// TxD, IRQ and OP each have their colour.
fn colour(name: &str) -> &'static str {
    match name {
        "IRQ" => "#b35900",
        _ if name.starts_with("TxD") => "#0550ae",
        _ => "#3d6b4f",
    }
}

/// From value to value: along, then up or down.
fn path(wave: &Wave, wire: &Wire, top: u64) -> String {
    let mut path = String::new();
    for (place, (time, high)) in wire.values.iter().enumerate() {
        let (x, y) = (across(wave, *time), if *high { top } else { top + HIGH });
        match place {
            0 => write!(path, "M{} {}", units(x), units(y)),
            _ => write!(path, "H{}V{}", units(x), units(y)),
        }
        .expect("a String takes all");
    }
    path + &format!("H{}", units(WIDTH - RIGHT))
}

fn row(wave: &Wave, wire: &Wire, place: u64) -> String {
    let top = TOP + place * ROW;
    let colour = colour(&wire.name);
    format!(
        "<text x=\"{}\" y=\"{}\" text-anchor=\"end\" fill=\"{INK}\" {FONT}>{}</text>\n\
         <path d=\"{}\" fill=\"none\" stroke=\"{colour}\" stroke-width=\"1.6\" stroke-linejoin=\"round\"/>\n",
        units(LEFT - 120),
        units(top + HIGH - 30),
        wire.name,
        path(wave, wire, top)
    )
}

/// The step of the axis, in microseconds: at most a dozen of them.
fn step(end: u64) -> u64 {
    let steps = [1, 2, 5, 10, 20, 50, 100, 200, 500, 1_000, 2_000, 5_000, 10_000, 20_000, 50_000];
    steps.into_iter().find(|step| end / 1_000 / step <= 12).unwrap_or(100_000)
}

fn axis(wave: &Wave, bottom: u64) -> String {
    let step = step(wave.end);
    let marks = (0..=wave.end / 1_000 / step).map(|mark| mark * step);
    let lines = marks.map(|time| {
        let x = units(across(wave, time * 1_000));
        format!(
            "<path d=\"M{x} {}V{}\" stroke=\"{GRID}\"/>\n\
             <text x=\"{x}\" y=\"{}\" text-anchor=\"middle\" fill=\"{GREY}\" {FONT}>{time}</text>\n",
            units(TOP - 60),
            units(bottom),
            units(bottom + 180)
        )
    });
    let unit = format!(
        "<text x=\"{}\" y=\"{}\" text-anchor=\"end\" fill=\"{GREY}\" {FONT}>µs</text>\n",
        units(LEFT - 120),
        units(bottom + 180)
    );
    lines.collect::<String>() + &unit
}

pub fn of(wave: &Wave) -> String {
    let bottom = TOP + wave.wires.len() as u64 * ROW - 60;
    let (width, height) = (WIDTH / 10, (bottom + AXIS - 120) / 10);
    let rows: String = wave.wires.iter().zip(0..).map(|(wire, place)| row(wave, wire, place)).collect();
    format!(
        "<svg xmlns=\"http://www.w3.org/2000/svg\" viewBox=\"0 0 {width} {height}\" width=\"{width}\" height=\"{height}\">\n\
         <rect x=\"0.5\" y=\"0.5\" width=\"{}\" height=\"{}\" rx=\"6\" fill=\"#ffffff\" stroke=\"{GRID}\"/>\n{}{rows}</svg>\n",
        width - 1,
        height - 1,
        axis(wave, bottom)
    )
}

#[cfg(test)]
mod tests {
    use super::{of, step};
    use crate::wave::read;

    #[test]
    fn a_wire_is_a_path_from_value_to_value() {
        let text = "$var wire 1 ! TxDA $end\n#0\n1!\n#4000\n0!\n#8000\n1!\n";
        let svg = of(&read(text).expect("it is a dump"));
        assert!(svg.contains("TxDA</text>") && svg.contains("M64.0 14.0H491.2V29.0H918.5V14.0H940.0"), "{svg}");
    }

    #[test]
    fn the_axis_has_a_dozen_steps_at_most() {
        assert_eq!([900, 12_000, 13_000, 2_200_000].map(step), [1, 1, 2, 200]);
    }
}
