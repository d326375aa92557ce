//! Draws the time of a call against the rows used, library and oracle, along one learning run: an SVG on standard output.

use harness::calls::{call, oracle_call};
use harness::learning::learning;
use oracle::limits::ROWS_MAX;
use oracle::testing::compare::{Call, Tables};
use oracle::{Lists, Seen};
use std::time::Instant;

const STATES: usize = 32;
const REPLAYS: usize = 5;
const WIDTH: f64 = 720.0;
const HEIGHT: f64 = 420.0;
const MARGIN: f64 = 60.0;

type Calls = fn(&mut [u32], &mut Lists, &Call) -> Seen;

/// The rows used and the least time in microseconds of each call of a run.
fn times(begin: &Tables, made: &[Call], calls: Calls) -> Vec<(f64, f64)> {
    let mut found = vec![(0.0, f64::MAX); made.len()];
    for _ in 0..REPLAYS {
        let Tables {
            mut words,
            mut lists,
        } = begin.clone();
        for (point, one) in found.iter_mut().zip(made) {
            point.0 = lists.used as f64;
            let start = Instant::now();
            calls(&mut words, &mut lists, one);
            point.1 = point.1.min(start.elapsed().as_secs_f64() * 1e6);
        }
    }
    found
}

/// Medians of fifty neighbours each.
fn medians(points: &[(f64, f64)]) -> Vec<(f64, f64)> {
    let middle = |mut values: Vec<f64>| {
        values.sort_by(f64::total_cmp);
        values[values.len() / 2]
    };
    points
        .chunks(50)
        .map(|part| {
            let rows = middle(part.iter().map(|point| point.0).collect());
            (rows, middle(part.iter().map(|point| point.1).collect()))
        })
        .collect()
}

/// A polyline with its name at the end.
fn curve(points: &[(f64, f64)], rows: f64, time: f64, colour: &str, name: &str) -> String {
    let place = |&(x, y): &(f64, f64)| {
        let across = MARGIN + x / rows * (WIDTH - 2.0 * MARGIN);
        (across, HEIGHT - MARGIN - y / time * (HEIGHT - 2.0 * MARGIN))
    };
    let places: Vec<_> = points.iter().map(place).collect();
    let path: Vec<_> = places
        .iter()
        .map(|(x, y)| format!("{x:.1},{y:.1}"))
        .collect();
    let (x, y) = places.last().copied().unwrap_or((MARGIN, MARGIN));
    format!(
        "<polyline fill=\"none\" stroke=\"{colour}\" stroke-width=\"2\" points=\"{}\"/>\n<text x=\"{:.1}\" y=\"{:.1}\" fill=\"{colour}\">{name}</text>",
        path.join(" "),
        x - 40.0,
        y - 8.0
    )
}

fn main() {
    let (begin, made, _) = learning(STATES, ROWS_MAX);
    let library = medians(&times(&begin, &made, call));
    let oracle = medians(&times(&begin, &made, oracle_call));
    let both = library.iter().chain(&oracle);
    let (rows, time) = both.fold((1.0, 1.0), |(x, y): (f64, f64), point| {
        (x.max(point.0), y.max(point.1))
    });
    println!("<svg xmlns=\"http://www.w3.org/2000/svg\" width=\"{WIDTH}\" height=\"{HEIGHT}\" font-family=\"sans-serif\" font-size=\"13\">");
    println!("<rect width=\"100%\" height=\"100%\" fill=\"white\"/>");
    let (left, bottom, right) = (MARGIN, HEIGHT - MARGIN, WIDTH - MARGIN);
    println!("<path d=\"M{left} {MARGIN} V{bottom} H{right}\" fill=\"none\" stroke=\"black\"/>");
    println!(
        "<text x=\"{left}\" y=\"{}\">rows used, up to {rows:.0}</text>",
        bottom + 30.0
    );
    println!("<text x=\"{left}\" y=\"{}\">microseconds a call, up to {time:.0}; {STATES} states, {} calls</text>", MARGIN - 20.0, made.len());
    println!("{}", curve(&library, rows, time, "#1f5fa8", "library"));
    println!("{}", curve(&oracle, rows, time, "#a8501f", "oracle"));
    println!("</svg>");
}
