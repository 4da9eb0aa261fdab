//! How long the library takes beside the Rust, on the same inputs in one run: tables of ratios, as
//! docs/PERFORMANCE.md has them. `tests/benchmark/run` builds and runs it. No time is a test.

mod charts;
mod elementary;
#[allow(dead_code)]
#[path = "../vectors/inputs.rs"]
mod inputs;
mod noise;
mod pieces;
mod searches;
#[allow(dead_code)]
#[path = "../vectors/series.rs"]
mod series;
mod timing;

use inputs::Random;
use std::time::Duration;
use timing::{Best, Row};

const N: usize = 4096;
const SMALL: usize = 512;
/// So few that what a chart does once a call counts: its settings are tested each time.
const SHORT: usize = 16;

fn head(unit: &str) {
    println!("| | ours, {unit} | the Rust's, {unit} | ratio |\n|---|---|---|---|");
}

/// Rows of calls that take too little to be printed one by one.
fn thousandfold(rows: Vec<Row>) {
    rows.iter()
        .map(|row| Row::new(&row.name, row.ours * 1e3, row.theirs * 1e3))
        .for_each(|row| row.print());
}

/// Charts, and noise variances, of many readings and of few, and of other kinds of series.
fn print_charts(best: Best, random: &mut Random) {
    println!("\nCharts, and the noise variance of BIC, {N} readings:\n");
    head("µs");
    let rows = charts::rows(best, &charts::drifting(random, N));
    rows.iter().for_each(Row::print);
    println!("\nThe same of {SHORT} readings, a thousand calls:\n");
    head("µs");
    thousandfold(charts::rows(best, &charts::drifting(random, SHORT)));
    println!("\nThe same of {N} rounded readings about levels that change at every 16th:\n");
    head("µs");
    let rows = charts::rows(best, &charts::stepped(random, N));
    rows.iter().for_each(Row::print);
    println!("\nThe same of {N} readings at the target:\n");
    head("µs");
    let rows = charts::rows(best, &charts::flat(N));
    rows.iter().for_each(Row::print);
    print_editions(best, random);
}

/// The editions of the EWMA chart where their places are far apart, and where the limits widen to the end.
fn print_editions(best: Best, random: &mut Random) {
    let drifting = charts::drifting(random, N);
    let gapped = charts::gapped(drifting.clone());
    let tables = [
        ("every second a gap", &gapped, charts::LAMBDA),
        ("lambda 0.001", &drifting, 0.001),
        ("every second a gap, lambda 0.001", &gapped, 0.001),
    ];
    for (what, data, lambda) in tables {
        println!("\nEWMA charts of {N} readings, {what}:\n");
        head("µs");
        let rows = charts::ewma_rows(best, data, lambda);
        rows.iter().for_each(Row::print);
    }
}

/// Summaries of pieces, of the same kinds of channels.
fn print_pieces(best: Best, random: &mut Random) {
    let tables = [
        ("that drift", charts::drifting(random, N)),
        ("that are rounded and stepped", charts::stepped(random, N)),
        ("that are equal", charts::flat(N)),
        ("that drift", charts::drifting(random, SHORT)),
    ];
    for (what, channel) in tables {
        let n = channel.len();
        println!("\nPiece summaries of {n} readings {what}, a thousand calls, beside a plain twin in Rust:\n");
        head("µs");
        thousandfold(pieces::rows(best, &channel));
    }
}

/// Normal searches of the other kinds of series, which take a logarithm for each candidate.
fn print_normal(best: Best, random: &mut Random) {
    println!("\nNormal searches by BIC of one channel of another kind, minimum length 2:\n");
    head("µs");
    let row = |what: &str, channel: Vec<f64>| {
        let name = format!("{} readings, {what}", channel.len());
        searches::normal_row(best, &name, channel)
    };
    row("rounded and stepped", charts::stepped(random, N)).print();
    row("equal", charts::flat(N)).print();
    let short = charts::drifting(random, SHORT);
    thousandfold(vec![row("a thousand calls", short)]);
}

/// Noise variances of channels of every length and kind.
fn print_noise(best: Best, random: &mut Random) {
    println!("\nNoise variances, by kind and readings:\n");
    head("ns");
    for kind in noise::KINDS {
        for n in noise::LENGTHS {
            noise::row(best, random, kind, n).print();
        }
    }
}

/// Logarithms, by themselves and in searches.
fn print_logarithms(best: Best, random: &mut Random) {
    println!("Normal searches by BIC, {N} readings a channel, minimum length 2:\n");
    head("µs");
    for sort in searches::sorts().into_iter().filter(|sort| sort.normal) {
        searches::row(best, random, N, sort).0.print();
    }
    print_normal(best, random);
    println!("\nLogarithms, a thousand calls:\n");
    head("µs");
    elementary::ln_rows(best, random)
        .iter()
        .for_each(Row::print);
}

fn main() {
    let words: Vec<String> = std::env::args().skip(1).collect();
    let rounds = words
        .first()
        .map_or(15, |word| word.parse().expect("a number of rounds"));
    let best = Best {
        rounds,
        enough: Duration::from_secs(2),
    };
    let mut random = Random::new();
    match words.get(1).map(String::as_str) {
        Some("charts") => return print_charts(best, &mut random),
        Some("pieces") => return print_pieces(best, &mut random),
        Some("logarithms") => return print_logarithms(best, &mut random),
        Some("noise") => return print_noise(best, &mut random),
        word => assert_eq!(word, None, "charts, noise, pieces, logarithms or nothing"),
    }
    println!("Searches by BIC, {N} readings a channel, minimum length 2:\n");
    head("µs");
    let mut rows: Vec<(searches::Sort, Row)> = Vec::new();
    for sort in searches::sorts() {
        let (mut row, found) = searches::row(best, &mut random, N, sort);
        row.name = format!("{} ({found} found)", row.name);
        row.print();
        rows.push((sort, row));
    }
    searches::package(best, &mut random, N).print();
    print_normal(best, &mut random);
    print_charts(best, &mut random);
    print_noise(best, &mut random);
    print_pieces(best, &mut random);
    println!("\nElementary functions, a thousand calls:\n");
    head("µs");
    let mut functions = elementary::rows(best, &mut random);
    functions.extend(elementary::ln_rows(best, &mut random));
    functions.iter().for_each(Row::print);
    println!("\nTimes at {N} readings over those at {SMALL}, which are 8 times fewer:\n");
    println!("| | ours | the Rust's |\n|---|---|---|");
    for (sort, row) in rows.iter().filter(|(sort, _)| sort.changes <= 16) {
        // As many readings to a piece.
        let changes = sort.changes * SMALL / N;
        let small = searches::Sort { changes, ..*sort };
        let small = searches::row(best, &mut random, SMALL, small).0;
        let growth = (row.ours / small.ours, row.theirs / small.theirs);
        println!("| {} | {:.1} | {:.1} |", sort.name(), growth.0, growth.1);
    }
    let worst = rows.iter().map(|(_, row)| row.ratio()).fold(0.0, f64::max);
    println!("\nThe largest ratio of a search is {worst:.2}.");
}
