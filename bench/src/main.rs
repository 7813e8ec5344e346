//! Times our calls beside the Rust.
//!
//! Of each input both sides do the same: read all values of the message, ours
//! by one call for each slice and by one call for all; list all answers of the
//! message, ours by one call for each answer and by one call for the whole
//! listing, the Rust by its iterator over a sign that is built once, raster
//! included. A round times one side after the other; the ratio of a round is
//! ours to the Rust's.

#[allow(dead_code)]
#[path = "../../tests/compare/src/kambelohi.rs"]
mod kambelohi;
mod inputs;

use inputs::{Input, inputs};
use kambelohi::{Reading, Shown, Span, list, list_all, read, read_all};
use kambelohi_oracle::{Sign, run_values};
use std::hint::black_box;
use std::time::{Duration, Instant};

const ROUNDS: usize = 15;
const SHORTEST: Duration = Duration::from_millis(12);

fn read_each(msg: &[u8]) -> usize {
    let mut at = 0;
    let mut count = 0;
    loop {
        let a = read(msg, at, false);
        if a.kind == 1 {
            return count;
        }
        count += 1;
        at = (a.start + a.length) as usize;
    }
}

fn list_each(sign: &[u8], msg: &[u8], spans: &mut [Span]) -> usize {
    let mut n = 0;
    while list(sign, msg, n, spans).kind < 3 {
        n += 1;
    }
    n
}

/// Time of one run, from as many as take long enough
fn time(mut run: impl FnMut() -> usize) -> f64 {
    let mut times = 1u32;
    loop {
        let start = Instant::now();
        for _ in 0..times {
            black_box(run());
        }
        let taken = start.elapsed();
        if taken >= SHORTEST {
            return taken.as_secs_f64() / f64::from(times);
        }
        times *= 2;
    }
}

/// Times of both sides, round by round
struct Rounds(Vec<(f64, f64)>);

fn rounds(
    mut ours: impl FnMut() -> usize,
    mut rust: impl FnMut() -> usize,
) -> Rounds {
    let round = |_| (time(&mut ours), time(&mut rust));
    Rounds((0..ROUNDS).map(round).collect())
}

fn median(mut all: Vec<f64>) -> f64 {
    all.sort_by(f64::total_cmp);
    all[all.len() / 2]
}

impl Rounds {
    fn ours(&self) -> f64 {
        median(self.0.iter().map(|r| r.0).collect())
    }

    fn rust(&self) -> f64 {
        median(self.0.iter().map(|r| r.1).collect())
    }

    /// Median, least and most of the rounds' ratios, less a time of ours
    fn ratio(&self, less: f64) -> String {
        let mut all: Vec<f64> =
            self.0.iter().map(|r| (r.0 - less) / r.1).collect();
        all.sort_by(f64::total_cmp);
        let last = all.len() - 1;
        format!("{:.2} ({:.2} to {:.2})", all[last / 2], all[0], all[last])
    }
}

/// What was timed of an input
struct Timed {
    series: &'static str,
    name: &'static str,
    reading: Rounds,
    all: Rounds,
    listing: Rounds,
    whole: Rounds,
    first: Rounds,
}

fn timed(
    input: &Input,
    readings: &mut [Reading],
    shown: &mut [Shown],
    spans: &mut [Span],
) -> Timed {
    let Ok(sign) = Sign::read(&input.sign) else {
        panic!("{}: the sign file is refused", input.name);
    };
    let ms = input.message.as_str();
    let msg = ms.as_bytes();
    let answers = sign.run(ms);
    assert_eq!(answers, list_each(&input.sign, msg, spans), "{}", input.name);
    let listed = list_all(&input.sign, msg, shown, spans);
    assert_eq!((1, answers), (listed.kind, listed.answers.into()), "{}", input.name);
    let slices = usize::from(read_all(msg, false, readings).count);
    assert_eq!(slices, read_each(msg), "{}", input.name);
    let reading = rounds(|| read_each(msg), || run_values(ms));
    let all = rounds(
        || usize::from(read_all(msg, false, readings).count),
        || run_values(ms),
    );
    let listing =
        rounds(|| list_each(&input.sign, msg, spans), || sign.run(ms));
    let whole = rounds(
        || usize::from(list_all(&input.sign, msg, shown, spans).answers),
        || sign.run(ms),
    );
    let first = rounds(
        || usize::from(list(&input.sign, msg, 0, spans).kind),
        || sign.run(ms),
    );
    // refusal 4 of an empty message: the sign file's check, and little more
    let none = &mut spans[..0];
    let check = median(
        (0..ROUNDS)
            .map(|_| time(|| usize::from(list(&input.sign, b"", 0, none).kind)))
            .collect(),
    );
    println!(
        "| {} | {} | {answers} | {} | {} | {} | {} | {} | {} |",
        input.name,
        msg.len(),
        reading.ratio(0.0),
        all.ratio(0.0),
        listing.ratio(0.0),
        listing.ratio(check * (answers as f64 + 1.0)),
        whole.ratio(0.0),
        first.ratio(0.0),
    );
    Timed {
        series: input.series,
        name: input.name,
        reading,
        all,
        listing,
        whole,
        first,
    }
}

/// How much longer each input of a series takes than the one before it: of
/// half its size, or the same without kind 6
fn growth(all: &[Timed]) {
    println!();
    println!("| from | to | reading, ours | in one call | the Rust's | listing, ours | in one call | the Rust's | first answer, ours |");
    println!("|---|---|---|---|---|---|---|---|---|");
    for pair in all.windows(2) {
        let (a, b) = (&pair[0], &pair[1]);
        if a.series.is_empty() || a.series != b.series {
            continue;
        }
        println!(
            "| {} | {} | {:.1} | {:.1} | {:.1} | {:.1} | {:.1} | {:.1} | {:.1} |",
            a.name,
            b.name,
            b.reading.ours() / a.reading.ours(),
            b.all.ours() / a.all.ours(),
            b.reading.rust() / a.reading.rust(),
            b.listing.ours() / a.listing.ours(),
            b.whole.ours() / a.whole.ours(),
            b.listing.rust() / a.listing.rust(),
            b.first.ours() / a.first.ours(),
        );
    }
}

fn main() {
    let mut readings = vec![Reading::default(); 2048];
    let mut shown = vec![Shown::default(); 1026];
    let mut spans = vec![Span::default(); 2048];
    println!("| input | bytes | answers | reading all values | reading in one call | listing all answers | the same without the sign file's check | the whole listing in one call | the first answer alone |");
    println!("|---|---|---|---|---|---|---|---|---|");
    let all: Vec<Timed> = inputs()
        .iter()
        .map(|input| timed(input, &mut readings, &mut shown, &mut spans))
        .collect();
    growth(&all);
}
