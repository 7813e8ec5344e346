//! Sign files and messages of the benchmark.

/// A sign file and a message; inputs of a series double from one to the next
pub struct Input {
    pub series: &'static str,
    pub name: &'static str,
    pub sign: Vec<u8>,
    pub message: String,
}

fn record(kind: u16, body: &[u8]) -> Vec<u8> {
    let mut r = (body.len() as u16).to_le_bytes().to_vec();
    r.extend(kind.to_le_bytes());
    r.extend(body);
    r
}

/// A full-matrix sign: left, top, on 3 seconds, off 0, all nine tags
fn configuration(width: u16, height: u16) -> Vec<u8> {
    let mut body = width.to_le_bytes().to_vec();
    body.extend(height.to_le_bytes());
    body.extend([0, 0, 1, 2, 2, 30, 0]);
    body.extend(134_233_320u32.to_le_bytes());
    record(1, &body)
}

/// A font with a character of one width for each code, all lit
fn font(
    number: u8,
    height: u8,
    spacing: u8,
    width: u8,
    codes: impl Iterator<Item = u16>,
) -> Vec<u8> {
    let mut all = record(2, &[number, height, spacing, 3, 0, 0]);
    let bytes = (usize::from(width) * usize::from(height)).div_ceil(8);
    for code in codes {
        let mut body = code.to_le_bytes().to_vec();
        body.push(width);
        body.resize(3 + bytes, 255);
        all.extend(record(3, &body));
    }
    all
}

fn with_ids(sign: Vec<u8>) -> Vec<u8> {
    let Ok(sign) = kambelohi_oracle::with_version_ids(&sign) else {
        panic!("a sign file of the benchmark is refused");
    };
    sign
}

/// One font of capitals and digits
fn small() -> Vec<u8> {
    let mut s = configuration(96, 54);
    s.extend(font(1, 7, 1, 5, 32..96));
    with_ids(s)
}

/// Four fonts, each of 256 characters
fn full() -> Vec<u8> {
    let mut s = configuration(96, 54);
    for n in 1..=4 {
        s.extend(font(n, 5 + 2 * n, 1, 5, 1..257));
    }
    with_ids(s)
}

/// A wide sign on which any number of characters fits
fn wide() -> Vec<u8> {
    let mut s = configuration(4096, 54);
    s.extend(font(1, 7, 0, 1, 1..257));
    with_ids(s)
}

/// The same with numbers by group (kind 6, which the oracle leaves out)
fn grouped() -> Vec<u8> {
    let mut s = configuration(4096, 54);
    s.extend(record(6, &[]));
    s.extend(font(1, 7, 0, 1, 1..257));
    with_ids(s)
}

/// A high sign on which 250 lines fit
fn high() -> Vec<u8> {
    let mut s = configuration(64, 2600);
    s.extend(font(1, 7, 0, 1, 1..257));
    with_ids(s)
}

/// So many spans of each of nine groups on line 0: every page justification with every line justification
fn nine(count: usize) -> String {
    let mut m = String::new();
    for page in 2..=4 {
        m += &format!("[jp{page}]");
        for line in 2..=4 {
            m += &format!("[jl{line}]");
            m += &"A[[".repeat(count / 2);
        }
    }
    m
}

/// So many spans in one pass: `A[[A[[..`, with a [jl] after each 250
fn spans(count: usize) -> String {
    let mut m = String::new();
    for i in 0..count / 2 {
        m += "A[[";
        if i % 125 == 124 {
            m += "[jl2]";
        }
    }
    m
}

/// A message of tags and texts up to 2,048 bytes
fn dense() -> String {
    let part = "[jl3]CAR PARK[nl]GATE [hc41][sc2]12[/sc][np][pt25o5][jp3][tr1,1,90,40]EXIT[nl][jl4]LEFT[jp2][tr1,1,0,0]";
    let page = "[jp2][jl2]A[nl]B[np]";
    let mut m = part.repeat(2_000 / part.len());
    while m.len() + page.len() <= 2_048 {
        m += page;
    }
    m
}

pub fn inputs() -> Vec<Input> {
    let three = "[pt30o0][jp3][jl3]CAR PARK A[nl]FULL[np]USE GATE 4[nl]AND FOLLOW[nl]THE SIGNS[np][fo1]EXIT LEFT";
    let of = |series, name, sign: &Vec<u8>, message: String| Input {
        series,
        name,
        sign: sign.clone(),
        message,
    };
    let (small, full, wide, high) = (small(), full(), wide(), high());
    let grouped = grouped();
    let five = ("A[[".repeat(120) + "[nl]").repeat(5);
    let to_and_fro = "A[nl]A[jp3][jp2]";
    let line = "A[[A[[A[nl]";
    vec![
        of("", "one line", &small, "CAR PARK FULL".into()),
        of("", "three pages", &small, three.into()),
        of("", "three pages, full sign file", &full, three.into()),
        of("", "dense", &small, dense()),
        of("letters", "500 letters", &wide, "A".repeat(500)),
        of("letters", "1,000 letters", &wide, "A".repeat(1_000)),
        of("letters", "2,000 letters", &wide, "A".repeat(2_000)),
        of("spans", "300 spans in a pass", &wide, spans(300)),
        of("spans", "600 spans in a pass", &wide, spans(600)),
        of("spans", "1,200 spans in a pass", &wide, spans(1_200)),
        of("kind 6", "1,200 spans on five lines", &wide, five.clone()),
        of("kind 6", "1,200 spans on five lines, kind 6", &grouped, five),
        of("again", "80 spans of one number", &wide, "A[jl2]".repeat(80)),
        of("again", "160 spans of one number", &wide, "A[jl2]".repeat(160)),
        of("again", "320 spans of one number", &wide, "A[jl2]".repeat(320)),
        of("nine", "9 groups of 32 spans on a line", &wide, nine(32)),
        of("nine", "9 groups of 64 spans on a line", &wide, nine(64)),
        of("nine", "9 groups of 128 spans on a line", &wide, nine(128)),
        of("nine", "9 groups of 128 spans on a line, kind 6", &grouped, nine(128)),
        of("fro", "32 times to and fro between groups", &wide, to_and_fro.repeat(32)),
        of("fro", "64 times to and fro between groups", &wide, to_and_fro.repeat(64)),
        of("fro", "128 times to and fro between groups", &wide, to_and_fro.repeat(128)),
        of("fro", "128 times to and fro between groups, kind 6", &grouped, to_and_fro.repeat(128)),
        of("lines", "60 lines", &high, "A[nl]".repeat(60)),
        of("lines", "120 lines", &high, "A[nl]".repeat(120)),
        of("lines", "240 lines", &high, "A[nl]".repeat(240)),
        of("full lines", "45 lines of five spans", &high, line.repeat(45)),
        of("full lines", "90 lines of five spans", &high, line.repeat(90)),
        of("full lines", "180 lines of five spans", &high, line.repeat(180)),
        of("pages", "64 pages", &small, "[np]".repeat(63)),
        of("pages", "128 pages", &small, "[np]".repeat(127)),
        of("pages", "256 pages", &small, "[np]".repeat(255)),
        of("pages", "512 pages", &small, "[np]".repeat(511)),
        of("", "50 rectangles", &small, "[tr1,1,0,0]".repeat(49)),
    ]
}
