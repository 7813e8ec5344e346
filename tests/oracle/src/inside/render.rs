//! Child module of the copied `render.rs`: reaches its private items.
//!
//! A listing is driven by hand, in the order of `render_on_page`, so that the
//! spans of each pass can be seen; every step is a call of the real code. The
//! answers are then compared with what the real iterator gives.

use super::{MAX_TEXT_RECTANGLES, PageState, Pages, Span};
use crate::answer::{Answer, Record, Refusal};
use crate::dms::multi::{MultiStr, SyntaxError, Value};
use crate::guard::guarded;
use crate::values::{offset, place, syntax_number};
use crate::{Board, CHARACTERS, FONTS, GRAPHICS};

/// The real page iterator
type Real<'a> = Pages<'a, CHARACTERS, FONTS, GRAPHICS>;

/// Files of the oracle that run beside the real code
const OURS: [&str; 2] = ["inside/", "src/values.rs"];

/// An error of the real code, with its place where the scan tells
struct Fault {
    error: SyntaxError,
    place: Option<(usize, usize)>,
}

/// Where a span comes from
enum Source {
    Text,
    HexChar(usize, usize, u16),
    Empty(usize),
}

impl From<SyntaxError> for Fault {
    fn from(error: SyntaxError) -> Self {
        Fault { error, place: None }
    }
}

/// List a message up to the end, the first refusal or a stop
pub(crate) fn listing(board: &Board, ms: &str, check: bool) -> Vec<Answer> {
    let mut answers = Vec::new();
    let result = guarded(|| drive(board, ms, &mut answers));
    let (last, error) = match result {
        Ok(Ok(())) => {
            let count = answers.len();
            (Answer::End { count }, None)
        }
        Ok(Err(fault)) => (Answer::Refused(fault.refusal()), Some(fault.error)),
        // a fault of the oracle is no stop of the Rust
        Err(said) if OURS.iter().any(|o| said.starts_with(o)) => {
            panic!("{said}")
        }
        Err(said) => (Answer::Stop(said), None),
    };
    answers.push(last);
    if check {
        check_iterator(board, ms, &answers, error);
    }
    answers
}

/// Run the real page iterator to its end or first error, for its time
pub(crate) fn run(board: &Board, ms: &str) -> usize {
    Real::new(board, ms).take_while(Result::is_ok).count()
}

/// Collect the answers of a message's pages
fn drive(
    board: &Board,
    ms: &str,
    answers: &mut Vec<Answer>,
) -> Result<(), Fault> {
    let mut pages = Real::new(board, ms);
    loop {
        let answer = match pages.page_state {
            PageState::On(_) => on_page(&mut pages, ms)?,
            PageState::Off(_) => Answer::Off {
                duration: pages.render_off_page().duration_ds,
            },
            PageState::Done => return Ok(()),
        };
        answers.push(answer);
    }
}

/// Do what `render_on_page` does, and list the spans of each pass
fn on_page(pages: &mut Real<'_>, ms: &str) -> Result<Answer, Fault> {
    if let Err(error) = pages.check_unsupported() {
        let place = Some(scan_place(pages));
        return Err(Fault { error, place });
    }
    pages.update_page_state()?;
    let mut raster = pages.build_raster();
    let mut records = Vec::new();
    let mut n_text_rectangles = 0;
    pages.page_state = PageState::On(false);
    while pages.page_state == PageState::On(false) {
        pages.render_graphics(&mut raster)?;
        let from = pages.values.clone();
        pages.render_text_rectangle(&mut raster)?;
        list_pass(pages, ms, from, &mut records)?;
        n_text_rectangles += 1;
        if n_text_rectangles > MAX_TEXT_RECTANGLES {
            return Err(SyntaxError::Other("Too many text rectangles").into());
        }
    }
    Ok(Answer::On {
        duration: pages.page_on_time_ds(),
        records,
    })
}

/// Find the slice that `check_unsupported` refuses
fn scan_place(pages: &Real<'_>) -> (usize, usize) {
    let supported = pages.dms.multi_cfg.supported_multi_tags;
    let mut values = pages.values.clone();
    loop {
        let start = offset(&values);
        let slice = values.next_slice().expect("a slice that fails");
        let fails = match Value::try_from(slice) {
            Ok(value) => value.tag().is_some_and(|t| !supported.contains(t)),
            Err(_) => true,
        };
        if fails {
            return (start, slice.len());
        }
    }
}

/// List the spans of a pass that has just been placed
fn list_pass(
    pages: &Real<'_>,
    ms: &str,
    from: MultiStr<'_>,
    records: &mut Vec<Record>,
) -> Result<(), Fault> {
    let sources = sources(from, offset(&pages.values));
    assert_eq!(sources.len(), pages.spans.len(), "spans of a pass");
    for (span, source) in pages.spans.iter().zip(sources) {
        let state = span.state();
        let r = state.text_rectangle;
        let mut record = Record {
            x: pages.span_x(span)?,
            y: pages.span_y(span)?,
            width: span.width(pages.fonts())?,
            height: span.height(pages.fonts())?,
            font: state.font_num,
            line: state.line_number,
            span: state.span_number,
            rectangle: [r.x, r.y, r.width, r.height],
            ..Record::default()
        };
        match (span, source) {
            (Span::Text(_, t), Source::Text) => {
                (record.start, record.length) = place(ms, t);
            }
            (Span::HexChar(_, _), Source::HexChar(start, length, code)) => {
                record.kind = 1;
                (record.start, record.length) = (start, length);
                record.code = code;
            }
            (Span::Text(_, ""), Source::Empty(start)) => {
                record.kind = 2;
                record.start = start;
            }
            _ => panic!("a span from another slice"),
        }
        records.push(record);
    }
    Ok(())
}

/// Find where the spans of a pass come from
///
/// Only the rule for blank lines is told again here: a span holds no place of
/// its [hc] or [nl].
fn sources(mut from: MultiStr<'_>, end: usize) -> Vec<Source> {
    let mut all = Vec::new();
    let mut line_blank = true;
    while offset(&from) < end {
        let start = offset(&from);
        let slice = from.next_slice().expect("a slice of the pass");
        match Value::try_from(slice) {
            Ok(Value::Text(_)) => {
                all.push(Source::Text);
                line_blank = false;
            }
            Ok(Value::HexadecimalCharacter(code)) => {
                all.push(Source::HexChar(start, slice.len(), code));
                line_blank = false;
            }
            Ok(Value::NewLine(_)) => {
                if line_blank {
                    all.push(Source::Empty(start));
                }
                line_blank = true;
            }
            _ => (),
        }
    }
    all
}

impl Fault {
    /// Get the refusal of document 01
    fn refusal(&self) -> Refusal {
        let (number, detail) = match &self.error {
            SyntaxError::TagConflict => (9, 0),
            SyntaxError::FontNotDefined(n) => (10, u32::from(*n)),
            SyntaxError::FontVersionID => (11, 0),
            SyntaxError::CharacterNotDefined(c) => (12, u32::from(*c)),
            SyntaxError::TextTooBig => (13, 0),
            SyntaxError::Other("Too many text rectangles") => (15, 0),
            error => (syntax_number(error), 0),
        };
        Refusal {
            number,
            place: self.place,
            detail,
        }
    }
}

/// Compare the answers with those of the real iterator; panics where they differ
fn check_iterator(
    board: &Board,
    ms: &str,
    answers: &[Answer],
    error: Option<SyntaxError>,
) {
    let mut pages = Real::new(board, ms);
    for answer in answers {
        let on = matches!(pages.page_state, PageState::On(_));
        let real = guarded(|| pages.next());
        let same = match (answer, &real) {
            (Answer::On { duration, .. }, Ok(Some(Ok(page)))) => {
                on && page.duration_ds == *duration
            }
            (Answer::Off { duration }, Ok(Some(Ok(page)))) => {
                !on && page.duration_ds == *duration
            }
            (Answer::End { .. }, Ok(None)) => true,
            (Answer::Refused(_), Ok(Some(Err(e)))) => Some(e) == error.as_ref(),
            (Answer::Stop(said), Err(real)) => said == real,
            _ => false,
        };
        assert!(same, "hand loop and page iterator differ on {ms:?}");
    }
}
