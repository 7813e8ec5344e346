//! The values of a message's slices, as numbers.

use crate::answer::{Item, Refusal};
use crate::checked_message;
use crate::dms::multi::{
    Color, FlashOrder, MovingTextDirection, MovingTextMode, MultiStr,
    Rectangle, SyntaxError, Value,
};
use crate::guard::guarded;

/// Read the values of a message's slices
pub fn values(message: &[u8]) -> Result<Vec<Item>, Refusal> {
    let ms = checked_message(message)?;
    let items = slices(ms).into_iter().map(|(start, slice)| {
        let (code, mut numbers) = match guarded(|| Value::try_from(slice)) {
            Ok(Ok(value)) => numbered(&value, ms),
            Ok(Err(error)) => (0, vec![syntax_number(&error).into()]),
            Err(_) => (0, vec![0]),
        };
        numbers.resize(8, 0);
        Item {
            start,
            length: slice.len(),
            code,
            numbers,
        }
    });
    Ok(items.collect())
}

/// Run the real value iterator to the message's end, for its time; gives the
/// count of values that it reads
pub fn run_values(ms: &str) -> usize {
    MultiStr::new(ms).filter(Result::is_ok).count()
}

/// Start and length of a message's slices
pub fn next_slices(ms: &str) -> Vec<(usize, usize)> {
    let all = slices(ms).into_iter();
    all.map(|(start, slice)| (start, slice.len())).collect()
}

/// Cut a message by the real `next_slice`
fn slices(ms: &str) -> Vec<(usize, &str)> {
    let mut all = Vec::new();
    let mut rest = MultiStr::new(ms);
    loop {
        let start = offset(&rest);
        match rest.next_slice() {
            Some(slice) => all.push((start, slice)),
            None => return all,
        }
    }
}

/// Offset of a MULTI string's next slice
pub(crate) fn offset(ms: &MultiStr<'_>) -> usize {
    ms.split().0.len()
}

/// Start and length of a part of the message
pub(crate) fn place(ms: &str, part: &str) -> (usize, usize) {
    let start = part.as_ptr() as usize - ms.as_ptr() as usize;
    assert!(start + part.len() <= ms.len(), "a part of the message");
    (start, part.len())
}

/// Number of an error that reading a value gives
pub(crate) fn syntax_number(error: &SyntaxError) -> u8 {
    match error {
        SyntaxError::UnsupportedTag(_) => 5,
        SyntaxError::UnsupportedTagValue(_) => 6,
        SyntaxError::Other("Invalid code point") => 7,
        _ => panic!("no error of reading: {error}"),
    }
}

/// Get a value's code and numbers
fn numbered(value: &Value<'_>, ms: &str) -> (u8, Vec<u32>) {
    let text = |t: &str| {
        let (start, length) = place(ms, t);
        vec![start as u32, length as u32]
    };
    let option_text = |t: &Option<&str>| option(t.map(text));
    match value {
        Value::ColorBackground(c) => (1, option(c.map(color))),
        Value::ColorForeground(c) => (2, option(c.map(color))),
        Value::ColorRectangle(r, c) => (3, join(rectangle(r), color(*c))),
        Value::Field(id, w) => (4, join([*id], number(*w))),
        Value::Flash(order, a, b) => {
            let order = match order {
                FlashOrder::OnOff => 0u8,
                FlashOrder::OffOn => 1,
            };
            (5, join([order], join(number(*a), number(*b))))
        }
        Value::FlashEnd() => (6, vec![]),
        Value::Font(f) => (7, option(f.map(|(n, id)| join([n], number(id))))),
        Value::Graphic(n, p) => {
            let p = p.map(|(x, y, id)| join([x, y], number(id)));
            (8, join([*n], option(p)))
        }
        Value::HexadecimalCharacter(c) => (9, vec![u32::from(*c)]),
        Value::JustificationLine(j) => (10, number(j.map(|j| j as u8))),
        Value::JustificationPage(j) => (11, number(j.map(|j| j as u8))),
        Value::ManufacturerSpecific(n, t) => (12, join([*n], option_text(t))),
        Value::ManufacturerSpecificEnd(n, t) => {
            (13, join([*n], option_text(t)))
        }
        Value::MovingText(mode, dir, width, s, r, t) => {
            let (mode, delay) = match mode {
                MovingTextMode::Circular => (0u8, 0),
                MovingTextMode::Linear(delay) => (1, *delay),
            };
            let dir = match dir {
                MovingTextDirection::Left => 0,
                MovingTextDirection::Right => 1,
            };
            let times = join([*width], join([*s, *r], text(t)));
            (14, join([mode, delay, dir], times))
        }
        Value::NewLine(n) => (15, number(*n)),
        Value::NewPage() => (16, vec![]),
        Value::PageBackground(c) => (17, option(c.map(color))),
        Value::PageTime(on, off) => (18, join(number(*on), number(*off))),
        Value::SpacingCharacter(n) => (19, vec![u32::from(*n)]),
        Value::SpacingCharacterEnd() => (20, vec![]),
        Value::Text(t) => (21, text(t)),
        Value::TextRectangle(r) => (22, rectangle(r)),
    }
}

/// Put numbers after others
fn join<A, B>(
    a: impl IntoIterator<Item = A>,
    b: impl IntoIterator<Item = B>,
) -> Vec<u32>
where
    A: Into<u32>,
    B: Into<u32>,
{
    let a = a.into_iter().map(Into::into);
    a.chain(b.into_iter().map(Into::into)).collect()
}

/// An option's numbers
fn option(numbers: Option<Vec<u32>>) -> Vec<u32> {
    match numbers {
        Some(numbers) => join([1u8], numbers),
        None => vec![0],
    }
}

/// An optional number: two numbers either way
fn number<T: Into<u32>>(n: Option<T>) -> Vec<u32> {
    match n {
        Some(n) => vec![1, n.into()],
        None => vec![0, 0],
    }
}

/// A colour's numbers
fn color(c: Color) -> Vec<u32> {
    match c {
        Color::Legacy(n) => vec![0, n.into()],
        Color::Rgb(r, g, b) => join([1u8], [r, g, b]),
    }
}

/// A rectangle's numbers
fn rectangle(r: &Rectangle) -> Vec<u32> {
    join([r.x, r.y], [r.width, r.height])
}
