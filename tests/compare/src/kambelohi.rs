//! A safe wrapper of the exported calls.

/// An answer of the reading call, as `include/kambelohi.h` has it
#[repr(C)]
#[derive(Clone, Copy, Debug, Eq, PartialEq)]
pub struct ReadAnswer {
    pub kind: u32,
    pub number: u32,
    pub start: u32,
    pub length: u32,
    pub detail: u32,
    pub code: u32,
    pub n: [u32; 8],
}

unsafe extern "C" {
    fn kambelohi_read(
        msg: *const u8,
        len: usize,
        offset: usize,
        long_times: bool,
    ) -> ReadAnswer;
}

/// Read the slice at an offset of a message, and say whether long times hold
pub fn read(msg: &[u8], offset: usize, long_times: bool) -> ReadAnswer {
    // The call takes any bytes, length and offset.
    unsafe { kambelohi_read(msg.as_ptr(), msg.len(), offset, long_times) }
}

/// A slice of a message as numbers, as `include/kambelohi.h` has it
#[repr(C)]
#[derive(Clone, Copy, Debug, Default, Eq, PartialEq)]
pub struct Reading {
    pub start: u32,
    pub length: u32,
    pub number: u32,
    pub code: u32,
    pub n: [u32; 8],
}

/// An answer of the call that reads all slices
#[repr(C)]
#[derive(Clone, Copy, Debug, Default, Eq, PartialEq)]
pub struct ReadAllAnswer {
    pub kind: u16,
    pub count: u16,
    pub number: u16,
    pub start: u16,
    pub length: u16,
    pub detail: u16,
}

unsafe extern "C" {
    fn kambelohi_read_all(
        msg: *const u8,
        len: usize,
        long_times: bool,
        readings: *mut Reading,
        reading_count: usize,
    ) -> ReadAllAnswer;
}

/// Read all slices of a message, and say whether long times hold
pub fn read_all(
    msg: &[u8],
    long_times: bool,
    readings: &mut [Reading],
) -> ReadAllAnswer {
    // The call takes any bytes and slice.
    unsafe {
        kambelohi_read_all(
            msg.as_ptr(),
            msg.len(),
            long_times,
            readings.as_mut_ptr(),
            readings.len(),
        )
    }
}

/// A span record, as `include/kambelohi.h` has it: kind, start, length, code,
/// x, y, width, height, font, line, span, and the rectangle's x, y, width and
/// height
#[repr(C)]
#[derive(Clone, Copy, Debug, Default, Eq, PartialEq)]
pub struct Span(pub [u16; 15]);

/// An answer of the listing call
#[repr(C)]
#[derive(Clone, Copy, Debug, Default, Eq, PartialEq)]
pub struct ListAnswer {
    pub kind: u16,
    pub duration: u16,
    pub count: u16,
    pub number: u16,
    pub start: u16,
    pub length: u16,
    pub detail: u16,
}

unsafe extern "C" {
    fn kambelohi_list(
        file: *const u8,
        file_len: usize,
        msg: *const u8,
        msg_len: usize,
        answer: usize,
        spans: *mut Span,
        span_count: usize,
    ) -> ListAnswer;
}

/// List an answer of a message on a sign file
pub fn list(file: &[u8], msg: &[u8], answer: usize, spans: &mut [Span]) -> ListAnswer {
    // The call takes any bytes, answer number and slice.
    unsafe {
        kambelohi_list(
            file.as_ptr(),
            file.len(),
            msg.as_ptr(),
            msg.len(),
            answer,
            spans.as_mut_ptr(),
            spans.len(),
        )
    }
}

/// An answer of the placing call: that of the listing call, and two counts
#[repr(C)]
#[derive(Clone, Copy, Debug, Default, Eq, PartialEq)]
pub struct PlaceAnswer {
    pub kind: u8,
    pub number: u8,
    pub duration: u16,
    pub count: u16,
    pub start: u16,
    pub length: u16,
    pub detail: u16,
    pub looked: u16,
    pub spans: u16,
}

unsafe extern "C" {
    fn kambelohi_place(
        file: *const u8,
        file_len: usize,
        msg: *const u8,
        msg_len: usize,
        answer: usize,
        spans: *mut Span,
        span_count: usize,
    ) -> PlaceAnswer;
}

/// List an answer of a message on a sign file, with the counts of its page
pub fn place(file: &[u8], msg: &[u8], answer: usize, spans: &mut [Span]) -> PlaceAnswer {
    // The call takes any bytes, answer number and slice.
    unsafe {
        kambelohi_place(
            file.as_ptr(),
            file.len(),
            msg.as_ptr(),
            msg.len(),
            answer,
            spans.as_mut_ptr(),
            spans.len(),
        )
    }
}

/// An answer of a whole listing, as `include/kambelohi.h` has it: kind (1 on,
/// 2 off), duration, the number of its first record, and how many it has
#[repr(C)]
#[derive(Clone, Copy, Debug, Default, Eq, PartialEq)]
pub struct Shown {
    pub kind: u16,
    pub duration: u16,
    pub first: u16,
    pub count: u16,
}

/// What the call for a whole listing answers
#[repr(C)]
#[derive(Clone, Copy, Debug, Default, Eq, PartialEq)]
pub struct ListAllAnswer {
    pub kind: u16,
    pub answers: u16,
    pub records: u16,
    pub number: u16,
    pub start: u16,
    pub length: u16,
    pub detail: u16,
}

unsafe extern "C" {
    fn kambelohi_list_all(
        file: *const u8,
        file_len: usize,
        msg: *const u8,
        msg_len: usize,
        answers: *mut Shown,
        answer_count: usize,
        spans: *mut Span,
        span_count: usize,
    ) -> ListAllAnswer;
}

/// List all answers of a message on a sign file, with all their records
pub fn list_all(
    file: &[u8],
    msg: &[u8],
    answers: &mut [Shown],
    spans: &mut [Span],
) -> ListAllAnswer {
    // The call takes any bytes and slices.
    unsafe {
        kambelohi_list_all(
            file.as_ptr(),
            file.len(),
            msg.as_ptr(),
            msg.len(),
            answers.as_mut_ptr(),
            answers.len(),
            spans.as_mut_ptr(),
            spans.len(),
        )
    }
}

/// An answer of the sentence call
#[repr(C)]
#[derive(Clone, Copy, Debug, Default, Eq, PartialEq)]
pub struct SentenceAnswer {
    pub kind: u16,
    pub count: u16,
    pub number: u16,
    pub start: u16,
    pub length: u16,
    pub detail: u16,
}

unsafe extern "C" {
    fn kambelohi_sentence(
        number: u8,
        start: u16,
        length: u16,
        detail: u16,
        buffer: *mut u8,
        buffer_len: usize,
    ) -> SentenceAnswer;
}

/// Write a refusal as a sentence into a buffer
pub fn sentence(
    number: u8,
    start: u16,
    length: u16,
    detail: u16,
    buffer: &mut [u8],
) -> SentenceAnswer {
    // The call takes any numbers and any buffer.
    unsafe {
        kambelohi_sentence(
            number,
            start,
            length,
            detail,
            buffer.as_mut_ptr(),
            buffer.len(),
        )
    }
}
