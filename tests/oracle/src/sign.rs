//! Reading a sign file into the real sign, by document 01. The option records
//! of document 02 are read and left out: the Rust has no such options.

use crate::answer::{Answer, Refusal};
use crate::dms::config::{MultiCfg, SignCfg, VmsCfg};
use crate::dms::font::{CharacterEntry, Font, FontTable};
use crate::dms::graphic::GraphicTable;
use crate::dms::multi::{
    ColorScheme, JustificationLine, JustificationPage, Tag,
};
use crate::dms::render;
use crate::{Board, CHARACTERS, checked_message};
use enumflags2::BitFlags;

/// Longest sign file
const FILE_MAX: usize = 65_535;
/// Longest side in pixels
const PIXELS_MAX: u16 = 4096;
/// Most characters of a font
const CHARACTERS_MAX: usize = 256;
/// Kinds of the empty option records after kind 1, in their order
const OPTIONS: [u16; 3] = [CAPITALS, LONG_TIMES, GROUP_NUMBERS];
/// Kind of the record for capital-only fonts
pub const CAPITALS: u16 = 4;
/// Kind of the record for page times of 16 bits
pub const LONG_TIMES: u16 = 5;
/// Kind of the record for span numbers by group
pub const GROUP_NUMBERS: u16 = 6;
/// Tags that a sign file may support
const TAGS: [Tag; 9] = [
    Tag::Fo,
    Tag::Hc,
    Tag::Jl,
    Tag::Jp,
    Tag::Nl,
    Tag::Np,
    Tag::Pt,
    Tag::Sc,
    Tag::Tr,
];

/// A sign file that has been read, for many messages
pub struct Sign {
    board: Box<Board>,
    version_ids: Vec<(u8, u16)>,
    comparable: bool,
    options: Vec<u16>,
}

/// What has been read so far
struct Reading {
    board: Box<Board>,
    /// Kinds of the option records
    options: Vec<u16>,
    /// Number, version id and offset of each font record
    fonts: Vec<(u8, u16, usize)>,
    /// Characters of the font before
    characters: usize,
}

impl Sign {
    /// Read a sign file
    pub fn read(file: &[u8]) -> Result<Self, Refusal> {
        let reading = Reading::file(file)?;
        let table = reading.board.font_definition();
        let real = |n| table.font(n).expect("a font just read").version_id();
        let fonts = reading.fonts.iter();
        let version_ids: Vec<_> =
            fonts.map(|(n, _, _)| (*n, real(*n))).collect();
        let comparable = reading
            .fonts
            .iter()
            .zip(&version_ids)
            .all(|(file, real)| file.1 == real.1);
        Ok(Sign {
            board: reading.board,
            version_ids,
            comparable,
            options: reading.options,
        })
    }

    /// Whether the file has an option record of a kind
    pub fn has(&self, option: u16) -> bool {
        self.options.contains(&option)
    }

    /// Number and real version id of each font, in the file's order
    pub fn version_ids(&self) -> &[(u8, u16)] {
        &self.version_ids
    }

    /// List a message, checked against the real page iterator
    pub fn listing(&self, message: &[u8]) -> Vec<Answer> {
        self.list(message, true)
    }

    /// List a message without running the real page iterator beside it
    pub fn listing_unchecked(&self, message: &[u8]) -> Vec<Answer> {
        self.list(message, false)
    }

    /// Run the real page iterator on a message, for its time; gives the count
    /// of its pages
    pub fn run(&self, ms: &str) -> usize {
        render::oracle::run(&self.board, ms)
    }

    /// List a message
    pub(crate) fn list(&self, message: &[u8], check: bool) -> Vec<Answer> {
        if !self.comparable {
            return vec![Answer::NotComparable];
        }
        match checked_message(message) {
            Ok(ms) => render::oracle::listing(&self.board, ms, check),
            Err(refusal) => vec![Answer::Refused(refusal)],
        }
    }
}

/// Copy a sign file with the real version ids put in
pub fn with_version_ids(file: &[u8]) -> Result<Vec<u8>, Refusal> {
    let reading = Reading::file(file)?;
    let mut file = file.to_vec();
    for (number, _, offset) in reading.fonts {
        let font = reading.board.font_definition().font(number);
        let id = font.expect("a font just read").version_id();
        file[offset + 8..offset + 10].copy_from_slice(&id.to_le_bytes());
    }
    Ok(file)
}

impl Reading {
    /// Read a whole file
    fn file(file: &[u8]) -> Result<Self, Refusal> {
        let refused = |offset| Refusal::at(1, offset, 0);
        if file.len() > FILE_MAX {
            return Err(refused(0));
        }
        let (body, mut offset) = record(file, 0, 1).ok_or(refused(0))?;
        let board = configuration(body).ok_or(refused(0))?;
        let mut options = Vec::new();
        for kind in OPTIONS {
            if let Some((&[], next)) = record(file, offset, kind) {
                options.push(kind);
                offset = next;
            }
        }
        let mut reading = Reading {
            board,
            options,
            fonts: Vec::new(),
            characters: 0,
        };
        while offset < file.len() {
            let next = reading.next(file, offset);
            offset = next.ok_or(refused(offset))?;
        }
        Ok(reading)
    }

    /// Read a font or a character; gives the next record's offset
    fn next(&mut self, file: &[u8], offset: usize) -> Option<usize> {
        if let Some((body, next)) = record(file, offset, 2) {
            self.font(body, offset)?;
            return Some(next);
        }
        let (body, next) = record(file, offset, 3)?;
        self.character(body)?;
        Some(next)
    }

    /// Read a font
    fn font(&mut self, body: &[u8], offset: usize) -> Option<()> {
        let &[number, height, char_spacing, line_spacing, v0, v1] = body else {
            return None;
        };
        let known = self.fonts.iter().any(|f| f.0 == number);
        if number == 0 || height == 0 || known {
            return None;
        }
        // the first font of number 0 is not in use yet; none is left past 24
        let font = self.board.font_definition.font_mut(0)?;
        font.number = number;
        font.height = height;
        font.char_spacing = char_spacing;
        font.line_spacing = line_spacing;
        self.fonts
            .push((number, u16::from_le_bytes([v0, v1]), offset));
        self.characters = 0;
        Some(())
    }

    /// Read a character of the font before it
    fn character(&mut self, body: &[u8]) -> Option<()> {
        let (font_number, _, _) = *self.fonts.last()?;
        let font: &mut Font<CHARACTERS> =
            self.board.font_definition.font_mut(font_number)?;
        let (&[n0, n1, width], bitmap) = body.split_first_chunk::<3>()?;
        let number = u16::from_le_bytes([n0, n1]);
        let bits = usize::from(width) * usize::from(font.height);
        let before = &font.characters[..self.characters];
        if number == 0
            || bitmap.len() != bits.div_ceil(8)
            || self.characters == CHARACTERS_MAX
            || before.iter().any(|c| c.number == number)
        {
            return None;
        }
        font.characters[self.characters] = CharacterEntry {
            number,
            width,
            bitmap: bitmap.to_vec(),
        };
        self.characters += 1;
        Some(())
    }
}

/// Get the body of a whole record of a kind, and the next record's offset
fn record(file: &[u8], offset: usize, kind: u16) -> Option<(&[u8], usize)> {
    let (&[l0, l1, k0, k1], rest) = file[offset..].split_first_chunk::<4>()?;
    let length = usize::from(u16::from_le_bytes([l0, l1]));
    let body = rest.get(..length)?;
    let whole = u16::from_le_bytes([k0, k1]) == kind;
    whole.then_some((body, offset + 4 + length))
}

/// Read the configuration into a sign without fonts
fn configuration(body: &[u8]) -> Option<Box<Board>> {
    let &[
        w0,
        w1,
        h0,
        h1,
        cw,
        ch,
        font,
        jl,
        jp,
        on,
        off,
        t0,
        t1,
        t2,
        t3,
    ] = body
    else {
        return None;
    };
    let width = u16::from_le_bytes([w0, w1]);
    let height = u16::from_le_bytes([h0, h1]);
    let pixels = 1..=PIXELS_MAX;
    if !pixels.contains(&width) || !pixels.contains(&height) || font == 0 {
        return None;
    }
    let tags = u32::from_le_bytes([t0, t1, t2, t3]);
    Some(Box::new(Board {
        sign_cfg: SignCfg::default(),
        vms_cfg: VmsCfg {
            char_height_pixels: ch,
            char_width_pixels: cw,
            sign_height_pixels: height,
            sign_width_pixels: width,
            ..VmsCfg::default()
        },
        font_definition: FontTable::default(),
        multi_cfg: MultiCfg {
            default_font: font,
            default_justification_line: line_justification(jl)?,
            default_justification_page: page_justification(jp)?,
            default_page_on_time: on,
            default_page_off_time: off,
            color_scheme: ColorScheme::Monochrome1Bit,
            supported_multi_tags: supported(tags)?,
            ..MultiCfg::default()
        },
        graphic_definition: GraphicTable::default(),
    }))
}

/// Read the default line justification
fn line_justification(n: u8) -> Option<JustificationLine> {
    match n {
        2 => Some(JustificationLine::Left),
        3 => Some(JustificationLine::Center),
        4 => Some(JustificationLine::Right),
        _ => None,
    }
}

/// Read the default page justification
fn page_justification(n: u8) -> Option<JustificationPage> {
    match n {
        2 => Some(JustificationPage::Top),
        3 => Some(JustificationPage::Middle),
        4 => Some(JustificationPage::Bottom),
        _ => None,
    }
}

/// Read the supported tags
fn supported(mut bits: u32) -> Option<BitFlags<Tag>> {
    let mut flags = BitFlags::empty();
    for tag in TAGS {
        if bits & tag as u32 != 0 {
            flags = flags | tag;
            bits ^= tag as u32;
        }
    }
    (bits == 0).then_some(flags)
}
