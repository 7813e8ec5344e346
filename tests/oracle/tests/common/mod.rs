//! Boards for the tests.
#![allow(dead_code)]

use kambelohi_oracle::{Answer, Record, Sign, with_version_ids};

/// All nine tags
pub const TAGS: u32 = 134_233_320;

/// What a sign file holds
#[derive(Clone)]
pub struct Board {
    pub size: [u16; 2],
    pub char_size: [u8; 2],
    pub font: u8,
    pub just: [u8; 2],
    pub times: [u8; 2],
    pub tags: u32,
    pub fonts: Vec<Font>,
}

/// Number, height, character spacing, line spacing; number and width of each
/// character, whose lamps are all lit
pub type Font = ([u8; 4], Vec<(u16, u8)>);

/// Board P of document 01
pub fn board_p() -> Board {
    Board {
        size: [50, 24],
        char_size: [0, 0],
        font: 1,
        just: [2, 2],
        times: [30, 0],
        tags: TAGS,
        fonts: vec![([1, 7, 2, 3], vec![(65, 5), (66, 6), (91, 3)])],
    }
}

/// One record of a sign file
pub fn record(kind: u16, body: &[u8]) -> Vec<u8> {
    let length = body.len() as u16;
    [&length.to_le_bytes()[..], &kind.to_le_bytes(), body].concat()
}

impl Board {
    /// The sign file, with every version id 0
    pub fn raw(&self) -> Vec<u8> {
        let mut body = Vec::new();
        body.extend(self.size.iter().flat_map(|n| n.to_le_bytes()));
        body.extend(self.char_size);
        body.push(self.font);
        body.extend(self.just);
        body.extend(self.times);
        body.extend(self.tags.to_le_bytes());
        let mut file = record(1, &body);
        for (font, characters) in &self.fonts {
            file.extend(record(2, &[&font[..], &[0, 0]].concat()));
            for (number, width) in characters {
                let bits = usize::from(*width) * usize::from(font[1]);
                let mut body = number.to_le_bytes().to_vec();
                body.push(*width);
                body.resize(3 + bits.div_ceil(8), 0xff);
                file.extend(record(3, &body));
            }
        }
        file
    }

    /// The sign file with the real version ids
    pub fn file(&self) -> Vec<u8> {
        with_version_ids(&self.raw()).unwrap()
    }

    pub fn sign(&self) -> Sign {
        Sign::read(&self.file()).unwrap()
    }

    pub fn list(&self, message: &str) -> Vec<Answer> {
        self.sign().listing(message.as_bytes())
    }

    /// The answer lines of a message
    pub fn lines(&self, message: &str) -> Vec<String> {
        let answers = self.list(message);
        let lines: Vec<_> = answers.iter().map(|a| a.to_string()).collect();
        lines.join("\n").lines().map(String::from).collect()
    }

    /// The records of a message of one page
    pub fn records(&self, message: &str) -> Vec<Record> {
        match &self.list(message)[..] {
            [Answer::On { records, .. }, Answer::End { count: 1 }] => {
                records.clone()
            }
            other => panic!("{message}: {other:?}"),
        }
    }

    /// Start, x and y of each record of a message of one page
    pub fn xy(&self, message: &str) -> Vec<(usize, u16, u16)> {
        let records = self.records(message);
        records.iter().map(|r| (r.start, r.x, r.y)).collect()
    }

    /// The refusal that a message's listing ends with, as a line
    pub fn refused(&self, message: &str) -> String {
        match self.list(message).last() {
            Some(Answer::Refused(refusal)) => refusal.to_string(),
            other => panic!("{message}: {other:?}"),
        }
    }

    /// What the Rust says where it stops
    pub fn stops(&self, message: &str) -> String {
        match self.list(message).last() {
            Some(Answer::Stop(said)) => said.clone(),
            other => panic!("{message}: {other:?}"),
        }
    }
}

/// Bytes as lowercase hexadecimal pairs
pub fn hex(bytes: &[u8]) -> String {
    if bytes.is_empty() {
        return "-".into();
    }
    bytes.iter().map(|b| format!("{b:02x}")).collect()
}
