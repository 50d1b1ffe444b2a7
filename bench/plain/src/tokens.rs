//! The tokens of a text, one after the other.

use crate::fault::{Refusal, Refused};
use crate::program::{Operator, SIGNS};

#[derive(Clone, Copy, PartialEq, Eq)]
pub enum Keyword {
    Proc,
    End,
    Goto,
    If,
    IfFalse,
    Call,
    Return,
    Read,
    Print,
    Skip,
}

#[derive(Clone, Copy)]
pub enum Token<'t> {
    Name(&'t [u8]),
    Keyword(Keyword),
    Number(u64),
    Operator(Operator),
    Colon,
    Assign,
    /// The line's end, or the text's.
    Line,
}

#[derive(Clone, Copy, PartialEq, Eq)]
enum Kind {
    Bad,
    Blank,
    Letter,
    Digit,
    Sign,
    Line,
}

const KINDS: [Kind; 256] = kinds();

const fn kinds() -> [Kind; 256] {
    let mut kinds = [Kind::Bad; 256];
    let mut byte = 0;
    while byte < 256 {
        kinds[byte] = match byte as u8 {
            b' ' | b'\t' => Kind::Blank,
            b'a'..=b'z' | b'A'..=b'Z' | b'_' => Kind::Letter,
            b'0'..=b'9' => Kind::Digit,
            b':' | b'=' | b'+' | b'-' | b'*' | b'/' | b'%' | b'&' | b'|' | b'^' | b'<' | b'>' | b'~' | b'!' => Kind::Sign,
            b'\n' | b'#' | b'\r' => Kind::Line,
            _ => Kind::Bad,
        };
        byte += 1;
    }
    kinds
}

const NAME_LIMIT: usize = 64;
const NUMBER_LIMIT: u64 = i64::MAX as u64;

pub struct Tokens<'t> {
    text: &'t [u8],
    at: usize,
    /// Where the last token stands; of a line's end, where the token before it ended.
    pub start: usize,
    end: usize,
}

impl<'t> Tokens<'t> {
    pub fn new(text: &'t [u8]) -> Tokens<'t> {
        Tokens { text, at: 0, start: 0, end: 0 }
    }

    pub fn is_at_end(&self) -> bool {
        self.at == self.text.len()
    }

    /// Goes over the line's end, behind which the next line begins.
    pub fn next_line(&mut self) {
        self.at += 1;
        self.end = self.at;
    }

    pub fn next(&mut self) -> Result<Token<'t>, Refused> {
        while let Some(byte) = self.text.get(self.at) {
            self.start = self.at;
            match KINDS[usize::from(*byte)] {
                Kind::Blank => self.at += 1,
                Kind::Letter => return self.name(),
                Kind::Digit => return self.number(),
                Kind::Sign => return Ok(self.sign()),
                Kind::Line => match byte {
                    b'#' => self.comment(),
                    b'\r' if self.text.get(self.at + 1) == Some(&b'\n') => self.at += 1,
                    b'\r' => return Err(Refusal::BadByte.at(self.at)),
                    _ => break,
                },
                Kind::Bad => return Err(Refusal::BadByte.at(self.at)),
            }
        }
        self.start = self.end;
        Ok(Token::Line)
    }

    fn comment(&mut self) {
        let rest = &self.text[self.at..];
        let skipped = rest.chunks(256).take_while(|chunk| !chunk.contains(&b'\n')).map(<[u8]>::len).sum::<usize>();
        self.at += skipped;
        self.at += self.text[self.at..].iter().take(256).position(|byte| *byte == b'\n').unwrap_or(0);
    }

    fn name(&mut self) -> Result<Token<'t>, Refused> {
        let rest = &self.text[self.start..];
        let length = rest.iter().position(|byte| !matches!(KINDS[usize::from(*byte)], Kind::Letter | Kind::Digit)).unwrap_or(rest.len());
        if length > NAME_LIMIT {
            return Err(Refusal::NameTooLong.at(self.start));
        }
        self.at += length;
        self.end = self.at;
        let name = &rest[..length];
        Ok(match keyword(name) {
            Some(keyword) => Token::Keyword(keyword),
            None => Token::Name(name),
        })
    }

    fn number(&mut self) -> Result<Token<'t>, Refused> {
        let mut value: u64 = 0;
        let mut is_large = false;
        while let Some(byte) = self.text.get(self.at).filter(|byte| byte.is_ascii_digit()) {
            // one digit more than the limit has room in the word
            is_large |= value > NUMBER_LIMIT / 10;
            value = value.wrapping_mul(10).wrapping_add(u64::from(byte - b'0'));
            is_large |= value > NUMBER_LIMIT;
            self.at += 1;
        }
        self.end = self.at;
        if is_large { Err(Refusal::NumberTooLarge.at(self.start)) } else { Ok(Token::Number(value)) }
    }

    fn sign(&mut self) -> Token<'t> {
        let first = self.text[self.at];
        let second = self.text.get(self.at + 1).copied().unwrap_or(0);
        let is_pair = matches!((first, second), (b'<', b'<' | b'=') | (b'>', b'>' | b'=') | (b'=' | b'!', b'='));
        self.at += 1 + usize::from(is_pair);
        self.end = self.at;
        match (first, is_pair) {
            (b':', _) => Token::Colon,
            (b'=', false) => Token::Assign,
            _ => Token::Operator(operator(first, if is_pair { second } else { 0 })),
        }
    }
}

fn operator(first: u8, second: u8) -> Operator {
    const TABLE: [[u8; 128]; 2] = operators();
    let row = match second {
        0 => &TABLE[0],
        b'=' => &TABLE[1],
        _ => return if first == b'<' { Operator(8) } else { Operator(9) },
    };
    Operator(row[usize::from(first)])
}

/// The operators of one sign, and those of a sign and `=`.
const fn operators() -> [[u8; 128]; 2] {
    let mut table = [[0; 128]; 2];
    let mut number = 0;
    while number < SIGNS.len() {
        let sign = SIGNS[number].as_bytes();
        if sign.len() == 1 {
            table[0][sign[0] as usize] = number as u8;
        } else if sign[1] == b'=' {
            table[1][sign[0] as usize] = number as u8;
        }
        number += 1;
    }
    table
}

fn keyword(name: &[u8]) -> Option<Keyword> {
    Some(match name {
        b"proc" => Keyword::Proc,
        b"end" => Keyword::End,
        b"goto" => Keyword::Goto,
        b"if" => Keyword::If,
        b"ifFalse" => Keyword::IfFalse,
        b"call" => Keyword::Call,
        b"return" => Keyword::Return,
        b"read" => Keyword::Read,
        b"print" => Keyword::Print,
        b"skip" => Keyword::Skip,
        _ => return None,
    })
}
