//! What is told on standard error.

#[derive(Clone, Copy, PartialEq, Eq)]
pub enum Refusal {
    BadByte = 1,
    NumberTooLarge,
    NameTooLong,
    Syntax,
    Unclosed,
    NoMain,
    DuplicateProcedure,
    DuplicateLabel,
    UnknownLabel,
    UnknownProcedure,
    TextTooLong,
    TooManyProcedures,
    DuplicateCallee,
    TooManyPoints = 21,
    TooManyBits,
}

impl Refusal {
    fn name(self) -> &'static str {
        match self {
            Refusal::BadByte => "BadByte",
            Refusal::NumberTooLarge => "NumberTooLarge",
            Refusal::NameTooLong => "NameTooLong",
            Refusal::Syntax => "Syntax",
            Refusal::Unclosed => "Unclosed",
            Refusal::NoMain => "NoMain",
            Refusal::DuplicateProcedure => "DuplicateProcedure",
            Refusal::DuplicateLabel => "DuplicateLabel",
            Refusal::UnknownLabel => "UnknownLabel",
            Refusal::UnknownProcedure => "UnknownProcedure",
            Refusal::TextTooLong => "TextTooLong",
            Refusal::TooManyProcedures => "TooManyProcedures",
            Refusal::DuplicateCallee => "DuplicateCallee",
            Refusal::TooManyPoints => "TooManyPoints",
            Refusal::TooManyBits => "TooManyBits",
        }
    }

    pub fn at(self, place: usize) -> Refused {
        Refused { refusal: self, place }
    }
}

/// A text that is no program, and the byte at which its first fault stands.
#[derive(Clone, Copy)]
pub struct Refused {
    pub refusal: Refusal,
    pub place: usize,
}

pub enum Fault {
    Text { line: usize, column: usize, refusal: Refusal },
    Graph(Refusal),
    Read,
    Write,
}

impl Fault {
    pub fn of_text(text: &[u8], refused: Refused) -> Fault {
        let before = &text[..refused.place];
        let line = 1 + before.iter().filter(|byte| **byte == b'\n').count();
        let begin = before.iter().rposition(|byte| *byte == b'\n').map_or(0, |at| at + 1);
        Fault::Text { line, column: refused.place - begin + 1, refusal: refused.refusal }
    }

    pub fn line(&self) -> String {
        match self {
            Fault::Text { line, column, refusal } => format!("tacflow: {line}:{column}: refusal {}: {}", *refusal as u8, refusal.name()),
            Fault::Graph(refusal) => format!("tacflow: refusal {}: {}", *refusal as u8, refusal.name()),
            Fault::Read => "tacflow: read fault".into(),
            Fault::Write => "tacflow: write fault".into(),
        }
    }
}
