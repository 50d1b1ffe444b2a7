//! Bytes on their way to standard output, in pieces.

use std::fs::File;
use std::io::{self, IoSlice, Write};
use std::os::fd::AsFd;

const PIECE: usize = 1 << 16;
/// From here on bytes are written from where they are.
const LARGE: usize = 1 << 14;

pub struct Output {
    file: File,
    waiting: Vec<u8>,
}

impl Output {
    pub fn standard() -> io::Result<Output> {
        let file = File::from(io::stdout().as_fd().try_clone_to_owned()?);
        Ok(Output { file, waiting: Vec::with_capacity(PIECE) })
    }

    #[inline]
    pub fn put(&mut self, bytes: &[u8]) -> io::Result<()> {
        if self.waiting.len() + bytes.len() > PIECE {
            return self.put_over(bytes);
        }
        self.waiting.extend_from_slice(bytes);
        Ok(())
    }

    #[cold]
    fn put_over(&mut self, bytes: &[u8]) -> io::Result<()> {
        if bytes.len() >= LARGE {
            return self.put_large(bytes);
        }
        self.flush()?;
        self.waiting.extend_from_slice(bytes);
        Ok(())
    }

    /// What waits and the bytes go out together.
    pub fn put_large(&mut self, bytes: &[u8]) -> io::Result<()> {
        let mut slices = [IoSlice::new(&self.waiting), IoSlice::new(bytes)];
        let mut left = &mut slices[..];
        while left.iter().any(|slice| !slice.is_empty()) {
            match self.file.write_vectored(left) {
                Ok(0) => return Err(io::ErrorKind::WriteZero.into()),
                Ok(count) => IoSlice::advance_slices(&mut left, count),
                Err(error) if error.kind() == io::ErrorKind::Interrupted => (),
                Err(error) => return Err(error),
            }
        }
        self.waiting.clear();
        Ok(())
    }

    pub fn flush(&mut self) -> io::Result<()> {
        self.file.write_all(&self.waiting)?;
        self.waiting.clear();
        Ok(())
    }
}

/// A number in decimal.
pub struct Decimal {
    digits: [u8; 20],
    start: usize,
}

impl Decimal {
    pub fn new(mut number: u64) -> Decimal {
        let mut decimal = Decimal { digits: [0; 20], start: 20 };
        loop {
            decimal.start -= 1;
            decimal.digits[decimal.start] = b'0' + (number % 10) as u8;
            number /= 10;
            if number == 0 {
                return decimal;
            }
        }
    }

    pub fn text(&self) -> &[u8] {
        &self.digits[self.start..]
    }
}
