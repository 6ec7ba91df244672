//! Reads the words of one case line: separated by one blank each, numbers in
//! decimal. Everything else is an error in words.

use crate::rules::{ColourLabel, Pixel, Setting, Size};
use std::str::{FromStr, Split};

pub struct Words<'a> {
    rest: Split<'a, char>,
}

impl<'a> Words<'a> {
    pub fn of(line: &'a str) -> Words<'a> {
        Words {
            rest: line.split(' '),
        }
    }

    pub fn word(&mut self) -> Result<&'a str, String> {
        self.rest
            .next()
            .ok_or_else(|| String::from("the line ends too early"))
    }

    /// A decimal number that the wanted type can hold; no sign is taken.
    pub fn number<N: FromStr>(&mut self) -> Result<N, String> {
        let word = self.word()?;
        if !word.bytes().all(|byte| byte.is_ascii_digit()) {
            return Err(format!("'{}' is not a decimal number", word));
        }
        word.parse()
            .map_err(|_| format!("'{}' is not a number in range", word))
    }

    fn flag(&mut self) -> Result<bool, String> {
        match self.word()? {
            "0" => Ok(false),
            "1" => Ok(true),
            other => Err(format!("'{}' is not a flag, 0 or 1", other)),
        }
    }

    /// Nine words: E P T M DR DY DC FR FY. Struct fields are evaluated in the
    /// order written here.
    pub fn setting(&mut self) -> Result<Setting, String> {
        Ok(Setting {
            edition: self.number()?,
            primaries: self.number()?,
            transfer: self.number()?,
            matrix: self.number()?,
            rgb_depth: self.number()?,
            y_depth: self.number()?,
            c_depth: self.number()?,
            rgb_full: self.flag()?,
            ycc_full: self.flag()?,
        })
    }

    pub fn pixel(&mut self) -> Result<Pixel, String> {
        Ok([self.number()?, self.number()?, self.number()?])
    }

    pub fn size(&mut self) -> Result<Size, String> {
        Ok(Size {
            width: self.number()?,
            height: self.number()?,
        })
    }

    /// Three planes, each as its length and then its elements.
    pub fn planes(&mut self) -> Result<[Vec<u16>; 3], String> {
        Ok([self.plane()?, self.plane()?, self.plane()?])
    }

    fn plane(&mut self) -> Result<Vec<u16>, String> {
        let length: usize = self.number()?;
        (0..length).map(|_| self.number()).collect()
    }

    /// Bytes, as their count and then each of them.
    pub fn bytes(&mut self) -> Result<Vec<u8>, String> {
        let length: usize = self.number()?;
        (0..length).map(|_| self.number()).collect()
    }

    /// Four words: P T M F.
    pub fn colour_label(&mut self) -> Result<ColourLabel, String> {
        Ok(ColourLabel {
            primaries: self.number()?,
            transfer: self.number()?,
            matrix: self.number()?,
            full: self.flag()?,
        })
    }

    pub fn end(mut self) -> Result<(), String> {
        match self.rest.next() {
            None => Ok(()),
            Some(word) => Err(format!("'{}' is one word too many", word)),
        }
    }
}
