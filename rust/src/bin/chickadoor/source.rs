//! Where a text comes from: files and standard input, line by line.
use std::ffi::{OsStr, OsString};
use std::fmt;
use std::io::Read;

/// A line of a file, or of standard input, which has no name.
#[derive(Clone, Debug)]
pub struct Place {
    pub file: Option<String>,
    pub line: usize,
}

/// A named text.
pub struct Source {
    file: Option<String>,
    bytes: Vec<u8>,
}

impl fmt::Display for Place {
    fn fmt(&self, f: &mut fmt::Formatter<'_>) -> fmt::Result {
        match &self.file {
            Some(file) => write!(f, "{}, line {}", file, self.line),
            None => write!(f, "line {}", self.line),
        }
    }
}

/// The texts of these names, or of standard input if there are none.
pub fn read(names: &[OsString]) -> Result<Vec<Source>, String> {
    if names.is_empty() {
        return Ok(vec![standard_input()?]);
    }
    names.iter().map(|name| source(name)).collect()
}

fn source(name: &OsStr) -> Result<Source, String> {
    let shown = name.to_string_lossy();
    if shown == "-" {
        return standard_input();
    }
    if shown.starts_with('-') {
        return Err(format!("expected names of files, and found the option `{}`: `chickadoor --help` says how it is used", shown));
    }
    let bytes = std::fs::read(name).map_err(|error| format!("{} cannot be read: {}", shown, error))?;
    Ok(Source { file: Some(shown.into_owned()), bytes })
}

fn standard_input() -> Result<Source, String> {
    let mut bytes = Vec::new();
    std::io::stdin().read_to_end(&mut bytes).map_err(|error| format!("standard input cannot be read: {}", error))?;
    Ok(Source { file: None, bytes })
}

impl Source {
    /// Hands on each line that says something, without its comment, with its place.
    pub fn each_line(&self, mut read: impl FnMut(&Place, &str) -> Result<(), String>) -> Result<(), String> {
        // Some editors put a mark before a text in UTF-8.
        let bytes = self.bytes.strip_prefix(b"\xef\xbb\xbf").unwrap_or(&self.bytes);
        for (number, line) in bytes.split(|byte| *byte == b'\n').enumerate() {
            let place = Place { file: self.file.clone(), line: number + 1 };
            let told = line.split(|byte| *byte == b'#').next().unwrap_or(line);
            let result = words(told).and_then(|text| if text.is_empty() { Ok(()) } else { read(&place, text) });
            result.map_err(|message| format!("{}: {}", place, message))?;
        }
        Ok(())
    }
}

/// The text of a line, if it is one: bytes that are no characters, and characters that steer a terminal, are not.
fn words(line: &[u8]) -> Result<&str, String> {
    let found =
        |place: usize| format!("expected text in ASCII or UTF-8, and found the byte {:#04x}", line.get(place).copied().unwrap_or(0));
    let text = std::str::from_utf8(line).map_err(|error| found(error.valid_up_to()))?.trim();
    match line.iter().position(|byte| byte.is_ascii_control() && !byte.is_ascii_whitespace()) {
        Some(place) => Err(found(place)),
        None => Ok(text),
    }
}
