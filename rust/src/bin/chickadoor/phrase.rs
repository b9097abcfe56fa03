//! Phrases between commas, and the numbers in them.

/// A phrase: as it was written, and its words in lower case. A sign = between words stands for nothing.
pub struct Phrase<'a> {
    pub text: &'a str,
    words: Vec<String>,
}

impl<'a> Phrase<'a> {
    pub fn words(&self) -> Vec<&str> {
        self.words.iter().map(String::as_str).collect()
    }
}

/// What a line has told so far: nothing may be told twice.
#[derive(Default)]
pub struct Once(Vec<String>);

impl Once {
    /// Notes that a phrase told something.
    pub fn told(&mut self, what: &str, by: &Phrase) -> Result<(), String> {
        if self.has(what) {
            return Err(format!("{} is told twice, here by `{}`", what, by.text));
        }
        self.0.push(what.to_string());
        Ok(())
    }

    pub fn has(&self, what: &str) -> bool {
        self.0.iter().any(|told| told == what)
    }
}

/// Hands each phrase of a line on, up to the first that cannot be read.
pub fn each(text: &str, mut read: impl FnMut(&Phrase) -> Result<(), String>) -> Result<(), String> {
    for part in text.split(',') {
        let words: Vec<String> = part.replace('=', " ").split_whitespace().map(str::to_lowercase).collect();
        if !words.is_empty() {
            read(&Phrase { text: part.trim(), words })?;
        }
    }
    Ok(())
}

/// A number in decimal, or in hexadecimal behind 0x.
pub fn number(word: &str) -> Result<u64, String> {
    let plain = word.replace('_', "");
    let (digits, radix) = match plain.strip_prefix("0x").or_else(|| plain.strip_prefix("0X")) {
        Some(digits) => (digits, 16),
        None => (plain.as_str(), 10),
    };
    // A sign is no digit, though the standard library takes one.
    let all_digits = digits.chars().all(|digit| digit.is_digit(radix));
    let read = u64::from_str_radix(digits, radix).ok().filter(|_| all_digits);
    read.ok_or_else(|| format!("expected a number below 2^64, as 7 or 0x40000000, and found `{}`", word))
}

pub fn small(word: &str, most: u8) -> Result<u8, String> {
    number_up_to(word, most.into()).map(|value| value as u8)
}

pub fn half(word: &str) -> Result<u16, String> {
    number_up_to(word, u16::MAX.into()).map(|value| value as u16)
}

fn number_up_to(word: &str, most: u64) -> Result<u64, String> {
    let value = number(word)?;
    if value > most {
        return Err(format!("expected a number up to {}, and found `{}`", most, word));
    }
    Ok(value)
}
