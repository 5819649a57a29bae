//! A line of text that is built in place: words and numbers.

/// The bytes at the front of a place are its text.
pub struct Line<'a> {
    text: &'a mut [u8],
    len: usize,
}

impl<'a> Line<'a> {
    #[inline]
    pub fn new(place: &'a mut [u8]) -> Line<'a> {
        Line { text: place, len: 0 }
    }

    /// How many bytes it has.
    #[inline]
    pub fn len(&self) -> usize {
        self.len
    }

    #[inline]
    pub fn put(&mut self, text: &[u8]) {
        self.text[self.len..self.len + text.len()].copy_from_slice(text);
        self.len += text.len();
    }

    #[inline]
    pub fn decimal(&mut self, number: u64) {
        self.len += put_decimal(&mut self.text[self.len..], number);
    }

    /// The eight digits of a number.
    #[inline]
    pub fn hexadecimal(&mut self, number: u32) {
        for byte in number.to_be_bytes() {
            self.put(&HEXADECIMAL[usize::from(byte)]);
        }
    }

    /// A number in decimal, with a minus sign before one below zero.
    #[inline]
    pub fn signed(&mut self, number: i128) {
        match u64::try_from(number) {
            Ok(number) => self.decimal(number),
            Err(_) => self.wide(number),
        }
    }

    #[cold]
    fn wide(&mut self, number: i128) {
        self.put(number.to_string().as_bytes());
    }
}

/// The two digits of each byte.
static HEXADECIMAL: [[u8; 2]; 256] = {
    let digits = b"0123456789abcdef";
    let mut pairs = [[0; 2]; 256];
    let mut byte = 0;
    while byte < 256 {
        pairs[byte] = [digits[byte / 16], digits[byte % 16]];
        byte += 1;
    }
    pairs
};

/// The two digits of each number below 100.
static PAIRS: [[u8; 2]; 100] = {
    let mut pairs = [[0; 2]; 100];
    let mut number = 0;
    while number < 100 {
        pairs[number] = [b'0' + number as u8 / 10, b'0' + number as u8 % 10];
        number += 1;
    }
    pairs
};

/// Nothing, and then the powers of ten from ten on.
static POWERS_OF_TEN: [u64; 20] = {
    let mut powers = [0; 20];
    let mut power = 1;
    let mut exponent = 1;
    while exponent < 20 {
        power *= 10;
        powers[exponent] = power;
        exponent += 1;
    }
    powers
};

/// Puts a number in decimal at the front of the place, and returns how many digits it has.
#[inline]
fn put_decimal(place: &mut [u8], number: u64) -> usize {
    // So many digits that its highest bit makes sure of, less one: 1233 / 4096 is just above the logarithm of two.
    let sure = (64 - (number | 1).leading_zeros() as usize) * 1233 >> 12;
    let count = sure + usize::from(number >= POWERS_OF_TEN[sure]);
    let mut end = count;
    let mut left = number;
    while left >= 10_000 {
        let four = (left % 10_000) as usize;
        left /= 10_000;
        place[end - 2..end].copy_from_slice(&PAIRS[four % 100]);
        place[end - 4..end - 2].copy_from_slice(&PAIRS[four / 100]);
        end -= 4;
    }
    let mut left = left as usize;
    if left >= 100 {
        place[end - 2..end].copy_from_slice(&PAIRS[left % 100]);
        left /= 100;
        end -= 2;
    }
    if left >= 10 {
        place[end - 2..end].copy_from_slice(&PAIRS[left]);
    } else {
        place[end - 1] = b'0' + left as u8;
    }
    count
}
