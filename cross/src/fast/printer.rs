//! Bytes and numbers put behind each other at the front of a slice that holds them all.

pub struct Printer<'a> {
    rest: &'a mut [u8],
}

impl Printer<'_> {
    pub fn new(text: &mut [u8]) -> Printer<'_> {
        Printer { rest: text }
    }

    /// How many bytes have not been put.
    pub fn left(&self) -> usize {
        self.rest.len()
    }

    #[inline(always)]
    pub fn put<const COUNT: usize>(&mut self, bytes: &[u8; COUNT]) {
        let (front, rest) = std::mem::take(&mut self.rest).split_first_chunk_mut().expect("the slice holds all that is put");
        *front = *bytes;
        self.rest = rest;
    }

    #[inline(always)]
    pub fn number(&mut self, number: u32) {
        let digit = |unit: u32| b'0' + (number / unit % 10) as u8;
        match number {
            0..=9 => self.put(&[digit(1)]),
            10..=99 => self.put(&[digit(10), digit(1)]),
            100..=999 => self.put(&[digit(100), digit(10), digit(1)]),
            1_000..=9_999 => self.put(&[digit(1_000), digit(100), digit(10), digit(1)]),
            _ => self.large_number(number),
        }
    }

    /// A number of five digits or more: levels and bounds can have them, and few do.
    #[inline(never)]
    fn large_number(&mut self, number: u32) {
        for unit in [1_000_000_000, 100_000_000, 10_000_000, 1_000_000, 100_000, 10_000, 1_000, 100, 10, 1] {
            if number >= unit {
                self.put(&[b'0' + (number / unit % 10) as u8]);
            }
        }
    }

    #[inline(always)]
    pub fn signed(&mut self, number: i32) {
        if number < 0 {
            self.put(b"-");
        }
        self.number(number.unsigned_abs());
    }
}

/// How many digits a number of up to seven has.
#[inline(always)]
pub fn digits(number: u32) -> usize {
    let longer = [9, 99, 999, 9_999, 99_999, 999_999].map(|most| usize::from(number > most));
    1 + longer.iter().sum::<usize>()
}

/// The same with the minus of a number that has one.
#[inline(always)]
pub fn signed_digits(number: i32) -> usize {
    digits(number.unsigned_abs()) + usize::from(number < 0)
}
