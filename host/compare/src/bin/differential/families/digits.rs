//! The inputs of a family that is taken whole, by their numbers.

/// A number taken apart, digit by digit.
pub struct Digits(pub u64);

impl Digits {
    pub fn below(&mut self, end: u64) -> u64 {
        let digit = self.0 % end;
        self.0 /= end;
        digit
    }

    pub fn pick<T: Copy>(&mut self, from: &[T]) -> T {
        from[self.below(from.len() as u64) as usize]
    }

    /// One of the numbers below `end`, or of some more.
    pub fn below_or(&mut self, end: u64, more: &[u32]) -> u32 {
        let digit = self.below(end + more.len() as u64);
        match digit.checked_sub(end) {
            None => digit as u32,
            Some(number) => more[number as usize],
        }
    }
}

/// Inputs of one kind: how many there are, and the one of a number.
pub type Kind<T> = (u64, fn(&mut Digits) -> T);

/// The input of a number, which is below the number of all.
pub fn of_number<T>(mut number: u64, kinds: &[Kind<T>]) -> T {
    for (count, make) in kinds {
        if number < *count {
            return make(&mut Digits(number));
        }
        number -= count;
    }
    unreachable!("an input's number is below the total")
}
