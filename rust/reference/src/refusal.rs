/// Number and place (9.5).
#[derive(Clone, Copy, Debug, PartialEq, Eq)]
pub struct Refusal {
    pub number: u8,
    pub place: u32,
}

impl Refusal {
    pub fn new(number: u8, place: usize) -> Self {
        Refusal { number, place: place as u32 }
    }

    pub fn code(self) -> u64 {
        32 * u64::from(self.place) + u64::from(self.number)
    }
}

/// 9.4: 0 for success, else 32 × place + number.
pub fn code<T>(answer: &Result<T, Refusal>) -> u64 {
    match answer {
        Ok(_) => 0,
        Err(refusal) => refusal.code(),
    }
}
