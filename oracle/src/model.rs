// An independent reading of docs/SCOPE.md, as plain as can be: no ring, no speed, no sharing.
pub mod decoder;
pub mod encoder;
pub mod lag;
pub mod rates;

// The answer numbers of the scope that a start or a frame can give.
pub mod answer {
    pub const DONE: u8 = 0;
    pub const UNKNOWN_RATE: u8 = 1;
    pub const UNKNOWN_DURATION: u8 = 2;
    pub const COEFFICIENT_COUNT: u8 = 3;
    pub const COEFFICIENT_NOT_FINITE: u8 = 4;
    pub const SAMPLE_COUNT: u8 = 5;
    pub const TOO_MANY_BITS: u8 = 6;
    pub const INDEX_TOO_LARGE: u8 = 7;
    pub const SAMPLE_OUT_OF_RANGE: u8 = 8;
    pub const UNFIT_STATE: u8 = 9;
    pub const EARS_DIFFER: u8 = 13;
}

// "nbits above 3,200" is refused.
pub const MOST_BITS: u32 = 3200;

// A pitch record: absent, or present with an index and an active mark.
#[derive(Clone, Copy, PartialEq, Eq, Debug)]
pub struct Present {
    pub index: u32,
    pub active: bool,
}

pub type Pitch = Option<Present>;

pub const fn present(index: u32, active: bool) -> Pitch {
    Some(Present { index, active })
}

// A signal around a frame: sample 0 is the frame's first, negatives are history.
#[derive(Clone)]
pub struct Signal {
    samples: Vec<f32>,
    past: usize,
}

impl Signal {
    // A history of zeros.
    pub fn zero(past: usize) -> Signal {
        Signal {
            samples: vec![0.0; past],
            past,
        }
    }

    pub fn at(&self, n: i32) -> f32 {
        self.samples[(self.past as i32 + n) as usize]
    }

    // Adds the next sample of the frame.
    pub fn push(&mut self, sample: f32) {
        self.samples.push(sample);
    }

    // The frame's samples.
    pub fn frame(&self) -> &[f32] {
        &self.samples[self.past..]
    }

    // Ends the frame: its samples become history, the oldest are forgotten.
    pub fn end_frame(&mut self) {
        let surplus = self.samples.len() - self.past;
        self.samples.drain(..surplus);
    }
}
