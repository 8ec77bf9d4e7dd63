// What is new in a frame of both ears: who is refused, and with which number. Written from the rules of the
// call alone; what an ear that is not refused gets is the decoder's affair, on its own samples.
use crate::model::decoder::{Decoder, SETTLED_LIMIT};
use crate::model::{answer, Pitch, MOST_BITS};

pub const LEFT: usize = 0;
pub const RIGHT: usize = 1;

// What both ears are lent, and the length of the buffer that holds the samples of both.
pub struct Shared<'a> {
    pub num: &'a [f32],
    pub den: &'a [f32],
    pub nbits: u32,
    pub count: usize,
}

// What an ear has for itself. The rate and duration that its state names are made up now and then.
pub struct Own<'a> {
    pub state: &'a Decoder,
    pub named: (u32, u32),
    pub pitch: Pitch,
    pub samples: &'a [f32],
}

// Left and right in turn: the left ear's samples are the first, the third and so on.
pub fn parted(buffer: &[f32]) -> [Vec<f32>; 2] {
    [LEFT, RIGHT].map(|ear| buffer.iter().skip(ear).step_by(2).copied().collect())
}

// The buffer of the two ears' samples. Of an odd number the left ear has one more.
pub fn in_turn(parts: &[Vec<f32>; 2]) -> Vec<f32> {
    let count = parts[LEFT].len() + parts[RIGHT].len();
    (0..count).map(|n| parts[n % 2][n / 2]).collect()
}

// The rate and the duration with which a state was started.
pub fn started_names(state: &Decoder) -> (u32, u32) {
    (state.config.rate.hz, state.config.duration())
}

// Whether a state is unfit: it names what it was not started with (of made-up names the rate or the
// duration is not in the table), or its run is one that it cannot have.
pub fn unfit(state: &Decoder, named: (u32, u32)) -> bool {
    named != started_names(state)
        || state.run > SETTLED_LIMIT
        || state.run == SETTLED_LIMIT && !state.settled
        || state.run > 0 && state.previous.is_some()
}

// First 13 for both where the names differ, fit or not; then each ear by itself.
pub fn answers(shared: &Shared, ears: [Own; 2]) -> [u8; 2] {
    if ears[LEFT].named != ears[RIGHT].named {
        return [answer::EARS_DIFFER; 2];
    }
    ears.map(|own| own_answer(shared, &own))
}

// 9, then what is shared: 3, 4, 5 by the whole buffer, 6; and last the ear's own 7, 8.
fn own_answer(shared: &Shared, own: &Own) -> u8 {
    if unfit(own.state, own.named) {
        answer::UNFIT_STATE
    } else if (shared.num.len(), shared.den.len()) != own.state.config.lent_lengths() {
        answer::COEFFICIENT_COUNT
    } else if !shared.num.iter().chain(shared.den).all(|c| c.is_finite()) {
        answer::COEFFICIENT_NOT_FINITE
    } else if shared.count != 2 * own.state.config.frame() {
        answer::SAMPLE_COUNT
    } else if shared.nbits > MOST_BITS {
        answer::TOO_MANY_BITS
    } else if own.pitch.is_some_and(|p| p.index > 511) {
        answer::INDEX_TOO_LARGE
    } else if !own.samples.iter().all(|s| s.abs() <= 1048576.0) {
        answer::SAMPLE_OUT_OF_RANGE
    } else {
        answer::DONE
    }
}
