// The differences that docs/DIFFERENCES.md lists, recognised exactly: what the given Rust must give where it differs.
use crate::model::decoder::{Decoder, Filter};
use crate::model::encoder::Answered;

// The lags from which case 5 of the given Rust at 10 ms rereads its own fade samples.
pub fn reread_from(hz: u32) -> usize {
    match hz {
        8000 => 139,
        16000 => 279,
        24000 => 418,
        32000 => 557,
        _ => 835,
    }
}

// Whether a frame with this filter is case 5 at 10 ms from such a lag up.
pub fn rereads(before: &Decoder, filter: &Option<Filter>) -> bool {
    let config = &before.config;
    let far = |f: &Filter| f.whole >= reread_from(config.rate.hz);
    config.ten_ms && before.case(filter) == 5 && filter.as_ref().is_some_and(far)
}

// Case 5 at 10 ms as the given Rust has it: where G reads the output of two frames before, and the
// fade has already been written over that sample, it gets z of this frame.
pub fn reread_frame(before: &Decoder, filter: &Filter, samples: &[f32]) -> Vec<f32> {
    let (frame, fade) = (samples.len() as i32, before.config.rate.fade as i32);
    let mut now = before.clone();
    samples.iter().for_each(|s| now.x.push(*s));
    let mut faded = now.clone();
    faded.fade_out(before.previous.as_ref().expect("case 5 follows an active frame"));
    let z = faded.y;
    for n in 0..frame {
        let fading = n < fade;
        let x = |i: i32| if fading { z.at(i) } else { now.x.at(i) };
        let y = |i: i32| {
            let same_place = i + 2 * frame;
            if fading && n <= same_place && same_place < fade {
                z.at(same_place)
            } else {
                now.y.at(i)
            }
        };
        let f = filter.at(n as usize, x, y);
        let f = if fading { f * (n as f32 / fade as f32) } else { f };
        let out = x(n) - f;
        now.y.push(out);
    }
    now.y.frame().to_vec()
}

// Whether a record's index is in the middle range, where the given Rust subtracts 126 and we add it.
pub fn middle_range(ours: &Answered) -> bool {
    ours.pitch.is_some() && (127..=156).contains(&ours.whole)
}

// Whether the given Rust returns an active flag with pitch absent.
pub fn absent_active(ours: &Answered) -> bool {
    ours.pitch.is_none() && ours.activation
}

// The record of the given Rust: pitch present, index (0 where absent), active flag, bits.
pub fn given_record(ours: &Answered) -> (bool, usize, bool, usize) {
    let index = ours.pitch.map_or(0, |p| p.index as usize);
    let index = if middle_range(ours) { index - 252 } else { index };
    (
        ours.pitch.is_some(),
        index,
        ours.activation,
        ours.nbits_ltpf as usize,
    )
}
