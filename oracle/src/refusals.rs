// Refusal and loss mark vectors, made from the scope's tables: every number, its order against the others,
// and after each refused call a good one that must go on as if the refused one had not been.
use crate::decoder_judge::DecoderJudge;
use crate::encoder_judge::EncoderJudge;
use crate::model::rates::{DURATIONS, SEVEN_POINT_FIVE_MS, TEN_MS};
use crate::model::{present, Pitch};
use crate::set::Set;
use std::io::Write;

// A rate, a duration, and what a start with them must answer.
pub const REFUSED_STARTS: [(u32, u32, u8); 8] = [
    (0, TEN_MS, 1),
    (44000, SEVEN_POINT_FIVE_MS, 1),
    (96000, TEN_MS, 1),
    (u32::MAX, 0, 1),
    (8001, 10, 1),
    (8000, 0, 2),
    (44100, 7499, 2),
    (48000, u32::MAX, 2),
];

// The call that a defect spoils.
#[derive(Clone)]
struct DecoderCall {
    num: Vec<f32>,
    den: Vec<f32>,
    pitch: Pitch,
    nbits: u32,
    samples: Vec<f32>,
}

// Takes the last entry away.
pub fn shorten<T>(values: &mut Vec<T>) {
    values.truncate(values.len() - 1);
}

type DecoderDefect = (u8, fn(&mut DecoderCall));

const DECODER_DEFECTS: [DecoderDefect; 23] = [
    (3, |c| shorten(&mut c.num)),
    (3, |c| c.den.push(0.0)),
    (3, |c| c.num.clear()),
    (3, |c| c.den.clear()),
    (3, |c| std::mem::swap(&mut c.num, &mut c.den)),
    (4, |c| c.num[0] = f32::INFINITY),
    (4, |c| *c.num.last_mut().unwrap() = f32::NAN),
    (4, |c| *c.den.last_mut().unwrap() = f32::NEG_INFINITY),
    (5, |c| shorten(&mut c.samples)),
    (5, |c| c.samples.push(0.0)),
    (5, |c| c.samples.truncate(1)),
    (5, |c| c.samples.clear()),
    (6, |c| c.nbits = 3201),
    (6, |c| c.nbits = u32::MAX),
    (7, |c| c.pitch = present(512, true)),
    (7, |c| c.pitch = present(512, false)),
    (7, |c| c.pitch = present(u32::MAX, true)),
    (8, |c| c.samples[0] = f32::NAN),
    (8, |c| *c.samples.last_mut().unwrap() = f32::INFINITY),
    (8, |c| c.samples[1] = f32::NEG_INFINITY),
    (8, |c| c.samples[2] = 1048576.125),
    (8, |c| c.samples[3] = -1048576.125),
    (8, |c| c.samples[4] = f32::MAX),
];

// The first defect of each number, for the pairs.
fn first_defects<T: Copy>(defects: &[(u8, T)]) -> Vec<(u8, T)> {
    let mut first: Vec<(u8, T)> = vec![];
    for defect in defects {
        if first.iter().all(|f| f.0 != defect.0) {
            first.push(*defect);
        }
    }
    first
}

// All defects alone, then for each pair of numbers a call that deserves both.
fn spoilings<T: Copy>(defects: &[(u8, T)]) -> Vec<(u8, Vec<T>)> {
    let first = first_defects(defects);
    let alone = defects.iter().map(|d| (d.0, vec![d.1]));
    let pairs = first
        .iter()
        .flat_map(|a| first.iter().filter(|b| a.0 < b.0).map(|b| (a.0, vec![b.1, a.1])));
    alone.chain(pairs).collect()
}

// A frame of ramps and signs that no two calls share.
pub fn ramp(turn: usize, count: usize) -> Vec<f32> {
    (0..count)
        .map(|n| ((n * 37 + turn * 101) % 211) as f32 * 8.5 - 700.0)
        .collect()
}

// The pitch records of the good frames in turn: every case comes up.
pub const GOOD: [Pitch; 7] = [
    present(60, true),
    present(60, true),
    present(511, true),
    present(511, false),
    None,
    present(0, true),
    present(380, true),
];

fn good_decoder_call(set: &Set, fs_ind: usize, turn: usize, frame: usize) -> DecoderCall {
    DecoderCall {
        num: set.numerators[fs_ind].clone(),
        den: set.denominators[fs_ind].clone(),
        pitch: GOOD[turn % GOOD.len()],
        nbits: 100 + 80 * (turn as u32 % 8),
        samples: ramp(turn, frame),
    }
}

// Makes a call and insists on its answer, which the scope alone gives.
fn decoder_call<W: Write>(judge: &mut DecoderJudge<W>, call: &DecoderCall, answer: u8) {
    judge.lend_slices(&call.num, &call.den);
    assert_eq!(judge.frame(call.pitch, call.nbits, &call.samples), answer);
}

// Every way to spoil a call, each followed by a good frame.
fn spoiled_decoder_calls<W: Write>(judge: &mut DecoderJudge<W>, set: &Set) {
    judge.start(8000, SEVEN_POINT_FIVE_MS);
    set.install();
    for (turn, (answer, defects)) in spoilings(&DECODER_DEFECTS).iter().enumerate() {
        let mut spoiled = good_decoder_call(set, 0, turn + 1, 60);
        defects.iter().for_each(|defect| defect(&mut spoiled));
        decoder_call(judge, &spoiled, *answer);
        decoder_call(judge, &good_decoder_call(set, 0, turn, 60), 0);
    }
}

// At 44100 the lent rows are those of 48000, whole: shorter ones are refused, and each entry must be finite.
fn lent_rows_of_44100<W: Write>(judge: &mut DecoderJudge<W>, set: &Set) {
    judge.start(44100, SEVEN_POINT_FIVE_MS);
    set.install();
    let good = good_decoder_call(set, 4, 0, 360);
    let mut shorter = good.clone();
    shorter.num.truncate(40);
    shorter.den.truncate(48);
    decoder_call(judge, &shorter, 3);
    let mut spoiled = good.clone();
    spoiled.num[10] = f32::NAN;
    decoder_call(judge, &spoiled, 4);
    let mut spoiled = good.clone();
    spoiled.den[51] = f32::INFINITY;
    decoder_call(judge, &spoiled, 4);
    decoder_call(judge, &good, 0);
}

// The most that is accepted of everything.
fn decoder_limits<W: Write>(judge: &mut DecoderJudge<W>, set: &Set) {
    judge.start(8000, TEN_MS);
    judge.lend(set);
    let mut samples = ramp(3, 80);
    samples[..4].copy_from_slice(&[1048576.0, -1048576.0, -0.0, 1e-45]);
    for nbits in [3200, 559, 0] {
        let pitch = present(511, true);
        assert_eq!(judge.frame(pitch, nbits, &samples), 0);
    }
}

// The settled report: `i` an inactive frame, `a` an active one, `r` a refused one, `l` a loss mark,
// `s` a start, `x` a refused start (after which the frames are those of 48000 Hz, 10 ms).
fn settled<W: Write>(judge: &mut DecoderJudge<W>, set: &Set, duration: u32, calls: &str) {
    judge.start(8000, duration);
    judge.lend(set);
    for (turn, call) in calls.chars().enumerate() {
        let samples = ramp(turn, judge.model.config.frame());
        let inactive = if turn % 2 == 0 { present(7, false) } else { None };
        match call {
            'i' => drop(judge.frame(inactive, 100, &samples)),
            'a' => drop(judge.frame(present(200, true), 100, &samples)),
            'r' => drop(judge.frame(None, 3201, &samples)),
            'l' => judge.loss_mark(),
            's' => drop(judge.start(8000, duration)),
            _ => drop(judge.start(12345, duration)),
        }
        judge.lend(set);
    }
}

pub fn decoder<W: Write>(judge: &mut DecoderJudge<W>, set: &Set) {
    for (hz, duration, answer) in REFUSED_STARTS {
        judge.start(8000, TEN_MS);
        judge.lend(set);
        judge.frame(GOOD[0], 100, &ramp(1, 80));
        assert_eq!(judge.start(hz, duration), answer);
        judge.lend(set);
        assert_eq!(judge.frame(None, 100, &ramp(1, 80)), 5);
    }
    judge.frame(GOOD[0], 100, &vec![0.0; 480]);
    judge.frame(GOOD[1], 100, &ramp(2, 480));
    spoiled_decoder_calls(judge, set);
    lent_rows_of_44100(judge, set);
    decoder_limits(judge, set);
    for duration in DURATIONS {
        settled(judge, set, duration, "iiiiairilriirialiilsiixiii");
    }
}

#[derive(Clone)]
struct EncoderCall {
    slices: [Vec<f32>; 3],
    nbits: u32,
    samples: Vec<i16>,
}

type EncoderDefect = (u8, fn(&mut EncoderCall));

const ENCODER_DEFECTS: [EncoderDefect; 14] = [
    (3, |c| shorten(&mut c.slices[0])),
    (3, |c| c.slices[1].push(0.0)),
    (3, |c| c.slices[2].clear()),
    (3, |c| c.slices.swap(1, 2)),
    (4, |c| c.slices[0][0] = f32::NAN),
    (4, |c| c.slices[1][30] = f32::INFINITY),
    (4, |c| c.slices[2][14] = f32::NEG_INFINITY),
    (4, |c| c.slices[0][238] = f32::INFINITY),
    (5, |c| shorten(&mut c.samples)),
    (5, |c| c.samples.push(0)),
    (5, |c| c.samples.truncate(1)),
    (5, |c| c.samples.clear()),
    (6, |c| c.nbits = 3201),
    (6, |c| c.nbits = u32::MAX),
];

// A frame with a period of 40 samples, so that pitch is present and the filter activates.
fn tone(turn: usize, count: usize) -> Vec<i16> {
    (0..count)
        .map(|n| ((n + turn * count) % 40 * 97 % 41 * 200) as i16 - 4000)
        .collect()
}

fn good_encoder_call(set: &Set, turn: usize, frame: usize) -> EncoderCall {
    EncoderCall {
        slices: [
            set.resampling.clone(),
            set.correlation.clone(),
            set.signal.clone(),
        ],
        nbits: 100,
        samples: tone(turn, frame),
    }
}

fn encoder_call<W: Write>(judge: &mut EncoderJudge<W>, call: &EncoderCall, answer: u8) {
    let [a, b, c] = &call.slices;
    judge.lend_slices([a, b, c]);
    assert_eq!(judge.frame(false, call.nbits, &call.samples).answer, answer);
}

pub fn encoder<W: Write>(judge: &mut EncoderJudge<W>, set: &Set) {
    for (hz, duration, answer) in REFUSED_STARTS {
        judge.start(8000, SEVEN_POINT_FIVE_MS);
        judge.lend(set);
        judge.frame(false, 100, &tone(0, 60));
        assert_eq!(judge.start(hz, duration), answer);
        assert_eq!(judge.frame(false, 100, &[0; 80]).answer, 5);
    }
    judge.frame(false, 100, &[0; 480]);
    judge.frame(false, 100, &tone(0, 480));
    judge.start(8000, TEN_MS);
    set.install();
    for (turn, (answer, defects)) in spoilings(&ENCODER_DEFECTS).iter().enumerate() {
        let mut spoiled = good_encoder_call(set, turn + 1, 80);
        defects.iter().for_each(|defect| defect(&mut spoiled));
        encoder_call(judge, &spoiled, *answer);
        encoder_call(judge, &good_encoder_call(set, turn, 80), 0);
    }
    for nbits in [3200, 559, 560, 0] {
        assert_eq!(judge.frame(false, nbits, &tone(0, 80)).answer, 0);
    }
}
