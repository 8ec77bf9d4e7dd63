// What goes into the calls: which rates, pitch marks, bits and signals, from a seed.
use crate::decoder_judge::DecoderJudge;
use crate::encoder_judge::EncoderJudge;
use crate::model::lag::{gain, lag};
use crate::model::rates::{Config, DURATIONS};
use crate::model::{present, Pitch};
use crate::random::Random;
use crate::set::Set;
use crate::signals::{Kind, Voice, KINDS, LAGS_AT_ENDS};
use std::io::Write;

pub struct Plan {
    pub seed: u64,
    pub runs: usize,
    pub frames: usize,
    pub rates: Vec<u32>,
    // None: a random set for each run, and now and then for a frame.
    pub set: Option<Set>,
}

// At and beside the ends of the three ranges, the farthest first.
const INDICES_AT_ENDS: [u32; 12] = [511, 510, 0, 379, 380, 439, 440, 1, 2, 381, 438, 441];

// The cases that the first run of each rate and duration goes through.
const SCRIPT: [u8; 7] = [2, 4, 5, 3, 1, 2, 5];

impl Plan {
    // The rate and duration of a run: all of them in turn.
    pub fn config(&self, run: usize) -> (u32, u32) {
        let turn = run % (2 * self.rates.len());
        (self.rates[turn / 2], DURATIONS[turn % 2])
    }

    // Whether a run is the first of its rate and duration, which goes by a script.
    pub fn scripted(&self, run: usize) -> bool {
        run < 2 * self.rates.len()
    }

    pub fn set(&self, random: &mut Random) -> Set {
        self.set.clone().unwrap_or_else(|| Set::random(random))
    }
}

// The fewest and the most bits of a gain row, 4 being off.
fn bits_of_row(config: &Config, row: usize) -> (u32, u32) {
    let in_row = |n: &u32| gain(config, *n).map_or(4, |g| g.1) == row;
    let least = (0..=3200).find(in_row).expect("every row has bits");
    let most = (0..=3200).rev().find(in_row).expect("every row has bits");
    (least, most)
}

// Bits of a gain row, at its ends half of the time.
pub fn bits(random: &mut Random, config: &Config, row: usize) -> u32 {
    let (least, most) = bits_of_row(config, row);
    match random.below(4) {
        0 => least,
        1 => most,
        _ => least + random.below((most - least + 1) as usize) as u32,
    }
}

pub fn voice(random: &mut Random, r: u32) -> Voice {
    let kind = random.pick(&KINDS);
    Voice::new(random, kind, r)
}

// An index at an end of its range, far off, beside the one before, or any.
fn any_index(random: &mut Random, before: u32) -> u32 {
    match random.below(6) {
        0 | 1 => random.pick(&INDICES_AT_ENDS),
        2 => 500 + random.below(12) as u32,
        3 => (before + random.below(5) as u32).saturating_sub(2).min(511),
        _ => random.below(512) as u32,
    }
}

// A drawn pitch record: absent, inactive, active as before, or active elsewhere.
pub fn any_pitch(random: &mut Random, before: u32) -> Pitch {
    let index = any_index(random, before);
    match random.below(8) {
        0 => None,
        1 => present(index, false),
        2 | 3 => present(before, true),
        _ => present(index, true),
    }
}

// The record that gives the case asked for, with the range ends in turn. The last case 5 goes to the
// farthest lag, where the given Rust differs at 10 ms.
pub fn scripted_pitch(case: u8, turn: usize, r: u32, before: u32) -> Pitch {
    let ends = |k: usize| INDICES_AT_ENDS[(turn + k) % INDICES_AT_ENDS.len()];
    match case {
        1 => None,
        3 => present(before, false),
        4 => present(before, true),
        _ => (0..)
            .map(ends)
            .find(|i| lag(r, *i) != lag(r, before))
            .and_then(|i| present(i, true)),
    }
}

pub fn run_decoder<W: Write>(plan: &Plan, judge: &mut DecoderJudge<W>) {
    let mut random = Random::new(plan.seed);
    for run in 0..plan.runs {
        let (hz, duration) = plan.config(run);
        judge.start(hz, duration);
        judge.lend(&plan.set(&mut random));
        let config = judge.model.config;
        let mut voice_now = voice(&mut random, config.rate.r);
        let mut index = random.below(512) as u32;
        for frame in 0..plan.frames {
            if random.one_in(5) {
                voice_now = voice(&mut random, config.rate.r);
            }
            let (pitch, row) = match SCRIPT.get(frame) {
                Some(case) if plan.scripted(run) => {
                    let last = frame + 1 == SCRIPT.len();
                    let turn = if last { 0 } else { 5 * run + frame };
                    let pitch = scripted_pitch(*case, turn, config.rate.r, index);
                    (pitch, (run + frame) % 5)
                }
                _ => {
                    disturb_decoder(plan, judge, &mut random);
                    (any_pitch(&mut random, index), random.below(5))
                }
            };
            index = pitch.map_or(index, |p| p.index);
            let nbits = bits(&mut random, &config, row);
            judge.frame(pitch, nbits, &voice_now.floats(&mut random, config.frame()));
        }
    }
}

// Now and then a loss mark, a frame to refuse, or another set: a good frame follows each.
fn disturb_decoder<W: Write>(plan: &Plan, judge: &mut DecoderJudge<W>, random: &mut Random) {
    let frame = judge.model.config.frame();
    match random.below(48) {
        0 => judge.loss_mark(),
        1 => drop(judge.frame(None, 3201 + random.bits() as u32 % 1000, &vec![1.0; frame])),
        2 => drop(judge.frame(present(512, true), 100, &vec![1.0; frame])),
        3 => drop(judge.frame(None, 100, &vec![f32::NAN; frame])),
        4..=8 if plan.set.is_none() => judge.lend(&Set::random(random)),
        _ => {}
    }
}

// The voices of an encoder's scripted run: two lags at range ends, each for long enough to activate,
// then a high tone, then any other.
fn scripted_voice(random: &mut Random, run: usize, frame: usize, r: u32) -> Option<Voice> {
    let lag = |k: usize| LAGS_AT_ENDS[(2 * run + k) % LAGS_AT_ENDS.len()];
    match frame {
        0 => Some(Voice::with_lag(random, lag(0), r)),
        7 => Some(Voice::with_lag(random, lag(1), r)),
        12 => Some(Voice::new(random, Kind::HighTone, r)),
        14 => Some(voice(random, r)),
        _ => None,
    }
}

// A frame's voice in a drawn run: it changes now and then, mostly to one with a pitch. Silence lasts,
// until the energies underflow.
fn drawn_voice(random: &mut Random, before: Kind, r: u32) -> Option<Voice> {
    if !random.one_in(if before == Kind::Silent { 40 } else { 6 }) {
        return None;
    }
    Some(match random.below(8) {
        0 | 1 => {
            let lag = random.pick(&LAGS_AT_ENDS);
            Voice::with_lag(random, lag, r)
        }
        2 => Voice::new(random, Kind::HighTone, r),
        3..=5 => Voice::new(random, Kind::Speech, r),
        6 if random.one_in(3) => Voice::new(random, Kind::Silent, r),
        _ => voice(random, r),
    })
}

pub fn run_encoder<W: Write>(plan: &Plan, judge: &mut EncoderJudge<W>) {
    let mut random = Random::new(plan.seed);
    for run in 0..plan.runs {
        let (hz, duration) = plan.config(run);
        judge.start(hz, duration);
        judge.lend(&plan.set(&mut random));
        let config = judge.model.config;
        let mut voice_now = voice(&mut random, config.rate.r);
        for frame in 0..plan.frames {
            let next = if plan.scripted(run) {
                scripted_voice(&mut random, run, frame, config.rate.r)
            } else {
                disturb_encoder(plan, judge, &mut random);
                drawn_voice(&mut random, voice_now.kind, config.rate.r)
            };
            voice_now = next.unwrap_or(voice_now);
            let row = random.pick(&[0, 0, 1, 2, 3, 3, 3, 4]);
            let nbits = bits(&mut random, &config, row);
            let near_nyquist = random.one_in(12);
            judge.frame(
                near_nyquist,
                nbits,
                &voice_now.integers(&mut random, config.frame()),
            );
        }
    }
}

// Now and then a frame to refuse, or another set: a good frame follows each.
fn disturb_encoder<W: Write>(plan: &Plan, judge: &mut EncoderJudge<W>, random: &mut Random) {
    let frame = judge.model.config.frame();
    match random.below(48) {
        0 => drop(judge.frame(false, 3201 + random.bits() as u32 % 1000, &vec![1000; frame])),
        1 => drop(judge.frame(false, 100, &vec![1000; frame + 1])),
        2..=6 if plan.set.is_none() => judge.lend(&Set::random(random)),
        _ => {}
    }
}
