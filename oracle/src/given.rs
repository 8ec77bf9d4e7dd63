// The given Rust, built unchanged from its own folder, and its two ends behind one small face each.
use crate::common::config::{FrameDuration, Lc3Config};
use crate::model::rates::Config;
use crate::model::Pitch;
use std::panic::{catch_unwind, AssertUnwindSafe};

// What the given files define beyond our use stays unused.
#[allow(dead_code)]
mod files {
    include!(concat!(env!("OUT_DIR"), "/given.rs"));
}
use files::decoder::long_term_post_filter::LongTermPostFilter as DecoderFilter;
use files::decoder::side_info::LongTermPostFilterInfo;
use files::encoder::long_term_post_filter::{LongTermPostFilter as EncoderFilter, LongTermPostFilterResult};
pub use files::SOURCE;

// The rate at which the given Rust judges a rate of ours: 44100 is 48000 throughout, so its 48000 does.
fn judging_rate(hz: u32) -> u32 {
    if hz == 44100 {
        48000
    } else {
        hz
    }
}

// The given Rust's configuration of a rate and a duration of ours, with the rate in Hz that it is to go by.
fn lc3_config(config: &Config, hz: u32) -> Lc3Config {
    Lc3Config {
        fs: hz as usize,
        fs_ind: config.rate.fs_ind as usize,
        n_ms: if config.ten_ms {
            FrameDuration::TenMs
        } else {
            FrameDuration::SevenPointFiveMs
        },
        nf: config.frame(),
    }
}

// A decoder on a buffer that we can reach as well, to put right what a listed difference left there.
pub struct Decoder {
    filter: DecoderFilter<'static>,
    buffer: *mut [f32],
    history: usize,
    frame: usize,
    block: usize,
}

impl Decoder {
    // The judge of a decoder, on a buffer of this value: 0.0 but where uncleared history is to be shown.
    pub fn start(config: &Config, value: f32) -> Decoder {
        Decoder::started(lc3_config(config, judging_rate(config.rate.hz)), value)
    }

    // What the given Rust has under the rate's own name, where that is to be shown.
    pub fn of_its_own(config: &Config) -> Decoder {
        Decoder::started(lc3_config(config, config.rate.hz), 0.0)
    }

    fn started(config: Lc3Config, value: f32) -> Decoder {
        let length = DecoderFilter::calc_working_buffer_length(&config);
        let buffer = Box::into_raw(vec![value; length].into_boxed_slice());
        // The buffer lives until the decoder is dropped.
        let (filter, _) = DecoderFilter::new(config, unsafe { &mut *buffer });
        let blocks = if config.n_ms == FrameDuration::TenMs { 2 } else { 3 };
        Decoder {
            filter,
            buffer,
            history: blocks * config.nf,
            frame: config.nf,
            block: 0,
        }
    }

    // The frame's output; none where the given Rust panics.
    pub fn frame(&mut self, pitch: Pitch, nbits: u32, samples: &[f32]) -> Option<Vec<f32>> {
        let active = pitch.is_some_and(|p| p.active);
        let index = pitch.map_or(0, |p| p.index as usize);
        let info = LongTermPostFilterInfo::new(active, pitch.is_some(), index);
        self.raw_frame(&info, nbits, samples)
    }

    fn raw_frame(&mut self, info: &LongTermPostFilterInfo, nbits: u32, samples: &[f32]) -> Option<Vec<f32>> {
        let mut samples = samples.to_vec();
        let run = AssertUnwindSafe(|| self.filter.run(info, nbits as usize, &mut samples));
        catch_unwind(run).ok()?;
        self.block = (self.block + self.frame) % self.history;
        Some(samples)
    }

    // A frame whose record is marked active while pitch is absent, as the given encoder may send.
    pub fn absent_active_frame(&mut self, nbits: u32, samples: &[f32]) -> Option<Vec<f32>> {
        self.raw_frame(&LongTermPostFilterInfo::new(true, false, 0), nbits, samples)
    }

    // Overwrites the output of the frame just made in the remembered output. The filter holds the buffer,
    // but keeps no copy of it between two calls; the next frames' equality shows that the write arrived.
    pub fn put_right(&mut self, samples: &[f32]) {
        let block = (self.block + self.history - self.frame) % self.history;
        for (n, sample) in samples.iter().enumerate() {
            // The remembered input takes the first `history` places, the remembered output the next.
            unsafe {
                (self.buffer as *mut f32)
                    .add(self.history + block + n)
                    .write_volatile(*sample)
            }
        }
    }
}

impl Drop for Decoder {
    fn drop(&mut self) {
        drop(unsafe { Box::from_raw(self.buffer) })
    }
}

// An encoder on buffers of its own.
pub struct Encoder {
    filter: EncoderFilter<'static>,
    scalers: *mut [f32],
    integers: *mut [i16],
}

impl Encoder {
    // The judge of an encoder, on buffers of this value: 0 but where uncleared history is to be shown.
    pub fn start(config: &Config, value: i16) -> Encoder {
        let config = lc3_config(config, judging_rate(config.rate.hz));
        let (integer_length, scaler_length) = EncoderFilter::calc_working_buffer_length(&config);
        let integers = Box::into_raw(vec![value; integer_length].into_boxed_slice());
        let scalers = Box::into_raw(vec![value as f32; scaler_length].into_boxed_slice());
        // The buffers live until the encoder is dropped.
        let (filter, _, _) = unsafe { EncoderFilter::new(config, &mut *scalers, &mut *integers) };
        Encoder {
            filter,
            scalers,
            integers,
        }
    }

    // The frame's result; none where the given Rust panics.
    pub fn frame(
        &mut self,
        near_nyquist: bool,
        nbits: u32,
        samples: &[i16],
    ) -> Option<LongTermPostFilterResult> {
        let run = AssertUnwindSafe(|| self.filter.run(samples, near_nyquist, nbits as usize));
        catch_unwind(run).ok()
    }
}

impl Drop for Encoder {
    fn drop(&mut self) {
        drop(unsafe { Box::from_raw(self.scalers) });
        drop(unsafe { Box::from_raw(self.integers) });
    }
}
