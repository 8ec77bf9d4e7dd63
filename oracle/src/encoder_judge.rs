// The encoder's two judges side by side: every call goes to both, is compared, and is written down.
use crate::counts::Counts;
use crate::model::answer;
use crate::model::encoder::{Answered, Encoder, Lent};
use crate::set::Set;
use crate::vectors::Vectors;
use crate::{given, known};
use std::io::Write;

pub struct EncoderJudge<W: Write> {
    vectors: Vectors<W>,
    pub model: Encoder,
    rust: given::Encoder,
    lent: [Vec<f32>; 3],
    pub counts: Counts,
    indices: [bool; 512],
}

impl<W: Write> EncoderJudge<W> {
    pub fn new(out: W) -> Self {
        let (_, model) = Encoder::start(48000, 10000);
        EncoderJudge {
            vectors: Vectors::new(out),
            rust: given::Encoder::start(&model.config, 0),
            model,
            lent: [vec![], vec![], vec![]],
            counts: Counts::default(),
            indices: [false; 512],
        }
    }

    // A start, good or refused: the given Rust starts with what the model started with.
    pub fn start(&mut self, hz: u32, duration: u32) -> u8 {
        let (answer, model) = Encoder::start(hz, duration);
        self.model = model;
        self.rust = given::Encoder::start(&self.model.config, 0);
        self.vectors.start(hz, duration, answer);
        if answer != answer::DONE {
            self.counts.other(&format!("start refused with {answer}"));
        }
        answer
    }

    // Lends a set from now on, to both.
    pub fn lend(&mut self, set: &Set) {
        set.install();
        self.lend_slices([&set.resampling, &set.correlation, &set.signal]);
    }

    // Lends any three slices to the model alone, for a frame that is to be refused.
    pub fn lend_slices(&mut self, slices: [&[f32]; 3]) {
        let bits = |s: &[f32]| s.iter().map(|c| c.to_bits()).collect::<Vec<u32>>();
        if (0..3).any(|i| bits(&self.lent[i]) != bits(slices[i])) {
            self.vectors.coefficients(&slices);
            self.lent = slices.map(|s| s.to_vec());
        }
    }

    // A frame: the model's answer is written down, and compared where it is done.
    pub fn frame(&mut self, near_nyquist: bool, nbits: u32, samples: &[i16]) -> Answered {
        let lent = Lent {
            resampling: &self.lent[0],
            correlation: &self.lent[1],
            signal: &self.lent[2],
        };
        let ours = self.model.frame(lent, near_nyquist, nbits, samples);
        self.vectors.encoder_frame(near_nyquist, nbits, samples);
        self.vectors
            .encoder_answer(ours.answer, ours.pitch, ours.nbits_ltpf);
        if ours.answer == answer::DONE {
            self.compare(&ours, near_nyquist, nbits, samples);
        } else {
            self.counts.other(&format!("frame refused with {}", ours.answer));
        }
        ours
    }

    fn compare(&mut self, ours: &Answered, near_nyquist: bool, nbits: u32, samples: &[i16]) {
        let config = self.model.config;
        self.cover(ours);
        let Some(rust) = self.rust.frame(near_nyquist, nbits, samples) else {
            self.counts.unlisted(&config, "Rust panics".to_string());
            self.rust = given::Encoder::start(&config, 0);
            return;
        };
        if known::middle_range(ours) {
            self.counts.listed("middle range index 252 lower");
        }
        if known::absent_active(ours) {
            self.counts.listed("active flag with pitch absent");
        }
        let theirs = (
            rust.pitch_present,
            rust.pitch_index,
            rust.ltpf_active,
            rust.nbits_ltpf,
        );
        if theirs != known::given_record(ours) {
            self.counts
                .unlisted(&config, format!("Rust {theirs:?}, model {ours:?}"));
        }
    }

    // Counts the outcome and notes which indices present records have met.
    fn cover(&mut self, ours: &Answered) {
        let what = match ours.pitch {
            None => "absent",
            Some(p) if p.active => "active",
            Some(_) => "inactive",
        };
        self.counts.frame(&self.model.config, what.to_string());
        if let Some(present) = ours.pitch {
            self.indices[present.index as usize] = true;
            let range = match present.index {
                0..=379 => "indices 0 to 379",
                380..=439 => "indices 380 to 439",
                _ => "indices 440 to 511",
            };
            self.counts.other(range);
            if ours.doubtful {
                self.counts.other("present by a root of 0");
            }
        }
    }

    // Ends the vectors and prints the counts; whether all that differed is listed.
    pub fn end(mut self) -> bool {
        self.vectors.end();
        self.counts.print();
        let met = self.indices.iter().filter(|met| **met).count();
        let ends = [0, 378, 379, 380, 439, 440, 511]
            .map(|i| format!("{i} {}", if self.indices[i] { "met" } else { "not met" }));
        eprintln!(
            "indices met in present records: {met} of 512; range ends: {}",
            ends.join(", ")
        );
        self.counts.unlisted == 0
    }
}
