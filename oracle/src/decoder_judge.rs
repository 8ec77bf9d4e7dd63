// The decoder's two judges side by side: every call goes to both, is compared, and is written down.
use crate::counts::Counts;
use crate::model::decoder::Decoder;
use crate::model::lag::gain;
use crate::model::{answer, Pitch};
use crate::set::Set;
use crate::vectors::Vectors;
use crate::{given, known};
use std::io::Write;

pub struct DecoderJudge<W: Write> {
    vectors: Vectors<W>,
    pub model: Decoder,
    rust: given::Decoder,
    num: Vec<f32>,
    den: Vec<f32>,
    pub counts: Counts,
    indices: [bool; 512],
    rows: [u64; 5],
}

// A name for what is special in an output, and the samples that have it.
type Special = (&'static str, fn(&f32) -> bool);

// Equal bit for bit, any NaN standing for any NaN.
pub fn same_samples(a: &[f32], b: &[f32]) -> bool {
    a.len() == b.len()
        && a.iter()
            .zip(b)
            .all(|(a, b)| a.to_bits() == b.to_bits() || a.is_nan() && b.is_nan())
}

// The first place where two frames differ, with both values.
pub fn first_difference(a: &[f32], b: &[f32]) -> String {
    match (0..a.len()).find(|n| !same_samples(&a[*n..=*n], &b[*n..=*n])) {
        Some(n) => format!(
            "sample {n}: Rust {:e} ({:08x}), model {:e} ({:08x})",
            a[n],
            a[n].to_bits(),
            b[n],
            b[n].to_bits()
        ),
        None => "no sample".to_string(),
    }
}

impl<W: Write> DecoderJudge<W> {
    pub fn new(out: W) -> Self {
        let (_, model) = Decoder::start(48000, 10000);
        DecoderJudge {
            vectors: Vectors::new(out),
            rust: given::Decoder::start(&model.config, 0.0),
            model,
            num: vec![],
            den: vec![],
            counts: Counts::default(),
            indices: [false; 512],
            rows: [0; 5],
        }
    }

    // A start, good or refused: the given Rust starts with what the model started with.
    pub fn start(&mut self, hz: u32, duration: u32) -> u8 {
        let (answer, model) = Decoder::start(hz, duration);
        self.model = model;
        self.rust = given::Decoder::start(&self.model.config, 0.0);
        self.vectors.start(hz, duration, answer);
        if answer != answer::DONE {
            self.counts.other(&format!("start refused with {answer}"));
        }
        answer
    }

    // Lends the rows of the decoder's rate from now on, to both.
    pub fn lend(&mut self, set: &Set) {
        set.install();
        let fs_ind = self.model.config.rate.fs_ind as usize;
        self.lend_slices(&set.numerators[fs_ind], &set.denominators[fs_ind]);
    }

    // Lends any two slices to the model alone, for a frame that is to be refused.
    pub fn lend_slices(&mut self, num: &[f32], den: &[f32]) {
        if self
            .num
            .iter()
            .chain(&self.den)
            .map(|c| c.to_bits())
            .ne(num.iter().chain(den).map(|c| c.to_bits()))
            || self.num.len() != num.len()
        {
            self.vectors.coefficients(&[num, den]);
        }
        self.num = num.to_vec();
        self.den = den.to_vec();
    }

    pub fn loss_mark(&mut self) {
        let answer = self.model.loss_mark();
        self.vectors.loss_mark(answer, self.model.settled);
        self.counts.other("loss marks");
    }

    // A frame: what must come out is written down.
    pub fn frame(&mut self, pitch: Pitch, nbits: u32, samples: &[f32]) -> u8 {
        let (answer, out) = self.judged(pitch, nbits, samples);
        self.vectors.decoder_frame(pitch, nbits, samples);
        self.vectors.decoder_answer(answer, self.model.settled, &out);
        answer
    }

    // What must come out of a frame: the model's answer and samples, compared with the Rust where it is done.
    pub fn judged(&mut self, pitch: Pitch, nbits: u32, samples: &[f32]) -> (u8, Vec<f32>) {
        let before = self.model.clone();
        let mut out = samples.to_vec();
        let answer = self.model.frame(&self.num, &self.den, pitch, nbits, &mut out);
        if answer == answer::DONE {
            self.compare(&before, pitch, nbits, samples, &out);
        } else {
            self.counts.other(&format!("frame refused with {answer}"));
        }
        (answer, out)
    }

    fn compare(&mut self, before: &Decoder, pitch: Pitch, nbits: u32, samples: &[f32], out: &[f32]) {
        let filter = before.filter(&self.num, &self.den, pitch, nbits);
        let case = before.case(&filter);
        self.counts.frame(&before.config, format!("case {case}"));
        self.cover(pitch, nbits, out);
        let Some(rust) = self.rust.frame(pitch, nbits, samples) else {
            self.counts
                .unlisted(&before.config, format!("case {case}: Rust panics"));
            self.rust = given::Decoder::start(&before.config, 0.0);
            return;
        };
        let mut expected = out.to_vec();
        if known::rereads(before, &filter) {
            expected = known::reread_frame(before, filter.as_ref().expect("case 5 is active"), samples);
            self.counts.listed("case 5 frames that reread");
        }
        if !same_samples(&expected, out) {
            self.counts.listed("case 5 frames that differ");
        }
        if !same_samples(&rust, &expected) {
            let place = first_difference(&rust, &expected);
            self.counts.unlisted(
                &before.config,
                format!("case {case}, {pitch:?}, nbits {nbits}, {place}"),
            );
        }
        if !same_samples(&rust, out) {
            self.rust.put_right(out);
        }
    }

    // Notes which indices and gain rows active frames have met, and what is special in their output.
    fn cover(&mut self, pitch: Pitch, nbits: u32, out: &[f32]) {
        let Some(present) = pitch.filter(|p| p.active) else {
            return;
        };
        self.indices[present.index as usize] = true;
        self.rows[gain(&self.model.config, nbits).map_or(4, |g| g.1)] += 1;
        let kinds: [Special; 4] = [
            ("active frames with a NaN out", |s| s.is_nan()),
            ("active frames with an infinity out", |s| s.is_infinite()),
            ("active frames with a -0.0 out", |s| {
                *s == 0.0 && s.is_sign_negative()
            }),
            ("active frames with a subnormal out", |s| s.is_subnormal()),
        ];
        for (name, _) in kinds.iter().filter(|kind| out.iter().any(kind.1)) {
            self.counts.other(name);
        }
    }

    // Ends the vectors and prints the counts; whether all that differed is listed.
    pub fn end(mut self) -> bool {
        self.vectors.end();
        self.counts.print();
        let met = self.indices.iter().filter(|met| **met).count();
        let ends = [0, 379, 380, 439, 440, 511]
            .map(|i| format!("{i} {}", if self.indices[i] { "met" } else { "not met" }));
        eprintln!("active frames by gain row 0 to 3 and off: {:?}", self.rows);
        eprintln!(
            "indices met in active frames: {met} of 512; range ends: {}",
            ends.join(", ")
        );
        self.counts.unlisted == 0
    }
}
