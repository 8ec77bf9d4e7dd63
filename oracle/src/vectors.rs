// The vector format (FORMAT.md): records of little-endian numbers, the first byte the kind.
use crate::model::Pitch;
use std::io::Write;

pub struct Vectors<W: Write> {
    out: W,
}

// Any NaN stands for any NaN: one is written for all that come out.
fn out_bits(value: f32) -> u32 {
    if value.is_nan() {
        0x7fc0_0000
    } else {
        value.to_bits()
    }
}

impl<W: Write> Vectors<W> {
    pub fn new(out: W) -> Self {
        Vectors { out }
    }

    fn put(&mut self, bytes: &[u8]) {
        self.out.write_all(bytes).unwrap_or_else(|e| {
            eprintln!("oracle: cannot write the vectors: {e}");
            std::process::exit(1)
        });
    }

    fn pitch(&mut self, pitch: Pitch) {
        self.put(&[pitch.is_some() as u8]);
        self.put(&pitch.map_or(0, |p| p.index).to_le_bytes());
        self.put(&[pitch.is_some_and(|p| p.active) as u8]);
    }

    pub fn start(&mut self, hz: u32, duration: u32, answer: u8) {
        self.put(b"S");
        self.put(&hz.to_le_bytes());
        self.put(&duration.to_le_bytes());
        self.put(&[answer]);
    }

    // The slices lent from now on: two for a decoder, three for an encoder.
    pub fn coefficients(&mut self, slices: &[&[f32]]) {
        self.put(b"C");
        for slice in slices {
            self.put(&(slice.len() as u16).to_le_bytes());
        }
        for value in slices.iter().flat_map(|s| s.iter()) {
            self.put(&value.to_bits().to_le_bytes());
        }
    }

    pub fn decoder_frame(&mut self, pitch: Pitch, nbits: u32, samples: &[f32]) {
        self.put(b"F");
        self.pitch(pitch);
        self.put(&nbits.to_le_bytes());
        self.put(&(samples.len() as u16).to_le_bytes());
        for sample in samples {
            self.put(&sample.to_bits().to_le_bytes());
        }
    }

    pub fn decoder_answer(&mut self, answer: u8, settled: bool, samples: &[f32]) {
        self.put(&[answer, settled as u8]);
        for sample in samples {
            self.put(&out_bits(*sample).to_le_bytes());
        }
    }

    pub fn loss_mark(&mut self, answer: u8, settled: bool) {
        self.put(b"L");
        self.put(&[answer, settled as u8]);
    }

    // A start of one ear: 0 is left, 1 right.
    pub fn ear_start(&mut self, ear: u8, hz: u32, duration: u32, answer: u8) {
        self.put(&[b'S', ear]);
        self.put(&hz.to_le_bytes());
        self.put(&duration.to_le_bytes());
        self.put(&[answer]);
    }

    pub fn ear_loss_mark(&mut self, ear: u8, answer: u8, settled: bool) {
        self.put(&[b'L', ear, answer, settled as u8]);
    }

    // A made-up run of one ear.
    pub fn ear_run(&mut self, ear: u8, run: u32) {
        self.put(&[b'R', ear]);
        self.put(&run.to_le_bytes());
    }

    // A made-up rate and duration of one ear.
    pub fn ear_names(&mut self, ear: u8, names: (u32, u32)) {
        self.put(&[b'N', ear]);
        self.put(&names.0.to_le_bytes());
        self.put(&names.1.to_le_bytes());
    }

    pub fn ears_frame(&mut self, pitches: [Pitch; 2], nbits: u32, buffer: &[f32]) {
        self.put(b"F");
        self.pitch(pitches[0]);
        self.pitch(pitches[1]);
        self.put(&nbits.to_le_bytes());
        self.put(&(buffer.len() as u16).to_le_bytes());
        for sample in buffer {
            self.put(&sample.to_bits().to_le_bytes());
        }
    }

    pub fn ears_answer(&mut self, answers: [u8; 2], settled: [bool; 2], buffer: &[f32]) {
        self.put(&[answers[0], settled[0] as u8, answers[1], settled[1] as u8]);
        for sample in buffer {
            self.put(&out_bits(*sample).to_le_bytes());
        }
    }

    pub fn encoder_frame(&mut self, near_nyquist: bool, nbits: u32, samples: &[i16]) {
        self.put(b"F");
        self.put(&[near_nyquist as u8]);
        self.put(&nbits.to_le_bytes());
        self.put(&(samples.len() as u16).to_le_bytes());
        for sample in samples {
            self.put(&sample.to_le_bytes());
        }
    }

    pub fn encoder_answer(&mut self, answer: u8, pitch: Pitch, nbits_ltpf: u8) {
        self.put(&[answer]);
        self.pitch(pitch);
        self.put(&[nbits_ltpf]);
    }

    pub fn end(&mut self) {
        self.put(b"E");
        self.out.flush().unwrap_or_else(|e| {
            eprintln!("oracle: cannot write the vectors: {e}");
            std::process::exit(1)
        });
    }
}
