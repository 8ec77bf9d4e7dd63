// Test signals: samples for both ends, continuous from frame to frame.
use crate::random::Random;

const TWO_PI: f64 = 2.0 * std::f64::consts::PI;

// The lags at 12.8 kHz at and beside the ends of the three ranges.
pub const LAGS_AT_ENDS: [f64; 18] = [
    32.0, 32.25, 32.75, 33.0, 125.75, 126.25, 126.5, 126.75, 127.0, 127.5, 128.0, 155.5, 156.0, 156.5, 157.0,
    158.0, 227.0, 228.0,
];

#[derive(Clone, Copy, PartialEq, Eq, Debug)]
pub enum Kind {
    Silent,
    Tiny,
    Noisy,
    Alternating,
    FullScaleNoise,
    Impulses,
    Steady,
    Periodic,
    Speech,
    HighTone,
}

pub const KINDS: [Kind; 10] = [
    Kind::Silent,
    Kind::Tiny,
    Kind::Noisy,
    Kind::Alternating,
    Kind::FullScaleNoise,
    Kind::Impulses,
    Kind::Steady,
    Kind::Periodic,
    Kind::Speech,
    Kind::HighTone,
];

// A source of samples between -1 and 1, before its loudness.
pub struct Voice {
    pub kind: Kind,
    // Input samples for one at 12.8 kHz.
    step: f64,
    // The period in samples at 12.8 kHz, and what a frame adds to it.
    lag: f64,
    drift: f64,
    loudness: f64,
    noise: f64,
    // One period.
    shape: Vec<f64>,
    phase: f64,
    slow: f64,
    count: usize,
}

impl Voice {
    // A voice for a rate of r times 8000 Hz.
    pub fn new(random: &mut Random, kind: Kind, r: u32) -> Voice {
        let points = random.pick(&[8, 16, 32, 64]);
        let lag = if random.one_in(2) {
            random.pick(&LAGS_AT_ENDS)
        } else {
            30.0 + 200.0 * random.unit()
        };
        Voice {
            kind,
            step: 8.0 * r as f64 / 12.8,
            lag,
            drift: 0.0,
            loudness: random.pick(&[1.5, 30.0, 1000.0, 8000.0, 32767.0]),
            noise: random.pick(&[0.0, 0.0, 0.01, 0.1, 0.2, 0.4]),
            shape: (0..points).map(|_| random.signed()).collect(),
            phase: random.unit(),
            slow: 0.0,
            count: 0,
        }
    }

    // A voice with this period in samples at 12.8 kHz, loud and clean.
    pub fn with_lag(random: &mut Random, lag: f64, r: u32) -> Voice {
        let mut voice = Voice::new(random, Kind::Periodic, r);
        voice.lag = lag;
        voice.loudness = 8000.0;
        voice.noise = 0.0;
        voice
    }

    // Begins a frame: drifts, and changes its noise, so that correlations come to lie about the thresholds.
    fn begin_frame(&mut self, random: &mut Random) {
        self.lag = (self.lag + self.drift).clamp(25.0, 240.0);
        match self.kind {
            Kind::HighTone => self.noise = random.pick(&[0.0, 0.0, 0.02, 0.05, 0.1, 0.15]),
            Kind::Speech => {
                self.noise = random.pick(&[0.0, 0.1, 0.4, 0.6, 1.0]) * random.unit();
                self.drift = random.pick(&[0.0, 0.0, 0.5, -0.5, 2.0, -2.0]);
            }
            _ => {}
        }
    }

    // The period's shape at the phase, straight lines between its points.
    fn shaped(&self) -> f64 {
        let place = self.phase * self.shape.len() as f64;
        let at = |i: usize| self.shape[i % self.shape.len()];
        let i = place as usize;
        at(i) + (place - i as f64) * (at(i + 1) - at(i))
    }

    fn advance(&mut self, period: f64) {
        self.phase = (self.phase + 1.0 / (period * self.step)).fract();
        self.count += 1;
    }

    fn sample(&mut self, random: &mut Random) -> f64 {
        let noise = random.signed();
        match self.kind {
            Kind::Silent => 0.0,
            Kind::Tiny | Kind::Noisy | Kind::FullScaleNoise => noise,
            Kind::Alternating => {
                self.count += 1;
                if self.count.is_multiple_of(2) {
                    1.0
                } else {
                    -1.0
                }
            }
            Kind::Steady => self.shape[0].signum(),
            Kind::Impulses => {
                let before = self.phase;
                self.advance(self.lag);
                (self.phase < before) as u8 as f64
            }
            Kind::Periodic | Kind::Speech => {
                self.advance(self.lag);
                self.shaped() + self.noise * noise
            }
            Kind::HighTone => {
                self.advance(2.6 + self.shape[0].abs());
                self.slow = 0.8 * self.slow + 0.5 * noise;
                0.7 * (TWO_PI * self.phase).sin() + self.noise * self.slow
            }
        }
    }

    // A frame for the encoder.
    pub fn integers(&mut self, random: &mut Random, count: usize) -> Vec<i16> {
        self.begin_frame(random);
        let loudness = match self.kind {
            Kind::Tiny => 1.4,
            Kind::Alternating | Kind::FullScaleNoise => 32768.0,
            _ => self.loudness,
        };
        let clip = |s: f64| (loudness * s).round().clamp(-32768.0, 32767.0) as i16;
        (0..count).map(|_| clip(self.sample(random))).collect()
    }

    // A frame for the decoder, whose samples may reach 1,048,576, be subnormal, or be -0.0.
    pub fn floats(&mut self, random: &mut Random, count: usize) -> Vec<f32> {
        self.begin_frame(random);
        let loudness = match self.kind {
            Kind::Tiny => random.pick(&[1e-45, 1e-42, 1e-38, 1e-30]),
            Kind::Alternating => random.pick(&[32768.0, 1048576.0]),
            Kind::FullScaleNoise => 1048576.0,
            _ => self.loudness,
        };
        let negative_zeros = random.one_in(4);
        let mut frame: Vec<f32> = (0..count)
            .map(|_| (loudness * self.sample(random)) as f32)
            .collect();
        if negative_zeros {
            frame.iter_mut().filter(|s| **s == 0.0).for_each(|s| *s = -0.0);
        }
        for _ in 0..random.pick(&[0, 0, 1, 5]) {
            frame[random.below(count)] =
                random.pick(&[0.0, -0.0, f32::MIN_POSITIVE, 1e-45, 1048576.0, -1048576.0]);
        }
        frame
    }
}
