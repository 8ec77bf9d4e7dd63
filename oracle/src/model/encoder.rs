// The encoder of the scope: refusals, resampling, high-pass, pitch search, lag parameter, activation.
use super::lag::{gain, index};
use super::rates::Config;
use super::{answer, Pitch, Present, Signal, MOST_BITS};

const LEAST_LAG: usize = 17;
const GREATEST_LAG: usize = 114;

// What a frame call is lent: the three kinds of an encoder's set.
#[derive(Clone, Copy)]
pub struct Lent<'a> {
    pub resampling: &'a [f32],
    pub correlation: &'a [f32],
    pub signal: &'a [f32],
}

// What a frame call gives, with two numbers that only comparisons use.
#[derive(Clone, Copy, Debug)]
pub struct Answered {
    pub answer: u8,
    pub pitch: Pitch,
    pub nbits_ltpf: u8,
    // The activation, which an absent record does not carry.
    pub activation: bool,
    // The whole lag at 12.8 kHz after the carry.
    pub whole: i32,
    // The root of the chosen lag was 0 and its correlation above 0.
    pub doubtful: bool,
}

struct Detected {
    lag: usize,
    present: bool,
    doubtful: bool,
}

// What the activation remembers of a frame.
#[derive(Clone, Copy)]
struct Memory {
    active: bool,
    pitch: f32,
    nc: f32,
    nc_before: f32,
}

#[derive(Clone)]
pub struct Encoder {
    pub config: Config,
    x: Signal,
    // 12.8 kHz and 6.4 kHz.
    x_12p8: Signal,
    x_6p4: Signal,
    // The two remembered numbers of the high-pass.
    h50: (f32, f32),
    previous_lag: usize,
    memory: Memory,
}

// The root where one exists.
fn root(value: f32) -> Option<f32> {
    (value >= 0.0).then(|| value.sqrt())
}

// The place of the greatest: starts at the first and moves only to a strictly greater one.
fn greatest(values: &[f32]) -> usize {
    let mut best = 0;
    for (i, value) in values.iter().enumerate() {
        if *value > values[best] {
            best = i;
        }
    }
    best
}

impl Encoder {
    pub fn start(hz: u32, duration: u32) -> (u8, Encoder) {
        let (answer, config) = Config::started(hz, duration);
        let encoder = Encoder {
            config,
            x: Signal::zero(240 / config.rate.p as usize),
            x_12p8: Signal::zero(276),
            x_6p4: Signal::zero(114),
            h50: (0.0, 0.0),
            previous_lag: LEAST_LAG,
            memory: Memory {
                active: false,
                pitch: 0.0,
                nc: 0.0,
                nc_before: 0.0,
            },
        };
        (answer, encoder)
    }

    pub fn frame(&mut self, lent: Lent, near_nyquist: bool, nbits: u32, samples: &[i16]) -> Answered {
        let mut answered = Answered {
            answer: self.refusal(lent, nbits, samples),
            pitch: None,
            nbits_ltpf: 0,
            activation: false,
            whole: 0,
            doubtful: false,
        };
        if answered.answer != answer::DONE {
            return answered;
        }
        self.intake(lent.resampling, samples);
        let detected = self.pitch_search();
        let (whole, fraction) = self.lag_parameter(detected.lag, lent.correlation);
        let nc = self.correlation(whole, fraction, lent.signal);
        let pitch = whole as f32 + fraction as f32 / 4.0;
        let allowed = gain(&self.config, nbits).is_some() && !near_nyquist;
        let active = allowed && self.activates(nc, pitch);
        answered.activation = active;
        answered.whole = whole;
        answered.doubtful = detected.doubtful;
        answered.nbits_ltpf = if detected.present { 11 } else { 1 };
        if detected.present {
            answered.pitch = Some(Present {
                index: index(whole, fraction),
                active,
            });
        }
        self.remember(&detected, active, pitch, nc);
        self.x.end_frame();
        self.x_12p8.end_frame();
        self.x_6p4.end_frame();
        answered
    }

    // A frame call checks 3, 4, 5, 6 in this order.
    fn refusal(&self, lent: Lent, nbits: u32, samples: &[i16]) -> u8 {
        let lengths = (lent.resampling.len(), lent.correlation.len(), lent.signal.len());
        let mut all = lent.resampling.iter().chain(lent.correlation).chain(lent.signal);
        if lengths != (239, 31, 15) {
            answer::COEFFICIENT_COUNT
        } else if !all.all(|c| c.is_finite()) {
            answer::COEFFICIENT_NOT_FINITE
        } else if samples.len() != self.config.frame() {
            answer::SAMPLE_COUNT
        } else if nbits > MOST_BITS {
            answer::TOO_MANY_BITS
        } else {
            answer::DONE
        }
    }

    // New samples at 12.8 kHz in a frame, and those by which the searches lag behind.
    fn length(&self) -> i32 {
        if self.config.ten_ms {
            128
        } else {
            96
        }
    }

    fn delay(&self) -> i32 {
        if self.config.ten_ms {
            24
        } else {
            44
        }
    }

    // The delayed 12.8 kHz signal.
    fn delayed(&self, n: i32) -> f32 {
        self.x_12p8.at(n - self.delay())
    }

    // The frame's samples, its 12.8 kHz signal and its 6.4 kHz signal.
    fn intake(&mut self, resampling: &[f32], samples: &[i16]) {
        samples.iter().for_each(|s| self.x.push(*s as f32));
        for n in 0..self.length() {
            let resampled = self.resampled(resampling, n);
            let passed = self.high_pass(resampled);
            self.x_12p8.push(passed);
        }
        for m in 0..self.length() / 2 {
            let halved = self.halved(2 * m);
            self.x_6p4.push(halved);
        }
    }

    fn resampled(&self, resampling: &[f32], n: i32) -> f32 {
        let p = self.config.rate.p;
        let mut sum = 0.0;
        for k in -120 / p..=120 / p {
            let h = p * k - (15 * n) % p;
            if -120 < h && h < 120 {
                sum += self.x.at(15 * n / p + k - 120 / p) * resampling[(119 + h) as usize];
            }
        }
        sum * if p == 24 { 12.0 } else { p as f32 }
    }

    fn high_pass(&mut self, x: f32) -> f32 {
        let (h1, h2) = self.h50;
        let h = x - (-1.9652933726226904 * h1) - 0.9658854605688177 * h2;
        self.h50 = (h, h1);
        0.9827947082978771 * h + -1.965589416595754 * h1 + 0.9827947082978771 * h2
    }

    // Five taps around the delayed sample n - 1.
    fn halved(&self, n: i32) -> f32 {
        0.1236796411180537 * self.delayed(n - 3)
            + 0.2353512128364889 * self.delayed(n - 2)
            + 0.2819382920909148 * self.delayed(n - 1)
            + 0.2353512128364889 * self.delayed(n)
            + 0.1236796411180537 * self.delayed(n + 1)
    }

    fn pitch_search(&self) -> Detected {
        let correlations: Vec<f32> = (LEAST_LAG..=GREATEST_LAG)
            .map(|lag| self.product_6p4(0, lag as i32))
            .collect();
        let weighted: Vec<f32> = (0..98)
            .map(|k| (1.0 - (0.5 * k as f32) / 97.0) * correlations[k])
            .collect();
        let first = greatest(&weighted);
        let from = LEAST_LAG.max(self.previous_lag - 4) - LEAST_LAG;
        let to = GREATEST_LAG.min(self.previous_lag + 4) - LEAST_LAG;
        let second = from + greatest(&correlations[from..=to]);
        let normalised = |k: usize| self.normalised(correlations[k], (LEAST_LAG + k) as i32);
        let chosen = if normalised(second) > 0.85 * normalised(first) {
            second
        } else {
            first
        };
        let lag = LEAST_LAG + chosen;
        Detected {
            lag,
            present: normalised(chosen) > 0.6,
            doubtful: root(self.energies(lag as i32)) == Some(0.0) && correlations[chosen] > 0.0,
        }
    }

    // The sum over the frame of the 6.4 kHz signal's products at two lags.
    fn product_6p4(&self, lag_a: i32, lag_b: i32) -> f32 {
        let mut sum = 0.0;
        for n in 0..self.length() / 2 {
            sum += self.x_6p4.at(n - lag_a) * self.x_6p4.at(n - lag_b);
        }
        sum
    }

    fn energies(&self, lag: i32) -> f32 {
        self.product_6p4(0, 0) * self.product_6p4(lag, lag)
    }

    // 0.0 where no root exists, or where the quotient is NaN or not above 0.
    fn normalised(&self, correlation: f32, lag: i32) -> f32 {
        let Some(root) = root(self.energies(lag)) else {
            return 0.0;
        };
        let quotient = correlation / root;
        if quotient > 0.0 {
            quotient
        } else {
            0.0
        }
    }

    // The lag at 12.8 kHz, whole and quarter, a negative fraction carried.
    fn lag_parameter(&self, lag: usize, interpolation: &[f32]) -> (i32, i32) {
        let least = 32.max(2 * lag as i32 - 4);
        let greatest = 228.min(2 * lag as i32 + 4);
        let correlation = |k: i32| {
            let mut sum = 0.0;
            for n in 0..self.length() {
                sum += self.delayed(n) * self.delayed(n - k);
            }
            sum
        };
        let around: Vec<f32> = (least - 4..=greatest + 4).map(correlation).collect();
        let at = |k: i32| around[(k - (least - 4)) as usize];
        let whole = above_zero(least..=greatest, at).unwrap_or(least);
        let interpolated = |d: i32| {
            let mut sum = 0.0;
            for m in -4..=4 {
                if (4 * m - d).abs() < 16 {
                    sum += at(whole + m) * interpolation[(4 * m - d + 15) as usize];
                }
            }
            sum
        };
        let fraction = match whole {
            32 => above_zero(0..=3, interpolated),
            33..=126 => above_zero(-3..=3, interpolated),
            127..=156 => above_zero((-2..=2).step_by(2), interpolated),
            _ => None,
        };
        match fraction.unwrap_or(0) {
            negative @ ..=-1 => (whole - 1, negative + 4),
            fraction => (whole, fraction),
        }
    }

    // The delayed signal between samples, d quarters back.
    fn between(&self, n: i32, d: i32, signal: &[f32]) -> f32 {
        let mut sum = 0.0;
        for k in -2..=2 {
            if (4 * k - d).abs() < 8 {
                sum += self.delayed(n - k) * signal[(4 * k - d + 7) as usize];
            }
        }
        sum
    }

    // The activation's correlation at a lag.
    fn correlation(&self, whole: i32, fraction: i32, signal: &[f32]) -> f32 {
        let (mut product, mut here, mut there) = (0.0, 0.0, 0.0);
        for n in 0..self.length() {
            let a = self.between(n, 0, signal);
            let b = self.between(n - whole, fraction, signal);
            product += a * b;
            here += a * a;
            there += b * b;
        }
        match root(here * there) {
            Some(root) if root > 0.0 => product / root,
            _ => 0.0,
        }
    }

    fn activates(&self, nc: f32, pitch: f32) -> bool {
        let m = &self.memory;
        if m.active {
            nc > 0.9 || (pitch - m.pitch).abs() < 2.0 && nc - m.nc > -0.1 && nc > 0.84
        } else {
            (self.config.ten_ms || m.nc_before > 0.94) && m.nc > 0.94 && nc > 0.94
        }
    }

    fn remember(&mut self, detected: &Detected, active: bool, pitch: f32, nc: f32) {
        self.previous_lag = detected.lag;
        self.memory = Memory {
            active: detected.present && active,
            pitch: if detected.present { pitch } else { 0.0 },
            nc: if detected.present { nc } else { 0.0 },
            nc_before: self.memory.nc,
        };
    }
}

// The place of the greatest value above 0.0, the first of equals; none where no value is above 0.0.
fn above_zero(places: impl Iterator<Item = i32>, value: impl Fn(i32) -> f32) -> Option<i32> {
    let mut best = None;
    let mut most = 0.0;
    for place in places {
        if value(place) > most {
            most = value(place);
            best = Some(place);
        }
    }
    best
}
