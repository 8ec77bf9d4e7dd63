// The decoder of the scope: refusals, gains, lag, coefficients, five cases, loss marks, the settled report.
use super::lag::{gain, lag};
use super::rates::Config;
use super::{answer, Pitch, Signal, MOST_BITS};

// So many accepted inactive frames in a row settle a decoder.
pub const SETTLED_LIMIT: u32 = 3;

// The rows of a frame, multiplied by its gain, and its lag.
#[derive(Clone)]
pub struct Filter {
    num: Vec<f32>,
    den: Vec<f32>,
    pub whole: usize,
    pub quarter: usize,
}

impl Filter {
    // F(n) over an input and an output signal.
    pub fn at(&self, n: usize, x: impl Fn(i32) -> f32, y: impl Fn(i32) -> f32) -> f32 {
        let half = (self.den.len() as i32 - 1) / 2;
        let mut sum = 0.0;
        for (k, c) in self.num.iter().enumerate() {
            sum += c * x(n as i32 - k as i32);
        }
        for (k, c) in self.den.iter().enumerate() {
            sum -= c * y(n as i32 - self.whole as i32 + half - k as i32);
        }
        sum
    }

    fn same_lag(&self, other: &Filter) -> bool {
        self.whole == other.whole && self.quarter == other.quarter
    }
}

#[derive(Clone)]
pub struct Decoder {
    pub config: Config,
    // Input and output.
    pub x: Signal,
    pub y: Signal,
    // The filter of the frame before, if that was active.
    pub previous: Option<Filter>,
    pub run: u32,
    pub settled: bool,
}

impl Decoder {
    pub fn start(hz: u32, duration: u32) -> (u8, Decoder) {
        let (answer, config) = Config::started(hz, duration);
        let history = if config.ten_ms { 2 } else { 3 } * config.frame();
        let decoder = Decoder {
            config,
            x: Signal::zero(history),
            y: Signal::zero(history),
            previous: None,
            run: 0,
            settled: false,
        };
        (answer, decoder)
    }

    pub fn loss_mark(&mut self) -> u8 {
        self.run = 0;
        self.settled = false;
        answer::DONE
    }

    pub fn frame(&mut self, num: &[f32], den: &[f32], pitch: Pitch, nbits: u32, samples: &mut [f32]) -> u8 {
        let refused = self.refusal(num, den, pitch, nbits, samples);
        if refused != answer::DONE {
            return refused;
        }
        let filter = self.filter(num, den, pitch, nbits);
        samples.iter().for_each(|s| self.x.push(*s));
        self.cases(&filter);
        samples.copy_from_slice(self.y.frame());
        self.x.end_frame();
        self.y.end_frame();
        self.count(filter.is_none());
        self.previous = filter;
        answer::DONE
    }

    // A frame call checks 3, 4, 5, 6, 7, 8 in this order.
    fn refusal(&self, num: &[f32], den: &[f32], pitch: Pitch, nbits: u32, samples: &[f32]) -> u8 {
        if (num.len(), den.len()) != self.config.lent_lengths() {
            answer::COEFFICIENT_COUNT
        } else if !num.iter().chain(den).all(|c| c.is_finite()) {
            answer::COEFFICIENT_NOT_FINITE
        } else if samples.len() != self.config.frame() {
            answer::SAMPLE_COUNT
        } else if nbits > MOST_BITS {
            answer::TOO_MANY_BITS
        } else if pitch.is_some_and(|p| p.index > 511) {
            answer::INDEX_TOO_LARGE
        } else if !samples.iter().all(|s| s.abs() <= 1048576.0) {
            answer::SAMPLE_OUT_OF_RANGE
        } else {
            answer::DONE
        }
    }

    // The filter of an active frame: numerators by gain row, denominators by quarter.
    pub fn filter(&self, num: &[f32], den: &[f32], pitch: Pitch, nbits: u32) -> Option<Filter> {
        let present = pitch?;
        if !present.active {
            return None;
        }
        let (whole, quarter) = lag(self.config.rate.r, present.index);
        let (gain, row) = gain(&self.config, nbits).unwrap_or((0.0, 0));
        let l_den = self.config.rate.l_den;
        let num_row = &num[row * (l_den - 1)..][..l_den - 1];
        let den_row = &den[quarter * (l_den + 1)..][..l_den + 1];
        Some(Filter {
            num: num_row.iter().map(|c| (0.85 * gain) * c).collect(),
            den: den_row.iter().map(|c| gain * c).collect(),
            whole,
            quarter,
        })
    }

    // Which of the five cases a frame with this filter is.
    pub fn case(&self, filter: &Option<Filter>) -> u8 {
        match (&self.previous, filter) {
            (None, None) => 1,
            (None, Some(_)) => 2,
            (Some(_), None) => 3,
            (Some(old), Some(new)) if new.same_lag(old) => 4,
            (Some(_), Some(_)) => 5,
        }
    }

    // Fills the frame's output.
    fn cases(&mut self, filter: &Option<Filter>) {
        let previous = self.previous.clone();
        match (&previous, filter) {
            (None, None) => self.copy(0),
            (None, Some(new)) => self.activated(new),
            (Some(old), None) => {
                self.fade_out(old);
                self.copy(self.config.rate.fade);
            }
            (Some(old), Some(new)) if new.same_lag(old) => self.filtered(new, 0),
            (Some(old), Some(new)) => self.lag_changed(old, new),
        }
    }

    fn fade_factor(&self, n: usize) -> f32 {
        n as f32 / self.config.rate.fade as f32
    }

    // y = x, bits copied, from sample `from` on.
    fn copy(&mut self, from: usize) {
        for n in from..self.config.frame() {
            self.y.push(self.x.at(n as i32));
        }
    }

    // y = x - F from sample `from` on.
    fn filtered(&mut self, new: &Filter, from: usize) {
        for n in from..self.config.frame() {
            let f = new.at(n, |i| self.x.at(i), |i| self.y.at(i));
            self.y.push(self.x.at(n as i32) - f);
        }
    }

    // Case 2: y = x - F f in the fade, then x - F.
    fn activated(&mut self, new: &Filter) {
        for n in 0..self.config.rate.fade {
            let f = new.at(n, |i| self.x.at(i), |i| self.y.at(i));
            self.y.push(self.x.at(n as i32) - f * self.fade_factor(n));
        }
        self.filtered(new, self.config.rate.fade);
    }

    // The fade of case 3: y = x - F_old (1 - f).
    pub fn fade_out(&mut self, old: &Filter) {
        for n in 0..self.config.rate.fade {
            let f = old.at(n, |i| self.x.at(i), |i| self.y.at(i));
            self.y.push(self.x.at(n as i32) - f * (1.0 - self.fade_factor(n)));
        }
    }

    // Case 5: z as in case 3, then y = z - G f with the true earlier y, after the fade x - F.
    fn lag_changed(&mut self, old: &Filter, new: &Filter) {
        let mut faded = self.clone();
        faded.fade_out(old);
        let z = faded.y;
        for n in 0..self.config.rate.fade {
            let g = new.at(n, |i| z.at(i), |i| self.y.at(i));
            self.y.push(z.at(n as i32) - g * self.fade_factor(n));
        }
        self.filtered(new, self.config.rate.fade);
    }

    // Counts inactive frames in a row, up to the limit at which the report settles.
    fn count(&mut self, inactive: bool) {
        self.run = if inactive {
            SETTLED_LIMIT.min(self.run + 1)
        } else {
            0
        };
        self.settled |= self.run == SETTLED_LIMIT;
    }
}
