// The table of the six rates and the two durations.
use super::answer;

#[derive(Clone, Copy, Debug)]
pub struct Rate {
    pub hz: u32,
    pub fs_ind: u32,
    pub r: u32,
    pub frame_10: usize,
    pub frame_7p5: usize,
    pub p: i32,
    pub l_den: usize,
    pub fade: usize,
}

const fn row(
    hz: u32,
    fs_ind: u32,
    r: u32,
    frames: (usize, usize),
    p: i32,
    l_den: usize,
    fade: usize,
) -> Rate {
    Rate {
        hz,
        fs_ind,
        r,
        frame_10: frames.0,
        frame_7p5: frames.1,
        p,
        l_den,
        fade,
    }
}

pub const RATES: [Rate; 6] = [
    row(8000, 0, 1, (80, 60), 24, 4, 20),
    row(16000, 1, 2, (160, 120), 12, 4, 40),
    row(24000, 2, 3, (240, 180), 8, 6, 60),
    row(32000, 3, 4, (320, 240), 6, 8, 80),
    row(44100, 4, 6, (480, 360), 4, 12, 120),
    row(48000, 4, 6, (480, 360), 4, 12, 120),
];

pub const TEN_MS: u32 = 10000;
pub const SEVEN_POINT_FIVE_MS: u32 = 7500;
pub const DURATIONS: [u32; 2] = [TEN_MS, SEVEN_POINT_FIVE_MS];

// A rate with a duration, both of the table.
#[derive(Clone, Copy, Debug)]
pub struct Config {
    pub rate: Rate,
    pub ten_ms: bool,
}

impl Config {
    // What a start checks: 1, then 2. A refused start gives the configuration 48000 Hz, 10 ms.
    pub fn started(hz: u32, duration: u32) -> (u8, Config) {
        let config = |rate, ten_ms| Config { rate, ten_ms };
        let Some(rate) = RATES.iter().find(|r| r.hz == hz) else {
            return (answer::UNKNOWN_RATE, config(RATES[5], true));
        };
        match duration {
            TEN_MS => (answer::DONE, config(*rate, true)),
            SEVEN_POINT_FIVE_MS => (answer::DONE, config(*rate, false)),
            _ => (answer::UNKNOWN_DURATION, config(RATES[5], true)),
        }
    }

    pub fn frame(&self) -> usize {
        if self.ten_ms {
            self.rate.frame_10
        } else {
            self.rate.frame_7p5
        }
    }

    pub fn duration(&self) -> u32 {
        if self.ten_ms {
            TEN_MS
        } else {
            SEVEN_POINT_FIVE_MS
        }
    }

    // Entries of the four lent rows of numerators, and of the four of denominators.
    pub fn lent_lengths(&self) -> (usize, usize) {
        let l_den = self.rate.l_den;
        (4 * (l_den - 1), 4 * (l_den + 1))
    }
}
