// Lag both ways, and bits to gain.
use super::rates::Config;

// The lag of an index up to 511, in quarter samples at 12.8 kHz.
pub fn quarters(index: u32) -> u32 {
    match index {
        0..=379 => index + 128,
        380..=439 => 2 * index - 252,
        _ => 4 * index - 1132,
    }
}

// The lag of an index at a rate: whole part and quarter.
pub fn lag(r: u32, index: u32) -> (usize, usize) {
    let rescaled = (5 * r * quarters(index) + 4) / 8;
    ((rescaled / 4) as usize, (rescaled % 4) as usize)
}

// The index of a lag at 12.8 kHz, its fraction not negative.
pub fn index(whole: i32, fraction: i32) -> u32 {
    (match whole {
        ..=126 => 4 * whole + fraction - 128,
        127..=156 => 2 * whole + fraction / 2 + 126,
        _ => whole + 283,
    }) as u32
}

// The gain that a frame's bits allow, with its row; none where the gain is off.
pub fn gain(config: &Config, nbits: u32) -> Option<(f32, usize)> {
    let t = if config.ten_ms { nbits } else { (4 * nbits + 1) / 3 };
    let b = 80 * config.rate.fs_ind;
    if t < 320 + b {
        Some((0.4, 0))
    } else if t < 400 + b {
        Some((0.35, 1))
    } else if t < 480 + b {
        Some((0.3, 2))
    } else if t < 560 + b {
        Some((0.25, 3))
    } else {
        None
    }
}
