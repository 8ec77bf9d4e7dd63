// A coefficient set: all tables of the standard, read from a file or drawn at random.
use crate::random::Random;
use crate::tables::long_term_post_filter_coef::*;

#[derive(Clone)]
pub struct Set {
    pub resampling: Vec<f32>,
    pub correlation: Vec<f32>,
    pub signal: Vec<f32>,
    // For fs_ind 0 to 4, four rows one after another.
    pub numerators: Vec<Vec<f32>>,
    pub denominators: Vec<Vec<f32>>,
}

const RATE_NAMES: [&str; 5] = ["8000", "16000", "24000", "32000", "48000"];
const ROW_LENGTHS: [(usize, usize); 5] = [(3, 5), (3, 5), (5, 7), (7, 9), (11, 13)];

// One table of the text: lines of table, row, entry, value and bits, rows one after another.
fn table(text: &str, name: &str, rows: usize, length: usize) -> Result<Vec<f32>, String> {
    let mut values = vec![];
    for line in text.lines() {
        let fields: Vec<&str> = line.split('\t').collect();
        if fields[0] != name {
            continue;
        }
        let place = [
            (values.len() / length).to_string(),
            (values.len() % length).to_string(),
        ];
        let bits = fields.get(4).and_then(|b| u32::from_str_radix(b, 16).ok());
        let value = fields.get(3).and_then(|v| v.parse::<f32>().ok());
        match (bits, value) {
            (Some(b), Some(v)) if b == v.to_bits() && fields[1..3] == place => values.push(v),
            _ => return Err(format!("coefficients: cannot take the line {line:?}")),
        }
    }
    if values.len() != rows * length {
        return Err(format!("coefficients: {name} has {} entries", values.len()));
    }
    Ok(values)
}

impl Set {
    pub fn read(file: &str) -> Result<Set, String> {
        let text = std::fs::read_to_string(file).map_err(|e| format!("{file}: {e}"))?;
        let mut set = Set {
            resampling: table(&text, "resampling", 1, 239)?,
            correlation: table(&text, "correlation_interpolation", 1, 31)?,
            signal: table(&text, "signal_interpolation", 1, 15)?,
            numerators: vec![],
            denominators: vec![],
        };
        for (name, (num, den)) in RATE_NAMES.iter().zip(ROW_LENGTHS) {
            set.numerators
                .push(table(&text, &format!("numerator_{name}"), 4, num)?);
            set.denominators
                .push(table(&text, &format!("denominator_{name}"), 4, den)?);
        }
        Ok(set)
    }

    // A set of one character throughout, so that every character meets every signal.
    pub fn random(random: &mut Random) -> Set {
        let character = random.below(16);
        let mut draw = |n: usize| {
            let scale = 10f64.powf(-44.0 + 82.0 * random.unit());
            (0..n)
                .map(|_| coefficient(random, character, scale))
                .collect::<Vec<f32>>()
        };
        Set {
            resampling: draw(239),
            correlation: draw(31),
            signal: draw(15),
            numerators: ROW_LENGTHS.iter().map(|l| draw(4 * l.0)).collect(),
            denominators: ROW_LENGTHS.iter().map(|l| draw(4 * l.1)).collect(),
        }
    }

    // Puts the set where the given Rust reads it.
    pub fn install(&self) {
        TAB_RESAMP_FILTER.fill(self.resampling[..].try_into().unwrap());
        TAB_LTPF_INTERP_R.fill(self.correlation[..].try_into().unwrap());
        TAB_LTPF_INTERP_X12K8.fill(self.signal[..].try_into().unwrap());
        fill_rows(&TAB_LTPF_NUM_8000, &self.numerators[0]);
        fill_rows(&TAB_LTPF_NUM_16000, &self.numerators[1]);
        fill_rows(&TAB_LTPF_NUM_24000, &self.numerators[2]);
        fill_rows(&TAB_LTPF_NUM_32000, &self.numerators[3]);
        fill_rows(&TAB_LTPF_NUM_48000, &self.numerators[4]);
        fill_rows(&TAB_LTPF_DEN_8000, &self.denominators[0]);
        fill_rows(&TAB_LTPF_DEN_16000, &self.denominators[1]);
        fill_rows(&TAB_LTPF_DEN_24000, &self.denominators[2]);
        fill_rows(&TAB_LTPF_DEN_32000, &self.denominators[3]);
        fill_rows(&TAB_LTPF_DEN_48000, &self.denominators[4]);
    }
}

fn fill_rows<const N: usize>(rows: &Rows<N>, flat: &[f32]) {
    rows.fill(std::array::from_fn(|row| {
        flat[row * N..(row + 1) * N].try_into().unwrap()
    }));
}

// A float of any bits but those of infinities and NaNs.
pub fn any_finite(random: &mut Random) -> f32 {
    loop {
        let value = f32::from_bits(random.bits() as u32);
        if value.is_finite() {
            return value;
        }
    }
}

// One coefficient of a set's character: mostly ordinary, then of its table's own scale, then at the
// edges of what is finite.
fn coefficient(random: &mut Random, character: usize, scale: f64) -> f32 {
    let ordinary = random.signed();
    match character {
        0..=4 => ordinary as f32,
        5..=7 => 0.2 * ordinary as f32,
        8..=10 => (scale * ordinary) as f32,
        11 => any_finite(random),
        12 => f32::MAX * ordinary as f32,
        13 => random.pick(&[0.0, -0.0, 1.0, -1.0]),
        14 => f32::from_bits((random.bits() as u32) & 0x807f_ffff),
        _ if random.one_in(20) => any_finite(random),
        _ => ordinary as f32,
    }
}
