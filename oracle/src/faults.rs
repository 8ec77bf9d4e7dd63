// The faults that the customer named in the given Rust, and its 44100, each with a smallest input: what the
// given Rust gives and what the scope asks go to standard error, and vectors keep our answers. Beside them stand
// three rare outcomes in which both agree: a root of 0, index 379, and no correlation above 0.0.
use crate::decoder_judge::{first_difference, same_samples, DecoderJudge};
use crate::encoder_judge::EncoderJudge;
use crate::known::reread_from;
use crate::model::decoder::Decoder;
use crate::model::lag::lag;
use crate::model::rates::{Config, RATES, TEN_MS};
use crate::model::{present, Pitch};
use crate::set::Set;
use crate::{given, model};
use std::io::Write;

const BITS: u32 = 100;

fn active(index: u32) -> Pitch {
    present(index, true)
}

// A frame or more of zeros but for the samples named.
fn sparse<T: Copy + Default>(count: usize, named: &[(usize, T)]) -> Vec<T> {
    let mut samples = vec![T::default(); count];
    named.iter().for_each(|(at, value)| samples[*at] = *value);
    samples
}

fn config(hz: u32) -> Config {
    Config::started(hz, TEN_MS).1
}

// What the model gives for a first frame.
fn first_frame(set: &Set, hz: u32, pitch: Pitch, samples: &[f32]) -> Vec<f32> {
    let (_, mut model) = Decoder::start(hz, TEN_MS);
    let fs_ind = model.config.rate.fs_ind as usize;
    let (num, den) = (&set.numerators[fs_ind], &set.denominators[fs_ind]);
    let mut out = samples.to_vec();
    model.frame(num, den, pitch, BITS, &mut out);
    out
}

// Index 0 stands for absence: a record marked active with pitch absent is filtered at the lag of index 0.
fn absent_as_index_0<W: Write>(judge: &mut DecoderJudge<W>, set: &Set) {
    let samples = sparse(80, &[(1, 1.0)]);
    let mut rust = given::Decoder::start(&config(8000), 0.0);
    let theirs = rust.absent_active_frame(BITS, &samples).expect("no panic");
    let ours = first_frame(set, 8000, None, &samples);
    eprintln!("absent as index 0, decoder: 8000 Hz, 10 ms, one frame, sample 1 is 1.0, absent but active, nbits {BITS}");
    eprintln!("  {}", first_difference(&theirs, &ours));
    judge.start(8000, TEN_MS);
    judge.lend(set);
    judge.frame(None, BITS, &samples);
}

// A start on used buffers: the first active frame filters what was there before.
fn uncleared_decoder<W: Write>(judge: &mut DecoderJudge<W>, set: &Set) {
    let zeros = vec![0.0; 80];
    let mut rust = given::Decoder::start(&config(8000), 1.0);
    let theirs = rust.frame(active(0), BITS, &zeros).expect("no panic");
    let ours = first_frame(set, 8000, active(0), &zeros);
    eprintln!("uncleared history, decoder: 8000 Hz, 10 ms, buffer of 1.0, one active frame of zeros, index 0, nbits {BITS}");
    eprintln!("  {}", first_difference(&theirs, &ours));
    judge.start(8000, TEN_MS);
    judge.lend(set);
    judge.frame(active(0), BITS, &vec![1.0; 80]);
    judge.frame(active(0), BITS, &vec![1.0; 80]);
    judge.start(8000, TEN_MS);
    judge.frame(active(0), BITS, &zeros);
}

// Two active frames of other lags at 10 ms, the first of zeros: case 5 rereads what its fade overwrote.
fn overwritten_fade<W: Write>(judge: &mut DecoderJudge<W>, set: &Set, hz: u32, index: u32, samples: &[f32]) {
    let config = config(hz);
    let fs_ind = config.rate.fs_ind as usize;
    let (num, den) = (&set.numerators[fs_ind], &set.denominators[fs_ind]);
    let (_, mut model) = Decoder::start(hz, TEN_MS);
    let mut rust = given::Decoder::start(&config, 0.0);
    let mut ours = vec![0.0; config.frame()];
    model.frame(num, den, active(0), BITS, &mut ours);
    rust.frame(active(0), BITS, &vec![0.0; config.frame()]);
    ours.copy_from_slice(samples);
    model.frame(num, den, active(index), BITS, &mut ours);
    let theirs = rust.frame(active(index), BITS, samples).expect("no panic");
    let (whole, quarter) = lag(config.rate.r, index);
    let named: Vec<(usize, f32)> = samples
        .iter()
        .copied()
        .enumerate()
        .filter(|s| s.1.to_bits() != 0)
        .collect();
    eprintln!("overwritten fade: {hz} Hz, 10 ms, index 0 with zeros, then index {index} (lag {whole}+{quarter}) with {named:?}");
    eprintln!("  {}", first_difference(&theirs, &ours));
    judge.start(hz, TEN_MS);
    judge.lend(set);
    judge.frame(active(0), BITS, &vec![0.0; config.frame()]);
    judge.frame(active(index), BITS, samples);
    judge.frame(active(index), BITS, samples);
}

// 44100: the given Rust has l_den 11 there and leaves out the last entry of each row, where we go by 48000. The
// vectors have the same frames under both rates.
fn shorter_rows_at_44100<W: Write>(judge: &mut DecoderJudge<W>, set: &Set) {
    let samples = sparse(480, &[(0, 1.0)]);
    let mut rust = given::Decoder::of_its_own(&config(44100));
    let theirs = rust.frame(active(0), BITS, &samples).expect("no panic");
    let ours = first_frame(set, 44100, active(0), &samples);
    eprintln!("shorter rows: 44100 Hz, 10 ms, one frame, sample 0 is 1.0, active, index 0, nbits {BITS}");
    eprintln!("  {}", first_difference(&theirs, &ours));
    for hz in [44100, 48000] {
        judge.start(hz, TEN_MS);
        judge.lend(set);
        for index in [0, 511, 511] {
            judge.frame(active(index), BITS, &samples);
        }
    }
}

// For each rate, the first index whose case 5 differs at 10 ms, beside the lag of the scope's list.
fn reread_lags() {
    let mut ones = Set::random(&mut crate::random::Random::new(0));
    ones.numerators
        .iter_mut()
        .chain(&mut ones.denominators)
        .for_each(|row| row.fill(1.0));
    ones.install();
    for rate in RATES {
        for duration in model::rates::DURATIONS {
            let differs: Vec<bool> = (0..512)
                .map(|index| case_5_differs(&ones, rate.hz, duration, index))
                .collect();
            let name = |index: usize| {
                let (whole, quarter) = lag(rate.r, index as u32);
                format!("index {index} (lag {whole}+{quarter})")
            };
            match differs.iter().position(|d| *d) {
                None => eprintln!("case 5 at {} Hz, {duration} us: no index differs", rate.hz),
                Some(first) => eprintln!(
                    "case 5 at {} Hz, {duration} us: {} is the first that differs, {} the last that does not; list: {}",
                    rate.hz,
                    name(first),
                    name(differs.iter().rposition(|d| !*d).expect("short lags agree")),
                    reread_from(rate.hz)
                ),
            }
        }
    }
}

// Whether case 5 differs after an active frame of zeros. The frame is -0.0, then ones: the sign of its
// first sample shows which samples G has read even where the fade factor is 0.
fn case_5_differs(set: &Set, hz: u32, duration: u32, index: u32) -> bool {
    let (_, mut model) = Decoder::start(hz, duration);
    let mut rust = given::Decoder::start(&model.config, 0.0);
    let fs_ind = model.config.rate.fs_ind as usize;
    let (num, den) = (&set.numerators[fs_ind], &set.denominators[fs_ind]);
    let other = if index < 256 { 511 } else { 0 };
    let mut ours = vec![0.0; model.config.frame()];
    model.frame(num, den, active(other), BITS, &mut ours);
    rust.frame(active(other), BITS, &vec![0.0; ours.len()]);
    ours.fill(1.0);
    ours[0] = -0.0;
    let theirs = rust.frame(active(index), BITS, &ours).expect("no panic");
    model.frame(num, den, active(index), BITS, &mut ours);
    !same_samples(&theirs, &ours)
}

// Shows what the given Rust makes of a first frame at 8000 Hz, 10 ms that we refuse.
fn refused_here(what: &str, answer: u8, pitch: Pitch, nbits: u32, samples: &[f32]) {
    let mut rust = given::Decoder::start(&config(8000), 0.0);
    let theirs = rust.frame(pitch, nbits, samples);
    let shown = theirs.map(|s| (s[0], s[1], s[60]));
    eprintln!("refused with {answer}, decoder: 8000 Hz, 10 ms, {what}");
    eprintln!("  Rust: samples 0, 1, 60: {shown:?} (None: it panics)");
}

// Frames that we refuse: the given Rust goes on with them, but panics at index 600 and at 79 samples.
fn refused_frames() {
    let one = sparse(80, &[(0, 1.0)]);
    refused_here(
        "sample 0 is 1.0, active, index 0, nbits 3201",
        6,
        active(0),
        3201,
        &one,
    );
    refused_here("sample 0 is 1.0, active, index 512", 7, active(512), BITS, &one);
    refused_here("sample 0 is 1.0, active, index 600", 7, active(600), BITS, &one);
    for value in [f32::NAN, f32::INFINITY, 1_048_577.0] {
        let samples = sparse(80, &[(1, value)]);
        refused_here(&format!("sample 1 is {value}, absent"), 8, None, BITS, &samples);
        refused_here(
            &format!("sample 1 is {value}, active, index 0"),
            8,
            active(0),
            BITS,
            &samples,
        );
    }
    refused_here("79 samples, absent", 5, None, BITS, &one[..79]);
}

pub fn decoder<W: Write>(judge: &mut DecoderJudge<W>, set: &Set) {
    reread_lags();
    set.install();
    refused_frames();
    absent_as_index_0(judge, set);
    uncleared_decoder(judge, set);
    overwritten_fade(judge, set, 8000, 506, &sparse(80, &[(0, -0.0), (19, 1.0)]));
    overwritten_fade(judge, set, 8000, 511, &sparse(80, &[(19, 1.0)]));
    overwritten_fade(judge, set, 48000, 506, &sparse(480, &[(119, 1.0)]));
    overwritten_fade(judge, set, 44100, 506, &sparse(480, &[(119, 1.0)]));
    shorter_rows_at_44100(judge, set);
}

// Runs the frames of a signal through both, shows both records of the last, and keeps all as vectors.
fn encoder_fault<W: Write>(
    judge: &mut EncoderJudge<W>,
    set: &Set,
    what: &str,
    hz: u32,
    named: &[(usize, i16)],
    frames: usize,
) {
    let config = config(hz);
    let mut rust = given::Encoder::start(&config, 0);
    let samples = sparse(frames * config.frame(), named);
    judge.start(hz, TEN_MS);
    judge.lend(set);
    eprintln!("{what}: {hz} Hz, 10 ms, {frames} frames, zeros but for {named:?}, nbits {BITS}");
    for frame in samples.chunks(config.frame()) {
        let theirs = rust.frame(false, BITS, frame).expect("no panic");
        let ours = judge.frame(false, BITS, frame);
        eprintln!(
            "  Rust: present {}, index {}, active {}, bits {}; ours: {:?}, bits {}",
            theirs.pitch_present,
            theirs.pitch_index,
            theirs.ltpf_active,
            theirs.nbits_ltpf,
            ours.pitch,
            ours.nbits_ltpf
        );
    }
}

// A start on used buffers: silence has a pitch.
fn uncleared_encoder<W: Write>(judge: &mut EncoderJudge<W>, set: &Set) {
    let mut rust = given::Encoder::start(&config(8000), 1);
    let theirs = rust.frame(false, BITS, &[0; 80]).expect("no panic");
    eprintln!("uncleared history, encoder: 8000 Hz, 10 ms, buffers of 1, one frame of zeros, nbits {BITS}");
    judge.start(8000, TEN_MS);
    judge.lend(set);
    judge.frame(false, BITS, &[1000; 80]);
    judge.start(8000, TEN_MS);
    let ours = judge.frame(false, BITS, &[0; 80]);
    eprintln!(
        "  Rust: present {}, index {}, bits {}; ours: {:?}, bits {}",
        theirs.pitch_present, theirs.pitch_index, theirs.nbits_ltpf, ours.pitch, ours.nbits_ltpf
    );
}

// Kept from the Rust: long after a click the energies' product is 0, and a positive ratio is infinite.
fn root_of_0<W: Write>(judge: &mut EncoderJudge<W>, set: &Set) {
    judge.start(8000, TEN_MS);
    judge.lend(set);
    judge.frame(false, BITS, &sparse(80, &[(0, 1)]));
    let silence = (1..200).find(|_| judge.frame(false, BITS, &[0; 80]).doubtful);
    eprintln!(
        "present by a root of 0 (kept): 8000 Hz, 10 ms, one sample of 1, after {silence:?} silent frames"
    );
    judge.frame(false, BITS, &[0; 80]);
}

// The last index before the middle range, 126+3: a correlation interpolation that prefers quarter 3.
fn index_379<W: Write>(judge: &mut EncoderJudge<W>, set: &Set) {
    let mut set = set.clone();
    set.correlation = sparse(31, &[(12, 1.0)]);
    encoder_fault(judge, &set, "index 379 (no fault)", 24000, &[(0, 1), (236, 1)], 2);
}

// Pitch is present while no correlation at 12.8 kHz is above 0.0: the search stays at its first lag, 224.
fn none_above_0<W: Write>(judge: &mut EncoderJudge<W>, set: &Set) {
    let mut set = set.clone();
    set.resampling.fill(0.0);
    set.resampling[112..127].fill(0.05);
    let what = "no correlation above 0.0 (no fault)";
    encoder_fault(judge, &set, what, 8000, &[(43, 1), (186, 1)], 3);
}

// Shows what the given Rust makes of a first frame at 8000 Hz, 10 ms with samples 39 = 1 and 58 = -1.
fn refused_encoder_frame(answer: u8, nbits: u32, count: usize) {
    let mut rust = given::Encoder::start(&config(8000), 0);
    let shown = rust
        .frame(false, nbits, &sparse(count, &[(39, 1), (58, -1)]))
        .map(|r| (r.pitch_present, r.pitch_index, r.ltpf_active, r.nbits_ltpf));
    eprintln!(
        "refused with {answer}, encoder: 8000 Hz, 10 ms, {count} samples, 39 = 1 and 58 = -1, nbits {nbits}"
    );
    eprintln!("  Rust: present, index, active, bits: {shown:?} (None: it panics)");
}

pub fn encoder<W: Write>(judge: &mut EncoderJudge<W>, set: &Set) {
    set.install();
    refused_encoder_frame(6, 3201, 80);
    refused_encoder_frame(5, BITS, 79);
    encoder_fault(judge, set, "absent as index 0, silence", 8000, &[], 1);
    encoder_fault(
        judge,
        set,
        "absent as index 0, a pitch of lag 32",
        8000,
        &[(39, 1), (58, -1)],
        1,
    );
    encoder_fault(
        judge,
        set,
        "active flag with pitch absent",
        8000,
        &[(0, 1), (54, 6), (139, 4)],
        2,
    );
    encoder_fault(judge, set, "lags 127 to 156", 16000, &[(0, 1), (159, 1)], 2);
    encoder_fault(judge, set, "lags 127 to 156", 8000, &[(0, 1), (80, 1)], 2);
    uncleared_encoder(judge, set);
    root_of_0(judge, set);
    index_379(judge, set);
    none_above_0(judge, set);
}
