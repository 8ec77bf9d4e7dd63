// The given Rust, built unchanged, with a C face for the benchmark: starts and frames, nothing else.
#[path = "../../../oracle/src/common.rs"]
mod common;

// The coefficient tables as constants, as in the full crate.
mod tables {
    pub mod long_term_post_filter_coef {
        include!(env!("BENCH_TABLES"));
    }
}

// What the given files define beyond our use stays unused.
#[allow(dead_code)]
mod files {
    include!(concat!(env!("OUT_DIR"), "/given.rs"));
}

use common::config::{FrameDuration, Lc3Config};
use files::decoder::long_term_post_filter::LongTermPostFilter as Decoder;
use files::decoder::side_info::LongTermPostFilterInfo;
use files::encoder::long_term_post_filter::LongTermPostFilter as Encoder;
use std::slice::{from_raw_parts, from_raw_parts_mut};

fn lc3_config(rate: u32, duration: u32) -> Lc3Config {
    let (n_ms, nf_of_8000) = match duration {
        10000 => (FrameDuration::TenMs, 80),
        _ => (FrameDuration::SevenPointFiveMs, 60),
    };
    let (fs_ind, factor) = match rate {
        8000 => (0, 1),
        16000 => (1, 2),
        24000 => (2, 3),
        32000 => (3, 4),
        _ => (4, 6),
    };
    // 44100 is 48000 throughout in ours, so the Rust goes by 48000 there too: the same work, and the same bits.
    let fs = if rate == 44100 { 48000 } else { rate as usize };
    Lc3Config {
        fs,
        fs_ind,
        n_ms,
        nf: factor * nf_of_8000,
    }
}

// A piece of what an end remembers: a copy of all its pieces can be put back later.
#[repr(C)]
pub struct Piece {
    start: *mut u8,
    bytes: usize,
}

fn piece<T>(values: &mut [T]) -> Piece {
    Piece {
        start: values.as_mut_ptr().cast(),
        bytes: std::mem::size_of_val(values),
    }
}

// Hands an end out for good, with its own bytes as its first piece.
unsafe fn hand_out<T>(end: T, pieces: *mut Piece) -> *mut T {
    let end = Box::into_raw(Box::new(end));
    pieces.write(piece(std::slice::from_mut(&mut *end)));
    end
}

/// A decoder on zeroed buffers, which stay until the program ends.
/// # Safety
/// `pieces` has space for two.
#[no_mangle]
pub unsafe extern "C" fn rust_decoder_start(
    rate: u32,
    duration: u32,
    pieces: *mut Piece,
) -> *mut Decoder<'static> {
    let config = lc3_config(rate, duration);
    let buffer = vec![0.0; Decoder::calc_working_buffer_length(&config)].leak();
    pieces.add(1).write(piece(buffer));
    hand_out(Decoder::new(config, buffer).0, pieces)
}

/// # Safety
/// `decoder` comes from `rust_decoder_start`, and `samples` are `count` floats of one frame.
#[no_mangle]
pub unsafe extern "C" fn rust_decoder_frame(
    decoder: *mut Decoder<'static>,
    present: u32,
    index: u32,
    active: u32,
    nbits: u32,
    samples: *mut f32,
    count: usize,
) {
    let info = LongTermPostFilterInfo::new(active != 0, present != 0, index as usize);
    (*decoder).run(&info, nbits as usize, from_raw_parts_mut(samples, count))
}

/// An encoder on zeroed buffers, which stay until the program ends.
/// # Safety
/// `pieces` has space for three.
#[no_mangle]
pub unsafe extern "C" fn rust_encoder_start(
    rate: u32,
    duration: u32,
    pieces: *mut Piece,
) -> *mut Encoder<'static> {
    let config = lc3_config(rate, duration);
    let (integers, floats) = Encoder::calc_working_buffer_length(&config);
    let (integers, floats) = (vec![0; integers].leak(), vec![0.0; floats].leak());
    pieces.add(1).write(piece(integers));
    pieces.add(2).write(piece(floats));
    hand_out(Encoder::new(config, floats, integers).0, pieces)
}

/// # Safety
/// `encoder` comes from `rust_encoder_start`, `samples` are `count` samples of one frame, and
/// `record` has space for four numbers: present, index, active, bits.
#[no_mangle]
pub unsafe extern "C" fn rust_encoder_frame(
    encoder: *mut Encoder<'static>,
    samples: *const i16,
    count: usize,
    nbits: u32,
    near_nyquist: u32,
    record: *mut u32,
) {
    let result = (*encoder).run(from_raw_parts(samples, count), near_nyquist != 0, nbits as usize);
    let numbers = [
        result.pitch_present as u32,
        result.pitch_index as u32,
        result.ltpf_active as u32,
        result.nbits_ltpf as u32,
    ];
    from_raw_parts_mut(record, 4).copy_from_slice(&numbers)
}
