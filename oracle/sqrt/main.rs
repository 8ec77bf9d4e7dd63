// What `test_root` must write, by the standard library's `f32::sqrt`, which is IEEE 754's correctly
// rounded root. Build and run: rustc -O oracle/sqrt/main.rs -o root_oracle && ./root_oracle spread

// Patterns by the rule that crates/test_root/src/main.rt states.
fn spread() -> Vec<u32> {
    let mut inputs = vec![
        0.0f32.to_bits(),
        (-0.0f32).to_bits(),
        1,
        f32::MIN_POSITIVE.to_bits() - 1,
        f32::MIN_POSITIVE.to_bits(),
        f32::MAX.to_bits(),
        f32::INFINITY.to_bits(),
        f32::NEG_INFINITY.to_bits(),
        0x7fc0_0000,
        (-1.0f32).to_bits(),
        0.25f32.to_bits(),
        1.0f32.to_bits(),
        2.0f32.to_bits(),
        3.0f32.to_bits(),
        4.0f32.to_bits(),
        1.0f32.to_bits() - 1,
    ];
    for field in 0..512u32 {
        for near in -2i32..=2 {
            inputs.push((field << 23).wrapping_add_signed(near));
        }
    }
    for power in 0..23 {
        for near in -1i32..=1 {
            inputs.push((1u32 << power).wrapping_add_signed(near));
        }
    }
    for significand in 2048..4096 {
        inputs.push(((significand * significand) as f32).to_bits());
    }
    for step in 0..100_000u32 {
        inputs.push(step.wrapping_mul(2_654_435_769) / 2);
    }
    inputs
}

fn run(inputs: impl Iterator<Item = u32>, sample: u64) {
    let mut count = 0u64;
    let mut sum = 0u64;
    for b in inputs {
        let x = f32::from_bits(b);
        let root = if x >= 0.0 { Some(x.sqrt().to_bits()) } else { None };
        if count < 16 || count % sample == 0 {
            match root {
                Some(r) => println!("{b:08x} {r:08x}"),
                None => println!("{b:08x} none"),
            }
        }
        count += 1;
        sum = (sum * 1_000_003 + root.unwrap_or(u32::MAX) as u64) % 4_294_967_291;
    }
    println!("inputs {count} checksum {sum}");
}

fn main() {
    match std::env::args().nth(1).as_deref() {
        Some("spread") => run(spread().into_iter(), 1021),
        // all significands of the floats from 1 up to 4
        Some("whole") => run(1f32.to_bits()..4f32.to_bits(), 1_048_573),
        Some("every") => run(0..=u32::MAX, 67_108_859),
        _ => eprintln!("usage: root_oracle spread | whole | every"),
    }
}
