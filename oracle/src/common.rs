// What the given Rust imports from its crate's `common`: the float type and the configuration.
pub mod complex {
    pub type Scaler = f32;
}

pub mod config {
    #[derive(Clone, Copy, Debug, PartialEq, Eq)]
    pub enum FrameDuration {
        TenMs,
        SevenPointFiveMs,
    }

    #[derive(Clone, Copy, Debug)]
    pub struct Lc3Config {
        pub fs: usize,
        pub fs_ind: usize,
        pub n_ms: FrameDuration,
        pub nf: usize,
    }
}
