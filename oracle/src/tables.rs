// What the given Rust imports from its crate's `tables`: coefficient tables under its names.
// There they are constants; here they are filled at run time, so that any set can be tried.
pub mod long_term_post_filter_coef {
    use std::cell::UnsafeCell;
    use std::ops::Index;

    // A table that the given Rust reads like an array, and that `fill` overwrites.
    pub struct Table<T, const N: usize>(UnsafeCell<[T; N]>);

    // The program has one thread.
    unsafe impl<T, const N: usize> Sync for Table<T, N> {}

    impl<T: Copy, const N: usize> Table<T, N> {
        const fn new(value: T) -> Self {
            Table(UnsafeCell::new([value; N]))
        }

        // Overwrites the table. No reference into it is alive between two calls of the given Rust.
        pub fn fill(&self, values: [T; N]) {
            unsafe { *self.0.get() = values }
        }
    }

    impl<T, const N: usize> Index<usize> for Table<T, N> {
        type Output = T;

        fn index(&self, index: usize) -> &T {
            unsafe { &(*self.0.get())[index] }
        }
    }

    pub type Row<const N: usize> = Table<f32, N>;
    pub type Rows<const N: usize> = Table<[f32; N], 4>;

    pub static TAB_RESAMP_FILTER: Row<239> = Table::new(0.0);
    pub static TAB_LTPF_INTERP_R: Row<31> = Table::new(0.0);
    pub static TAB_LTPF_INTERP_X12K8: Row<15> = Table::new(0.0);
    pub static TAB_LTPF_NUM_8000: Rows<3> = Table::new([0.0; 3]);
    pub static TAB_LTPF_NUM_16000: Rows<3> = Table::new([0.0; 3]);
    pub static TAB_LTPF_NUM_24000: Rows<5> = Table::new([0.0; 5]);
    pub static TAB_LTPF_NUM_32000: Rows<7> = Table::new([0.0; 7]);
    pub static TAB_LTPF_NUM_48000: Rows<11> = Table::new([0.0; 11]);
    pub static TAB_LTPF_DEN_8000: Rows<5> = Table::new([0.0; 5]);
    pub static TAB_LTPF_DEN_16000: Rows<5> = Table::new([0.0; 5]);
    pub static TAB_LTPF_DEN_24000: Rows<7> = Table::new([0.0; 7]);
    pub static TAB_LTPF_DEN_32000: Rows<9> = Table::new([0.0; 9]);
    pub static TAB_LTPF_DEN_48000: Rows<13> = Table::new([0.0; 13]);
}
