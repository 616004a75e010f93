//! The Rust, unchanged, with stand-ins for the modules whose text is not at hand.
//! Empty where the Rust is not there.
#![cfg(oracle)]
#![allow(dead_code, unused_imports, clippy::all)]

include!(concat!(env!("OUT_DIR"), "/modules.rs"));

#[derive(Debug, Clone, Copy, PartialEq, Eq)]
pub enum Error {
    InvalidBitstream,
    UnexpectedEof,
    Unsupported,
}

pub mod frame_buf {
    pub trait Px: Copy {
        fn get(self) -> i32;
        fn put(v: i32) -> Self;
    }

    impl Px for u8 {
        #[inline(always)]
        fn get(self) -> i32 {
            self as i32
        }
        #[inline(always)]
        fn put(v: i32) -> Self {
            v as u8
        }
    }

    impl Px for u16 {
        #[inline(always)]
        fn get(self) -> i32 {
            self as i32
        }
        #[inline(always)]
        fn put(v: i32) -> Self {
            v as u16
        }
    }

    impl Px for i32 {
        #[inline(always)]
        fn get(self) -> i32 {
            self
        }
        #[inline(always)]
        fn put(v: i32) -> Self {
            v
        }
    }
}

pub mod mode_info {
    pub const INTRA_FRAME: i32 = 0;
    pub const LAST_FRAME: i32 = 1;
    pub const GOLDEN_FRAME: i32 = 2;
    pub const ALTREF_FRAME: i32 = 3;

    pub fn tree_decode<F: Fn(usize) -> u8>(
        _: &mut crate::bool_coder::BoolCoder<'_>,
        _: &[i32],
        _: F,
    ) -> Result<i32, crate::Error> {
        unimplemented!()
    }
}

/// Positions at the border: the Rust's own lane kernel on one line.
pub mod sample_filtering {
    #[derive(Debug, Clone, Copy, PartialEq, Eq)]
    pub struct SampleFilterSamples {
        pub p7: i32,
        pub p6: i32,
        pub p5: i32,
        pub p4: i32,
        pub p3: i32,
        pub p2: i32,
        pub p1: i32,
        pub p0: i32,
        pub q0: i32,
        pub q1: i32,
        pub q2: i32,
        pub q3: i32,
        pub q4: i32,
        pub q5: i32,
        pub q6: i32,
        pub q7: i32,
    }

    pub type SampleFilterOutput = SampleFilterSamples;

    #[rustfmt::skip]
    pub fn sample_filtering(
        s: &SampleFilterSamples,
        limit: u8,
        blimit: u8,
        thresh: u8,
        f_size: u8,
        bit_depth: u8,
    ) -> SampleFilterOutput {
        let mut row = [
            s.p7, s.p6, s.p5, s.p4, s.p3, s.p2, s.p1, s.p0,
            s.q0, s.q1, s.q2, s.q3, s.q4, s.q5, s.q6, s.q7,
        ];
        crate::superblock_loop_filter::hook_line(
            &mut row, limit, blimit, thresh, f_size, bit_depth,
        );
        let [p7, p6, p5, p4, p3, p2, p1, p0, q0, q1, q2, q3, q4, q5, q6, q7] = row;
        SampleFilterOutput { p7, p6, p5, p4, p3, p2, p1, p0, q0, q1, q2, q3, q4, q5, q6, q7 }
    }
}

// What follows is imported by the Rust and never run here.

pub mod bool_coder {
    use crate::Error;

    pub struct BoolCoder<'a>(core::marker::PhantomData<&'a ()>);

    impl<'a> BoolCoder<'a> {
        pub fn init_bool(_: &'a [u8], _: usize) -> Result<Self, Error> {
            unimplemented!()
        }
        pub fn exit_bool(&mut self) -> Result<(), Error> {
            unimplemented!()
        }
    }
}

pub mod bitreader {
    use crate::Error;

    pub struct BitReader<'a>(core::marker::PhantomData<&'a ()>);

    impl<'a> BitReader<'a> {
        pub fn new(_: &'a [u8]) -> Self {
            unimplemented!()
        }
        pub fn read_bits(&mut self, _: u32) -> Result<u32, Error> {
            unimplemented!()
        }
        pub fn read_flag(&mut self) -> Result<bool, Error> {
            unimplemented!()
        }
        pub fn read_signed(&mut self, _: u32) -> Result<i32, Error> {
            unimplemented!()
        }
        pub fn trailing_bits(&mut self) -> Result<(), Error> {
            unimplemented!()
        }
        pub fn position(&self) -> usize {
            unimplemented!()
        }
    }
}

pub mod intra {
    #[derive(Debug)]
    pub struct Plane;

    #[derive(Debug, Clone, Copy)]
    pub struct PredMode;

    pub fn predict_intra(
        _: &mut Plane,
        _: usize,
        _: usize,
        _: bool,
        _: bool,
        _: bool,
        _: u32,
        _: PredMode,
        _: usize,
        _: usize,
        _: u32,
    ) {
        unimplemented!()
    }
}

pub mod reconstruct {
    use crate::intra::{Plane, PredMode};

    pub fn reconstruct_block(
        _: &mut Plane,
        _: usize,
        _: usize,
        _: u32,
        _: &[i64],
        _: i32,
        _: i32,
        _: u8,
        _: bool,
        _: u32,
    ) {
        unimplemented!()
    }

    pub fn tx_type_for_intra(_: PredMode) -> u8 {
        unimplemented!()
    }
}

pub mod tokens {
    #[derive(Debug, Clone)]
    pub struct NonzeroContext {
        pub above: Vec<u8>,
        pub left: Vec<u8>,
    }
}
