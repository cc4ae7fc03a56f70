//! Our own text for the files that the ported Rust names and that aren't published with it.
//! README.md says which answers rest on each.

/// stand-in: the crate's error type. The header reading only meets `UnexpectedEnd`.
#[derive(Debug)]
pub enum Error {
    UnexpectedEnd,
    FilmGrainPointCountOverflow,
}

pub mod frame_header {
    /// stand-in: standard, section 3. Only the segmentation reading uses it.
    pub const PRIMARY_REF_NONE: u8 = 7;
}

/// stand-in: the shear of a warp, written from clauses 7.11.3.6 and 7.11.3.7 and section 4.7, with the standard's names.
pub mod inter_pred {
    const WARPEDMODEL_PREC_BITS: u32 = 16;
    const WARP_PARAM_REDUCE_BITS: u32 = 6;
    const DIV_LUT_BITS: u32 = 8;
    const DIV_LUT_PREC_BITS: u32 = 14;

    /// stand-in: the answer of `setup_shear`.
    pub struct Shear {
        pub warp_valid: bool,
        pub alpha: i32,
        pub beta: i32,
        pub gamma: i32,
        pub delta: i32,
    }

    /// Section 4.7.
    fn round2(x: u64, n: u32) -> u64 {
        if n == 0 { x } else { (x + (1 << (n - 1))) >> n }
    }

    fn round2_signed(x: i64, n: u32) -> i64 {
        if x >= 0 { round2(x as u64, n) as i64 } else { -(round2(-x as u64, n) as i64) }
    }

    /// Div_Lut: 4,194,304 / (256 + f), to the nearest.
    fn div_lut(f: u64) -> i64 {
        (2 * (1 << (DIV_LUT_BITS + DIV_LUT_PREC_BITS)) + (256 + f as i64)) / (2 * (256 + f as i64))
    }

    /// Clause 7.11.3.7: divShift and divFactor.
    fn resolve_divisor(d: i64) -> (u32, i64) {
        let n = d.unsigned_abs().ilog2();
        let e = d.unsigned_abs() - (1 << n);
        let f = if n > DIV_LUT_BITS { round2(e, n - DIV_LUT_BITS) } else { e << (DIV_LUT_BITS - n) };
        (n + DIV_LUT_PREC_BITS, if d < 0 { -div_lut(f) } else { div_lut(f) })
    }

    /// Clause 7.11.3.6. `None` for a divisor that is not above 0, of which the clause says nothing.
    pub fn setup_shear(params: [i32; 6]) -> Option<Shear> {
        let [_, _, p2, p3, p4, p5] = params.map(i64::from);
        if p2 <= 0 {
            return None;
        }
        let clamped = |x: i64| x.clamp(-32768, 32767);
        let (div_shift, div_factor) = resolve_divisor(p2);
        let alpha0 = clamped(p2 - (1 << WARPEDMODEL_PREC_BITS));
        let beta0 = clamped(p3);
        let v = p4 << WARPEDMODEL_PREC_BITS;
        let gamma0 = clamped(round2_signed(v * div_factor, div_shift));
        let w = p3 * p4;
        let delta0 = clamped(p5 - round2_signed(w * div_factor, div_shift) - (1 << WARPEDMODEL_PREC_BITS));
        let reduced = |x: i64| round2_signed(x, WARP_PARAM_REDUCE_BITS) << WARP_PARAM_REDUCE_BITS;
        let [alpha, beta, gamma, delta] = [alpha0, beta0, gamma0, delta0].map(reduced);
        let under = |sum: i64| sum < 1 << WARPEDMODEL_PREC_BITS;
        let warp_valid = under(4 * alpha.abs() + 7 * beta.abs()) && under(4 * gamma.abs() + 4 * delta.abs());
        let [alpha, beta, gamma, delta] = [alpha, beta, gamma, delta].map(|x| x as i32);
        Some(Shear { warp_valid, alpha, beta, gamma, delta })
    }
}

pub mod bitreader {
    use super::Error;

    /// stand-in: reads bits from a slice, high bit first (standard, 4.10 and 8.1).
    pub struct BitReader<'a> {
        bytes: &'a [u8],
        position: usize,
    }

    impl<'a> BitReader<'a> {
        pub fn new(bytes: &'a [u8]) -> Self {
            Self::at(bytes, 0)
        }

        pub fn at(bytes: &'a [u8], position: usize) -> Self {
            Self { bytes, position }
        }

        pub fn position(&self) -> usize {
            self.position
        }

        fn bit(&mut self) -> Result<u64, Error> {
            let byte = self.bytes.get(self.position / 8).ok_or(Error::UnexpectedEnd)?;
            let bit = byte >> (7 - self.position % 8) & 1;
            self.position += 1;
            Ok(u64::from(bit))
        }

        /// Clause 4.10.2.
        pub fn f(&mut self, n: u32) -> Result<u64, Error> {
            let mut value = 0;
            for _ in 0..n {
                value = 2 * value + self.bit()?;
            }
            Ok(value)
        }

        /// Clause 4.10.6.
        pub fn su(&mut self, n: u32) -> Result<i32, Error> {
            let value = self.f(n)? as i64;
            let sign = 1i64 << (n - 1);
            Ok((if value & sign != 0 { value - 2 * sign } else { value }) as i32)
        }

        /// Clause 4.10.7.
        pub fn ns(&mut self, n: u32) -> Result<u32, Error> {
            let w = n.ilog2() + 1;
            let m = (1u64 << w) - u64::from(n);
            let v = self.f(w - 1)?;
            if v < m {
                return Ok(v as u32);
            }
            let extra_bit = self.f(1)?;
            Ok(((v << 1) - m + extra_bit) as u32)
        }
    }
}
