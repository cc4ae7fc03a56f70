//! The ported Rust, included as build.rs prepared it, each file in the module that it names itself by.
//! Functions after an `include!` are ours: they reach what is private to the module.

#[allow(dead_code, clippy::all)]
pub mod uncompressed_header_tail {
    include!(concat!(env!("OUT_DIR"), "/uncompressed_header_tail.rs"));

    pub fn read(
        br: &mut BitReader<'_>,
        intra: bool,
        high: bool,
        prior: &[[i32; 6]; TOTAL_REFS_PER_FRAME],
    ) -> Result<GlobalMotionParams, Error> {
        read_global_motion_params(br, intra, high, prior)
    }
}

pub mod encoder {
    #[allow(dead_code, clippy::all)]
    pub mod bitwriter {
        include!(concat!(env!("OUT_DIR"), "/bitwriter.rs"));
    }

    pub mod frame_obu {
        use crate::encoder::bitwriter::BitWriter;
        use crate::uncompressed_header_tail::{
            GM_ABS_ALPHA_BITS, GM_ABS_TRANS_BITS, GM_ABS_TRANS_ONLY_BITS, GM_ALPHA_PREC_BITS, GM_TRANS_ONLY_PREC_BITS,
            GM_TRANS_PREC_BITS, GlobalMotionParams, TOTAL_REFS_PER_FRAME, WARPEDMODEL_PREC_BITS, WarpModelType,
        };

        include!(concat!(env!("OUT_DIR"), "/frame_obu.rs"));

        pub fn write(
            bw: &mut BitWriter,
            gm: &GlobalMotionParams,
            high: bool,
            prior: &[[i32; 6]; TOTAL_REFS_PER_FRAME],
        ) {
            encode_inter_global_motion(bw, gm, high, prior);
        }

        pub fn write_coefficient(
            bw: &mut BitWriter,
            gm_type: WarpModelType,
            high: bool,
            slot: usize,
            prior: i32,
            value: i32,
        ) {
            let priors = [[prior; 6]; TOTAL_REFS_PER_FRAME];
            write_global_param(bw, gm_type, high, &priors, 1, slot, value);
        }
    }

    #[allow(dead_code, clippy::all)]
    pub mod global_motion {
        include!(concat!(env!("OUT_DIR"), "/global_motion.rs"));

        pub fn samples(numbers: impl Iterator<Item = [f64; 4]>) -> Vec<MotionSample> {
            numbers.map(|[x, y, u, v]| MotionSample { x, y, u, v }).collect()
        }

        pub fn search(input: &[u16], reference: &[u16], width: usize, height: usize) -> Vec<[f64; 4]> {
            let found = collect_motion_samples(input, reference, width, height);
            found.iter().map(|s| [s.x, s.y, s.u, s.v]).collect()
        }

        pub fn half_plane(plane: &[u16], width: usize, height: usize) -> Vec<u16> {
            include!(concat!(env!("OUT_DIR"), "/half_plane.rs"))
        }

        pub fn fit(gm_type: WarpModelType, samples: &[MotionSample]) -> Option<[f64; 6]> {
            let model = match gm_type {
                WarpModelType::Identity => None,
                WarpModelType::Translation => Some(fit_translation(samples)),
                WarpModelType::RotZoom => fit_rotzoom(samples),
                WarpModelType::Affine => fit_affine(samples),
            };
            model.map(|model| model.m)
        }

        pub fn solve<const N: usize>(a: [[f64; N]; N], b: [f64; N]) -> Option<[f64; N]> {
            solve_linear(a, b)
        }

        pub fn score(params: &[i32; 6], samples: &[MotionSample]) -> f64 {
            mean_sq_residual(&continuous_of_params(params), samples)
        }

        pub fn grid_number(t: f64) -> i32 {
            let scale = f64::from(1i32 << WARPEDMODEL_PREC_BITS);
            include!(concat!(env!("OUT_DIR"), "/grid_number.rs"))
        }

        /// The last fit made, how many samples it used, and the quantized model.
        pub fn trimmed(
            gm_type: WarpModelType,
            samples: &[MotionSample],
            allow_high_precision_mv: bool,
        ) -> Option<([f64; 6], usize, [i32; 6])> {
            include!(concat!(env!("OUT_DIR"), "/trimmed.rs"))
        }

        /// How far each sample lies from a model.
        pub fn residuals(m: &[f64; 6], samples: &[MotionSample]) -> Vec<f64> {
            let first = ContinuousModel { m: *m };
            include!(concat!(env!("OUT_DIR"), "/residuals.rs"))
        }

        pub fn elect(samples: &[MotionSample], high: bool) -> (WarpModelType, [i32; 6]) {
            estimate_global_motion(samples, high)
        }

        pub fn quantize(m: &[f64; 6], gm_type: WarpModelType, high: bool, samples: &[MotionSample]) -> [i32; 6] {
            quantize_model(&ContinuousModel { m: *m }, gm_type, high, samples)
        }
    }
}
