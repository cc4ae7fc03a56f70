//! The static library's calls, and nothing else that is unsafe.
//!
//! Each function here is safe for every argument, for the same four reasons:
//! - a slice passes as its own pointer and length, so the library may read all of it, and write all of it where it
//!   is `&mut`; the pointer is never null and always aligned, for an empty slice too;
//! - `&mut` arguments overlap no other argument, since the borrow checker lets no such call through;
//! - no call has a condition on its arguments: each is proved for all lengths and all values, to write inside the
//!   lent slices alone, to end, and to keep no pointer;
//! - structs are `#[repr(C)]` here and there, with the same fields; every bit pattern of them is a value.
//!
//! The comment at each call says what is particular to it.

use crate::model::{Model, MotionSample, StoredModel};

/// The count of bytes that `list_block` may write.
pub const TEXT_BYTES: usize = 4096;

#[repr(C)]
pub struct Searched {
    pub refusal: u32,
    pub samples: usize,
    pub rows: u32,
}

#[repr(C)]
pub struct FitAnswer {
    pub refusal: u32,
    pub numbers: [f64; 6],
}

#[repr(C)]
pub struct Params {
    pub numbers: [i32; 6],
}

#[repr(C)]
pub struct ToQuantize {
    pub gm_type: u8,
    pub flag: u8,
    pub numbers: [f64; 6],
}

#[repr(C)]
pub struct ToTrim {
    pub gm_type: u8,
    pub flag: u8,
}

#[repr(C)]
pub struct QuantizedModel {
    pub refusal: u32,
    pub params: Model,
}

#[repr(C)]
pub struct Trimmed {
    pub refusal: u32,
    pub used: u32,
    pub numbers: [f64; 6],
}

#[repr(C)]
pub struct TrimmedModel {
    pub refusal: u32,
    pub used: u32,
    pub params: Model,
}

#[repr(C)]
pub struct Elected {
    pub refusal: u32,
    pub gm_type: u8,
    pub params: StoredModel,
    pub score: f64,
}

#[repr(C)]
pub struct QuantizedParam {
    pub refusal: u32,
    pub value: i32,
}

#[repr(C)]
pub struct Shear {
    pub refusal: u32,
    pub valid: u32,
    pub alpha: i32,
    pub beta: i32,
    pub gamma: i32,
    pub delta: i32,
}

#[repr(C)]
pub struct PriceList {
    pub refusal: u32,
    pub lengths: usize,
    pub ordinals: [u32; 20],
}

#[repr(C)]
pub struct Price {
    pub refusal: u32,
    pub bits: usize,
}

#[repr(C)]
pub struct Made {
    pub refusal: u32,
    pub pels: usize,
}

#[repr(C)]
pub struct Score {
    pub refusal: u32,
    pub score: f64,
}

#[repr(C)]
pub struct Stored {
    pub refusal: u32,
    pub blocks: usize,
}

#[repr(C)]
pub struct FrameRead {
    pub refusal: u32,
    pub frame: u16,
    pub samples: usize,
}

#[repr(C)]
pub struct BlockRead {
    pub refusal: u32,
    pub frame: u16,
    pub ordinal: usize,
    pub count: usize,
}

#[repr(C)]
pub struct Written {
    pub refusal: u32,
    pub bits: usize,
}

#[repr(C)]
pub struct Models {
    pub refusal: u32,
    pub types: [u8; 7],
    pub params: [StoredModel; 7],
    pub bits: usize,
}

#[repr(C)]
pub struct Settings {
    pub frame: u16,
    pub gm_type: u8,
    pub reference: u8,
    pub flag: u8,
    pub trim: u8,
    pub elect: u8,
    pub set: u8,
    pub start: usize,
}

#[repr(C)]
pub struct Report {
    pub refusal: u32,
    pub types: [u8; 7],
    pub models: [StoredModel; 7],
    pub score: f64,
    pub bits: usize,
    pub samples: usize,
}

/// Its own models, whatever they are: the library judges them.
#[repr(C)]
#[derive(Clone, Copy, Debug, PartialEq, Eq)]
pub struct Run {
    pub prior: [StoredModel; 7],
    pub flag: u8,
    pub form: u32,
}

#[repr(C)]
pub struct Moved {
    pub refusal: u32,
    pub run: Run,
}

#[repr(C)]
pub struct Framed {
    pub written: Written,
    pub run: Run,
}

#[repr(C)]
pub struct FrameModels {
    pub models: Models,
    pub run: Run,
}

#[repr(C)]
pub struct JobDone {
    pub report: Report,
    pub run: Run,
}

unsafe extern "C" {
    fn belt_collect_motion_samples(
        input_y: *const u16,
        input_pels: usize,
        ref_y: *const u16,
        ref_pels: usize,
        width: usize,
        height: usize,
        classes: *const u8,
        class_count: usize,
        input_half: *mut u16,
        input_half_pels: usize,
        ref_half: *mut u16,
        ref_half_pels: usize,
        words: *mut u32,
        word_count: usize,
    ) -> Searched;
    fn belt_half_plane(
        plane: *const u16,
        plane_pels: usize,
        width: usize,
        height: usize,
        out: *mut u16,
        out_room: usize,
    ) -> u32;
    fn belt_search_band(
        input: *const u16,
        input_pels: usize,
        reference: *const u16,
        reference_pels: usize,
        width: usize,
        height: usize,
        input_half: *const u16,
        input_half_pels: usize,
        ref_half: *const u16,
        ref_half_pels: usize,
        first: usize,
        end: usize,
        words: *mut u32,
        word_room: usize,
    ) -> Searched;
    fn belt_fit_translation(words: *const u32, count: usize) -> FitAnswer;
    fn belt_fit_rotzoom(words: *const u32, count: usize) -> FitAnswer;
    fn belt_fit_affine(words: *const u32, count: usize) -> FitAnswer;
    fn belt_fit_trimmed(gm_type: u8, words: *const u32, count: usize) -> Trimmed;
    fn belt_quantize_trimmed(gm_type: u8, flag: u8, words: *const u32, count: usize) -> TrimmedModel;
    fn belt_elect(flag: u8, words: *const u32, count: usize) -> Elected;
    fn belt_quantize_model(
        gm_type: u8,
        numbers: *const [f64; 6],
        flag: u8,
        words: *const u32,
        count: usize,
    ) -> QuantizedModel;
    fn belt_mean_sq_residual(params: *const [i32; 6], words: *const u32, count: usize) -> Score;
    fn belt_fit_by_class(
        set: u8,
        gm_type: u8,
        words: *const u32,
        count: usize,
        classes: *const u8,
        class_count: usize,
    ) -> FitAnswer;
    fn belt_quantize_by_class(
        set: u8,
        gm_type: u8,
        numbers: *const [f64; 6],
        flag: u8,
        words: *const u32,
        count: usize,
        classes: *const u8,
        class_count: usize,
    ) -> QuantizedModel;
    fn belt_score_by_class(
        set: u8,
        params: *const [i32; 6],
        words: *const u32,
        count: usize,
        classes: *const u8,
        class_count: usize,
    ) -> Score;
    fn belt_fit_trimmed_by_class(
        set: u8,
        gm_type: u8,
        words: *const u32,
        count: usize,
        classes: *const u8,
        class_count: usize,
    ) -> Trimmed;
    fn belt_quantize_trimmed_by_class(
        set: u8,
        gm_type: u8,
        flag: u8,
        words: *const u32,
        count: usize,
        classes: *const u8,
        class_count: usize,
    ) -> TrimmedModel;
    fn belt_elect_by_class(
        set: u8,
        flag: u8,
        words: *const u32,
        count: usize,
        classes: *const u8,
        class_count: usize,
    ) -> Elected;
    fn belt_fit_translation_samples(samples: *const MotionSample, count: usize) -> FitAnswer;
    fn belt_fit_rotzoom_samples(samples: *const MotionSample, count: usize) -> FitAnswer;
    fn belt_fit_affine_samples(samples: *const MotionSample, count: usize) -> FitAnswer;
    fn belt_quantize_model_samples(samples: *const MotionSample, count: usize, model: ToQuantize) -> QuantizedModel;
    fn belt_mean_sq_residual_samples(samples: *const MotionSample, count: usize, model: Params) -> Score;
    fn belt_fit_trimmed_samples(samples: *const MotionSample, count: usize, gm_type: u8) -> Trimmed;
    fn belt_quantize_trimmed_samples(samples: *const MotionSample, count: usize, codes: ToTrim) -> TrimmedModel;
    fn belt_elect_samples(samples: *const MotionSample, count: usize, flag: u8) -> Elected;
    fn belt_fit_samples_by_class(
        set: u8,
        gm_type: u8,
        samples: *const MotionSample,
        count: usize,
        classes: *const u8,
        class_count: usize,
    ) -> FitAnswer;
    fn belt_quantize_samples_by_class(
        set: u8,
        model: ToQuantize,
        samples: *const MotionSample,
        count: usize,
        classes: *const u8,
        class_count: usize,
    ) -> QuantizedModel;
    fn belt_score_samples_by_class(
        set: u8,
        model: Params,
        samples: *const MotionSample,
        count: usize,
        classes: *const u8,
        class_count: usize,
    ) -> Score;
    fn belt_fit_trimmed_samples_by_class(
        set: u8,
        gm_type: u8,
        samples: *const MotionSample,
        count: usize,
        classes: *const u8,
        class_count: usize,
    ) -> Trimmed;
    fn belt_quantize_trimmed_samples_by_class(
        set: u8,
        codes: ToTrim,
        samples: *const MotionSample,
        count: usize,
        classes: *const u8,
        class_count: usize,
    ) -> TrimmedModel;
    fn belt_elect_samples_by_class(
        set: u8,
        flag: u8,
        samples: *const MotionSample,
        count: usize,
        classes: *const u8,
        class_count: usize,
    ) -> Elected;
    fn belt_quantize_global_param(gm_type: u8, flag: u8, slot: u8, value: i32) -> QuantizedParam;
    fn belt_write_frame(
        frame: u16,
        words: *const u32,
        count: usize,
        classes: *const u8,
        class_count: usize,
        blocks: *mut u8,
        room: usize,
    ) -> Stored;
    fn belt_read_both(
        bytes: *const u8,
        length: usize,
        words: *mut u32,
        room: usize,
        classes: *mut u8,
        class_room: usize,
    ) -> FrameRead;
    fn belt_to_form1(bytes: *const u8, length: usize, blocks: *mut u8, room: usize) -> Stored;
    fn belt_to_form2(bytes: *const u8, length: usize, blocks: *mut u8, room: usize) -> Stored;
    fn belt_read_frame(bytes: *const u8, length: usize, words: *mut u32, room: usize) -> FrameRead;
    fn belt_judge_block(bytes: *const u8, length: usize) -> BlockRead;
    fn belt_list_block(bytes: *const u8, length: usize, text: *mut [u8; TEXT_BYTES]) -> usize;
    fn belt_encode_inter_global_motion(
        types: *const u8,
        type_count: usize,
        params: *const i32,
        param_count: usize,
        flag: u8,
        prior: *const i32,
        prior_count: usize,
        start: usize,
        header: *mut u8,
        room: usize,
    ) -> Written;
    fn belt_encode_global_motion(
        intra: bool,
        types: *const u8,
        type_count: usize,
        params: *const i32,
        param_count: usize,
        flag: u8,
        prior: *const i32,
        prior_count: usize,
        start: usize,
        header: *mut u8,
        room: usize,
    ) -> Written;
    fn belt_read_global_motion(
        intra: bool,
        header: *const u8,
        length: usize,
        at: usize,
        flag: u8,
        prior: *const i32,
        prior_count: usize,
    ) -> Models;
    fn belt_coefficient_prices(gm_type: u8, flag: u8, slot: u8, prior: i32) -> PriceList;
    fn belt_frame_price(
        intra: bool,
        types: *const u8,
        type_count: usize,
        params: *const i32,
        param_count: usize,
        flag: u8,
        prior: *const i32,
        prior_count: usize,
    ) -> Price;
    fn belt_read_global_motion_params(
        header: *const u8,
        length: usize,
        at: usize,
        flag: u8,
        prior: *const i32,
        prior_count: usize,
    ) -> Models;
    fn belt_setup_shear(gm_type: u8, params: *const i32, count: usize) -> Shear;
    fn belt_root(x: f64) -> f64;
    fn belt_make_practice_planes(
        seed: u32,
        width: usize,
        height: usize,
        dy: i32,
        dx: i32,
        input: *mut u16,
        input_room: usize,
        reference: *mut u16,
        reference_room: usize,
    ) -> Made;
    fn belt_job(
        input: *const u16,
        input_pels: usize,
        reference: *const u16,
        reference_pels: usize,
        width: usize,
        height: usize,
        settings: Settings,
        classes: *const u8,
        class_count: usize,
        types: *const u8,
        type_count: usize,
        models: *const i32,
        model_count: usize,
        prior: *const i32,
        prior_count: usize,
        input_half: *mut u16,
        input_half_pels: usize,
        ref_half: *mut u16,
        ref_half_pels: usize,
        words: *mut u32,
        word_count: usize,
        blocks: *mut u8,
        blocks_room: usize,
        header: *mut u8,
        header_room: usize,
    ) -> Report;
    fn belt_job_of_words(
        words: *const u32,
        word_count: usize,
        settings: Settings,
        classes: *const u8,
        class_count: usize,
        types: *const u8,
        type_count: usize,
        models: *const i32,
        model_count: usize,
        prior: *const i32,
        prior_count: usize,
        blocks: *mut u8,
        blocks_room: usize,
        header: *mut u8,
        header_room: usize,
    ) -> Report;
    fn belt_run_start(flag: u8, form: u32) -> Moved;
    fn belt_run_switch(run: Run, code: u8) -> Moved;
    fn belt_run_frame(
        run: Run,
        intra: bool,
        types: *const u8,
        type_count: usize,
        params: *const i32,
        param_count: usize,
        start: usize,
        header: *mut u8,
        room: usize,
    ) -> Framed;
    fn belt_run_read(run: Run, intra: bool, header: *const u8, length: usize, at: usize) -> FrameModels;
    fn belt_run_store(
        run: Run,
        frame: u16,
        words: *const u32,
        count: usize,
        classes: *const u8,
        class_count: usize,
        blocks: *mut u8,
        room: usize,
    ) -> Stored;
    fn belt_run_job(
        run: Run,
        input: *const u16,
        input_pels: usize,
        reference: *const u16,
        reference_pels: usize,
        width: usize,
        height: usize,
        settings: Settings,
        classes: *const u8,
        class_count: usize,
        types: *const u8,
        type_count: usize,
        models: *const i32,
        model_count: usize,
        input_half: *mut u16,
        input_half_pels: usize,
        ref_half: *mut u16,
        ref_half_pels: usize,
        words: *mut u32,
        word_count: usize,
        blocks: *mut u8,
        blocks_room: usize,
        header: *mut u8,
        header_room: usize,
    ) -> JobDone;
    fn belt_run_job_of_words(
        run: Run,
        words: *const u32,
        word_count: usize,
        settings: Settings,
        classes: *const u8,
        class_count: usize,
        types: *const u8,
        type_count: usize,
        models: *const i32,
        model_count: usize,
        blocks: *mut u8,
        blocks_room: usize,
        header: *mut u8,
        header_room: usize,
    ) -> JobDone;
    fn belt_version() -> u32;
    fn belt_abi_1() -> u32;
}

/// The name of this call has the major number, so that a library of another one doesn't link.
#[used]
static SAME_MAJOR: unsafe extern "C" fn() -> u32 = belt_abi_1;

/// The library's version, MAJOR * 1,000,000 + MINOR * 1,000 + PATCH.
pub fn version() -> u32 {
    // SAFETY: the call takes nothing and touches no memory.
    unsafe { belt_version() }
}

/// The numbers of some models, one after the other.
pub fn numbers(models: &[StoredModel]) -> &[i32] {
    let count = size_of_val(models) / size_of::<i32>();
    // SAFETY: a model is transparent over six i32, so the same memory is that many of them, for the same lifetime.
    unsafe { core::slice::from_raw_parts(models.as_ptr().cast(), count) }
}

#[allow(clippy::too_many_arguments)]
pub fn collect_motion_samples(
    input_y: &[u16],
    ref_y: &[u16],
    width: usize,
    height: usize,
    classes: &[u8],
    input_half: &mut [u16],
    ref_half: &mut [u16],
    words: &mut [u32],
) -> Searched {
    // SAFETY: three slices are read, three written. Sides that don't match the planes' lengths are refused
    // before a pel is read, and so are half planes and words that are too short before one is written.
    unsafe {
        belt_collect_motion_samples(
            input_y.as_ptr(),
            input_y.len(),
            ref_y.as_ptr(),
            ref_y.len(),
            width,
            height,
            classes.as_ptr(),
            classes.len(),
            input_half.as_mut_ptr(),
            input_half.len(),
            ref_half.as_mut_ptr(),
            ref_half.len(),
            words.as_mut_ptr(),
            words.len(),
        )
    }
}

pub fn half_plane(plane: &[u16], width: usize, height: usize, out: &mut [u16]) -> u32 {
    // SAFETY: one slice is read, one written; sides that don't match the plane's length, and a buffer that is too short,
    // are refused before a value is written.
    unsafe { belt_half_plane(plane.as_ptr(), plane.len(), width, height, out.as_mut_ptr(), out.len()) }
}

#[allow(clippy::too_many_arguments)]
pub fn search_band(
    input: &[u16],
    reference: &[u16],
    width: usize,
    height: usize,
    input_half: &[u16],
    ref_half: &[u16],
    first: usize,
    end: usize,
    words: &mut [u32],
) -> Searched {
    // SAFETY: four slices are read, one written. The lengths of all of them and the rows are judged before a word is
    // written, and half planes of any values are covered. What is read may be shared by threads.
    unsafe {
        belt_search_band(
            input.as_ptr(),
            input.len(),
            reference.as_ptr(),
            reference.len(),
            width,
            height,
            input_half.as_ptr(),
            input_half.len(),
            ref_half.as_ptr(),
            ref_half.len(),
            first,
            end,
            words.as_mut_ptr(),
            words.len(),
        )
    }
}

pub fn fit_translation(words: &[u32]) -> FitAnswer {
    // SAFETY: one slice is read.
    unsafe { belt_fit_translation(words.as_ptr(), words.len()) }
}

pub fn fit_rotzoom(words: &[u32]) -> FitAnswer {
    // SAFETY: one slice is read.
    unsafe { belt_fit_rotzoom(words.as_ptr(), words.len()) }
}

pub fn fit_affine(words: &[u32]) -> FitAnswer {
    // SAFETY: one slice is read.
    unsafe { belt_fit_affine(words.as_ptr(), words.len()) }
}

pub fn fit_trimmed(gm_type: u8, words: &[u32]) -> Trimmed {
    // SAFETY: one slice is read.
    unsafe { belt_fit_trimmed(gm_type, words.as_ptr(), words.len()) }
}

pub fn quantize_trimmed(gm_type: u8, flag: u8, words: &[u32]) -> TrimmedModel {
    // SAFETY: one slice is read.
    unsafe { belt_quantize_trimmed(gm_type, flag, words.as_ptr(), words.len()) }
}

pub fn elect(flag: u8, words: &[u32]) -> Elected {
    // SAFETY: one slice is read.
    unsafe { belt_elect(flag, words.as_ptr(), words.len()) }
}

pub fn quantize_model(gm_type: u8, numbers: &[f64; 6], flag: u8, words: &[u32]) -> QuantizedModel {
    // SAFETY: the six numbers and one slice are read; the array's type holds its length.
    unsafe { belt_quantize_model(gm_type, numbers, flag, words.as_ptr(), words.len()) }
}

pub fn mean_sq_residual(params: &[i32; 6], words: &[u32]) -> Score {
    // SAFETY: the six numbers and one slice are read; the array's type holds its length.
    unsafe { belt_mean_sq_residual(params, words.as_ptr(), words.len()) }
}

pub fn fit_by_class(set: u8, gm_type: u8, words: &[u32], classes: &[u8]) -> FitAnswer {
    // SAFETY: two slices are read, and neither where their lengths differ.
    unsafe { belt_fit_by_class(set, gm_type, words.as_ptr(), words.len(), classes.as_ptr(), classes.len()) }
}

pub fn quantize_by_class(
    set: u8,
    gm_type: u8,
    numbers: &[f64; 6],
    flag: u8,
    words: &[u32],
    classes: &[u8],
) -> QuantizedModel {
    let (count, class_count) = (words.len(), classes.len());
    // SAFETY: the six numbers are read, and two slices as for `fit_by_class`; the array's type holds its length.
    unsafe { belt_quantize_by_class(set, gm_type, numbers, flag, words.as_ptr(), count, classes.as_ptr(), class_count) }
}

pub fn score_by_class(set: u8, params: &[i32; 6], words: &[u32], classes: &[u8]) -> Score {
    // SAFETY: the six numbers are read, and two slices as for `fit_by_class`; the array's type holds its length.
    unsafe { belt_score_by_class(set, params, words.as_ptr(), words.len(), classes.as_ptr(), classes.len()) }
}

pub fn fit_trimmed_by_class(set: u8, gm_type: u8, words: &[u32], classes: &[u8]) -> Trimmed {
    // SAFETY: two slices are read, as for `fit_by_class`.
    unsafe { belt_fit_trimmed_by_class(set, gm_type, words.as_ptr(), words.len(), classes.as_ptr(), classes.len()) }
}

pub fn quantize_trimmed_by_class(set: u8, gm_type: u8, flag: u8, words: &[u32], classes: &[u8]) -> TrimmedModel {
    let (count, class_count) = (words.len(), classes.len());
    // SAFETY: two slices are read, as for `fit_by_class`.
    unsafe { belt_quantize_trimmed_by_class(set, gm_type, flag, words.as_ptr(), count, classes.as_ptr(), class_count) }
}

pub fn elect_by_class(set: u8, flag: u8, words: &[u32], classes: &[u8]) -> Elected {
    // SAFETY: two slices are read, as for `fit_by_class`.
    unsafe { belt_elect_by_class(set, flag, words.as_ptr(), words.len(), classes.as_ptr(), classes.len()) }
}

pub fn fit_translation_samples(samples: &[MotionSample]) -> FitAnswer {
    // SAFETY: one slice is read.
    unsafe { belt_fit_translation_samples(samples.as_ptr(), samples.len()) }
}

pub fn fit_rotzoom_samples(samples: &[MotionSample]) -> FitAnswer {
    // SAFETY: one slice is read.
    unsafe { belt_fit_rotzoom_samples(samples.as_ptr(), samples.len()) }
}

pub fn fit_affine_samples(samples: &[MotionSample]) -> FitAnswer {
    // SAFETY: one slice is read.
    unsafe { belt_fit_affine_samples(samples.as_ptr(), samples.len()) }
}

pub fn quantize_model_samples(samples: &[MotionSample], model: ToQuantize) -> QuantizedModel {
    // SAFETY: numbers, and one slice is read.
    unsafe { belt_quantize_model_samples(samples.as_ptr(), samples.len(), model) }
}

pub fn fit_trimmed_samples(samples: &[MotionSample], gm_type: u8) -> Trimmed {
    // SAFETY: one slice is read.
    unsafe { belt_fit_trimmed_samples(samples.as_ptr(), samples.len(), gm_type) }
}

pub fn quantize_trimmed_samples(samples: &[MotionSample], codes: ToTrim) -> TrimmedModel {
    // SAFETY: one slice is read.
    unsafe { belt_quantize_trimmed_samples(samples.as_ptr(), samples.len(), codes) }
}

pub fn elect_samples(samples: &[MotionSample], flag: u8) -> Elected {
    // SAFETY: one slice is read.
    unsafe { belt_elect_samples(samples.as_ptr(), samples.len(), flag) }
}

pub fn mean_sq_residual_samples(samples: &[MotionSample], model: Params) -> Score {
    // SAFETY: numbers, and one slice is read.
    unsafe { belt_mean_sq_residual_samples(samples.as_ptr(), samples.len(), model) }
}

pub fn fit_samples_by_class(set: u8, gm_type: u8, samples: &[MotionSample], classes: &[u8]) -> FitAnswer {
    let (count, class_count) = (samples.len(), classes.len());
    // SAFETY: two slices are read, and neither where their lengths differ.
    unsafe { belt_fit_samples_by_class(set, gm_type, samples.as_ptr(), count, classes.as_ptr(), class_count) }
}

pub fn quantize_samples_by_class(
    set: u8,
    model: ToQuantize,
    samples: &[MotionSample],
    classes: &[u8],
) -> QuantizedModel {
    let (count, class_count) = (samples.len(), classes.len());
    // SAFETY: two slices are read, and neither where their lengths differ.
    unsafe { belt_quantize_samples_by_class(set, model, samples.as_ptr(), count, classes.as_ptr(), class_count) }
}

pub fn score_samples_by_class(set: u8, model: Params, samples: &[MotionSample], classes: &[u8]) -> Score {
    let (count, class_count) = (samples.len(), classes.len());
    // SAFETY: two slices are read, and neither where their lengths differ.
    unsafe { belt_score_samples_by_class(set, model, samples.as_ptr(), count, classes.as_ptr(), class_count) }
}

pub fn fit_trimmed_samples_by_class(set: u8, gm_type: u8, samples: &[MotionSample], classes: &[u8]) -> Trimmed {
    let (count, class_count) = (samples.len(), classes.len());
    // SAFETY: two slices are read, and neither where their lengths differ.
    unsafe { belt_fit_trimmed_samples_by_class(set, gm_type, samples.as_ptr(), count, classes.as_ptr(), class_count) }
}

pub fn quantize_trimmed_samples_by_class(
    set: u8,
    codes: ToTrim,
    samples: &[MotionSample],
    classes: &[u8],
) -> TrimmedModel {
    let (count, class_count) = (samples.len(), classes.len());
    // SAFETY: two slices are read, and neither where their lengths differ.
    unsafe {
        belt_quantize_trimmed_samples_by_class(set, codes, samples.as_ptr(), count, classes.as_ptr(), class_count)
    }
}

pub fn elect_samples_by_class(set: u8, flag: u8, samples: &[MotionSample], classes: &[u8]) -> Elected {
    let (count, class_count) = (samples.len(), classes.len());
    // SAFETY: two slices are read, and neither where their lengths differ.
    unsafe { belt_elect_samples_by_class(set, flag, samples.as_ptr(), count, classes.as_ptr(), class_count) }
}

pub fn quantize_global_param(gm_type: u8, flag: u8, slot: u8, value: i32) -> QuantizedParam {
    // SAFETY: numbers alone.
    unsafe { belt_quantize_global_param(gm_type, flag, slot, value) }
}

pub fn write_frame(frame: u16, words: &[u32], classes: &[u8], blocks: &mut [u8]) -> Stored {
    // SAFETY: two slices are read, one written; one that is too short is refused before a byte is written.
    unsafe {
        belt_write_frame(
            frame,
            words.as_ptr(),
            words.len(),
            classes.as_ptr(),
            classes.len(),
            blocks.as_mut_ptr(),
            blocks.len(),
        )
    }
}

pub fn read_both(bytes: &[u8], words: &mut [u32], classes: &mut [u8]) -> FrameRead {
    // SAFETY: one slice is read, two written; the count of samples that the bytes claim is held against all three.
    unsafe {
        belt_read_both(
            bytes.as_ptr(),
            bytes.len(),
            words.as_mut_ptr(),
            words.len(),
            classes.as_mut_ptr(),
            classes.len(),
        )
    }
}

pub fn to_form1(bytes: &[u8], blocks: &mut [u8]) -> Stored {
    // SAFETY: one slice is read, one written; one that is too short is refused before a byte is written.
    unsafe { belt_to_form1(bytes.as_ptr(), bytes.len(), blocks.as_mut_ptr(), blocks.len()) }
}

pub fn to_form2(bytes: &[u8], blocks: &mut [u8]) -> Stored {
    // SAFETY: one slice is read, one written; one that is too short is refused before a byte is written.
    unsafe { belt_to_form2(bytes.as_ptr(), bytes.len(), blocks.as_mut_ptr(), blocks.len()) }
}

pub fn read_frame(bytes: &[u8], words: &mut [u32]) -> FrameRead {
    // SAFETY: one slice is read, one written; the count of words that the bytes claim is held against both.
    unsafe { belt_read_frame(bytes.as_ptr(), bytes.len(), words.as_mut_ptr(), words.len()) }
}

pub fn judge_block(bytes: &[u8]) -> BlockRead {
    // SAFETY: one slice is read.
    unsafe { belt_judge_block(bytes.as_ptr(), bytes.len()) }
}

pub fn list_block(bytes: &[u8], text: &mut [u8; TEXT_BYTES]) -> usize {
    // SAFETY: one slice is read; the buffer's type holds the length that the library takes for granted.
    unsafe { belt_list_block(bytes.as_ptr(), bytes.len(), text) }
}

pub fn encode_inter_global_motion(
    types: &[u8],
    params: &[i32],
    flag: u8,
    prior: &[i32],
    start: usize,
    header: &mut [u8],
) -> Written {
    // SAFETY: three slices are read, one written; other counts than 7, 42 and 42 are refused, and so is a start over 7
    // or a header that is too short, before a byte is written.
    unsafe {
        belt_encode_inter_global_motion(
            types.as_ptr(),
            types.len(),
            params.as_ptr(),
            params.len(),
            flag,
            prior.as_ptr(),
            prior.len(),
            start,
            header.as_mut_ptr(),
            header.len(),
        )
    }
}

#[inline]
pub fn read_global_motion_params(header: &[u8], at: usize, flag: u8, prior: &[i32]) -> Models {
    // SAFETY: two slices are read; a position past the bytes, however large, is refused.
    unsafe { belt_read_global_motion_params(header.as_ptr(), header.len(), at, flag, prior.as_ptr(), prior.len()) }
}

pub fn encode_global_motion(
    intra: bool,
    types: &[u8],
    params: &[i32],
    flag: u8,
    prior: &[i32],
    start: usize,
    header: &mut [u8],
) -> Written {
    // SAFETY: as for `encode_inter_global_motion`; of a key frame neither prior nor header is touched.
    unsafe {
        belt_encode_global_motion(
            intra,
            types.as_ptr(),
            types.len(),
            params.as_ptr(),
            params.len(),
            flag,
            prior.as_ptr(),
            prior.len(),
            start,
            header.as_mut_ptr(),
            header.len(),
        )
    }
}

#[inline]
pub fn read_global_motion(intra: bool, header: &[u8], at: usize, flag: u8, prior: &[i32]) -> Models {
    // SAFETY: as for `read_global_motion_params`; of a key frame neither slice is read.
    unsafe { belt_read_global_motion(intra, header.as_ptr(), header.len(), at, flag, prior.as_ptr(), prior.len()) }
}

pub fn coefficient_prices(gm_type: u8, flag: u8, slot: u8, prior: i32) -> PriceList {
    // SAFETY: numbers alone.
    unsafe { belt_coefficient_prices(gm_type, flag, slot, prior) }
}

pub fn frame_price(intra: bool, types: &[u8], params: &[i32], flag: u8, prior: &[i32]) -> Price {
    // SAFETY: three slices are read.
    unsafe {
        belt_frame_price(
            intra,
            types.as_ptr(),
            types.len(),
            params.as_ptr(),
            params.len(),
            flag,
            prior.as_ptr(),
            prior.len(),
        )
    }
}

#[allow(clippy::too_many_arguments)]
pub fn job(
    input: &[u16],
    reference: &[u16],
    width: usize,
    height: usize,
    settings: Settings,
    classes: &[u8],
    types: &[u8],
    models: &[i32],
    prior: &[i32],
    input_half: &mut [u16],
    ref_half: &mut [u16],
    words: &mut [u32],
    blocks: &mut [u8],
    header: &mut [u8],
) -> Report {
    // SAFETY: six slices are read, five written. All counts are judged before the first write.
    unsafe {
        belt_job(
            input.as_ptr(),
            input.len(),
            reference.as_ptr(),
            reference.len(),
            width,
            height,
            settings,
            classes.as_ptr(),
            classes.len(),
            types.as_ptr(),
            types.len(),
            models.as_ptr(),
            models.len(),
            prior.as_ptr(),
            prior.len(),
            input_half.as_mut_ptr(),
            input_half.len(),
            ref_half.as_mut_ptr(),
            ref_half.len(),
            words.as_mut_ptr(),
            words.len(),
            blocks.as_mut_ptr(),
            blocks.len(),
            header.as_mut_ptr(),
            header.len(),
        )
    }
}

#[allow(clippy::too_many_arguments)]
pub fn job_of_words(
    words: &[u32],
    settings: Settings,
    classes: &[u8],
    types: &[u8],
    models: &[i32],
    prior: &[i32],
    blocks: &mut [u8],
    header: &mut [u8],
) -> Report {
    // SAFETY: five slices are read, two written. All counts are judged before the first write.
    unsafe {
        belt_job_of_words(
            words.as_ptr(),
            words.len(),
            settings,
            classes.as_ptr(),
            classes.len(),
            types.as_ptr(),
            types.len(),
            models.as_ptr(),
            models.len(),
            prior.as_ptr(),
            prior.len(),
            blocks.as_mut_ptr(),
            blocks.len(),
            header.as_mut_ptr(),
            header.len(),
        )
    }
}

pub fn run_start(flag: u8, form: u32) -> Moved {
    // SAFETY: numbers alone.
    unsafe { belt_run_start(flag, form) }
}

pub fn run_switch(run: Run, code: u8) -> Moved {
    // SAFETY: numbers alone; a run is passed by value.
    unsafe { belt_run_switch(run, code) }
}

pub fn run_frame(run: Run, intra: bool, types: &[u8], params: &[i32], start: usize, header: &mut [u8]) -> Framed {
    // SAFETY: as for `encode_global_motion`; the prior is in the run, which is passed by value.
    unsafe {
        belt_run_frame(
            run,
            intra,
            types.as_ptr(),
            types.len(),
            params.as_ptr(),
            params.len(),
            start,
            header.as_mut_ptr(),
            header.len(),
        )
    }
}

#[inline]
pub fn run_read(run: Run, intra: bool, header: &[u8], at: usize) -> FrameModels {
    // SAFETY: as for `read_global_motion`; the prior is in the run, which is passed by value.
    unsafe { belt_run_read(run, intra, header.as_ptr(), header.len(), at) }
}

pub fn run_store(run: Run, frame: u16, words: &[u32], classes: &[u8], blocks: &mut [u8]) -> Stored {
    // SAFETY: as for `write_frame`; the run is passed by value.
    unsafe {
        belt_run_store(
            run,
            frame,
            words.as_ptr(),
            words.len(),
            classes.as_ptr(),
            classes.len(),
            blocks.as_mut_ptr(),
            blocks.len(),
        )
    }
}

#[allow(clippy::too_many_arguments)]
pub fn run_job(
    run: Run,
    input: &[u16],
    reference: &[u16],
    width: usize,
    height: usize,
    settings: Settings,
    classes: &[u8],
    types: &[u8],
    models: &[i32],
    input_half: &mut [u16],
    ref_half: &mut [u16],
    words: &mut [u32],
    blocks: &mut [u8],
    header: &mut [u8],
) -> JobDone {
    // SAFETY: as for `job`; the prior is in the run, which is passed by value.
    unsafe {
        belt_run_job(
            run,
            input.as_ptr(),
            input.len(),
            reference.as_ptr(),
            reference.len(),
            width,
            height,
            settings,
            classes.as_ptr(),
            classes.len(),
            types.as_ptr(),
            types.len(),
            models.as_ptr(),
            models.len(),
            input_half.as_mut_ptr(),
            input_half.len(),
            ref_half.as_mut_ptr(),
            ref_half.len(),
            words.as_mut_ptr(),
            words.len(),
            blocks.as_mut_ptr(),
            blocks.len(),
            header.as_mut_ptr(),
            header.len(),
        )
    }
}

#[allow(clippy::too_many_arguments)]
pub fn run_job_of_words(
    run: Run,
    words: &[u32],
    settings: Settings,
    classes: &[u8],
    types: &[u8],
    models: &[i32],
    blocks: &mut [u8],
    header: &mut [u8],
) -> JobDone {
    // SAFETY: as for `job_of_words`; the prior is in the run, which is passed by value.
    unsafe {
        belt_run_job_of_words(
            run,
            words.as_ptr(),
            words.len(),
            settings,
            classes.as_ptr(),
            classes.len(),
            types.as_ptr(),
            types.len(),
            models.as_ptr(),
            models.len(),
            blocks.as_mut_ptr(),
            blocks.len(),
            header.as_mut_ptr(),
            header.len(),
        )
    }
}

pub fn setup_shear(gm_type: u8, params: &[i32]) -> Shear {
    // SAFETY: one slice is read.
    unsafe { belt_setup_shear(gm_type, params.as_ptr(), params.len()) }
}

pub fn root(x: f64) -> f64 {
    // SAFETY: a number goes in and a number comes out.
    unsafe { belt_root(x) }
}

pub fn make_practice_planes(
    seed: u32,
    width: usize,
    height: usize,
    dy: i32,
    dx: i32,
    input: &mut [u16],
    reference: &mut [u16],
) -> Made {
    // SAFETY: two slices are written.
    unsafe {
        belt_make_practice_planes(
            seed,
            width,
            height,
            dy,
            dx,
            input.as_mut_ptr(),
            input.len(),
            reference.as_mut_ptr(),
            reference.len(),
        )
    }
}
