//! Types, precisions and forms by name and by number, settings and tasks by default, and what a program expects of the
//! crate's types.

use belt::{
    Buffers, ClassSet, Elected, Fitted, Form, GmType, IDENTITIES, Kind, Lent, METAL, Model, Models, Precision, Refusal,
    Report, Run, RunReader, Settings, StoredModel, Task,
};
use std::error::Error;
use std::fmt::Debug;

#[test]
fn every_code_has_a_name_or_none() {
    for code in 0..=255 {
        let gm_type = GmType::try_from(code);
        assert_eq!(gm_type.map(u8::from), if code < 4 { Ok(code) } else { Err(Refusal::NoSuchCode) });
        let precision = Precision::try_from(code);
        assert_eq!(precision.map(u8::from), if code < 2 { Ok(code) } else { Err(Refusal::NoSuchCode) });
        let form = Form::try_from(u32::from(code));
        let held = (1..=2).contains(&code);
        assert_eq!(form.map(u32::from), if held { Ok(code.into()) } else { Err(Refusal::NoSuchCode) });
    }
    assert_eq!(Form::try_from(257), Err(Refusal::NoSuchCode));
    assert_eq!(GmType::ALL.map(|name| name.to_string()), ["identity", "translation", "rotation-zoom", "affine"]);
    assert_eq!([Precision::Low, Precision::High].map(|name| format!("{name:>5}")), ["  low", " high"]);
}

/// Five words that have fits of every type after trimming.
const WORDS: [u32; 7] = [0x0006_FB7C, 0x0016_FB80, 0x0026_FB84, 0x0406_FB80, 0x0416_FB84, 0x0426_FB88, 0x0816_FB80];

#[test]
fn a_name_is_its_number() {
    for name in GmType::ALL {
        let code = name.code();
        assert_eq!(belt::fit_trimmed(name, &WORDS), belt::fit_trimmed(code, &WORDS));
        assert_eq!(StoredModel([1, 2, 3, 4, 5, 6]).x_first(name), StoredModel([1, 2, 3, 4, 5, 6]).x_first(code));
        assert_eq!(belt::setup_shear(name, &Model::IDENTITY.0), belt::setup_shear(code, &Model::IDENTITY.0));
        for precision in [Precision::Low, Precision::High] {
            let flag = precision.code();
            assert_eq!(belt::elect(precision, &WORDS), belt::elect(flag, &WORDS));
            let quantized = belt::quantize_trimmed(name, precision, &WORDS);
            assert_eq!(quantized, belt::quantize_trimmed(code, flag, &WORDS));
            assert_eq!(belt::coefficient_prices(name, precision, 0, 0), belt::coefficient_prices(code, flag, 0, 0));
            for form in [Form::One, Form::Two] {
                assert_eq!(Run::start(precision, form), Run::start(flag, form.code()));
                assert_eq!(RunReader::start(precision, form), RunReader::start(flag, form.code()));
            }
        }
    }
    // a number that is no code is judged by the library
    assert_eq!(belt::fit_trimmed(4, &WORDS), Err(Refusal::NoSuchCode));
    assert_eq!(belt::elect(2, &WORDS), Err(Refusal::NoSuchCode));
    assert_eq!(Run::start(1, 3), Err(Refusal::NoSuchCode));
    assert_eq!(belt::read_global_motion(Kind::Key, &[], 0, 2, &[]), Err(Refusal::NoSuchCode));
}

#[test]
fn settings_are_what_they_say() {
    let plain = Settings::elect(7);
    let fields = |settings: Settings| {
        let Settings { frame, gm_type, reference, flag, trim, elect, set, start, .. } = settings;
        (frame, gm_type, reference, flag, trim, elect, set.bits(), start)
    };
    assert_eq!(fields(plain), (7, 0, 1, 1, 0, 1, 31, 0));
    assert_eq!(fields(Settings::fit(7, GmType::Rotzoom)), (7, 2, 1, 1, 0, 0, 31, 0));
    let all = Settings::fit(7, GmType::Affine)
        .trim()
        .reference(6)
        .precision(Precision::Low)
        .set(ClassSet::of(&[METAL]))
        .start(5);
    assert_eq!(fields(all), (7, 3, 6, 0, 1, 0, 8, 5));
    assert_eq!(fields(plain.trim()), (7, 0, 1, 1, 1, 1, 31, 0));
    assert_eq!(Settings::default(), Settings::elect(1));
}

/// A belt that moves by whole pels, and both planes in order.
fn belt_of(width: usize, height: usize) -> (Vec<u16>, Vec<u16>) {
    let (mut earlier, mut later) = (vec![0; width * height], vec![0; width * height]);
    belt::make_practice_planes(1, width, height, -2, 4, &mut earlier, &mut later).unwrap();
    (earlier, later)
}

#[test]
fn a_task_by_default_is_the_one_written_out() {
    let (earlier, later) = belt_of(96, 80);
    let short = Task::new(&earlier, &later, 96, 80);
    let whole = Task {
        input: &earlier,
        reference: &later,
        width: 96,
        height: 80,
        settings: Settings::elect(1),
        classes: &[0; 30],
        types: &[0; 6],
        models: &IDENTITIES[..6],
        prior: &IDENTITIES,
    };
    assert_eq!(short, whole);
    let (mut left, mut other) = (Buffers::new(96, 80), Buffers::new(96, 80));
    let report = belt::job(&short, &mut left.lend()).unwrap();
    assert_eq!(Ok(report), belt::job(&whole, &mut other.lend()));
    assert_eq!(left, other);
    assert_eq!((report.reference, report.gm_type()), (1, GmType::Translation));
    // the largest frame's classes are there, and larger sides are refused and don't panic
    assert_eq!(Task::new(&[], &[], 1024, 1024).classes.len(), 4096);
    for (width, height) in [(1040, 1040), (usize::MAX, usize::MAX), (usize::MAX, 16)] {
        let task = Task::new(&[], &[], width, height);
        assert_eq!(belt::job(&task, &mut Buffers::new(width, height).lend()), Err(Refusal::TooLarge));
    }
    for (width, height) in [(0, 0), (15, 1024)] {
        let plane = vec![0; width * height];
        let task = Task::new(&plane, &plane, width, height);
        let report = belt::job(&task, &mut Buffers::new(width, height).lend()).unwrap();
        assert_eq!((report.samples, report.gm_type()), (0, GmType::Identity));
    }
}

#[test]
fn a_report_knows_its_own_model() {
    let (earlier, later) = belt_of(96, 80);
    let mut buffers = Buffers::new(96, 80);
    for reference in 1..=7 {
        for gm_type in [GmType::Translation, GmType::Rotzoom, GmType::Affine] {
            let settings = Settings::fit(5, gm_type).reference(reference);
            let task = Task { settings, ..Task::new(&earlier, &later, 96, 80) };
            let report = belt::job(&task, &mut buffers.lend()).unwrap();
            let in_a_run = Run::start(1, 2).unwrap().job(&task, &mut buffers.lend());
            assert_eq!(in_a_run, Ok(report));
            assert_eq!((report.reference, report.gm_type()), (reference, gm_type));
            let words = &buffers.words[..report.samples];
            assert_eq!(belt::mean_sq_residual(&report.model(), words), Ok(report.score));
            let read = belt::read_global_motion_params(&buffers.header, 0, Precision::High, &IDENTITIES).unwrap();
            assert_eq!(read.x_first()[usize::from(reference) - 1], (gm_type, report.model()));
        }
    }
}

/// With the earlier frame as input the motion is the belt's; the other way round it is the negative, everywhere.
#[test]
fn motion_since_the_reference() {
    let (earlier, later) = belt_of(96, 80);
    let mut buffers = Buffers::new(96, 80);
    let on = belt::job(&Task::new(&earlier, &later, 96, 80), &mut buffers.lend()).unwrap().model();
    let back = belt::job(&Task::new(&later, &earlier, 96, 80), &mut buffers.lend()).unwrap().model();
    for (x, y) in [(0.0, 0.0), (47.5, 39.5), (-3.0, 1000.0)] {
        let (moved, since) = (on.motion_at(x, y), back.moved_since_reference(x, y));
        assert_eq!((moved.u, moved.v), (4.0, -2.0));
        assert_eq!((since.u, since.v), (4.0, -2.0));
    }
    let zooming = Model([65536, 0, 66560, 100, -100, 66560]);
    let (at, since) = (zooming.motion_at(64.0, 32.0), zooming.moved_since_reference(64.0, 32.0));
    assert_eq!((since.u, since.v), (-at.u, -at.v));
    let still = Model::IDENTITY.moved_since_reference(5.0, 5.0);
    assert_eq!([still.u.to_bits(), still.v.to_bits()], [0, 0]);
}

#[test]
fn refusals_are_errors_that_may_be_passed_on() {
    fn is_error<T: Error + Clone + PartialEq + Send + Sync + 'static>() {}
    is_error::<Refusal>();
    fn boxed() -> Result<(), Box<dyn Error + Send + Sync>> {
        belt::elect(2, &[])?;
        Ok(())
    }
    let error = boxed().unwrap_err();
    assert_eq!(error.downcast_ref(), Some(&Refusal::NoSuchCode));
    assert!(error.source().is_none() && error.to_string().starts_with("4: "));
}

#[test]
fn values_may_be_copied_compared_and_sent() {
    fn plain<T: Copy + Debug + PartialEq + Send + Sync + 'static>() {}
    plain::<(Settings, Report, Models, Run, RunReader, Fitted)>();
    plain::<(Elected, GmType, Precision, Form, Kind, ClassSet, Refusal)>();
    fn lent<T: Debug + PartialEq + Send + Sync>() {}
    lent::<(Task<'_>, Lent<'_>, Buffers)>();
}

#[test]
fn the_library_is_of_this_version() {
    let numbers: Vec<u32> = env!("CARGO_PKG_VERSION").split('.').map(|part| part.parse().unwrap()).collect();
    assert_eq!(belt::library_version(), numbers[0] * 1_000_000 + numbers[1] * 1_000 + numbers[2]);
}
