//! The stand-in for `setup_shear` against the answers of libaom in ../shared/data.

use oracle::shear_files::answers;

#[test]
fn libaom_shear() {
    let answers = answers();
    for (index, answer) in answers.iter().enumerate() {
        assert_eq!(oracle::shear(&answer.params), Some((answer.valid, answer.numbers)), "line {}", index + 1);
    }
    assert_eq!(answers.len(), 2000);
}
