//! What a program can't do, so that a later version may add a field or a row: each marked line is refused by the compiler
//! with the error named there, and nothing else is. `outside/run` compiles it.

pub fn settings() -> belt::Settings {
    belt::Settings { frame: 5, ..belt::Settings::elect(1) } // E0639
}

pub fn report(report: belt::Report) -> usize {
    let belt::Report { types: _, models: _, reference: _, score: _, bits, samples: _ } = report; // E0638
    bits
}

pub fn searched(searched: belt::Searched) -> usize {
    let belt::Searched { samples, rows: _ } = searched; // E0638
    samples
}

pub fn models(models: belt::Models) -> usize {
    let belt::Models { types: _, models: _, bits } = models; // E0638
    bits
}

pub fn elected(codes: belt::GmType) -> belt::Elected {
    belt::elect(codes, &[]).unwrap() // E0277
}
