//! As `grown.rs`, of names that a later version may add.

pub fn form(form: belt::Form) -> u8 {
    match form { // E0004
        belt::Form::One => 1,
        belt::Form::Two => 2,
    }
}

pub fn row(row: belt::Refusal) -> bool {
    use belt::Refusal::*;
    match row { // E0004
        TooLarge | TooFar | WrongLength(_) | NoSuchCode | NoClass | NoSuchSlot | StartOver | OffGrid | PriorOut => true,
        NotRising | NotHeld | TooShort(_) | TooFew | ShutterClosed | Singular | NotFinite => true,
        EndsFirst | WrongCheck | WrongBlock => false,
    }
}
