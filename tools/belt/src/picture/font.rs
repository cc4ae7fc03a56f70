//! Letters for the legend: 5 pixels wide and 8 high, the lowest row for what hangs below the line.

pub const WIDTH: usize = 5;
pub const HEIGHT: usize = 8;

/// The letters of ASCII from the space on: a byte for each row from the top, of which the five low bits are pixels.
#[rustfmt::skip]
const LETTERS: [u64; 95] = [
    0x0000_0000_0000_0000, 0x0404_0404_0400_0400, 0x0A0A_0A00_0000_0000, 0x0A0A_1F0A_1F0A_0A00, //  !"#
    0x040F_140E_051E_0400, 0x1819_0204_0813_0300, 0x0C12_1408_1512_0D00, 0x0404_0800_0000_0000, // $%&'
    0x0204_0808_0804_0200, 0x0804_0202_0204_0800, 0x0004_150E_1504_0000, 0x0004_041F_0404_0000, // ()*+
    0x0000_0000_000C_0408, 0x0000_001F_0000_0000, 0x0000_0000_000C_0C00, 0x0001_0204_0810_0000, // ,-./
    0x0E11_1315_1911_0E00, 0x040C_0404_0404_0E00, 0x0E11_0102_0408_1F00, 0x1F02_0402_0111_0E00, // 0123
    0x0206_0A12_1F02_0200, 0x1F10_1E01_0111_0E00, 0x0608_101E_1111_0E00, 0x1F01_0204_0808_0800, // 4567
    0x0E11_110E_1111_0E00, 0x0E11_110F_0102_0C00, 0x000C_0C00_0C0C_0000, 0x000C_0C00_000C_0408, // 89:;
    0x0204_0810_0804_0200, 0x0000_1F00_1F00_0000, 0x0804_0201_0204_0800, 0x0E11_0102_0400_0400, // <=>?
    0x0E11_010D_1515_0E00, 0x0E11_1111_1F11_1100, 0x1E11_111E_1111_1E00, 0x0E11_1010_1011_0E00, // @ABC
    0x1C12_1111_1112_1C00, 0x1F10_101E_1010_1F00, 0x1F10_101E_1010_1000, 0x0E11_1017_1111_0F00, // DEFG
    0x1111_111F_1111_1100, 0x0E04_0404_0404_0E00, 0x0702_0202_0212_0C00, 0x1112_1418_1412_1100, // HIJK
    0x1010_1010_1010_1F00, 0x111B_1515_1111_1100, 0x1111_1915_1311_1100, 0x0E11_1111_1111_0E00, // LMNO
    0x1E11_111E_1010_1000, 0x0E11_1111_1512_0D00, 0x1E11_111E_1412_1100, 0x0F10_100E_0101_1E00, // PQRS
    0x1F04_0404_0404_0400, 0x1111_1111_1111_0E00, 0x1111_1111_110A_0400, 0x1111_1115_1515_0A00, // TUVW
    0x1111_0A04_0A11_1100, 0x1111_110A_0404_0400, 0x1F01_0204_0810_1F00, 0x0E08_0808_0808_0E00, // XYZ[
    0x0010_0804_0201_0000, 0x0E02_0202_0202_0E00, 0x040A_1100_0000_0000, 0x0000_0000_0000_1F00, // \]^_
    0x0804_0200_0000_0000, 0x0000_0E01_0F11_0F00, 0x1010_1619_1111_1E00, 0x0000_0E10_1011_0E00, // `abc
    0x0101_0D13_1111_0F00, 0x0000_0E11_1F10_0E00, 0x0609_081C_0808_0800, 0x0000_0F11_110F_010E, // defg
    0x1010_1619_1111_1100, 0x0400_0C04_0404_0E00, 0x0200_0602_0202_120C, 0x1010_1214_1814_1200, // hijk
    0x0C04_0404_0404_0E00, 0x0000_1A15_1511_1100, 0x0000_1619_1111_1100, 0x0000_0E11_1111_0E00, // lmno
    0x0000_1E11_111E_1010, 0x0000_0F11_110F_0101, 0x0000_1619_1010_1000, 0x0000_0F10_0E01_1E00, // pqrs
    0x0808_1C08_0809_0600, 0x0000_1111_1113_0D00, 0x0000_1111_110A_0400, 0x0000_1111_1515_0A00, // tuvw
    0x0000_110A_040A_1100, 0x0000_1111_110F_010E, 0x0000_1F02_0408_1F00, 0x0204_0408_0404_0200, // xyz{
    0x0404_0404_0404_0400, 0x0804_0402_0404_0800, 0x0000_0815_0200_0000, // |}~
];
const TIMES: u64 = 0x0000_110A_040A_1100;
const DEGREES: u64 = 0x0609_0906_0000_0000;

/// Whether a letter has a pixel in a row and a column. A letter that isn't here is drawn as a question mark.
pub fn pixel(letter: char, row: usize, column: usize) -> bool {
    let rows = match letter {
        ' '..='~' => LETTERS[letter as usize - 32],
        '×' => TIMES,
        '°' => DEGREES,
        _ => LETTERS['?' as usize - 32],
    };
    rows.to_be_bytes()[row] >> (WIDTH - 1 - column) & 1 == 1
}

#[cfg(test)]
mod tests {
    use super::*;

    #[test]
    fn a_letter_is_what_it_looks_like() {
        let row = |letter, row| (0..WIDTH).map(move |column| if pixel(letter, row, column) { '#' } else { '.' });
        let drawn = |letter| (0..HEIGHT).map(|i| row(letter, i).collect::<String>()).collect::<Vec<_>>();
        assert_eq!(drawn('g'), [".....", ".....", ".####", "#...#", "#...#", ".####", "....#", ".###."]);
        assert_eq!(drawn('L'), ["#....", "#....", "#....", "#....", "#....", "#....", "#####", "....."]);
        assert_eq!(drawn('Ж'), drawn('?'));
    }

    #[test]
    fn no_two_letters_look_alike_and_none_is_wider() {
        for (i, rows) in LETTERS.iter().enumerate() {
            assert!(rows.to_be_bytes().iter().all(|row| row >> WIDTH == 0));
            assert!(LETTERS[..i].iter().all(|other| other != rows), "{i}");
        }
    }
}
