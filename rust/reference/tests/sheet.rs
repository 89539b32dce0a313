use reference::entry::NO_ENTRY;
use reference::sheet::{edition_written, size, Sheet};
use reference::{read_sheet, write_sheet, Refusal};

const EDITIONS: [u32; 2] = [1, 2];

fn written(list: &[u16], marks: &[u8], edition: u32, cost: u32, real: bool) -> Vec<u8> {
    let size = size(edition, list.len());
    let mut bytes = vec![0xaa; size + 3];
    let answer = write_sheet(list, marks, edition, cost, real, &mut bytes);
    assert_eq!(answer, Ok(size as u32));
    assert!(bytes[size..].iter().all(|&byte| byte == 0));
    bytes.truncate(size);
    bytes
}

/// Reads into a list and a mark area of the given lengths.
fn refused_with(bytes: &[u8], lent: usize, lent_marks: usize) -> (u8, u32) {
    let (mut list, mut marks) = (vec![5; lent], vec![6; lent_marks]);
    let refusal = read_sheet(bytes, &mut list, &mut marks).unwrap_err();
    assert!(list.iter().all(|&entry| entry == NO_ENTRY));
    assert!(marks.iter().all(|&mark| mark == 0));
    (refusal.number, refusal.place)
}

fn refused(bytes: &[u8], lent: usize) -> (u8, u32) {
    refused_with(bytes, lent, lent)
}

/// The sheet, its steps and its marks.
fn read(bytes: &[u8]) -> (Sheet, Vec<u16>, Vec<u8>) {
    let (mut list, mut marks) = (vec![5; 33_000], vec![6; 33_001]);
    let sheet = read_sheet(bytes, &mut list, &mut marks).unwrap();
    let steps = sheet.steps as usize;
    assert!(list[steps..].iter().all(|&entry| entry == NO_ENTRY));
    assert!(marks[steps..].iter().all(|&mark| mark == 0));
    (sheet, list[..steps].to_vec(), marks[..steps].to_vec())
}

fn bits(bytes: &[u8]) -> String {
    bytes.iter().map(|byte| format!("{byte:08b}")).collect()
}

/// Bit by bit: the fields of a sheet, each with its width.
fn fields(fields: &[(u64, usize)]) -> String {
    fields.iter().map(|(value, width)| format!("{value:0width$b}")).collect()
}

#[test]
fn two_shelves_plan_bit_by_bit() {
    let head = |edition| fields(&[(edition, 4), (1, 1), (4, 16), (10, 32)]);
    let steps = fields(&[(0, 10), (2, 10), (1, 10), (3, 10)]);
    let bytes = written(&[0, 2, 1, 3], &[0, 0, 1, 0], 1, 10, true);
    assert_eq!(bits(&bytes), head(1) + &steps + "000");
    let marked =
        fields(&[(0, 1), (0, 10), (0, 1), (2, 10), (1, 1), (1, 10), (0, 1), (3, 10), (0, 7)]);
    let bytes = written(&[0, 2, 1, 3], &[0, 0, 1, 0], 2, 10, true);
    assert_eq!(bits(&bytes), head(2) + &marked);
}

/// 8.1, for steps and marks that use every bit.
#[test]
fn sheets_bit_by_bit() {
    let drawn = |i: usize| (i as u64 + 1).wrapping_mul(0x9e37_79b9_7f4a_7c15) >> 40;
    for steps in (0..60).chain([1000, 32_767, 32_768]) {
        let list: Vec<u16> = (0..steps).map(|i| (drawn(i) % 1024) as u16).collect();
        let marks: Vec<u8> = (0..steps).map(|i| (drawn(i + steps) >> 12) as u8 % 4).collect();
        for edition in EDITIONS {
            let mut wanted = vec![(edition.into(), 4), (0, 1), (steps as u64, 16), (drawn(9), 32)];
            for (&step, &mark) in list.iter().zip(&marks) {
                wanted.extend((edition == 2).then_some((u64::from(mark != 0), 1)));
                wanted.push((step.into(), 10));
            }
            let wanted = fields(&wanted);
            let bytes = written(&list, &marks, edition, drawn(9) as u32, false);
            assert_eq!(bits(&bytes), wanted.clone() + &"0".repeat(8 * bytes.len() - wanted.len()));
            assert!(8 * bytes.len() < wanted.len() + 8);
        }
    }
}

/// 12.24.
#[test]
fn sheets_of_the_specification() {
    let shelves = [0x28, 0, 0x20, 0, 0, 0, 0x50, 0, 0, 0x50, 0x04, 0x01, 0x80];
    let lift = [0x28, 0, 0x30, 0, 0, 0, 0x58, 0, 0, 0x50, 0x0c, 0x02, 0x40, 0x28, 0x02];
    assert_eq!(written(&[0, 2, 1, 3], &[0, 0, 1, 0], 2, 10, true), shelves);
    assert_eq!(written(&[0, 2, 3, 4, 2, 1], &[0, 0, 1, 0, 1, 1], 2, 11, true), lift);
    assert_eq!(written(&[0, 2, 1, 3], &[0, 0, 2], 4, 10, true), shelves);
    for bytes in [&shelves[..], &lift, &written(&[0, 2, 1, 3], &[], 1, 10, true)] {
        assert_eq!(refused_with(bytes, 10, 3), (11, 3));
        assert_eq!(refused_with(bytes, 3, 10), (11, 3));
    }
    assert_eq!(refused(&[0x20, 0, 0x08, 0, 0, 0, 0x04], 5), (12, 54));
    assert_eq!(refused(&[0x20, 0, 0x10, 0, 0, 0, 0x04, 0x05], 5), (12, 64));
}

#[test]
fn any_edition_but_1_is_written_as_2() {
    let second = written(&[7, 9], &[1, 0], 2, 10, true);
    for edition in [0, 3, 4, 15, 16, 17, 33, 65_537, u32::MAX] {
        assert_eq!(edition_written(edition), 2);
        assert_eq!(written(&[7, 9], &[1, 0], edition, 10, true), second);
    }
    assert_eq!(read(&second).0.edition, 2);
    assert_eq!(read(&written(&[7, 9], &[1, 0], 1, 10, true)).0.edition, 1);
}

/// The marks that are written of those given, one for each of so many steps.
fn normal(marks: &[u8], steps: usize) -> Vec<u8> {
    (0..steps).map(|i| u8::from(marks.get(i).is_some_and(|&mark| mark != 0))).collect()
}

#[test]
fn marks_of_any_bytes_and_any_length() {
    for steps in 0..40 {
        let list: Vec<u16> = (0..steps).map(|i| (1023 - i * 37 % 1024) as u16).collect();
        for given in 0..50 {
            let marks: Vec<u8> =
                (0..given).map(|i| [0, 1, 2, 128, 0, 255][(i * 5 + steps) % 6]).collect();
            let bytes = written(&list, &marks, 2, 7, false);
            let (sheet, back, shown) = read(&bytes);
            assert_eq!((sheet.edition, sheet.cost, sheet.real), (2, 7, false));
            assert_eq!((&back, &shown), (&list, &normal(&marks, steps)));
            assert_eq!(written(&back, &shown, sheet.edition, 7, false), bytes);
            let plain = written(&list, &marks, 1, 7, false);
            assert_eq!(plain, written(&list, &[], 1, 7, false));
            assert_eq!(read(&plain).2, vec![0; steps]);
        }
    }
}

#[test]
fn what_is_written_is_read() {
    for steps in (0..20).chain([100, 32_767, 32_768]) {
        let list: Vec<u16> = (0..steps).map(|i| (i * 37 % 1024) as u16).collect();
        let marks: Vec<u8> = (0..steps).map(|i| (i * 11 / 7 % 3 % 2) as u8).collect();
        for edition in EDITIONS {
            let bytes = written(&list, &marks, edition, 0x8765_4321, steps % 2 == 0);
            let (sheet, back, shown) = read(&bytes);
            let (cost, real) = (0x8765_4321, steps % 2 == 0);
            assert_eq!(sheet, Sheet { steps: steps as u32, cost, edition, real });
            assert_eq!(back, list);
            assert_eq!(shown, if edition == 1 { vec![0; steps] } else { marks.clone() });
            if steps > 0 {
                let place = steps as u32 - 1;
                assert_eq!(refused_with(&bytes, steps - 1, steps), (11, place));
                assert_eq!(refused_with(&bytes, steps, steps - 1), (11, place));
            }
        }
    }
    assert_eq!(EDITIONS.map(|edition| size(edition, 32_768)), [40_967, 45_063]);
}

#[test]
fn writing_refuses() {
    let refused = |list: &[u16], edition: u32, lent: usize| {
        let mut bytes = vec![0xaa; lent];
        let refusal: Refusal =
            write_sheet(list, &[1; 40_000], edition, 1, true, &mut bytes).unwrap_err();
        assert!(bytes.iter().all(|&byte| byte == 0));
        (refusal.number, refusal.place)
    };
    for edition in EDITIONS {
        assert_eq!(refused(&[1024; 32_769], edition, 50_000), (13, 32_768));
        assert_eq!(refused(&[5, 1023, 1024, 65_535], edition, 50_000), (13, 2));
        assert_eq!(refused(&[5, 1023, 1024, 65_535], edition, 0), (13, 2));
        assert_eq!(refused(&[], edition, 6), (11, 6));
    }
    assert_eq!(refused(&[1; 32_768], 1, 40_966), (11, 40_966));
    assert_eq!(refused(&[1; 32_768], 2, 45_062), (11, 45_062));
}

#[test]
fn reading_refuses() {
    let bytes = written(&[0, 2, 1, 3], &[], 1, 10, true);
    assert_eq!(refused(&[], 4), (12, 0));
    assert_eq!(refused(&bytes[..1], 4), (12, 5));
    assert_eq!(refused(&bytes[..2], 4), (12, 5));
    assert_eq!(refused(&bytes[..3], 4), (12, 21));
    assert_eq!(refused(&bytes[..7], 4), (12, 53));
    assert_eq!(refused(&bytes[..8], 4), (12, 63));
    assert_eq!(refused(&bytes[..11], 4), (12, 83));
    let mut padded = bytes.clone();
    padded[11] |= 1;
    assert_eq!(refused(&padded, 4), (12, 93));
    let longer = [&bytes[..], &[0]].concat();
    assert_eq!(refused(&longer, 0), (12, 93));
    assert_eq!(refused(&bytes, 3), (11, 3));
    for edition in (0..16).filter(|edition| !(1..=2).contains(edition)) {
        let other = [&[edition << 4 | bytes[0] & 15], &bytes[1..]].concat();
        assert_eq!(refused(&other, 4), (12, 0));
    }
}

/// Steps of edition 2 start at bits 54, 65, .. and their marks one bit before them. A mark that is there
/// leaves its step as the field that is cut.
#[test]
fn cut_before_and_behind_marks() {
    let bytes = written(&[1023; 24], &[1; 24], 2, 10, true);
    let whole = 8 * bytes.len() - 3;
    assert_eq!(whole, 53 + 11 * 24);
    for cut in 7..bytes.len() {
        let (step, rest) = ((8 * cut - 53) / 11, (8 * cut - 53) % 11);
        let place = 53 + 11 * step + usize::from(rest > 0);
        assert_eq!(refused(&bytes[..cut], 24), (12, place as u32), "{cut}");
    }
    let mut padded = bytes.clone();
    for bit in 0..3 {
        padded[bytes.len() - 1] ^= 1 << bit;
        assert_eq!(refused(&padded, 24), (12, whole as u32));
        padded[bytes.len() - 1] ^= 1 << bit;
    }
    let longer = [&bytes[..], &[0]].concat();
    assert_eq!(refused(&longer, 0), (12, whole as u32));
}

#[test]
fn too_many_steps() {
    for edition in EDITIONS {
        let mut bytes = written(&[7; 32_768], &[1; 32_768], edition, 0, false);
        assert_eq!(refused(&bytes, 32_767), (11, 32_767));
        bytes[2] |= 8;
        assert_eq!(refused(&bytes, 40_000), (12, 5));
    }
}
