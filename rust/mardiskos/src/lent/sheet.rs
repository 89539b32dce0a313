//! Plan sheets, written and read.

#[repr(C)]
#[derive(Clone, Copy, Debug, Default, PartialEq, Eq)]
pub struct SheetSize {
    pub code: u64,
    pub bytes: u32,
}

#[repr(C)]
#[derive(Clone, Copy, Debug, Default, PartialEq, Eq)]
pub struct Sheet {
    pub code: u64,
    pub steps: u32,
    pub cost: u32,
    /// 1 or 2.
    pub edition: u32,
    pub real: bool,
}

extern "C" {
    fn mardiskos_write_sheet(
        list: *const u16,
        entries: usize,
        marks: *const u8,
        marks_len: usize,
        edition: u32,
        cost: u32,
        real: bool,
        bytes: *mut u8,
        len: usize,
    ) -> SheetSize;
    fn mardiskos_read_sheet(
        bytes: *const u8,
        len: usize,
        list: *mut u16,
        entries: usize,
        marks: *mut u8,
        marks_len: usize,
    ) -> Sheet;
}

/// Writes a sheet into `bytes`, zeros behind it: of edition 1 if that is given, else of edition 2. Edition 2 has
/// the marks: a byte other than 0 marks its step, a step without a byte is not marked, and bytes behind the last
/// step are not looked at.
pub fn write_sheet(
    list: &[u16],
    marks: &[u8],
    edition: u32,
    cost: u32,
    real: bool,
    bytes: &mut [u8],
) -> SheetSize {
    // SAFETY: pointers and lengths are those of live slices; only `bytes` is written.
    unsafe {
        mardiskos_write_sheet(
            list.as_ptr(),
            list.len(),
            marks.as_ptr(),
            marks.len(),
            edition,
            cost,
            real,
            bytes.as_mut_ptr(),
            bytes.len(),
        )
    }
}

/// Reads a sheet of either edition into `list`, 65,535 behind its steps, and their marks into `marks`, 0 behind them and
/// throughout in edition 1.
pub fn read_sheet(bytes: &[u8], list: &mut [u16], marks: &mut [u8]) -> Sheet {
    // SAFETY: pointers and lengths are those of live slices that do not overlap; only `list` and
    // `marks` are written.
    unsafe {
        mardiskos_read_sheet(
            bytes.as_ptr(),
            bytes.len(),
            list.as_mut_ptr(),
            list.len(),
            marks.as_mut_ptr(),
            marks.len(),
        )
    }
}

#[cfg(test)]
mod tests {
    use super::*;

    #[test]
    fn no_bytes() {
        let (mut list, mut marks) = ([0; 2], [7; 3]);
        let refused = Sheet { code: 12, ..Sheet::default() };
        assert_eq!(read_sheet(&[], &mut list, &mut marks), refused);
        assert_eq!((list, marks), ([65_535; 2], [0; 3]));
    }

    #[test]
    fn empty_plan() {
        let mut bytes = [0xaa; 8];
        let seven = SheetSize { code: 0, bytes: 7 };
        assert_eq!(write_sheet(&[], &[1], 1, 0, true, &mut bytes), seven);
        assert_eq!(bytes, [0x18, 0, 0, 0, 0, 0, 0, 0]);
        assert_eq!(write_sheet(&[], &[1], 0, 0, true, &mut bytes), seven);
        assert_eq!(bytes, [0x28, 0, 0, 0, 0, 0, 0, 0]);
    }

    /// Each field lies where the library puts it.
    #[test]
    fn fields() {
        let mut bytes = [0; 10];
        let size = write_sheet(&[9, 8], &[0, 1], 2, 70_000, true, &mut bytes);
        assert_eq!(size, SheetSize { code: 0, bytes: 10 });
        let (mut list, mut marks) = ([0; 3], [7; 3]);
        let sheet = Sheet { code: 0, steps: 2, cost: 70_000, edition: 2, real: true };
        assert_eq!(read_sheet(&bytes, &mut list, &mut marks), sheet);
        assert_eq!((list, marks), ([9, 8, 65_535], [0, 1, 0]));
    }
}
