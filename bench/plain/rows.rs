//! The rows of a run, and how they are cut into pieces.

use crate::moof::{Columns, Run};

/// The bit of a sample's flags that says that it isn't a sync sample.
const NOT_SYNC: u32 = 0x0001_0000;

/// Calls a function for the four bits that say which fields the rows of a run have.
macro_rules! by_fields {
    ($run:expr, $name:ident $([$more:ty])?, $($given:expr),*) => {
        match $run.form >> 8 & 15 {
            0 => $name::<0 $(, $more)?>($($given),*),
            1 => $name::<1 $(, $more)?>($($given),*),
            2 => $name::<2 $(, $more)?>($($given),*),
            3 => $name::<3 $(, $more)?>($($given),*),
            4 => $name::<4 $(, $more)?>($($given),*),
            5 => $name::<5 $(, $more)?>($($given),*),
            6 => $name::<6 $(, $more)?>($($given),*),
            7 => $name::<7 $(, $more)?>($($given),*),
            8 => $name::<8 $(, $more)?>($($given),*),
            9 => $name::<9 $(, $more)?>($($given),*),
            10 => $name::<10 $(, $more)?>($($given),*),
            11 => $name::<11 $(, $more)?>($($given),*),
            12 => $name::<12 $(, $more)?>($($given),*),
            13 => $name::<13 $(, $more)?>($($given),*),
            14 => $name::<14 $(, $more)?>($($given),*),
            _ => $name::<15 $(, $more)?>($($given),*),
        }
    };
}
pub(crate) use by_fields;

/// How runs are cut.
pub struct Cut {
    pub samples: u32,
    /// The most bytes of a piece of several samples.
    pub bytes: u64,
    pub index: bool,
    pub sync: bool,
}

impl Cut {
    /// Whether only the number of samples is asked for.
    #[inline(always)]
    fn is_by_count(&self) -> bool {
        self.bytes == u64::MAX && !self.sync
    }
}

/// The fields of a sample; the composition time offset as it is written.
pub struct Row {
    pub duration: u32,
    pub size: u32,
    pub flags: u32,
    pub offset: u32,
}

impl Row {
    /// The row as it is written, with all fields.
    #[inline(always)]
    pub fn put(&self, place: &mut [u8; 16]) {
        let high = u64::from(self.duration) << 32 | u64::from(self.size);
        let low = u64::from(self.flags) << 32 | u64::from(self.offset);
        *place = (u128::from(high) << 64 | u128::from(low)).to_be_bytes();
    }
}

/// The rows of a run that have the fields of these four bits.
pub struct Rows<'a, const FIELDS: usize> {
    pub run: &'a Run,
    bytes: &'a [u8],
}

impl<'a, const FIELDS: usize> Rows<'a, FIELDS> {
    const COLUMNS: Columns = Columns::by_bits(FIELDS);

    pub fn of(run: &'a Run, held: &'a [u8]) -> Rows<'a, FIELDS> {
        Rows { run, bytes: run.rows(held) }
    }

    #[inline(always)]
    pub fn row(&self, i: u32) -> Row {
        let len = Self::COLUMNS.len;
        let defaults = if i == 0 { self.run.first_flags } else { self.run.defaults.flags };
        self.read(&self.bytes[i as usize * len..][..len], defaults)
    }

    /// A row by its bytes, with these flags where it has none.
    #[inline(always)]
    fn read(&self, row: &[u8], flags: u32) -> Row {
        let at = |column: Option<usize>, defaults| match column {
            Some(at) => u32::from_be_bytes([row[at], row[at + 1], row[at + 2], row[at + 3]]),
            None => defaults,
        };
        let (columns, defaults) = (Self::COLUMNS, &self.run.defaults);
        Row {
            duration: at(columns.duration, defaults.duration),
            size: at(columns.size, defaults.size),
            flags: at(columns.flags, flags),
            offset: at(columns.offset, 0),
        }
    }

    /// Puts the rows of the piece that begins with a sample, as it is cut; there are places for the most that it may have.
    #[inline(always)]
    pub fn put(&self, first: u32, cut: &Cut, places: &mut [[u8; 16]]) -> Piece {
        if places.len() > 4 && cut.is_by_count() {
            return self.put_all(first, places);
        }
        let mut piece = Piece::default();
        for (i, place) in (first..).zip(places) {
            let row = self.row(i);
            if !piece.take(&row, cut) {
                break;
            }
            row.put(place);
        }
        piece
    }

    /// Puts a row in each of the places.
    #[inline(always)]
    fn put_all(&self, first: u32, places: &mut [[u8; 16]]) -> Piece {
        let len = Self::COLUMNS.len;
        let defaults = self.run.defaults.flags;
        let mut piece = Piece { count: places.len() as u32, ..Piece::default() };
        let mut put = |row: &[u8], place: &mut [u8; 16]| {
            let row = self.read(row, defaults);
            piece.bytes += u64::from(row.size);
            piece.duration += u64::from(row.duration);
            row.put(place);
        };
        if len == 0 {
            places.iter_mut().for_each(|place| put(&[], place));
        } else {
            let rows = self.bytes[first as usize * len..].chunks_exact(len);
            rows.zip(places.iter_mut()).for_each(|(row, place)| put(row, place));
        }
        if first == 0 {
            self.row(0).put(&mut places[0]);
        }
        piece
    }
}

/// Samples of a run that become a fragment: how many, their bytes and their durations, added up.
#[derive(Default)]
pub struct Piece {
    pub count: u32,
    pub bytes: u64,
    pub duration: u64,
}

impl Piece {
    /// Takes another sample, if it fits.
    #[inline(always)]
    pub fn take(&mut self, row: &Row, cut: &Cut) -> bool {
        let bytes = self.bytes + u64::from(row.size);
        if self.count > 0 && (bytes > cut.bytes || cut.sync && row.flags & NOT_SYNC == 0) {
            return false;
        }
        self.count += 1;
        self.bytes = bytes;
        self.duration += u64::from(row.duration);
        true
    }

    /// The piece that begins with a sample. Its rows are given to a function.
    #[inline]
    pub fn at<const FIELDS: usize>(
        rows: &Rows<FIELDS>,
        first: u32,
        cut: &Cut,
        mut with: impl FnMut(&Piece, &Row),
    ) -> Piece {
        let mut piece = Piece::default();
        for i in first..rows.run.count.min(first.saturating_add(cut.samples)) {
            let row = rows.row(i);
            let before = Piece { ..piece };
            if !piece.take(&row, cut) {
                break;
            }
            with(&before, &row);
        }
        piece
    }

    /// The bytes of the header of its mdat.
    #[inline(always)]
    pub fn header_len(&self) -> u32 {
        if self.bytes + 8 < 1 << 32 {
            8
        } else {
            16
        }
    }

    /// The bytes of its moof and its mdat.
    pub fn size(&self) -> u64 {
        92 + 16 * u64::from(self.count) + u64::from(self.header_len()) + self.bytes
    }
}
