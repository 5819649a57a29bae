//! The types and the headers of boxes.

/// The longest header: a size of 64 bits and a user type.
pub const LONGEST_HEADER: usize = 32;

/// A type, its first byte the highest.
#[derive(Clone, Copy, PartialEq, Eq)]
pub struct Kind(u32);

impl Kind {
    pub const CO64: Kind = Kind::of(b"co64");
    pub const DINF: Kind = Kind::of(b"dinf");
    pub const EDTS: Kind = Kind::of(b"edts");
    pub const FREE: Kind = Kind::of(b"free");
    pub const MDAT: Kind = Kind::of(b"mdat");
    pub const MDHD: Kind = Kind::of(b"mdhd");
    pub const MDIA: Kind = Kind::of(b"mdia");
    pub const MFHD: Kind = Kind::of(b"mfhd");
    pub const MINF: Kind = Kind::of(b"minf");
    pub const MOOF: Kind = Kind::of(b"moof");
    pub const MOOV: Kind = Kind::of(b"moov");
    pub const MVEX: Kind = Kind::of(b"mvex");
    pub const SKIP: Kind = Kind::of(b"skip");
    pub const STBL: Kind = Kind::of(b"stbl");
    pub const STCO: Kind = Kind::of(b"stco");
    pub const STSC: Kind = Kind::of(b"stsc");
    pub const STSD: Kind = Kind::of(b"stsd");
    pub const STSZ: Kind = Kind::of(b"stsz");
    pub const STTS: Kind = Kind::of(b"stts");
    pub const STZ2: Kind = Kind::of(b"stz2");
    pub const TFDT: Kind = Kind::of(b"tfdt");
    pub const TFHD: Kind = Kind::of(b"tfhd");
    pub const TKHD: Kind = Kind::of(b"tkhd");
    pub const TRAF: Kind = Kind::of(b"traf");
    pub const TRAK: Kind = Kind::of(b"trak");
    pub const TREX: Kind = Kind::of(b"trex");
    pub const TRUN: Kind = Kind::of(b"trun");
    pub const UUID: Kind = Kind::of(b"uuid");

    pub const fn of(text: &[u8; 4]) -> Kind {
        Kind(u32::from_be_bytes(*text))
    }

    /// Whether the payload of such a box is a row of boxes.
    pub fn is_container(self) -> bool {
        matches!(
            self,
            Kind::MOOV
                | Kind::TRAK
                | Kind::EDTS
                | Kind::MDIA
                | Kind::MINF
                | Kind::DINF
                | Kind::STBL
                | Kind::MVEX
                | Kind::MOOF
                | Kind::TRAF
        )
    }

    /// The four bytes, with a question mark for each that doesn't print.
    pub fn shown(self) -> String {
        let shown = |byte| if matches!(byte, 0x20..=0x7e) { char::from(byte) } else { '?' };
        self.0.to_be_bytes().map(shown).iter().collect()
    }
}

/// The front of a box: its size and type, and how many bytes they take.
pub struct Header {
    pub kind: Kind,
    /// The size of the whole box; none where it goes to the end of the stream.
    pub size: Option<u64>,
    pub len: usize,
}

/// Why bytes don't begin with a header.
pub enum NoHeader {
    /// They end before it does: its type, if they have it, and how many bytes would show more.
    Cut(Option<Kind>, usize),
    /// The size has no room for it.
    BadSize(Kind),
}

impl Header {
    /// The header at the front of the bytes.
    #[inline(always)]
    pub fn parse(bytes: &[u8]) -> Result<Header, NoHeader> {
        let (start, rest) = bytes.split_first_chunk().ok_or(NoHeader::Cut(None, 8))?;
        let start = u64::from_be_bytes(*start);
        let (size, kind) = (start >> 32, Kind(start as u32));
        if size < 8 || kind == Kind::UUID {
            return Header::parse_rare(size, kind, rest);
        }
        Ok(Header { kind, size: Some(size), len: 8 })
    }

    /// The header that begins with such a size and type, the rest of which is at the front of the bytes.
    #[cold]
    fn parse_rare(size: u64, kind: Kind, rest: &[u8]) -> Result<Header, NoHeader> {
        let long = if size == 1 { 8 } else { 0 };
        let len = 8 + long + if kind == Kind::UUID { 16 } else { 0 };
        if rest.len() < len - 8 {
            return Err(NoHeader::Cut(Some(kind), len));
        }
        let size = match size {
            0 => None,
            1 => rest.first_chunk().copied().map(u64::from_be_bytes),
            _ => Some(size),
        };
        if size.is_some_and(|size| size < len as u64) {
            return Err(NoHeader::BadSize(kind));
        }
        Ok(Header { kind, size, len })
    }
}
