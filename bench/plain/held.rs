//! The boxes of a moov or moof that is held.

use crate::headers::{Header, Kind, NoHeader};
use crate::rules::{Broken, Fault, Rule};

/// How deep boxes may be; a box at the top has depth 1.
const DEEPEST: usize = 8;

/// A box whose bytes are held.
#[derive(Clone, Copy)]
pub struct Child<'a> {
    pub kind: Kind,
    /// Where it begins in what is held, and where its payload does.
    pub at: usize,
    pub payload_at: usize,
    pub payload: &'a [u8],
}

impl<'a> Child<'a> {
    /// The box that is held, by its header.
    #[inline]
    pub fn whole(held: &'a [u8], header: &Header) -> Child<'a> {
        Child { kind: header.kind, at: 0, payload_at: header.len, payload: &held[header.len..] }
    }

    #[inline]
    pub fn children(&self) -> Children<'a> {
        Children { bytes: self.payload, at: self.payload_at }
    }

    /// The children of a type, up to the first that isn't whole.
    pub fn all(&self, kind: Kind) -> impl Iterator<Item = Child<'a>> {
        self.children().map_while(Result::ok).filter(move |child| child.kind == kind)
    }
}

/// The boxes of a payload, one after the other. The first that isn't whole ends them.
#[derive(Clone)]
pub struct Children<'a> {
    bytes: &'a [u8],
    at: usize,
}

/// A box that isn't whole: its type, if that is there, and where it begins in what is held.
pub struct BadSize(Option<Kind>, usize);

impl From<BadSize> for Broken {
    fn from(_: BadSize) -> Broken {
        Broken
    }
}

impl<'a> Children<'a> {
    /// The boxes in bytes so far after the front of what is held.
    pub fn of(bytes: &'a [u8], at: usize) -> Children<'a> {
        Children { bytes, at }
    }
}

impl<'a> Iterator for Children<'a> {
    type Item = Result<Child<'a>, BadSize>;

    #[inline(always)]
    fn next(&mut self) -> Option<Self::Item> {
        if self.bytes.is_empty() {
            return None;
        }
        let at = self.at;
        let header = match Header::parse(self.bytes) {
            Ok(header) => header,
            Err(NoHeader::Cut(kind, _)) => return Some(Err(BadSize(kind, at))),
            Err(NoHeader::BadSize(kind)) => return Some(Err(BadSize(Some(kind), at))),
        };
        let size = header.size.and_then(|size| usize::try_from(size).ok());
        let Some((own, rest)) = size.and_then(|size| self.bytes.split_at_checked(size)) else {
            return Some(Err(BadSize(Some(header.kind), at)));
        };
        self.at += own.len();
        self.bytes = rest;
        Some(Ok(Child {
            kind: header.kind,
            at,
            payload_at: at + header.len,
            payload: &own[header.len..],
        }))
    }
}

/// Checks that all boxes below one that begins at an offset are whole, and then that none is too deep.
pub fn check_tree(top: &Child, base: u64) -> Result<(), Fault> {
    let fault = |rule, kind, at| Fault { rule, kind, at: base + at as u64 };
    let mut too_deep = None;
    match check_below(top, 2, &mut too_deep) {
        Err(BadSize(kind, at)) => Err(fault(Rule::BadSize, kind, at)),
        Ok(()) => too_deep.map_or(Ok(()), |(kind, at)| Err(fault(Rule::Depth, Some(kind), at))),
    }
}

/// Checks the boxes below a parent, which are at a depth, and notes the first that is too deep.
fn check_below(
    parent: &Child,
    depth: usize,
    too_deep: &mut Option<(Kind, usize)>,
) -> Result<(), BadSize> {
    for child in parent.children() {
        let child = child?;
        if depth > DEEPEST {
            too_deep.get_or_insert((child.kind, child.at));
        } else if child.kind.is_container() {
            check_below(&child, depth + 1, too_deep)?;
        }
    }
    Ok(())
}

/// The number of 32 bits so many bytes after the front.
#[inline]
pub fn number(bytes: &[u8], at: usize) -> Option<u32> {
    Some(u32::from_be_bytes(*bytes.get(at..)?.first_chunk()?))
}
