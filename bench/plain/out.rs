//! Bytes on their way out, and a stream that is read only once they are written.

use crate::stop::Stop;
use std::io::{Error, ErrorKind, IoSlice, Read, Write};

/// How many bytes are gathered.
pub const BLOCK: usize = 65_536;
/// Bytes of a stream are written from where they lie if they are so many.
const LONG: usize = 8192;

/// Short bytes are gathered, and written together.
pub struct Out<W> {
    to: W,
    block: Box<[u8]>,
    len: usize,
    pub has_failed: bool,
}

impl<W: Write> Out<W> {
    pub fn new(to: W) -> Out<W> {
        Out { to, block: vec![0; BLOCK].into_boxed_slice(), len: 0, has_failed: false }
    }

    #[inline(always)]
    pub fn put(&mut self, bytes: &[u8]) -> Result<(), Stop> {
        if bytes.len() >= LONG {
            return self.send_with(bytes);
        }
        self.room(bytes.len())?.copy_from_slice(bytes);
        self.len += bytes.len();
        Ok(())
    }

    /// Room for so many bytes, at most those of a block. They are put once it is known how many they are.
    #[inline(always)]
    pub fn room(&mut self, count: usize) -> Result<&mut [u8], Stop> {
        if self.block.len() - self.len < count {
            self.send()?;
        }
        Ok(&mut self.block[self.len..][..count])
    }

    /// Puts so many bytes, which are in the room.
    #[inline(always)]
    pub fn took(&mut self, count: usize) {
        self.len += count;
    }

    /// Writes what was gathered.
    #[cold]
    pub fn send(&mut self) -> Result<(), Stop> {
        let len = std::mem::take(&mut self.len);
        let sent = self.to.write_all(&self.block[..len]);
        self.has_failed |= sent.is_err();
        sent.map_err(|_| Stop::Write)
    }

    /// Writes what was gathered, and these bytes.
    #[cold]
    fn send_with(&mut self, bytes: &[u8]) -> Result<(), Stop> {
        let gathered = std::mem::take(&mut self.len);
        let written = loop {
            let both = [IoSlice::new(&self.block[..gathered]), IoSlice::new(bytes)];
            match self.to.write_vectored(&both) {
                Err(error) if error.kind() == ErrorKind::Interrupted => {}
                Err(error) => break Err(error),
                Ok(count) if count < gathered => {
                    let left = self.to.write_all(&self.block[count..gathered]);
                    break left.and_then(|()| self.to.write_all(bytes));
                }
                Ok(count) => break self.to.write_all(&bytes[count - gathered..]),
            }
        };
        self.has_failed |= written.is_err();
        written.map_err(|_| Stop::Write)
    }
}

/// A stream, and what is made of it, which is written before more of the stream is read.
pub struct Through<R, W> {
    pub from: R,
    pub out: Out<W>,
}

impl<R: Read, W: Write> Read for Through<R, W> {
    fn read(&mut self, place: &mut [u8]) -> Result<usize, Error> {
        self.out.send().map_err(|_| Error::other("a write failed"))?;
        self.from.read(place)
    }
}
