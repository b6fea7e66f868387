//! Stands in for the reader at any place: nothing here makes one.

use std::io::{self, Read, Seek, SeekFrom};

pub trait ReadAt {}

#[derive(Clone, Debug)]
pub struct ReadAtReader<A>(A);

impl<A: ReadAt> Read for ReadAtReader<A> {
    fn read(&mut self, _: &mut [u8]) -> io::Result<usize> {
        Err(io::ErrorKind::Unsupported.into())
    }
}

impl<A: ReadAt> Seek for ReadAtReader<A> {
    fn seek(&mut self, _: SeekFrom) -> io::Result<u64> {
        Err(io::ErrorKind::Unsupported.into())
    }
}
