//! Stands in for the cancellation of reads: nobody asks for one.

use crate::error::Error;

#[derive(Clone, Debug)]
pub struct CancelToken;

impl CancelToken {
    pub fn new() -> Self {
        CancelToken
    }

    pub fn check(&self) -> Result<(), Error> {
        Ok(())
    }
}
