//! Stand-in for the runtime's compiled image: the identity of an enclave, a number of 32 bits.

use super::tinymap::Key;

#[derive(Clone, Copy, Debug, Eq, PartialEq)]
pub struct EnclaveIndex(pub u32);

impl From<usize> for EnclaveIndex {
    fn from(index: usize) -> Self {
        Self(u32::try_from(index).expect("the map holds only indices that were enclaves"))
    }
}

impl Key for EnclaveIndex {
    fn index(&self) -> usize {
        self.0 as usize
    }
}
