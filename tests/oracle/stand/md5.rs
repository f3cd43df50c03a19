//! Type. Never called: `seq_md5` is left out.
pub struct Md5;

pub trait Digest {
    fn new() -> Self;
    fn update(&mut self, data: impl AsRef<[u8]>);
    fn finalize(self) -> [u8; 16];
}

impl Digest for Md5 {
    fn new() -> Self {
        Md5
    }
    fn update(&mut self, _data: impl AsRef<[u8]>) {
        unimplemented!()
    }
    fn finalize(self) -> [u8; 16] {
        unimplemented!()
    }
}
