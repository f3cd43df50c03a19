//! Type. Never called: `seq_md5` is left out.
pub mod lower {
    pub fn encode_str<'a>(_src: &[u8], _dst: &'a mut [u8]) -> Result<&'a str, std::fmt::Error> {
        unimplemented!()
    }
}
