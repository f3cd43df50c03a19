//! The root that the text of hgvs 4.0.1 is compiled under: `sequences`, `mapper::altseq` and `validator` are the text, all else stands in.
pub mod calls;
pub mod data;
pub mod mapper;
pub mod parser;
pub mod sequences;
pub mod validator;
