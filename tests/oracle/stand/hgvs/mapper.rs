//! Type. What the text takes from the module `mapper`: errors, and what its cache and the validator name.
pub mod altseq;

use crate::data::interface::Provider;
use std::sync::Arc;

pub mod error {
    #[derive(thiserror::Error, Debug, Clone)]
    pub enum Error {
        ValidationFailed(crate::validator::Error),
        SequenceOperationFailed(crate::sequences::Error),
        DataError(crate::data::interface::Error),
        CdsUndefined(String),
        TranscriptLengthInvalid(String, usize),
        ExpectedCdsVariant(String),
        CoordinateOutOfBounds(String),
        DuplicationReferenceMissing(String),
        DeletionSequenceEmpty,
        InsertionSequenceEmpty,
        MultipleAAVariants,
    }

    impl From<crate::validator::Error> for Error {
        fn from(error: crate::validator::Error) -> Self {
            Error::ValidationFailed(error)
        }
    }

    impl From<crate::sequences::Error> for Error {
        fn from(error: crate::sequences::Error) -> Self {
            Error::SequenceOperationFailed(error)
        }
    }

    impl From<crate::data::interface::Error> for Error {
        fn from(error: crate::data::interface::Error) -> Self {
            Error::DataError(error)
        }
    }
}

pub(crate) fn provider_id(provider: &Arc<dyn Provider + Send + Sync>) -> usize {
    Arc::as_ptr(provider) as *const () as usize
}

pub(crate) struct CacheEntry<V> {
    pub value: V,
}

impl<V: Clone> CacheEntry<V> {
    pub fn new(_provider: &Arc<dyn Provider + Send + Sync>, value: &V) -> Self {
        Self { value: value.clone() }
    }
}

pub mod variant {
    use super::*;
    use crate::validator::ValidationLevel;

    /// Stands for `Direction` and for the side of a boundary.
    #[derive(Debug, Clone, Copy, PartialEq, Default)]
    pub struct Unused;

    #[derive(Debug, Clone, PartialEq)]
    pub struct Config {
        pub replace_reference: bool,
        pub strict_validation: bool,
        pub prevalidation_level: ValidationLevel,
        pub add_gene_symbol: bool,
        pub strict_bounds: bool,
        pub renormalize_g: bool,
        pub genome_seq_available: bool,
        pub shuffle_direction: Unused,
        pub window_size: usize,
        pub ins_at_boundary_is_intronic: bool,
        pub ins_at_boundary_by_sequence: bool,
        pub shift_over_boundary: bool,
        pub shift_over_boundary_preference: Unused,
        pub inferred_p_is_uncertain: bool,
    }

    pub struct Mapper;

    impl Mapper {
        pub fn new(_config: &Config, _provider: Arc<dyn Provider + Send + Sync>) -> Self {
            Mapper
        }
    }
}
