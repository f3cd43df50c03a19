//! Type. Where references come from; the harness implements `Provider` over letters that it is given.
pub mod interface {
    use crate::sequences::TranslationTable;

    #[derive(Debug, Clone, PartialEq)]
    pub struct TranslationException {
        /// Codon, from 1.
        pub position: i32,
        pub amino_acid: char,
    }

    #[derive(Debug, Clone)]
    pub struct TxIdentityInfo {
        pub cds_start_i: Option<i32>,
        pub cds_end_i: Option<i32>,
        pub lengths: Vec<i32>,
        pub translation_table: TranslationTable,
    }

    #[derive(Debug, Clone)]
    pub struct Error;

    pub trait Provider {
        fn get_tx_identity_info(&self, tx_ac: &str) -> Result<TxIdentityInfo, Error>;
        fn get_seq(&self, ac: &str) -> Result<String, Error>;
        fn get_tx_translation_exceptions(&self, tx_ac: &str) -> Result<Vec<TranslationException>, Error>;
        fn get_pro_ac_for_tx_ac(&self, tx_ac: &str) -> Result<Option<String>, Error>;
        fn get_acs_for_protein_seq(&self, seq: &str) -> Result<Vec<String>, Error>;
    }
}
