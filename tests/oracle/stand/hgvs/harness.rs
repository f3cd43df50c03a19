//! The harness, a child of `altseq` so that it sees its private items. It makes references from letters and variants from an edit's parts, runs
//! the text on them, and reads the record.
use super::*;
use crate::data::interface::{self, TxIdentityInfo};
use crate::parser::CdsLocEdit;
use std::cell::Cell;

/// A position: its number, and whether it was written with a star.
#[derive(Debug, Clone, Copy)]
pub struct Position {
    pub star: bool,
    pub base: i32,
}

/// The kinds, in the order of their numbers at the C boundary, which begin at 1.
#[derive(Debug, Clone, Copy, PartialEq)]
pub enum Kind {
    Substitution,
    Deletion,
    Delins,
    Insertion,
    Duplication,
    Inversion,
    Identity,
}

/// Letters, bounds and exceptions as document 01 gives them.
pub struct Letters {
    pub letters: String,
    pub cs: i32,
    pub ce: i32,
    pub table: TranslationTable,
    pub exceptions: Vec<TranslationException>,
}

/// One exon, and a protein accession at hand: what the text asks for beside the letters has no part in the answers.
impl Provider for Letters {
    fn get_tx_identity_info(&self, _: &str) -> Result<TxIdentityInfo, interface::Error> {
        Ok(TxIdentityInfo {
            cds_start_i: Some(self.cs.wrapping_sub(1)),
            cds_end_i: Some(self.ce),
            lengths: vec![self.letters.len() as i32],
            translation_table: self.table,
        })
    }

    fn get_seq(&self, _: &str) -> Result<String, interface::Error> {
        Ok(self.letters.clone())
    }

    fn get_tx_translation_exceptions(&self, _: &str) -> Result<Vec<TranslationException>, interface::Error> {
        Ok(self.exceptions.clone())
    }

    fn get_pro_ac_for_tx_ac(&self, _: &str) -> Result<Option<String>, interface::Error> {
        Ok(Some("P".to_string()))
    }

    fn get_acs_for_protein_seq(&self, _: &str) -> Result<Vec<String>, interface::Error> {
        unimplemented!("get_pro_ac_for_tx_ac answers")
    }
}

pub type Given = Arc<dyn Provider + Send + Sync>;

pub fn table(number: u64) -> Option<TranslationTable> {
    match number {
        0 => Some(TranslationTable::Standard),
        1 => Some(TranslationTable::Selenocysteine),
        2 => Some(TranslationTable::VertebrateMitochondrial),
        _ => None,
    }
}

pub fn reference(given: &Given) -> Result<RefTranscriptData, Error> {
    RefTranscriptData::new(given.clone(), "T", None)
}

/// The variant that an edit's text stands for. `named` is the base that a substitution names.
pub fn variant(kind: Kind, start: Position, end: Position, named: &str, bases: &str) -> HgvsVariant {
    let pos = |p: Position| CdsPos {
        base: p.base,
        offset: None,
        cds_from: if p.star { CdsFrom::End } else { CdsFrom::Start },
    };
    let edit = match kind {
        Kind::Substitution => NaEdit::RefAlt { reference: named.to_string(), alternative: bases.to_string() },
        Kind::Deletion => NaEdit::DelRef { reference: String::new() },
        Kind::Delins => NaEdit::RefAlt { reference: String::new(), alternative: bases.to_string() },
        Kind::Insertion => NaEdit::Ins { alternative: bases.to_string() },
        Kind::Duplication => NaEdit::Dup { reference: String::new() },
        Kind::Inversion => NaEdit::InvRef { reference: String::new() },
        Kind::Identity => NaEdit::RefAlt { reference: String::new(), alternative: String::new() },
    };
    HgvsVariant::CdsVariant {
        accession: Accession::new("T"),
        gene_symbol: None,
        loc_edit: CdsLocEdit {
            loc: Mu::Certain(CdsInterval { start: pos(start), end: pos(end) }),
            edit: Mu::Certain(edit),
        },
    }
}

/// What an `AdHocRecord` held when it was dropped.
#[derive(Debug, Clone, PartialEq, Default)]
pub struct Record {
    pub number: i32,
    pub deleted: String,
    pub inserted: String,
}

thread_local! {
    static KEEPS: Cell<bool> = const { Cell::new(false) };
    static KEPT: Cell<Option<Record>> = const { Cell::new(None) };
}

impl Drop for AdHocRecord {
    fn drop(&mut self) {
        if KEEPS.get() {
            KEPT.set(Some(Record {
                number: self.start,
                deleted: std::mem::take(&mut self.del),
                inserted: std::mem::take(&mut self.ins),
            }));
        }
    }
}

/// The record, or none where the text makes none, and the protein variant made of it.
pub fn record(reference: &RefTranscriptData, alt: AltTranscriptData) -> (Option<Record>, Result<HgvsVariant, Error>) {
    KEPT.set(None);
    KEEPS.set(true);
    let variant = AltSeqToHgvsp::new(reference, alt).build_hgvsp();
    KEEPS.set(false);
    (KEPT.take(), variant)
}

/// The one altered transcript of a variant, by `build_altseq_in` for an edit in the CDS.
pub fn altered(builder: &AltSeqBuilder<'_>, until_stop: bool) -> Result<AltTranscriptData, Error> {
    let mut all = builder.build_altseq_in(VariantLocation::Cds, until_stop)?;
    Ok(all.pop().expect("one"))
}

/// The moved exceptions, as codon from 1 and residue.
pub fn moved(builder: &AltSeqBuilder<'_>, alt: &str) -> Vec<(usize, char)> {
    let moved = builder.alt_translation_exceptions(alt);
    moved.into_iter().map(|(codon, residue)| (codon + 1, residue)).collect()
}

/// How many of the new bases the stop cut keeps, if it finds a stop.
pub fn stop_cut(builder: &AltSeqBuilder<'_>) -> Result<Option<usize>, Error> {
    let (seq, _, _, start, end) = builder.setup_incorporate()?;
    let (bases, at) = match builder.var_c.na_edit() {
        Some(NaEdit::Ins { alternative }) => (alternative.clone(), (start + 1).min(seq.len())),
        Some(NaEdit::Dup { .. }) => (seq[start..end].to_string(), end),
        _ => return Ok(None),
    };
    Ok(builder.insert_stop_seq_end(&bases, at)?.map(|behind| behind - at))
}

/// `altered` and the protein variant, for timing: the record's answer in a number that depends on it.
pub fn timed(reference: &RefTranscriptData, held: &mut Option<HgvsVariant>, until_stop: bool) -> u64 {
    let builder = AltSeqBuilder::new(held.take().expect("put back"), reference);
    let answer = match altered(&builder, until_stop) {
        Ok(alt) => {
            let len = alt.transcript_sequence.len() as u64;
            match AltSeqToHgvsp::new(reference, alt).build_hgvsp() {
                Ok(HgvsVariant::ProtVariant { loc_edit: ProtLocEdit::Ordinary { loc, .. }, .. }) => {
                    len + loc.inner().start.number as u64
                }
                _ => len,
            }
        }
        Err(_) => 0,
    };
    *held = Some(builder.var_c);
    answer
}

/// `common_prefix_len` of the text.
pub fn prefix(a: &[u8], b: &[u8]) -> usize {
    common_prefix_len(a, b)
}
