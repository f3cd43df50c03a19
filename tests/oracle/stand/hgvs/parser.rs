//! Types of parsed variants. Behaviour: `CdsInterval::validate`, `spans_intron`, `na_edit`, `is_ins`, `is_dup`; each says only what the comments
//! of the text, or its own name, say of it.
use crate::validator::{Error, Validateable};
use std::fmt;

#[derive(Debug, Clone, PartialEq)]
pub struct Accession {
    pub value: String,
}

impl Accession {
    pub fn new(value: &str) -> Self {
        Self { value: value.to_string() }
    }
}

#[derive(Debug, Clone, PartialEq)]
pub enum Mu<T> {
    Certain(T),
    Uncertain(T),
}

impl<T> Mu<T> {
    pub fn inner(&self) -> &T {
        match self {
            Mu::Certain(value) | Mu::Uncertain(value) => value,
        }
    }
}

#[derive(Debug, Clone, Copy, PartialEq, Eq, PartialOrd, Ord)]
pub enum CdsFrom {
    Start,
    End,
}

#[derive(Debug, Clone, PartialEq)]
pub struct CdsPos {
    pub base: i32,
    pub offset: Option<i32>,
    pub cds_from: CdsFrom,
}

impl fmt::Display for CdsPos {
    fn fmt(&self, f: &mut fmt::Formatter<'_>) -> fmt::Result {
        let star = if self.cds_from == CdsFrom::End { "*" } else { "" };
        write!(f, "{star}{}", self.base)
    }
}

#[derive(Debug, Clone, PartialEq)]
pub struct CdsInterval {
    pub start: CdsPos,
    pub end: CdsPos,
}

impl Validateable for CdsInterval {
    /// "`StartMustBeLessThanEnd` if the start of the interval lies after its end, e.g. `c.6_4del`, and .. `PositionMustNotBeZero` for `c.0` or
    /// `c.*0`" (`build_altseq`). A position with `*` lies after every one without.
    fn validate(&self) -> Result<(), Error> {
        let shown = || format!("{}_{}", self.start, self.end);
        let place = |pos: &CdsPos| (pos.cds_from, pos.base, pos.offset.unwrap_or(0));
        if self.start.base == 0 || self.end.base == 0 {
            Err(Error::PositionMustNotBeZero(shown()))
        } else if place(&self.start) > place(&self.end) {
            Err(Error::StartMustBeLessThanEnd(shown()))
        } else {
            Ok(())
        }
    }
}

#[derive(Debug, Clone, PartialEq)]
pub enum NaEdit {
    RefAlt { reference: String, alternative: String },
    NumAlt { count: i32, alternative: String },
    DelRef { reference: String },
    DelNum { count: i32 },
    Ins { alternative: String },
    Dup { reference: String },
    InvRef { reference: String },
    InvNum { count: i32 },
}

impl NaEdit {
    pub fn is_ins(&self) -> bool {
        matches!(self, NaEdit::Ins { .. })
    }

    pub fn is_dup(&self) -> bool {
        matches!(self, NaEdit::Dup { .. })
    }
}

#[derive(Debug, Clone, PartialEq)]
pub struct CdsLocEdit {
    pub loc: Mu<CdsInterval>,
    pub edit: Mu<NaEdit>,
}

#[derive(Debug, Clone, PartialEq)]
pub struct ProtPos {
    pub aa: String,
    pub number: i32,
}

#[derive(Debug, Clone, PartialEq)]
pub struct ProtInterval {
    pub start: ProtPos,
    pub end: ProtPos,
}

#[derive(Debug, Clone, PartialEq, Default)]
pub enum UncertainLengthChange {
    #[default]
    None,
    Unknown,
    Known(i32),
}

#[derive(Debug, Clone, PartialEq)]
pub enum ProteinEdit {
    Ident,
    Subst { alternative: String },
    DelIns { alternative: String },
    Ins { alternative: String },
    Del,
    Dup,
    Fs { alternative: Option<String>, terminal: Option<String>, length: UncertainLengthChange },
    Ext { aa_ext: Option<String>, ext_aa: Option<String>, change: UncertainLengthChange },
}

#[derive(Debug, Clone, PartialEq)]
pub enum ProtLocEdit {
    Ordinary { loc: Mu<ProtInterval>, edit: Mu<ProteinEdit> },
    NoChange,
    NoProteinUncertain,
    Unknown,
    InitiationUncertain,
}

#[derive(Debug, Clone, PartialEq)]
pub enum HgvsVariant {
    CdsVariant { accession: Accession, gene_symbol: Option<String>, loc_edit: CdsLocEdit },
    TxVariant { accession: Accession, gene_symbol: Option<String> },
    ProtVariant { accession: Accession, gene_symbol: Option<String>, loc_edit: ProtLocEdit },
}

impl fmt::Display for HgvsVariant {
    fn fmt(&self, f: &mut fmt::Formatter<'_>) -> fmt::Result {
        fmt::Debug::fmt(self, f)
    }
}

impl Validateable for HgvsVariant {
    fn validate(&self) -> Result<(), Error> {
        unimplemented!("the harness runs no validator")
    }
}

impl HgvsVariant {
    pub fn spans_intron(&self) -> bool {
        match self {
            HgvsVariant::CdsVariant { loc_edit, .. } => {
                let loc = loc_edit.loc.inner();
                loc.start.offset.unwrap_or(0) != 0 || loc.end.offset.unwrap_or(0) != 0
            }
            _ => false,
        }
    }

    pub fn na_edit(&self) -> Option<&NaEdit> {
        match self {
            HgvsVariant::CdsVariant { loc_edit, .. } => Some(loc_edit.edit.inner()),
            _ => None,
        }
    }
}

pub fn location(variant: &HgvsVariant) -> String {
    variant.to_string()
}
