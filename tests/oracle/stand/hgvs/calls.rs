//! The harness for C: see ../../oracle.h, which says what each function does.
use crate::mapper::altseq::harness::{self, Given, Kind, Letters, Position};
use crate::mapper::altseq::{AltSeqBuilder, CdsEnd, RefTranscriptData};
use crate::mapper::error::Error;
use crate::data::interface::TranslationException;
use crate::parser::{HgvsVariant, ProtLocEdit, ProteinEdit};
use crate::sequences;
use std::{slice, str, sync::Arc};

/// The bytes at `at`; a length of 0 may come with any pointer.
unsafe fn bytes<'a>(at: *const u8, len: u64) -> &'a [u8] {
    if len == 0 { &[] } else { slice::from_raw_parts(at, len as usize) }
}

unsafe fn text<'a>(at: *const u8, len: u64) -> Option<&'a str> {
    str::from_utf8(bytes(at, len)).ok()
}

/// Writes `from` if it fits; its length, or -1.
unsafe fn put(from: &[u8], out: *mut u8, room: u64) -> i64 {
    if from.len() as u64 > room {
        return -1;
    }
    if !from.is_empty() {
        slice::from_raw_parts_mut(out, from.len()).copy_from_slice(from);
    }
    from.len() as i64
}

unsafe fn put_text<E>(from: Result<String, E>, out: *mut u8, room: u64) -> i64 {
    from.map_or(-1, |from| put(from.as_bytes(), out, room))
}

#[no_mangle]
pub unsafe extern "C" fn oracle_translate(seq: *const u8, len: u64, full: u64, table: u64, out: *mut u8, room: u64) -> i64 {
    let (Some(seq), Some(table)) = (text(seq, len), harness::table(table)) else { return -1 };
    put_text(sequences::translate_cds(seq, full != 0, "X", table), out, room)
}

/// As `oracle_translate`, for letters that the caller knows to be text; the residues are made and dropped.
#[no_mangle]
pub unsafe extern "C" fn oracle_timed_translate(seq: *const u8, len: u64, table: u64) -> u64 {
    let seq = str::from_utf8_unchecked(bytes(seq, len));
    let Some(table) = harness::table(table) else { return 0 };
    sequences::translate_cds(seq, false, "X", table).map_or(0, |residues| std::hint::black_box(residues).len() as u64)
}

#[no_mangle]
pub unsafe extern "C" fn oracle_prefix(a: *const u8, a_len: u64, b: *const u8, b_len: u64) -> u64 {
    harness::prefix(bytes(a, a_len), bytes(b, b_len)) as u64
}

#[no_mangle]
pub unsafe extern "C" fn oracle_trim_prefix(a: *const u8, a_len: u64, b: *const u8, b_len: u64) -> i64 {
    let (Some(a), Some(b)) = (text(a, a_len), text(b, b_len)) else { return -1 };
    sequences::trim_common_prefixes(a, b).0 as i64
}

#[no_mangle]
pub unsafe extern "C" fn oracle_trim_suffix(a: *const u8, a_len: u64, b: *const u8, b_len: u64) -> i64 {
    let (Some(a), Some(b)) = (text(a, a_len), text(b, b_len)) else { return -1 };
    sequences::trim_common_suffixes(a, b).0 as i64
}

#[no_mangle]
pub unsafe extern "C" fn oracle_names3(one: *const u8, len: u64, out: *mut u8, room: u64) -> i64 {
    let Some(one) = text(one, len) else { return -1 };
    put_text(sequences::aa1_to_aa3(one), out, room)
}

#[no_mangle]
pub unsafe extern "C" fn oracle_names1(three: *const u8, len: u64, out: *mut u8, room: u64) -> i64 {
    let Some(three) = text(three, len) else { return -1 };
    put_text(sequences::aa3_to_aa1(three), out, room)
}

#[no_mangle]
pub unsafe extern "C" fn oracle_complement(seq: *const u8, len: u64, out: *mut u8, room: u64) -> i64 {
    let Some(seq) = text(seq, len) else { return -1 };
    put(sequences::revcomp(seq).as_bytes(), out, room)
}

pub struct Reference {
    given: Given,
    made: RefTranscriptData,
}

#[no_mangle]
pub unsafe extern "C" fn oracle_reference_new(
    letters: *const u8,
    len: u64,
    cs: i64,
    ce: i64,
    table: u64,
    exceptions: *const u8,
    exceptions_len: u64,
) -> *mut Reference {
    let parts = (text(letters, len), harness::table(table), i32::try_from(cs), i32::try_from(ce));
    let (Some(letters), Some(table), Ok(cs), Ok(ce)) = parts else { return std::ptr::null_mut() };
    let exceptions = bytes(exceptions, exceptions_len).chunks_exact(3).map(|e| TranslationException {
        position: i32::from(e[0]) * 256 + i32::from(e[1]),
        amino_acid: e[2] as char,
    });
    let given: Given = Arc::new(Letters { letters: letters.to_string(), cs, ce, table, exceptions: exceptions.collect() });
    match harness::reference(&given) {
        Ok(made) => Box::into_raw(Box::new(Reference { given, made })),
        Err(_) => std::ptr::null_mut(),
    }
}

#[no_mangle]
pub unsafe extern "C" fn oracle_reference_free(reference: *mut Reference) {
    if !reference.is_null() {
        drop(Box::from_raw(reference));
    }
}

#[no_mangle]
pub unsafe extern "C" fn oracle_reference_protein(reference: *const Reference, out: *mut u8, room: u64) -> i64 {
    put((*reference).made.aa_sequence.as_bytes(), out, room)
}

/// The end that the text itself finds, by the numbers of the module.
#[no_mangle]
pub unsafe extern "C" fn oracle_reference_end(reference: *const Reference) -> u64 {
    match (*reference).made.cds_end {
        CdsEnd::StopCodon => 0,
        CdsEnd::NoStopCodon => 1,
        CdsEnd::IncompleteCodon(_) => 2,
    }
}

/// The variant moves into the text's builder and back, so that no call copies it.
pub struct Edit {
    held: Option<HgvsVariant>,
}

#[no_mangle]
pub unsafe extern "C" fn oracle_edit_new(
    kind: u64,
    start_star: u64,
    start: i64,
    end_star: u64,
    end: i64,
    bases: *const u8,
    bases_len: u64,
) -> *mut Edit {
    let kind = match kind {
        1 => Kind::Substitution,
        2 => Kind::Deletion,
        3 => Kind::Delins,
        4 => Kind::Insertion,
        5 => Kind::Duplication,
        6 => Kind::Inversion,
        7 => Kind::Identity,
        _ => return std::ptr::null_mut(),
    };
    let (Some(bases), Ok(start), Ok(end)) = (text(bases, bases_len), i32::try_from(start), i32::try_from(end)) else {
        return std::ptr::null_mut();
    };
    let start = Position { star: start_star != 0, base: start };
    let end = Position { star: end_star != 0, base: end };
    let held = Some(harness::variant(kind, start, end, "", bases));
    Box::into_raw(Box::new(Edit { held }))
}

#[no_mangle]
pub unsafe extern "C" fn oracle_edit_free(edit: *mut Edit) {
    if !edit.is_null() {
        drop(Box::from_raw(edit));
    }
}

#[repr(C)]
pub struct Answer {
    pub answered: u64,
    pub frameshift: u64,
    pub unknown: u64,
    pub cut: i64,
    pub transcript_len: i64,
    pub altered_len: i64,
    pub moved_len: i64,
    pub number: i64,
    pub deleted_len: i64,
    pub inserted_len: i64,
    pub uncut_len: i64,
    pub form: u64,
    pub first: i64,
}

const NOTHING: Answer = Answer {
    answered: 0,
    frameshift: 0,
    unknown: 0,
    cut: -1,
    transcript_len: 0,
    altered_len: 0,
    moved_len: 0,
    number: 0,
    deleted_len: 0,
    inserted_len: 0,
    uncut_len: 0,
    form: 0,
    first: 0,
};

#[no_mangle]
pub unsafe extern "C" fn oracle_edit(
    reference: *const Reference,
    edit: *mut Edit,
    until_stop: u64,
    first_stop: u64,
    transcript: *mut u8,
    transcript_room: u64,
    altered: *mut u8,
    altered_room: u64,
    moved: *mut u8,
    moved_room: u64,
) -> Answer {
    let reference = &(*reference).made;
    let variant = (*edit).held.take().expect("put back");
    let builder = AltSeqBuilder::new(variant, reference);
    let answer = (|| {
        let mut alt = harness::altered(&builder, until_stop != 0).ok()?;
        let uncut_len = alt.aa_sequence.len() as i64;
        if first_stop != 0 {
            cut_at_first_stop(&mut alt.aa_sequence);
        }
        let exceptions: Vec<u8> = harness::moved(&builder, &alt.transcript_sequence)
            .into_iter()
            .flat_map(|(codon, residue)| [(codon >> 8) as u8, codon as u8, residue as u8])
            .collect();
        let mut answer = Answer {
            answered: 1,
            frameshift: alt.is_frameshift as u64,
            unknown: alt.is_ambiguous as u64,
            cut: harness::stop_cut(&builder).ok()?.map_or(-1, |kept| kept as i64),
            transcript_len: put(alt.transcript_sequence.as_bytes(), transcript, transcript_room),
            altered_len: put(alt.aa_sequence.as_bytes(), altered, altered_room),
            moved_len: put(&exceptions, moved, moved_room),
            uncut_len,
            ..NOTHING
        };
        let (record, variant) = harness::record(reference, alt);
        (answer.form, answer.first) = form(variant);
        if let Some(record) = record {
            answer.number = record.number.into();
            answer.deleted_len = record.deleted.len() as i64;
            answer.inserted_len = record.inserted.len() as i64;
        }
        Some(answer)
    })();
    (*edit).held = Some(builder.var_c);
    answer.unwrap_or(NOTHING)
}

/// How many codons `build_altseq_in` reads in a table for an edit, with `until_stop`, but for those of the stop cut; -1 where it builds nothing.
#[cfg(counted)]
#[no_mangle]
pub unsafe extern "C" fn oracle_codons_read(reference: *const Reference, edit: *mut Edit) -> i64 {
    let read = || crate::sequences::CODONS_READ.swap(0, std::sync::atomic::Ordering::Relaxed) as i64;
    let builder = AltSeqBuilder::new((*edit).held.take().expect("put back"), &(*reference).made);
    read();
    let cut = harness::stop_cut(&builder);
    let by_cut = read();
    let alt = harness::altered(&builder, true);
    let by_both = read();
    (*edit).held = Some(builder.var_c);
    let built = cut.is_ok() && alt.is_ok_and(|alt| alt.variant_start_aa.is_some());
    if built { by_both - by_cut } else { -1 }
}

/// The number of the protein variant's kind, see oracle.h, and a duplication's first residue. A substitution by nothing is the text's way to say
/// that nothing changed.
fn form(variant: Result<HgvsVariant, Error>) -> (u64, i64) {
    let Ok(HgvsVariant::ProtVariant { loc_edit, .. }) = variant else { return (0, 0) };
    let (loc, edit) = match &loc_edit {
        ProtLocEdit::InitiationUncertain => return (1, 0),
        ProtLocEdit::NoChange => return (10, 0),
        ProtLocEdit::NoProteinUncertain => return (11, 0),
        ProtLocEdit::Unknown => return (12, 0),
        ProtLocEdit::Ordinary { loc, edit } => (loc.inner(), edit.inner()),
    };
    match edit {
        ProteinEdit::Ext { .. } => (2, 0),
        ProteinEdit::Subst { alternative } if alternative == "*" => (3, 0),
        ProteinEdit::Fs { .. } => (4, 0),
        ProteinEdit::Subst { alternative } if alternative.is_empty() => (10, 0),
        ProteinEdit::Subst { .. } => (5, 0),
        ProteinEdit::Del => (6, 0),
        ProteinEdit::Dup => (7, loc.start.number.into()),
        ProteinEdit::Ins { .. } => (8, 0),
        ProteinEdit::DelIns { .. } => (9, 0),
        ProteinEdit::Ident => (10, 0),
    }
}

/// Document 01's A, of the text's.
pub fn cut_at_first_stop(residues: &mut String) {
    if let Some(stop) = residues.find('*') {
        residues.truncate(stop + 1);
    }
}

#[no_mangle]
pub unsafe extern "C" fn oracle_timed_edit_known(reference: *const Reference, edit: *mut Edit, until_stop: u64) -> u64 {
    harness::timed(&(*reference).made, &mut (*edit).held, until_stop != 0)
}

#[no_mangle]
pub unsafe extern "C" fn oracle_timed_edit(reference: *const Reference, edit: *mut Edit, until_stop: u64) -> u64 {
    harness::reference(&(*reference).given).map_or(0, |made| harness::timed(&made, &mut (*edit).held, until_stop != 0))
}
