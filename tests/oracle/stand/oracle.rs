//! Reads lines of document 01's form on standard input and prints what the text of hgvs answers, a line each; see ../README.md for both forms.
use hgvs::calls::cut_at_first_stop;
use hgvs::data::interface::TranslationException;
use hgvs::mapper::altseq::harness::{self, Given, Kind, Letters, Position};
use hgvs::mapper::altseq::{AltSeqBuilder, AltTranscriptData, RefTranscriptData};
use hgvs::mapper::error::Error;
use hgvs::parser::{HgvsVariant, Mu, ProtLocEdit, ProteinEdit};
use hgvs::sequences;
use std::fmt::Debug;
use std::io::{BufRead, BufWriter, Write};
use std::panic::{catch_unwind, AssertUnwindSafe};
use std::sync::{Arc, Mutex};

static PANIC: Mutex<String> = Mutex::new(String::new());

/// What `run` answers, or the words of its panic.
fn guarded(run: impl FnOnce() -> String) -> String {
    catch_unwind(AssertUnwindSafe(run)).unwrap_or_else(|_| format!("panic={}", joined(&PANIC.lock().unwrap())))
}

fn joined(words: &str) -> String {
    words.split_whitespace().collect::<Vec<_>>().join("_")
}

fn shown(part: &str) -> &str {
    if part.is_empty() { "-" } else { part }
}

/// An error's names from the outside in, without what they hold.
fn named(error: &impl Debug) -> String {
    let words = format!("{error:?}");
    let name = |s: &str| s.split('(').next().unwrap_or("").to_string();
    match words.strip_prefix("ValidationFailed(").or(words.strip_prefix("SequenceOperationFailed(")) {
        Some(inner) => name(inner),
        None => name(&words),
    }
}

fn number(word: &str) -> Option<(i32, &str)> {
    let digits = word.len() - word.trim_start_matches(|c: char| c.is_ascii_digit()).len();
    Some((word[..digits].parse().ok()?, &word[digits..]))
}

fn position(word: &str) -> Option<(Position, &str)> {
    if let Some(rest) = word.strip_prefix('*') {
        let (base, rest) = number(rest)?;
        Some((Position { star: true, base }, rest))
    } else if let Some(rest) = word.strip_prefix('-') {
        let (base, rest) = number(rest)?;
        Some((Position { star: false, base: -base }, rest))
    } else {
        let (base, rest) = number(word)?;
        Some((Position { star: false, base }, rest))
    }
}

fn edit(line: &str) -> Option<HgvsVariant> {
    let (start, rest) = position(line)?;
    let (end, rest) = match rest.strip_prefix('_') {
        Some(rest) => position(rest)?,
        None => (start, rest),
    };
    let (kind, named, bases) = match rest {
        "del" => (Kind::Deletion, "", ""),
        "dup" => (Kind::Duplication, "", ""),
        "inv" => (Kind::Inversion, "", ""),
        "=" => (Kind::Identity, "", ""),
        _ => {
            if let Some(bases) = rest.strip_prefix("delins") {
                (Kind::Delins, "", bases)
            } else if let Some(bases) = rest.strip_prefix("ins") {
                (Kind::Insertion, "", bases)
            } else {
                let (named, bases) = rest.split_once('>')?;
                (Kind::Substitution, named, bases)
            }
        }
    };
    Some(harness::variant(kind, start, end, named, bases))
}

/// One word for the protein variant: its kind, then the interval's ends, then what it puts.
fn form(variant: Result<HgvsVariant, impl Debug>) -> String {
    let loc_edit = match variant {
        Err(error) => return format!("error:{}", named(&error)),
        Ok(HgvsVariant::ProtVariant { loc_edit, .. }) => loc_edit,
        Ok(_) => unreachable!("a protein variant"),
    };
    let (loc, edit) = match loc_edit {
        ProtLocEdit::Ordinary { loc: Mu::Certain(loc), edit: Mu::Certain(edit) } => (loc, edit),
        other => return format!("{other:?}"),
    };
    let what = match &edit {
        ProteinEdit::Ident => "Ident:".to_string(),
        ProteinEdit::Subst { alternative } => format!("Subst:{alternative}"),
        ProteinEdit::DelIns { alternative } => format!("DelIns:{alternative}"),
        ProteinEdit::Ins { alternative } => format!("Ins:{alternative}"),
        ProteinEdit::Del => "Del:".to_string(),
        ProteinEdit::Dup => "Dup:".to_string(),
        ProteinEdit::Fs { alternative, length, .. } => format!("Fs:{}:{length:?}", alternative.as_deref().unwrap_or("")),
        ProteinEdit::Ext { aa_ext, change, .. } => format!("Ext:{}:{change:?}", aa_ext.as_deref().unwrap_or("")),
    };
    format!("{what}@{}{}_{}{}", loc.start.aa, loc.start.number, loc.end.aa, loc.end.number)
}

fn answer(reference: &RefTranscriptData, line: &str) -> String {
    let Some(variant) = edit(line) else { return "error=line".to_string() };
    let builder = AltSeqBuilder::new(variant, reference);
    let told = |result: Result<AltTranscriptData, Error>| match result {
        Ok(alt) => shown(&alt.aa_sequence).to_string(),
        Err(error) => format!("error:{}", named(&error)),
    };
    let until = told(harness::altered(&builder, true));
    let alt = match harness::altered(&builder, false) {
        Ok(alt) => alt,
        Err(error) => {
            let until = if until == format!("error:{}", named(&error)) { "same" } else { &until };
            return format!("error={} until={until}", named(&error));
        }
    };
    let until = if until == shown(&alt.aa_sequence) { "same" } else { &until };
    let cut = match harness::stop_cut(&builder) {
        Ok(Some(kept)) => kept.to_string(),
        Ok(None) => "-".to_string(),
        Err(error) => format!("error:{}", named(&error)),
    };
    let moved: Vec<String> =
        harness::moved(&builder, &alt.transcript_sequence).iter().map(|(codon, residue)| format!("{codon}={residue}")).collect();
    let region = builder.variant_location().map_or_else(|error| format!("error:{}", named(&error)), |region| format!("{region:?}"));
    let mut line = format!(
        "region={region} transcript={} flag={} unknown={} start={} cut={cut} moved={} until={until}",
        shown(&alt.transcript_sequence),
        alt.is_frameshift as u8,
        alt.is_ambiguous as u8,
        alt.variant_start_aa.unwrap_or(0),
        shown(&moved.join(","))
    );
    let mut first = alt.clone();
    cut_at_first_stop(&mut first.aa_sequence);
    for (mark, alt) in [("", alt), ("first.", first)] {
        line += &format!(" {mark}protein={}", shown(&alt.aa_sequence));
        let (record, variant) = harness::record(reference, alt);
        let record = record.unwrap_or_default();
        line += &format!(
            " {mark}number={} {mark}deleted={} {mark}inserted={} {mark}form={}",
            record.number,
            shown(&record.deleted),
            shown(&record.inserted),
            form(variant)
        );
    }
    line
}

fn given(line: &str, exceptions: Vec<TranslationException>) -> Option<Given> {
    let words: Vec<&str> = line.split(' ').collect();
    let [_, cs, ce, table, letters] = words[..] else { return None };
    Some(Arc::new(Letters {
        letters: letters.to_string(),
        cs: cs.parse().ok()?,
        ce: ce.parse().ok()?,
        table: harness::table(table.parse().ok()?)?,
        exceptions,
    }))
}

fn exceptions(line: &str) -> Option<Vec<TranslationException>> {
    let each = line.split(' ').skip(1).map(|word| {
        let (codon, residue) = word.split_once('=')?;
        Some(TranslationException { position: codon.parse().ok()?, amino_acid: residue.chars().next()? })
    });
    each.collect()
}

/// The plain functions: `translate TABLE FULL SEQ`, `names3 ONE`, `names1 THREE`, `prefix A B`, `suffix A B`, `complement SEQ`.
fn plain(words: &[&str]) -> Option<String> {
    let told = |result: Result<String, sequences::Error>| match result {
        Ok(text) => format!("text={}", shown(&text)),
        Err(error) => format!("error={}", named(&error)),
    };
    Some(match *words {
        ["translate", table, full, seq] => {
            told(sequences::translate_cds(seq, full == "1", "X", harness::table(table.parse().ok()?)?))
        }
        ["names3", one] => told(sequences::aa1_to_aa3(one)),
        ["names1", three] => told(sequences::aa3_to_aa1(three)),
        ["prefix", a, b] => format!(
            "length={} trim={}",
            harness::prefix(a.as_bytes(), b.as_bytes()),
            sequences::trim_common_prefixes(a, b).0
        ),
        ["suffix", a, b] => format!("trim={}", sequences::trim_common_suffixes(a, b).0),
        ["complement", seq] => format!("text={}", shown(&sequences::revcomp(seq))),
        _ => return None,
    })
}

fn main() {
    std::panic::set_hook(Box::new(|info| {
        let words = info.payload();
        let words = words.downcast_ref::<String>().cloned().or(words.downcast_ref::<&str>().map(|words| words.to_string()));
        *PANIC.lock().unwrap() = words.unwrap_or_default();
    }));
    let mut out = BufWriter::new(std::io::stdout().lock());
    let mut last = String::new();
    let mut reference: Option<RefTranscriptData> = None;
    for line in std::io::stdin().lock().lines() {
        let line = line.expect("text");
        let words: Vec<&str> = line.split(' ').collect();
        let told = if line.starts_with("ref ") || line == "exc" || line.starts_with("exc ") {
            reference = None;
            let with = if line.starts_with("ref ") {
                last = line.clone();
                Some(Vec::new())
            } else {
                exceptions(&line)
            };
            guarded(|| match with.and_then(|with| given(&last, with)) {
                None => "error=line".to_string(),
                Some(given) => match harness::reference(&given) {
                    Ok(made) => {
                        let told = format!("reference={} end={}", shown(&made.aa_sequence), named(&made.cds_end));
                        reference = Some(made);
                        told
                    }
                    Err(error) => format!("error={}", named(&error)),
                },
            })
        } else if words.len() > 1 {
            guarded(|| plain(&words).unwrap_or("error=line".to_string()))
        } else if let Some(reference) = &reference {
            guarded(|| answer(reference, &line))
        } else {
            "error=reference".to_string()
        };
        writeln!(out, "{told}").expect("written");
    }
}
