// Behaviour. The tables that the crate's build generates, made from the public texts: IUPAC's nucleotide letters, NCBI's genetic codes 1
// and 2 (first base slowest, order T, C, A, G), and IUPAC's residue names. A codon whose plain codons differ reads X. That U is T and that
// case doesn't count is what the comments of `translate_cds` say; Sec at TGA is the table's name.

/// Each letter with its bases: A 1, C 2, G 4, T 8.
const LETTERS: [(u8, u8); 16] = [
    (b'A', 1),
    (b'C', 2),
    (b'G', 4),
    (b'T', 8),
    (b'U', 8),
    (b'R', 1 | 4),
    (b'Y', 2 | 8),
    (b'S', 2 | 4),
    (b'W', 1 | 8),
    (b'K', 4 | 8),
    (b'M', 1 | 2),
    (b'B', 2 | 4 | 8),
    (b'D', 1 | 4 | 8),
    (b'H', 1 | 2 | 8),
    (b'V', 1 | 2 | 4),
    (b'N', 1 | 2 | 4 | 8),
];

static DNA_ASCII_TO_IUPAC: [u8; 256] = {
    let mut table = [255; 256];
    let mut k = 0;
    while k < LETTERS.len() {
        let (letter, set) = LETTERS[k];
        table[letter as usize] = set;
        table[letter.to_ascii_lowercase() as usize] = set;
        k += 1;
    }
    table
};

const CODE_1: &[u8; 64] = b"FFLLSSSSYY**CC*WLLLLPPPPHHQQRRRRIIIMTTTTNNKKSSRRVVVVAAAADDEEGGGG";
const CODE_1_SEC: &[u8; 64] = b"FFLLSSSSYY**CCUWLLLLPPPPHHQQRRRRIIIMTTTTNNKKSSRRVVVVAAAADDEEGGGG";
const CODE_2: &[u8; 64] = b"FFLLSSSSYY**CCWWLLLLPPPPHHQQRRRRIIMMTTTTNNKKSS**VVVVAAAADDEEGGGG";

/// The bases in NCBI's order, as sets.
const ORDER: [usize; 4] = [8, 2, 1, 4];

#[allow(long_running_const_eval)]
const fn expanded(code: &[u8; 64]) -> [u8; 4096] {
    let mut table = [b'X'; 4096];
    let mut sets = 0;
    while sets < 4096 {
        let mut plain = 0;
        let mut residue = 0;
        while plain < 64 {
            let a = ORDER[plain / 16] & (sets >> 8);
            let b = ORDER[plain / 4 % 4] & (sets >> 4);
            let c = ORDER[plain % 4] & sets;
            if a != 0 && b != 0 && c != 0 {
                residue = if residue == 0 || residue == code[plain] { code[plain] } else { b'X' };
                if residue == b'X' {
                    break;
                }
            }
            plain += 1;
        }
        if residue != 0 {
            table[sets] = residue;
        }
        sets += 1;
    }
    table
}

/// The residues of a table. Built with `counted`, each codon that is read there is counted; else this is an array and no more.
#[cfg(not(counted))]
type Residues = [u8; 4096];
#[cfg(counted)]
struct Residues([u8; 4096]);

#[cfg(not(counted))]
const fn residues(code: &[u8; 64]) -> Residues {
    expanded(code)
}
#[cfg(counted)]
const fn residues(code: &[u8; 64]) -> Residues {
    Residues(expanded(code))
}

#[cfg(counted)]
pub static CODONS_READ: std::sync::atomic::AtomicU64 = std::sync::atomic::AtomicU64::new(0);

#[cfg(counted)]
impl std::ops::Index<usize> for Residues {
    type Output = u8;
    fn index(&self, sets: usize) -> &u8 {
        CODONS_READ.fetch_add(1, std::sync::atomic::Ordering::Relaxed);
        &self.0[sets]
    }
}

static CODON_IUPAC_TO_AA1_LUT: Residues = residues(CODE_1);
static CODON_IUPAC_TO_AA1_SEC: Residues = residues(CODE_1_SEC);
static CODON_IUPAC_TO_AA1_CHRMT_VERTEBRATE: Residues = residues(CODE_2);

const NAMES: [(u8, &str); 25] = [
    (b'A', "Ala"),
    (b'R', "Arg"),
    (b'N', "Asn"),
    (b'D', "Asp"),
    (b'C', "Cys"),
    (b'Q', "Gln"),
    (b'E', "Glu"),
    (b'G', "Gly"),
    (b'H', "His"),
    (b'I', "Ile"),
    (b'L', "Leu"),
    (b'K', "Lys"),
    (b'M', "Met"),
    (b'F', "Phe"),
    (b'P', "Pro"),
    (b'S', "Ser"),
    (b'T', "Thr"),
    (b'W', "Trp"),
    (b'Y', "Tyr"),
    (b'V', "Val"),
    (b'U', "Sec"),
    (b'X', "Xaa"),
    (b'B', "Asx"),
    (b'Z', "Glx"),
    (b'*', "Ter"),
];

static AA1_TO_AA3_STR: [Option<&'static str>; 256] = {
    let mut table = [None; 256];
    let mut k = 0;
    while k < NAMES.len() {
        table[NAMES[k].0 as usize] = Some(NAMES[k].1);
        k += 1;
    }
    table
};

fn _aa3_to_aa1(aa3: &[u8]) -> Option<u8> {
    NAMES.iter().find(|(_, name)| name.as_bytes() == aa3).map(|(letter, _)| *letter)
}
