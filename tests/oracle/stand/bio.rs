//! Behaviour. The reverse complement by IUPAC's letters; as the crate's documentation says, the case of a letter is kept. A byte that is
//! no letter of the fifteen stays.
pub mod alphabets {
    pub mod dna {
        const PAIRS: [(u8, u8); 15] = [
            (b'A', b'T'),
            (b'C', b'G'),
            (b'G', b'C'),
            (b'T', b'A'),
            (b'R', b'Y'),
            (b'Y', b'R'),
            (b'K', b'M'),
            (b'M', b'K'),
            (b'B', b'V'),
            (b'V', b'B'),
            (b'D', b'H'),
            (b'H', b'D'),
            (b'S', b'S'),
            (b'W', b'W'),
            (b'N', b'N'),
        ];

        static COMPLEMENT: [u8; 256] = {
            let mut table = [0; 256];
            let mut byte = 0;
            while byte < 256 {
                table[byte] = byte as u8;
                byte += 1;
            }
            let mut k = 0;
            while k < PAIRS.len() {
                let (from, to) = PAIRS[k];
                table[from as usize] = to;
                table[from.to_ascii_lowercase() as usize] = to.to_ascii_lowercase();
                k += 1;
            }
            table
        };

        pub fn revcomp(text: &[u8]) -> Vec<u8> {
            text.iter().rev().map(|&byte| COMPLEMENT[byte as usize]).collect()
        }
    }
}
