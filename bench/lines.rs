//! The lines that are measured, the same on every machine.

/// Parts of drug-like lines: each can follow any other, and be followed.
const PARTS: &[&str] = &[
    "C", "CC", "O", "N", "C(=O)N", "[C@H](C)", "[C@@H](O)", "[C@@H](N)", "c1ccc(F)cc1", "c2ccncc2", "C(C)(C)", "S(=O)(=O)N",
    "C1CCN(C)CC1", "[C@]3(C)CCO3", "/C=C/", "N4CCOCC4", "c5ccc(Cl)c(Br)c5", "C(F)(F)F.", "[N+](=O)[O-].", "[13CH2]",
];

struct Numbers(u64);

impl Numbers {
    /// xorshift
    fn below(&mut self, n: usize) -> usize {
        self.0 ^= self.0 << 13;
        self.0 ^= self.0 >> 7;
        self.0 ^= self.0 << 17;
        (self.0 % n as u64) as usize
    }
}

fn drug(numbers: &mut Numbers, length: usize) -> String {
    let mut line = "C".to_string();
    while line.len() < length - 1 {
        let part = PARTS[numbers.below(PARTS.len())];
        // A bond leads an atom in, so it follows neither a bond nor a dot, and ends no line.
        if line.ends_with(['/', '.']) && part.starts_with('/') {
            continue;
        }
        line.push_str(part);
    }
    line.push('C');
    line
}

/// Lines of 80 to 96 bytes.
pub fn drugs(seed: u64, count: usize) -> Vec<String> {
    let mut numbers = Numbers(seed);
    (0..count).map(|_| drug(&mut numbers, 80)).collect()
}

pub fn drug_of(length: usize) -> String {
    drug(&mut Numbers(7), length)
}

pub fn chain(length: usize) -> String {
    "C".repeat(length)
}

/// Residues with every isotope and hydrogen written: seven bytes an atom, so that a long line has few enough of them.
pub fn peptide(length: usize) -> String {
    const RESIDUE: &str = "[14NH][13C@@H]([12CH3])[13C](=[16O])";
    RESIDUE.repeat(1.max(length / RESIDUE.len()))
}

/// Lines of real molecules, a name after each: of 27 bytes in the mean.
pub fn real() -> Vec<String> {
    include_str!("real.smi").lines().map(|line| line.split(' ').next().unwrap_or_default().to_string()).collect()
}
