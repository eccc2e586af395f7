//! Array and table files from their parts.

pub const STOP: u8 = 0;
pub const NEW: u8 = 1;
pub const PAR: u8 = 2;
pub const CHOICE: u8 = 3;
pub const OUT: u8 = 4;
pub const IN: u8 = 5;
pub const RESOURCE: u8 = 6;
pub const RECORD: usize = 16;
pub const ROW: usize = 32;
pub const CLAIM: usize = 8;
pub const TRAILER: usize = 28;

/// A claim's numbers: agent, most, balance, set.
pub type Claim = [u16; 4];
/// Where they stand.
pub const AGENT: usize = 0;
pub const MOST: usize = 1;
pub const BALANCE: usize = 2;
pub const SET: usize = 3;

/// A node's record; fields that the kind does not use are 0 or empty.
#[derive(Clone, Debug, Default)]
pub struct Record {
    pub kind: u8,
    pub left: usize,
    pub right: usize,
    pub name: usize,
    pub arguments: Vec<usize>,
}

impl Record {
    pub fn is_agent(&self) -> bool {
        self.kind >= OUT
    }

    pub fn has_right(&self) -> bool {
        matches!(self.kind, PAR | CHOICE)
    }

    fn write(&self, file: &mut Vec<u8>) {
        file.extend([self.kind, self.arguments.len() as u8]);
        file.extend((self.left as u16).to_le_bytes());
        file.extend((self.right as u16).to_le_bytes());
        file.extend([self.name as u8, 0]);
        let mut arguments = [0; 8];
        for (to, from) in arguments.iter_mut().zip(&self.arguments) {
            *to = *from as u8;
        }
        file.extend(arguments);
    }
}

#[derive(Clone, Debug, Default)]
pub struct ArrayFile {
    pub remark: Vec<u8>,
    pub records: Vec<Record>,
    pub names: usize,
}

impl ArrayFile {
    pub fn bytes(&self) -> Vec<u8> {
        let mut file = self.remark.clone();
        for record in &self.records {
            record.write(&mut file);
        }
        file.extend((self.remark.len() as u32).to_le_bytes());
        file.extend((self.records.len() as u16).to_le_bytes());
        file.extend((self.names as u16).to_le_bytes());
        close(&mut file, b"PIS1");
        file
    }

    /// The nodes of which the condition holds.
    pub fn nodes(&self, holds: impl Fn(&Record) -> bool) -> Vec<usize> {
        let nodes = self.records.iter().enumerate();
        nodes.filter(|(_, record)| holds(record)).map(|(i, _)| i).collect()
    }
}

#[derive(Clone, Debug)]
pub struct Balance {
    pub bound: u32,
    pub weights: Vec<u16>,
}

#[derive(Clone, Debug, Default)]
pub struct TableFile {
    pub rows: Vec<[u8; ROW]>,
    pub balances: Vec<Balance>,
    pub claims: Vec<Claim>,
    pub array_sum: u32,
}

impl TableFile {
    pub fn bytes(&self) -> Vec<u8> {
        let mut file: Vec<u8> = self.rows.concat();
        let balances_start = file.len() as u32;
        for balance in &self.balances {
            file.extend(balance.bound.to_le_bytes());
            file.extend(balance.weights.iter().flat_map(|weight| weight.to_le_bytes()));
            file.resize(file.len().next_multiple_of(4), 0);
        }
        let claims_start = file.len() as u32;
        file.extend(self.claims.iter().flatten().flat_map(|number| number.to_le_bytes()));
        for start in [0, balances_start, claims_start] {
            file.extend(start.to_le_bytes());
        }
        file.extend((self.balances.len() as u16).to_le_bytes());
        file.extend((self.claims.len() as u16).to_le_bytes());
        file.extend(self.array_sum.to_le_bytes());
        close(&mut file, b"PIC1");
        file
    }

    /// The parts of a table file that lie where its trailer says; weights come with their padding.
    pub fn read(file: &[u8]) -> TableFile {
        let (parts, trailer) = file.split_at(file.len() - TRAILER);
        let [balances, claims] = [4, 8].map(|at| word(&trailer[at..]) as usize);
        let length = (claims - balances) / usize::from(number(&trailer[12..])).max(1);
        let balance = |part: &[u8]| Balance { bound: word(part), weights: numbers(&part[4..]).collect() };
        TableFile {
            rows: parts[..balances].as_chunks().0.to_vec(),
            balances: parts[balances..claims].chunks_exact(length.max(1)).map(balance).collect(),
            claims: numbers(&parts[claims..]).collect::<Vec<u16>>().as_chunks().0.to_vec(),
            array_sum: word(&trailer[16..]),
        }
    }
}

/// The 16-bit number that bytes begin with.
fn number(bytes: &[u8]) -> u16 {
    u16::from_le_bytes([bytes[0], bytes[1]])
}

fn numbers(bytes: &[u8]) -> impl Iterator<Item = u16> + '_ {
    bytes.chunks_exact(2).map(number)
}

/// The 32-bit number that bytes begin with.
fn word(bytes: &[u8]) -> u32 {
    u32::from_le_bytes([bytes[0], bytes[1], bytes[2], bytes[3]])
}

pub fn has_bit(bytes: &[u8], n: usize) -> bool {
    bytes[n / 8] >> (n % 8) & 1 == 1
}

pub fn flip_bit(bytes: &mut [u8], n: usize) {
    bytes[n / 8] ^= 1 << (n % 8);
}

/// Adds the word sum and the letters.
fn close(file: &mut Vec<u8>, letters: &[u8; 4]) {
    file.extend([0; 4]);
    file.extend(letters);
    repair(file);
}

/// Makes the word sum right, which stands before the letters in both files.
pub fn repair(file: &mut [u8]) {
    let Some(at) = file.len().checked_sub(8) else { return };
    let sum = file[..at].chunks_exact(4).map(word).fold(0u32, u32::wrapping_add);
    file[at..at + 4].copy_from_slice(&sum.to_le_bytes());
}
