//! Tables as plain numbers, good or bad, and their bytes: what the checks and comparisons feed in.

use crate::bits::Bits;

/// One row's fields, each as wide as the table has it and no wider.
#[derive(Clone, Copy, Debug, Default)]
pub struct RawRow {
    pub t: u64,
    pub c1: u64,
    pub a: u64,
    pub c2: u64,
    pub resource: u64,
    pub spare: u64,
}

/// The header's fields and the rows behind it, as many as there are and not as many as n says.
#[derive(Clone, Debug)]
pub struct RawTable {
    pub n: u64,
    pub m: u64,
    pub protocol: u64,
    pub spare: u64,
    pub rows: Vec<RawRow>,
}

impl RawTable {
    pub fn bytes(&self) -> Vec<u8> {
        let mut bits = Bits::default();
        bits.put(self.n, 7);
        bits.put(self.m, 5);
        bits.put(self.protocol, 1);
        bits.put(self.spare, 3);
        for row in &self.rows {
            for number in [row.t, row.c1, row.a, row.c2] {
                bits.put(number, 20);
            }
            bits.put(row.resource, 5);
            bits.put(row.spare, 3);
        }
        bits.bytes()
    }
}

/// A table from rows as the paper writes them, (T, C1, A, C2, resource), with nothing spare set.
pub fn table(m: u64, protocol: u64, rows: &[(u64, u64, u64, u64, u64)]) -> RawTable {
    let row = |&(t, c1, a, c2, resource)| RawRow {
        t,
        c1,
        a,
        c2,
        resource,
        spare: 0,
    };
    RawTable {
        n: rows.len() as u64,
        m,
        protocol,
        spare: 0,
        rows: rows.iter().map(row).collect(),
    }
}
