//! Writes the container that `write_rows` writes, as a plain program does it: rows first, then their bytes. It stands for
//! the speed that the job has without proofs.

use std::io::Write;

struct Row {
    id: i64,
    name: String,
}

const NAMES: [&str; 8] = [
    "copper beech",
    "field maples",
    "silver birch",
    "white willow",
    "common alder",
    "scotch pines",
    "sweet cherry",
    "winter limes",
];
const SCHEMA: &[u8] = br#"{"fields":[{"name":"id","type":{"type":"long"}},{"name":"name","type":"string"}],"name":"row","namespace":"","type":"record"}"#;
const SYNC: &[u8] = b"iceberg-dml-sync";

fn rows(count: usize) -> Vec<Row> {
    let mut rows = Vec::new();
    let mut state = 1u64;
    for _ in 0..count {
        state = state
            .wrapping_mul(6364136223846793005)
            .wrapping_add(1442695040888963407);
        rows.push(Row {
            id: (state >> 24) as i64,
            name: NAMES[(state >> 61) as usize].to_string(),
        });
    }
    rows
}

fn put_long(value: i64, out: &mut Vec<u8>) {
    let mut number = ((value << 1) ^ (value >> 63)) as u64;
    while number >= 128 {
        out.push(number as u8 | 128);
        number >>= 7;
    }
    out.push(number as u8);
}

fn put_counted(bytes: &[u8], out: &mut Vec<u8>) {
    put_long(bytes.len() as i64, out);
    out.extend_from_slice(bytes);
}

fn container(rows: &[Row]) -> Vec<u8> {
    let mut out = Vec::new();
    out.extend_from_slice(b"Obj\x01");
    put_long(2, &mut out);
    for (key, value) in [(&b"avro.schema"[..], SCHEMA), (b"avro.codec", b"null")] {
        put_counted(key, &mut out);
        put_counted(value, &mut out);
    }
    out.push(0);
    out.extend_from_slice(SYNC);
    for block in rows.chunks(1000) {
        let mut stored = Vec::new();
        for row in block {
            put_long(row.id, &mut stored);
            put_counted(row.name.as_bytes(), &mut stored);
        }
        put_long(block.len() as i64, &mut out);
        put_counted(&stored, &mut out);
        out.extend_from_slice(SYNC);
    }
    out
}

fn main() {
    let bytes = container(&rows(1_000_000));
    std::io::stdout().write_all(&bytes).unwrap();
}
