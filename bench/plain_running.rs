//! Deletes the rows named `gone` of a table that `bench/running.py` made, or inserts one, as a plain program does it: it reads,
//! filters and writes the data files, knows their form and checks nothing. It stands for the speed that the job has without proofs.

mod containers;

use containers::Reader;
use std::{env, fs};

struct Row {
    id: i64,
    name: Option<Vec<u8>>,
}

fn push_long(out: &mut Vec<u8>, number: i64) {
    let mut rest = ((number << 1) ^ (number >> 63)) as u64;
    while rest >= 0x80 {
        out.push(rest as u8 | 0x80);
        rest >>= 7;
    }
    out.push(rest as u8);
}

fn rows_of(bytes: &[u8]) -> (&[u8], Vec<Row>) {
    let mut rows = Vec::new();
    let header = Reader::new(bytes).datums(|reader| {
        let (id, name) = reader.row();
        rows.push(Row { id, name: name.map(<[u8]>::to_vec) });
    });
    (header, rows)
}

fn container(header: &[u8], rows: &[Row]) -> Vec<u8> {
    let mut out = header.to_vec();
    let sync = &header[header.len() - 16..];
    for block in rows.chunks(1000) {
        let mut datums = Vec::new();
        for row in block {
            push_long(&mut datums, row.id);
            match &row.name {
                None => push_long(&mut datums, 0),
                Some(name) => {
                    push_long(&mut datums, 1);
                    push_long(&mut datums, name.len() as i64);
                    datums.extend_from_slice(name);
                }
            }
        }
        push_long(&mut out, block.len() as i64);
        push_long(&mut out, datums.len() as i64);
        out.extend_from_slice(&datums);
        out.extend_from_slice(sync);
    }
    out
}

fn main() {
    let table = env::args().nth(1).unwrap();
    let deletes = env::args().nth(2).unwrap() == "delete.sql";
    let mut names: Vec<_> = fs::read_dir(format!("{table}/data")).unwrap().map(|entry| entry.unwrap().path()).collect();
    names.sort();
    let (mut left, mut first) = (0, None);
    for (number, name) in names.iter().enumerate() {
        let bytes = fs::read(name).unwrap();
        let (header, mut rows) = rows_of(&bytes);
        if deletes {
            rows.retain(|row| row.name.as_deref() != Some(b"gone".as_slice()));
            fs::write(format!("{table}/data/new{number}.avro"), container(header, &rows)).unwrap();
        } else if first.is_none() {
            first = Some(header.to_vec());
        }
        left += rows.len();
    }
    if let Some(header) = first {
        let row = Row { id: 1, name: Some(b"one".to_vec()) };
        fs::write(format!("{table}/data/new.avro"), container(&header, &[row])).unwrap();
        left += 1;
    }
    println!("branch main {left}");
}
