//! Prints the rows of a table that `samples/tables.py` made, as a plain program does it: it knows the schemas of that
//! script's files and checks nothing. It stands for the speed that the job has without proofs.

mod containers;

use containers::Reader;
use std::io::Write;
use std::{env, fs};

fn in_table(table: &str, path: &[u8]) -> String {
    let path = String::from_utf8(path.to_vec()).unwrap();
    let (_, name) = path.split_once('/').unwrap();
    format!("{table}/{name}")
}

/// The path of the last manifest list that the metadata names.
fn list_path(metadata: &str) -> &str {
    let key = "\"manifest-list\":\"";
    let from = metadata.rfind(key).unwrap() + key.len();
    let rest = &metadata[from..];
    &rest[..rest.find('"').unwrap()]
}

fn push_record(line: &mut Vec<u8>, id: i64, name: Option<&[u8]>) {
    write!(line, "{id},").unwrap();
    match name {
        None => line.extend_from_slice(b"\\N"),
        Some(text) => {
            let mut field = Vec::new();
            if text.first() == Some(&b'\\') {
                field.push(b'\\');
            }
            field.extend_from_slice(text);
            if field.iter().any(|b| matches!(b, b',' | b'"' | b'\n' | b'\r')) {
                line.push(b'"');
                for b in field {
                    if b == b'"' {
                        line.push(b'"');
                    }
                    line.push(b);
                }
                line.push(b'"');
            } else {
                line.extend_from_slice(&field);
            }
        }
    }
}

fn main() {
    let table = env::args().nth(1).unwrap();
    let metadata = fs::read_to_string(format!("{table}/metadata/v1.metadata.json")).unwrap();
    let list = fs::read(in_table(&table, list_path(&metadata).as_bytes())).unwrap();
    let mut manifests = Vec::new();
    Reader::new(&list).datums(|r| {
        manifests.push(in_table(&table, r.octets()));
        for _ in 0..12 {
            r.long();
        }
    });
    let mut files = Vec::new();
    for manifest in manifests {
        let bytes = fs::read(manifest).unwrap();
        Reader::new(&bytes).datums(|r| {
            let status = r.long();
            for _ in 0..3 {
                if r.long() == 1 {
                    r.long();
                }
            }
            r.long();
            let path = in_table(&table, r.octets());
            r.octets();
            r.long();
            r.long();
            for map in 0..4 {
                if r.long() == 0 {
                    continue;
                }
                loop {
                    let pairs = r.long();
                    if pairs == 0 {
                        break;
                    }
                    for _ in 0..pairs {
                        r.long();
                        if map < 2 {
                            r.long();
                        } else {
                            r.octets();
                        }
                    }
                }
            }
            if status < 2 {
                files.push(path);
            }
        });
    }
    let mut records: Vec<Vec<u8>> = Vec::new();
    for file in files {
        let bytes = fs::read(file).unwrap();
        Reader::new(&bytes).datums(|r| {
            let (id, name) = r.row();
            let mut line = Vec::new();
            push_record(&mut line, id, name);
            records.push(line);
        });
    }
    records.sort();
    let mut out = Vec::new();
    for record in records {
        out.extend_from_slice(b"row ");
        for b in record {
            if b == b'\n' {
                out.extend_from_slice(b"\\n");
            } else {
                out.push(b);
            }
        }
        out.push(b'\n');
    }
    std::io::stdout().write_all(&out).unwrap();
}
