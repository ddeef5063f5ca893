//! Requests and replies as bytes: numbers of 64 bits, little-endian.
use super::Reply;
use crate::gen::Case;
use crate::model::state::Remark;
use crate::model::Limits;
use std::io::{self, ErrorKind, Read, Write};

pub fn put_request(out: &mut impl Write, case: &Case) -> io::Result<()> {
    let l = &case.limits;
    for n in [case.alone as u64, case.sheet.len() as u64, case.schema.len() as u64, l.work, l.out, l.records] {
        out.write_all(&n.to_le_bytes())?;
    }
    out.write_all(&case.sheet)?;
    out.write_all(&case.schema)
}

fn number(from: &mut impl Read) -> io::Result<u64> {
    let mut b = [0; 8];
    from.read_exact(&mut b)?;
    Ok(u64::from_le_bytes(b))
}

fn bytes(from: &mut impl Read, n: u64) -> io::Result<Vec<u8>> {
    if n > 1 << 26 {
        return Err(io::Error::new(ErrorKind::InvalidData, format!("a length of {n}")));
    }
    let mut b = vec![0; n as usize];
    from.read_exact(&mut b)?;
    Ok(b)
}

/// The next request; none at the end of the stream.
pub fn request(from: &mut impl Read) -> io::Result<Option<Case>> {
    let mut first = [0; 8];
    let mut got = 0;
    while got < 8 {
        match from.read(&mut first[got..])? {
            0 if got == 0 => return Ok(None),
            0 => return Err(ErrorKind::UnexpectedEof.into()),
            n => got += n,
        }
    }
    let alone = u64::from_le_bytes(first) != 0;
    let (sheet_length, schema_length) = (number(from)?, number(from)?);
    let limits = Limits { work: number(from)?, out: number(from)?, records: number(from)? };
    let sheet = bytes(from, sheet_length)?;
    let schema = bytes(from, schema_length)?;
    Ok(Some(Case { alone, sheet, schema, limits }))
}

pub fn put_reply(out: &mut impl Write, r: &Reply) -> io::Result<()> {
    for n in [r.code, r.file.len() as u64, r.remarks.len() as u64, r.flags] {
        out.write_all(&n.to_le_bytes())?;
    }
    out.write_all(&r.file)?;
    for m in &r.remarks {
        for n in [m.kind, m.structure, m.member, m.detail] {
            out.write_all(&n.to_le_bytes())?;
        }
    }
    Ok(())
}

pub fn reply(from: &mut impl Read) -> io::Result<Reply> {
    let (code, length, count, flags) = (number(from)?, number(from)?, number(from)?, number(from)?);
    let file = bytes(from, length)?;
    let rows = bytes(from, count.saturating_mul(16))?;
    let n = |r: &[u8], k: usize| u32::from_le_bytes(r[4 * k..4 * k + 4].try_into().unwrap());
    let remarks = rows.chunks(16).map(|r| Remark { kind: n(r, 0), structure: n(r, 1), member: n(r, 2), detail: n(r, 3) }).collect();
    Ok(Reply { code, flags, file, remarks })
}
