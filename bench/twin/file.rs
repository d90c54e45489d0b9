//! Block files.

use crate::kind::Kind;
use crate::statement::{Sizes, Statement};

pub const BLOCK: usize = 512;
pub const LONGEST: usize = 128 * BLOCK;
const RECORD: usize = 12;
const MOST_RECORDS: usize = 41;

/// What a `refused` line tells.
pub struct Refused {
    pub number: u8,
    pub block: usize,
    pub record: usize,
}

fn refused(number: u8, block: usize) -> Refused {
    Refused {
        number,
        block,
        record: 0,
    }
}

/// The blocks of the file, each sound by itself.
pub fn checked_blocks<K: Kind>(file: &[u8]) -> Result<Vec<&[u8]>, Refused> {
    if file.is_empty() || file.len() > LONGEST || file.len() % BLOCK != 0 {
        return Err(refused(12, 0));
    }
    let blocks: Vec<&[u8]> = file.chunks_exact(BLOCK).collect();
    for (number, block) in blocks.iter().enumerate() {
        let (body, sum) = block.split_at(BLOCK - 4);
        if sum != weighted_sum(body).to_be_bytes() {
            return Err(refused(13, number));
        }
        if !is_laid_out::<K>(body, number) {
            return Err(refused(14, number));
        }
    }
    Ok(blocks)
}

fn weighted_sum(body: &[u8]) -> u32 {
    (1..)
        .zip(body)
        .map(|(place, &byte)| place * u32::from(byte))
        .sum()
}

fn is_laid_out<K: Kind>(body: &[u8], number: usize) -> bool {
    let count = usize::from(body[5]);
    let headed = body.starts_with(b"SPLV")
        && body[4] == K::BYTE
        && usize::from(u16::from_be_bytes([body[6], body[7]])) == number;
    let used = match number {
        0 if count == 0 => 12,
        _ if number > 0 && count <= MOST_RECORDS => 8 + count * RECORD,
        _ => return false,
    };
    headed
        && records(body).all(|record| record[10..] == [0, 0])
        && body[used..].iter().all(|&byte| byte == 0)
}

fn records(block: &[u8]) -> impl Iterator<Item = &[u8]> {
    block[8..].chunks_exact(RECORD).take(usize::from(block[5]))
}

pub fn sizes(first: &[u8]) -> Result<Sizes, Refused> {
    let sizes = Sizes {
        standpoints: first[8],
        concepts: first[9],
        roles: first[10],
        individuals: first[11],
    };
    if sizes.in_range() {
        Ok(sizes)
    } else {
        Err(refused(2, 0))
    }
}

/// The accepted statement of each record, with its place; a code that is no grade is refused.
pub fn entries<'a, K: Kind>(
    blocks: &'a [&'a [u8]],
) -> impl Iterator<Item = Result<(Statement, K::Grade, usize, usize), Refused>> + 'a
where
    K::Grade: 'a,
{
    blocks
        .iter()
        .enumerate()
        .skip(1)
        .flat_map(|(number, block)| {
            records(block).enumerate().map(move |(place, record)| {
                let [shape, a, b, c, d, e, w, x, y, z, ..] = *record else {
                    unreachable!("a record has twelve bytes")
                };
                let grade = K::decode(u32::from_be_bytes([w, x, y, z])).ok_or(Refused {
                    number: 15,
                    block: number,
                    record: place,
                })?;
                Ok((
                    Statement {
                        shape,
                        names: [a, b, c, d, e],
                    },
                    grade,
                    number,
                    place,
                ))
            })
        })
}
