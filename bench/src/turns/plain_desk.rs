//! The desk's call on entries in plain safe Rust, by document 01's rules.
use super::{Figures, SIDE};
use crate::glow::{plain_writer, Row};

const TOP: u64 = 2_147_483_647;

pub const MATRIX: u64 = 40;
pub const TARGET: u64 = 41;
pub const SOURCE: u64 = 42;
pub const MANY: u64 = 43;
pub const TOTAL: u64 = 44;

const N_TO_N: u64 = 2;
const CONNECTION: u64 = 8;

/// "A desk is legal if its figures could be opened and its crosspoints fit its counts, type and limits": the count of
/// connections, if it is.
pub fn legal(figures: &Figures, cells: &[u8]) -> Option<u64> {
    let limit = |limit: Option<u64>| limit.is_none_or(|limit| (1..=TOP).contains(&limit));
    let side = |count: u64| (1..=SIDE as u64).contains(&count);
    let path = (1..=16).contains(&figures.path.len()) && figures.path.iter().all(|number| (1..=TOP).contains(number));
    let opened = figures.kind <= N_TO_N && side(figures.targets) && side(figures.sources) && path;
    if !opened || !limit(figures.total) || !limit(figures.per_target) || cells.len() != figures.cells() {
        return None;
    }
    let mut total = 0;
    let mut used = 0u64;
    for (target, row) in cells.chunks_exact(figures.lent().1).enumerate() {
        let mut list = 0u64;
        for (source, &cell) in row.iter().enumerate() {
            if cell > 1 {
                return None;
            }
            list |= u64::from(cell) << source;
        }
        let count = u64::from(list.count_ones());
        if list != 0 && (target as u64 >= figures.targets || list >> (figures.sources - 1) > 1) {
            return None;
        }
        let most = if figures.kind == N_TO_N { figures.per_target.unwrap_or(figures.sources) } else { 1 };
        if count > most || figures.kind == 1 && list & used != 0 {
            return None;
        }
        used |= list;
        total += count;
    }
    (figures.kind != N_TO_N || total <= most_in_total(figures)).then_some(total)
}

pub fn most_in_total(figures: &Figures) -> u64 {
    figures.total.unwrap_or(figures.targets * figures.sources)
}

/// The numbers of a relative identifier that has been judged.
pub fn numbers(octets: &[u8]) -> impl Iterator<Item = u64> + '_ {
    octets
        .split_inclusive(|&octet| octet < 0x80)
        .map(|octets| octets.iter().fold(0, |number, &octet| number << 7 | u64::from(octet & 0x7F)))
}

/// A path or sources, from where its cell says it is.
fn part<'m>(row: &Row, cell: usize, message: &'m [u8]) -> &'m [u8] {
    let start = row[3 + 3 * cell] as usize;
    &message[start..start + row[4 + 3 * cell] as usize]
}

/// Whether the full path of the element there is this one.
pub fn has_path(rows: &[Row], mut place: usize, message: &[u8], path: &[u64]) -> bool {
    let mut rest = path;
    loop {
        let row = &rows[place];
        if (5..=7).contains(&row[0]) {
            return numbers(part(row, 0, message)).eq(rest.iter().copied());
        }
        let Some((last, before)) = rest.split_last() else { return false };
        if row[3] != *last {
            return false;
        }
        rest = before;
        if row[1] == 0 {
            return rest.is_empty();
        }
        place = row[1] as usize - 1;
    }
}

/// The sources as bits; none if one is out of range. A missing list is empty.
fn list(row: &Row, message: &[u8], sources: u64) -> Option<u64> {
    let mut list = 0;
    if row[5] != 0 {
        for source in numbers(part(row, 1, message)) {
            if source >= sources {
                return None;
            }
            list |= 1 << source;
        }
    }
    Some(list)
}

/// What a request asks for once path, target and sources are right.
pub struct Request {
    pub target: usize,
    pub list: u64,
    pub operation: u64,
}

/// The request of a connection, or 40 to 42. `matrix` is the last matrix that was looked at, and whether it is the desk's.
pub fn request(figures: &Figures, rows: &[Row], row: &Row, message: &[u8], matrix: &mut (u64, bool)) -> Result<Request, u64> {
    if matrix.0 != row[1] {
        *matrix = (row[1], has_path(rows, row[1] as usize - 1, message, &figures.path));
    }
    if !matrix.1 {
        return Err(MATRIX);
    }
    if row[3] >= figures.targets {
        return Err(TARGET);
    }
    let list = list(row, message, figures.sources).ok_or(SOURCE)?;
    Ok(Request { target: row[3] as usize, list, operation: row[9] })
}

/// The target's sources after it, or 43 or 44; whether it takes its source from the others (1:1).
pub fn after(figures: &Figures, request: &Request, old: u64, total: u64) -> Result<(u64, bool), u64> {
    let Request { list, operation, .. } = *request;
    if operation == 2 {
        return Ok((old & !list, false));
    }
    if figures.kind == N_TO_N {
        let new = if operation == 1 { old | list } else { list };
        if u64::from(new.count_ones()) > figures.per_target.unwrap_or(figures.sources) {
            return Err(MANY);
        }
        if total - u64::from(old.count_ones()) + u64::from(new.count_ones()) > most_in_total(figures) {
            return Err(TOTAL);
        }
        return Ok((new, false));
    }
    if list.count_ones() > 1 {
        return Err(MANY);
    }
    if operation == 1 && list == 0 {
        return Ok((old, false));
    }
    Ok((list, figures.kind == 1 && list != 0))
}

fn bits(row: &[u8]) -> u64 {
    row.iter().enumerate().fold(0, |bits, (source, &cell)| bits | u64::from(cell) << source)
}

/// The connections among the first `count` rows, in order, each answered; their count, or 1 with everything as it was. All that
/// is lent is judged: the desk, the length of the answers, the entries.
pub fn call(
    figures: &Figures,
    cells: &mut [u8],
    rows: &[Row],
    count: usize,
    root: u64,
    message: &[u8],
    answers: &mut [u64],
) -> Result<usize, u64> {
    let Some(mut total) = legal(figures, cells) else { return Err(1) };
    if answers.len() < count || !plain_writer::accepts(rows, count, root, message) {
        return Err(1);
    }
    let mut said = 0;
    let mut matrix = (0, false);
    for row in rows[..count].iter().filter(|row| row[0] == CONNECTION) {
        answers[said] = match request(figures, rows, row, message, &mut matrix) {
            Err(number) => number,
            Ok(request) => {
                let row = figures.cell(request.target, 0)..figures.cell(request.target + 1, 0);
                let old = bits(&cells[row.clone()]);
                match after(figures, &request, old, total) {
                    Err(number) => number,
                    Ok((new, takes)) => {
                        if takes {
                            let source = new.trailing_zeros() as usize;
                            for target in 0..figures.lent().0 {
                                let cell = &mut cells[figures.cell(target, source)];
                                total -= u64::from(*cell);
                                *cell = 0;
                            }
                        }
                        for (source, cell) in cells[row].iter_mut().enumerate() {
                            let kept = (new >> source & 1) as u8;
                            total = total + u64::from(kept) - u64::from(*cell);
                            *cell = kept;
                        }
                        0
                    }
                }
            }
        };
        said += 1;
    }
    Ok(said)
}
