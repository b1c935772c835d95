//! What a program from before request 6 would have left or sent, made of today's bytes:
//! records, images, checkpoints and results without their times.

use second::bytes::{get_pair, get_u32, put_u32};
use second::record::HEAD_LEN;

/// A completion record in an image or in a checkpoint, without and with its time.
const ROWS: [usize; 2] = [20, 24];

/// Rows without their last four bytes.
fn shortened(rows: &[u8]) -> Vec<u8> {
    let rows = rows.chunks_exact(ROWS[1]);
    rows.flat_map(|row| row[..ROWS[0]].to_vec()).collect()
}

/// Of a well-formed image, in either form.
pub fn untimed_image(image: &[u8]) -> Vec<u8> {
    if image[3] == 0x31 {
        return image.to_vec();
    }
    let (from, length) = get_pair(image, 32);
    let rows = shortened(&image[from..from + length]);
    let mut b = [&image[..from], &rows].concat();
    b[3] = 0x31;
    put_u32(&mut b, 36, rows.len() as u32);
    b
}

/// Of a checkpoint, in either form, without bytes behind it.
pub fn untimed_checkpoint(checkpoint: &[u8]) -> Vec<u8> {
    if checkpoint[3] == 0x32 {
        return checkpoint.to_vec();
    }
    let (from, length) = get_pair(checkpoint, 36);
    let rows = shortened(&checkpoint[from..from + length]);
    let mut b = [&checkpoint[..from], &rows].concat();
    b[3] = 0x32;
    put_u32(&mut b, 40, rows.len() as u32);
    b
}

/// Of a log that ends with its last whole record: those records without times that are picked.
pub fn untimed_log(log: &[u8], mut pick: impl FnMut() -> bool) -> Vec<u8> {
    let (mut b, mut at) = (log[..HEAD_LEN].to_vec(), HEAD_LEN);
    while at < log.len() {
        let record = &log[at..at + size(&log[at..])];
        match record[0] {
            6 if pick() => b.extend_from_slice(&[&[1], &record[1..28]].concat()),
            4 if pick() => {
                let image = untimed_image(&record[8..]);
                b.extend_from_slice(&record[..4]);
                b.extend_from_slice(&(image.len() as u32).to_le_bytes());
                b.extend_from_slice(&image);
            }
            _ => b.extend_from_slice(record),
        }
        at += record.len();
    }
    b
}

/// The length of the whole record that these bytes begin with.
fn size(b: &[u8]) -> usize {
    match b[0] {
        1 => 28,
        2 => 12,
        4 => 8 + get_u32(b, 4) as usize,
        6 => 32,
        _ => 8,
    }
}
