// Writes a small disc image: two tracks in the two-channel area, one in the multichannel area,
// whose texts are of set 3. The examples in the crate's documents include it.
//
//     cargo run --offline -p scarletbook --example small_disc -- FILE [0|1|2]

use scarletbook::SectorFormat;
use scarletbook::record::SECTOR_SIZE;
use std::error::Error;

const MASTER: usize = 510;
const TWO_CHANNEL: [usize; 2] = [540, 550];
const MULTICHANNEL: usize = 560;
/// The sectors of an area's table, and of the disc.
const TABLE_SECTORS: usize = 7;
const SECTORS: usize = 570;

/// Puts bytes at a place.
pub fn put(bytes: &mut [u8], at: usize, part: &[u8]) {
    bytes[at..at + part.len()].copy_from_slice(part);
}

/// Puts bytes at a place of a sector of a plain image.
pub fn put_in(image: &mut [u8], lsn: usize, at: usize, part: &[u8]) {
    put(image, lsn * SECTOR_SIZE + at, part);
}

/// An area's table of at least 7 sectors: its head; the lists of texts, of sectors, of times, of
/// ISRCs and genres; then the titles. Every track has 100 sectors and a second.
pub fn area_table(signature: &[u8; 8], charset: u8, titles: &[&[u8]], sectors: usize) -> Vec<u8> {
    let mut table = vec![0; sectors * SECTOR_SIZE];
    let [texts, starts, times, isrcs] = [1, 2, 3, 4].map(|sector| sector * SECTOR_SIZE);
    put(&mut table, 0, signature);
    put(&mut table, 8, &[1, 20]);
    put(&mut table, 20, &[4]);
    put(&mut table, 32, &[2]);
    put(&mut table, 64, &[5, 0, 0, 0, 0, titles.len() as u8]);
    put(&mut table, 72, &[0, 0, 3, 232, 0, 1, 0, 0]);
    put(&mut table, 80, &[1]);
    put(&mut table, 88, &[b'e', b'n', charset]);
    for (at, part) in
        [(texts, b"SACDTTxt"), (starts, b"SACDTRL1"), (times, b"SACDTRL2"), (isrcs, b"SACD_IGL")]
    {
        put(&mut table, at, part);
    }
    let mut text = 6 * SECTOR_SIZE;
    for (i, title) in titles.iter().enumerate() {
        put(&mut table, starts + 8 + 4 * i, &(1000 + 100 * i as u32).to_be_bytes());
        put(&mut table, starts + 1028 + 4 * i, &[0, 0, 0, 100]);
        put(&mut table, times + 8 + 4 * i, &[i as u8 / 60, i as u8 % 60, 0]);
        put(&mut table, times + 1028 + 4 * i, &[0, 1, 0]);
        put(&mut table, isrcs + 8 + 12 * i, format!("JPABC26{:05}", i + 1).as_bytes());
        put(&mut table, isrcs + 3072 + 4 * i, &[1, 0, 0, 7]);
        put(&mut table, texts + 8 + 2 * i, &((text - texts) as u16).to_be_bytes());
        put(&mut table, text, &[1, 0, 0, 0, 1, 0]);
        put(&mut table, text + 6, title);
        text += 6 + title.len() + 1;
    }
    table
}

/// The disc in plain sectors. The first track of its multichannel area starts outside it, and
/// neither copy of the master table is its equal: two warnings.
pub fn plain() -> Vec<u8> {
    let mut image = vec![0; SECTORS * SECTOR_SIZE];
    put_in(&mut image, MASTER, 0, b"SACDMTOC\x01\x14");
    put_in(&mut image, MASTER, 24, b" ABC-1");
    put_in(&mut image, MASTER, 64, &[0, 0, 2, 28, 0, 0, 2, 38, 0, 0, 2, 48]);
    put_in(&mut image, MASTER, 84, &[0, TABLE_SECTORS as u8, 0, TABLE_SECTORS as u8]);
    put_in(&mut image, MASTER, 120, &[7, 234, 11, 16, 0, 0, 0, 0, 1]);
    put_in(&mut image, MASTER, 136, b"en\x02");
    put_in(&mut image, MASTER + 1, 0, b"SACDText");
    put_in(&mut image, MASTER + 1, 16, &[4, 0]);
    put_in(&mut image, MASTER + 1, 1024, b"Caf\xe9 concert");
    put_in(&mut image, MASTER + 9, 0, b"SACD_Man");
    let two_channel =
        area_table(b"TWOCHTOC", 2, &[b"Overture", b"Entr'acte \xe9t\xe9"], TABLE_SECTORS);
    for lsn in TWO_CHANNEL {
        put_in(&mut image, lsn, 0, &two_channel);
    }
    let mut multichannel = area_table(b"MULCHTOC", 3, &[b"\x8f\x91"], TABLE_SECTORS);
    put(&mut multichannel, 72, &[0, 0, 3, 233]);
    put_in(&mut image, MULTICHANNEL, 0, &multichannel);
    image
}

/// A plain image stored in a format.
pub fn stored(format: SectorFormat, plain: &[u8]) -> Vec<u8> {
    let (front, back) = match format {
        SectorFormat::Plain => (0, 0),
        SectorFormat::Raw2054 => (6, 0),
        SectorFormat::Raw2064 => (12, 4),
    };
    let sectors = plain.chunks(SECTOR_SIZE);
    sectors.flat_map(|data| [&[0; 12][..front], data, &[0; 4][..back]].concat()).collect()
}

fn main() -> Result<(), Box<dyn Error>> {
    let mut words = std::env::args().skip(1);
    let file = words.next().ok_or("small_disc FILE [0|1|2]")?;
    let format = words.next().map_or(Ok(0), |number| number.parse())?;
    Ok(std::fs::write(file, stored(SectorFormat::of_number(format)?, &plain()))?)
}
