//! A small sample disc, of invented names, in format 0.

/// The bytes of a sector.
const SECTOR: usize = 2048;
/// Where the master table and its copies begin, and its sectors.
const MASTERS: [usize; 3] = [510, 520, 530];
const MASTER_SECTORS: usize = 10;
/// The sectors of an area's table: its head, texts, two lists of tracks, ISRCs and genres.
const TABLE_SECTORS: usize = 6;
/// Where the two copies of each area's table begin.
const TABLES: [[usize; 2]; 2] = [[540, 546], [552, 558]];
/// The sectors of the image.
const SECTORS: usize = 564;

/// Sectors of audio for so many frames: 14 for 3.
const fn sectors(frames: u32) -> u32 {
    frames * 14 / 3
}

/// Minutes, seconds, frames.
type Time = [u8; 3];

struct Area {
    signature: &'static [u8],
    description: &'static str,
    max_byte_rate: u32,
    frame_format: u8,
    /// Channel count and configuration of the loudspeakers.
    channels: [u8; 2],
    start_lsn: u32,
    playtime: Time,
    tracks: &'static [Track],
}

struct Track {
    start: Time,
    duration: Time,
    isrc: &'static str,
    genre: u8,
    title: &'static str,
    performer: &'static str,
    composer: &'static str,
}

const AREAS: [Area; 2] = [
    Area {
        signature: b"TWOCHTOC",
        description: "Stereo",
        max_byte_rate: 716_800,
        frame_format: 2,
        channels: [2, 0],
        start_lsn: 600,
        playtime: [12, 25, 0],
        tracks: &[
            Track {
                start: [0, 2, 0],
                duration: [4, 11, 30],
                isrc: "ZZTYK2600001",
                genre: 4,
                title: "Prélude à l'étang",
                performer: "Trio Vallémont",
                composer: "Odile Marchère",
            },
            Track {
                start: [4, 15, 30],
                duration: [3, 2, 45],
                isrc: "ZZTYK2600002",
                genre: 4,
                title: "Über dem Fluß",
                performer: "Trio Vallémont, Änne Sørby",
                composer: "Jost Grünhagen",
            },
            Track {
                start: [7, 20, 0],
                duration: [5, 5, 0],
                isrc: "",
                genre: 12,
                title: "Rondo",
                performer: "Trio Vallémont",
                composer: "",
            },
        ],
    },
    Area {
        signature: b"MULCHTOC",
        description: "Surround",
        max_byte_rate: 1_433_600,
        frame_format: 0,
        channels: [6, 4],
        start_lsn: 300_000,
        playtime: [7, 18, 0],
        tracks: &[
            Track {
                start: [0, 2, 0],
                duration: [4, 11, 30],
                isrc: "ZZTYK2600011",
                genre: 4,
                title: "Prélude à l'étang",
                performer: "Trio Vallémont",
                composer: "Odile Marchère",
            },
            // It ends a second after the play time.
            Track {
                start: [4, 15, 30],
                duration: [3, 3, 45],
                isrc: "ZZTYK2600012",
                genre: 4,
                title: "Über dem Fluß",
                performer: "Trio Vallémont, Änne Sørby",
                composer: "Jost Grünhagen",
            },
        ],
    },
];

/// The image of the sample disc.
pub fn image() -> Vec<u8> {
    let mut image = vec![0; SECTORS * SECTOR];
    for lsn in MASTERS {
        put(&mut image, lsn * SECTOR, &master());
    }
    for (area, copies) in AREAS.iter().zip(TABLES) {
        for lsn in copies {
            put(&mut image, lsn * SECTOR, &table(area));
        }
    }
    image
}

fn master() -> Vec<u8> {
    let mut master = vec![0; MASTER_SECTORS * SECTOR];
    let fields: [(usize, &[u8]); 12] = [
        (0, b"SACDMTOC"),
        (8, &[1, 20]),
        (16, &[0, 2, 0, 1]),
        (24, b"TYK-2600"),
        (40, &[1, 0, 0, 4]),
        (80, &[0x80]),
        (88, b"TYK-2600-1"),
        (104, &[1, 0, 0, 4]),
        (120, &[0x07, 0xea, 11, 16]),
        (128, &[1]),
        (136, b"en\x01"),
        (9 * SECTOR, b"SACD_ManMade for the listing; there is no such disc."),
    ];
    for (at, bytes) in fields {
        put(&mut master, at, bytes);
    }
    for (slot, copies) in TABLES.iter().enumerate() {
        put32(&mut master, 64 + 8 * slot, copies[0] as u32);
        put32(&mut master, 68 + 8 * slot, copies[1] as u32);
        put(&mut master, 84 + 2 * slot, &(TABLE_SECTORS as u16).to_be_bytes());
    }
    put(&mut master, SECTOR, &disc_texts());
    master
}

/// The sector of disc texts: the place of each of the 16, then the texts.
fn disc_texts() -> Vec<u8> {
    let texts = [
        (0, "Nocturnes d'été"),
        (1, "Trio Vallémont"),
        (2, "Tuyokiti"),
        (8, "Première soirée"),
        (9, "Trio Vallémont"),
        (11, "(C) 2026 Tuyokiti"),
    ];
    let mut sector = b"SACDText".to_vec();
    sector.resize(64, 0);
    for (item, text) in texts {
        let place = sector.len() as u16;
        put(&mut sector, 16 + 2 * item, &place.to_be_bytes());
        sector.extend(latin1(text));
        sector.push(0);
    }
    sector
}

fn table(area: &Area) -> Vec<u8> {
    let mut table = vec![0; TABLE_SECTORS * SECTOR];
    let [minutes, seconds, frames] = area.playtime;
    let end_lsn = area.start_lsn + sectors(frame_number(area.playtime));
    let [channel_count, config] = area.channels;
    let fields: [(usize, &[u8]); 12] = [
        (0, area.signature),
        (8, &[1, 20]),
        (16, &area.max_byte_rate.to_be_bytes()),
        (20, &[4, area.frame_format]),
        (32, &[channel_count, config, channel_count]),
        (64, &[minutes, seconds, frames]),
        (69, &[area.tracks.len() as u8]),
        (72, &area.start_lsn.to_be_bytes()),
        (76, &end_lsn.to_be_bytes()),
        (80, &[1]),
        (88, b"en\x01"),
        (144, &[4, 0]),
    ];
    for (at, bytes) in fields {
        put(&mut table, at, bytes);
    }
    put(&mut table, 1024, &latin1(area.description));
    put(&mut table, SECTOR, &track_texts(area.tracks));
    put_lists(&mut table, area);
    table
}

/// The lists of tracks: addresses, times, ISRCs and genres.
fn put_lists(table: &mut [u8], area: &Area) {
    let [addresses, times, codes] = [2, 3, 4].map(|sector| sector * SECTOR);
    put(table, addresses, b"SACDTRL1");
    put(table, times, b"SACDTRL2");
    put(table, codes, b"SACD_IGL");
    for (i, track) in area.tracks.iter().enumerate() {
        let start_lsn = area.start_lsn + sectors(frame_number(track.start));
        put32(table, addresses + 8 + 4 * i, start_lsn);
        put32(table, addresses + 1028 + 4 * i, sectors(frame_number(track.duration)));
        put(table, times + 8 + 4 * i, &track.start);
        put(table, times + 1028 + 4 * i, &track.duration);
        put(table, codes + 8 + 12 * i, track.isrc.as_bytes());
        put(table, codes + 3072 + 4 * i, &[1, 0, 0, track.genre]);
    }
}

/// The sector of track texts: the place of each track's items, then the items.
fn track_texts(tracks: &[Track]) -> Vec<u8> {
    let mut sector = b"SACDTTxt".to_vec();
    sector.resize(64, 0);
    for (i, track) in tracks.iter().enumerate() {
        let place = sector.len() as u16;
        put(&mut sector, 8 + 2 * i, &place.to_be_bytes());
        let items = [(1, track.title), (2, track.performer), (4, track.composer)];
        let items = items.iter().filter(|(_, text)| !text.is_empty());
        sector.extend([items.clone().count() as u8, 0, 0, 0]);
        for (kind, text) in items {
            sector.extend([*kind, 0x20]);
            sector.extend(latin1(text));
            sector.push(0);
        }
    }
    sector
}

fn frame_number([minutes, seconds, frames]: Time) -> u32 {
    (u32::from(minutes) * 60 + u32::from(seconds)) * 75 + u32::from(frames)
}

/// One byte a character.
fn latin1(text: &str) -> Vec<u8> {
    text.chars().map(|character| character as u8).collect()
}

fn put(bytes: &mut [u8], at: usize, part: &[u8]) {
    bytes[at..at + part.len()].copy_from_slice(part);
}

fn put32(bytes: &mut [u8], at: usize, number: u32) {
    put(bytes, at, &number.to_be_bytes());
}
