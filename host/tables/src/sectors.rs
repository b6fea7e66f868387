//! Lines about every whole sector of an image: its header, its fingerprint.

use crate::report::Report;
use scarletbook::raw::sector_count;
use scarletbook::{Header, Refusal, audit, fingerprint, mend};
use std::fmt;
use std::io::{self, Write};

/// The sectors of a step.
const STEP: usize = 4096;
/// The bytes of a sector that has a header.
const STORED: usize = 2064;

/// The whole sectors of an image in a format.
pub struct Sectors<'a> {
    pub format: u32,
    pub image: &'a [u8],
    /// Called before every step with the sectors that are done, and all of them.
    pub at_step: &'a dyn Fn(usize, usize),
}

/// How many headers are sound, blank and unsound.
#[derive(Clone, Copy, Debug, Default, PartialEq, Eq)]
pub struct Audited {
    pub sound: usize,
    pub blank: usize,
    pub unsound: usize,
}

impl Audited {
    /// Whether no header is blank or unsound.
    pub fn all_sound(&self) -> bool {
        self.blank == 0 && self.unsound == 0
    }
}

impl fmt::Display for Audited {
    fn fmt(&self, f: &mut fmt::Formatter<'_>) -> fmt::Result {
        let Audited { sound, blank, unsound } = self;
        let headers = sound + blank + unsound;
        write!(f, "{headers} headers: {sound} sound, {blank} blank, {unsound} unsound")
    }
}

/// The first and the last address of a run of blank headers.
#[derive(Clone, Copy)]
struct Run {
    first: u32,
    last: u32,
}

impl fmt::Display for Run {
    fn fmt(&self, f: &mut fmt::Formatter<'_>) -> fmt::Result {
        let Run { first, last } = self;
        if first == last {
            return write!(f, "{first}: blank header");
        }
        write!(f, "{first}-{last}: blank headers")
    }
}

/// The six bytes of a header, as 12 hexadecimal digits.
struct Bytes([u8; 6]);

impl fmt::Display for Bytes {
    fn fmt(&self, f: &mut fmt::Formatter<'_>) -> fmt::Result {
        self.0.iter().try_for_each(|byte| write!(f, "{byte:02x}"))
    }
}

/// An unsound header, and what it mends to or that it is beyond mending.
struct Unsound {
    lsn: u32,
    header: Bytes,
    mended: Result<Bytes, Refusal>,
}

impl fmt::Display for Unsound {
    fn fmt(&self, f: &mut fmt::Formatter<'_>) -> fmt::Result {
        let Unsound { lsn, header, mended } = self;
        write!(f, "{lsn}: unsound header {header}, ")?;
        match mended {
            Ok(mended) => write!(f, "mends to {mended}"),
            Err(refusal) => f.write_str(refusal.word()),
        }
    }
}

/// An audit on its way through the addresses.
#[derive(Default)]
struct Audit {
    audited: Audited,
    /// The blank headers right before the next address.
    run: Option<Run>,
}

impl Audit {
    /// Counts a header, with a line if a run of blank ones ends before it.
    fn meet<W: Write, E: Write>(
        &mut self,
        report: &mut Report<W, E>,
        lsn: u32,
        header: Header,
    ) -> io::Result<()> {
        match header {
            Header::Blank => {
                self.audited.blank += 1;
                self.run.get_or_insert(Run { first: lsn, last: lsn }).last = lsn;
                Ok(())
            }
            Header::Sound => {
                self.audited.sound += 1;
                self.end_run(report)
            }
            Header::Unsound => {
                self.audited.unsound += 1;
                self.end_run(report)
            }
        }
    }

    fn end_run<W: Write, E: Write>(&mut self, report: &mut Report<W, E>) -> io::Result<()> {
        match self.run.take() {
            Some(run) => report.line(format_args!("{run}")),
            None => Ok(()),
        }
    }
}

impl Sectors<'_> {
    /// A line for each unsound header and for each run of blank ones, and one with the counts.
    pub fn audit(
        &self,
        report: &mut Report<impl Write, impl Write>,
    ) -> io::Result<Result<Audited, Refusal>> {
        if let Err(refusal) = unless_empty(audit(self.format, self.image, 0)) {
            return Ok(Err(refusal));
        }
        let mut so_far = Audit::default();
        self.each(report, |report, lsn| {
            // No sector of the image is refused now.
            let header = audit(self.format, self.image, lsn).unwrap_or(Header::Unsound);
            so_far.meet(report, lsn, header)?;
            match header {
                Header::Unsound => report.line(format_args!("{}", self.unsound(lsn))),
                Header::Sound | Header::Blank => Ok(()),
            }
        })?;
        so_far.end_run(report)?;
        report.line(format_args!("{}", so_far.audited))?;
        Ok(Ok(so_far.audited))
    }

    /// The unsound header of a sector, and what it mends to.
    fn unsound(&self, lsn: u32) -> Unsound {
        let sector = &self.image[lsn as usize * STORED..];
        let header = *sector.first_chunk().expect("a sector of the image is whole");
        let mended = mend(self.format, self.image, lsn);
        Unsound { lsn, header: Bytes(header), mended: mended.map(Bytes) }
    }

    /// A line for each sector: its address and its fingerprint.
    pub fn fingerprints(
        &self,
        report: &mut Report<impl Write, impl Write>,
    ) -> io::Result<Result<(), Refusal>> {
        if let Err(refusal) = unless_empty(fingerprint(self.format, self.image, 0)) {
            return Ok(Err(refusal));
        }
        self.each(report, |report, lsn| match fingerprint(self.format, self.image, lsn) {
            Ok(fingerprint) => report.line(format_args!("{lsn} {fingerprint:016x}")),
            Err(_) => Ok(()),
        })?;
        Ok(Ok(()))
    }

    /// Visits the address of each sector.
    fn each<W: Write, E: Write>(
        &self,
        report: &mut Report<W, E>,
        mut visit: impl FnMut(&mut Report<W, E>, u32) -> io::Result<()>,
    ) -> io::Result<()> {
        let sectors = sector_count(self.format, self.image.len());
        for (done, lsn) in (0..=u32::MAX).take(sectors).enumerate() {
            if done % STEP == 0 {
                report.done(done, sectors)?;
                (self.at_step)(done, sectors);
            }
            visit(report, lsn)?;
        }
        Ok(())
    }
}

/// An image without a whole sector is not refused for that.
fn unless_empty<T>(answer: Result<T, Refusal>) -> Result<(), Refusal> {
    match answer {
        Ok(_) | Err(Refusal::NoSuchEntry) => Ok(()),
        Err(refusal) => Err(refusal),
    }
}
