// Appended by oracle/copy, not the customer's: this module's private items, for the comparison.
pub mod private {
    use super::{
        Area, AreaPointer, Error, Image, MasterToc, Read, Seek, Slot, TrackTimecodes, Warning, Warnings,
    };

    pub fn byte(b: &[u8], at: usize) -> u8 {
        super::byte(b, at)
    }

    pub fn be16(b: &[u8], at: usize) -> u16 {
        super::be16(b, at)
    }

    pub fn be32(b: &[u8], at: usize) -> u32 {
        super::be32(b, at)
    }

    /// The area that a slot yields, if it does, with the stored times of its tracks; and the warnings.
    pub fn read_area<R: Read + Seek>(
        img: &mut Image<R>,
        slot: Slot,
        ptr: AreaPointer,
    ) -> Result<(Option<(Area, Vec<TrackTimecodes>)>, Vec<Warning>), Error> {
        let mut warnings = Warnings { list: Vec::new(), log: img.log().clone() };
        let read = super::read_area(img, slot, ptr, &mut warnings)?;
        Ok((read.map(|(area, _, timecodes)| (area, timecodes)), warnings.list))
    }

    /// The master record and the warnings of a disc, whether a slot yields an area or not.
    pub fn read_master_and_warnings<R: Read + Seek>(
        img: &mut Image<R>,
    ) -> Result<(MasterToc, Vec<Warning>), Error> {
        let mut warnings = Warnings { list: Vec::new(), log: img.log().clone() };
        let (master, _) = super::read_master(img, &mut warnings)?;
        for slot in [Slot::TwoChannel, Slot::Multichannel] {
            let pointer = master.pointer(slot);
            if pointer.is_used() {
                super::read_area(img, slot, pointer, &mut warnings)?;
            }
        }
        Ok((master, warnings.list))
    }
}
