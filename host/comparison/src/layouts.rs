//! The layout of loudspeakers that the listing shows, for every channel count and configuration.

use crate::tally::Kind;
use oracle::toc::LoudspeakerLayout;

/// The words for a layout of the Rust.
fn words(layout: LoudspeakerLayout) -> String {
    match layout {
        LoudspeakerLayout::Stereo => "stereo".to_owned(),
        LoudspeakerLayout::ThreeTwo => "5 channels (3/2)".to_owned(),
        LoudspeakerLayout::FivePointOne => "5.1".to_owned(),
        LoudspeakerLayout::Unspecified { channels: 1, .. } => "1 channel".to_owned(),
        LoudspeakerLayout::Unspecified { channels, .. } => format!("{channels} channels"),
        _ => "another layout".to_owned(),
    }
}

pub fn kind() -> Kind {
    let mut kind = Kind::new("layouts", &["accepted"]);
    for channels in 0..=u8::MAX {
        for config in 0..=u8::MAX {
            let rust = words(LoudspeakerLayout::new(channels, config));
            kind.case(&(channels, config), 0, ::tables::listing::layout(channels, config), rust);
        }
    }
    kind
}
