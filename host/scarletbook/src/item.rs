//! The texts of a disc, of an area and of a track, by name.

macro_rules! items {
    ($(#[$doc:meta])* $items:ident: $count:literal { $($item:ident $name:literal,)* }) => {
        $(#[$doc])*
        #[derive(Clone, Copy, Debug, PartialEq, Eq, Hash, PartialOrd, Ord)]
        pub enum $items {
            $(#[doc = concat!("`", $name, "`")] $item,)*
        }

        impl $items {
            /// Every item, by its index.
            pub const ALL: [$items; $count] = [$($items::$item),*];

            /// Its index, from 0, by which the library knows it.
            pub fn index(self) -> u32 {
                self as u32
            }

            /// Its name, as aclater/scarletbook-rs has it.
            pub fn name(self) -> &'static str {
                match self { $($items::$item => $name,)* }
            }
        }
    };
}

items! {
    /// A text of a disc.
    DiscTextItem: 16 {
        AlbumTitle "album_title",
        AlbumArtist "album_artist",
        AlbumPublisher "album_publisher",
        AlbumCopyright "album_copyright",
        AlbumTitlePhonetic "album_title_phonetic",
        AlbumArtistPhonetic "album_artist_phonetic",
        AlbumPublisherPhonetic "album_publisher_phonetic",
        AlbumCopyrightPhonetic "album_copyright_phonetic",
        DiscTitle "disc_title",
        DiscArtist "disc_artist",
        DiscPublisher "disc_publisher",
        DiscCopyright "disc_copyright",
        DiscTitlePhonetic "disc_title_phonetic",
        DiscArtistPhonetic "disc_artist_phonetic",
        DiscPublisherPhonetic "disc_publisher_phonetic",
        DiscCopyrightPhonetic "disc_copyright_phonetic",
    }
}

items! {
    /// A text of an area.
    AreaTextItem: 4 {
        Description "description",
        Copyright "copyright",
        DescriptionPhonetic "description_phonetic",
        CopyrightPhonetic "copyright_phonetic",
    }
}

items! {
    /// A text of a track.
    TrackTextItem: 14 {
        Title "title",
        Performer "performer",
        Songwriter "songwriter",
        Composer "composer",
        Arranger "arranger",
        Message "message",
        ExtraMessage "extra_message",
        TitlePhonetic "title_phonetic",
        PerformerPhonetic "performer_phonetic",
        SongwriterPhonetic "songwriter_phonetic",
        ComposerPhonetic "composer_phonetic",
        ArrangerPhonetic "arranger_phonetic",
        MessagePhonetic "message_phonetic",
        ExtraMessagePhonetic "extra_message_phonetic",
    }
}
