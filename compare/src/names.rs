//! The Rust's 47 labels and 50 tags, so that a number can be turned into its enum.

use oracle::caf::{ChannelLabel, ChannelLayoutTag};

pub const LABELS: [ChannelLabel; 47] = {
    use ChannelLabel::*;
    [
        Unknown,
        Unused,
        UseCoordinates,
        Left,
        Right,
        Center,
        LFEScreen,
        LeftSurround,
        RightSurround,
        LeftCenter,
        RightCenter,
        CenterSurround,
        LeftSurroundDirect,
        RightSurroundDirect,
        TopCenterSurround,
        VerticalHeightLeft,
        VerticalHeightCenter,
        VerticalHeightRight,
        TopBackLeft,
        TopBackCenter,
        TopBackRight,
        RearSurroundLeft,
        RearSurroundRight,
        LeftWide,
        RightWide,
        LFE2,
        LeftTotal,
        RightTotal,
        HearingImpaired,
        Narration,
        Mono,
        DialogCentricMix,
        CenterSurroundDirect,
        LeftTopMiddle,
        RightTopMiddle,
        AmbisonicW,
        AmbisonicX,
        AmbisonicY,
        AmbisonicZ,
        MSMid,
        MSSide,
        XYX,
        XYY,
        HeadphonesLeft,
        HeadphonesRight,
        ClickTrack,
        ForeignLanguage,
    ]
};

pub const TAGS: [ChannelLayoutTag; 50] = {
    use ChannelLayoutTag::*;
    [
        UseChannelDescriptions,
        UseChannelBitmap,
        Mono,
        Stereo,
        StereoHeadphones,
        MatrixStereo,
        MidSide,
        XY,
        Binaural,
        AmbisonicBFormat,
        Quadraphonic,
        Pentagonal,
        Hexagonal,
        Octagonal,
        Cube,
        MPEG_3_0_A,
        MPEG_3_0_B,
        MPEG_4_0_A,
        MPEG_4_0_B,
        MPEG_5_0_A,
        MPEG_5_0_B,
        MPEG_5_0_C,
        MPEG_5_0_D,
        MPEG_5_1_A,
        MPEG_5_1_B,
        MPEG_5_1_C,
        MPEG_5_1_D,
        MPEG_6_1_A,
        MPEG_7_1_A,
        MPEG_7_1_B,
        MPEG_7_1_C,
        EmagicDefault_7_1,
        SMPTE_DTV,
        ITU_2_1,
        ITU_2_2,
        DVD_4,
        DVD_5,
        DVD_6,
        DVD_10,
        DVD_11,
        DVD_18,
        DVD_20,
        DVD_21,
        AAC_6_0,
        AAC_6_1,
        AAC_7_0,
        AAC_Octagonal,
        TMH_10_2_std,
        TMH_10_2_full,
        ReservedDoNotUse,
    ]
};

pub fn label(number: u32) -> Option<ChannelLabel> {
    LABELS.into_iter().find(|&label| label as u32 == number)
}

pub fn tag(number: u32) -> Option<ChannelLayoutTag> {
    TAGS.into_iter().find(|&tag| tag as u32 == number)
}

/// The labels of each row of the Rust's private table, read out of its text: 43 lists, in the table's order.
pub fn rows() -> Vec<Vec<u32>> {
    const TEXT: &str = include_str!(env!("CAF_TEXT"));
    let start = TEXT.find("const STANDARD_LAYOUTS").expect("the text has the table");
    let end = TEXT[start..].find("};").expect("the table ends") + start;
    let rows: Vec<_> = TEXT[start..end].split("Tag::").skip(1).map(row_labels).collect();
    assert_eq!(rows.len(), 43, "rows of the table");
    rows
}

fn row_labels(row: &str) -> Vec<u32> {
    let open = row.find('[').expect("a row has its labels in brackets");
    let close = row.find(']').expect("a row has its labels in brackets");
    let names = row[open + 1..close].split(',').map(str::trim).filter(|name| !name.is_empty());
    names.map(|name| numbered(name) as u32).collect()
}

fn numbered(name: &str) -> ChannelLabel {
    LABELS.into_iter().find(|label| format!("{label:?}") == name).expect("a row names known labels")
}
