//! How the arrows of each kind look.

/// The colours of the kinds.
const COLOURS: [&str; 10] = [
    "#1f62a8", "#b8651b", "#2c7d4f", "#7a4aa0", "#148a8f", "#b0307a", "#7d7412", "#8a5136", "#5464c4",
    "#56677a",
];
/// The dashes of the kinds; with the colours they tell 64 kinds apart.
const DASHES: [&str; 7] = [
    "",
    "2.2 1",
    "0.8 0.9",
    "3 0.8 0.8 0.8",
    "4.5 1.2",
    "1.4 0.6 0.4 0.6",
    "3 0.7 0.7 0.7 0.7 0.7",
];

/// The colour and the dashes of a kind.
pub fn stroke(kind: usize) -> String {
    let colour = colour(kind);
    match DASHES[kind / COLOURS.len() % DASHES.len()] {
        "" => format!("stroke=\"{colour}\""),
        dashes => format!("stroke=\"{colour}\" stroke-dasharray=\"{dashes}\""),
    }
}

/// The colour of a kind.
pub fn colour(kind: usize) -> &'static str {
    COLOURS[kind % COLOURS.len()]
}
