//! The library's judge against its largest typing, each on the same sheet.

use crate::inputs::Input;
use crate::library::DESK;
use crate::runs;
use prep::raw::{self, JudgeAnswer};

/// The booking list without bookings, which every grid holds.
const NOTHING_BOOKED: [u16; 1] = [0];

/// What is answered when a grid is accepted.
const ACCEPTED: JudgeAnswer = JudgeAnswer {
    number: 0,
    card: 0,
    shape: 0,
    place: 0,
};

/// What the columns are.
pub fn print_head() {
    println!("The largest typing of a sheet, and that typing judged, in ms, both by the library. Nothing is booked,");
    println!("so the typing is accepted and all of it is judged. The last column counts the typing's pairs.");
    println!();
    println!(
        "{:34} {:>10} {:>10} {:>14} {:>10}",
        "sheet", "largest", "judge", "judge/largest", "pairs"
    );
}

/// Times one sheet, prints its line, and tells whether its largest typing is accepted.
pub fn time(input: &Input) -> bool {
    let (template, script) = (&input.files.template, &input.files.script);
    let cards = usize::from(raw::read_script(template, script).cards);
    let shapes = usize::from(raw::read_template(template).shapes);
    let mut grid = vec![0xa5; cards * shapes];
    let largest = runs::median(|| raw::largest(template, script, &mut grid));
    let judged = || raw::judge(template, script, &NOTHING_BOOKED, DESK.number(), &grid);
    let accepted = judged() == ACCEPTED;
    let judge = runs::median(judged);
    println!(
        "{:34} {largest:>10.4} {judge:>10.4} {:>14.2} {:>10}{}",
        input.name,
        judge / largest,
        grid.iter().filter(|byte| **byte == 1).count(),
        if accepted { "" } else { "  NOT ACCEPTED" }
    );
    accepted
}
