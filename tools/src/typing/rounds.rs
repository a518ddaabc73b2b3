//! The largest typing by its definition. A round looks at the grid as the round found it, so the strikes are
//! collected first and made afterwards.

use super::{met::met, Grid, Largest, Setting};

/// The answer and the grid of the largest typing.
pub fn largest(setting: &Setting) -> (Largest, Grid) {
    let mut grid = vec![1; setting.size()];
    let mut tally = Largest {
        rounds: 0,
        struck: 0,
        bare: 0,
    };
    loop {
        let strikes: Vec<usize> = setting
            .pairs()
            .filter(|pair| grid[setting.place(*pair)] == 1 && !met(setting, &grid, *pair))
            .map(|pair| setting.place(pair))
            .collect();
        for place in &strikes {
            grid[*place] = 0;
        }
        tally.rounds += 1;
        tally.struck += strikes.len();
        if strikes.is_empty() {
            tally.bare = setting.bare(&grid);
            return (tally, grid);
        }
    }
}
