//! The other implementation of the format (docs/FORMAT.md), written from its text alone.
//! It exists to be compared with the proved one, so it shares nothing with it but the words of refusals.
//!
//! | module     | section of docs/FORMAT.md, or purpose                                       |
//! |------------|-----------------------------------------------------------------------------|
//! | `numbers`  | card, kind and shape numbers: three lists, three types                      |
//! | `desk`     | the two desks that book in one list                                         |
//! | `labels`   | kinds with a way, outgoing or incoming, and values for each                 |
//! | `refusal`  | a refusal's number, place and meaning                                       |
//! | `words`    | the words of refusals, from the one table of them                           |
//! | `template` | *Read a template*, refusals 1 to 12 and 64; also writes templates           |
//! | `fit`      | *Fit counts*, refusals 41 to 43; by intervals and by enumeration of bags    |
//! | `script`   | *Read a script*, refusals 20 to 25; *Links of a card*                       |
//! | `typing`   | *Largest* (rounds and links) and *Smallest*, refusals 30 to 33, 65, 66, 40  |
//! |            | and 50; *Judge a grid*, refusals 61 to 63; *Tidy bookings*                  |
//! | `sheet`    | *The sheet printer*, refusal 60                                             |
//! | `programs` | *The grid judge* and *The list tidier*                                      |
//! | `samples`  | the count samples P1 to P12, and random small ones                          |
//! | `random`   | a small seeded source of numbers                                            |
//! | `generate` | random inputs: whole sheets up to the limits, and damaged ones              |
//! | `cases`    | what operations are asked, and what is owed for it, in one form             |
//! | `compare`  | runs another program on random inputs and compares its text with ours       |
//! | `text`     | sheets as readable text: to words and back, refusals in words               |
//! | `draw`     | a sheet and its typings as a drawing                                        |
//! | `page`     | runs the examples of a page, such as docs/FORMAT.md                         |

pub mod cases;
pub mod compare;
pub mod desk;
pub mod draw;
pub mod fit;
pub mod generate;
pub mod labels;
pub mod numbers;
pub mod page;
pub mod programs;
pub mod random;
pub mod refusal;
pub mod samples;
pub mod script;
pub mod sheet;
pub mod template;
pub mod text;
pub mod typing;
mod words;
