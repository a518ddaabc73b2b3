//! The words of refusals, from the table that those of the library are made from, include/prep_refusals.def.

/// The table: a line for each refusal, and one for each that means something of its own in one call of the library.
const TABLE: &str = include_str!("../../include/prep_refusals.def");

/// What a refusal means that is told at this place. At place 0, where no word of a file is at fault, it is told of a
/// grid that is judged and of the desk that this is asked for.
pub fn reason(number: u16, place: usize) -> &'static str {
    let number = number.to_string();
    let Some([_, name, _, words]) = rows("PREP_REFUSAL").find(|row| row[0] == number) else {
        return "a refusal that isn't known";
    };
    let judged = |row: &[&str; 4]| place == 0 && row[0] == "JUDGE" && row[1] == name;
    rows("PREP_CALL_REFUSAL").find(judged).map_or(words, |row| row[3])
}

/// The four columns of the lines that start with a name, without the quotation marks of the last.
fn rows(start: &'static str) -> impl Iterator<Item = [&'static str; 4]> {
    TABLE.lines().filter_map(move |line| {
        let inside = line.strip_prefix(start)?.strip_prefix('(')?.strip_suffix("\")")?;
        let (columns, words) = inside.split_once(", \"")?;
        let mut columns = columns.split(", ");
        Some([columns.next()?, columns.next()?, columns.next()?, words])
    })
}

#[cfg(test)]
mod tests {
    use super::*;

    #[test]
    fn words_come_from_the_table_and_are_right_for_a_judged_grid() {
        assert_eq!(
            rows("PREP_REFUSAL").count(),
            TABLE.matches("\nPREP_REFUSAL(").count()
        );
        assert_eq!(
            rows("PREP_CALL_REFUSAL").count(),
            TABLE.matches("\nPREP_CALL_REFUSAL(").count()
        );
        assert_eq!(reason(12, 0), "the template has words left over");
        assert_eq!(reason(40, 0), "the grid has not cards x shapes bytes");
        assert_eq!(
            reason(66, 0),
            "the desk asked for is neither radio, 0, nor television, 1"
        );
        assert_eq!(reason(66, 1), "a desk is neither radio, 0, nor television, 1");
        assert_eq!(reason(67, 0), "a refusal that isn't known");
    }
}
