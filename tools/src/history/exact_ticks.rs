//! Change 7 of document 02: an exchange that ended took 3 + 6 × tried + 5 × differed + fetched + marked + failed ticks
//! of its own.

use super::rows::Table;
use crate::recording::subject::Subject;

/// Names the first exchange that took another number. Of one that the limit cut off nothing is said.
pub fn hold(table: &Table) -> Result<(), String> {
    for (number, row) in table.rows.iter().enumerate() {
        for exchange in &row.exchanges {
            let Some(last) = exchange.span.last else { continue };
            let (took, exact) = (exchange.span.own_ticks(), exchange.tally.exact_ticks());
            if took != exact {
                let operation = row.arguments.operation();
                let task = table.names.of(Subject::Task(row.task));
                let first = exchange.span.first;
                return Err(format!(
                    "operation {number}, {operation} of {task}: its exchange from tick {first} to {last} \
                     took {took} ticks of its own, not the {exact} of its steps; please report it with the sheet"
                ));
            }
        }
    }
    Ok(())
}

#[cfg(test)]
mod tests {
    use simulator::sheet::parse;

    use super::hold;
    use crate::examples::folder;
    use crate::history::rows::Table;
    use crate::names::Names;

    /// P5: 16 ticks are t1's, and with one fetch more they would be 17.
    #[test]
    fn another_number_is_named() {
        let sheet = parse(&std::fs::read(folder().join("worked/p5.sheet")).unwrap()).unwrap();
        let mut names = Names::default();
        names.add("t1=upper").unwrap();
        let mut table = Table::new(&sheet, 32, &names);
        assert_eq!(hold(&table), Ok(()));
        table.rows[1].exchanges[0].tally.fetched += 1;
        let said = "operation 1, SWAP of t1 upper: its exchange from tick 13 to 28 took 16 ticks of its own, \
                    not the 17 of its steps; please report it with the sheet";
        assert_eq!(hold(&table), Err(said.to_string()));
        // Cut off before its Clean, it is not spoken of.
        let mut table = Table::new(&sheet, 28, &names);
        table.rows[1].exchanges[0].tally.fetched += 1;
        assert_eq!(hold(&table), Ok(()));
    }
}
