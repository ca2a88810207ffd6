//! What COMMITs gather, held to the sheet: change 5 of document 02 leaves the list, its order and its
//! tick as document 01 has them.

use crate::history::{run_with_history, Exchange, History, Kind, Operation};
use crate::sheet::{self, Command, Sheet, TOP_VERSION};
use crate::transaction::{bank_word, version_of};
use crate::TOP_LIMIT;

/// Does every exchange of a transaction name the blocks of its commands by rising number, changed
/// where PUT, and is a job spent only with a PUT block at the last version?
pub fn gathered_rising(sheet: &[u8], limit: u64) -> Result<(), String> {
    let Ok(sheet) = sheet::parse(sheet) else { return Ok(()) };
    if limit > TOP_LIMIT {
        return Ok(());
    }
    let (_, history) = run_with_history(&sheet, limit as u32);
    for operation in &history.operations {
        let Kind::Transaction { first_command, .. } = operation.kind else { continue };
        let blocks = Blocks::of(&sheet, first_command);
        operation.exchanges.iter().try_for_each(|exchange| blocks.check_pairs(exchange))?;
        if operation.spent {
            blocks.check_spent(&sheet, &history, operation)?;
        }
    }
    Ok(())
}

/// The blocks that the commands of a transaction name, one bit each: there are no jumps, so whoever
/// comes to COMMIT has touched them all.
struct Blocks {
    touched: u16,
    put: u16,
}

impl Blocks {
    fn of(sheet: &Sheet, first_command: usize) -> Blocks {
        let mut blocks = Blocks { touched: 0, put: 0 };
        let inside = |command: &&Command| !matches!(command, Command::Commit);
        for command in sheet.commands[first_command..].iter().take_while(inside) {
            match *command {
                Command::Get { block, .. } => blocks.touched |= 1 << block,
                Command::Put { block, .. } => {
                    blocks.touched |= 1 << block;
                    blocks.put |= 1 << block;
                }
                _ => {}
            }
        }
        blocks
    }

    fn check_pairs(&self, exchange: &Exchange) -> Result<(), String> {
        let named = exchange.pairs.iter().map(|pair| usize::from(pair.word));
        if !named.eq(numbers(self.touched).map(bank_word)) {
            return Err(format!("not the touched blocks by rising number: {exchange:?}"));
        }
        for (block, pair) in numbers(self.touched).zip(&exchange.pairs) {
            let (old, new) = (version_of(pair.old), version_of(pair.new));
            let is_put = self.put & 1 << block != 0;
            if (is_put && new != old + 1) || (!is_put && pair.changes()) {
                return Err(format!("not the new value of block {block}: {exchange:?}"));
            }
        }
        Ok(())
    }

    /// A version that a transaction has read at the last one stays there.
    fn check_spent(
        &self,
        sheet: &Sheet,
        history: &History,
        spent: &Operation,
    ) -> Result<(), String> {
        let has_last_version = |block: usize| {
            let risen = history.operations.iter().filter(|one| {
                one.committed && one.place < spent.span.last && puts(sheet, one, block)
            });
            sheet.blocks[block].version + risen.count() as u32 == TOP_VERSION
        };
        match numbers(self.put).any(has_last_version) {
            true => Ok(()),
            false => Err(format!("spent with no PUT block at the last version: {spent:?}")),
        }
    }
}

fn numbers(bits: u16) -> impl Iterator<Item = usize> {
    (0..16).filter(move |number| bits & 1 << number != 0)
}

fn puts(sheet: &Sheet, operation: &Operation, block: usize) -> bool {
    match operation.kind {
        Kind::Transaction { first_command, .. } => {
            Blocks::of(sheet, first_command).put & 1 << block != 0
        }
        _ => false,
    }
}
