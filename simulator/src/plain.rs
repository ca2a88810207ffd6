//! The plain machine of 'Demand 3 in full', and the check of a whole run against it.

use crate::history::{History, Kind, Operation};
use crate::machine::Pair;
use crate::report;
use crate::run_observed;
use crate::sheet::{self, Block, Command, Sheet, REGISTERS};

/// Does a whole operation at once, and nothing else.
struct Plain<'a> {
    sheet: &'a Sheet,
    words: Vec<u32>,
    blocks: Vec<Block>,
}

impl Plain<'_> {
    fn read(&self, word: u8) -> u32 {
        self.words[usize::from(word)]
    }

    fn differs(&self, pairs: &[Pair]) -> bool {
        pairs.iter().any(|pair| self.read(pair.word) != pair.old)
    }

    fn write_new_values(&mut self, pairs: &[Pair]) {
        for pair in pairs {
            self.words[usize::from(pair.word)] = pair.new;
        }
    }

    /// Does the commands up to COMMIT and returns what the GETs answered.
    fn transaction(&mut self, mut registers: [u32; REGISTERS], first_command: usize) -> Vec<u32> {
        let mut copies: Vec<Option<[u32; 8]>> = vec![None; self.blocks.len()];
        let mut answers = Vec::new();
        for command in &self.sheet.commands[first_command..] {
            match *command {
                Command::Load { register, value } => registers[usize::from(register)] = value,
                Command::Add { register, other } => {
                    let sum = registers[usize::from(register)]
                        .wrapping_add(registers[usize::from(other)]);
                    registers[usize::from(register)] = sum;
                }
                Command::Get { register, block, offset } => {
                    let block = usize::from(block);
                    let values = copies[block].unwrap_or(self.blocks[block].values);
                    let answer = values[usize::from(offset)];
                    registers[usize::from(register)] = answer;
                    answers.push(answer);
                }
                Command::Put { block, offset, register } => {
                    let block = usize::from(block);
                    let copy = copies[block].get_or_insert(self.blocks[block].values);
                    copy[usize::from(offset)] = registers[usize::from(register)];
                }
                _ => break,
            }
        }
        for (block, copy) in self.blocks.iter_mut().zip(copies) {
            if let Some(values) = copy {
                *block = Block { version: block.version + 1, values };
            }
        }
        answers
    }
}

/// Runs the sheet and checks demand 3 and the rates. A sheet or limit that is turned down passes.
pub fn whole_operations(sheet: &[u8], limit: u64) -> Result<(), String> {
    let mut history = History::new();
    let (Ok(parsed), Ok(report)) = (sheet::parse(sheet), run_observed(sheet, limit, &mut history))
    else {
        return Ok(());
    };
    check_rates(&history)?;
    check_jobs(&history)?;
    let order = order(&history);
    check_places(&order)?;
    let mut plain =
        Plain { sheet: &parsed, words: parsed.words.clone(), blocks: parsed.blocks.clone() };
    for operation in &order {
        check_answers(&mut plain, operation, &history)?;
    }
    let contents = report::contents(&plain.words, &plain.blocks);
    if report.starts_with(&contents) {
        Ok(())
    } else {
        Err(format!("the plain machine ends with\n{contents}and the run with\n{report}"))
    }
}

fn order(history: &History) -> Vec<&Operation> {
    let stands = |operation: &&Operation| operation.stands_in_order();
    let mut order: Vec<&Operation> = history.operations.iter().filter(stands).collect();
    order.sort_by_key(|operation| operation.place);
    order
}

/// Every place lies inside its operation, and what ended before another began stands before it.
fn check_places(order: &[&Operation]) -> Result<(), String> {
    let mut latest_first = 0;
    let mut previous = None;
    for operation in order {
        let place = operation.place.ok_or_else(|| format!("no place: {operation:?}"))?;
        let last = operation.span.last.unwrap_or(u32::MAX);
        if place < operation.span.first || last < place {
            return Err(format!("its place lies outside: {operation:?}"));
        }
        if previous.replace(place) == Some(place) {
            return Err(format!("two operations have one place: {operation:?}"));
        }
        if last < latest_first {
            return Err(format!("stands after one that began after its end: {operation:?}"));
        }
        latest_first = latest_first.max(operation.span.first);
    }
    Ok(())
}

fn check_answers(
    plain: &mut Plain,
    operation: &Operation,
    history: &History,
) -> Result<(), String> {
    let fault = |found: String| Err(format!("the plain machine {found}: {operation:?}"));
    match &operation.kind {
        Kind::Read { word, answer } => {
            let found = plain.read(*word);
            if *answer != Some(found) {
                return fault(format!("reads {found}"));
            }
        }
        Kind::Swap { answer } => {
            let pairs = &operation.exchanges[0].pairs;
            let yes = answer.unwrap_or(operation.committed);
            let differs = plain.differs(pairs);
            if yes && differs {
                return fault("answers no".to_string());
            }
            if !yes && !differs && !has_free_no(operation, history) {
                return fault("answers yes".to_string());
            }
            if yes {
                plain.write_new_values(pairs);
            }
        }
        Kind::Transaction { registers, first_command, answers, .. } => {
            let found = plain.transaction(*registers, *first_command);
            if *answers != found {
                return fault(format!("gets {found:?}"));
            }
        }
    }
    Ok(())
}

/// Inside the SWAP a higher task began an exchange with a changing pair on a word it names.
fn has_free_no(swap: &Operation, history: &History) -> bool {
    let named = |word| swap.exchanges[0].pairs.iter().any(|pair| pair.word == word);
    let operations = &history.operations;
    // Operations are kept in the order in which they began, and a SWAP's exchange begins with it.
    let start = operations.partition_point(|other| other.span.first <= swap.span.first);
    operations[start..]
        .iter()
        .take_while(|other| swap.span.holds_inside(other.span.first))
        .filter(|other| other.task > swap.task && matches!(other.kind, Kind::Swap { .. }))
        .flat_map(|other| &other.exchanges)
        .any(|exchange| exchange.pairs.iter().any(|pair| pair.changes() && named(pair.word)))
}

/// Every operation lies inside one job: its task has started one, and starts none before its end.
fn check_jobs(history: &History) -> Result<(), String> {
    for operation in &history.operations {
        let (first, last) = (operation.span.first, operation.span.last.unwrap_or(u32::MAX));
        let own = history.releases.iter().filter(|release| release.task == operation.task);
        let starts: Vec<u32> = own.filter_map(|release| release.started).collect();
        if !starts.iter().any(|&start| start <= first) {
            return Err(format!("its job has not started: {operation:?}"));
        }
        if starts.iter().any(|&start| first < start && start <= last) {
            return Err(format!("another job of its task starts inside: {operation:?}"));
        }
    }
    Ok(())
}

/// A READ takes 2 or 3 ticks of its own, an exchange of k words at most 9k + 4.
fn check_rates(history: &History) -> Result<(), String> {
    for operation in &history.operations {
        let is_read = matches!(operation.kind, Kind::Read { .. });
        let ended = operation.span.last.is_some();
        if is_read && ended && !(2..=3).contains(&operation.span.own_ticks()) {
            return Err(format!("a READ took too few or too many ticks: {operation:?}"));
        }
        for exchange in &operation.exchanges {
            let most = 9 * exchange.pairs.len() as u32 + 4;
            if exchange.span.last.is_some() && exchange.span.own_ticks() > most {
                return Err(format!("an exchange took more than {most} ticks: {exchange:?}"));
            }
        }
    }
    Ok(())
}
