//! What happens in each tick is the second simulator's to tell, and is told only if its report is the
//! proved engine's, byte for byte.

use simulator::Answer;
use tools::quote::cut;
use tools::source::Source;

use crate::engine::{Engine, SecondSimulator};
use crate::VERSION;

/// Why there is nothing to draw.
#[derive(Clone, Debug, PartialEq, Eq)]
pub enum Stop {
    Refused(Answer),
    /// The engines do not say the same.
    Differ(String),
}

/// Runs the sheet with both engines and compares. Where no engine is proved, the source says so.
pub fn source_of(engine: &dyn Engine, sheet: &[u8], limit: u64) -> Result<Source, Stop> {
    let answer = engine.run(sheet, limit);
    if !engine.is_proved() {
        return answer.map(|_| Source::SecondSimulatorAlone).map_err(Stop::Refused);
    }
    let second = SecondSimulator.run(sheet, limit);
    if answer != second {
        return Err(Stop::Differ(difference(&answer, &second)));
    }
    let version = VERSION.to_string();
    answer.map(|_| Source::Compared { version }).map_err(Stop::Refused)
}

/// The check's answer, on which both engines must agree as well.
pub fn check_of(engine: &dyn Engine, sheet: &[u8]) -> Result<Answer, Stop> {
    let answer = engine.check(sheet);
    let second = SecondSimulator.check(sheet);
    if answer == second {
        return Ok(answer);
    }
    Err(Stop::Differ(difference(&Err(answer), &Err(second))))
}

fn difference(proved: &Result<Vec<u8>, Answer>, second: &Result<Vec<u8>, Answer>) -> String {
    let (proved, second) = (printed(proved), printed(second));
    let lines = (1..).zip(padded(&proved).zip(padded(&second)));
    let longest = proved.lines().count().max(second.lines().count());
    let found = lines.take(longest + 1).find(|(_, (one, other))| one != other);
    let (number, (one, other)) = found.unwrap_or((1, ("", "")));
    format!(
        "the two engines differ, so nothing is written: line {number} is '{}' by the proved engine \
         and '{}' by the second simulator; please report it with the sheet",
        cut(one),
        cut(other)
    )
}

fn printed(answer: &Result<Vec<u8>, Answer>) -> String {
    match answer {
        Ok(report) => String::from_utf8_lossy(report).into_owned(),
        Err(Answer { number, place }) => format!("X {number} {place}\n"),
    }
}

/// The lines, then empty ones without end.
fn padded(text: &str) -> impl Iterator<Item = &str> {
    text.lines().chain(std::iter::repeat(""))
}

#[cfg(test)]
mod tests {
    use simulator::Answer;
    use tools::source::Source;

    use super::{check_of, source_of, Stop};
    use crate::engine::{Composer, Engine, SecondSimulator};

    /// Says that it is proved, and changes the answers of the second simulator.
    struct Other {
        run: fn(Vec<u8>) -> Result<Vec<u8>, Answer>,
        check: Answer,
    }

    impl Engine for Other {
        fn is_proved(&self) -> bool {
            true
        }

        fn note(&self) -> String {
            String::new()
        }

        fn check(&self, _: &[u8]) -> Answer {
            self.check
        }

        fn run(&self, sheet: &[u8], limit: u64) -> Result<Vec<u8>, Answer> {
            (self.run)(SecondSimulator.run(sheet, limit)?)
        }

        fn composer(&self) -> Box<dyn Composer> {
            SecondSimulator.composer()
        }
    }

    /// One task that does `ADD r0 r0`: a report of T, R and E line.
    const SHEET: [u8; 9] = [3, 0x11, 0, 0, 4, 0, 0, 0, 5];

    fn source(run: fn(Vec<u8>) -> Result<Vec<u8>, Answer>) -> Result<Source, Stop> {
        source_of(&Other { run, check: Answer { number: 0, place: 0 } }, &SHEET, 9)
    }

    fn differs_with(source: Result<Source, Stop>, part: &str) {
        let Err(Stop::Differ(message)) = source else { panic!("{source:?}") };
        assert!(message.contains(part), "{message}");
    }

    #[test]
    fn a_difference_of_any_kind_is_found() {
        assert!(matches!(source(Ok), Ok(Source::Compared { .. })));
        differs_with(
            source(|mut report| {
                report[2] = b'7';
                Ok(report)
            }),
            "line 1 is 'T 7 1 0 0 1 0' by the proved engine and 'T 0 1 0 0 1 0' by the second",
        );
        differs_with(
            source(|report| Ok([report, b"E 2\n".to_vec()].concat())),
            "line 4 is 'E 2' by the proved engine and '' by the second simulator",
        );
        differs_with(source(|_| Err(Answer { number: 6, place: 1 })), "line 1 is 'X 6 1' by");
        // Not a line, but a byte.
        assert!(source(|mut report| {
            report.pop();
            Ok(report)
        })
        .is_err());
    }

    #[test]
    fn refusals_are_compared_too() {
        let sheet = [3, 0x11, 8, 0];
        let answer = Answer { number: 6, place: 1 };
        let agrees = Other { run: Ok, check: answer };
        assert_eq!(source_of(&agrees, &sheet, 9), Err(Stop::Refused(answer)));
        assert_eq!(check_of(&agrees, &sheet), Ok(answer));
        let differs = Other { run: Ok, check: Answer { number: 6, place: 2 } };
        assert!(matches!(check_of(&differs, &sheet), Err(Stop::Differ(_))));
    }

    #[test]
    fn without_a_proved_engine_there_is_nothing_to_compare() {
        assert_eq!(source_of(&SecondSimulator, &SHEET, 9), Ok(Source::SecondSimulatorAlone));
    }
}
