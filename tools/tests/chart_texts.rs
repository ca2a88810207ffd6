//! The chart's texts: no value is left out, none covers another, titles say what a cell shows, and refusals why.

use simulator::generator::{case, SEED};
use simulator::sheet::{parse, Fault};
use simulator::TOP_LIMIT;
use tools::chart::{draw, Options, Refused, MOST_IN_BAND, MOST_TICKS};
use tools::encode::encode;
use tools::examples::folder;
use tools::names::Names;
use tools::recording::series::all_series;
use tools::recording::Recording;
use tools::source::Source;

fn example(name: &str) -> Vec<u8> {
    std::fs::read(folder().join(format!("{name}.sheet"))).unwrap()
}

fn sheet(text: &str) -> Vec<u8> {
    encode(text).unwrap().bytes
}

fn picture(sheet: &[u8]) -> String {
    draw(sheet, &Options::default()).unwrap()
}

fn refusal(sheet: &[u8], options: Options) -> String {
    draw(sheet, &options).unwrap_err().to_string()
}

fn names(texts: &[&str]) -> Names {
    let mut names = Names::default();
    texts.iter().for_each(|text| names.add(text).unwrap());
    names
}

/// What is drawn with a title: the title, and the elements.
fn titled(picture: &str) -> Vec<(String, &str)> {
    let groups = picture.split("<g><title>").skip(1);
    let parts = groups.map(|group| group.split("</g>").next().unwrap());
    let pairs = parts.map(|part| part.split_once("</title>").unwrap());
    pairs.map(|(title, elements)| (title.replace("&gt;", ">"), elements)).collect()
}

fn titles(picture: &str) -> Vec<String> {
    titled(picture).into_iter().map(|(title, _)| title).collect()
}

/// The texts of a change's lines.
fn lines(elements: &str) -> Vec<&str> {
    let texts = elements.lines().filter(|line| line.starts_with("<text"));
    texts.map(|text| text.split(['<', '>']).nth(2).unwrap()).collect()
}

fn number(element: &str, name: &str) -> f32 {
    let start = element.split(&format!(" {name}=\"")).nth(1).unwrap();
    start.split('"').next().unwrap().parse().unwrap()
}

fn changes(picture: &str) -> Vec<(String, &str)> {
    let is_change = |group: &(String, &str)| group.1.contains("class=\"change\"");
    titled(picture).into_iter().filter(is_change).collect()
}

/// A task that PUTs the highest value to the first `puts` offsets of a block and commits in tick 31.
///
/// LOAD and BEGIN, the first PUT 13 ticks (Load, Look, eight copies, Load, Look, write), each other one 1, then
/// gather, Start, Test, Load, Look, Save, Install, Test: more LOADs in front make up for fewer PUTs.
fn commits_in_tick_31(puts: usize) -> Vec<u8> {
    let loads = "LOAD r1 4294967295\n".repeat(31 - (1 + 13 + (puts - 1) + 8));
    let puts: String = (0..puts).map(|offset| format!("PUT b0 {offset} r1\n")).collect();
    sheet(&format!("BLOCK 7 0 0 0 0 0 0 0 0\nTASK\n{loads}BEGIN\n{puts}COMMIT\nRELEASE 0 t0\nEND"))
}

/// A band of 32 ticks ends with tick 31, whose middle is at 128 + 31 * 14 + 7 = 569.
fn at_the_edge(puts: usize) -> String {
    let options = Options { ticks_in_band: 32, ..Options::default() };
    draw(&commits_in_tick_31(puts), &options).unwrap()
}

/// There are 63 pixels to the right of the mark: the values stand left of it, and end 6 before its middle.
#[test]
fn a_block_that_changes_at_the_right_edge_keeps_its_values() {
    let picture = at_the_edge(2);
    let found = changes(&picture);
    let title = "tick 31, b0: version 7 -> 8, at 0: 0 -> 4294967295, at 1: 0 -> 4294967295";
    assert_eq!((found.len(), found[0].0.as_str()), (1, title));
    assert_eq!(lines(found[0].1), ["version 8, at 0: 4294967295, at 1: 4294967295"]);
    let text = found[0].1.lines().find(|line| line.starts_with("<text")).unwrap();
    assert!(text.contains("class=\"value-before\""));
    assert_eq!(number(text, "x"), 563.0);
}

#[test]
fn more_values_than_fit_one_line_take_a_second() {
    let picture = at_the_edge(8);
    let found = changes(&picture);
    let found = lines(found[0].1);
    assert_eq!(found.len(), 2);
    let values: String = (0..8).map(|offset| format!(", at {offset}: 4294967295")).collect();
    assert_eq!(found.join(" "), format!("version 8{values}"));
    // The second line makes the picture 10 higher, and nothing else differs between 8 and 2 PUTs.
    let height = |picture: &str| number(picture.lines().next().unwrap(), "height");
    assert_eq!(height(&picture), height(&at_the_edge(2)) + 10.0);
}

/// Left, upper, right and lower edge.
type Box = [f32; 4];

fn overlap(one: &Box, other: &Box) -> bool {
    let apart = |axis: usize| one[axis + 2] <= other[axis] || other[axis + 2] <= one[axis];
    !apart(0) && !apart(1)
}

/// The boxes of a change's mark and of its text.
fn boxes(elements: &str) -> [Box; 2] {
    let mark = elements.split("points=\"").nth(1).unwrap().split([',', ' ']);
    let mark: Vec<f32> = mark.take(2).map(|part| part.parse().unwrap()).collect();
    let paper = elements.lines().find(|line| line.contains("class=\"paper\"")).unwrap();
    let [x, y, width, height] = ["x", "y", "width", "height"].map(|name| number(paper, name));
    // The first point of a mark is its upper end.
    [[mark[0] - 4.0, mark[1], mark[0] + 4.0, mark[1] + 8.0], [x, y, x + width, y + height]]
}

/// No mark or text of a change lies over another one or outside the picture.
fn assert_apart(picture: &str) {
    let width = number(picture.lines().next().unwrap(), "width");
    let found: Vec<Box> = changes(picture).iter().flat_map(|group| boxes(group.1)).collect();
    for (index, one) in found.iter().enumerate() {
        assert!(one[0] >= 127.0 && one[2] <= width, "{one:?} of {width}");
        let other = found[index + 1..].iter().find(|other| overlap(one, other));
        assert_eq!(other, None, "{one:?}");
    }
}

/// Each change of the corpus is there with all its values, in bands of several widths.
#[test]
fn no_value_is_left_out_and_none_covers_another() {
    let (mut seen, mut left) = (0, 0);
    for (index, ticks_in_band) in (0..400).zip([60, 32, 7, 45].into_iter().cycle()) {
        let bytes = case(SEED, index).sheet;
        let Ok(parsed) = parse(&bytes) else { continue };
        let options = Options { ticks_in_band, ..Options::default() };
        let picture = draw(&bytes, &options).unwrap();
        assert_apart(&picture);
        let drawn = changes(&picture);
        let mut drawn: Vec<String> = drawn.iter().map(|group| lines(group.1).join(" ")).collect();
        let recording = Recording::new(&parsed, options.limit, options.first, options.last);
        let series = all_series(&recording);
        let full =
            series.iter().flat_map(|one| one.changes.iter().map(|change| change.full.clone()));
        let mut full: Vec<String> = full.collect();
        drawn.sort();
        full.sort();
        assert_eq!(drawn, full);
        seen += full.len();
        let groups = changes(&picture);
        left += groups.iter().filter(|group| group.1.contains("value-before")).count();
    }
    assert!(seen > 500 && left > 20, "{seen}, {left}");
}

/// P5's ticks are named one by one in its text.
#[test]
fn titles_of_p5() {
    let options = Options { names: names(&["t1=upper", "w0=valve"]), ..Options::default() };
    let found = titles(&draw(&example("worked/p5"), &options).unwrap());
    for expected in [
        "before tick 9, t1 upper: a release starts a job",
        "tick 0, t0: LOAD\nThe register takes the number.",
        "ticks 9 to 28, t0: the job is unfinished, a higher task runs",
        "tick 17, t1 upper: Fetch w0 valve\nThe value is fetched from the save place of the task that has the word installed.",
        "tick 19, t1 upper: Mark t0\nThe task that the loaded word names gets status 1.",
        "tick 25, t1 upper: Fail w1\nThe value found is not old: the task's own status becomes 1.",
        "tick 27, t1 upper: Commit\nThe status is 1. The answer is no: no value changes.",
        "tick 31, t0: Clean w0 valve\nThe word is still as installed: it becomes init again.\nThe job ends.",
    ] {
        assert!(found.iter().any(|title| title == expected), "{expected} is not in\n{found:#?}");
    }
    // 32 cells, two releases, one stretch in which t0 is interrupted.
    assert_eq!(found.len(), 32 + 2 + 1);
}

fn with(titles: &[String], text: &str) -> usize {
    titles.iter().filter(|title| title.contains(text)).count()
}

#[test]
fn titles_of_lost_attempts_releases_idle_ticks_and_changes() {
    let contended = titles(&picture(&example("contended-transaction")));
    assert_eq!(
        with(&contended, "\nAn attempt is lost, stale version: the transaction restarts."),
        1
    );
    assert_eq!(
        with(&contended, "\nAn attempt is lost, rejected commit: the transaction restarts."),
        2
    );
    let drops = titles(&picture(&example("worked/drops-of-two-tasks")));
    assert_eq!(with(&drops, "t0: a release is dropped: four wait already"), 2);
    assert_eq!(with(&drops, "t1: a release is dropped: four wait already"), 1);
    assert_eq!(with(&drops, "a release waits: the job is unfinished"), 8);
    assert_eq!(with(&drops, "a release that waited starts its job"), 8);
    let cold_room = titles(&picture(&example("cold-room")));
    assert_eq!(with(&cold_room, "ticks 237 to 239: idle, no task has a job"), 1);
    assert_eq!(with(&cold_room, ", b0: version 7 -> 8, at 0: 31 -> 32"), 1);
    assert_eq!(with(&cold_room, ", w0: 2552 -> 2572"), 1);
    assert_eq!(with(&cold_room, "before tick 240, b0: version 8, values 32 30 0 0 0 0 0 0"), 1);
}

#[test]
fn what_cannot_be_drawn_is_refused_with_a_reason() {
    let room = example("cold-room");
    let options = Options::default;
    let beyond = Options { first: 900, last: 1199, ..options() };
    let reason = "--first 900 lies beyond the run: it has 279 ticks, 0 to 278";
    assert_eq!(refusal(&room, beyond), reason);
    let far = Options { first: u32::MAX, last: u32::MAX, ..options() };
    assert!(refusal(&room, far).starts_with("--first 4294967295 lies beyond the run"));
    let turned = Options { first: 10, last: 5, ..options() };
    assert_eq!(refusal(&room, turned), "--last 5 comes before --first 10");
    let none = Options { ticks_in_band: 0, ..options() };
    assert_eq!(refusal(&room, none), "--band 0: a band has at least one tick");
    let wide = Options { ticks_in_band: MOST_IN_BAND + 1, ..options() };
    let reason = "--band 2001 is too wide for one picture: at most 2000; --html shows a run of any length in one band";
    assert_eq!(refusal(&room, wide), reason);
    let limit = Options { limit: TOP_LIMIT as u32 + 1, ..options() };
    assert_eq!(draw(&room, &limit), Err(Refused::Sheet(Fault { number: 9, place: 0 })));
    let names = names(&["t4=guard", "t5=nobody"]);
    let reason = "there is no task t5, the sheet has 5 (t0 to t4)";
    assert_eq!(refusal(&room, Options { names, ..options() }), reason);
    // The sheet's own faults come first.
    let both = Options { limit: TOP_LIMIT as u32 + 1, ticks_in_band: 0, ..options() };
    assert_eq!(refusal(&[0xFF], both), "X 1 0");
}

/// An idle run of 6,001 ticks, and the highest number of them that is drawn.
#[test]
fn too_many_ticks_are_refused() {
    let sheet = sheet("TASK\nADD r0 r0\nRELEASE 6000 t0\nEND");
    let all = Options { last: u32::MAX, ..Options::default() };
    let reason = "6001 ticks are too many for one picture: at most 5000; choose fewer with --first and --last, \
                  or --html, which shows a run of any length";
    assert_eq!(refusal(&sheet, all.clone()), reason);
    let most = draw(&sheet, &Options { last: MOST_TICKS - 1, ..all }).unwrap();
    assert!(most.contains("Ticks 0 to 4999; the whole run has 6001."));
}

#[test]
fn an_empty_run_is_drawn_as_such() {
    let no_release = sheet("WORD 3\nTASK\nADD r0 r0\nEND");
    assert!(picture(&no_release).contains("No ticks; the whole run has 0."));
    let nothing = Options { limit: 0, ..Options::default() };
    let drawn = draw(&example("cold-room"), &nothing).unwrap();
    assert!(drawn.contains("No ticks; the whole run has 0."));
    assert!(drawn.contains("Unchanged: w0: 2552, w1: 1"));
    let beyond = Options { first: 1, ..nothing };
    let reason = "--first 1 lies beyond the run: it has no ticks";
    assert_eq!(refusal(&example("cold-room"), beyond), reason);
}

/// The lines of the head, which stand at 4 in the classes title and note.
fn head(picture: &str) -> Vec<String> {
    let is_head = |line: &&str| {
        line.starts_with("<text class=\"title\"") || line.starts_with("<text class=\"note\"")
    };
    let lines = picture.lines().filter(is_head);
    lines.map(|line| line.split(['<', '>']).nth(2).unwrap().to_string()).collect()
}

/// The narrowest picture is 640 wide: at size 13 some 100 letters in a line.
#[test]
fn long_titles_and_sources_are_wrapped() {
    let source = Source::Compared { version: "0.7.0".to_string() };
    let options = Options { source: source.clone(), ..Options::default() };
    let found = head(&draw(&example("worked/p5"), &options).unwrap());
    assert_eq!(found[2..found.len() - 1].join(" "), source.sentence());
    let title = "A long title ".repeat(40) + &"x".repeat(300);
    let options = Options { title: title.clone(), ..Options::default() };
    let found = head(&draw(&example("worked/p5"), &options).unwrap());
    let title_lines: Vec<&String> =
        found.iter().take_while(|line| !line.starts_with("Ticks")).collect();
    assert!(title_lines.len() > 8 && title_lines.iter().all(|line| line.len() < 110));
    let letters = |text: &str| text.replace(' ', "");
    let joined: String = title_lines.iter().map(|line| letters(line)).collect();
    assert_eq!(joined, letters(&title));
}

#[test]
fn markup_and_control_characters_do_not_break_the_picture() {
    let title = "a < b & c > d \u{1} \u{7F} \u{FFFE} \u{FFFF}".to_string();
    let picture = draw(&example("worked/p5"), &Options { title, ..Options::default() }).unwrap();
    assert!(picture.contains(">a &lt; b &amp; c &gt; d \u{FFFD} \u{FFFD} \u{FFFD} \u{FFFD}<"));
}
