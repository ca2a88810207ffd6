//! What stands in a page: statements and figures by name, where it comes from, and nothing that a user writes can break it.

#[path = "common/page.rs"]
mod common;

use common::{data, example, page};
use simulator::sheet::{parse, Fault};
use simulator::write;
use simulator::TOP_LIMIT;
use tools::names::Names;
use tools::page::{draw, Options};
use tools::recording::statement::{kind, label, Kind};
use tools::recording::subject::Subject;
use tools::recording::Recording;
use tools::source::Source;

const TOP: u32 = TOP_LIMIT as u32;

/// How many ticks the data says the run has.
fn ticks(page: &str) -> u32 {
    let front = data(page).strip_prefix("{\"ticks\":").unwrap();
    front.split_once(',').unwrap().0.parse().unwrap()
}

#[test]
fn statements_commands_and_kinds_are_named() {
    let page = page(&example("cold-room"));
    let json = data(&page);
    let recording = Recording::new(&parse(&example("cold-room")).unwrap(), TOP, 0, TOP);
    let statements = json.split_once("\"statements\":[[").unwrap().1.split_once("]]").unwrap().0;
    let statements: Vec<&str> = statements.split("],[").collect();
    for done in recording.ticks.iter().filter_map(|tick| tick.done.as_ref()) {
        let kind = Kind::ALL.iter().position(|other| *other == kind(done.statement)).unwrap();
        let front = format!("\"{}\",{kind},\"", label(done.statement));
        assert!(statements[done.statement as usize].starts_with(&front));
    }
    for kind in Kind::ALL {
        assert!(json.contains(kind.colour()) && json.contains(kind.explanation()));
    }
    assert!(json.contains(
        "\"commands\":[\"BEGIN\",\"LOAD r7 1\",\"GET r1 b0 0\",\"ADD r1 r7\",\"PUT b0 0 r1\""
    ));
    assert!(
        json.contains("\"READ r1 w1\"")
            && json.contains("\"PAIR w1 r1 r2\",\"PAIR w2 r2 r1\",\"SWAP r0\"")
    );
}

#[test]
fn title_names_and_source_stand_in_the_page_escaped() {
    let mut names = Names::default();
    names.set(Subject::Task(0), "</script>\"\\ü");
    names.set(Subject::Word(0), "<!--{{style}}&amp;\u{2028}");
    let title = "</script><script>alert('1')</script> & {{run}} \"ü\" <!--".to_string();
    let source = Source::Compared { version: "<1>".to_string() };
    let options = Options { title, names, source, ..Options::default() };
    let page = draw(&example("worked/p5"), &options).unwrap();
    let title = "&lt;/script&gt;&lt;script&gt;alert(&#39;1&#39;)&lt;/script&gt; &amp; {{run}} &quot;ü&quot; &lt;!--";
    assert!(page.contains(&format!("<title>{title}</title>")));
    assert!(page.contains(&format!("<h1>{title}</h1>")));
    assert!(page.contains("(hizgrael &lt;1&gt;), byte for byte.</p>"));
    assert!(page.contains("<th scope=\"row\">t0 &lt;/script&gt;&quot;\\ü</th>"));
    let json = data(&page);
    assert!(json.contains(r#""tasks":["t0 \u003c/script\u003e\"\\ü","t1"]"#));
    assert!(json.contains(r#""words":["w0 \u003c!--{{style}}\u0026amp;\u2028","w1"]"#));
    // Neither the data nor anything else opens or closes a script but the page's own two.
    assert_eq!(page.matches("<script").count(), 2);
    assert_eq!(page.matches("</script").count(), 2);
    assert!(!page.contains("<!--"));
}

#[test]
fn the_page_says_where_it_comes_from_and_the_runs_figures() {
    let page_of = |name: &str, source: Source| {
        draw(&example(name), &Options { source, ..Options::default() }).unwrap()
    };
    let alone = page_of("worked/p5", Source::SecondSimulatorAlone);
    assert!(alone.contains("NOT PROVED: from the second simulator alone;"));
    assert!(alone.contains(
        "32 ticks, 0 idle; 2 tasks; 2 jobs finished, 0 spent; 0 attempts lost; 0 releases dropped."
    ));
    let compared =
        page_of("worked/drops-of-two-tasks", Source::Compared { version: "0.7.0".to_string() });
    assert!(compared.contains(
        &Source::Compared { version: "0.7.0".to_string() }.sentence().replace('\'', "&#39;")
    ));
    assert!(!compared.contains("NOT PROVED"));
    // 66 ticks; 5 jobs each; t0 drops two, t1 one: examples/worked/drops-of-two-tasks.txt.
    assert!(compared
        .contains("66 ticks, 0 idle; 2 tasks; 10 jobs finished, 0 spent; 0 attempts lost; "));
    assert!(compared.contains("; 3 releases dropped (2 of t0, 1 of t1)."));
    let row = |name: &str, cells: &str| format!("<th scope=\"row\">{name}</th>{cells}</tr>");
    assert!(compared.contains(&row("t1", "<td>56</td><td>5</td><td>0</td><td>0</td><td>1</td>")));
    assert!(compared.contains(&row("t0", "<td>10</td><td>5</td><td>0</td><td>0</td><td>2</td>")));
}

#[test]
fn nothing_is_loaded_from_elsewhere() {
    for name in ["cold-room", "worked/p5"] {
        let page = page(&example(name));
        assert!(page.contains(
            "content=\"default-src 'none'; style-src 'unsafe-inline'; script-src 'unsafe-inline'\""
        ));
        for outside in [
            "http:",
            "https:",
            "src=",
            "href=",
            "url(",
            "@import",
            "fetch(",
            "XMLHttpRequest",
            "import(",
        ] {
            assert!(!page.contains(outside), "{outside} in {name}");
        }
    }
}

#[test]
fn the_same_run_gives_the_same_page() {
    let sheet = example("cold-room");
    assert_eq!(page(&sheet), page(&sheet));
}

#[test]
fn faults_and_limits_are_handed_on() {
    let faulty = draw(&[0xFF], &Options { limit: TOP + 1, ..Options::default() });
    assert_eq!(faulty, Err(Fault { number: 1, place: 0 }));
    let sheet = example("worked/p5");
    let too_high = draw(&sheet, &Options { limit: TOP + 1, ..Options::default() });
    assert_eq!(too_high, Err(Fault { number: 9, place: 0 }));
    for limit in [0, 1, 9, 31] {
        let page = draw(&sheet, &Options { limit, ..Options::default() }).unwrap();
        assert_eq!(ticks(&page), limit);
        let plural = if limit == 1 { "" } else { "s" };
        assert!(
            page.contains(&format!("<p id=\"figures\">{limit} tick{plural} (the limit), 0 idle;"))
        );
    }
}

#[test]
fn a_run_without_a_release_has_a_page() {
    let sheet = write::sheet(&[write::task(), write::load(0, 1), write::end()]);
    let page = page(&sheet);
    assert_eq!(ticks(&page), 0);
    assert!(page.contains("<p id=\"figures\">0 ticks, 0 idle; 1 task; 0 jobs finished, 0 spent;"));
}
