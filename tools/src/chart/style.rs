//! The chart's style sheet: text, lines and colours.

use crate::recording::statement::Kind;

const STYLE: &str = "
text { font-family: Helvetica, Arial, 'Liberation Sans', 'DejaVu Sans', sans-serif;
       font-size: 8.5px; fill: #000; }
.title { font-size: 13px; font-weight: bold; }
.legend, .note { font-size: 9.5px; }
.number { text-anchor: middle; }
.task { font-weight: bold; }
.value-before { text-anchor: end; }
.idle-text { text-anchor: middle; fill: #444; }
.dark-word, .value, .margin { fill: #000; }
.light-word { fill: #fff; }
.paper { fill: #fff; }
.grid { stroke: #ccc; stroke-width: 0.7; }
.row-line { stroke: #bbb; stroke-width: 0.7; }
.idle { fill: #ececec; }
.plain, .read, .prepare, .values, .write-word, .fails, .commit { stroke: #333; stroke-width: 0.6; }
.write-nothing { stroke: #c2410c; stroke-width: 1.6; stroke-dasharray: 3 2; }
.arrow { stroke: #000; stroke-width: 1; fill: #000; }
.dropped { stroke: #888; fill: #888; }
.cross { stroke: #000; stroke-width: 1.6; }
.bar { stroke: #000; stroke-width: 2; }
.change, .yes { fill: #000; }
.no { fill: #fff; stroke: #000; stroke-width: 1.4; }
.back { stroke: #000; stroke-width: 1.2; }
.back-head, .job-end { fill: #000; }
.preempted { stroke: #555; stroke-width: 1.4; stroke-dasharray: 2 3; }
.hit { fill: none; pointer-events: all; }
.level { stroke: #999; stroke-width: 0.8; }
";

/// The whole style sheet.
pub fn style() -> String {
    let fill = |kind: Kind| format!(".{} {{ fill: {}; }}\n", kind.class(), kind.colour());
    let fills: String = Kind::ALL.into_iter().map(fill).collect();
    format!("{STYLE}{fills}")
}
