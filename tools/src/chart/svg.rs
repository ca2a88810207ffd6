//! The few SVG elements that the chart is made of.

use std::fmt::Write;

/// A picture under construction. Positions and sizes are in pixels; classes are those of the style.
#[derive(Default)]
pub struct Svg {
    elements: String,
}

impl Svg {
    pub fn new() -> Svg {
        Svg::default()
    }

    fn element(&mut self, element: std::fmt::Arguments<'_>) {
        // Writing into a String cannot fail.
        let _ = writeln!(self.elements, "{element}");
    }

    /// What is drawn here shows the title where the pointer rests on it.
    pub fn titled(&mut self, title: &str, draw: impl FnOnce(&mut Svg)) {
        let title = escaped(title);
        self.element(format_args!("<g><title>{title}</title>"));
        draw(self);
        self.element(format_args!("</g>"));
    }

    pub fn rectangle(&mut self, class: &str, x: f32, y: f32, width: f32, height: f32) {
        self.element(format_args!(
            r#"<rect class="{class}" x="{x}" y="{y}" width="{width}" height="{height}"/>"#
        ));
    }

    pub fn line(&mut self, class: &str, from: (f32, f32), to: (f32, f32)) {
        let ((x1, y1), (x2, y2)) = (from, to);
        self.element(format_args!(
            r#"<line class="{class}" x1="{x1}" y1="{y1}" x2="{x2}" y2="{y2}"/>"#
        ));
    }

    pub fn circle(&mut self, class: &str, x: f32, y: f32, radius: f32) {
        self.element(format_args!(r#"<circle class="{class}" cx="{x}" cy="{y}" r="{radius}"/>"#));
    }

    pub fn polygon(&mut self, class: &str, points: &[(f32, f32)]) {
        let points: Vec<String> = points.iter().map(|(x, y)| format!("{x},{y}")).collect();
        let points = points.join(" ");
        self.element(format_args!(r#"<polygon class="{class}" points="{points}"/>"#));
    }

    pub fn text(&mut self, class: &str, x: f32, y: f32, text: &str) {
        let text = escaped(text);
        self.element(format_args!(r#"<text class="{class}" x="{x}" y="{y}">{text}</text>"#));
    }

    /// Text no wider than the room, in a smaller size where it would not fit.
    pub fn fitted_text(&mut self, class: &str, x: f32, y: f32, room: f32, text: &str) {
        let size = size_attribute(text, room);
        let text = escaped(text);
        self.element(format_args!(r#"<text class="{class}"{size} x="{x}" y="{y}">{text}</text>"#));
    }

    /// Text that runs upwards from (x, y), fitted to the room.
    pub fn upward_text(&mut self, class: &str, x: f32, y: f32, room: f32, text: &str) {
        let size = size_attribute(text, room);
        let text = escaped(text);
        self.element(format_args!(
            r#"<text class="{class}"{size} transform="translate({x} {y}) rotate(-90)">{text}</text>"#
        ));
    }

    /// The whole file.
    pub fn finish(&self, width: f32, height: f32, style: &str) -> String {
        format!(
            r#"<svg xmlns="http://www.w3.org/2000/svg" width="{width}" height="{height}" viewBox="0 0 {width} {height}">
<style>{style}</style>
<rect class="paper" x="0" y="0" width="{width}" height="{height}"/>
{}</svg>
"#,
            self.elements
        )
    }
}

/// The size of text where there is room; the style has it too.
pub const TEXT_SIZE: f32 = 8.5;

fn size_attribute(text: &str, room: f32) -> String {
    let size = fitted_size(text, room);
    if size == TEXT_SIZE {
        String::new()
    } else {
        format!(r#" style="font-size: {size}px""#)
    }
}

/// The size in which the text is no wider than the room, rounded down to tenths.
fn fitted_size(text: &str, room: f32) -> f32 {
    let fitting = TEXT_SIZE * room / text_width(text, TEXT_SIZE);
    TEXT_SIZE.min((fitting * 10.0).floor() / 10.0)
}

/// The text, or as much of its front as fits the room.
pub fn shortened(text: &str, room: f32) -> String {
    let mut short = text.to_string();
    while text_width(&short, TEXT_SIZE) > room && short.pop().is_some() {}
    if short.len() < text.len() {
        short.pop();
        short.push('…');
    }
    short
}

/// How wide a text is in a common sans-serif font, rather more than less.
pub fn text_width(text: &str, size: f32) -> f32 {
    let width = |letter: char| match letter {
        'i' | 'l' | 'j' | 'I' => 0.3,
        't' | 'f' | ' ' | '.' | ',' | ':' => 0.4,
        'w' => 0.82,
        'm' | 'M' | 'W' => 0.99,
        'A'..='Z' => 0.72,
        ' '..='~' => 0.64,
        _ => 1.0,
    };
    size * text.chars().map(width).sum::<f32>()
}

/// The text in lines that fit the room, broken between words; a word that does not fit is broken too.
pub fn wrapped(text: &str, size: f32, room: f32) -> Vec<String> {
    let mut lines = vec![String::new()];
    for letter in text.chars() {
        let last = lines.len() - 1;
        if text_width(&lines[last], size) + text_width(letter.encode_utf8(&mut [0; 4]), size) > room
        {
            let break_at = lines[last].rfind(' ').map_or(lines[last].len(), |space| space + 1);
            let rest = lines[last].split_off(break_at);
            lines.push(rest);
        }
        if let Some(line) = lines.last_mut() {
            line.push(letter);
        }
    }
    lines.iter().map(|line| line.trim_end().to_string()).collect()
}

/// The text as XML has it: control characters, which it may not hold, are replaced.
fn escaped(text: &str) -> String {
    let text = text.replace('&', "&amp;").replace('<', "&lt;").replace('>', "&gt;");
    text.replace(cannot_stand, "\u{FFFD}")
}

/// Characters that XML does not take, or that a reader does not see.
fn cannot_stand(letter: char) -> bool {
    letter != '\n' && (letter.is_control() || matches!(letter, '\u{FFFE}' | '\u{FFFF}'))
}
