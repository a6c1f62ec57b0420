//! The elements of a picture.

/// A text as it stands in HTML and SVG.
pub fn escaped(text: &str) -> String {
    let mut out = String::with_capacity(text.len());
    for letter in text.chars() {
        match letter {
            '&' => out += "&amp;",
            '<' => out += "&lt;",
            '>' => out += "&gt;",
            '"' => out += "&quot;",
            _ => out.push(letter),
        }
    }
    out
}

/// A rectangle, by its left upper corner.
pub fn rect(class: &str, x: i32, y: i32, width: i32, height: i32) -> String {
    format!("<rect class=\"{class}\" x=\"{x}\" y=\"{y}\" width=\"{width}\" height=\"{height}\"/>")
}

/// A line from one height to another.
pub fn upright(class: &str, x: i32, from: i32, to: i32) -> String {
    format!("<path class=\"{class}\" d=\"M{x} {from}V{to}\"/>")
}

/// An arrow from one height to another; its head has the end as its point.
pub fn arrow(x: i32, from: i32, to: i32) -> String {
    let back = if to > from { -7 } else { 7 };
    let shaft = upright("shaft", x, from, to + back);
    shaft + &format!("<path class=\"head\" d=\"M{x} {to}l-4 {back}h8z\"/>")
}

/// A circle.
pub fn circle(class: &str, x: i32, y: i32, radius: i32) -> String {
    format!("<circle class=\"{class}\" cx=\"{x}\" cy=\"{y}\" r=\"{radius}\"/>")
}

/// A figure drawn from a point.
pub fn figure(class: &str, x: i32, y: i32, path: &str) -> String {
    format!("<path class=\"{class}\" d=\"M{x} {y}{path}\"/>")
}

/// A text that begins at a point.
pub fn text(class: &str, x: i32, y: i32, text: &str) -> String {
    format!("<text class=\"{class}\" x=\"{x}\" y=\"{y}\">{}</text>", escaped(text))
}

/// A text that is read upwards. One that would be higher than `most` is made narrower.
pub fn upwards(class: &str, x: i32, y: i32, words: &str, most: i32) -> String {
    let height = text_width(words);
    let fit = if height > most {
        format!(" textLength=\"{most}\" lengthAdjust=\"spacingAndGlyphs\"")
    } else {
        String::new()
    };
    let place = format!("translate({x} {y}) rotate(-90)");
    format!("<text class=\"{class}\" transform=\"{place}\"{fit}>{}</text>", escaped(words))
}

/// About how wide a text is: its letters have a height of 10 pixels.
pub fn text_width(words: &str) -> i32 {
    // The widest of the usual fonts has 6.3 pixels for a letter on average.
    words.chars().count() as i32 * 63 / 10
}
