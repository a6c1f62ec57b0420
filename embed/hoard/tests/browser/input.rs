//! Mouse and keys, as a person uses them: what a page gets are real events.

use super::json::quoted;
use super::{Browser, DRAWN};

/// Scrolls an element into view and gives "at X Y", the middle of it, or why the mouse doesn't get
/// there. SELECTOR and DRAWN are put in.
const MIDDLE: &str = r#"(async () => {
    const element = document.querySelector(SELECTOR);
    if (!element) return "there is none";
    element.scrollIntoView({ behavior: "instant", block: "center", inline: "center" });
    await DRAWN;
    const box = element.getBoundingClientRect();
    const isShown = element.checkVisibility({ visibilityProperty: true });
    if (!isShown || box.width + box.height === 0) return "it is not shown";
    const x = box.left + box.width / 2, y = box.top + box.height / 2;
    const met = document.elementFromPoint(x, y);
    if (!met) return "its middle can't be scrolled into view";
    if (element.contains(met) || met.contains(element)) return "at " + x + " " + y;
    return "the mouse meets " + met.cloneNode().outerHTML;
})()"#;

/// What there is to tell of a key: its name, its code and the text that it writes.
const KEYS: [(&str, u32, &str); 4] =
    [("Enter", 13, "\r"), ("Escape", 27, ""), ("Tab", 9, ""), (" ", 32, " ")];

impl Browser {
    /// A real mouse click on the middle of the first element that the CSS selector finds, scrolled
    /// into view first. Panics where there is no such element, where it is not shown, or where
    /// another one that is not inside it (nor around it) would get the click. A page to which the
    /// click leads is not waited for.
    pub fn click(&mut self, selector: &str) {
        let place = self.middle(selector);
        self.mouse("mouseMoved", &place);
        let button = format!(r#"{place},"button":"left","clickCount":1"#);
        self.mouse("mousePressed", &button);
        self.mouse("mouseReleased", &button);
    }

    /// A real move of the mouse to the middle of the first element that the CSS selector finds.
    /// Panics as a click does.
    pub fn hover(&mut self, selector: &str) {
        let place = self.middle(selector);
        self.mouse("mouseMoved", &place);
    }

    /// Presses a key: "Enter", "Escape", "Tab".
    pub fn key(&mut self, key: &str) {
        let known = KEYS.iter().find(|known| known.0 == key);
        let (name, code, text) = known.unwrap_or_else(|| panic!("the key {key:?} is not known"));
        let key = format!(r#""key":"{name}","code":"{name}","windowsVirtualKeyCode":{code}"#);
        let text = quoted(text);
        let down = format!(r#"{{"type":"keyDown","text":{text},{key}}}"#);
        self.session.call("Input.dispatchKeyEvent", &down);
        self.session.call("Input.dispatchKeyEvent", &format!(r#"{{"type":"keyUp",{key}}}"#));
    }

    /// The middle of the element, as parameters of a mouse event.
    fn middle(&mut self, selector: &str) -> String {
        let find = MIDDLE.replace("DRAWN", DRAWN).replace("SELECTOR", &quoted(selector));
        let answer = self.value(&find);
        let place = answer.strip_prefix("at ").and_then(|place| place.split_once(' '));
        let (x, y) = place.unwrap_or_else(|| panic!("no mouse gets to {selector}: {answer}"));
        format!(r#""x":{x},"y":{y}"#)
    }

    fn mouse(&mut self, kind: &str, parameters: &str) {
        let event = format!(r#"{{"type":"{kind}",{parameters}}}"#);
        self.session.call("Input.dispatchMouseEvent", &event);
    }
}
