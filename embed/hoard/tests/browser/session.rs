//! The conversation with a page: commands with their answers, and the events that come in between.

use std::time::{Duration, Instant};

use super::chromium::Chromium;
use super::json::{quoted, Json};

/// How long one wait may take.
const LIMIT: Duration = Duration::from_secs(30);

/// A chromium and the page that commands go to.
pub struct Session {
    chromium: Chromium,
    /// What marks a command as one to the page. Empty as long as there is no page.
    mark: String,
    /// The number of the last command.
    last: u32,
    events: Vec<Json>,
}

impl Session {
    /// A chromium without a page.
    pub fn start() -> Session {
        let chromium = Chromium::start();
        Session { chromium, mark: String::new(), last: 0, events: Vec::new() }
    }

    /// Opens an empty page. Commands go to it from now on.
    pub fn open_page(&mut self) {
        let page = self.call("Target.createTarget", r#"{"url":"about:blank"}"#);
        let id = quoted(page.text("result.targetId").expect("a page has an identifier"));
        let attach = format!(r#"{{"targetId":{id},"flatten":true}}"#);
        let session = self.call("Target.attachToTarget", &attach);
        let id = quoted(session.text("result.sessionId").expect("a session has an identifier"));
        self.mark = format!(r#""sessionId":{id},"#);
    }

    /// Sends a command and waits for its answer, whose result is what it gives. Panics where it is
    /// refused.
    pub fn call(&mut self, method: &str, parameters: &str) -> Json {
        let id = f64::from(self.send(method, parameters));
        let what = format!("an answer to {method} {parameters}");
        let answer = self.wait(&what, |message| message.number("id") == Some(id));
        if let Some(refusal) = answer.text("error.message") {
            panic!("chromium refuses {method} {parameters}: {refusal}");
        }
        answer
    }

    /// Waits until there is such an event, which may have come before.
    pub fn wait_for_event(&mut self, what: &str, is_it: impl Fn(&Json) -> bool) {
        if !self.events.iter().any(&is_it) {
            let event = self.wait(what, is_it);
            self.events.push(event);
        }
    }

    /// Every event that has come, in order.
    pub fn events(&self) -> &[Json] {
        &self.events
    }

    /// Ends chromium, which closes by itself if it still can.
    pub fn end(&mut self) {
        self.mark.clear();
        self.send("Browser.close", "{}");
        self.chromium.end();
    }

    /// Sends a command and gives its number.
    fn send(&mut self, method: &str, parameters: &str) -> u32 {
        self.last += 1;
        let start = format!(r#""id":{},{}"method":"{method}""#, self.last, self.mark);
        self.chromium.send(&format!(r#"{{{start},"params":{parameters}}}"#));
        self.last
    }

    /// Waits for such a message and keeps the events that come before it.
    fn wait(&mut self, what: &str, is_it: impl Fn(&Json) -> bool) -> Json {
        let until = Instant::now() + LIMIT;
        loop {
            let message = Json::read(&self.chromium.receive(until, what));
            if is_it(&message) {
                return message;
            }
            self.keep(message);
        }
    }

    /// Keeps an event. Panics where it is one after which the page gives no answer.
    fn keep(&mut self, event: Json) {
        match event.text("method") {
            Some("Inspector.targetCrashed") => panic!("the page has crashed"),
            Some("Page.javascriptDialogOpening") => {
                panic!("the page asks: {}", event.text("params.message").unwrap_or_default())
            }
            _ => self.events.push(event),
        }
    }
}
