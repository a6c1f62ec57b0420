//! A real browser for tests: Debian's chromium without a window, driven over its debugging pipe.
//! It opens a page from a file, clicks and hovers as a mouse does, shows and prints the page, and
//! tells what the page asks for and what goes wrong in it. It uses no network.

// A test file that takes it in need not use all of it.
#![allow(dead_code)]

mod base64;
mod chromium;
mod input;
mod json;
mod processes;
mod reports;
mod session;

use std::path::Path;

use json::{quoted, Json};
use session::Session;

/// The window in CSS pixels; its width until another one is asked for.
const WIDTH: u32 = 1280;
const HEIGHT: u32 = 800;

/// A promise that is kept once the fonts are there and what has changed so far is drawn.
const DRAWN: &str = "document.fonts.ready.then(() => new Promise(drawn => \
                     requestAnimationFrame(() => requestAnimationFrame(drawn))))";

/// A browser with one page. Dropping it closes it.
pub struct Browser {
    session: Session,
}

impl Browser {
    /// Starts chromium and opens a page, until all that the page shows at first is there. Panics
    /// with a clear sentence where chromium is missing or doesn't start.
    pub fn open(page: &Path) -> Browser {
        let file = page.canonicalize();
        let file = file.unwrap_or_else(|error| panic!("no page {}: {error}", page.display()));
        let mut browser = Browser { session: Session::start() };
        browser.session.open_page();
        for domain in ["Page", "Runtime", "Network", "Log", "Inspector"] {
            browser.session.call(&format!("{domain}.enable"), "{}");
        }
        browser.session.call("Page.setLifecycleEventsEnabled", r#"{"enabled":true}"#);
        browser.session.call("Emulation.setFocusEmulationEnabled", r#"{"enabled":true}"#);
        browser.resize(WIDTH);
        browser.load(&address(&file));
        browser
    }

    /// What a JavaScript expression gives, as text (String(...)). A promise is waited for. Panics
    /// with the message where it throws.
    pub fn value(&mut self, expression: &str) -> String {
        let code = quoted(&format!("(async () => String(await (\n{expression}\n)))()"));
        let parameters = format!(r#"{{"expression":{code},"awaitPromise":true}}"#);
        let answer = self.session.call("Runtime.evaluate", &parameters);
        match answer.at("result.exceptionDetails") {
            Json::Null => answer.text("result.result.value").expect("a text").to_string(),
            details => panic!("{expression} throws {}", reports::thrown(details)),
        }
    }

    /// The page as it would be printed ("print") or shown ("screen"), with the window this wide in
    /// CSS pixels.
    pub fn media(&mut self, media: &str, width: u32) {
        let name = match media {
            "print" => "print",
            // Without a name, the page is shown as on a screen and is still printed as on paper.
            "screen" => "",
            _ => panic!("the media are \"print\" and \"screen\", not {media:?}"),
        };
        let parameters = format!(r#"{{"media":"{name}"}}"#);
        self.session.call("Emulation.setEmulatedMedia", &parameters);
        self.resize(width);
        self.value(DRAWN);
    }

    /// A picture of what is seen, as PNG bytes.
    pub fn picture(&mut self) -> Vec<u8> {
        let answer = self.session.call("Page.captureScreenshot", r#"{"format":"png"}"#);
        base64::bytes(answer.text("result.data").expect("a picture"))
    }

    /// The page printed, as the bytes of a PDF, with the page's own size and margins
    /// (preferCSSPageSize). As on paper, backgrounds are left out that the page doesn't insist on.
    pub fn pdf(&mut self) -> Vec<u8> {
        let answer = self.session.call("Page.printToPDF", r#"{"preferCSSPageSize":true}"#);
        base64::bytes(answer.text("result.data").expect("a document"))
    }

    /// Every address that the page has asked for since it was opened, the page's own first: to show
    /// that it needs no network. What a worker asks for isn't among them, but the worker is.
    pub fn requests(&mut self) -> Vec<String> {
        self.catch_up();
        self.session.events().iter().filter_map(reports::address).collect()
    }

    /// What the page's script has thrown or written to the console as an error since it was opened,
    /// and what the browser has written there as one, as about a file that is missing.
    pub fn errors(&mut self) -> Vec<String> {
        self.catch_up();
        self.session.events().iter().filter_map(reports::error).collect()
    }

    /// Takes in what has happened so far: it is told before the answer to a question of now.
    fn catch_up(&mut self) {
        self.value("0");
    }

    fn resize(&mut self, width: u32) {
        let size = format!(r#""width":{width},"height":{HEIGHT}"#);
        let parameters = format!(r#"{{{size},"deviceScaleFactor":1,"mobile":false}}"#);
        self.session.call("Emulation.setDeviceMetricsOverride", &parameters);
    }

    /// Goes to an address and waits until the page is loaded and drawn.
    fn load(&mut self, address: &str) {
        let parameters = format!(r#"{{"url":{}}}"#, quoted(address));
        let answer = self.session.call("Page.navigate", &parameters);
        if let Some(error) = answer.text("result.errorText") {
            panic!("chromium can't open {address}: {error}");
        }
        let loader = answer.text("result.loaderId").expect("a load has an identifier");
        let is_loaded = |event: &Json| {
            event.text("method") == Some("Page.lifecycleEvent")
                && event.text("params.name") == Some("load")
                && event.text("params.loaderId") == Some(loader)
        };
        self.session.wait_for_event(&format!("the load of {address}"), is_loaded);
        self.value(DRAWN);
    }
}

impl Drop for Browser {
    fn drop(&mut self) {
        self.session.end();
    }
}

/// The address of a file. Bytes that may mean something else in an address are escaped.
fn address(file: &Path) -> String {
    let escape = |&byte: &u8| match byte {
        b'/' | b'-' | b'.' | b'_' | b'~' => char::from(byte).to_string(),
        _ if byte.is_ascii_alphanumeric() => char::from(byte).to_string(),
        _ => format!("%{byte:02X}"),
    };
    let path: String = file.as_os_str().as_encoded_bytes().iter().map(escape).collect();
    format!("file://{path}")
}
