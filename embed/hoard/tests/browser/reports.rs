//! What a page's events tell: the addresses that it asks for, and its errors.

use super::json::Json;

/// The address that was asked for, where the event is a request or the start of a connection.
pub fn address(event: &Json) -> Option<String> {
    let path = match event.text("method")? {
        "Network.requestWillBeSent" => "params.request.url",
        "Network.webSocketCreated" | "Network.webTransportCreated" => "params.url",
        _ => return None,
    };
    event.text(path).map(str::to_string)
}

/// What went wrong, where the event is an exception that nobody caught or an error on the console:
/// one of the page's script, or one of the browser about the page.
pub fn error(event: &Json) -> Option<String> {
    match event.text("method")? {
        "Runtime.exceptionThrown" => Some(thrown(event.at("params.exceptionDetails"))),
        "Runtime.consoleAPICalled" if is_error(event.text("params.type")) => {
            let written: Vec<String> = event.list("params.args").iter().map(shown).collect();
            Some(written.join(" "))
        }
        "Log.entryAdded" if is_error(event.text("params.entry.level")) => {
            let address = event.text("params.entry.url").unwrap_or_default();
            let text = event.text("params.entry.text").unwrap_or_default();
            Some(format!("{text} {address}"))
        }
        _ => None,
    }
}

/// What was thrown, as text.
pub fn thrown(details: &Json) -> String {
    match details.at("exception") {
        Json::Null => details.text("text").unwrap_or("something without a name").to_string(),
        exception => shown(exception),
    }
}

/// Errors on the console come from console.error, from console.assert and from the browser.
fn is_error(kind: Option<&str>) -> bool {
    matches!(kind, Some("error" | "assert"))
}

/// A value of the page as text. An error's description is its message and where it was thrown.
fn shown(value: &Json) -> String {
    match (value.at("description"), value.at("value")) {
        (Json::Text(description), _) => description.clone(),
        (_, Json::Text(text)) => text.clone(),
        (_, Json::Bool(truth)) => truth.to_string(),
        // Undefined is a type of its own, and null is told by its subtype.
        _ => value.text("subtype").or(value.text("type")).unwrap_or_default().to_string(),
    }
}
