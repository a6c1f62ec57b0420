//! The help texts: of the program, of each command, and of each word of a scenario.

use crate::common::program::done;

/// The form of each line of a scenario, by its first word.
const FORMS: [&str; 14] = [
    "room SERVERS servers DRIVES drives SLOTS slots",
    "limits LIMIT LIMIT LIMIT LIMIT LIMIT LIMIT LIMIT LIMIT",
    "offer SERVER slot SLOT COMMAND",
    "recall SERVER slot SLOT drive DRIVE",
    "rejoin SERVER slot SLOT ballot BALLOT",
    "bid SERVER slot SLOT ballot BALLOT",
    "write SERVER slot SLOT drive DRIVE",
    "read SERVER slot SLOT drive DRIVE of OTHER",
    "finish SERVER slot SLOT",
    "fail SERVER",
    "drive DRIVE SWITCH",
    "ask SERVER",
    "put SERVER slot SLOT COMMAND",
    "settle SERVER slot SLOT",
];

/// What a command is in a scenario.
const COMMANDS: [&str; 4] = [
    "enter piece PIECE hoard HOARD",
    "move piece PIECE hoard HOARD",
    "strike piece PIECE",
    "number NUMBER",
];

/// The usage of each command, and its options.
const USAGES: [(&str, &str, &[&str]); 4] = [
    ("run", "hoard run FILE", &[]),
    ("show", "hoard show FILE [-o PAGE] [--svg]", &["-o PAGE", "--svg"]),
    ("bytes", "hoard bytes FILE [-o BYTES] [--hex]", &["-o BYTES", "--hex"]),
    ("words", "hoard words BYTES [-o FILE] [--hex]", &["-o FILE", "--hex"]),
];

/// A help text, on standard output with status 0.
fn text(arguments: &[&str]) -> String {
    let text = String::from_utf8(done(arguments, b"")).expect("a help text is text");
    assert!(text.ends_with('\n') && !text.ends_with("\n\n"), "{text:?}");
    let wide = text.lines().find(|line| line.chars().count() > 99);
    assert_eq!(wide, None);
    text
}

/// Asserts that a text has a line that begins so, blanks aside.
fn has(text: &str, begin: &str) {
    assert!(text.lines().any(|line| line.trim_start().starts_with(begin)), "{begin}: {text}");
}

#[test]
fn the_program_says_what_there_is() {
    let help = text(&["--help"]);
    assert!(USAGES.iter().all(|(_, usage, _)| help.contains(usage)), "{help}");
    FORMS.iter().chain(&COMMANDS).for_each(|line| has(&help, line));
    assert!(help.contains("--help") && help.contains('#'), "{help}");
    let status = help.split("The status is").nth(1).expect("it says what the status is");
    assert!(["0", "1", "2"].into_iter().all(|number| status.contains(number)), "{help}");
    assert_eq!(text(&["-h"]), help);
    assert_eq!(text(&["help"]), help);
}

#[test]
fn each_command_says_what_it_does() {
    for (word, usage, options) in USAGES {
        let help = text(&[word, "--help"]);
        assert_eq!(text(&["help", word]), help);
        has(&help, &format!("usage: {usage}"));
        options.iter().for_each(|option| has(&help, option));
        assert_eq!(text(&[word, "-h"]), help);
        // Whatever else stands there, a help text is what is asked for.
        assert_eq!(text(&[word, "a file that is not there", "--help"]), help);
    }
}

#[test]
fn each_word_of_a_scenario_says_what_it_does() {
    for form in FORMS {
        let word = form.split(' ').next().expect("a form has words");
        let help = text(&[word, "--help"]);
        assert_eq!(text(&["help", word]), help);
        has(&help, &format!("line of a scenario: {form}"));
        // What it does stands behind the form.
        assert!(help.lines().count() > 2, "{help}");
        let commands = COMMANDS.iter().filter(|&&command| help.contains(command)).count();
        let all = if form.ends_with("COMMAND") { COMMANDS.len() } else { 0 };
        assert_eq!(commands, all, "{help}");
        assert_eq!(text(&[word, "-h"]), help);
    }
}

/// The words of a command have one help text, with the lines in which a command stands.
#[test]
fn each_word_of_a_command_says_what_it_is() {
    for word in COMMANDS.map(|command| command.split(' ').next().expect("a command has words")) {
        let help = text(&[word, "--help"]);
        assert_eq!(text(&["help", word]), help);
        has(&help, "line of a scenario: offer SERVER slot SLOT COMMAND");
        has(&help, "line of a scenario: put SERVER slot SLOT COMMAND");
        COMMANDS.iter().for_each(|command| has(&help, command));
    }
}

/// The help texts name the ranges that the register has.
#[test]
fn the_ranges_are_named() {
    let room = text(&["room", "--help"]);
    for range in ["1 to 4 servers", "1 to 7 drives", "1 to 16 slots"] {
        assert!(room.contains(range), "{room}");
    }
    let limits = text(&["limits", "--help"]);
    assert!(limits.contains("from 1 to 255") && limits.contains("255 255 200 200 120 120 60 60"));
}
