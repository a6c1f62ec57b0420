//! What is to be said of a call, from what the other implementation made of it.

use other::generator::{Call, Reply};
use other::{catalogue, Answer, Sizes, Step, PIECES, STRUCK};

use super::play::{Block, End, Made, Play, Shown, Why};
use super::reason::{reason, settle_reason};
use super::speech;

/// Every line that `hoard run` is to print.
pub fn lines(play: &Play) -> Vec<String> {
    let opening = play.text.lines().take_while(|line| {
        let first = line.split(' ').next();
        first == Some("room") || first == Some("limits")
    });
    let mut lines: Vec<String> = opening.map(|line| format!("     {line}")).collect();
    let (mut number, mut settle) = (0, (0, 0));
    for shown in &play.shown {
        lines.push(match shown {
            &Shown::Begins(server, slot) => {
                settle = (server, slot);
                format!("     {}", speech::settle(server, slot))
            }
            Shown::Made(made) => {
                number += 1;
                call_line(made, number, play.sizes)
            }
            Shown::Ends(end) => format!("     {}", end_words(*end, settle, play.sizes)),
        });
    }
    lines.extend((0..play.sizes.servers as u32).flat_map(|server| table(play, server)));
    lines
}

/// What is to be said of each line that asks for something, and then the catalogues: the answer
/// of a call, and of a settle how it ended.
pub fn answers(play: &Play) -> Vec<String> {
    let mut answers = Vec::new();
    let mut settle = (0, 0);
    for shown in &play.shown {
        match shown {
            &Shown::Begins(server, slot) => settle = (server, slot),
            Shown::Made(made) if made.settling => {}
            Shown::Made(made) => answers.push(answer_of(made, play.sizes)),
            Shown::Ends(end) => answers.push(end_words(*end, settle, play.sizes)),
        }
    }
    let tables = (0..play.sizes.servers as u32).flat_map(|server| table(play, server));
    answers.extend(tables.filter(|line| !line.is_empty()));
    answers
}

/// The line of a call: its number, its words, and its answer in column 53.
fn call_line(made: &Made, number: usize, sizes: Sizes) -> String {
    let words = speech::call(made.call).expect("only calls in words are made");
    let words = if made.settling { format!("  {words}") } else { words };
    format!("{number:4} {words:46} {}", answer_of(made, sizes))
}

/// The answer of a call.
pub fn answer_of(made: &Made, sizes: Sizes) -> String {
    match made.reply {
        Reply::Answer(Answer::Refused(refusal)) => {
            format!("refused: {} ({refusal})", reason(made, sizes, refusal))
        }
        reply => answer(made, reply),
    }
}

/// The answer of a call that is not refused.
fn answer(made: &Made, reply: Reply) -> String {
    match reply {
        Reply::Slot(slot) => format!("slot {slot} is free"),
        Reply::Answer(Answer::Outbid(ballot)) => {
            let Call::Step(Step::Read { server, .. }) = made.call else {
                panic!("only a Read is outbid: {made:?}");
            };
            let own = made.after.servers[0].1[1];
            format!("outbid by ballot {ballot}; server {server} now bids {own}")
        }
        Reply::Answer(Answer::Chosen(command)) => format!("chosen: {}", speech::command(command)),
        Reply::Answer(Answer::Committed(command)) => {
            let learned = if reads(made) { "learned, " } else { "" };
            format!("{learned}committed: {}", speech::command(command))
        }
        Reply::Answer(_) => match (made.call, made.after.block) {
            (Call::Step(Step::Write { .. }), Some(block)) => {
                format!("done: wrote {}", block_words(block))
            }
            (_, Some(block)) => format!("done: found {}", block_words(block)),
            (_, None) => "done".to_string(),
        },
    }
}

/// Whether a call is a Read.
pub fn reads(made: &Made) -> bool {
    matches!(made.call, Call::Step(Step::Read { .. }))
}

/// What a block holds.
pub fn block_words(block: Block) -> String {
    let [mbal, bal, inp, done] = block;
    if block == [0; 4] {
        return "a blank block".to_string();
    }
    let command = |value: u32, before: &str| match value {
        0 => String::new(),
        _ => format!(", {before}{}", speech::command(value)),
    };
    format!("mbal {mbal}, bal {bal}{}{}", command(inp, ""), command(done, "settled: "))
}

/// How a settle ended.
fn end_words(end: End, settle: (u8, u8), sizes: Sizes) -> String {
    let steps = |steps| if steps == 1 { "1 step".to_string() } else { format!("{steps} steps") };
    match end {
        End::Refused(number, _) => {
            format!("refused: {} ({number})", settle_reason(end, settle, sizes))
        }
        End::Settled(count, command) => {
            format!("settled after {}: {}", steps(count), speech::command(command))
        }
        End::None(count, why) => {
            let why = match why {
                Why::Settled => "the slot is settled for this server",
                Why::Nothing => "no command is offered and none was seen",
                Why::Ballot => "no ballot is left",
            };
            format!("no next step after {}: {why}", steps(count))
        }
    }
}

/// The lines of a server's catalogue.
fn table(play: &Play, server: u32) -> Vec<String> {
    let mut cells = [0; PIECES];
    let counts = catalogue(&play.room, server, &mut cells);
    let (taken, skipped) = counts.expect("the room has the server");
    let mut lines =
        vec![String::new(), format!("server {server}: taken {taken}, skipped {skipped}")];
    let pieces: Vec<(usize, u32)> =
        cells.into_iter().enumerate().filter(|&(_, hoard)| hoard != 0).collect();
    if pieces.is_empty() {
        lines.push("  no piece".to_string());
        return lines;
    }
    lines.extend(["  piece | hoard", "  ------+-------"].map(str::to_string));
    lines.extend(pieces.into_iter().map(|(piece, hoard)| {
        let hoard = if hoard == STRUCK { "struck".to_string() } else { hoard.to_string() };
        format!("  {piece:5} | {hoard:>5}")
    }));
    lines
}
