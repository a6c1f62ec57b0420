//! What a block holds, in words. A command of 0 is none.

use register::Block;

use crate::scenario::command_words;

/// All that a block holds.
pub fn block_words(block: &Block) -> String {
    if is_blank(block) {
        return "a blank block".to_string();
    }
    let &Block { inp, done, .. } = block;
    let tried = if inp == 0 { String::new() } else { format!(", {}", command_words(inp)) };
    let settled = if done == 0 { String::new() } else { format!(", {}", settled(done)) };
    ballots(block) + &tried + &settled
}

/// Whether a block was never written.
pub fn is_blank(block: &Block) -> bool {
    let &Block { mbal, bal, inp, done, .. } = block;
    [mbal, bal, inp, done] == [0; 4]
}

/// The two ballots of a block.
pub fn ballots(block: &Block) -> String {
    format!("mbal {}, bal {}", block.mbal, block.bal)
}

/// The commands of a block: the one tried, and the one settled. Where they are the same it is
/// said once.
pub fn commands(block: &Block) -> String {
    match (block.inp, block.done) {
        (0, 0) => String::new(),
        (tried, 0) => command_words(tried),
        (tried, done) if tried == 0 || tried == done => settled(done),
        (tried, done) => format!("{}, {}", command_words(tried), settled(done)),
    }
}

/// That a command was settled.
pub fn settled(command: u32) -> String {
    format!("settled: {}", command_words(command))
}
