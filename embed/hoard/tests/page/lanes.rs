//! The phases of the servers, what the blocks hold, and the drives that are off, after each call.

use other::Sizes;

use crate::common::places::places;
use crate::common::play::{Block, Made, Play};
use crate::common::said::block_words;
use crate::common::speech::command;
use crate::runs::{open, several, slots};
use crate::words::name;

/// What is seen at the right edge of each column: the phase in each row of the servers, for each
/// drive whether it is off, for each block whether it shows what it holds, and then what is written
/// in each bar of a phase and of a block.
const SEEN: &str = r#"(() => {
  const view = document.querySelector(".view:not([hidden])");
  const names = view.querySelector(".names");
  const several = names.querySelectorAll(".slot");
  const lanes = start => [...names.querySelectorAll(".lane")].filter(t => t.textContent.startsWith(start));
  const servers = several.length ? [...several] : lanes("server");
  const blocks = [...names.querySelectorAll(".row:not(.slot)")];
  const drives = lanes("drive").map((_, drive, all) => blocks[drive * blocks.length / all.length]);
  return [...view.querySelectorAll(".event")].map(event => {
    event.scrollIntoView({ block: "nearest", inline: "center" });
    const x = event.querySelector(".hit").getBoundingClientRect().right - 2;
    const at = row => {
      const box = row.getBoundingClientRect();
      return document.elementsFromPoint(x, (box.top + box.bottom) / 2);
    };
    const has = (row, name) => at(row).some(found => found.matches(name)) ? "1" : "0";
    const phase = row => [0, 1, 2, 3].filter(p => has(row, ".p" + p) === "1").join("&");
    // The text of a bar stands behind its rectangle and its edge.
    const text = (row, name) => {
      const next = at(row).find(found => found.matches(name))?.nextElementSibling;
      const last = next?.matches(".edge") ? next.nextElementSibling : next;
      return last?.matches("text") ? last.textContent : "";
    };
    return [
      servers.map(phase).join(""),
      drives.map(row => has(row, ".shade")).join(""),
      blocks.map(row => has(row, ".held")).join(""),
      servers.map(row => text(row, ".phase")).join(";"),
      blocks.map(row => text(row, ".held")).join(";"),
    ].join("|");
  }).join("\n");
})()"#;

/// How many bars begin in the picture.
const EDGES: &str = "document.querySelectorAll('.view:not([hidden]) .steps .edge').length";

/// What is written where a drive is off.
const OFF: &str = "[...document.querySelectorAll('.view:not([hidden]) .steps .off')]\
                   .map(text => text.textContent).join(' ')";

#[test]
fn the_lanes_show_the_state_after_each_call() {
    let (mut bars, mut texts) = (0, 0);
    for (number, play) in several(23).iter().enumerate() {
        let mut browser = open(&format!("lanes-{number}"), &play.text);
        let seen = browser.value(SEEN);
        let mut state = State::of(play);
        assert_eq!(seen.lines().count(), play.made().count());
        for (made, seen) in play.made().zip(seen.lines()) {
            state.take(made);
            let written = state.compare(seen);
            bars += written.len();
            texts += written.iter().filter(|text| !text.is_empty()).count();
        }
        assert_eq!(browser.value(EDGES), state.edges.to_string());
        let off = browser.value(OFF);
        assert!(off.split(' ').all(|words| words == "off" || words.is_empty()), "{off}");
    }
    assert!(3 * texts > 2 * bars, "{texts} texts in {bars} bars");
}

/// A server that has tried a command learns that another was settled, and tells it: its block says
/// both.
#[test]
fn a_block_says_what_was_settled_and_what_was_tried() {
    let text = "room 2 servers 1 drives 1 slots\noffer 0 slot 0 enter piece 1 hoard 1\n\
        recall 0 slot 0 drive 0\nrejoin 0 slot 0 ballot 1\nwrite 0 slot 0 drive 0\n\
        read 0 slot 0 drive 0 of 1\nfinish 0 slot 0\noffer 1 slot 0 enter piece 2 hoard 2\n\
        settle 1 slot 0\nwrite 1 slot 0 drive 0\nwrite 0 slot 0 drive 0\n\
        read 0 slot 0 drive 0 of 1\nwrite 0 slot 0 drive 0\n"
        .to_string()
        + &"offer 1 slot 0 strike piece 3\n".repeat(20);
    let mut browser = open("tried", &text);
    let texts = browser.value(
        "[...document.querySelectorAll('.held.done')].map(bar => \
         bar.parentElement.querySelectorAll('.block')).flatMap(all => [...all])\
         .map(text => text.textContent).filter(text => text.includes('settled')).join('\\n')",
    );
    let both = "mbal 1, bal 1, enter piece 1 hoard 1, settled: enter piece 2 hoard 2";
    assert!(texts.lines().any(|text| text == both), "{texts}");
}

/// What stands in the lanes at a moment.
struct State {
    sizes: Sizes,
    slots: Vec<u32>,
    /// The phase, the ballot and the settled command of each server in each slot that is shown.
    servers: Vec<[u32; 3]>,
    /// The off marks.
    off: u32,
    /// Each block that was written.
    blocks: Vec<Option<Block>>,
    /// How many bars have begun.
    edges: usize,
}

impl State {
    /// The state of a room that was just opened.
    fn of(play: &Play) -> State {
        let (sizes, slots) = (play.sizes, slots(play));
        State {
            sizes,
            servers: vec![[0; 3]; sizes.servers * slots.len()],
            off: 0,
            blocks: vec![None; sizes.drives * sizes.servers],
            edges: sizes.servers * slots.len(),
            slots,
        }
    }

    /// Takes in what a call left.
    fn take(&mut self, made: &Made) {
        self.edges += (made.after.off & !self.off).count_ones() as usize;
        self.off = made.after.off;
        let places = places(made.call);
        for (own, record) in &made.after.servers {
            let place = self.slots.iter().position(|slot| slot == own);
            if let (Some(place), Some(server)) = (place, places.server) {
                let [phase, mbal, .., agreed] = *record;
                let now = [phase, mbal, if phase == 3 { agreed } else { 0 }];
                let own = &mut self.servers[server as usize * self.slots.len() + place];
                self.edges += usize::from(*own != now);
                *own = now;
            }
        }
        if name(made.call) == "write" && made.reply.refusal().is_none() {
            let (drive, owner) = (places.drive.unwrap_or(0), places.owner.unwrap_or(0));
            let own = &mut self.blocks[drive as usize * self.sizes.servers + owner as usize];
            self.edges += usize::from(*own != made.after.block && self.slots.len() == 1);
            *own = made.after.block;
        }
    }

    /// Compares what is seen with the state; what is written in the bars. What a block holds is
    /// shown where the picture is of one slot.
    fn compare<'a>(&self, seen: &'a str) -> Vec<&'a str> {
        let one = self.slots.len() == 1;
        let bit = |is: bool| if is { '1' } else { '0' };
        let phases: String = self.servers.iter().map(|[phase, ..]| phase.to_string()).collect();
        let drives = 0..self.sizes.drives;
        let off: String = drives.map(|drive| bit(self.off >> drive & 1 == 1)).collect();
        let held: String = self.blocks.iter().map(|block| bit(block.is_some() && one)).collect();
        let parts: Vec<&str> = seen.split('|').collect();
        assert_eq!(parts[..3], [phases, off, held], "{seen}");
        let of_servers: Vec<&str> = parts[3].split(';').collect();
        for (text, server) in of_servers.iter().zip(&self.servers) {
            assert!(phase_texts(server).iter().any(|own| own == text), "'{text}' for {server:?}");
        }
        let of_blocks: Vec<&str> = parts[4].split(';').collect();
        let shown = of_blocks.iter().zip(&self.blocks).filter(|_| one);
        let shown = shown.filter_map(|(text, block)| Some((*text, (*block)?)));
        let of_blocks: Vec<&str> = shown.map(|(text, block)| block_text(text, block)).collect();
        of_servers.into_iter().chain(of_blocks).collect()
    }
}

/// The texts that the bar of a phase can have.
fn phase_texts(&[phase, mbal, agreed]: &[u32; 3]) -> Vec<String> {
    let texts = match (phase, agreed) {
        (0, _) => ["phase 0".to_string(), "0".to_string()].to_vec(),
        (3, 1..) => [command(agreed), "settled".to_string(), "3".to_string()].to_vec(),
        _ => {
            let long = format!("phase {phase}, ballot {mbal}");
            [long, format!("{phase}: {mbal}"), phase.to_string()].to_vec()
        }
    };
    // Where none fits there is none.
    texts.into_iter().chain([String::new()]).collect()
}

/// The text of a block's bar, which is one of those that it can have.
fn block_text(text: &str, block: Block) -> &str {
    let [mbal, bal, _, done] = block;
    let mut texts = vec![block_words(block), format!("mbal {mbal}, bal {bal}")];
    texts.extend([format!("{mbal}, {bal}"), String::new()]);
    if done != 0 {
        texts.push(format!("settled: {}", command(done)));
    }
    assert!(texts.iter().any(|own| own == text), "'{text}' for {block:?}");
    text
}
