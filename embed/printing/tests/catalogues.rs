//! Catalogues from seeds, and every length, by the proved call and by the other
//! implementation. After each call the answer, every cell of the list and every cell of
//! the catalogue are compared.

use other::generator::Chance;
use printing::{hoard_list, Error, HoardList, NO_PIECE, PIECES, STRUCK};

/// Catalogues of each mix.
const CATALOGUES: u32 = 40_000;

/// How the cells of a catalogue are drawn: how many of a thousand are entered, how many of
/// the others are struck, and how many hoards there are to choose from.
#[derive(Clone, Copy, Debug)]
struct Mix {
    entered: u32,
    struck: u32,
    hoards: u32,
}

/// Few pieces entered, half, all; few hoards, and all; few pieces struck, and most.
const MIXES: [Mix; 8] = [
    Mix { entered: 30, struck: 100, hoards: 255 },
    Mix { entered: 200, struck: 0, hoards: 255 },
    Mix { entered: 500, struck: 500, hoards: 255 },
    Mix { entered: 500, struck: 500, hoards: 5 },
    Mix { entered: 1_000, struck: 0, hoards: 255 },
    Mix { entered: 1_000, struck: 0, hoards: 20 },
    Mix { entered: 950, struck: 1_000, hoards: 2 },
    Mix { entered: 100, struck: 950, hoards: 255 },
];

/// A catalogue of a mix. Its hoards stand in a row, anywhere from 1 to 255.
fn catalogue(chance: &mut Chance, mix: Mix) -> [u32; PIECES] {
    let from = chance.from_to(1, STRUCK - mix.hoards);
    let mut cell = || match (chance.per_mille(mix.entered), chance.per_mille(mix.struck)) {
        (true, _) => from + chance.below(mix.hoards),
        (false, true) => STRUCK,
        (false, false) => 0,
    };
    [(); PIECES].map(|()| cell())
}

/// Lists a catalogue by both, in so many cells that hold other numbers.
fn listed(catalogue: &[u32], length: usize) -> Result<usize, u32> {
    let lent = catalogue.to_vec();
    let old: Vec<u32> = (0..length as u32).map(|cell| cell ^ 0x5555_5555).collect();
    let (mut mine, mut theirs) = (old.clone(), old.clone());
    let their_answer = other::hoard_list(catalogue, &mut theirs);
    let my_answer = hoard_list(&lent, &mut mine).map_err(Error::number);
    assert_eq!(my_answer, their_answer, "{catalogue:?} in {length} cells");
    assert_eq!(mine, theirs, "{catalogue:?}");
    assert_eq!(lent, catalogue, "the catalogue changed");
    if their_answer.is_err() {
        assert_eq!(mine, old, "a refused call changed the list");
    }
    their_answer
}

#[test]
fn catalogues_of_every_mix() {
    for (place, mix) in MIXES.into_iter().enumerate() {
        let mut counts = [0; PIECES + 1];
        for turn in 0..CATALOGUES {
            let mut chance = Chance::of_run(61 + place as u64, turn);
            let catalogue = catalogue(&mut chance, mix);
            counts[listed(&catalogue, PIECES).expect("no cell is above 256")] += 1;
        }
        let pieces: u64 = (0..).zip(counts).map(|(count, lists)| count * lists).sum();
        println!("{mix:?}: {pieces} pieces");
        // About as many as were asked for.
        let wanted = u64::from(CATALOGUES) * 64 * u64::from(mix.entered) / 1_000;
        assert!(pieces.abs_diff(wanted) <= wanted / 50, "{pieces} pieces and not {wanted}");
    }
}

/// Every number of entered pieces, in two hoards and in any.
#[test]
fn every_number_of_pieces() {
    let mut chance = Chance::new(67);
    for entered in 0..=PIECES {
        for turn in 0..400 {
            let hoards = if turn % 2 == 0 { 2 } else { 255 };
            let mut catalogue = [0; PIECES];
            for cell in &mut catalogue[entered..] {
                *cell = chance.one_of(&[0, STRUCK]);
            }
            for cell in &mut catalogue[..entered] {
                *cell = chance.from_to(1, hoards);
            }
            for last in (1..PIECES).rev() {
                catalogue.swap(last, chance.place(last + 1));
            }
            assert_eq!(listed(&catalogue, PIECES), Ok(entered));
        }
    }
}

/// A cell above 256 at each place, then one more at any place.
#[test]
fn a_cell_above_256_at_each_place() {
    let mut chance = Chance::new(71);
    for number in [257, 258, 511, 512, 65_536, 65_537, 1 << 31, u32::MAX - 255, u32::MAX] {
        for mix in MIXES {
            for at in 0..PIECES {
                let mut catalogue = catalogue(&mut chance, mix);
                catalogue[at] = number;
                assert_eq!(listed(&catalogue, PIECES), Err(3));
                assert_eq!(listed(&catalogue, PIECES - 1), Err(2));
                catalogue[chance.place(PIECES)] = number;
                assert_eq!(listed(&catalogue, PIECES), Err(3));
                assert_eq!(HoardList::of(&catalogue), Err(Error::Cells));
            }
        }
    }
}

/// A catalogue and a list of every length from 0 to 130; in half of the cases the last cell of
/// the catalogue is above 256.
#[test]
fn every_length() {
    let mut chance = Chance::new(73);
    for cells in 0..=130 {
        for length in 0..=130 {
            let spoiled = chance.one_in(2);
            let mut catalogue: Vec<u32> = (0..cells).map(|_| chance.from_to(0, STRUCK)).collect();
            if let (true, Some(cell)) = (spoiled, catalogue.last_mut()) {
                *cell = STRUCK + 1 + chance.below(1_000);
            }
            let answer = listed(&catalogue, length);
            if (cells, length) != (PIECES, PIECES) {
                assert_eq!(answer, Err(2), "{cells} and {length} cells");
            }
        }
    }
}

/// The typed list says what the lent cells say.
#[test]
fn the_typed_list() {
    let mut chance = Chance::new(79);
    for turn in 0..CATALOGUES {
        let catalogue = catalogue(&mut chance, MIXES[turn as usize % MIXES.len()]);
        let mut theirs = [0; PIECES];
        let entered = other::hoard_list(&catalogue, &mut theirs).expect("no cell is above 256");
        let list = HoardList::of(&catalogue).expect("no cell is above 256");
        assert!(list.pieces().iter().map(|&piece| u32::from(piece)).eq(theirs[..entered].to_vec()));
        assert!(theirs[entered..].iter().all(|&cell| cell == NO_PIECE));
        // Hoard by hoard, from the catalogue itself.
        let mut hoards = list.hoards();
        for hoard in 1..STRUCK {
            let pieces = (0..64_u8).filter(|&piece| catalogue[usize::from(piece)] == hoard);
            let pieces: Vec<u8> = pieces.collect();
            if !pieces.is_empty() {
                assert_eq!(hoards.next(), Some((hoard as u8, &pieces[..])));
            }
        }
        assert_eq!(hoards.next(), None);
    }
}

#[test]
fn each_refusal_has_a_text_of_its_own() {
    let texts = [Error::of(2), Error::of(3), Error::of(4)].map(|error| error.to_string());
    for (number, text) in (2..).zip(&texts) {
        assert!(text.ends_with(&format!(" (refusal {number})")), "{text}");
        assert_eq!(Error::of(number).number(), number);
    }
    assert!(texts[0] != texts[1] && texts[2] == "an unknown refusal (refusal 4)");
}
