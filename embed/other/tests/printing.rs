//! The hoard list, by values that were worked out by hand.

use other::{hoard_list, NO_PIECE, STRUCK};

/// A catalogue with these pieces and cells, and 0 in the other cells.
fn catalogue(cells: &[(usize, u32)]) -> [u32; 64] {
    let mut catalogue = [0; 64];
    for &(piece, cell) in cells {
        catalogue[piece] = cell;
    }
    catalogue
}

/// The list holds these pieces, and then what stands for none.
fn lists(catalogue: &[u32; 64], pieces: &[u32]) {
    let mut list = [7; 64];
    assert_eq!(hoard_list(catalogue, &mut list), Ok(pieces.len()));
    assert_eq!(&list[..pieces.len()], pieces);
    assert!(list[pieces.len()..].iter().all(|&cell| cell == 64));
}

/// The call is refused with this number, and the list stays.
fn refuses(catalogue: &[u32], length: usize, number: u32) {
    let mut list = vec![7; length];
    assert_eq!(hoard_list(catalogue, &mut list), Err(number));
    assert_eq!(list, vec![7; length]);
}

#[test]
fn by_hoard_and_then_by_piece() {
    assert_eq!((NO_PIECE, STRUCK), (64, 256));
    let cells = [(0, 9), (5, 9), (6, 3), (17, 255), (40, 1), (62, 3), (63, 9)];
    lists(&catalogue(&cells), &[40, 6, 62, 0, 5, 63, 17]);
}

#[test]
fn struck_and_absent_pieces_are_not_listed() {
    lists(&[0; 64], &[]);
    lists(&[256; 64], &[]);
    lists(&catalogue(&[(0, 256), (1, 255), (2, 1), (63, 256)]), &[2, 1]);
}

#[test]
fn all_pieces_in_one_hoard_and_in_64() {
    let all: Vec<u32> = (0..64).collect();
    lists(&[200; 64], &all);
    let mut falling = [0; 64];
    for (piece, cell) in falling.iter_mut().enumerate() {
        *cell = 64 - piece as u32;
    }
    let last_first: Vec<u32> = (0..64).rev().collect();
    lists(&falling, &last_first);
}

#[test]
fn refusals_in_their_order() {
    for number in [257, 512, 1 << 31, u32::MAX] {
        refuses(&catalogue(&[(0, number)]), 64, 3);
        refuses(&catalogue(&[(63, number)]), 64, 3);
        refuses(&catalogue(&[(63, number)]), 63, 2);
    }
    for length in [0, 63, 65, 128] {
        refuses(&[1; 64], length, 2);
        refuses(&vec![1; length], 64, 2);
        refuses(&vec![257; length], 64, 2);
    }
}
