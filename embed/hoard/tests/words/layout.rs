//! Comments, blanks and line ends: what may stand around the words of a line.

use hoard::scenario::Scenario;

/// The scenario that every text here is, and the numbers of its lines in the text.
const WRITTEN: &str = "\
room 2 servers 3 drives 4 slots
limits 1 2 3 4 5 6 7 8
offer 0 slot 1 enter piece 5 hoard 1
drive 2 off
";

/// Texts, and the lines on which the limits and the two calls stand.
const TEXTS: [(&str, [usize; 3]); 9] = [
    (WRITTEN, [2, 3, 4]),
    // No line end at the end.
    (
        "room 2 servers 3 drives 4 slots\nlimits 1 2 3 4 5 6 7 8\n\
         offer 0 slot 1 enter piece 5 hoard 1\ndrive 2 off",
        [2, 3, 4],
    ),
    // Line ends of two characters, also at the end, and not there.
    (
        "room 2 servers 3 drives 4 slots\r\nlimits 1 2 3 4 5 6 7 8\r\n\
         offer 0 slot 1 enter piece 5 hoard 1\r\ndrive 2 off\r\n",
        [2, 3, 4],
    ),
    (
        "room 2 servers 3 drives 4 slots\r\n\r\nlimits 1 2 3 4 5 6 7 8\n\
         offer 0 slot 1 enter piece 5 hoard 1 # a comment\r\ndrive 2 off\r",
        [3, 4, 5],
    ),
    // Comments before the room, between the lines, and behind the words.
    (
        "# room 1 servers 1 drives 1 slots\n#\n\nroom 2 servers 3 drives 4 slots#two\n\
         limits 1 2 3 4 5 6 7 8 #\n# fail 0\noffer 0 slot 1 enter piece 5 hoard 1 ## # of 1\n\
         drive 2 off#on",
        [5, 7, 8],
    ),
    // Blanks and tabs before, between and behind the words.
    (
        "  room 2 servers\t3 drives   4 slots \n\tlimits 1  2 3 4\t\t5 6 7 8\t\n \t \n\
         offer 0 \tslot 1 enter piece 5 hoard 1\t\n    drive 2 off  ",
        [2, 4, 5],
    ),
    // Empty lines.
    (
        "\n\n\nroom 2 servers 3 drives 4 slots\n\nlimits 1 2 3 4 5 6 7 8\n\n\n\
         offer 0 slot 1 enter piece 5 hoard 1\n\ndrive 2 off\n\n\n",
        [6, 9, 11],
    ),
    // Text of other languages in a comment.
    (
        "# \u{43c}\u{43e}\u{43d}\u{435}\u{442}\u{430} \u{2014} \u{1fa99}\n\
         room 2 servers 3 drives 4 slots\nlimits 1 2 3 4 5 6 7 8 # \u{e4}\n\
         offer 0 slot 1 enter piece 5 hoard 1\ndrive 2 off",
        [3, 4, 5],
    ),
    // A comment that does not end.
    (
        "room 2 servers 3 drives 4 slots\nlimits 1 2 3 4 5 6 7 8\n\
         offer 0 slot 1 enter piece 5 hoard 1\ndrive 2 off\n# the end",
        [2, 3, 4],
    ),
];

#[test]
fn what_stands_around_the_words_does_not_matter() {
    for (text, numbers) in TEXTS {
        let scenario = Scenario::read(text).expect(text);
        assert_eq!(scenario.to_string(), WRITTEN, "{text:?}");
        let calls = scenario.lines.iter().map(|&(line, _)| line);
        let limits = scenario.limits.map(|(line, _)| line);
        let found: Vec<usize> = limits.into_iter().chain(calls).collect();
        assert_eq!(found, numbers, "{text:?}");
    }
}
