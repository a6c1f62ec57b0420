//! What a call says of the block that it writes or meets, and how a settle ends: whole scenarios
//! with all that is printed, by hand.

use crate::common::program::done;

/// One server settles two slots, and another learns of one.
const LEARNING: &str = "\
room 2 servers 1 drives 2 slots # one drive
put 1 slot 0 enter piece 5 hoard 9
settle 1 slot 0
settle 1 slot 0
write 1 slot 0 drive 0
offer 0 slot 0 strike piece 5
recall 0 slot 0 drive 0
rejoin 0 slot 0 ballot 1
write 0 slot 0 drive 0
read 0 slot 0 drive 0 of 1
settle 0 slot 1
ask 1
";

/// What is printed of it.
const LEARNT: &str = "     room 2 servers 1 drives 2 slots
   1 put 1 slot 0 enter piece 5 hoard 9             done
     settle 1 slot 0
   2   recall 1 slot 0 drive 0                      done: found a blank block
   3   rejoin 1 slot 0 ballot 2                     done
   4   write 1 slot 0 drive 0                       done: wrote mbal 2, bal 0
   5   read 1 slot 0 drive 0 of 0                   done: found a blank block
   6   finish 1 slot 0                              chosen: enter piece 5 hoard 9
   7   write 1 slot 0 drive 0                       done: wrote mbal 2, bal 2, enter piece 5 hoard 9
   8   read 1 slot 0 drive 0 of 0                   done: found a blank block
   9   finish 1 slot 0                              committed: enter piece 5 hoard 9
     settled after 8 steps: enter piece 5 hoard 9
     settle 1 slot 0
     no next step after 0 steps: the slot is settled for this server
  10 write 1 slot 0 drive 0                         done: wrote mbal 2, bal 2, enter piece 5 hoard 9, \
settled: enter piece 5 hoard 9
  11 offer 0 slot 0 strike piece 5                  done
  12 recall 0 slot 0 drive 0                        done: found a blank block
  13 rejoin 0 slot 0 ballot 1                       done
  14 write 0 slot 0 drive 0                         done: wrote mbal 1, bal 0
  15 read 0 slot 0 drive 0 of 1                     learned, committed: enter piece 5 hoard 9
     settle 0 slot 1
  16   recall 0 slot 1 drive 0                      done: found a blank block
  17   rejoin 0 slot 1 ballot 1                     done
  18   write 0 slot 1 drive 0                       done: wrote mbal 1, bal 0
  19   read 0 slot 1 drive 0 of 1                   done: found a blank block
     no next step after 4 steps: no command is offered and none was seen
  20 ask 1                                          slot 1 is free

server 0: taken 1, skipped 0
  piece | hoard
  ------+-------
      5 |     9

server 1: taken 1, skipped 0
  piece | hoard
  ------+-------
      5 |     9
";

/// A server is outbid; a command is struck, and one is skipped.
const OUTBID: &str = "\
room 4 servers 1 drives 3 slots
recall 2 slot 0 drive 0
rejoin 2 slot 0 ballot 7
write 2 slot 0 drive 0
recall 1 slot 0 drive 0
rejoin 1 slot 0 ballot 2
write 1 slot 0 drive 0
read 1 slot 0 drive 0 of 2
put 1 slot 0 enter piece 63 hoard 60
settle 1 slot 0
put 1 slot 1 strike piece 63
settle 1 slot 1
put 1 slot 2 move piece 63 hoard 1
settle 1 slot 2
";

#[test]
fn a_whole_run_is_printed_so() {
    assert_eq!(String::from_utf8_lossy(&done(&["run", "-"], LEARNING.as_bytes())), LEARNT);
}

/// 01: with four servers, server 1 at ballot 2 finds 7 and goes on with 10.
#[test]
fn an_outbid_server_goes_on_with_its_least_ballot_above() {
    let printed = done(&["run", "-"], OUTBID.as_bytes());
    let printed = String::from_utf8_lossy(&printed);
    let line = "   7 read 1 slot 0 drive 0 of 2                     outbid by ballot 7; server 1 \
        now bids 10";
    assert!(printed.lines().any(|found| found == line), "{printed}");
    assert!(printed.contains("\nserver 1: taken 3, skipped 1\n"), "{printed}");
    assert!(printed.contains("\n     63 | struck\n"), "{printed}");
    assert!(printed.contains("\nserver 0: taken 0, skipped 0\n  no piece\n"), "{printed}");
}
