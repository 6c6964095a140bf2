//! Removals that leave their records pending, and confirmations that free them, told call by call on the proved book, in memory and in a
//! buffer.
mod calls;
mod programs;
mod reference;

use calls::{play, play_told, Call, CONFIRM, GRANT, HOLDER, REMOVE, SHOW};

/// Case T7 of the rules, and what is answered before its confirmation and about it.
#[test]
fn case_t7() {
    let told: [(&[u16], &str); 19] = [
        (&[GRANT, 0, 2, 0, 0], "0 1"),
        (&[GRANT, 2, 3, 0, 0], "0 2"),
        (&[GRANT, 1, 3, 0, 0], "11"),
        (&[CONFIRM, 1], "23"),
        (&[REMOVE, 1], "0"),
        (&[GRANT, 0, 1, 0, 0], "11"),
        (&[HOLDER, 0, 0], "0 2 1"),
        (&[SHOW, 1], "15"),
        (&[REMOVE, 1], "15"),
        (&[CONFIRM, 0], "14"),
        (&[CONFIRM, 3], "14"),
        (&[CONFIRM, 1], "0"),
        (&[CONFIRM, 1], "24"),
        (&[HOLDER, 0, 0], "0 0 0"),
        (&[GRANT, 0, 2, 1, 0], "11"),
        (&[GRANT, 0, 1, 0, 0], "0 3"),
        (&[SHOW, 1], "15"),
        (&[SHOW, 4], "14"),
        (&[SHOW, 3], "0 0 1 0 0"),
    ];
    play_told(4, 1, &told, "live 2 grants 3");
}

/// A removed seam way holds the links on both sides of node 0, and a confirmation frees them all.
#[test]
fn both_sides_of_node_0() {
    let told: [(&[u16], &str); 13] = [
        (&[GRANT, 3, 1, 1, 0], "0 1"),
        (&[REMOVE, 1], "0"),
        (&[HOLDER, 0, 0], "0 2 1"),
        (&[HOLDER, 1, 0], "0 0 0"),
        (&[HOLDER, 2, 0], "0 0 0"),
        (&[HOLDER, 3, 0], "0 2 1"),
        (&[HOLDER, 4, 0], "0 2 1"),
        (&[CONFIRM, 1], "0"),
        (&[HOLDER, 0, 0], "0 0 0"),
        (&[HOLDER, 1, 0], "0 0 0"),
        (&[HOLDER, 2, 0], "0 0 0"),
        (&[HOLDER, 3, 0], "0 0 0"),
        (&[HOLDER, 4, 0], "0 0 0"),
    ];
    play_told(5, 1, &told, "live 0 grants 1");
}

/// With 512 records 12 comes, however many of them are pending, and no longer after a confirmation.
#[test]
fn a_full_book_of_pending_records() {
    for removed in [0, 1, 300, 512] {
        let place = |i: u16| [GRANT, i % 255, i % 255 + 1, 0, i / 255, i % 1000];
        let mut calls: Vec<Call> = (0..512).map(place).collect();
        let mut lines: Vec<String> = (1..=512).map(|serial| format!("0 {serial}")).collect();
        for serial in 1..=removed {
            calls.push([REMOVE, serial, 0, 0, 0, 0]);
            lines.push("0".to_string());
        }
        let first = if removed > 0 { "0" } else { "23" };
        let next = if removed > 0 { "0 513" } else { "12" };
        let told = [
            ([GRANT, 7, 8, 0, 3, 7], "12"),
            ([GRANT, 7, 8, 0, 3, 1000], "26"),
            (place(0), "11"),
            ([CONFIRM, 1, 0, 0, 0, 0], first),
            ([GRANT, 7, 8, 0, 3, 999], next),
            ([GRANT, 8, 9, 0, 3, 0], "12"),
        ];
        for (call, line) in told {
            calls.push(call);
            lines.push(line.to_string());
        }
        let live = 512 - removed + (removed > 0) as u16;
        let grants = 512 + (removed > 0) as u16;
        lines.push(format!("live {live} grants {grants}"));
        play(256, 4, &calls, &lines);
    }
}
