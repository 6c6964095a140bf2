//! The planning program, on its samples and on every way of breaking the form of its input; the library answers alike.
mod programs;

use ring_planner::answer;

/// What the planning program prints for an input that comes in pieces of the given size.
fn output(input: &[u8], piece: usize) -> String {
    let text = programs::output(&["plan"], input, piece);
    assert_eq!(text.as_bytes(), answer(input));
    text
}

const T1: &str = "8 1 4\n0 3\n3 6\n6 0\n1 4\n";
const T1_PLAN: &str =
    "plan 8 1 4\nchain 2 match 2 pair 2 used chain ceiling 3\n0 P 0\n1 P 0\n2 B\n3 B\n";

#[test]
fn plans_whole_and_piece_by_piece() {
    assert_eq!(output(T1.as_bytes(), 4096), T1_PLAN);
    assert_eq!(output(T1.as_bytes(), 1), T1_PLAN);
    assert_eq!(
        output(b"00008 001 4\n0 3\n03 006\n00006 0\n1 4\n", 7),
        T1_PLAN,
        "leading zeros"
    );
    assert_eq!(
        output(b"4 1 2\n0 2\n2 0\n", 64),
        "plan 4 1 2\nchain 1 match 1 pair 2 used pair ceiling 2\n0 P 0\n1 S 0\n"
    );
    assert_eq!(
        output(b"5 1 2\n0 4\n4 0\n", 64),
        "plan 5 1 2\nchain 1 match 1 pair 2 used pair ceiling 2\n0 S 0\n1 P 0\n",
        "twins, the seam way of which is the shorter one"
    );
    assert_eq!(
        output(b"4 1 2\n0 2\n1 3\n", 64),
        "plan 4 1 2\nchain 1 match 0 pair 1 used chain ceiling 1\n0 P 0\n1 B\n"
    );
    assert_eq!(
        output(b"3 1 0\n", 64),
        "plan 3 1 0\nchain 0 match 0 pair 0 used chain ceiling 0\n"
    );
}

/// Case T5: which two requests are the pair is open, and the third has the spare colour.
#[test]
fn a_spare_colour_goes_to_the_request_that_is_left() {
    let text = output(b"3 2 3\n0 1\n0 1\n0 1\n", 64);
    let counts = "plan 3 2 3\nchain 2 match 1 pair 3 used pair ceiling 3\n";
    let plan = text.strip_prefix(counts).expect("line 2 of T5");
    let right = [
        "0 P 0\n1 S 0\n2 P 1\n",
        "0 P 0\n1 P 1\n2 S 0\n",
        "0 P 1\n1 P 0\n2 S 0\n",
    ];
    assert!(right.contains(&plan), "{plan}");
}

#[test]
fn every_broken_form_is_refused_by_21() {
    let broken: [&[u8]; 16] = [
        b"",
        b"\n",
        b"8 1 1\n0 3",
        b"8 1 1",
        b"8  1 1\n0 3\n",
        b" 8 1 1\n0 3\n",
        b"8 1 1 \n0 3\n",
        b"000008 1 1\n0 3\n",
        b"8 1 1\n0 65536\n",
        b"8 1 1\r\n0 3\r\n",
        b"8\t1 1\n0 3\n",
        b"8 1 2\n0 3\n",
        b"8 1 1\n0 3\n1 4\n",
        b"8 1 1\n0 3\n\n",
        b"8 1 1\n0 3 5\n",
        b"8 1 1\n0 x\n",
    ];
    for input in broken {
        assert_eq!(
            output(input, 4096),
            "refused 21\n",
            "{:?}",
            String::from_utf8_lossy(input)
        );
    }
}

#[test]
fn limits_of_the_text_and_of_the_list() {
    let list = |head: &str, m: usize| format!("{head}{}", "0 1\n".repeat(m)).into_bytes();
    assert!(output(&list("8 1 512\n", 512), 4096).starts_with("plan 8 1 512\n"));
    assert_eq!(output(&list("8 1 513\n", 513), 4096), "refused 3\n");
    assert_eq!(output(&list("2 1 513\n", 513), 4096), "refused 1\n");
    assert_eq!(output(&list("8 129 513\n", 513), 4096), "refused 2\n");
    assert_eq!(list("0008 1 2045\n", 2045).len(), 8192);
    assert_eq!(output(&list("0008 1 2045\n", 2045), 4096), "refused 3\n");
    assert_eq!(output(&list("00008 1 2045\n", 2045), 4096), "refused 21\n");
    assert_eq!(output(b"8 1 1\n0 8\n", 64), "refused 4\n");
    assert_eq!(output(b"8 1 1\n3 3\n", 64), "refused 5\n");
    assert_eq!(output(b"8 1 1\n0 65535\n", 64), "refused 4\n");
}

#[test]
fn failed_reads_and_writes_are_said() {
    let cannot_read = "error the input cannot be read\n".to_string();
    assert_eq!(
        programs::unreadable(&["plan"]),
        [cannot_read, String::new()]
    );
    assert_eq!(
        programs::unwritable(&["plan"], T1.as_bytes()),
        "error the output cannot be written\n"
    );
}
