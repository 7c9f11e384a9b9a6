//! The judge is judged: a run finds no difference, and the same run finds each deliberate fault in what it is told to expect.
//! Without the original there is nothing to run, and the oracle says so.

use std::process::{Command, Output};

fn oracle(words: &[&str]) -> (i32, String) {
    let Output { status, stdout, .. } =
        Command::new(env!("CARGO_BIN_EXE_oracle")).args(words).output().expect("the oracle runs");
    (
        status.code().expect("the oracle ends by itself"),
        String::from_utf8(stdout).expect("the oracle prints text"),
    )
}

#[test]
fn what_is_not_understood_is_said() {
    for words in [
        &["--seeds"][..],
        &["--seeds", "many"],
        &["--seeds", "0"],
        &["--steps", "0"],
        &["--what", "1"],
        &["replay"],
        &["replay", "/nowhere"],
        &["record"],
    ] {
        assert_eq!(oracle(words).0, 2, "{words:?}");
    }
}

#[cfg(not(original))]
#[test]
fn without_the_original_the_comparison_is_skipped() {
    let (status, text) = oracle(&["--seeds", "1"]);
    assert_eq!(status, 0, "{text}");
    assert!(text.starts_with("comparison skipped: the original is not available"), "{text}");
}

#[cfg(original)]
mod with_the_original {
    use super::oracle;
    use std::fs;
    use std::path::PathBuf;

    /// Few sequences suffice to meet each fault; the full run has the same ones first.
    const SEEDS: &str = "40";

    /// A sender who holds 30 cells seldom sends a piece of another source.
    fn seeds(fault: &str) -> &str {
        match fault {
            "sender-counted" => "1000",
            _ => SEEDS,
        }
    }

    /// Each fault, with the call at which it must show.
    const FAULTS: [(&str, &str); 37] = [
        ("reply", "packet"),
        ("report", "report"),
        ("take", "take"),
        ("wake", "wake 1"),
        ("deadline", "wake 2"),
        ("mark", "packet"),
        ("refused", "packet"),
        ("number", "packet"),
        ("leave", "packet"),
        ("stay", "packet"),
        ("leave-init", "packet"),
        ("leave-early", "packet"),
        ("stay-init", "packet"),
        ("restart", "packet"),
        ("skip", "packet"),
        ("shut", "wake 1"),
        ("stamp", "wake 1"),
        ("open", "wake 1"),
        ("calendar", "wake 1"),
        ("nine", "wake 1"),
        ("unsent", "wake 1"),
        ("wanting", "wake 1"),
        ("due-first", "wake 1"),
        ("falling", "wake 1"),
        ("counted", "packet"),
        ("stay-full", "wake 1"),
        ("leave-full", "wake 1"),
        ("fill", "packet"),
        ("cut", "packet"),
        ("spill", "packet"),
        ("stay-source", "packet"),
        ("leave-source", "packet"),
        ("few-cells", "packet"),
        ("whole-free", "packet"),
        ("sender-counted", "packet"),
        ("cell-first", "packet"),
        ("drop-source", "packet"),
    ];

    /// Why ids leave.
    const SHORT_LAST_PIECE: &str = "C-11, a short last piece";
    const EQUAL_INIT: &str = "C-12, an equal init";
    const FULL_WAKE: &str = "C-15, a wake with more than eight pieces to send";
    const FULL_SOURCE: &str = "C-18, a piece of a source with 30 cells";

    /// How many sequences are searched for one in which an id leaves before a difference.
    const SEARCHED: u64 = 1_000;

    fn file(name: &str, text: &str) -> PathBuf {
        let file = PathBuf::from(env!("CARGO_TARGET_TMPDIR")).join(name);
        fs::write(&file, text).expect("a file can be written");
        file
    }

    /// The calls of a list: each starts with a word, what follows it with a sign or `woke`.
    fn last_call(list: &str) -> &str {
        list.lines()
            .rev()
            .find(|line| {
                !line.starts_with(['#', '=', '>']) && !line.starts_with("woke") && !line.starts_with("number")
            })
            .expect("a list has calls")
    }

    #[test]
    fn without_a_fault_nothing_differs() {
        let (status, text) = oracle(&["--seeds", SEEDS]);
        assert_eq!(status, 0, "{text}");
        let last = text.lines().last().expect("a summary");
        assert!(last.ends_with("in 40 sequences, no difference"), "{last}");
        let calls: u64 =
            last.split(' ').next().and_then(|number| number.parse().ok()).expect("a number of calls");
        assert!(calls > 10_000, "{last}");
        let left = text.lines().find(|line| line.contains(" ids left the comparison: ")).expect("who left");
        let told = [SHORT_LAST_PIECE, EQUAL_INIT, FULL_WAKE, FULL_SOURCE].map(|why| format!(" {why}: "));
        assert!(told.iter().all(|why| left.contains(why)) && !left.starts_with("  0 of "), "{left}");
    }

    #[test]
    fn each_fault_is_found_where_it_is() {
        for (fault, call) in FAULTS {
            let (status, text) = oracle(&["--seeds", seeds(fault), "--fault", fault]);
            assert_eq!(status, 1, "{fault} is not found: {text}");
            assert!(text.starts_with("# seed "), "{fault}: {text}");
            assert!(last_call(&text).starts_with(call), "{fault} is found at '{}'", last_call(&text));
        }
    }

    /// The faults that show at the packet at which an id leaves, with what is said of them.
    #[test]
    fn an_id_does_not_leave_without_its_difference() {
        for (fault, listed, why) in [
            ("leave", SHORT_LAST_PIECE, "the library answers 11 and the original 11"),
            ("leave-init", EQUAL_INIT, "the library's stores have changed"),
            ("leave-early", EQUAL_INIT, "the original then answers "),
            ("restart", EQUAL_INIT, "the library's stores have changed"),
            ("leave-full", FULL_WAKE, "7 pieces want sending and the original sends 0 1 2 3 4 5 6"),
            ("leave-source", FULL_SOURCE, "the library answers 0 and the original 0"),
            ("drop-source", FULL_SOURCE, "the library's stores have changed"),
        ] {
            let (_, text) = oracle(&["--seeds", SEEDS, "--fault", fault]);
            let first = text.lines().next().expect("a first line");
            let told = format!(": left out ({listed}), though {why}");
            assert!(first.contains(&told), "{fault}: {first}");
        }
    }

    /// Faults in the hours that the library is told, with what is said of them.
    #[test]
    fn a_wake_in_vain_must_do_nothing() {
        for (fault, told) in [
            ("shut", ": woken in vain, the library answers 0 for 0, sends "),
            (
                "stamp",
                ": woken in vain, the library answers 0 for 0, sends 0 packets and changes its store; at ",
            ),
            ("calendar", ": woken in vain, the library answers 0 for 26, sends "),
            ("open", ": the library puts out 0 packets, the original "),
        ] {
            let (_, text) = oracle(&["--seeds", SEEDS, "--fault", fault]);
            let first = text.lines().next().expect("a first line");
            assert!(first.contains(told), "{fault}: {first}");
        }
    }

    /// Faults in how much of a frame the library gets, with what is said of them.
    #[test]
    fn a_short_frame_must_be_refused_and_no_other() {
        for (fault, told) in [
            ("fill", " bytes came, and the library answers "),
            (
                "spill",
                " bytes came, and the library answers 27 for 27, sends 0 packets and changes its stores",
            ),
            ("cut", ": the library answers 27 without reason"),
        ] {
            let (_, text) = oracle(&["--seeds", SEEDS, "--fault", fault]);
            let first = text.lines().next().expect("a first line");
            assert!(first.contains(told), "{fault}: {first}");
        }
    }

    /// Faults in which pieces the library refuses for their source's cells, with what is said of them. Some show at a
    /// piece of an id that has left, too.
    #[test]
    fn a_source_is_full_with_30_cells_of_its_own() {
        for (fault, told) in [
            ("stay-source", ": the library answers 28 without reason"),
            ("few-cells", ": the library answers 28"),
            ("sender-counted", ": the library answers 28"),
            ("whole-free", " the library answers 0"),
            ("cell-first", " the library answers 12"),
        ] {
            let (_, text) = oracle(&["--seeds", seeds(fault), "--fault", fault]);
            let first = text.lines().next().expect("a first line");
            assert!(first.contains(told), "{fault}: {first}");
        }
    }

    /// Faults in what a wake sends, stamps or counts, with what is said of them.
    #[test]
    fn the_pieces_of_a_wake_are_counted() {
        for (fault, told) in [
            ("nine", " the library sends 0 1 2 3 4 5 6 7 8, not 0 1 2 3 4 5 6 7\n"),
            ("unsent", " pieces that want sending the library sends "),
            ("wanting", " pieces and puts out 8\n"),
            ("due-first", " pieces that want sending the library sends "),
            ("falling", " pieces that want sending the library sends "),
            ("counted", ": the library counts 1 pieces and puts out 0\n"),
            ("stay-full", ": the library puts out 8 packets, the original "),
        ] {
            let (_, text) = oracle(&["--seeds", SEEDS, "--fault", fault]);
            let first = text.split_inclusive('\n').next().expect("a first line");
            assert!(first.contains(told), "{fault}: {first}");
        }
    }

    /// Whether what was printed differs at its last call, and not before.
    fn differs_at_its_last_call(name: &str, text: &str) {
        let shown = file(&format!("{name}.txt"), text);
        let (status, replayed) = oracle(&["replay", shown.to_str().expect("a name in text")]);
        assert_eq!(status, 1, "{replayed}");
        let end = text.rfind(last_call(text)).expect("the last call is in the list");
        let before = file(&format!("{name}-before.txt"), &text[..end]);
        let (status, replayed) = oracle(&["replay", before.to_str().expect("a name in text")]);
        assert_eq!(status, 0, "{replayed}");
    }

    #[test]
    fn a_difference_comes_with_the_shortest_beginning_that_shows_it() {
        for fault in ["reply", "leave", "stay", "stay-init", "stay-full", "stay-source"] {
            let (_, text) = oracle(&["--seeds", SEEDS, "--fault", fault]);
            differs_at_its_last_call(fault, &text);
        }
    }

    #[test]
    fn it_does_so_after_an_id_has_left() {
        let each = [
            ("short", SHORT_LAST_PIECE),
            ("equal", EQUAL_INIT),
            ("full", FULL_WAKE),
            ("source", FULL_SOURCE),
        ];
        for (name, why) in each {
            let told = format!(
                " has left the comparison: {why}; its calls are here with the library's own answers\n"
            );
            let found = (1..=SEARCHED).find_map(|seed| {
                let (_, text) = oracle(&["--seeds", "1", "--first", &seed.to_string(), "--fault", "take"]);
                (text.starts_with("# seed ") && text.contains(&told)).then_some(text)
            });
            let text = found.expect("an id leaves before a difference");
            differs_at_its_last_call(&format!("left-{name}"), &text);
        }
    }

    #[test]
    fn a_run_in_which_no_id_leaves_says_what_it_has_not_met() {
        let (status, text) = oracle(&["--seeds", "1", "--steps", "1"]);
        assert_eq!(status, 0, "{text}");
        assert!(text.contains("  0 of ") && text.contains(" ids left the comparison\n"), "{text}");
        let missing =
            text.lines().find(|line| line.starts_with("not met in this run: ")).expect("what is missing");
        for name in [SHORT_LAST_PIECE, EQUAL_INIT, FULL_WAKE, FULL_SOURCE] {
            let told = format!(", an id that leaves the comparison ({name})");
            assert!(missing.contains(&told), "{missing}");
        }
    }
}
