//! The sample as it is stored, bad lines by their numbers, the values of the documents, and lists
//! made at random.

use crate::block::{fill, Block, Outcome, Reason};
use crate::list::{read, List};
use crate::{answer, picture, table};

const SAMPLE: &str = include_str!("pool.txt");

/// Lines of transactions, named by one digit each, and a block's terms.
fn list(lines: &[&str]) -> List {
    read(&text(lines)).expect("a good list")
}

/// `tx 3 .. depends=1,2` with every single digit as a whole txid.
fn text(lines: &[&str]) -> String {
    let whole = |digit: &str| digit.repeat(64);
    let word = |(place, word): (usize, &str)| match word.split_once("depends=") {
        Some((_, names)) => {
            let names: Vec<String> = names.split(',').map(whole).collect();
            format!("depends={}", names.join(","))
        }
        None if place == 1 && word.len() == 1 => whole(word),
        None => word.to_string(),
    };
    let line = |line: &&str| {
        line.split(' ')
            .enumerate()
            .map(word)
            .collect::<Vec<_>>()
            .join(" ")
    };
    lines.iter().map(line).collect::<Vec<_>>().join("\n")
}

/// What is selected, by the places in the list.
fn selected(lines: &[&str]) -> Vec<usize> {
    fill(&list(lines)).expect("a good list").selected
}

#[test]
fn the_sample_is_as_stored() {
    let (tables, svg) = answer(SAMPLE.into()).unwrap();
    assert_eq!(tables, include_str!("block.txt"));
    assert_eq!(svg, include_str!("block.svg"));
}

#[test]
fn bad_lines_are_named() {
    let good = "tx 1 fee=1 weight=4 sigops=0";
    for (lines, line, what) in [
        (&["pay 1"][..], 1, "`pay` is none of tx, "),
        (&["", "tx"], 2, "`tx` wants a txid"),
        (&["tx 12 fee=1 weight=4 sigops=0"], 1, "`12` is not 64 hex"),
        (&["tx 1 fee=1 weight=4"], 1, "`sigops=` is missing"),
        (&["tx 1 fee=1 fee=1"], 1, "`fee` stands twice"),
        (&["tx 1 fees=1"], 1, "`fees` is none of fee, weight,"),
        (&["tx 1 4"], 1, "`4` is not of the form key=value"),
        (&["tx 1 fee=0.1 weight=4 sigops=0"], 1, "`0.1` is no number"),
        (&["tx 1 fee=-1 weight=4 sigops=0"], 1, "`-1` is no number"),
        (&[good, "# again", good], 3, "the txid stands on line 1"),
        (&["tx 1 fee=1 weight=4 sigops=0 depends=2"], 1, "`2222"),
        (&[good, "withhold 111"], 2, "`111` is too short"),
        (&[good, "withhold 1111 2"], 2, "`withhold` wants a txid"),
        (&[good, "delta 1111"], 2, "`delta` wants a txid and"),
        (&[good, "delta 1111 x"], 2, "`x` is no number"),
        (&[good, "delta 1 2100000000000001"], 2, "a delta is at most"),
        (
            &[good, "delta 1 -9223372036854775808"],
            2,
            "a delta is at most",
        ),
        (
            &[good, "delta 1 -9223372036854775809"],
            2,
            "`-9223372036854775809` is no",
        ),
        (&[good, "block 77"], 2, "`77` is not of the form"),
        // what the library refuses
        (&["", "limits count=65"], 2, "make refuses with 3: "),
        (
            &["limits count=0", "limits size=5"],
            1,
            "make refuses with 3: ",
        ),
        (&["tx 1 fee=1 weight=0 sigops=0"], 1, "add refuses with 3: "),
        (
            &["tx 1 fee=1 weight=404001 sigops=0"],
            1,
            "add refuses with 9",
        ),
        (
            &[
                "limits count=1",
                good,
                "tx 2 fee=1 weight=4 sigops=0 depends=1",
            ],
            3,
            "add refuses with 8: ",
        ),
        // what a list can say and no node would
        (
            &[
                "tx 1 fee=1 weight=4 sigops=0 depends=2",
                "tx 2 fee=1 weight=4 sigops=0 depends=1",
            ],
            1,
            "what it depends on leads back to itself",
        ),
        // the first line depends on a circle, and is not of it
        (
            &[
                "tx 3 fee=1 weight=4 sigops=0 depends=1",
                "tx 1 fee=1 weight=4 sigops=0 depends=2",
                "tx 2 fee=1 weight=4 sigops=0 depends=1",
            ],
            2,
            "what it depends on leads back to itself",
        ),
    ] {
        let wrong = answer(text(lines).into()).expect_err(what);
        assert_eq!(wrong.line, line, "{what}");
        assert!(wrong.what.starts_with(what), "{} is not {what}", wrong.what);
    }
}

#[test]
fn a_list_has_as_many_transactions_as_a_pool() {
    let line = |k: usize| format!("tx {k:064x} fee=1000 weight=400 sigops=0\n");
    let most: String = (0..1024).map(line).collect();
    assert_eq!(fill(&read(&most).unwrap()).unwrap().selected.len(), 1024);
    let wrong = read(&(most + &line(1024))).unwrap_err();
    assert_eq!(
        wrong.to_string(),
        "1025: a pool has 1024 transactions at most"
    );
}

#[test]
fn a_line_that_is_no_text_is_named() {
    let wrong = answer(b"# good\n# \xff\n".to_vec()).unwrap_err();
    assert_eq!(wrong.to_string(), "2: this line is not text (UTF-8)");
}

#[test]
fn names_may_be_cut_short() {
    let a = format!("tx {}a fee=1 weight=4 sigops=0", "1".repeat(63));
    let b = format!("tx {}b fee=1 weight=4 sigops=0", "1".repeat(63));
    let wrong = read(&format!("{a}\n{b}\nwithhold 1111")).unwrap_err();
    assert_eq!(wrong.to_string(), "3: `1111` starts more than one txid");
    let list = read(&format!("{a}\nwithhold 1111\ndelta 1111 3\ndelta 1111 -5")).unwrap();
    assert!(list.transactions[0].withheld);
    assert_eq!(list.transactions[0].delta, -2);
    // the last digits that are displayed are of the first byte that is stored
    assert_eq!(list.transactions[0].entry.txid[0], 0x1a);
}

#[test]
fn values_of_the_documents() {
    let family = [
        "tx 1 fee=100 weight=400 sigops=0",
        "tx 2 fee=200 weight=800 sigops=0 depends=1",
    ];
    let at = |block| selected(&[family[0], family[1], block]);
    assert_eq!(at("block budget=1200 minimum=0"), [0, 1]);
    // the child's chunk has the larger fee and is tried first; it brings the parent, and both do not fit
    assert_eq!(at("block budget=1000 minimum=0"), [0]);
    let sigops = |cost: u64| {
        let tx = format!("tx 1 fee=100000 weight=400 sigops={cost}");
        selected(&[&tx, "block reserve=400 minimum=0"])
    };
    assert_eq!(sigops(79_600), [0]);
    assert!(sigops(79_601).is_empty());
    assert!(sigops(u64::MAX).is_empty());
    let minimum = |weight: u64, minimum: u64| {
        let tx = format!("tx 1 fee=100 weight={weight} sigops=0");
        selected(&[&tx, &format!("block minimum={minimum}")])
    };
    assert_eq!(minimum(400, 1000), [0]);
    assert!(minimum(400, 1001).is_empty());
    assert!(minimum(401, 1000).is_empty());
}

/// The outcome of the chunk that has a transaction.
fn outcome(block: &Block, place: usize) -> Outcome {
    let has = |(chunk, _): &&(crate::block::Chunk, Outcome)| chunk.members.contains(&place);
    block.chunks.iter().find(has).expect("it has a chunk").1
}

#[test]
fn each_reason_is_given() {
    let list = list(&[
        "block budget=4000 reserve=0 minimum=1000",
        "tx 1 fee=9000 weight=400 sigops=0",
        "tx 2 fee=8000 weight=400 sigops=0 depends=1",
        "tx 3 fee=7000 weight=3700 sigops=0",
        "tx 4 fee=6000 weight=400 sigops=80001",
        "tx 5 fee=90 weight=400 sigops=0",
        "tx 6 fee=90 weight=400 sigops=0",
        "delta 6 -91",
        "tx 7 fee=9000 weight=400 sigops=0",
        "tx 8 fee=5000 weight=400 sigops=0",
        "withhold 1",
        "limits bytes-per-sigop=0",
    ]);
    let block = fill(&list).unwrap();
    assert_eq!(block.selected, [6, 7]);
    let reasons = [
        Reason::Withheld,
        Reason::WithheldAncestor,
        Reason::OverBudget,
        Reason::OverSigops,
        Reason::BelowMinimum,
        Reason::NegativeFee,
    ];
    for (place, reason) in reasons.into_iter().enumerate() {
        assert_eq!(outcome(&block, place), Outcome::Passed(reason), "{place}");
    }
    assert_eq!(outcome(&block, 6), Outcome::Taken(1));
    assert_eq!(outcome(&block, 7), Outcome::Taken(1));
}

#[test]
fn an_empty_list_is_an_empty_block() {
    let (tables, svg) = answer("# nothing\n".into()).unwrap();
    assert!(tables.starts_with("0 of 0 transactions in 0 chunks, weight 0 of 3,992,000,"));
    assert!(svg.ends_with("</svg>\n"));
    assert!(!svg.contains("NaN"));
}

/// Numbers that only look random.
struct Dice(u64);

impl Dice {
    fn below(&mut self, bound: u64) -> u64 {
        self.0 = self
            .0
            .wrapping_mul(6364136223846793005)
            .wrapping_add(1442695040888963407);
        (self.0 >> 33) % bound
    }
}

/// A list of some transactions, each with a few parents among those above it; with marks or without.
fn random_list(dice: &mut Dice, terms: String, marks: bool) -> List {
    let n = 1 + dice.below(40);
    let name = |k: u64| format!("{:016x}", k.wrapping_mul(0x9e3779b97f4a7c15)).repeat(4);
    let mut lines = vec![terms];
    for k in 0..n {
        let parents: Vec<String> = (0..dice.below(3))
            .filter(|_| k > 0)
            .map(|_| name(dice.below(k)))
            .collect();
        lines.push(format!(
            "tx {} fee={} weight={} sigops={} depends={}",
            name(k),
            dice.below(2000),
            1 + dice.below(1500),
            dice.below(400),
            parents.join(",")
        ));
        if dice.below(6) == 0 {
            let delta = dice.below(2000) as i64 - 1000;
            lines.push(format!("delta {} {delta}", &name(k)[..16]));
        }
        if marks && dice.below(12) == 0 {
            lines.push(format!("withhold {}", &name(k)[..16]));
        }
    }
    lines.reverse();
    read(&lines.join("\n")).expect("a good list")
}

/// `fill` holds each template against its own reading of how the chunks fare, and stops at a
/// difference; here the rest of what a block promises.
#[test]
fn random_lists_give_sound_blocks() {
    let mut dice = Dice(7);
    let mut full = 0;
    for _ in 0..400 {
        let terms = format!(
            "block budget={} reserve={} minimum={}",
            dice.below(20_000),
            dice.below(800) * 100,
            dice.below(4000)
        );
        let list = random_list(&mut dice, terms, true);
        let block = fill(&list).unwrap();
        let mut out = vec![false; list.transactions.len()];
        for &place in &block.selected {
            let tx = &list.transactions[place];
            assert!(!out[place] && !tx.withheld);
            assert!(tx.parents.iter().all(|&parent| out[parent]));
            out[place] = true;
        }
        let corners = picture::corners(&list, &block);
        assert!(corners.windows(2).all(|pair| pair[0].size < pair[1].size));
        let last = corners[corners.len() - 1];
        assert!(last.weight <= list.terms.budget.into());
        let lines = table::tables(&list, &block).lines().count();
        assert_eq!(lines, list.transactions.len() + 7);
        full += usize::from(block.selected.len() > 1);
    }
    assert!(full > 200, "{full}");
}

/// Where nothing is too large and nothing withheld, the curve bends one way.
#[test]
fn the_curve_bends_one_way() {
    let mut dice = Dice(8);
    for _ in 0..200 {
        let terms = "block budget=4000000 reserve=0 minimum=0";
        let list = random_list(&mut dice, terms.into(), false);
        let block = fill(&list).unwrap();
        let corners = picture::corners(&list, &block);
        for three in corners.windows(3) {
            let part =
                |a: usize, b: usize| (three[b].fee - three[a].fee, three[b].size - three[a].size);
            let ((fee, size), (next_fee, next_size)) = (part(0, 1), part(1, 2));
            assert!(fee * next_size >= next_fee * size);
        }
    }
}

/// Numbers of the fees of any length stand right of their title, which reaches to 30.
#[test]
fn long_numbers_have_room() {
    for fee in [9, 999_999_999, 2_100_000_000_000_000u64] {
        let tx = format!("tx 1 fee={fee} weight=400 sigops=0");
        let list = list(&[&tx, "block minimum=0"]);
        let svg = picture::draw(&list, &fill(&list).unwrap());
        for label in svg.lines().filter(|line| line.contains("\"end\">")) {
            let of = |start: &str, end: char| {
                let rest = label.split_once(start).expect(label).1;
                rest.split_once(end).expect(label).0.to_string()
            };
            let (x, text) = (of("<text x=\"", '"'), of("\"end\">", '<'));
            let x: f64 = x.parse().expect(label);
            assert!(
                text == "budget" || x - 8.0 * text.len() as f64 > 30.0,
                "{label}"
            );
        }
    }
}

#[test]
fn numbers_are_grouped() {
    let texts = [0, 999, 1000, -1234567].map(table::grouped);
    assert_eq!(texts, ["0", "999", "1,000", "-1,234,567"]);
}
