//! The comparison sees what it is there to see, and bad arguments get one line.

use independent::compare::arguments::{parse, Subject};
use independent::compare::case::{in_bytes, Call, Case, Placing, PRESET};
use independent::compare::engine::{collect, shared};
use independent::compare::{
    apart_cases, changed_cases, edit_cases, read_cases, run, sweep, taglist, to_text_cases, to_words_cases,
    together_cases, torn_cases, write_cases,
};
use independent::examples::{b2, TEXT, WORDS};
use independent::generate::locks;
use independent::model::{chain, listing, pages};
use independent::random::Random;
use independent::trial::{is_loose, read};
use std::collections::{BTreeMap, BTreeSet};

fn words(line: &str) -> Vec<String> {
    line.split_whitespace().map(str::to_string).collect()
}

/// The one line of a run that fails.
fn complaint(line: &str) -> String {
    let result = parse(&words(line)).and_then(|arguments| run(&arguments));
    let complaint = result.expect_err("it fails");
    assert_eq!(complaint.lines().count(), 1, "{complaint}");
    complaint
}

#[test]
fn bad_arguments_get_one_clear_line() {
    assert!(complaint("").starts_with("usage: compare"));
    assert!(complaint("read 1").starts_with("usage: compare"));
    assert!(complaint("reed 1 2 true").contains("unknown subject"));
    assert!(complaint("read one 2 true").contains("seed one is no number"));
    assert!(complaint("read 1 -2 true").contains("count -2 is no number"));
    assert!(complaint("read 1 2").contains("no program"));
    assert!(complaint("read 1 2 /nowhere/driver").contains("/nowhere/driver does not start"));
    assert!(complaint("taglist 1 2 /nowhere/taglist").contains("/nowhere/taglist does not start"));
}

#[test]
fn a_program_that_stops_or_prints_otherwise_is_seen() {
    assert!(complaint("read 1 2 true").contains("the driver stopped"));
    assert!(complaint("edit 1 2 false").contains("the driver stopped"));
    assert!(complaint("texts 1 0 true").contains("the driver stopped"));
    assert!(complaint("texts 1 2 true").contains("the driver stopped at a sweep from read tag=1101016161"));
    assert!(complaint("to_text 1 2 true").contains("the driver stopped"));
    assert!(complaint("to_words 1 2 true").contains("the driver stopped"));
    assert!(complaint("apart 1 2 true").contains("the driver stopped"));
    assert!(complaint("together 1 2 true").contains("the driver stopped"));
    assert!(complaint("changed 1 2 true").contains("the driver stopped"));
    assert!(complaint("faults 1 2 false").starts_with("faults, torn writes: compare: the driver stopped"));
    assert!(complaint("taglist 1 0 cat").contains("instead of \"elements 4"));
    assert!(complaint("taglist 1 0 echo elements 3").contains("prints \"elements 3\\n\""));
}

#[test]
fn the_shortest_case_that_differs_is_told_and_so_is_a_refusal_that_was_not_met() {
    let lengths = [100, 85, 120, 84];
    let cases =
        || lengths.map(|room| Case::new("test", Call::read(b2().tag, vec![0; room]))).into_iter().collect::<Vec<_>>();
    let right: Vec<Vec<u8>> = cases().iter().map(|case| case.expected.frame()).collect();
    let judged = |frames: &[Vec<u8>], to_be_met: Vec<u32>| {
        collect([cases()], &frames.concat()[..]).and_then(|report| report.judged("test", 1, to_be_met))
    };
    assert!(judged(&right, vec![2]).unwrap().contains("4 cases from seed 1"));
    assert_eq!(judged(&right, vec![2, 16]), Err("test: 4 cases, and none is refused 16".to_string()));
    let mut wrong = right.clone();
    wrong[0][0] = 16;
    *wrong[1].last_mut().unwrap() ^= 1;
    let line = judged(&wrong, vec![2]).unwrap_err();
    assert!(
        line.starts_with(
            "test: 2 of 4 cases differ, the shortest: byte 84 of sheet is 62 instead of 63 at read tag=1101"
        ),
        "{line}"
    );
    assert!(line.ends_with(" sheet[85]"), "{line}");
    assert!(judged(&right[..3], vec![2]).unwrap_err().ends_with(" sheet[84]"), "the case without an outcome");
}

#[test]
fn every_changed_byte_of_an_outcome_is_named() {
    let call = Call::edit(b2().tag, locks::open(76), 19, vec![7], vec![0xEE; 260]);
    let case = Case::new("test", call);
    let right = case.expected.frame();
    assert_eq!(right.len(), 4 + 3 * 40 + (32 + 76) + (32 + 19) + (32 + 1) + (32 + 260));
    assert_eq!(case.difference(&right), "no difference");
    let mut named = BTreeSet::new();
    for place in 0..right.len() {
        let mut got = right.clone();
        got[place] ^= 1;
        named.insert(
            case.difference(&got)
                .split_whitespace()
                .filter(|word| word.parse::<u8>().is_err())
                .take(4)
                .collect::<String>(),
        );
    }
    for name in ["pages", "old_used", "place", "tag", "locks", "value", "old"] {
        assert!(named.contains(&format!("bytesbeside{name}have")), "{named:?}");
        assert!(named.contains(&format!("byteof{name}is")), "{named:?}");
    }
}

#[test]
fn outcomes_are_those_of_the_papers() {
    let as_it_was = 0xA5A5_A5A5_A5A5_A5A5;
    let accepted = Call::read(b2().tag, vec![0; 100]).outcome();
    assert_eq!((accepted.answer, &accepted.results[..]), (0, &[85, as_it_was][..]));
    assert_eq!(accepted.buffers[1][..85], b2().sheet);
    let refused = Call::read(b2().tag, vec![0; 84]).outcome();
    assert_eq!((refused.answer, &refused.results[..]), (2, &[as_it_was; 2][..]));
    let mut damaged = b2().tag;
    damaged[72] ^= 1;
    let refused = Call::read(damaged.clone(), vec![0; 84]).outcome();
    assert_eq!((refused.answer, &refused.results[..]), (18, &[as_it_was, 39][..]));
    let refused = Call::edit(damaged, locks::open(76), 19, vec![7], vec![0; 255]).outcome();
    assert_eq!((refused.answer, &refused.results[..]), (18, &[as_it_was, as_it_was, 39][..]));
    let frame =
        Call::edit(vec![1, 2], vec![3], 0x0102_0304, vec![], vec![4]).frame(Placing { null: true, behind_guard: true });
    assert_eq!(frame, [3, 0x8F, 4, 3, 2, 1, 2, 0, 0, 0, 1, 0, 0, 0, 0, 0, 0, 0, 1, 0, 0, 0, 1, 2, 3, 4]);
}

#[test]
fn words_are_framed_low_byte_first_and_told_as_the_papers_print_them() {
    let placing = Placing { null: false, behind_guard: false };
    let call = Call::to_text(&[0x141C, 0xFC61], vec![7, 8]);
    assert_eq!(call.frame(placing), [4, 0, 0, 0, 0, 0, 4, 0, 0, 0, 2, 0, 0, 0, 0x1C, 0x14, 0x61, 0xFC, 7, 8]);
    assert_eq!(call.describe(), "to_text words=141C FC61 text[2]");
    let call = Call::to_words(b"CH-".to_vec(), &[0xEEEE, 0x1234]);
    assert_eq!(
        call.frame(placing),
        [5, 0, 0, 0, 0, 0, 3, 0, 0, 0, 4, 0, 0, 0, b'C', b'H', b'-', 0xEE, 0xEE, 0x34, 0x12]
    );
    assert_eq!(call.describe(), "to_words text=43482D words[2]");
    let done = call.outcome();
    assert_eq!((done.answer, &done.results[..], &done.buffers[1][..]), (0, &[1][..], &[0x1C, 0x14, 0x34, 0x12][..]));
    let done = Call::to_text(&WORDS, vec![0; 24]).outcome();
    assert_eq!((done.answer, &done.results[..], &done.buffers[1][..23]), (0, &[23][..], TEXT));
    let refused = Call::to_text(&WORDS, vec![0; 22]).outcome();
    assert_eq!(
        (refused.answer, &refused.results[..], refused.buffers),
        (2, &[PRESET][..], vec![in_bytes(&WORDS), vec![0; 22]])
    );
}

#[test]
fn identifiers_are_framed_with_what_the_caller_says_and_told_with_it() {
    let placing = Placing { null: false, behind_guard: false };
    let call = Call::apart(b"A.B".to_vec(), 0x0102_0304, [vec![7], vec![8, 9], vec![]]);
    let lengths = [3, 0, 0, 0, 1, 0, 0, 0, 2, 0, 0, 0, 0, 0, 0, 0];
    assert_eq!(call.frame(placing), [&[6, 0, 4, 3, 2, 1], &lengths[..], b"A.B", &[7, 8, 9]].concat());
    assert_eq!(call.describe(), "apart isil_leads=16909060 text=412E42 item[1] isil[2] set[0]");
    let done = Call::apart(TEXT.to_vec(), 1, [vec![0; 9], vec![0; 11], vec![7; 5]]).outcome();
    assert_eq!((done.answer, &done.results[..]), (0, &[8, 11, 4][..]));
    assert_eq!(done.buffers[1..], [b"12345678\0".to_vec(), b"CH-000134-1".to_vec(), vec![3, 0, 1, 0, 7]]);
    let refused = Call::apart(TEXT.to_vec(), 0, [vec![0; 9], vec![0; 11], vec![7; 5]]).outcome();
    assert_eq!((refused.answer, refused.results, &refused.buffers[3][..]), (22, vec![PRESET; 3], &[7; 5][..]));
    let call = Call::together([b"AB".to_vec(), vec![], vec![3, 0, 1, 0]], vec![0xEE; 6]);
    let lengths = [2, 0, 0, 0, 0, 0, 0, 0, 4, 0, 0, 0, 6, 0, 0, 0];
    let frame = [&[7, 0, 0, 0, 0, 0], &lengths[..], b"AB", &[3, 0, 1, 0], &[0xEE; 6]].concat();
    assert_eq!((call.frame(placing), call.describe()), (frame, "together item=4142 isil= set=03000100 text[6]".into()));
    let done = call.outcome();
    assert_eq!((done.answer, &done.results[..], &done.buffers[3][..]), (0, &[5][..], &b"AB.31\xEE"[..]));
}

#[test]
fn a_sweep_runs_through_the_last_two_bytes_of_a_string_and_expects_what_the_model_says() {
    let mut random = Random::new(4);
    for place in sweep::PLACES {
        let (at, mut met) = (place.at as usize, BTreeSet::new());
        for _ in 0..10_000 {
            let bytes = [random.byte(), random.byte(), random.pick(&[0, b'a', 0x80, 0xA9])];
            let string = if random.one_in(2) { bytes } else { [random.pick(b"\0a\x7F"), bytes[0], bytes[2]] };
            let call = (place.call)(&string);
            let judged = if call.buffers.len() == 4 { 2 } else { 0 };
            assert_eq!(call.buffers[judged][at..at + 2], string[1..], "{}", call.describe());
            let answer = call.outcome().answer;
            assert_eq!(u32::from(place.answer(&string)), answer, "{}", call.describe());
            met.insert(answer);
        }
        assert!(met.contains(&0) && met.len() > 1, "{met:?}");
    }
    let call = Call::edit(vec![1, 2], vec![3], 22, b"abc".to_vec(), vec![4]);
    let placing = Placing { null: false, behind_guard: true };
    let frame = sweep::PLACES[3].frame(&call, placing);
    assert_eq!((frame[0], &frame[1..frame.len() - 4]), (64 + 3, &call.frame(placing)[1..]));
    assert_eq!(frame[frame.len() - 4..], [1, 0, 0, 0]);
}

#[test]
fn what_the_law_expects_of_the_words_of_a_text_is_what_the_model_says() {
    let cases = to_text_cases::random(1, 3000).filter(|case| case.group == "words of a text, read back");
    let agree: Vec<bool> = cases.map(|case| case.call.outcome() == case.expected).collect();
    assert!(agree.len() > 400 && agree.iter().all(|agree| *agree));
}

#[test]
fn what_the_laws_expect_of_identifiers_is_what_the_model_says() {
    let apart = apart_cases::random(1, 3000).filter(|case| case.group == "texts that were built, taken apart");
    let together = together_cases::random(1, 3000).filter(|case| case.group == "elements of a text, put together");
    for cases in [apart.collect::<Vec<Case>>(), together.collect()] {
        assert!(cases.len() > 600 && cases.iter().all(|case| case.call.outcome() == case.expected));
    }
}

#[test]
fn fixed_cases_alone_meet_every_refusal() {
    let answers = |cases: &mut dyn Iterator<Item = Case>| cases.map(|case| case.expected.answer).collect();
    let met: [(Subject, BTreeSet<u32>); 7] = [
        (Subject::Read, answers(&mut read_cases::all(1, 0))),
        (Subject::Write, answers(&mut write_cases::all(1, 0))),
        (Subject::Edit, answers(&mut edit_cases::all(1, 0))),
        (Subject::ToText, answers(&mut to_text_cases::all(1, 0))),
        (Subject::ToWords, answers(&mut to_words_cases::all(1, 0))),
        (Subject::Apart, answers(&mut apart_cases::all(1, 0))),
        (Subject::Together, answers(&mut together_cases::all(1, 0))),
    ];
    for (subject, met) in met {
        assert!(
            subject.to_be_met().iter().chain([&0]).all(|number| met.contains(number)),
            "{} {met:?}",
            subject.name()
        );
    }
    let listed: BTreeSet<String> =
        taglist::fixed().iter().map(|tag| listing(tag).lines().next().unwrap().to_string()).collect();
    for refusal in ["1", "3", "4", "15 35", "16 35", "16 2047", "17 36", "18 136", "19 44", "6", "7"] {
        assert!(listed.contains(&format!("refused {refusal}")), "{listed:?}");
    }
    assert!(listed.contains("elements 673"), "{listed:?}");
}

#[test]
fn half_of_all_buffers_begin_behind_a_guard_and_half_of_the_empty_ones_are_null() {
    let mut times: BTreeMap<(bool, bool), usize> = BTreeMap::new();
    for placing in (0..256).map(Placing::of) {
        *times.entry((placing.null, placing.behind_guard)).or_default() += 1;
    }
    assert!(times.len() == 4 && times.values().all(|times| (60..=68).contains(times)), "{times:?}");
}

#[test]
fn nothing_is_lent_in_every_placing() {
    // The fixed cases that begin a run are its first batch.
    let placings = |cases: &mut dyn Iterator<Item = Case>| {
        let empty = cases.take(32).enumerate().filter(|(_, case)| case.call.length() == 0);
        let placings = empty.map(|(place, _)| Placing::of(place));
        placings.map(|placing| (placing.null, placing.behind_guard)).collect::<BTreeSet<_>>().len()
    };
    assert_eq!(placings(&mut to_text_cases::all(1, 0)), 4);
    assert_eq!(placings(&mut to_words_cases::all(1, 0)), 4);
    assert_eq!(placings(&mut apart_cases::all(1, 0)), 4);
    assert_eq!(placings(&mut together_cases::all(1, 0)), 4);
}

#[test]
fn shares_have_all_cases_and_none_twice() {
    let calls = shared(1, 37, read_cases::random).into_iter().flatten().map(|case| case.unwrap().call.describe());
    let calls: Vec<String> = calls.collect();
    assert_eq!((calls.len(), calls.iter().collect::<BTreeSet<_>>().len()), (37, 37));
}

#[test]
fn few_page_stores_are_torn_in_every_way_and_many_at_every_place() {
    let cases: Vec<Case> = torn_cases::all(1, 300).collect();
    let mut counts = BTreeSet::new();
    for call in cases.chunk_by(|_, next| !next.group.starts_with("calls that store")) {
        let torn: Vec<&Vec<u8>> = call
            .iter()
            .filter(|case| case.group.starts_with("torn tags read"))
            .map(|case| &case.call.buffers[0])
            .collect();
        let (before, after) = (torn[0], torn[torn.len() - 1]);
        let stored = pages::differing(before, after, pages::PAGE).len();
        assert_eq!(
            call[0].expected.results[0], stored as u64,
            "the first tag is the one before, the last the one after"
        );
        assert_eq!(torn.len(), if stored <= 5 { 1 << stored } else { stored + 1 });
        assert_eq!(torn.iter().collect::<BTreeSet<_>>().len(), torn.len(), "no torn tag comes twice");
        counts.insert(stored);
    }
    assert!((1..=6).all(|stored| counts.contains(&stored)), "{counts:?}");
}

#[test]
fn the_dozen_tags_read_and_are_of_all_kinds() {
    let tags = changed_cases::dozen(&mut Random::new(1));
    assert!(tags.len() == 12 && tags.iter().all(|tag| read(tag).is_ok()));
    let lengths: BTreeSet<usize> = tags.iter().map(Vec::len).collect();
    assert!([32, 36, 112, 256, 2048].iter().all(|length| lengths.contains(length)), "{lengths:?}");
    let of_kind = |kind: &dyn Fn(&[u8]) -> bool| tags.iter().filter(|tag| kind(tag)).count();
    let has_block =
        |tag: &[u8], one: bool| chain::blocks(tag).unwrap().iter().any(|block| (chain::id(block) == 1) == one);
    assert_eq!(of_kind(&|tag| is_loose(tag)), 5);
    assert_eq!((of_kind(&|tag| has_block(tag, true)), of_kind(&|tag| has_block(tag, false))), (7, 8));
}
