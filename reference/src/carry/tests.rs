//! Tests of the second carrying of walks.

use super::updates::{RULE_EDITS, SECTION_EDITS, Update};
use super::walks::{self, DAMAGES, Feed};
use super::worked::{WORKED, Worked, walk as walk_at};
use super::*;
use crate::agreement::{Calls, ENDLESS};
use crate::parts::worked::example;
use crate::processor::{Answer, MAX_TABLE, process, table};
use crate::random::{Rng, made_up};
use crate::rules::places;
use crate::tables::bytes;
use crate::texts::Seed;
use crate::walker::{Phase, Reason};

#[test]
fn worked_examples() {
    for (number, old, new, places, carried) in WORKED.iter().copied() {
        let (texts, fault) = example(number, &[old, new], b"");
        let wanted = fault.map_or(Carried::only(number), |fault| Carried {
            number,
            text: fault.text as u64 + OLD,
            start: fault.start as u64,
            len: fault.len as u64,
        });
        let mut walk = walk_at(places).encode();
        let before = walk;
        let found = Reference.carry(&texts[0], &texts[1], &mut walk);
        assert_eq!(found, wanted, "{old}\n{new}\n{places:?}");
        let after = if number == 0 { walk_at(carried).encode() } else { before };
        assert_eq!(walk, after, "{old}\n{new}\n{places:?}");
    }
}

#[test]
fn all_else_is_kept() {
    let (_, old, new, places, carried): Worked = WORKED[9];
    for phase in [Phase::Going, Phase::Waiting, Phase::Stopped(Reason::TooDeep), Phase::Stopped(Reason::Foreign)] {
        let with =
            |places| Walk { phase, result: 65_535, parameter: 3, read: u64::MAX, used: 1 << 63, allowance: 7, ..walk_at(places) };
        let mut bytes = with(places).encode();
        assert_eq!(Reference.carry(old.as_bytes(), new.as_bytes(), &mut bytes), Carried::only(0));
        assert_eq!(bytes, with(carried).encode());
    }
}

#[test]
fn no_walks_come_first() {
    let mut rng = Rng::new(1, 1);
    for text in ["rules M: ; end", "$", ""] {
        for (way, name) in DAMAGES.iter().enumerate() {
            for _ in 0..20 {
                let walk = made_up(&mut rng, 5, 5, 5);
                let mut bytes = walks::damaged(&mut rng, &walk, way);
                let before = bytes.clone();
                assert_eq!(Reference.carry(text.as_bytes(), b"$", &mut bytes), Carried::only(REFUSED), "{name}");
                assert_eq!(bytes, before);
            }
        }
    }
}

#[test]
fn limits_of_texts() {
    let mut walk = Walk::fresh().encode();
    let long = "%".repeat(32_769);
    let good: &[u8] = b"rules M: ; end";
    let told = |number, text, start| Carried { number, text, start, len: 0 };
    assert_eq!(Reference.carry(good, long.as_bytes(), &mut walk), told(9, NEW, 32_769));
    assert_eq!(Reference.carry(long.as_bytes(), b"", &mut walk), told(9, OLD, 32_769));
    let large = updates::over_large(good);
    assert_eq!(Reference.carry(good, &large, &mut walk), told(20, NEW, large.len() as u64));
    assert_eq!(Reference.carry(&large, good, &mut walk), told(20, OLD, large.len() as u64));
}

#[test]
fn identical_programs_give_equal_walks() {
    for n in 0..60 {
        let text = updates::old_text(&mut Seed::new(n));
        let mut rng = Rng::new(n, 2);
        let Answer::Accepted { table, .. } = process(&text, MAX_TABLE) else { panic!("{}", text.escape_ascii()) };
        let between = Carrying::between(&text, &text);
        for _ in 0..20 {
            let walk = made_up(&mut rng, table.len(), 9, 9);
            let lies = |place: &u16| (1..=table.len()).contains(&usize::from(*place));
            let number = if lies(&walk.location) && walk.returns[..walk.held].iter().all(lies) { 0 } else { RULE };
            let mut bytes = walk.encode();
            assert_eq!(carry(&between, &mut bytes), Carried::only(number));
            assert_eq!(bytes, walk.encode());
        }
    }
}

/// Every walk that calls come to is carried or not, and if it is, it goes on as the new rules say.
#[test]
fn carried_walks_go_on() {
    let mut carried = [0; 3];
    for n in 0..120 {
        let mut seed = Seed::new(n);
        let update = Update::new(&mut seed, if n % 10 == 0 { &SECTION_EDITS } else { &RULE_EDITS });
        let Ok(old) = marks(&update.old) else { panic!("{}", update.old.escape_ascii()) };
        let Ok(new) = marks(&update.new) else { continue };
        let between = Carrying::between(&update.old, &update.new);
        let (old_table, new_table) = (bytes(&table(&old.program).0), bytes(&table(&new.program).0));
        let feed = Feed::new(&mut seed, &old.program);
        for walk in walks::reached(&old_table, &feed, seed.one_in(2), 300) {
            assert!(places::sort(&old.program, walk.location).is_some(), "{walk:?}\n{}", update.old.escape_ascii());
            let mut bytes = walk.encode().to_vec();
            let number = carry(&between, &mut bytes).number;
            carried[[0, SECTIONS, RULE].iter().position(|other| *other == number).expect("no other number")] += 1;
            if number != 0 || !seed.one_in(12) {
                continue;
            }
            let state = Walk::decode(&bytes).expect("a walk");
            let own = places::own(&new.program, &feed.tokens, &feed.answers, &state, 40 * ENDLESS).expect("a place");
            for pauses in [false, true] {
                let (tokens, answers) = (&feed.tokens[..], &feed.answers[..]);
                let calls = Calls { side: &Reference, table: &new_table, tokens, answers, pauses };
                let run = calls.run(&mut seed, bytes.clone(), &own, |_| ());
                let (old, new) = (update.old.escape_ascii(), update.new.escape_ascii());
                assert!(
                    run.agrees,
                    "{n} {:?}\n{old}\n{new}\n{feed:?}\n{walk:?}\n{state:?}\n{} {:?}",
                    update.edits, run.number, own.end
                );
            }
        }
    }
    assert!(carried.iter().all(|times| *times > 200), "{carried:?}");
}
