//! Tests of the second translation of parts and linker. `~` marks the word that is shown and is taken out.

use super::worked::{COMMON as COMMON_TEXT, LINKS, PARTS, RULES, example};
use super::*;
use crate::processor::process;

fn slices(texts: &[Vec<u8>]) -> Vec<&[u8]> {
    texts.iter().map(Vec::as_slice).collect()
}

/// A part is refused at the mark, in the common part or in the part, or taken where there is none.
#[track_caller]
fn translated(number: u16, common: &str, part_text: &str) {
    let (texts, fault) = example(number, &[common, part_text], b"");
    assert_eq!(part(&texts[0], &texts[1]).err(), fault, "{common}\n{part_text}");
}

/// Linking is refused at the mark, or not where there is none; the first text is the common part.
#[track_caller]
fn links(number: u16, texts: &[&str]) {
    let (plain, fault) = example(number, texts, b"");
    let all = slices(&plain);
    assert_eq!(link(all[0], &all[1..], 4_096).err(), fault, "{texts:?}");
}

/// Linking gives what the one text is processed to.
#[track_caller]
fn linked(texts: &[&str], one: &str) {
    let plain: Vec<Vec<u8>> = texts.iter().map(|text| text.as_bytes().to_vec()).collect();
    let all = slices(&plain);
    let (table, told) = link(all[0], &all[1..], 4_096).unwrap_or_else(|fault| panic!("{fault:?}: {texts:?}"));
    let answer = process(one.as_bytes(), 4_096);
    let finishing = told.processed.finishing == 1;
    assert_eq!(answer, Answer::Accepted { table, finishing }, "{texts:?}");
}

#[test]
fn worked_examples() {
    PARTS.iter().for_each(|(number, common, part)| translated(*number, common, part));
    RULES.iter().for_each(|(number, rules)| translated(*number, COMMON_TEXT, &format!("rules {rules} end")));
    LINKS.iter().for_each(|(number, texts)| links(*number, texts));
    // The common part by itself, where a part is not at hand.
    links(3, &["mechanism m: f(~M); rules end", "rules M: ; end"]);
}

#[test]
fn over_long_texts() {
    // Before all else, the common part first.
    let refused = |common: usize, text: usize, fault: (u16, usize, usize)| {
        let (number, text_at, start) = fault;
        let found = part("$".repeat(common).as_bytes(), "$".repeat(text).as_bytes()).err();
        assert_eq!(found, Some(Fault { number, text: text_at, start, len: usize::from(number == 1) }));
    };
    refused(32_769, 1, (9, 0, 32_769));
    refused(1, 32_769, (9, 1, 32_769));
    refused(32_769, 32_770, (9, 0, 32_769));
    refused(32_768, 32_768, (1, 0, 0));
}

#[test]
fn operators_in_a_part() {
    // A use of operators makes no rules in a part, and passes no limit there.
    let entries: String = (0..65).map(|i| format!("k{i} 3 left o ")).collect();
    let tokens: String = (0..65).map(|i| format!("k{i} ")).collect();
    let common = format!("input: {tokens}; output: o; operators E: {entries}; rules end");
    translated(0, &common, "rules M: ^E @M; end");
    links(9, &[&common, "rules M: ~^E @M; end"]);
}

fn list(count: usize, item: impl Fn(usize) -> String) -> String {
    (0..count).map(item).collect()
}

#[test]
fn limits_of_a_part() {
    let lines = |count: usize| list(count, |i| format!("R{i} >> t; "));
    let rules = |count: usize| format!("rules {} end", list(count, |i| format!("r{i}: ; ")));
    let tokens = |count: usize| format!("input: {};", list(count, |i| format!("k{i} ")));
    let common = |count: usize, more: &str| format!("type t: y; rules {}{more} end", lines(count));
    translated(0, &common(128, ""), "rules M: ; end");
    translated(9, &common(128, "~X >> t; Y >> t;"), "rules M: ; end");
    translated(0, "rules end", &rules(128));
    translated(9, "rules end", &rules(128).replace(" end", "~X: ; end"));
    // The list's names are no more names in the part.
    translated(0, &common(128, ""), &rules(128));
    // 512 names: type, value, tokens, and the list or the part's rules.
    let wide = |count: usize, more: &str| format!("{} {}", tokens(count), common(100, more));
    let listed = |count: usize, more: &str| format!("rules {}{more} end", list(count, |i| format!("R{i} >> t: >> y; ")));
    translated(0, &wide(410, ""), &listed(100, ""));
    translated(9, &wide(410, "~X >> t;"), &rules(1));
    translated(9, &wide(410, ""), &listed(100, "~X: ;"));
    // A rule that is named beside those of the list, as a rule of the part or by a call, is one more name, and only once.
    translated(9, &wide(410, ""), "rules ~X: ; end");
    translated(9, &wide(409, ""), "rules X: @X [@R1 | y: ] @~Y; end");
    translated(9, &wide(408, ""), "rules X: @Y @X @Y ^E @~Z; end");
    translated(0, &wide(409, ""), "rules X: @X [@R1 | y: ]; end");
    // Before 3 to 8, behind 1, 2 and 9 of reading.
    translated(9, &wide(410, ""), "rules ~X: zz; end");
    translated(2, &wide(410, ""), "rules X: ; ~;");
    translated(9, &format!("{} rules end", tokens(512)), "rules ~M: ; end");
    translated(9, "type t: y; rules ~n23456789012345678901234567890123 >> t; end", "$");
    translated(9, "type t: y; rules R >> ~n23456789012345678901234567890123; end", "$");
}

#[test]
fn one_text() {
    let common = "type t: y n; rules R >> t; end";
    linked(&["rules end", "rules M: ; end"], "rules M: ; end");
    linked(
        &[common, "rules M: [@R | y: @N | n: ]; end", "rules R >> t: >> y; end", "rules N: ?; end"],
        "type t: y n; rules M: [@R | y: @N | n: ]; R >> t: >> y; N: ?; end",
    );
    // The order of the parts is that of the rules; a rule with a type may be the first of any but the first.
    linked(
        &[common, "rules N: ?; M: [@R | y: @N | n: ]; end", "rules R >> t: >> y; end"],
        "type t: y n; rules N: ?; M: [@R | y: @N | n: ]; R >> t: >> y; end",
    );
    // A listed rule in no part that nothing calls; the verdict of the whole.
    linked(&[common, "rules M: @N; end", "rules N: @M; end"], "rules M: @N; N: @M; end");
    linked(&["rules end % '", "rules M: @N;% end\nend", "rules % M:\nN: ; end"], "rules M: @N; N: ; end");
    // Rules made for operators stand behind the last part, each pair once, in the order of first use.
    let common = "input: p q; output: o; operators E: p 1 left o; operators F: q 2 right o; rules end";
    linked(
        &[common, "rules M: ^F @N; end", "rules L: ^E @N ^F @N; end", "rules N: ^E @N ^E @M ?; end"],
        "input: p q; output: o; operators E: p 1 left o; operators F: q 2 right o;
         rules M: ^F @N; L: ^E @N ^F @N; N: ^E @N ^E @M ?; end",
    );
}

#[test]
fn numbers_of_parts() {
    let list_only = b"rules end";
    let count = |count: usize| link(list_only, &vec![&b"rules M: ; end"[..]; count], 9).map(|_| ());
    let counted = Fault { number: 9, text: 0, start: list_only.len(), len: 0 };
    assert_eq!(count(0), Err(counted));
    assert_eq!(count(17), Err(counted));
    assert_eq!(count(16), Err(Fault { number: 50, text: 2, start: 6, len: 1 }));
}

/// So many rules of one name stem, as a part.
fn many(stem: &str, count: usize, more: &str) -> String {
    format!("rules {}{more} end", list(count, |i| format!("{stem}{i}: ; ")))
}

#[test]
fn limits_of_the_whole() {
    let all = |last: &str| -> Vec<String> { vec!["rules end".into(), many("a", 64, ""), many("b", 63, ""), many("c", 0, last)] };
    let texts = all("X: ;");
    let texts: Vec<&str> = texts.iter().map(String::as_str).collect();
    assert!(link(texts[0].as_bytes(), &[texts[1].as_bytes(), texts[2].as_bytes(), texts[3].as_bytes()], 4_096).is_ok());
    let texts = all("X: ; ~Y: ; Z: ;");
    links(9, &texts.iter().map(String::as_str).collect::<Vec<_>>());
    // What the sections leave of 512; the list does not count again.
    let common = format!("input: {}; type t: y; rules R >> t; end", list(500, |i| format!("k{i} ")));
    let (first, last) = (many("a", 5, ""), many("b", 3, "R >> t: >> y; X: ;"));
    assert!(link(common.as_bytes(), &[first.as_bytes(), last.as_bytes()], 4_096).is_ok());
    links(9, &[&common, &many("a", 5, ""), &many("b", 3, "R >> t: >> y; X: ; ~Y: ;")]);
    // 49 and 50 come before it.
    links(50, &["rules end", &many("a", 100, ""), &many("b", 100, "~a7: ;")]);
}

#[test]
fn limits_of_rules_made() {
    let levels = list(15, |i| format!("p{i} {} left o ", i + 1));
    let tokens = list(15, |i| format!("p{i} "));
    let common = format!("input: {tokens}; output: o; operators E: {levels}; operators F: p0 7 right o; rules end");
    // 112 rules and 16 made.
    let parts = |last: &str| -> Vec<String> {
        vec![common.clone(), "rules M: ^E @N; end".into(), many("a", 109, "N: ;"), format!("rules L: {last}; end")]
    };
    let good = parts("^E @N ^F @N");
    assert!(link(good[0].as_bytes(), &[good[1].as_bytes(), good[2].as_bytes(), good[3].as_bytes()], 4_096).is_ok());
    let texts = parts("^E @N ^F @N ? ~^F @M");
    links(9, &texts.iter().map(String::as_str).collect::<Vec<_>>());
    // At the first use of the pair, in the first text that has it.
    let texts = [&common[..], "rules M: ? ~^E @N ^E @N; end", &many("a", 125, "N: ^E @N;"), "rules L: ^F @N; end"];
    links(9, &texts);
    // The 9 of names comes before, 20 behind.
    links(9, &[&common, "rules M: ^E @N; end", &many("a", 126, "N: ; ~X: ;")]);
    let (first, last) = ("rules M: ^E @N; end", many("a", 125, &format!("N: {};", "?".repeat(5_000))));
    let fault = link(common.as_bytes(), &[first.as_bytes(), last.as_bytes()], 4_096).map(|_| ());
    assert_eq!(fault, Err(Fault { number: 9, text: 1, start: 9, len: 1 }));
}

#[test]
fn the_table_passes() {
    let (first, last) = ("rules M: ? ?; end", " rules N: ? ; end % ");
    let texts = [first.as_bytes(), last.as_bytes()];
    let passed = Err(Fault { number: 20, text: 2, start: last.len(), len: 0 });
    assert_eq!(link(b"rules end", &texts, 4).map(|_| ()), passed);
    assert_eq!(link(b"rules end", &texts, 5).map(|(table, _)| table), Ok(vec![4, 4, 9, 4, 9]));
    // Longer than a text may be: the byte limit counts for each part.
    let long = |name: &str, bytes: usize| format!("rules {name}: {}; end{}", "?".repeat(2_047), " ".repeat(bytes));
    let (first, last) = (long("M", 30_000), long("N", 30_000));
    let texts = [first.as_bytes(), last.as_bytes()];
    assert_eq!(link(b"rules end", &texts, 9_999).map(|(table, _)| table.len()), Ok(4_096));
    let more = long("N", 1).replace('?', "??");
    let passed = Err(Fault { number: 20, text: 2, start: more.len(), len: 0 });
    assert_eq!(link(b"rules end", &[first.as_bytes(), more.as_bytes()], 9_999).map(|_| ()), passed);
}

#[test]
fn words_of_an_object() {
    let (common, text) = (b"type t: y; rules R >> t; end ", b"rules M: @N [@R | y: ]; R >> t: >> y; end");
    let object = part(common, text).expect("a good part");
    let packed: Vec<u16> = common.chunks(2).map(|two| u16::from(two[0]) << 8 | u16::from(*two.get(1).unwrap_or(&0))).collect();
    assert_eq!((common.len(), packed.len(), packed[14]), (29, 15, 0x2000));
    // M: `@N`, `[@R | y: ]` with no otherwise; R: `>> y`.
    let rules: [Vec<u16>; 2] = [
        vec![6, 1, 77, 0, 2, 10, 1, 78, 14, 1, 82, 9, 8, 0, 11, 0, 65, 0, 0, 12, 0],
        vec![24, 1, 82, 1, 29, 1, 116, 0, 3, 10, 0, 0],
    ];
    let behind = [vec![29, 41, 2, 0], packed.clone(), rules.concat()].concat();
    assert_eq!(object.words(), [vec![20_559, 0, behind.len() as u16], behind].concat());
    let pairs = b"input: p; output: o; operators E: p 1 left o; rules end";
    let object = part(pairs, b"rules M: ^E @M ^E @NN ^ E @M; end").expect("a good part");
    let words = object.words();
    let head = 7 + pairs.len().div_ceil(2);
    assert_eq!(words[..7], [20_559, 0, words.len() as u16 - 3, pairs.len() as u16, 33, 1, 2]);
    let wanted = [
        vec![9, 1, 10, 1, 69, 13, 1, 77],
        vec![15, 1, 16, 1, 69, 19, 2, 78, 78],
        vec![6, 1, 77, 0, 3],
        vec![13, 1, 77],
        vec![19, 2, 78, 78],
        vec![27, 1, 77],
        vec![7, 8, 1, 8, 2, 8, 1, 0],
    ];
    assert_eq!(words[head..], wanted.concat());
}

#[test]
fn cells_of_an_object() {
    let common = b"input: a b; output: o; error: e; type t: x y; mechanism m: u v(t) c >> t d(t) >> t; rules R >> t; end";
    let text = b"rules M: { a ? .o #e > } u v(y) [ | a, b: | b: ]; end";
    let bad = part(common, text);
    assert_eq!(bad.map(|_| ()).map_err(|fault| fault.number), Err(6));
    let text = b"rules M: { a ? .o #e > } u v(y) [ | a, b: >> | *: ] [ c | x: ] [ d(y) | x: | *: ] [ | a: ]; end";
    let words = part(common, text).expect("a good part").words();
    let cells: Vec<u16> = [
        vec![2, 3, 0, 4, 5, 0, 6, 0, 1, 0],
        vec![256, 512, 1],
        vec![7, 66, 0, 1, 9, 0, 13, 0],
        vec![768, 65, 0, 0, 12],
        vec![1_024, 1, 65, 0, 0, 13, 0],
        vec![7, 65, 0, 0, 14, 0],
    ]
    .concat();
    assert_eq!(words[words.len() - cells.len() - 1..], [vec![cells.len() as u16], cells].concat());
}

#[test]
fn own_objects() {
    let (common, texts) = (b"rules end", [&b"rules M: @N; end"[..], b"rules N: ; end "]);
    let object = |common: &[u8], text: &[u8]| {
        let mut lent = vec![7; 2_001];
        let done = Reference.part(common, text, &mut lent);
        assert_eq!((done.number, done.start, done.len), (0, 0, 0));
        assert!(lent[2 * done.words as usize..2_000].iter().all(|byte| *byte == 0) && lent[2_000] == 7);
        lent.truncate(2 * done.words as usize);
        lent
    };
    let objects = texts.map(|text| object(common, text)).concat();
    let mut table = [7; 11];
    let done = Reference.link(common, &objects, &mut table);
    assert_eq!(done, Linked { words: 4, finishing: 1, figure: 3, ..Linked::default() });
    assert_eq!(table, [0, 8, 0, 4, 0, 9, 0, 9, 0, 0, 7]);
    let refused = |objects: &[u8], number, text| {
        let mut table = [7; 5];
        let wanted = Linked { number, text, ..Linked::default() };
        assert_eq!(Reference.link(common, objects, &mut table), wanted);
        assert_eq!(table, [0, 0, 0, 0, 7]);
    };
    refused(&[&objects[..], &[0]].concat(), 40, 3);
    refused(&objects[..objects.len() - 2], 40, 2);
    refused(&[object(common, texts[0]), object(b"rules end ", texts[1])].concat(), 40, 2);
    let mut lent = [7; 21];
    let done = Reference.part(common, texts[1], &mut lent);
    assert_eq!(done, Translated { number: 20, text: 1, start: 15, len: 0, words: 0 });
    assert_eq!((&lent[..20], lent[20]), (&[0; 20][..], 7));
}
