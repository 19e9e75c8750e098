//! Request #101: texts written out, those of the request and of its readings among them.

use crate::account::{account, account_into};
use crate::harness::{put_of, Store};
use crate::heads::{clear_first, head, owe, set_version, ALL_BITS};
use crate::images::{blank, formatted, write_header, write_slot_page};
use crate::pages::write_header_of;
use crate::reference::*;

/// A board as the bench has it.
pub const G: Geometry = Geometry { n: 4, b: 15 };

/// Writes the slots of a segment from the first on: live ones, and then so many dead.
pub fn fill(image: &mut [u8], number: u32, records: &[(u16, &[u8])], dead: usize) {
    let mut slot = 0;
    let mut write = |status, block, contents: &[u8]| {
        slot += 1;
        let at = G.page(G.index(number), slot);
        write_slot_page(&mut image[at..at + PAGE], status, block, contents);
    };
    for &(block, contents) in records {
        write(LIVE, block, contents);
    }
    for _ in 0..dead {
        write(DEAD, 1, b"old");
    }
}

/// The board of the readings: its top, with number 7, owes the erase of the segment with number 4.
pub fn owing_board(version: Version) -> Vec<u8> {
    let mut image = blank(G);
    for (number, status) in [(4, SETTLED), (5, SETTLED), (6, SETTLED), (7, OWING)] {
        write_header_of(version, &mut image, G, number, status);
    }
    fill(&mut image, 4, &[(7, b"A0"), (9, b"n")], 13);
    fill(&mut image, 5, &[(7, b"A1")], 14);
    fill(&mut image, 6, &[], 15);
    fill(&mut image, 7, &[(9, b"n"), (8, b"m")], 0);
    image
}

/// The account of a board, compared where the library is linked.
fn told(image: &[u8], expected: &str) {
    let store = Store::new("a sample of the account");
    assert_eq!(store.account(image, G), expected);
    #[cfg(qbx_lib)]
    {
        use crate::harness::library;
        let whole = expected.len();
        library::compare_account(image, G, expected, &[whole - 1, 0, whole + 100]);
        library::compare_string(image, G, expected);
    }
}

#[test]
fn a_fresh_format() {
    let text =
        "seg 0 used num 0 live 0 dead 0 cut 0 empty 15\nseg 1 blank\nseg 2 blank\nseg 3 blank\n\
                recover 0 steps 0\n";
    told(&formatted(G), text);
    let mut former = formatted(G);
    set_version(&mut former, G, 0, Version::One);
    told(&former, text);
}

/// The block line of the request.
#[test]
fn a_block() {
    let mut image = formatted(G);
    put(&mut image, G, 7, b"A1", UNLIMITED);
    told(
        &image,
        "seg 0 used num 0 live 1 dead 0 cut 0 empty 14\nseg 1 blank\nseg 2 blank\nseg 3 blank\n\
         block 7 len 2 seg 0 slot 1\nrecover 0 steps 0\n",
    );
}

#[test]
fn the_board_with_an_owing_top() {
    let segments = "seg 1 used num 5 live 1 dead 14 cut 0 empty 0\n\
                    seg 2 used num 6 live 0 dead 15 cut 0 empty 0\n\
                    seg 3 owing num 7 live 2 dead 0 cut 0 empty 13\n\
                    block 7 len 2 seg 1 slot 1\n\
                    block 8 len 1 seg 3 slot 2\n\
                    block 9 len 1 seg 3 slot 1\n";
    let text = |first: &str, steps| format!("seg 0 {first}\n{segments}recover 0 steps {steps}\n");
    told(&owing_board(Version::One), &text("torn", 2));
    told(&owing_board(Version::Two), &text("torn", 3));

    // With no bit left the erase is not counted; without an erase there is nothing to count.
    let mut worn = owing_board(Version::Two);
    clear_first(&mut head(&mut worn, G, 7)[BITS], ALL_BITS);
    told(&worn, &text("torn", 2));
    for version in [Version::One, Version::Two] {
        let mut erased = owing_board(version);
        Step::Erase { index: 0 }.apply(G, &mut erased);
        told(&erased, &text("blank", 1));
    }
}

#[test]
fn the_board_damaged() {
    for version in [Version::One, Version::Two] {
        let mut image = owing_board(version);
        image[G.page(2, 4)] = WRITING;
        told(
            &image,
            "seg 0 used num 4 live 2 dead 13 cut 0 empty 0\n\
             seg 1 used num 5 live 1 dead 14 cut 0 empty 0\n\
             seg 2 used num 6 live 0 dead 14 cut 0 empty 0\n\
             seg 3 owing num 7 live 2 dead 0 cut 0 empty 13\n\
             block 7 len 2 seg 0 slot 1\n\
             block 7 len 2 seg 1 slot 1\n\
             block 8 len 1 seg 3 slot 2\n\
             block 9 len 1 seg 0 slot 2\n\
             block 9 len 1 seg 3 slot 1\n\
             fails 1\n",
        );
    }
}

/// Equal block numbers go by the segment's number, which is not the order of the indices once the
/// ring has wrapped; then by the slot, as a number and not as text.
#[test]
fn equal_block_numbers() {
    let mut image = blank(G);
    write_header(&mut image, G, 7, OPENED);
    write_header(&mut image, G, 8, OPENED);
    let same: [(u16, &[u8]); 15] = [(300, b"x"); 15];
    fill(&mut image, 7, &same[..11], 4);
    fill(&mut image, 8, &[(300, b""), (29, b"yy")], 0);
    let mut text = "seg 0 used num 8 live 2 dead 0 cut 0 empty 13\nseg 1 blank\nseg 2 blank\n\
                    seg 3 used num 7 live 11 dead 4 cut 0 empty 0\nblock 29 len 2 seg 0 slot 2\n"
        .to_string();
    for slot in 1..=11 {
        text += &format!("block 300 len 1 seg 3 slot {slot}\n");
    }
    told(&image, &(text + "block 300 len 0 seg 0 slot 1\nfails 6\n"));
}

/// Torn and wrong slots are in no count; a segment neither in use nor blank shows no slots.
#[test]
fn what_is_not_counted() {
    let mut image = formatted(G);
    fill(&mut image, 0, &[(1, b"a"), (2, b"b"), (3, b"c")], 2);
    image[G.page(0, 2)] = WRITING;
    image[G.page(0, 3) + 1] = 249;
    fill(&mut image, 2, &[(5, b"e")], 0);
    told(
        &image,
        "seg 0 used num 0 live 1 dead 2 cut 0 empty 10\nseg 1 blank\nseg 2 torn\nseg 3 blank\n\
         block 1 len 1 seg 0 slot 1\nfails 4\n",
    );
}

/// A put that was cut, through the cases (a), (c) and (d); and what recovery marks: in (c) the slot is
/// cut, in (d) the older one dead (request #107).
#[test]
fn cut_puts() {
    let lines = |counts: &str, second: &str, blocks: &str, steps| {
        format!(
            "seg 0 used num 0 live {counts}\nseg 1 {second}\nseg 2 blank\nseg 3 blank\n\
             {blocks}recover 0 steps {steps}\n"
        )
    };
    let first = "block 7 len 1 seg 0 slot 1\n";
    let cut = |mut image: Vec<u8>, request: &Request, steps| {
        assert_eq!(perform(&mut image, G, request, steps).code, CUT);
        image
    };
    let mut image = formatted(G);
    put(&mut image, G, 7, b"a", UNLIMITED);
    let torn = cut(image.clone(), &put_of(7, b"b"), 5);
    told(&torn, &lines("1 dead 0 cut 0 empty 13", "blank", first, 1));
    let mut marked = torn;
    perform(&mut marked, G, &Request::Recover, UNLIMITED);
    told(
        &marked,
        &lines("1 dead 0 cut 1 empty 13", "blank", first, 0),
    );
    let both = format!("{first}block 7 len 1 seg 0 slot 2\n");
    let twice = cut(image.clone(), &put_of(7, b"b"), 6);
    told(&twice, &lines("2 dead 0 cut 0 empty 13", "blank", &both, 1));
    let mut replaced = twice;
    perform(&mut replaced, G, &Request::Recover, UNLIMITED);
    let second = "block 7 len 1 seg 0 slot 2\n";
    told(
        &replaced,
        &lines("1 dead 1 cut 0 empty 13", "blank", second, 0),
    );
    for _ in 0..14 {
        put(&mut image, G, 7, b"b", UNLIMITED);
    }
    let last = "block 7 len 1 seg 0 slot 15\n";
    let opening = cut(image, &put_of(8, b"c"), 20);
    told(&opening, &lines("1 dead 14 cut 0 empty 0", "torn", last, 2));
}

/// A wrong size is no refusal; nothing of the image is looked at.
#[test]
fn wrong_sizes() {
    let image = formatted(G);
    let store = Store::new("the account of wrong sizes");
    for (n, b) in [(4, 14), (4, 16), (1, 15), (256, 15), (0, 0), (15, 4)] {
        assert_eq!(store.account(&image, Geometry { n, b }), "fails 0\n");
    }
    told(&image[1..], "fails 0\n");
    told(&[&image[..], &[0xFF]].concat(), "fails 0\n");
    told(&[], "fails 0\n");
}

/// 14 exactly if the buffer is shorter than the text, and then it stays as it is.
#[test]
fn every_length_of_the_buffer() {
    let mut image = owing_board(Version::Two);
    image[G.page(2, 4)] = WRITING;
    for image in [&image[..], &[]] {
        let text = account(image, G);
        for length in 0..text.len() + 40 {
            let before: Vec<u8> = (0..length).map(|i| (i * 7 + 3) as u8).collect();
            let mut buffer = before.clone();
            let reply = account_into(image, G, &mut buffer);
            if length < text.len() {
                assert_eq!(reply, (SHORT_BUFFER, 0));
                assert!(buffer == before);
            } else {
                assert_eq!(reply, (DONE, text.len()));
                assert!(buffer.starts_with(text.as_bytes()));
                assert!(buffer[text.len()..] == before[text.len()..]);
            }
            #[cfg(qbx_lib)]
            crate::harness::library::compare_account(image, G, &text, &[length]);
        }
    }
}

/// Every segment in use and every slot live, all numbers as long as they get.
#[test]
fn the_longest_texts() {
    let store = Store::new("the longest accounts");
    for (n, b, length) in [(4, 15, 2_220), (64, 255, 581_576), (255, 255, 2_364_768)] {
        let g = Geometry { n, b };
        let mut image = blank(g);
        for number in g.wear_limit() - n as u32..g.wear_limit() {
            write_header(&mut image, g, number, SETTLED);
            owe(&mut image, g, number);
            for slot in 1..=b {
                let at = g.page(g.index(number), slot);
                let block = 65_534 - (g.index(number) * b + slot) as u16 % 50_000;
                write_slot_page(&mut image[at..at + PAGE], LIVE, block, &[0; MAX_LENGTH]);
            }
        }
        let text = store.account(&image, g);
        assert_eq!(text.len(), length);
        assert!(text.ends_with("fails 1\n"));
    }
}
