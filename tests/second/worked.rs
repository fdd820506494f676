//! The store's own checks: lists worked out by hand, the operators by their digits, walks under
//! pass rules beside those without, rows provoked and logs replayed beside such walks, and the
//! records that a rule needs beside the nodes that the collapse leaves.

use crate::play::play;
use crate::store::{depends, records_of, rule_of, Rule};
use crate::{all_tables, digits, draw, flag_count, orders, sized};

/// Lists, with the words of `sized` for numbers of cells, and what is printed for them, the lines
/// parted by `;`.
pub const LISTS: &[(&str, &str)] = &[
    // Parity lacks its root, x1 XOR x2, the opposite of that and of x2: nine records with the five
    // used. Within x0 XOR x1 stands the opposite of x1, whose number is free.
    (
        "list 9r;o 3 012 9;f 0;f 1;j 6 @1 @2;f 2;j 6 @3 @4;t 10 8;end",
        "open accepted used 0;rule 2 used 1;rule 3 used 2;rule 5 used 4;rule 6 used 5;\
         rule 10 used 9;table 01101001 used 9;end used 9;node 2 01010101;node 3 00110011;\
         node 5 01100110;node 6 00001111;node 10 01101001;sum 4220",
    ),
    (
        "list 8r;o 3 012 9;f 0;f 1;j 6 @1 @2;f 2;j 6 @3 @4;x @3 0 1;x 5 0 1;x @3 0 0;w @6 2;end",
        "open accepted used 0;rule 2 used 1;rule 3 used 2;rule 5 used 4;rule 6 used 5;\
         refused 10 used 5;rule inner used 5;rule @6 used 5;rule 3 used 5;\
         answer 0 asked 2 number 1 used 5;end used 5;node 2 01010101;node 3 00110011;\
         node 5 01100110;node 6 00001111;node inner 11001100;sum 2620",
    ),
    // x0x1 + x2x3 needs its root and x1 + x2x3; in 0 2 1 3 also x1 + x3.
    (
        "list 8r;o 4 0123 0;f 0;f 1;j 1 @1 @2;f 2;f 3;j 1 @4 @5;j 7 @3 @6;w @7 12;w @7 6;end",
        "open accepted used 0;rule 2 used 1;rule 3 used 2;rule 4 used 3;rule 5 used 4;\
         rule 6 used 5;rule 7 used 6;rule 9 used 8;answer 1 asked 13 number 3 used 8;\
         answer 0 asked 13 number 3 used 8;end used 8;node 2 0101010101010101;\
         node 3 0011001100110011;node 4 0001000100010001;node 5 0000111100001111;\
         node 6 0000000011111111;node 7 0000000000001111;node 9 0001000100011111;sum 17697",
    ),
    (
        "list 8r;o 4 0213 0;f 0;f 1;j 1 @1 @2;f 2;f 3;j 1 @4 @5;j 7 @3 @6;o 9 0 3;end",
        "open accepted used 0;rule 2 used 1;rule 3 used 2;rule 4 used 3;rule 5 used 4;\
         rule 6 used 5;rule 7 used 6;refused 10 used 6;open refused 4 used 3;end used 3",
    ),
    // With flag 1 asked first, x0 and not x1 needs its root alone. The opposite of x1 is lacking.
    (
        "list 3r;o 2 10 0;f 0;f 1;j 2 @1 @2;j 12 @2 0;j 5 @2 @3;c @1 @2 @2;x @1 1 0;j 16 5 0;end",
        "open accepted used 0;rule 2 used 1;rule 3 used 2;rule 4 used 3;refused 10 used 3;\
         rule 4 used 3;rule 3 used 3;rule 2 used 3;refused 7 used 3;end used 3;node 2 0101;\
         node 3 0011;node 4 0100;sum 345",
    ),
    // Two of three flags: where the first two are alike, both 0 or both 1, the third is not asked.
    // An end node asks none.
    (
        "list 6r;o 3 012 0;f 0;f 1;f 2;j 7 @2 @3;j 1 @2 @3;c @1 @4 @5;w 7 0;w @6 7;w @6 2;w @6 5;\
         w 5 4;w 1 5;w 8 0;w @6 8;end",
        "open accepted used 0;rule 2 used 1;rule 3 used 2;rule 4 used 3;rule 5 used 4;\
         rule 6 used 5;rule 7 used 6;answer 0 asked 3 number 2 used 6;\
         answer 1 asked 3 number 2 used 6;answer 0 asked 7 number 3 used 6;\
         answer 1 asked 7 number 3 used 6;answer 1 asked 6 number 2 used 6;\
         answer 1 asked 0 number 0 used 6;refused 7 used 6;refused 9 used 6;end used 6;\
         node 2 01010101;node 3 00110011;node 4 00001111;node 5 00111111;node 6 00000011;\
         node 7 00010111;sum 3795",
    ),
    // x0 where x2 is 1, else x1: with flag 2 asked first, one of the others is not. In 0 1 2 it
    // needs its root, x1 + x2, the opposite of x2, and x1 without x2, an inner node that is walked.
    (
        "list 7r;o 3 201 0;f 0;f 1;f 2;c @3 @1 @2;w @4 6;w @4 1;w 0 7;\
         o 3 012 0;f 0;f 1;f 2;c @11 @9 @10;w @12 6;w @12 3;x @12 0 0;w @15 6;w @15 5;end",
        "open accepted used 0;rule 2 used 1;rule 3 used 2;rule 4 used 3;rule 5 used 4;\
         answer 0 asked 5 number 2 used 4;answer 0 asked 6 number 2 used 4;\
         answer 0 asked 0 number 0 used 4;open accepted used 0;rule 2 used 1;rule 3 used 2;\
         rule 4 used 3;rule 8 used 7;answer 0 asked 7 number 3 used 7;\
         answer 1 asked 3 number 2 used 7;rule inner used 7;answer 0 asked 6 number 2 used 7;\
         answer 0 asked 2 number 1 used 7;end used 7;node 2 01010101;node 3 00110011;\
         node 4 00001111;node 8 00110101;node inner 00110000;sum 3637",
    ),
    // "heel loaded and mid-swing were never both set": flags 0 and 1. The rule is x0 where x3 is 1,
    // else x2. Its flags are told also where the pass rule asks others. Then 7 ahead of 9 and 14,
    // and 9 ahead of 14.
    (
        "list 10r;o 4 0123 0;f 0;f 1;j 14 @1 @2;f 2;f 3;c @5 @1 @4;g @6 @3 3;g @6 @3 15;g @6 @3 1;\
         g @6 @3 13;g 11 5 2;g 11 5 14;g @1 @6 13;g @1 @6 14;g 11 11 13;g 12 13 16;g 11 12 16;\
         g 12 0 0;g 1 0 16;g 1 0 15;g 0 1 15;end",
        "open accepted used 0;rule 2 used 1;rule 3 used 2;rule 5 used 4;rule 6 used 5;\
         rule 7 used 6;rule 11 used 10;refused 14 used 10;refused 14 used 10;\
         answer 0 asked 13 number 3 used 10;answer 1 asked 5 number 2 used 10;\
         answer 0 asked 5 number 2 used 10;answer 0 asked 13 number 3 used 10;\
         answer 1 asked 1 number 1 used 10;refused 14 used 10;answer 1 asked 5 number 2 used 10;\
         refused 7 used 10;refused 7 used 10;refused 7 used 10;refused 9 used 10;\
         refused 14 used 10;answer 0 asked 0 number 0 used 10;end used 10;node 2 0101010101010101;\
         node 3 0011001100110011;node 5 1110111011101110;node 6 0000111100001111;\
         node 7 0000000011111111;node 11 0000111101010101;sum 21358",
    ),
    // The opposite of x1, within x0 XOR x1, as pass rule and under one.
    (
        "list 4r;g 1 0 0;o 2 01 0;f 0;f 1;j 6 @2 @3;x @4 0 1;g @4 @5 1;g @4 @5 3;g @5 @4 2;\
         g @5 @4 3;end",
        "refused 6 used 0;open accepted used 0;rule 2 used 1;rule 3 used 2;rule 5 used 4;\
         rule inner used 4;answer 1 asked 3 number 2 used 4;refused 14 used 4;\
         answer 0 asked 2 number 1 used 4;refused 14 used 4;end used 4;node 2 0101;node 3 0011;\
         node 5 0110;node inner 1100;sum 459",
    ),
    // x0x1 + x2x3 says yes for rows 3, 7, 11 and 12 to 15: the lowest is 3, and with flag 0 fixed
    // to 0 it is 12. Where flags 0 and 1 are 1 none says no. Within it stands x1 + x2x3, of rows 2,
    // 3, 6, 7 and 10 to 15.
    (
        "list 8r;o 4 0123 0;f 0;f 1;j 1 @1 @2;f 2;f 3;j 1 @4 @5;j 7 @3 @6;p @7 1 1 0 0;\
         p @7 1 1 1 0;p @7 0 1 0 0;p @7 0 1 3 3;p @7 1 1 5 4;p 9 1 1 9 1;p @7 1 1 10 0;\
         p @7 0 1 15 14;p @7 1 1 15 14;x @7 0 1;p @17 1 1 0 0;p @17 1 1 2 0;p @7 0 @17 0 0;\
         p @7 0 @17 1 1;p @17 0 @7 0 0;p @17 1 @7 8 8;p @6 1 @3 0 0;p @3 0 @6 0 0;p @5 0 @3 0 0;\
         end",
        "open accepted used 0;rule 2 used 1;rule 3 used 2;rule 4 used 3;rule 5 used 4;\
         rule 6 used 5;rule 7 used 6;rule 9 used 8;row 3 used 8;row 12 used 8;row 0 used 8;\
         refused 15 used 8;row 12 used 8;row 3 used 8;refused 15 used 8;refused 15 used 8;\
         row 14 used 8;rule inner used 8;row 2 used 8;row 12 used 8;row 2 used 8;\
         refused 15 used 8;refused 15 used 8;row 11 used 8;row 15 used 8;row 12 used 8;\
         row 3 used 8;end used 8;node 2 0101010101010101;node 3 0011001100110011;\
         node 4 0001000100010001;node 5 0000111100001111;node 6 0000000011111111;\
         node 7 0000000000001111;node 9 0001000100011111;node inner 0011001100111111;sum 17697",
    ),
    // The same in 0 2 1 3, where x1 + x3 stands within it too: the rows are no others.
    (
        "list 9r;o 4 0213 0;f 0;f 1;j 1 @1 @2;f 2;f 3;j 1 @4 @5;j 7 @3 @6;p @7 1 1 0 0;\
         p @7 1 1 1 0;p @7 0 1 0 0;p @7 0 1 3 3;p @7 1 1 5 4;p 10 1 1 9 1;p @7 1 1 10 0;\
         p @7 0 1 15 14;p @7 1 1 15 14;x @7 0 1;p @17 1 1 0 0;p @17 1 1 2 0;x @17 2 1;\
         p @20 1 1 2 0;p @20 0 1 0 0;p @7 0 @20 9 9;p @7 0 @20 5 5;end",
        "open accepted used 0;rule 2 used 1;rule 3 used 2;rule 4 used 3;rule 5 used 4;\
         rule 6 used 5;rule 7 used 6;rule 10 used 9;row 3 used 9;row 12 used 9;row 0 used 9;\
         refused 15 used 9;row 12 used 9;row 3 used 9;refused 15 used 9;refused 15 used 9;\
         row 14 used 9;rule inner used 9;row 2 used 9;row 12 used 9;rule inner used 9;\
         row 8 used 9;row 0 used 9;row 9 used 9;refused 15 used 9;end used 9;\
         node 2 0101010101010101;node 3 0011001100110011;node 4 0001000100010001;\
         node 5 0000111100001111;node 6 0000000011111111;node 7 0000000000001111;\
         node 10 0001000100011111;node inner 0011001100111111;node inner 0011001111111111;\
         sum 21191",
    ),
    // Flags 0 and 1 never both set, and x0 where x3 is 1, else x2, of rows 4 to 7, 9, 11, 13, 15.
    // Then 7 for either node, ahead of 9, and each kind of 9, ahead of 15.
    (
        "list 10r;o 4 0123 0;f 0;f 1;j 14 @1 @2;f 2;f 3;c @5 @1 @4;p @6 1 @3 0 0;p @6 1 @3 8 8;\
         p @6 1 @3 3 3;p @6 1 1 3 3;p @6 1 @3 10 10;p 11 0 5 10 10;p @3 0 @6 0 0;p @3 0 @6 8 8;\
         p @6 0 @6 0 0;p @6 0 0 0 0;p 1 0 1 0 0;p 0 0 1 15 10;p 12 1 1 0 0;p 11 1 12 0 0;\
         p 12 2 1 0 0;p 11 1 65535 16 0;p 12 65535 12 16 17;p 11 2 1 0 0;p 11 256 1 0 0;\
         p 11 65535 0 0 0;p 11 1 1 16 0;p 11 1 1 0 16;p 11 1 1 16 16;p 11 1 1 1024 0;\
         p 11 1 1 32768 32768;p 11 1 1 0 1;p 11 1 1 14 15;p 0 1 0 5 2;p 11 1 1 15 15;end",
        "open accepted used 0;rule 2 used 1;rule 3 used 2;rule 5 used 4;rule 6 used 5;\
         rule 7 used 6;rule 11 used 10;row 4 used 10;row 9 used 10;refused 15 used 10;\
         row 7 used 10;refused 15 used 10;row 10 used 10;row 7 used 10;row 11 used 10;\
         refused 15 used 10;refused 15 used 10;refused 15 used 10;row 10 used 10;\
         refused 7 used 10;refused 7 used 10;refused 7 used 10;refused 7 used 10;\
         refused 7 used 10;refused 9 used 10;refused 9 used 10;refused 9 used 10;\
         refused 9 used 10;refused 9 used 10;refused 9 used 10;refused 9 used 10;\
         refused 9 used 10;refused 9 used 10;refused 9 used 10;refused 9 used 10;row 15 used 10;\
         end used 10;node 2 0101010101010101;node 3 0011001100110011;node 5 1110111011101110;\
         node 6 0000111100001111;node 7 0000000011111111;node 11 0000111101010101;sum 21358",
    ),
    // 6 before any open. Rows 1 and 2 by x0 XOR x1, rows 0 and 1 by the opposite of x1 within it.
    (
        "list 4r;p 1 1 1 0 0;p 9 9 9 9 9;o 2 01 0;f 0;f 1;j 6 @3 @4;x @5 0 1;p @5 1 @6 0 0;\
         p @5 0 @6 0 0;p @6 1 @5 0 0;p @6 0 @5 0 0;p @6 0 @5 2 0;p @5 1 @6 1 0;p @5 1 @6 1 1;\
         p @5 1 1 3 3;p @5 0 1 3 3;p @5 0 1 4 0;p @5 0 1 1 2;p 6 1 1 0 0;p @5 1 6 0 0;end",
        "refused 6 used 0;refused 6 used 0;open accepted used 0;rule 2 used 1;rule 3 used 2;\
         rule 5 used 4;rule inner used 4;row 1 used 4;row 0 used 4;row 1 used 4;row 2 used 4;\
         refused 15 used 4;refused 15 used 4;row 1 used 4;refused 15 used 4;row 3 used 4;\
         refused 9 used 4;refused 9 used 4;refused 7 used 4;refused 7 used 4;end used 4;\
         node 2 0101;node 3 0011;node 5 0110;node inner 1100;sum 459",
    ),
    // One flag.
    (
        "list 1r;o 1 0 0;f 0;p @1 1 1 0 0;p @1 0 1 0 0;p @1 1 1 1 0;p @1 1 1 1 1;p @1 0 1 1 0;\
         p @1 1 @1 1 0;p @1 0 @1 0 0;p 1 1 @1 0 0;p @1 1 1 2 0;p @1 1 1 3 1;p @1 1 1 0 1;end",
        "open accepted used 0;rule 2 used 1;row 1 used 1;row 0 used 1;refused 15 used 1;\
         row 1 used 1;row 0 used 1;refused 15 used 1;refused 15 used 1;row 1 used 1;\
         refused 9 used 1;refused 9 used 1;refused 9 used 1;end used 1;node 2 01;sum 38",
    ),
    // Flags 9 and 0 of ten.
    (
        "list 2r;o 10 9876543210 0;f 9;f 0;p @1 1 1 0 0;p @1 1 1 512 0;p @1 0 1 511 511;\
         p @1 1 1 1023 1023;p @1 1 @2 0 0;p @2 0 @1 1 0;p @2 1 1 512 0;p @1 1 1 1024 0;\
         p @1 1 1 1023 1024;p @1 1 1 512 513;o 11 - 0;p 1 1 1 0 0;end",
        "open accepted used 0;rule 2 used 1;rule 3 used 2;row 512 used 2;refused 15 used 2;\
         row 511 used 2;row 1023 used 2;row 513 used 2;row 512 used 2;row 1 used 2;\
         refused 9 used 2;refused 9 used 2;refused 9 used 2;open refused 1 used 0;\
         refused 1 used 0;end used 0",
    ),
    // x0 and x1, and the log that rows 1, 2 and 3 make: where x0 is 0, flag 1 is not asked; with
    // flag 1 asked first, it is flag 0 where x1 is 0. Row 0 asks one flag, row 3 both.
    (
        "list 3r;o 2 01 0;f 0;f 1;j 1 @1 @2;r @3 0 1 1 2 1 3 1;r @3 0;r @3 0 3 2;\
         r @3 0 3 1 0 1 3 1;r 2 0 1 3 2 4;r @3 0 2 32766 3 1;r 1 0 3 1 0 1;r 0 0 3 4;o 2 10 9;\
         f 0;f 1;j 1 @13 @14;r @15 0 1 1 2 1 3 1;end",
        "open accepted used 0;rule 2 used 1;rule 3 used 2;rule 4 used 3;\
         tally 3 1 1 3 2 0 0 0 0 0 0 0 0 used 3;tally 0 0 0 0 0 0 0 0 0 0 0 0 0 used 3;\
         tally 2 2 0 2 2 0 0 0 0 0 0 0 0 used 3;tally 3 2 2 3 2 0 0 0 0 0 0 0 0 used 3;\
         tally 7 3 1 7 0 0 0 0 0 0 0 0 0 used 3;tally 32767 1 1 32767 1 0 0 0 0 0 0 0 0 used 3;\
         tally 2 2 0 0 0 0 0 0 0 0 0 0 0 used 3;tally 4 0 0 0 0 0 0 0 0 0 0 0 0 used 3;\
         open accepted used 0;rule 2 used 1;rule 3 used 2;rule 4 used 3;\
         tally 3 1 1 2 3 0 0 0 0 0 0 0 0 used 3;end used 3;node 2 0101;node 3 0011;node 4 0001;\
         sum 407",
    ),
    // Flags 0 and 1 never both set, and x0 where x3 is 1, else x2: flag 3 is asked where x0 and x2
    // differ, and flag 1, which the pass rule asks, never. Then 14, 9 and both, by the earliest
    // snapshot; 16 ahead of either, 7 ahead of 16; and the same rule without a pass rule.
    (
        "list 10r;o 4 0123 0;f 0;f 1;j 14 @1 @2;f 2;f 3;c @5 @1 @4;\
         q @6 @3 0 4 1 9 2 12 1 13 1 14 1;q @6 @3 0 3 1 9 1;q @6 @3 0 9 1 7 1 4 1;\
         q @6 @3 0 9 3 15 1;q @6 @3 0 9 1 11 1 16 1;q @6 @3 0 9 1 16 1 11 1;q @6 @3 0 19 1;\
         q @6 0 0 16 1;q @6 0 0 15 1;q @6 0 0;q @6 @3 1 3 1;q @6 @3 1 16 1;q 12 @3 1 16 1;\
         q 11 12 1 3 1;q 12 65535 0;r @6 0 3 1;r @6 0 15 2 16 1;r 11 1;r 11 1 15 32767;\
         q @6 @3 0 9 32766 3 1;q @6 @3 0 9 32766 16 1;end",
        "open accepted used 0;rule 2 used 1;rule 3 used 2;rule 5 used 4;rule 6 used 5;\
         rule 7 used 6;rule 11 used 10;tally 6 4 3 6 0 6 5 0 0 0 0 0 0 used 10;\
         refused 14 used 10;refused 14 used 10;refused 14 used 10;refused 14 used 10;\
         refused 9 used 10;refused 9 used 10;refused 9 used 10;refused 14 used 10;\
         tally 0 0 0 0 0 0 0 0 0 0 0 0 0 used 10;refused 16 used 10;refused 16 used 10;\
         refused 7 used 10;refused 7 used 10;refused 7 used 10;\
         tally 1 0 0 1 0 1 1 0 0 0 0 0 0 used 10;refused 9 used 10;refused 16 used 10;\
         refused 16 used 10;refused 14 used 10;refused 9 used 10;end used 10;\
         node 2 0101010101010101;node 3 0011001100110011;node 5 1110111011101110;\
         node 6 0000111100001111;node 7 0000000011111111;node 11 0000111101010101;sum 21358",
    ),
    // Ten flags, joined by AND and OR in turn: row 316 asks all, in the order 3 1 4 0 5 9 2 6 8 7,
    // and the rows before it in the log differ from it in the first of these, the second, and so
    // on, up to which they ask; each says yes if it has that flag at 1. Rows 258 and 513 are bytes
    // 02 01 and 01 02. Row 318 has flag 7 at 0, row 444 at 1; row 308 has flag 3 at 0.
    (
        "list 19r;o 10 3140592687 0;f 7;f 8;j 1 @2 @1;f 6;j 7 @4 @3;f 2;j 1 @6 @5;f 9;j 7 @8 @7;\
         f 5;j 1 @10 @9;f 0;j 7 @12 @11;f 4;j 1 @14 @13;f 1;j 7 @16 @15;f 3;j 1 @18 @17;\
         r @19 0 308 1 318 1 300 1 317 1 284 1 828 1 312 1 380 1 60 1 444 1 316 1;\
         r @2 0 258 2 513 1;q @1 @19 0 318 1 444 1;q @1 @19 0 444 1 308 1;r @19 0 1024 1;\
         r @19 0 1023 1 65535 1;o 0 - 0;end",
        "open accepted used 0;rule 2 used 1;rule 3 used 2;rule 4 used 3;rule 5 used 4;\
         rule 6 used 5;rule 7 used 6;rule 8 used 7;rule 9 used 8;rule 10 used 9;rule 11 used 10;\
         rule 12 used 11;rule 13 used 12;rule 14 used 13;rule 15 used 14;rule 16 used 15;\
         rule 17 used 16;rule 18 used 17;rule 19 used 18;rule 20 used 19;\
         tally 11 5 10 8 10 5 11 9 7 4 2 3 6 used 19;tally 3 2 1 0 0 0 0 0 0 0 0 3 0 used 19;\
         tally 2 1 1 0 0 0 0 0 0 0 2 0 0 used 19;refused 14 used 19;refused 9 used 19;\
         refused 9 used 19;open accepted used 0;end used 0;sum 0",
    ),
    // Replays between calls that make rules: x0 XOR x1, and the opposite of x1 within it. What they
    // hand back is as if no log had been played.
    (
        "list 5r;r 1 0 0 1;o 2 01 0;f 0;r @2 0 1 2 0 1;f 1;j 6 @2 @4;x @5 0 1;r @6 0 0 1 2 1 3 1;\
         q @5 @6 0 0 1 1 2;q @5 @6 0 0 1 2 1;t @5 4;j 1 @2 @4;r 6 0 3 1;f 1;end",
        "refused 6 used 0;open accepted used 0;rule 2 used 1;\
         tally 3 2 1 3 0 0 0 0 0 0 0 0 0 used 1;rule 3 used 2;rule 5 used 4;rule inner used 4;\
         tally 3 1 1 0 3 0 0 0 0 0 0 0 0 used 4;tally 3 2 1 3 3 0 0 0 0 0 0 0 0 used 4;\
         refused 14 used 4;table 0110 used 4;rule 6 used 5;\
         tally 1 1 0 1 1 0 0 0 0 0 0 0 0 used 5;rule 3 used 5;end used 5;node 2 0101;node 3 0011;\
         node 5 0110;node inner 1100;node 6 0001;sum 559",
    ),
    // No cells hold no records, and are sound before any open.
    (
        "list 0;k 1;j 6 @0 1;f 0;t 1 1;w 1 0;w 2 0;w 1 1;o 1 - 5;f 0;k 0;end",
        "rule 1 used 0;rule 0 used 0;refused 9 used 0;table 1 used 0;\
         answer 1 asked 0 number 0 used 0;refused 7 used 0;refused 9 used 0;open accepted used 0;\
         refused 10 used 0;rule 0 used 0;end used 0;node 0 00;sum 0",
    ),
    (
        "list 0;g 1 1 0;g 1 0 0;g 1 0 1;g 1 2 1;o 1 1 3;g 1 0 0;o 11 01 4;g 9 9 9;end",
        "answer 1 asked 0 number 0 used 0;refused 14 used 0;refused 9 used 0;refused 7 used 0;\
         open refused 4 used 3;refused 4 used 3;open refused 1 used 4;refused 1 used 4;end used 4",
    ),
    (
        "list 0;p 1 1 1 0 0;p 0 0 1 0 0;p 1 0 1 0 0;p 1 1 0 0 0;p 1 2 1 0 0;p 1 1 1 1 0;\
         p 1 1 1 0 1;p 1 1 1 1 1;p 1 1 1 32768 0;p 2 1 1 1 0;p 1 1 2 0 1;o 0 - 7;p 1 1 1 0 0;\
         p 0 1 1 0 0;p 1 1 1 0 512;o 1 1 3;p 1 1 1 0 0;o 11 01 4;p 9 9 9 9 9;end",
        "row 0 used 0;row 0 used 0;refused 15 used 0;refused 15 used 0;refused 9 used 0;\
         refused 9 used 0;refused 9 used 0;refused 9 used 0;refused 9 used 0;refused 7 used 0;\
         refused 7 used 0;open accepted used 0;row 0 used 0;refused 15 used 0;refused 9 used 0;\
         open refused 4 used 3;refused 4 used 3;open refused 1 used 4;refused 1 used 4;end used 4",
    ),
    // Row 0 is the only row of no flags.
    (
        "list 0;r 1 0 0 3;r 0 0 0 2;r 1 0;r 1 0 1 1;r 1 0 0 5 256 1;r 1 1;r 1 1 1 1;r 2 1 1 1;\
         q 1 1 0 0 2;q 1 0 0 0 1;q 1 0 0 1 1;q 0 0 0;q 1 2 0 0 1;o 1 1 3;r 1 0;q 9 9 1 9 9;\
         o 11 01 4;r 1 0 0 1;q 9 9 1 9 9;end",
        "tally 3 3 0 0 0 0 0 0 0 0 0 0 0 used 0;tally 2 0 0 0 0 0 0 0 0 0 0 0 0 used 0;\
         tally 0 0 0 0 0 0 0 0 0 0 0 0 0 used 0;refused 9 used 0;refused 9 used 0;\
         refused 16 used 0;refused 16 used 0;refused 7 used 0;\
         tally 2 2 0 0 0 0 0 0 0 0 0 0 0 used 0;refused 14 used 0;refused 9 used 0;\
         tally 0 0 0 0 0 0 0 0 0 0 0 0 0 used 0;refused 7 used 0;open refused 4 used 3;\
         refused 4 used 3;refused 4 used 3;open refused 1 used 4;refused 1 used 4;\
         refused 1 used 4;end used 4",
    ),
    // Cells as lent are not; a refused open leaves the state that it was given.
    (
        "list 1r;k 2;t 0 2;t 9 1;o 1 1 4;t 0 1;t 0 2;k 1;o 1 0 4;f 0;j 9 @8 2;j 6 2 3;x 2 1 0;end",
        "refused 6 used 0;refused 2 bytes kept used 0;refused 6 bytes kept used 0;\
         open refused 4 used 4;refused 2 bytes kept used 4;refused 4 bytes kept used 4;\
         refused 4 used 4;open accepted used 0;rule 2 used 1;rule 1 used 1;refused 7 used 1;\
         refused 9 used 1;end used 1;node 2 01;node 1 11;sum 38",
    ),
    (
        "list 1r+1;k 1;o 1 0 4;t 0 1;t 0 2;o 1 01 5;w 0 0;o 11 01 65535;t 0 0;c 9 9 9;end",
        "refused 5 used 0;open refused 5 used 4;refused 2 bytes kept used 4;\
         refused 5 bytes kept used 4;open refused 4 used 5;refused 4 used 5;\
         open refused 1 used 65535;refused 1 bytes kept used 65535;refused 1 used 65535;\
         end used 65535",
    ),
    (
        "list 1r+1;p 1 1 1 0 0;o 1 0 4;p 9 2 9 2 1;end",
        "refused 5 used 0;open refused 5 used 4;refused 5 used 4;end used 4",
    ),
    (
        "list 1r+1;r 1 0 0 1;o 1 0 4;q 9 9 1 9 9;end",
        "refused 5 used 0;open refused 5 used 4;refused 5 used 4;end used 4",
    ),
];

/// Joining flag 1 and flag 0 gives a table whose rows are the operator's digits.
fn by_digits(code: usize) -> bool {
    let output = play(&sized(&format!("list 5r\no 2 01 0\nf 1\nf 0\nj {code} @1 @2\nt @3 4\n")));
    output.contains(&format!("\ntable {code:04b} used "))
}

/// What is answered for each row in a store where `@7` is the rule that a code makes of flag 1 and
/// flag 0, and `@6` is made of four flags.
fn by_rows(code: usize, call: impl Fn(usize) -> String) -> Vec<String> {
    let made = "list 20r\no 4 2013 0\nf 1\nf 0\nf 2\nf 3\nj 1 @2 @3\nc @4 @5 @1\n";
    let calls: String = (0..16).map(|row| call(row) + "\n").collect();
    let output = play(&sized(&format!("{made}j {code} @1 @2\n{calls}")));
    output.lines().skip(8).map(str::to_string).collect()
}

/// Walks under `@7`: a row is refused where the code's digit is 0, under 0 each row, and is
/// answered as without a pass rule where it is 1, under 15 each row.
fn by_pass_rule(code: usize) -> bool {
    let [plain, passed] =
        ["w @6", "g @6 @7"].map(|walk| by_rows(code, |row| format!("{walk} {row}")));
    let digits = format!("{code:04b}").repeat(4);
    let mut rows = digits.chars().zip(plain.iter().zip(&passed));
    rows.all(|(digit, (plain, passed))| match digit {
        '1' => passed == plain,
        _ => passed.starts_with("refused 14 "),
    })
}

/// Logs of one snapshot under `@7`: they are refused as walks are, or tally the walk's answer and
/// each of its flags once.
fn by_snapshots(code: usize) -> bool {
    let tallied = |walked: &String| match walked.split(' ').collect::<Vec<_>>()[..] {
        ["answer", answer, "asked", set, "number", _, "used", used] => {
            let set: usize = set.parse().expect("a set");
            let asked: String = (0..10).map(|v| format!(" {}", (set >> v) & 1)).collect();
            format!("tally 1 {answer} 0{asked} used {used}")
        }
        _ => walked.clone(),
    };
    let walks = by_rows(code, |row| format!("g @6 @7 {row}"));
    walks.iter().map(tallied).eq(by_rows(code, |row| format!("q @6 @7 0 {row} 1")))
}

/// Rows provoked under the rule that a code makes of flag 1 and flag 0, the three flags being free
/// or fixed in all ways, a digit for each: 0, 1, or 2 where it is free. The row is the first that
/// has the digits and whose walk under that rule gives the answer.
fn by_walks(code: usize) -> bool {
    let made = format!("list 20r\no 3 201 0\nf 1\nf 0\nf 2\nc @3 @2 @1\nj {code} @1 @2\n");
    let last = |call: String| {
        let output = play(&sized(&format!("{made}{call}\n")));
        output.lines().last().expect("an answer").to_string()
    };
    let walks: Vec<String> = (0..8).map(|row| last(format!("g @4 @5 {row}"))).collect();
    (0..54).all(|way: usize| {
        let (digits, wanted) = ([way % 3, way / 3 % 3, way / 9 % 3], way / 27);
        let has = |row: usize| (0..3).all(|v| [2, (row >> v) % 2].contains(&digits[v]));
        let gives = |row: usize| walks[row].starts_with(&format!("answer {wanted} "));
        let row = (0..8).find(|&row| has(row) && gives(row));
        let set = |those: &[usize]| (0..3).map(|v| those[digits[v]] << v).sum::<usize>();
        let found = last(format!("p @4 {wanted} @5 {} {}", set(&[1, 1, 0]), set(&[0, 1, 0])));
        found.starts_with(&row.map_or("refused 15 ".to_string(), |row| format!("row {row} ")))
    })
}

/// The records that ask each flag, the first on which their rules depend, are as many as the nodes
/// that the collapse leaves.
fn as_drawn(table: &[usize], order: &[usize]) -> bool {
    let records = records_of(&rule_of(table), order);
    let asks = |rule: &Rule, v: usize| order.iter().find(|&&i| depends(rule, i)) == Some(&v);
    let count = |v: usize| records.iter().filter(|rule| asks(rule, v)).count();
    draw(table, order).flags == (0..order.len()).map(count).collect::<Vec<usize>>()
}

/// What doesn't agree; rules are tried up to three flags, in all orders.
pub fn faults() -> Vec<String> {
    let mut faults = Vec::new();
    for (input, expected) in LISTS {
        let found = play(&sized(input).replace(';', "\n")).trim_end().replace('\n', ";");
        if found != *expected {
            faults.push(format!("{input}: expected {expected}, found {found}"));
        }
    }
    faults.extend((0..16).filter(|&code| !by_digits(code)).map(|code| format!("operator {code}")));
    faults.extend((0..16).filter(|&c| !by_pass_rule(c)).map(|code| format!("pass rule {code}")));
    faults.extend((0..16).filter(|&c| !by_snapshots(c)).map(|code| format!("logs under {code}")));
    faults.extend((0..16).filter(|&c| !by_walks(c)).map(|code| format!("provoked under {code}")));
    for table in (0..=3).flat_map(all_tables) {
        let orders = orders(flag_count(&table), &[]).into_iter();
        let differ = orders.filter(|order| !as_drawn(&table, order));
        faults.extend(differ.map(|o| format!("records of {} in {o:?}", digits(&table))));
    }
    faults
}
