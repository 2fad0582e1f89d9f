//! Frames: lengths, bytes, round trips, the order of refusals, and the timing of phase bytes.

use model::frame::{read, stated_length, timing, write, write_words, Fields, Timing};
use model::random::Random;
use model::tree::dimension;
use model::{FIELD_LIMIT, FIELD_WORDS, LONGEST, NODES, SENT_LIMIT, SHELLS, TAKEN_LIMIT};

/// Rule N3, and what follows from it.
#[test]
fn limits_of_the_build() {
    assert_eq!((NODES, SENT_LIMIT, TAKEN_LIMIT, FIELD_LIMIT), (96, 65_535, 6_225_825, 6_291_360));
    assert_eq!((SHELLS, LONGEST, FIELD_WORDS), (7, 68, 21));
}

#[test]
fn lengths_of_boards_to_try() {
    assert_eq!(stated_length(7, 1, 0), 68);
    assert_eq!(stated_length(3, 1, 2), 20);
    assert_eq!(stated_length(7, 2, 0), 12);
    assert_eq!(stated_length(1, 2, 0), 12);
    assert_eq!(stated_length(7, 1, 0), LONGEST);
}

#[test]
fn bytes_of_a_pass_1_frame() {
    let mut fields = Fields { pass: 1, phase: 7, dim: 1, sender: 5, ..Fields::default() };
    fields.sent[1] = 0x0001_0203;
    fields.sent[2] = 4;
    fields.taken[1] = 5;
    fields.taken[2] = 0x005f_0006;
    fields.total_sent = 0x0000_0700;
    fields.total_taken = FIELD_LIMIT;
    let mut buffer = [0xaa; 30];
    assert_eq!(write(6, &fields, &mut buffer), Ok(28));
    let expected = [
        1, 7, 1, 5, 3, 2, 1, 0, 4, 0, 0, 0, 5, 0, 0, 0, 6, 0, 0x5f, 0, 0, 7, 0, 0, 0xa0, 0xff, 0x5f, 0, 0xaa,
        0xaa,
    ];
    assert_eq!(buffer, expected);
    assert_eq!(read(6, &buffer[..28]), Ok(fields));
}

#[test]
fn bytes_of_a_pass_2_frame() {
    let fields =
        Fields { pass: 2, phase: 255, dim: 0, sender: 1, t: 258, total_sent: 3, ..Fields::default() };
    let mut buffer = [0xaa; 13];
    assert_eq!(write(2, &fields, &mut buffer), Ok(12));
    assert_eq!(buffer, [2, 255, 0, 1, 2, 1, 0, 0, 3, 0, 0, 0, 0xaa]);
    assert_eq!(read(2, &buffer[..12]), Ok(fields));
}

/// The longest frame, from its words (rule C6), into a byte too few, as many as it has, and one more.
#[test]
fn bytes_of_the_longest_frame() {
    let mut words = [0; FIELD_WORDS];
    words[..7].copy_from_slice(&[1, 7, 0, 64, 300, 500, 0]);
    let mut expected = vec![1, 7, 0, 64];
    for shell in 0..7 {
        (words[7 + shell], words[14 + shell]) = (100 + shell as u32, 200 + shell as u32);
        expected.extend([100 + shell as u8, 0, 0, 0]);
    }
    for shell in 0..7 {
        expected.extend([200 + shell, 0, 0, 0]);
    }
    expected.extend([44, 1, 0, 0, 244, 1, 0, 0]);
    assert_eq!(expected.len(), 68);
    for board in [65, 95, 96] {
        let mut buffer = [0xaa; 69];
        assert_eq!(write_words(board, &words, &mut buffer[..67]), Err(14));
        assert_eq!(buffer, [0xaa; 69]);
        for room in [68, 69] {
            assert_eq!(write_words(board, &words, &mut buffer[..room]), Ok(68));
            assert_eq!((&buffer[..68], buffer[68]), (&expected[..], 0xaa));
        }
        assert_eq!((read(board, &buffer[..67]), read(board, &buffer)), (Err(9), Err(9)));
        let fields = read(board, &buffer[..68]).unwrap();
        assert_eq!((fields.sent[6], fields.taken[0], fields.taken[6]), (106, 200, 206));
    }
    for board in [97, 128, 129, 256] {
        assert_eq!(write_words(board, &words, &mut [0; 69]), Err(1));
        assert_eq!(read(board, &expected), Err(1));
    }
}

/// Fields that the writer accepts for a board of at least two nodes.
fn random_fields(random: &mut Random, board: u32) -> Fields {
    let p = dimension(board).unwrap();
    let number = |random: &mut Random| match random.below(4) {
        0 => random.below(3),
        1 => FIELD_LIMIT - random.below(3),
        _ => random.below(FIELD_LIMIT + 1),
    };
    let mut fields = Fields {
        pass: 1 + random.below(2),
        phase: random.below(256) as u8,
        dim: random.below(p),
        sender: random.below(board),
        total_sent: number(random),
        ..Fields::default()
    };
    if fields.pass == 2 {
        fields.t = number(random);
        return fields;
    }
    for shell in fields.dim as usize..p as usize {
        fields.sent[shell] = number(random);
        fields.taken[shell] = number(random);
    }
    fields.total_taken = number(random);
    fields
}

/// What is written is read as the same fields (rule F7).
#[test]
fn what_is_written_is_read() {
    let mut random = Random::new(1);
    for round in 0..40_000 {
        let board = 2 + round % (NODES - 1);
        let fields = random_fields(&mut random, board);
        let room = LONGEST + random.below(4) as usize;
        let mut buffer = vec![0xa5; room];
        let length = write(board, &fields, &mut buffer).unwrap();
        assert_eq!(length, stated_length(dimension(board).unwrap(), fields.pass, fields.dim));
        assert!(buffer[length..].iter().all(|&byte| byte == 0xa5));
        assert_eq!(read(board, &buffer[..length]), Ok(fields));
    }
}

/// What is read is written as the same bytes (rule F7).
#[test]
fn what_is_read_is_written() {
    let mut random = Random::new(2);
    let (mut accepted, mut refused) = (0, 0);
    for round in 0..60_000 {
        let board = 2 + round % (NODES - 1);
        let mut buffer = vec![0; LONGEST];
        let length = write(board, &random_fields(&mut random, board), &mut buffer).unwrap();
        let mut bytes = buffer[..length].to_vec();
        let place = random.below(length as u32) as usize;
        bytes[place] = random.below(256) as u8;
        match read(board, &bytes) {
            Err(_) => refused += 1,
            Ok(fields) => {
                accepted += 1;
                let mut again = vec![0; LONGEST];
                assert_eq!(write(board, &fields, &mut again), Ok(length));
                assert_eq!(again[..length], bytes);
            }
        }
    }
    assert!(accepted > 10_000 && refused > 1_000);
}

fn first(conditions: &[(bool, u8)]) -> Option<u8> {
    conditions.iter().find(|(met, _)| *met).map(|(_, number)| *number)
}

/// Frame writer: 1, 10 step, 10 numbers, 2, 14 (rule R3).
#[test]
fn writer_order_of_refusals() {
    for board in [0, 1, 2, 6, 64, 95, 96, 97, 128, 129, 256, 257, u32::MAX] {
        let p = dimension(board).unwrap_or(0);
        for pass in [0, 1, 2, 3, 257, u32::MAX] {
            for dim in [0, 1, 2, 5, 6, 7, 8, 256, u32::MAX] {
                for number in [0, FIELD_LIMIT, FIELD_LIMIT + 1, u32::MAX] {
                    for sender in [0, 1, 5, 6, 95, 96, 255, 256, u32::MAX] {
                        for room in [0, 11, 12, 27, 28, 67, 68, 69] {
                            let fields = Fields {
                                pass,
                                phase: 9,
                                dim,
                                sender,
                                total_sent: number,
                                ..Fields::default()
                            };
                            let odd = pass == 0 || pass > 2 || dim >= p;
                            let short = !odd && room < stated_length(p, pass, dim);
                            let expected = first(&[
                                (board == 0 || board > NODES, 1),
                                (odd, 10),
                                (number > FIELD_LIMIT, 10),
                                (sender >= board, 2),
                                (short, 14),
                            ]);
                            let mut buffer = vec![0x5a; room];
                            let answer = write(board, &fields, &mut buffer);
                            assert_eq!(answer.err(), expected);
                            let touched = answer.unwrap_or(0);
                            assert!(buffer[touched..].iter().all(|&byte| byte == 0x5a));
                        }
                    }
                }
            }
        }
    }
}

/// Words above 255 where a frame has a byte: a phase gives 10 after 1, the others what the writer gives (rule C7).
#[test]
fn words_that_are_no_byte() {
    let refused = [0, 97, 128, 129, 256, 257].map(|board| (board, 1));
    for (board, sender) in [(1, 10), (2, 2), (6, 2), (95, 2), (96, 2)].into_iter().chain(refused) {
        let others = if sender == 1 { 1 } else { 10 };
        for (at, expected) in [(0, others), (1, others), (2, others), (3, sender)] {
            for word in [256, 257, 65_537, u32::MAX] {
                let mut words = [0; FIELD_WORDS];
                (words[0], words[3]) = (1, 1);
                words[at] = word;
                let mut buffer = [0x5a; LONGEST];
                assert_eq!(write_words(board, &words, &mut buffer), Err(expected));
                assert_eq!(buffer, [0x5a; LONGEST]);
            }
        }
    }
    let mut words = [0; FIELD_WORDS];
    (words[0], words[1], words[3], words[4], words[6]) = (2, 257, 9, 3, 258);
    assert_eq!(write_words(2, &words, &mut []), Err(10));
    (words[1], words[3]) = (255, 1);
    let mut buffer = [0; 12];
    assert_eq!(write_words(2, &words, &mut buffer), Ok(12));
    assert_eq!(buffer, [2, 255, 0, 1, 2, 1, 0, 0, 3, 0, 0, 0]);
}

/// A number that the frame lacks is 0, else the writer gives 10 (rule F4).
#[test]
fn writer_wants_the_other_numbers_0() {
    let mut buffer = [0; LONGEST];
    for pass in [1, 2] {
        for dim in 0..3 {
            let base = Fields { pass, phase: 0, dim, sender: 5, ..Fields::default() };
            assert!(write(6, &base, &mut buffer).is_ok());
            for shell in 0..SHELLS {
                let has = pass == 1 && (dim as usize..3).contains(&shell);
                let mut sent = base;
                sent.sent[shell] = 1;
                assert_eq!(write(6, &sent, &mut buffer).is_ok(), has);
                let mut taken = base;
                taken.taken[shell] = 1;
                assert_eq!(write(6, &taken, &mut buffer).is_ok(), has);
            }
            assert_eq!(write(6, &Fields { total_taken: 1, ..base }, &mut buffer).is_ok(), pass == 1);
            assert_eq!(write(6, &Fields { t: 1, ..base }, &mut buffer).is_ok(), pass == 2);
            assert!(write(6, &Fields { total_sent: 1, ..base }, &mut buffer).is_ok());
        }
    }
}

/// The largest number is accepted and the next gives 10 (rule F2), at each number of a frame.
#[test]
fn each_number_at_its_limit() {
    let mut buffer = [0; LONGEST];
    for (board, pass) in [(6, 1), (6, 2), (96, 1), (96, 2)] {
        for dim in 0..dimension(board).unwrap() {
            let base = Fields { pass, phase: 0, dim, sender: 0, ..Fields::default() };
            let length = write(board, &base, &mut buffer).unwrap();
            for word in 0..(length - 4) / 4 {
                for (number, expected) in [
                    (FIELD_LIMIT - 1, None),
                    (FIELD_LIMIT, None),
                    (FIELD_LIMIT + 1, Some(10)),
                    (u32::MAX, Some(10)),
                ] {
                    let mut bytes = buffer[..length].to_vec();
                    bytes[4 + 4 * word..8 + 4 * word].copy_from_slice(&number.to_le_bytes());
                    assert_eq!(read(board, &bytes).err(), expected);
                }
            }
        }
    }
}

/// Frame reader: 1, 9 under 4 bytes, 10 step, 9 length, 10 numbers, 2 (rule R3).
#[test]
fn reader_order_of_refusals() {
    for board in [0, 1, 2, 6, 64, 95, 96, 97, 128, 129, 256, 257, u32::MAX] {
        let p = dimension(board).unwrap_or(0);
        for pass in [0u8, 1, 2, 3, 255] {
            for dim in [0u8, 1, 2, 3, 6, 7, 8, 255] {
                for sender in [0u8, 1, 2, 5, 6, 95, 96, 255] {
                    for length in (0..=30).chain([67, 68, 69, 100]) {
                        for number in [0, FIELD_LIMIT, FIELD_LIMIT + 1] {
                            let mut bytes = vec![pass, 3, dim, sender];
                            while bytes.len() < length {
                                bytes.extend(number.to_le_bytes());
                            }
                            bytes.truncate(length);
                            let odd = !(1..=2).contains(&pass) || u32::from(dim) >= p;
                            let stated = if odd { 0 } else { stated_length(p, pass.into(), dim.into()) };
                            let expected = first(&[
                                (board == 0 || board > NODES, 1),
                                (length < 4, 9),
                                (odd, 10),
                                (length != stated, 9),
                                (number > FIELD_LIMIT, 10),
                                (u32::from(sender) >= board, 2),
                            ]);
                            assert_eq!(read(board, &bytes).err(), expected);
                        }
                    }
                }
            }
        }
    }
}

#[test]
fn timing_of_phase_bytes() {
    assert_eq!(timing(255, 0), Timing::Late);
    assert_eq!(timing(0, 255), Timing::Early);
    assert_eq!(timing(5, 3), Timing::Foreign);
    for node in 0..=255u8 {
        for item in 0..=255u8 {
            let expected = match item.wrapping_sub(node) {
                0 => Timing::Now,
                1 => Timing::Early,
                2..=254 => Timing::Foreign,
                255 => Timing::Late,
            };
            assert_eq!(timing(item, node), expected);
        }
    }
}
