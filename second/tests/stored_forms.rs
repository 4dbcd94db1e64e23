//! Images, run files and the probe's lines.

use second::generate::damage::{damaged_image, DAMAGES};
use second::generate::pairs::sound_pair;
use second::generate::programs::EXAMPLE;
use second::generate::random::Random;
use second::image::{judge, load, save};
use second::pair::Pair;
use second::probe::{probe, saved};
use second::refusal::Refusal;
use second::runfile::{read, write, write_whole};

#[test]
fn every_rule_of_sound_refuses() {
    for (index, (words, _)) in DAMAGES.iter().enumerate() {
        for seed in 0..20 {
            let image = damaged_image(&mut Random::new(seed, index), index);
            assert_eq!(load(&image), Err(Refusal::Unsound));
            assert_eq!(judge(&image).unwrap_err().0, *words);
        }
    }
}

#[test]
fn save_and_load_give_the_same_pair() {
    let random = &mut Random::new(5, 0);
    for _ in 0..3_000 {
        let pair = sound_pair(random);
        let image = saved(&pair);
        let loaded = load(&image).unwrap();
        assert_eq!(loaded, pair);
        assert_eq!(saved(&loaded), image);
    }
}

/// An image is taken as it is or refused: no byte of it is passed over.
#[test]
fn a_changed_byte_is_kept_or_refused() {
    let random = &mut Random::new(6, 0);
    for _ in 0..20_000 {
        let mut image = saved(&sound_pair(random));
        let place = random.below(image.len());
        image[place] ^= 1 << random.below(8);
        if let Ok(pair) = load(&image) {
            assert_eq!(saved(&pair), image);
        }
    }
}

#[test]
fn save_writes_all_or_nothing() {
    let mut pair = Pair::fresh(&EXAMPLE, 2).unwrap();
    let mut short = [7; 3_443];
    assert_eq!(save(&pair, &mut short), Err(Refusal::TooShort));
    assert_eq!(short, [7; 3_443]);
    let mut longer = [7; 3_450];
    assert_eq!(save(&pair, &mut longer), Ok(()));
    assert_eq!(longer[3_444..], [7; 6]);
    pair.p.pc = 5;
    assert_eq!(save(&pair, &mut short), Err(Refusal::Unsound));
    assert_eq!(save(&pair, &mut longer[..3_000]), Err(Refusal::Unsound));
}

#[test]
fn load_wants_the_length_first() {
    assert_eq!(load(&[]), Err(Refusal::BadFile));
    assert_eq!(load(&[0; 3_443]), Err(Refusal::BadFile));
    assert_eq!(load(&[0; 3_445]), Err(Refusal::BadFile));
    assert_eq!(load(&[0; 3_444]), Err(Refusal::Unsound));
}

#[test]
fn run_file_byte_by_byte() {
    let file = write_whole(0x0102, &[0; 4], &[9; 8]).unwrap();
    let header =
        [1, 2, 2, 1, 1, 0, 0, 0, 28, 0, 0, 0, 4, 0, 0, 0, 2, 0, 0, 0, 32, 0, 0, 0, 8, 0, 0, 0];
    assert_eq!(file[..28], header);
    assert_eq!(file[28..], [0, 0, 0, 0, 9, 9, 9, 9, 9, 9, 9, 9]);
    let content = read(&file).unwrap();
    assert_eq!((content.l, content.program, content.events), (0x0102, &[0; 4][..], &[9; 8][..]));
}

#[test]
fn writing_a_run_file_refuses_lengths_then_room() {
    let mut buffer = [7; 45];
    for (program, events) in [(0, 8), (3, 8), (4_100, 0), (4, 7), (4, 32_776)] {
        let outcome = write(2, &vec![0; program], &vec![0; events], &mut buffer[..1]);
        assert_eq!(outcome, Err(Refusal::BadFile));
    }
    assert_eq!(write(2, &[0; 8], &[0; 8], &mut buffer[..43]), Err(Refusal::TooShort));
    assert_eq!(buffer, [7; 45]);
    assert_eq!(write(2, &[0; 8], &[0; 8], &mut buffer), Ok(()));
    assert_eq!(buffer[44], 7);
    assert!(read(&buffer[..44]).is_ok());
    assert_eq!(read(&buffer), Err(Refusal::BadFile));
}

/// Numbers near 2^32 must not wrap into a file that fits.
#[test]
fn offsets_do_not_wrap() {
    let mut file = write_whole(2, &[0; 8], &[0; 8]).unwrap();
    file[12..16].copy_from_slice(&0xffff_fffcu32.to_le_bytes());
    file[20..24].copy_from_slice(&24u32.to_le_bytes());
    file[24..28].copy_from_slice(&20u32.to_le_bytes());
    assert_eq!(read(&file), Err(Refusal::BadFile));
}

fn probe_lines(input: &[u8]) -> String {
    let mut output = Vec::new();
    probe(&mut &input[..], &mut output).unwrap();
    String::from_utf8(output).unwrap()
}

fn request(kind: u8, l: u16, parts: [&[u8]; 3]) -> Vec<u8> {
    let mut bytes = vec![kind, 0];
    bytes.extend(l.to_le_bytes());
    for part in parts {
        bytes.extend((part.len() as u32).to_le_bytes());
    }
    bytes.extend(parts.concat());
    bytes
}

#[test]
fn probe_answers_each_kind() {
    let image = saved(&Pair::fresh(&EXAMPLE, 2).unwrap());
    let hex = |bytes: &[u8]| bytes.iter().map(|b| format!("{b:02x}")).collect::<String>();
    let file = write_whole(2, &[0; 4], &[]).unwrap();
    let cases = [
        (request(1, 0, [&image, &[], &[]]), format!("1 0 {}\n", hex(&image))),
        (request(1, 0, [&image[1..], &[1], &[2]]), "1 10\n".to_string()),
        (request(2, 0, [&[0; 3_444], &[], &[]]), "2 11\n".to_string()),
        (request(2, 9, [&image, &EXAMPLE, &[5; 8]]), format!("2 1 0 0 0 {}\n", hex(&image))),
        (request(3, 2, [&EXAMPLE, &[], &[]]), "3 9 -\n".to_string()),
        (request(3, 0, [&EXAMPLE, &[5, 6], &[]]), "3 8 0000\n".to_string()),
        (request(4, 2, [&[0; 4], &[], &[1, 255]]), "4 9 01ff\n".to_string()),
        (request(4, 2, [&[0; 4], &[], &[7; 32]]), format!("4 0 {}\n", hex(&file))),
        (request(5, 0, [&file, &[], &[]]), "5 0 2 00000000 -\n".to_string()),
        (request(5, 0, [&[], &[], &[]]), "5 10\n".to_string()),
        (request(6, 0, [&image, &[], &[3]]), "6 9 03\n".to_string()),
        (request(6, 0, [&[], &[], &[3]]), "6 10\n".to_string()),
    ];
    for (input, line) in cases {
        assert_eq!(probe_lines(&input), line);
    }
}

#[test]
fn probe_ends_at_a_bad_request() {
    let good = request(5, 0, [&[], &[], &[]]);
    let cases = [
        request(0, 0, [&[], &[], &[]]),
        request(7, 0, [&[], &[], &[]]),
        request(5, 0, [&[0; 40_001], &[], &[]]),
        good[..15].to_vec(),
        request(5, 0, [&[], &[], &[1, 2]])[..17].to_vec(),
        [&[5, 1][..], &[0; 14]].concat(),
    ];
    for bad in cases {
        assert_eq!(probe_lines(&[&good[..], &bad].concat()), "5 10\nbad\n");
    }
    let longest = request(5, 0, [&[0; 40_000], &[0; 40_000], &[0; 40_000]]);
    assert_eq!(probe_lines(&longest), "5 10\n");
    assert_eq!(probe_lines(&[]), "");
}

#[test]
fn probe_ends_after_its_last_request() {
    let good = request(5, 0, [&[], &[], &[]]);
    assert_eq!(probe_lines(&good.repeat(65_537)), "5 10\n".repeat(65_536));
}
