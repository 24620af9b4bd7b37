//! Stories of ownership (document 01, Owner).

use crate::build::{Build, Stage, field_read, field_write, reply_to, swap};
use model::{End, Owner, Path};

const EOP: End = End::Eop;

/// `build` from another sender: initiator and reply address.
fn from(build: Build, initiator: u8, reply_address: &[u8]) -> Build {
    let r = (reply_address.len() / 4) as u8;
    Build { instruction: build.instruction + r, initiator, reply_address: reply_address.to_vec(), ..build }
}

/// Sends on a link; gives the status, and the value in the reply if it has one.
#[track_caller]
fn swapped(stage: &mut Stage, link: u8, build: &Build) -> (u8, Option<u32>) {
    let answer = stage.send_all(&build.packet(), EOP, link);
    let path = Path::of(&build.reply_address);
    let reply = &stage.reply[path.sent().len()..answer.reply];
    let status = answer.status.unwrap();
    let value = (reply.len() == 17).then(|| [reply[12], reply[13], reply[14], reply[15]]);
    let data = value.map_or(vec![], |value| value.to_vec());
    assert_eq!(reply, reply_to(build, status, &data));
    (status, value.map(u32::from_be_bytes))
}

#[test]
fn claim_refuse_miss_rename_release_and_claim_again() {
    let mut stage = Stage::new();
    let first = |new, expected| from(swap(8, new, expected), 0x50, &[0, 0, 1, 2]);
    let second = |new, expected| from(swap(8, new, expected), 0x51, &[]);
    let first_owner = Owner { initiator: 0x50, path: Path::of(&[0, 0, 1, 2]), link: 2 };

    // Missing the value while there is no owner: nothing changes, the old value comes back.
    assert_eq!(swapped(&mut stage, 2, &first(7, 1)), (0, Some(0)));
    assert_eq!(stage.unit.owner, Owner::default());
    assert_eq!(stage.unit.fields.device_id, 0);
    // 0 to 0 claims nothing.
    assert_eq!(swapped(&mut stage, 2, &first(0, 0)), (0, Some(0)));
    assert_eq!(stage.unit.owner, Owner::default());
    // Claim.
    assert_eq!(swapped(&mut stage, 2, &first(7, 0)), (0, Some(0)));
    assert_eq!(stage.unit.fields.device_id, 7);
    assert_eq!(stage.unit.owner, first_owner);
    // A foreign swap is refused, whatever it expects.
    for expected in [0, 7] {
        assert_eq!(swapped(&mut stage, 2, &second(9, expected)), (0xF0, None));
    }
    // The owner's own with a wrong expectation.
    assert_eq!(swapped(&mut stage, 2, &first(8, 6)), (0, Some(7)));
    assert_eq!((stage.unit.fields.device_id, stage.unit.owner), (7, first_owner));
    // Another number keeps the owner.
    assert_eq!(swapped(&mut stage, 2, &first(8, 7)), (0, Some(7)));
    assert_eq!((stage.unit.fields.device_id, stage.unit.owner), (8, first_owner));
    // Release clears it.
    assert_eq!(swapped(&mut stage, 2, &first(0, 8)), (0, Some(8)));
    assert_eq!((stage.unit.fields.device_id, stage.unit.owner), (0, Owner::default()));
    // Another claims.
    assert_eq!(swapped(&mut stage, 4, &second(9, 0)), (0, Some(0)));
    let second_owner = Owner { initiator: 0x51, path: Path::default(), link: 4 };
    assert_eq!((stage.unit.fields.device_id, stage.unit.owner), (9, second_owner));
    assert_eq!(swapped(&mut stage, 2, &first(8, 9)), (0xF0, None));
}

/// Only the very same initiator, path and link are the owner.
#[test]
fn who_is_the_owner() {
    let claims: [&[u8]; 4] = [&[], &[0, 0, 0, 0], &[0, 0, 1, 2], &[1, 2, 3, 4, 5, 6, 7, 8]];
    let others: [&[u8]; 8] = [
        &[],
        &[0, 0, 0, 0],
        &[0, 0, 1, 2],
        &[0, 1, 0, 2],
        &[1, 2, 0, 0],
        &[0, 0, 0, 1],
        &[1, 2, 3, 4, 5, 6, 7, 8],
        &[0, 0, 3, 4, 5, 6, 7, 8],
    ];
    for claim in claims {
        let mut stage = Stage::new();
        assert_eq!(swapped(&mut stage, 3, &from(swap(8, 1, 0), 0x50, claim)), (0, Some(0)));
        for other in others {
            let status = if other == claim { 0 } else { 0xF0 };
            for build in [swap(8, 1, 1), field_write(1, 0, &[0]), field_write(1, 3, &[0])] {
                let build = from(build, 0x50, other);
                assert_eq!(swapped(&mut stage, 3, &build).0, status);
                // Another link, another initiator.
                assert_eq!(swapped(&mut stage, 2, &build).0, 0xF0);
                let build = Build { initiator: 0x51, ..build };
                assert_eq!(swapped(&mut stage, 3, &build).0, 0xF0);
            }
        }
    }
}

/// Padding to more words is the same path; so is one zero, however many are sent.
#[test]
fn padding_does_not_matter() {
    let mut stage = Stage::new();
    swapped(&mut stage, 1, &from(swap(8, 1, 0), 0x50, &[0, 0, 1, 2]));
    let padded = from(swap(8, 2, 1), 0x50, &[0, 0, 0, 0, 0, 0, 1, 2]);
    assert_eq!(swapped(&mut stage, 1, &padded), (0, Some(1)));

    let mut stage = Stage::new();
    swapped(&mut stage, 1, &from(swap(8, 1, 0), 0x50, &[0; 4]));
    assert_eq!(swapped(&mut stage, 1, &from(swap(8, 2, 1), 0x50, &[0; 12])), (0, Some(1)));
    assert_eq!(swapped(&mut stage, 1, &from(swap(8, 3, 2), 0x50, &[])), (0xF0, None));
}

/// Without a Device ID there is no owner, even for the sender kept as one.
#[test]
fn no_device_id_no_owner() {
    let mut stage = Stage::new();
    stage.unit.owner = Owner { initiator: 0x67, path: Path::default(), link: 1 };
    stage.unit.last_time_code = 5;
    stage.expect_refused(&field_write(1, 0, &[0]), EOP, 0xF0);
    stage.expect_refused(&field_write(1, 3, &[0]), EOP, 0xF0);
    stage.unit.fields.device_id = 1;
    stage.expect(&field_write(1, 0, &[0]), 0, &[]);
    assert_eq!(stage.unit.last_time_code, 0);
}

/// After a claim, fields 4 to 8 tell of it.
#[test]
fn the_owner_is_shown() {
    let mut stage = Stage::new();
    let claim = from(swap(8, 0xCAFE, 0), 0x50, &[0, 0, 0, 9, 8, 7, 6, 5]);
    swapped(&mut stage, 3, &claim);
    // 50 | 10 0 00011 | 000 00010 | 000 00100, read on link 2; the path 09 08 07 06 05 fills the
    // last five of twelve bytes.
    let words: [u32; 5] = [0x5083_0204, 0, 0x0000_0009, 0x0807_0605, 0xCAFE];
    let data: Vec<u8> = words.iter().flat_map(|word| word.to_be_bytes()).collect();
    stage.expect_on(2, &field_read(0, 4, 5), EOP, 0, &data);

    swapped(&mut stage, 3, &from(swap(8, 0, 0xCAFE), 0x50, &[9, 8, 7, 6, 5][..0]));
    assert_eq!(stage.unit.fields.device_id, 0xCAFE);
    let release = from(swap(8, 0, 0xCAFE), 0x50, &[0, 0, 0, 9, 8, 7, 6, 5]);
    assert_eq!(swapped(&mut stage, 3, &release), (0, Some(0xCAFE)));
    let words: [u32; 5] = [0x0000_0204, 0, 0, 0, 0];
    let data: Vec<u8> = words.iter().flat_map(|word| word.to_be_bytes()).collect();
    stage.expect_on(2, &field_read(0, 4, 5), EOP, 0, &data);
}

/// The one zero byte of an all-zero reply address takes one field of the owner address.
#[test]
fn a_zero_path_has_a_length() {
    let mut stage = Stage::new();
    swapped(&mut stage, 1, &from(swap(8, 1, 0), 0x50, &[0; 8]));
    assert_eq!(stage.unit.owner.path, Path { bytes: [0; 12], count: 1 });
    // 50 | 01 0 00001 | 000 00001 | 000 00100.
    stage.expect(&field_read(0, 4, 1), 0, &[0x50, 0x41, 0x01, 0x04]);
}
