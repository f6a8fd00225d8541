//! The logs of examples/, and what the program is expected to make of them.

use imgcopy::{audit, audit_joined, check_log, log_prefix, recover, redo, redo_into, Fault};
use std::fs;
use std::path::{Path, PathBuf};

fn example(name: &str) -> PathBuf {
    Path::new(env!("CARGO_MANIFEST_DIR"))
        .join("../../../examples")
        .join(name)
}

fn log(name: &str) -> Vec<u8> {
    fs::read(example(&format!("{name}.log"))).expect("the example")
}

#[test]
fn the_calls_have_this_version() {
    // SAFETY: the call takes nothing.
    assert_eq!(
        unsafe { imgcopy_sys::imgcopy_abi() },
        imgcopy_sys::IMGCOPY_ABI
    );
}

#[test]
fn each_right_log_gives_its_volume() {
    for name in [
        "checkpoint",
        "four_records",
        "growth",
        "interleaved",
        "rollback",
    ] {
        let (log, volume) = (
            log(name),
            fs::read(example(&format!("{name}.volume"))).expect("the volume"),
        );
        assert_eq!(redo(&log), Ok(volume.clone()), "{name}");
        let counts = check_log(&log).expect(name);
        assert_eq!(
            counts.pages as usize * imgcopy::PAGE_BYTES,
            volume.len(),
            "{name}"
        );
        assert_eq!(counts.end as usize, log.len(), "{name}");
        assert_eq!(counts.records as usize, log.len() / 64 - 1, "{name}");
        let prefix = log_prefix(&log).expect(name);
        assert_eq!(
            (prefix.end, prefix.fault, prefix.forced_behind),
            (counts.end, None, None),
            "{name}"
        );
    }
}

#[test]
fn each_wrong_log_gives_its_fault() {
    for name in ["bad_chain", "torn"] {
        let fault = fs::read_to_string(example(&format!("{name}.fault"))).expect("the fault");
        let said = redo(&log(name)).expect_err(name);
        assert_eq!(format!("{said}\n"), fault);
        assert_eq!(check_log(&log(name)), Err(said));
        assert_eq!(log_prefix(&log(name)).expect(name).fault, Some(said));
    }
    assert_eq!(check_log(&[]), Err(Fault::BadHeader));
}

#[test]
fn a_room_that_is_too_short_stays_as_it_was() {
    let log = log("growth");
    let mut room = [7; 1535];
    assert_eq!(
        redo_into(&log, &mut room),
        Err(Fault::TooShort { needed: 1536 })
    );
    assert_eq!(room, [7; 1535]);
    let mut room = [7; 1537];
    assert_eq!(redo_into(&log, &mut room), Ok(1536));
    assert_eq!(room[1536], 7);
}

#[test]
fn archives_have_to_add_up_and_to_begin() {
    let log = log("growth");
    assert_eq!(audit(&log, &[]), Err(Fault::ChainBroken { copy: 0 }));
    assert_eq!(audit(&log, &[&[0; 64]]), Err(Fault::BadArchive { at: 0 }));
    for lengths in [&[][..], &[1], &[3], &[usize::MAX, 3]] {
        assert_eq!(
            audit_joined(&log, &[0; 2], lengths),
            Err(Fault::LengthsDiffer)
        );
    }
}

#[test]
fn a_recovered_log_has_nothing_to_recover() {
    for name in [
        "checkpoint",
        "four_records",
        "growth",
        "interleaved",
        "rollback",
    ] {
        let log = log(name);
        // What is open where the log is cut is undone.
        for end in (64..=log.len()).step_by(64) {
            let cut = &log[..end];
            let found = recover(cut).expect(name);
            let whole = [cut, &found.tail].concat();
            assert_eq!(redo(&whole), Ok(found.volume.clone()), "{name} up to {end}");
            let again = recover(&whole).expect(name);
            assert_eq!(
                (again.volume, again.tail.len()),
                (found.volume, 0),
                "{name} up to {end}"
            );
        }
    }
}
