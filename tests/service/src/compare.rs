//! One call on the service and on the model, with every byte compared.
use crate::calls::{call_guarded, call_many_guarded, call_report_guarded, call_restore_guarded, call_save_guarded};
use model::image::{carry_out_restore, carry_out_save};
use model::{carry_out, carry_out_many, carry_out_report, Call, Folder, Lent, Numbers, Report, STATE, ZEROS};

/// Carries a call out on the service and on the model's copy of the box. Gives the number on which both agree.
pub fn compare(call: Call, address: u32, lent: &mut Lent, shift: usize, context: &dyn Fn() -> String) -> u32 {
    let before = lent.clone();
    let mut expected = lent.clone();
    let number = carry_out(call, address, &mut expected);
    let given = call_guarded(call, address, lent, shift);
    assert_eq!(given, number, "number of {call:?} {address}, {}", context());
    if let Some(place) = lent.difference(&expected) {
        panic!("after {call:?} {address} with number {number}: {place}, {}", context());
    }
    if number != 0 {
        // Said again without the model: a refused call keeps every byte, a refused opening sets n and the label to zeros.
        let mut kept = before;
        if call == Call::Open && kept.state.len() == STATE {
            kept.state = Numbers { n: 0, label: ZEROS, ..kept.numbers() }.to_bytes();
        }
        if let Some(place) = lent.difference(&kept) {
            panic!("refused {call:?} {address} with number {number}: {place}, {}", context());
        }
    }
    given
}

/// The same for one call for a folder.
pub fn compare_many(lent: &mut Lent, folder: &mut Folder, shift: usize, context: &dyn Fn() -> String) -> u32 {
    let before = (lent.clone(), folder.clone());
    let mut expected = before.clone();
    let number = carry_out_many(&mut expected.0, &mut expected.1);
    let given = call_many_guarded(lent, folder, shift);
    assert_eq!(given, number, "number of the folder {:?}, {}", folder.asked, context());
    // Said again without the model: a refused call keeps every byte.
    for (other, what) in [(expected, "the model"), (before, "what it was before")].into_iter().take(1 + (number != 0) as usize) {
        if let Some(place) = lent.difference(&other.0).or(folder.difference(&other.1)) {
            panic!("after the folder {:?} with number {number}, against {what}: {place}, {}", folder.asked, context());
        }
    }
    given
}

/// The same for a report, which changes no buffer but its own, and that one only where it is made.
pub fn compare_report(report: Report, lent: &mut Lent, bytes: &mut Vec<u8>, shift: usize, context: &dyn Fn() -> String) -> u32 {
    let (before, mut expected) = (lent.clone(), bytes.clone());
    let kept = bytes.clone();
    let number = carry_out_report(report, lent, &mut expected);
    let given = call_report_guarded(report, lent, bytes, shift);
    assert_eq!(given, number, "number of the report {report:?}, {}", context());
    assert!(*bytes == expected, "the report {report:?} with number {number} is {bytes:?} where {expected:?} is expected, {}", context());
    assert!(number == 0 || *bytes == kept, "the refused report {report:?}, {}", context());
    if let Some(place) = lent.difference(&before) {
        panic!("the report {report:?} with number {number} changed the box: {place}, {}", context());
    }
    given
}

fn place(one: &[u8], two: &[u8]) -> Option<usize> {
    one.iter().zip(two).position(|(x, y)| x != y)
}

/// The same for a save.
pub fn compare_save(lent: &mut Lent, area: &mut [u8], shift: usize, context: &dyn Fn() -> String) -> u32 {
    let before = (lent.clone(), area.to_vec());
    let mut expected = before.clone();
    let number = carry_out_save(&mut expected.0, &mut expected.1);
    let given = call_save_guarded(lent, area, shift);
    assert_eq!(given, number, "number of a save into {} bytes, {}", area.len(), context());
    // Said again without the model: a refused save keeps every byte.
    for (other, what) in [(expected, "the model"), (before, "what it was before")].into_iter().take(1 + (number != 0) as usize) {
        if let Some(place) = lent.difference(&other.0).or(place(area, &other.1).map(|k| format!("area: byte {k}"))) {
            panic!("after a save with number {number}, against {what}: {place}, {}", context());
        }
    }
    given
}

/// The same for a restore, which is lent the state and the tables of a box. The bytes of the lists are kept.
pub fn compare_restore(lent: &mut Lent, area: &mut [u8], lists: &mut [u8], shift: usize, context: &dyn Fn() -> String) -> u32 {
    let (mut kept, kept_area, kept_lists) = (lent.clone(), area.to_vec(), lists.to_vec());
    let (mut expected, mut expected_area) = (kept.clone(), kept_area.clone());
    let number = carry_out_restore(&mut expected, &mut expected_area, lists.len());
    let given = call_restore_guarded(lent, area, lists, shift);
    assert_eq!(given, number, "number of a restore from {} bytes, {}", area.len(), context());
    if let Some(place) = lent.difference(&expected).or(place(area, &expected_area).map(|k| format!("area: byte {k}"))) {
        panic!("after a restore with number {number}: {place}, {}", context());
    }
    assert!(lists == kept_lists, "the lists after a restore with number {number}, {}", context());
    if number != 0 {
        // Said again without the model: a refused restore keeps every byte but the record, which is zeros; the counters are no part of it.
        if kept.state.len() == STATE {
            kept.state[..40].fill(0);
            kept.state[72..].fill(0);
        }
        if let Some(place) = lent.difference(&kept).or(place(area, &kept_area).map(|k| format!("area: byte {k}"))) {
            panic!("refused restore with number {number}: {place}, {}", context());
        }
    }
    given
}
