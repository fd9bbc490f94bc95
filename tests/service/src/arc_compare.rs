//! One call on the service and on the model of a D-ARC box, with every byte compared.
use crate::arc_calls::{call_guarded, call_many_guarded, call_report_guarded};
use model::arc::{carry_out, carry_out_many, carry_out_report, ArcLent, ArcNumbers, ARC_STATE};
use model::{Call, Folder, Report, ZEROS};

/// Carries a call out on the service and on the model's copy of the box. Gives the number on which both agree.
pub fn compare(call: Call, address: u32, lent: &mut ArcLent, shift: usize, context: &dyn Fn() -> String) -> u32 {
    let before = lent.clone();
    let mut expected = lent.clone();
    let number = carry_out(call, address, &mut expected);
    let given = call_guarded(call, address, lent, shift);
    assert_eq!(given, number, "number of {call:?} {address}, {}", context());
    if let Some(place) = lent.difference(&expected) {
        panic!("after {call:?} {address} with number {number}: {place}, {}", context());
    }
    if number != 0 {
        // Said again without the model: a refused call keeps every byte, a refused opening sets n, the label, p and the five sizes to zeros.
        let mut kept = before;
        if call == Call::Open && kept.base.state.len() == ARC_STATE {
            kept.base.state = ArcNumbers { n: 0, label: ZEROS, adaptive: 0, sizes: [0; 5], ..kept.numbers() }.to_bytes();
        }
        if let Some(place) = lent.difference(&kept) {
            panic!("refused {call:?} {address} with number {number}: {place}, {}", context());
        }
    }
    given
}

/// The same for one call for a folder.
pub fn compare_many(lent: &mut ArcLent, folder: &mut Folder, shift: usize, context: &dyn Fn() -> String) -> u32 {
    let before = (lent.clone(), folder.clone());
    let mut expected = before.clone();
    let number = carry_out_many(&mut expected.0, &mut expected.1);
    let given = call_many_guarded(lent, folder, shift);
    assert_eq!(given, number, "number of the folder {:?}, {}", folder.asked, context());
    // Said again without the model: a refused call keeps every byte.
    for (other, what) in [(expected, "the model"), (before, "what it was before")].into_iter().take(1 + (number != 0) as usize) {
        if let Some(place) = lent.difference(&other.0).or(folder.difference(&other.1)) {
            panic!("after the folder {:?} with number {number}, against {what}: {place}, {}", folder.asked, context());
        }
    }
    given
}

/// The same for a report, which changes no buffer but its own, and that one only where it is made.
pub fn compare_report(report: Report, lent: &mut ArcLent, bytes: &mut Vec<u8>, shift: usize, context: &dyn Fn() -> String) -> u32 {
    let before = (lent.clone(), bytes.clone());
    let mut expected = bytes.clone();
    let number = carry_out_report(report, lent, &mut expected);
    let given = call_report_guarded(report, lent, bytes, shift);
    assert_eq!(given, number, "number of the report {report:?}, {}", context());
    assert!(*bytes == expected && (number == 0 || *bytes == before.1), "bytes of the report {report:?} with number {number}, {}", context());
    assert_eq!(lent.difference(&before.0), None, "after the report {report:?}, {}", context());
    given
}
