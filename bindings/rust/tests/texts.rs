//! Whole texts through the wrapper.
use sortlib::raw;

/// The brake certificate of the repository's first page, and its answer there.
const BRAKE: &[u8] = b"\
sort Certificate
sort Reading
sort Setpoint
fun measured Certificate Reading
prim shows 1 simple Certificate Setpoint
prim shows 1 simple Certificate Reading

local c Certificate
atom shows c d
";
const OPEN: &[u8] = b"open 2\nunsorted 9 d\n";

fn answer(text: &[u8]) -> Vec<u8> {
    sortlib::text(text).expect("a thread starts")
}

#[test]
fn a_form_that_nothing_decides_stays_open() {
    assert_eq!(answer(BRAKE), OPEN);
}

#[test]
fn any_bytes_are_a_text() {
    assert_eq!(answer(b""), b"ok 0 passes 1\n");
    assert_eq!(answer(&[0, 255]), b"refused 50 line 1\n");
    assert_eq!(answer(&[b'\n'; 32768]), b"ok 0 passes 1\n");
    assert_eq!(answer(&[b'\n'; 32769]), b"refused 52 line 0\n");
}

#[test]
fn an_output_longer_than_usual_comes_whole() {
    let names = || (0..100).map(|k| format!("t{k:0>100}"));
    let locals: String = names().map(|t| format!("local {t} S\n")).collect();
    let rows: String = names().map(|t| format!("{t} S\n")).collect();
    let whole = format!("ok 100 passes 2\n{rows}");
    assert!(4096 < whole.len());
    assert_eq!(
        answer(format!("sort S\n{locals}").as_bytes()),
        whole.as_bytes()
    );
}

#[test]
fn room_is_filled_at_the_front_or_left_alone() {
    for room in 0..2 * OPEN.len() {
        let mut out = vec![7; room];
        assert_eq!(raw::text(BRAKE, &mut out), OPEN.len());
        let mut expected = vec![7; room];
        if OPEN.len() <= room {
            expected[..OPEN.len()].copy_from_slice(OPEN);
        }
        assert_eq!(out, expected);
    }
}
