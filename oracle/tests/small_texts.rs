//! Small texts, with what document 01 says that `sorts` prints.
use oracle::text::sorts;

fn assert_prints(text: &str, output: &str) {
    assert_eq!(sorts(text.as_bytes()), output, "{text}");
}

fn assert_refused(text: &str, number: usize, line: usize) {
    assert_prints(text, &format!("refused {number} line {line}\n"));
}

#[test]
fn the_documents_example() {
    let text = "sort Reading\nsort Metre\nfun dist Reading Metre\natom dist t d";
    assert_prints(text, "ok 2 passes 2\nt Reading\nd Metre\n");
}

#[test]
fn nothing_is_answered_in_one_pass() {
    assert_prints("", "ok 0 passes 1\n");
    assert_prints("\n\n", "ok 0 passes 1\n");
    assert_prints("sort S\npanic\n", "ok 0 passes 1\n");
}

const EITHER: &str = "sort R\nsort S\nprim shows 1 simple R\nprim shows 1 simple S\natom shows a\n";

#[test]
fn either_form_stays_open_until_a_line_decides() {
    assert_prints(EITHER, "open 1\nunsorted 5 a\n");
    assert_prints(&format!("{EITHER}local a S\n"), "ok 1 passes 2\na S\n");
    let neither = format!("sort T\nlocal a T\n{EITHER}");
    let output = "conflict 1\nnone 2\nmismatch 7 a R T\nmismatch 7 a S T\n";
    assert_prints(&neither, output);
}

#[test]
fn a_clash_and_an_arity_slip() {
    let clash = "sort S\nsort T\n\nlocal a S\nlocal b T\neq a b\n";
    assert_prints(clash, "conflict 1\nmismatch 6 a S T\n");
    let slip = "sort S\nfun f S S\natom f x\n";
    assert_prints(slip, "conflict 1\narity 3 f 1\n");
}

#[test]
fn fresh_terms_print_as_numbers_after_their_lines_terms() {
    let text = "sort S\nsort T\nfun f S T\nglobal g S\nchange f @g\nbind x =T:l\n";
    let output = "ok 4 passes 2\n@g S\n#1 T\nx T\n=T:l T\n";
    assert_prints(text, output);
}

#[test]
fn refusals_with_their_lines() {
    assert_refused("sort S\n\nsort S \n", 50, 3);
    assert_refused("sort S\n\nsort S\n", 51, 3);
    assert_refused("fun f S\n", 51, 1);
    assert_refused("sort S\nfun f S\natom f\n", 7, 3);
    assert_refused("sort S\natom f x\nfun f S\n", 20, 2);
    assert_refused("sort S\nctor f S\nset f x\n", 21, 3);
    assert_refused("prim f 1 simple\natom f x\n", 8, 2);
    assert_refused("prim f 1 equal - 0 -\natom f x\n", 8, 2);
    assert_refused("prim f 2 equal - 0 -\natom f x\n", 20, 2);
    assert_refused(&"x".repeat(32_769), 52, 0);
    assert_refused(&"x".repeat(32_768), 50, 1);
}

#[test]
fn sizes() {
    let sorts: String = (0..256).map(|n| format!("sort s{n}\n")).collect();
    assert_prints(&sorts, "ok 0 passes 1\n");
    assert_refused(&format!("{sorts}sort more\n"), 10, 257);
    assert_refused(&format!("{sorts}sort s0\n"), 51, 257);
    let locals = "local v S\n".repeat(512);
    assert_prints(&format!("sort S\n{locals}"), "ok 1 passes 2\nv S\n");
    assert_refused(&format!("sort S\n{locals}local v S\n"), 10, 514);
    let arguments = " x".repeat(2049);
    assert_refused(&format!("sort S\nfun f S\natom f{arguments}\n"), 10, 3);
    assert_refused(&format!("sort S\natom f{arguments}\n"), 20, 2);
}
