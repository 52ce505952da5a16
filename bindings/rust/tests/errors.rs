//! What is answered where a layout cannot be made.

use std::fmt::Write;
use yezhgulo::{layout, Doc, Error, Fault, RenderOptions, Writer};

fn fails(written: &str) -> Error {
    let written = written.as_bytes().to_vec();
    Error::Fails { written }
}

#[test]
fn a_document_that_fails_answers_what_comes_before() {
    let before = Doc::text("é") + Doc::hard_line();
    assert_eq!((before + Doc::fail() + "b").pretty(80), Err(fails("é\n")));
    assert_eq!(
        (Doc::text("a") + Doc::hard_line()).flatten().pretty(80),
        Err(fails("a"))
    );
    assert_eq!(
        (Doc::text("a") + Doc::multiline_text("b\n")).flatten().pretty(80),
        Err(fails("a"))
    );
}

#[test]
fn all_comes_that_is_before_the_node_that_fails() {
    // The program has some 30 bytes, and this is far more.
    let indent = 100_000;
    let doc = (Doc::hard_line() + "a" + Doc::fail()).nest(indent);
    let mut expected = "\n".to_string();
    expected.push_str(&" ".repeat(100_000));
    expected.push('a');
    assert_eq!(doc.pretty(80), Err(fails(&expected)));
}

#[test]
fn a_layout_is_as_long_as_the_limit_at_most() {
    let doc = Doc::text("ab") + Doc::hard_line() + "cd";
    let options = RenderOptions::new(80);
    assert_eq!(doc.layout(&options.with_limit(5)).as_deref(), Ok("ab\ncd"));
    assert_eq!(doc.layout(&options.with_limit(0)).as_deref(), Ok("ab\ncd"));
    assert_eq!(doc.layout(&options.with_limit(usize::MAX)).as_deref(), Ok("ab\ncd"));
    for limit in 1..5 {
        let error = doc.layout(&options.with_limit(limit)).unwrap_err();
        assert!(matches!(error, Error::PastLimit { .. }), "{limit}");
        assert!(error.written().len() <= limit);
        assert!(b"ab\ncd".starts_with(error.written()));
    }
}

#[test]
fn a_limit_ends_a_layout_that_is_far_longer() {
    // The layout would have 268 million bytes.
    let far = (Doc::hard_line() + "a").nest(1 << 28);
    let error = far.layout(&RenderOptions::new(80).with_limit(1 << 20)).unwrap_err();
    assert!(matches!(error, Error::PastLimit { .. }));
    assert!(error.written().len() <= 1 << 20);
}

#[test]
fn a_failure_before_the_limit_is_a_failure() {
    let doc = Doc::text("abc") + Doc::fail();
    let options = RenderOptions::new(80);
    assert_eq!(doc.layout(&options.with_limit(3)), Err(fails("abc")));
    let error = doc.layout(&options.with_limit(2)).unwrap_err();
    assert!(matches!(error, Error::PastLimit { .. }));
}

#[test]
fn bytes_that_are_no_program() {
    let fault = |program: &[u8]| match layout(program, &RenderOptions::new(80)) {
        Err(Error::NotAProgram(fault)) => fault,
        other => panic!("{program:?}: {other:?}"),
    };
    assert_eq!(fault(&[8]), Fault::Instruction);
    assert_eq!(fault(&[0, 0, 57]), Fault::Instruction);
    assert_eq!(fault(&[16, 1, 0, 0]), Fault::Operand);
    assert_eq!(fault(&[16, 2, 0, 0, 0, b'a']), Fault::Operand);
    assert_eq!(fault(&[0, 37, 1, 2, 3, 4, 5, 6, 7]), Fault::Operand);
    assert_eq!(fault(&[16, 1, 0, 0, 0, 0xff]), Fault::Text);
    assert_eq!(fault(&[32]), Fault::Document);
    assert_eq!(fault(&[0, 48]), Fault::Document);
    assert_eq!(fault(&[0, 64, 32]), Fault::Document);
    assert_eq!(fault(&[65]), Fault::Unopened);
    assert_eq!(fault(&[64, 0]), Fault::Unclosed);
}

#[test]
fn programs() {
    let options = RenderOptions::new(80);
    assert_eq!(layout(&[], &options).as_deref(), Ok(""));
    assert_eq!(layout(&[16, 1, 0, 0, 0, b'a', 3], &options).as_deref(), Ok("a\n"));
    assert_eq!(layout(&[64, 65], &options).as_deref(), Ok(""));
}

#[test]
fn a_buffer_keeps_what_it_has() {
    let options = RenderOptions::new(80);
    let mut out = b"> ".to_vec();
    assert_eq!(Doc::text("a").layout_into(&options, &mut out), Ok(()));
    assert_eq!(
        (Doc::text("b") + Doc::fail()).layout_into(&options, &mut out),
        Err(fails("b"))
    );
    assert!(Doc::text("long").layout_into(&options.with_limit(1), &mut out).is_err());
    let mut writer = Writer::new();
    writer.text("c");
    assert_eq!(writer.layout_into(&options, &mut out), Ok(()));
    assert_eq!(out, b"> ac");
}

#[test]
fn a_value_to_print_answers_an_error_of_formatting() {
    let mut out = String::new();
    assert!(write!(out, "{}", (Doc::text("a") + Doc::fail()).print(80)).is_err());
    assert_eq!(out, "");
    assert!(write!(out, "[{}]", Doc::text("a").print(80)).is_ok());
    assert_eq!(out, "[a]");
}

#[test]
fn errors_say_what_is_wrong() {
    let error = |program: &[u8]| layout(program, &RenderOptions::new(80)).unwrap_err().to_string();
    assert_eq!(
        error(&[1]),
        "the document cannot be laid out: a node fails after 0 bytes"
    );
    assert_eq!(error(&[64]), "the bytes are no program: a sequence is open at the end");
    let limited = Doc::text("ab").layout(&RenderOptions::new(80).with_limit(1));
    assert_eq!(limited.unwrap_err().to_string(), "the layout is longer than its limit");
    let boxed: Box<dyn std::error::Error + Send + Sync> = Box::new(fails(""));
    assert!(boxed.downcast_ref::<Error>().is_some());
}

#[test]
fn an_error_is_shown_with_the_end_of_what_was_written() {
    let shown = |written: &str| format!("{:?}", fails(written));
    assert_eq!(shown(""), r#"Fails { written: "" }"#);
    assert_eq!(shown("é \"x\"\n\t"), r#"Fails { written: "é \"x\"\n\t" }"#);
    for character in ["a", "é", "語", "🖨"] {
        let sixty = character.repeat(60);
        assert_eq!(shown(&sixty), format!("Fails {{ written: \"{sixty}\" }}"));
        for before in ["a", "é", "語", "🖨", "a long line\n"] {
            let written = format!("{before}{sixty}");
            let length = written.len();
            let expected = format!("Fails {{ written: {length} bytes that end in \"{sixty}\" }}");
            assert_eq!(shown(&written), expected);
        }
    }
}

#[test]
fn every_error_is_shown() {
    let shown = |error: Error| format!("{error:?}");
    // A character is cut off.
    let written = "aé".as_bytes()[..2].to_vec();
    assert_eq!(
        shown(Error::PastLimit {
            written: written.clone()
        }),
        "PastLimit { written: \"a\u{fffd}\" }"
    );
    assert_eq!(
        shown(Error::OutOfMemory { written }),
        "OutOfMemory { written: \"a\u{fffd}\" }"
    );
    assert_eq!(shown(Error::NotAProgram(Fault::Unclosed)), "NotAProgram(Unclosed)");
    assert_eq!(shown(Error::Unknown { status: 99 }), "Unknown { status: 99 }");
}
