//! Several threads lay documents out at once.

use std::thread;
use yezhgulo::{format_json, format_toml, Doc, JsonStyle, TomlStyle, Writer};

fn can_be_sent<T: Send + Sync + 'static>() {}

#[test]
fn values_can_be_sent_to_other_threads() {
    can_be_sent::<Doc>();
    can_be_sent::<Writer>();
    can_be_sent::<yezhgulo::Error>();
    can_be_sent::<yezhgulo::JsonError>();
    can_be_sent::<yezhgulo::TomlError>();
}

#[test]
fn several_threads_lay_out_the_same_document() {
    let items = Doc::intersperse((0..100).map(Doc::as_string), Doc::softline());
    let doc = (Doc::text("[") + items.nest(1) + "]").group();
    let expected: Vec<String> = (0..40).map(|width| doc.pretty(width).unwrap()).collect();
    let json = format_json("[1,2,3]", &JsonStyle::new(4)).unwrap();
    let toml = format_toml("a=[1,2,3]", &TomlStyle::new(4)).unwrap();
    thread::scope(|scope| {
        for _ in 0..4 {
            scope.spawn(|| {
                for (width, layout) in expected.iter().enumerate() {
                    assert_eq!(doc.pretty(width).as_ref(), Ok(layout));
                    assert_eq!(format_json("[1,2,3]", &JsonStyle::new(4)).as_ref(), Ok(&json));
                    assert_eq!(format_toml("a=[1,2,3]", &TomlStyle::new(4)).as_ref(), Ok(&toml));
                }
            });
        }
    });
}
