//! The original's answers.

use p3_util_proved::pretty_name;

#[test]
fn short_names() {
    use std::cell::RefCell;
    use std::collections::HashMap;
    use std::fmt::{Debug, Error};
    use std::rc::Rc;

    macro_rules! named {
        ($($of:ty => $name:literal,)*) => {
            $(assert_eq!(pretty_name::<$of>(), $name);)*
        };
    }
    named! {
        u32 => "u32",
        () => "()",
        &str => "&str",
        &[u8] => "&[u8]",
        [String; 3] => "String; 3]",
        (String, u8) => "String, u8)",
        Vec<String> => "Vec<String>",
        Option<Vec<u8>> => "Option<Vec<u8>>",
        Box<dyn Debug> => "Box<Debug>",
        fn(String) -> Vec<u8> => "String) ->Vec<u8>",
        Result<(), Error> => "Result<(),Error>",
        &Error => "Error",
        &mut Vec<&mut String> => "Vec<String>",
        (Vec<u8>, (Option<String>, [u8; 2])) => "Vec<u8>,Option<String>, [u8; 2]))",
        Rc<RefCell<Vec<u8>>> => "Rc<RefCell<Vec<u8>>>",
    }
    let map = pretty_name::<HashMap<String, Vec<Option<u64>>>>();
    assert!(map.starts_with("HashMap<String,Vec<Option<u64>>"), "{map}");
}

/// A name of about 100,000 bytes. A body that refuses such a name meets its contract, but fails this test.
#[test]
fn long_names() {
    type Four<T> = ((T, T), (T, T));
    type Many<T> = Four<Four<Four<T>>>;
    let wanted = (0..12).fold(String::from("String"), |name, _| format!("{name},{name})"));
    assert_eq!(pretty_name::<Many<Many<String>>>(), wanted);
}

#[test]
fn calls_that_do_nothing() {
    use p3_util_proved::{assert_clone, assert_send, assert_sync, branch_hint};

    const _: () = assert_clone::<String>();
    const _: () = assert_send::<String>();
    const _: () = assert_sync::<String>();
    branch_hint();
}
