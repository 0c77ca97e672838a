//! The texts of reasons beside those of the library.
use super::*;
use std::format;
use std::string::ToString;

#[test]
fn texts_are_those_of_the_library() {
    for (reason, text) in Reason::TEXTS {
        assert_eq!(reason.to_string(), *text, "{reason:?}");
    }
    assert_eq!(Reason(1000).to_string(), "unknown error");
    assert_eq!(
        format!("{:?} {:?}", Reason::WRONG_TYPE, Reason(1000)),
        "WRONG_TYPE Reason(1000)"
    );
}
