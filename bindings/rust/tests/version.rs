//! The version of the library that is linked.
use extension_store::{AnyResource, Limits, OpenError, Store};

fn opened() -> Option<OpenError> {
    Store::<AnyResource>::open(&["[engine:x]"], Limits::default()).err()
}

#[test]
fn the_own_version_is_opened() {
    assert_eq!(opened(), None);
}

#[test]
#[ignore = "needs a library of version 98.7.65, which bindings/test links"]
fn another_version_is_refused() {
    let refused = opened().expect("the library is of another version");
    assert_eq!(refused, OpenError::OtherVersion(980_765));
    let own = env!("CARGO_PKG_VERSION");
    assert_eq!(
        refused.to_string(),
        format!("the library is of version 98.7.65, and this crate of {own}")
    );
}
