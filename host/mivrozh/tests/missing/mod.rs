//! What a test needs and does not find.
use std::io::Write;

/// Says what is not there, so that the test ends without having tested all. That is a failure where MIVROZH_TEST_ALL is set, as
/// host/test sets it; elsewhere it is a line on standard error, which the harness does not hold back.
#[track_caller]
pub fn missing(what: &str) {
    assert!(std::env::var_os("MIVROZH_TEST_ALL").is_none(), "MIVROZH_TEST_ALL is set, but {what}");
    let _ = writeln!(std::io::stderr(), "not all is tested: {what}");
}
