//! Random scripts from seeds.

use crate::compare::Met;
use harness::scripts;
use oracle::testing::watch::each_case;

#[test]
fn any_lines() {
    let mut met = Met::default();
    each_case(301, 0..3_000, |_, random| {
        met.script(&scripts::any_lines(random));
    });
    met.show("lines of every sort");
    met.at_least(5, &["propose", "ask", "ask row", "accepted", "unread"]);
    met.at_least(
        10,
        &["refused 12", "refused 17", "refused 31", "refused 32"],
    );
    met.at_least(10, &["refused 33", "refused 32 K"]);
    met.places_at_least(10);
}

#[test]
fn led_runs() {
    let mut met = Met::default();
    each_case(302, 0..1_000, |_, random| met.script(&scripts::led(random)));
    met.show("runs that a teacher leads");
    met.at_least(100, &["propose", "ask", "accepted", "unread"]);
    met.at_least(100, &["refused 31", "refused 32", "refused 32 K"]);
    met.places_at_least(20);
}

#[test]
fn loose_bytes() {
    let mut met = Met::default();
    each_case(303, 0..2_000, |_, random| {
        met.script(&scripts::loose(random))
    });
    met.show("loose bytes");
    met.at_least(50, &["propose", "accepted", "unread", "refused 31"]);
}
