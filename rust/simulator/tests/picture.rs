//! The stored picture is the one that the example draws.

#[path = "../examples/picture/drawing.rs"]
mod drawing;

#[test]
fn the_stored_picture_is_the_drawn_one() {
    let stored = include_str!("../../../docs/run.svg");
    assert!(
        drawing::picture().unwrap() == stored,
        "docs/run.svg is stale: draw it again by the example `picture`"
    );
}
