//! Request P5: the orientation, a cross and a dot product, multiplies nine times. Counted in what is proved and
//! compiled, calls included.

use crate::host::repository;
use std::fs;

/// The text of one function.
fn body<'a>(mir: &'a str, name: &str) -> &'a str {
    let head = format!("[\"{name}\",{{\"lifetimes\":");
    let at = mir.find(&head).unwrap_or_else(|| panic!("no function {name}")) + head.len();
    let rest = &mir[at..];
    &rest[..rest.find("\",{\"lifetimes\":").unwrap_or(rest.len())]
}

fn multiplications(mir: &str, name: &str) -> usize {
    let body = body(mir, name);
    let callees = body.split("{\"Call\":[{\"Fn\":[\"").skip(1);
    let called: usize =
        callees.map(|call| multiplications(mir, &call[..call.find('"').expect("name")])).sum();
    body.matches("{\"Op2\":[{\"Mul\":").count() + called
}

#[test]
fn orientation_multiplies_nine_times() {
    let mir = fs::read_to_string(repository("target/mir/sphere.json")).expect("file");
    let product = |name| multiplications(&mir, name);
    assert_eq!(product("sphere::orientation::cross") + product("sphere::orientation::dot"), 9);
}
