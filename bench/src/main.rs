//! The proved library's calls beside the reference's, on the largest inputs:
//! one line for each call and input.

mod lists;
mod messages;
mod paths;
mod race;
mod tree;
mod two_rounds;

use race::race;
use reference::generate;

fn main() {
    check_profile();
    lists::read_include();
    lists::write_list();
    tree::tree();
    paths::first_and_next();
    messages::messages(&lists::list_of_1024_bytes());
}

fn check_profile() {
    let profile = generate::largest_profile(0);
    let by = |call: fn(&[u8], &mut [u32; 1]) -> u32| {
        let profile = &profile;
        move || {
            let mut numbers = [0; 1];
            (call(profile, &mut numbers), numbers)
        }
    };
    race(
        "check_profile",
        by(tests::check_profile),
        by(reference::check_profile),
    );
}
