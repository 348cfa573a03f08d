//! Prints every shortest path of profile W, then why a request is refused. Run
//! from the top of the repository.

use yachayniq::{Profile, Request};

/// AS 64497, AS 64498.
const ONWARD: &[u8] = &[32, 4, 0xFB, 0xF1, 32, 4, 0xFB, 0xF2];
/// AS 64497, AS 64496.
const BACK: &[u8] = &[5, 8, 0, 0, 0, 0, 0xFB, 0xF1, 5, 8, 0, 0, 0, 0, 0xFB, 0xF0];

fn main() -> Result<(), Box<dyn std::error::Error>> {
    let profile = Profile::new(std::fs::read("examples/w.dsp")?)?;
    for include in [ONWARD, BACK] {
        let request = Request {
            include,
            bandwidth: 100.0,
            ..Request::new("192.0.2.1".parse()?, "192.0.2.99".parse()?)
        };
        match profile.paths(&request) {
            Ok(paths) => paths.for_each(|path| {
                path.addresses.iter().for_each(|node| print!("{node} "));
                println!("total {}", path.total);
            }),
            Err(refusal) => println!("{refusal}"),
        }
    }
    Ok(())
}
