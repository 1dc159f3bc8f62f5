//! On a library of another interface version (foreign/test makes one, and runs this there): nothing can be called.
use pelmetsavory::*;
use std::panic::catch_unwind;

#[test]
#[ignore = "needs a library of another version"]
fn another_version_is_refused() {
    assert_eq!(ready(), Err(NotReady::InterfaceVersion(4095)));
    let calls: [fn(); 7] = [
        || _ = num_channels(2),
        || _ = answer(b""),
        || _ = tally_add(&mut [0; 16], 0, 1),
        || _ = all_relative_grid_address(),
        || _ = generated_relative_grid_address(),
        || fill_frequencies(0, &mut [], &mut [], &mut []),
        || _ = relative_grid_address(&[1., 0., 0., 0., 1., 0., 0., 0., 1.]),
    ];
    for call in calls.into_iter().chain(calls) {
        let words = *catch_unwind(call).unwrap_err().downcast::<String>().unwrap();
        assert_eq!(words, NotReady::InterfaceVersion(4095).to_string());
        assert!(words.contains("interface version 4095"));
    }
}
