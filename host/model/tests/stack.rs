//! Every call of the binding runs in a thread whose stack has what is wiped after it and 16 KiB more. A call that
//! needed more would end the test program by a fault.

use mivrozh::raw;
use model::writes::ENTRY;

const STACK: usize = raw::WIPED_STACK + 16 * 1024;

fn calls(profile: u8, image: &mut [u8], numbers: &mut [u8; 10]) {
    let (key, salt, stripes, filler) = ([5; 64], [6; 32], [7; 64], [8; 128]);
    let (mut opened, mut buffer, mut values) = ([0; 66], [0; 512], 0);
    let (mut list, mut lists) = (vec![0; 3 * ENTRY], vec![0; 6 * ENTRY]);
    numbers[0] = raw::format(image, profile, 2, &key, &salt, 1000, &[b'u'; 36], &mut values);
    numbers[1] = raw::add(image, 1, &key, b"old", &salt, 1000, &stripes, &mut list, &mut values);
    numbers[2] = raw::change(image, 1, b"old", 2, b"new", &salt, 1000, &stripes, &filler, &mut lists, &mut values);
    numbers[3] = raw::open(image, b"new", &mut opened, &mut values);
    numbers[4] = raw::open_slot(image, 2, b"new", &mut opened, &mut values);
    numbers[5] = raw::write(image, &key, 0, 1, &[9; 512], &mut values);
    numbers[6] = raw::read(image, &key, 0, 1, &mut buffer, &mut values);
    raw::add(image, 3, &key, b"third", &salt, 1000, &stripes, &mut list, &mut values);
    numbers[7] = raw::revoke(image, 3, &filler, &mut list, &mut values);
    let (mut enabled, [mut counts, mut starts, mut stripes]) = ([0; 8], [[0; 8]; 3]);
    numbers[8] = raw::slots(image, &mut enabled);
    numbers[9] = raw::slot_details(image, &mut enabled, &mut counts, &mut starts, &mut stripes);
}

/// With the profiles of 64-byte keys, one of each hash.
#[test]
fn every_call_runs_in_little_more_stack_than_is_wiped() {
    for profile in [2, 4] {
        let (mut image, mut numbers) = (vec![0; 2049 * 512], [255; 10]);
        std::thread::scope(|scope| {
            let thread = std::thread::Builder::new().stack_size(STACK);
            thread
                .spawn_scoped(scope, || calls(profile, &mut image, &mut numbers))
                .expect("a thread starts")
                .join()
                .expect("it ends");
        });
        assert_eq!(numbers, [0; 10], "profile {profile}");
    }
}
