//! What is read, and how a transfer goes on and ends.

use super::*;

#[test]
fn the_device_descriptor_is_the_makers() {
    let whole = bytes("12 01 00 02 00 00 00 08 34 12 78 56 02 01 01 02 03 01");
    for asked in [18, 19, 64, 255] {
        assert_eq!(Device::new().read(device_descriptor(asked)).unwrap().concat(), whole);
    }
    for asked in [1, 7, 8, 9, 16, 17] {
        let read = Device::configured().read(device_descriptor(asked)).unwrap().concat();
        assert_eq!(read, whole[..usize::from(asked)]);
    }
    // Each string that there is not has index 0.
    static NO_PRODUCT: Product = Product::new(Identity { product: &[], ..IDENTITY });
    let descriptor = Device::of(&NO_PRODUCT).read(device_descriptor(18)).unwrap().concat();
    assert_eq!(descriptor[14..17], [1, 0, 3]);
}

#[test]
fn it_says_otherwise_what_the_keyboards_says() {
    let mut board = board();
    let mut keyboards = Vec::new();
    board.setup(device_descriptor(18));
    while let EpAnswer::Packet(packet) = board.in_packet() {
        keyboards.extend(packet);
    }
    assert_eq!(Device::of(&Product::TEST).read(device_descriptor(18)).unwrap().concat(), keyboards);
    // The configuration that the keyboard serves: its number, power from the bus and no remote wakeup, endpoint 1.
    let configuration = Device::new().read([0x80, 0x06, 0, 0x02, 0, 0, 34, 0]).unwrap().concat();
    assert_eq!(configuration[4..8], [1, CONFIGURATION, 0, 0x80]);
    assert_eq!(configuration[27..30], [7, 5, ENDPOINT_1]);
}

#[test]
fn strings_are_served() {
    let mut device = Device::new();
    for (index, text) in [(1, "Example"), (2, "Keys"), (3, "1")] {
        assert_eq!(device.read(string(index)).unwrap().concat(), described(text));
    }
    const LONG: &str = "0123456789abcdef0123456789abcdef0123456789abcdef0123456789abcdef\
        0123456789abcdef0123456789abcdef0123456789abcdef0123456789abcdef";
    // No string, a long one, and one of other alphabets.
    const OTHER: &str = "ключ 键盘 ⌨ 𝄞";
    static OTHERS: Product =
        Product::new(Identity { manufacturer: &[], product: utf16!(LONG), serial_number: utf16!(OTHER), ..IDENTITY });
    let mut device = Device::of(&OTHERS);
    assert_eq!(device.read(string(0)).unwrap().concat(), [4, 3, 9, 4]);
    assert_eq!(device.read(string(1)), None);
    assert_eq!(device.read(string(2)).unwrap().concat(), described(&LONG[..126]));
    assert_eq!(device.read(string(3)).unwrap().concat(), described(OTHER));
    // A character of two units that there is room for, or that falls away whole.
    for (before, kept) in [(124, 128), (125, 125), (126, 126)] {
        let text = &*format!("{}𝄞{LONG}", &LONG[..before]).leak();
        let units: &[u16] = text.encode_utf16().collect::<Vec<_>>().leak();
        let product = Box::leak(Box::new(Product::new(Identity { product: units, ..IDENTITY })));
        assert_eq!(Device::of(product).read(string(2)).unwrap().concat(), described(&text[..kept]));
    }
    // Without any string there are no languages.
    assert_eq!(Device::of(&Product::TEST).read(string(0)), None);
}

#[test]
fn a_read_ends_as_wlength_says() {
    let mut device = Device::new();
    // 18 bytes: exactly, fewer, more.
    assert_eq!(device.lengths(device_descriptor(0), 18), [8, 8, 2]);
    assert_eq!(device.lengths(device_descriptor(0), 17), [8, 8, 1]);
    assert_eq!(device.lengths(device_descriptor(0), 16), [8, 8]);
    assert_eq!(device.lengths(device_descriptor(0), 8), [8]);
    assert_eq!(device.lengths(device_descriptor(0), 7), [7]);
    assert_eq!(device.lengths(device_descriptor(0), 19), [8, 8, 2]);
    assert_eq!(device.lengths(device_descriptor(0), 65535), [8, 8, 2]);
    // 16 bytes fill two packets: an empty one follows where the host asked for more.
    assert_eq!(described("Example").len(), 16);
    assert_eq!(device.lengths(string(1), 16), [8, 8]);
    assert_eq!(device.lengths(string(1), 15), [8, 7]);
    assert_eq!(device.lengths(string(1), 8), [8]);
    assert_eq!(device.lengths(string(1), 17), [8, 8, 0]);
    assert_eq!(device.lengths(string(1), 24), [8, 8, 0]);
    assert_eq!(device.lengths(string(1), 65535), [8, 8, 0]);
    // 2 bytes and 1.
    assert_eq!(device.lengths(GET_STATUS, 2), [2]);
    assert_eq!(device.lengths(GET_STATUS, 64), [2]);
    assert_eq!(device.lengths(GET_STATUS, 1), [1]);
    assert_eq!(device.lengths(GET_CONFIGURATION, 8), [1]);
    // Nothing is asked: the status stage is due, an IN token.
    assert_eq!(device.set(device_descriptor(0)), Some(None));
    device.setup(device_descriptor(0));
    assert_eq!(device.out(&[]), STALL);
}

#[test]
fn what_does_not_belong_to_the_stage_is_stalled() {
    // A packet after the last one, and then the status stage: 18 bytes whole, as far as wLength goes, with more of it,
    // and 16 bytes with their empty packet.
    let mut device = Device::configured();
    let reads = [(device_descriptor(18), 3), (device_descriptor(16), 2), (device_descriptor(64), 3), (string(1), 3)];
    for (setup, packets) in reads {
        device.setup(setup);
        (0..packets).for_each(|_| assert!(matches!(device.in_packet(), EpAnswer::Packet(_))));
        assert_eq!(device.in_packet(), STALL);
        assert_eq!(device.out(&[]), STALL);
    }
    // Data from the host in a read, and in a request without data.
    device.setup(GET_STATUS);
    assert_eq!(device.out(&[0]), STALL);
    assert_eq!(device.in_packet(), STALL);
    device.setup(SET_HALT);
    assert_eq!(device.out(&[0]), STALL);
    assert_eq!(device.in_packet(), STALL);
    assert_eq!(device.poll(), PollAnswer::Nak);
    // The host ends a read before its data, or in the middle.
    device.setup(device_descriptor(18));
    assert_eq!(device.out(&[]), EpAnswer::Ack);
    device.setup(device_descriptor(18));
    assert!(matches!(device.in_packet(), EpAnswer::Packet(_)));
    assert_eq!(device.out(&[]), EpAnswer::Ack);
    // The transfer is over.
    assert_eq!(device.in_packet(), STALL);
    assert_eq!(device.out(&[]), STALL);
}

#[test]
fn a_setup_packet_ends_the_transfer_before_it() {
    // A read of the layer, by another one and by one of the keyboard.
    let mut device = Device::configured();
    device.setup(device_descriptor(18));
    assert!(matches!(device.in_packet(), EpAnswer::Packet(_)));
    assert_eq!(device.read(GET_STATUS), Some(vec![vec![0, 0]]));
    device.setup(device_descriptor(18));
    assert!(matches!(device.in_packet(), EpAnswer::Packet(_)));
    assert_eq!(device.read(GET_PROTOCOL), Some(vec![vec![1]]));
    // One of the keyboard, by one of the layer: it has no effect then.
    device.setup(SET_BOOT);
    assert_eq!(device.read(GET_STATUS), Some(vec![vec![0, 0]]));
    assert_eq!(device.in_packet(), STALL);
    assert_eq!(device.read(GET_PROTOCOL), Some(vec![vec![1]]));
    // A stalled one.
    device.setup(GET_STATUS);
    assert_eq!(device.out(&[0]), STALL);
    assert_eq!(device.read(GET_STATUS), Some(vec![vec![0, 0]]));
}
