use super::*;
use std::time::Duration;
use wuzhikar::usb::REPORT_DESCRIPTOR;

const ID_OF_TESTS: (u16, u16) = (0x1209, 1);

/// A device that tells no more than its place among the files.
#[derive(Debug, PartialEq, Eq)]
struct Place(usize);

impl Features for Place {
    fn set(&mut self, _: [u8; REPORT]) -> io::Result<()> {
        panic!("a report was sent")
    }

    fn get(&mut self, _: u8) -> io::Result<[u8; REPORT]> {
        panic!("a report was asked for")
    }

    fn pause(&mut self, _: Duration) {}
}

/// Files /0, /1 and so on: what each tells.
struct Played(Vec<Option<Told>>);

impl Files for Played {
    type File = Place;

    fn paths(&self) -> Vec<PathBuf> {
        (0..self.0.len()).map(|place| PathBuf::from(format!("/{place}"))).collect()
    }

    fn open(&self, path: &Path) -> io::Result<Place> {
        self.paths().iter().position(|one| one == path).map(Place).ok_or(io::Error::from_raw_os_error(2))
    }

    fn told(&self, file: &Place) -> Option<Told> {
        self.0[file.0].clone()
    }
}

fn device(id: (u16, u16), descriptor: &[u8]) -> Option<Told> {
    Some(Told { id, descriptor: descriptor.to_vec() })
}

/// The keyboard's descriptor with other bytes in place of these.
fn with(bytes: &[u8], others: &[u8]) -> Vec<u8> {
    let at = REPORT_DESCRIPTOR.windows(bytes.len()).rposition(|part| part == bytes).unwrap();
    [&REPORT_DESCRIPTOR[..at], others, &REPORT_DESCRIPTOR[at + bytes.len()..]].concat()
}

#[test]
fn only_the_feature_report_of_five_bytes_on_its_page_takes_commands() {
    for (descriptor, takes) in [
        (REPORT_DESCRIPTOR.to_vec(), true),
        (with(&[0x85, 3], &[0x85, 4]), false),
        (with(&[0x95, 5], &[0x95, 4]), false),
        (with(&[0x95, 5], &[0x95, 6]), false),
        (with(&[0x06, 0x00, 0xff], &[0x06, 0x01, 0xff]), false),
        (with(&[0xb1, 2], &[0x91, 2]), false),
        // Two of the five bytes are of another page.
        (with(&[0x95, 5, 0xb1, 2], &[0x95, 3, 0xb1, 2, 0x05, 0x0d, 0x09, 0x52, 0x95, 2, 0xb1, 2]), false),
        // Padding has no usage.
        (with(&[0xb1, 2], &[0xb1, 3]), false),
        (with(&[0x06, 0x00, 0xff], &[0x06, 0x00]), false),
        // A touchpad's input mode: a feature report 3 of a byte on the page of digitizers (HUT 16.7).
        ([5, 13, 9, 14, 161, 1, 133, 3, 9, 34, 161, 2, 9, 82, 37, 10, 117, 8, 149, 1, 177, 2, 192, 192].to_vec(), false),
        (Vec::new(), false),
    ] {
        assert_eq!(takes_commands(&descriptor), takes, "{descriptor:02x?}");
    }
}

#[test]
fn a_named_file_has_to_be_a_keyboard_and_to_have_the_id() {
    let mouse = with(&[0x85, 3], &[0x85, 4]);
    let files = Played(vec![device((1, 2), &REPORT_DESCRIPTOR), device((1, 2), &mouse), None]);
    for (path, id, said) in [
        ("/0", None, "opened"),
        ("/0", Some((1, 2)), "opened"),
        ("/0", Some((1, 3)), "/0: its ID is 0001:0002, and not 0001:0003"),
        ("/1", None, "/1: no feature report 3 of 5 bytes on page FF00h, so it is no such keyboard"),
        ("/1", Some((1, 2)), "/1: no feature report 3 of 5 bytes on page FF00h, so it is no such keyboard"),
        ("/2", None, "/2: this is no file of hidraw, as /dev/hidraw0 is"),
        ("/3", None, "/3: No such file or directory (os error 2)"),
    ] {
        let opened = open(&files, &Which { device: Some(path.into()), id });
        assert_eq!(opened.map_or_else(|error| error.to_string(), |_| "opened".to_string()), said, "{path}");
    }
}

#[test]
fn without_a_file_the_one_keyboard_of_the_id_is_taken() {
    let mouse = with(&[0x85, 3], &[0x85, 4]);
    let keyboard = |id| device(id, &REPORT_DESCRIPTOR);
    for (files, id, said) in [
        (vec![None, device(ID_OF_TESTS, &mouse), keyboard(ID_OF_TESTS), keyboard((1, 2))], None, Ok(Place(2))),
        (vec![keyboard(ID_OF_TESTS), keyboard((1, 2))], Some((1, 2)), Ok(Place(1))),
        (vec![keyboard(ID_OF_TESTS); 2], None, Err("several keyboards are there, name one by --device: /0 /1")),
        (
            vec![device(ID_OF_TESTS, &mouse)],
            None,
            Err("/0: no feature report 3 of 5 bytes on page FF00h, so it is no such keyboard"),
        ),
        (vec![None], None, Err("no keyboard with the ID 1209:0001 is there")),
    ] {
        let opened = open(&Played(files), &Which { device: None, id }).map_err(|error| error.to_string());
        assert_eq!(opened, said.map_err(str::to_string));
    }
}
