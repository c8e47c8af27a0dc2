//! The example that copies, run as README shows it, on files in several pieces,
//! and where it must fail.

mod programs;

use std::fs;
use std::path::Path;

use programs::{folder, make_disc, readme_line, run, DISC_SIZE};
use shoalswift::place;

fn copy(map: &Path, image: &Path, number: &str, file: &Path) -> (Option<i32>, String) {
    let arguments = [
        map.as_os_str(),
        image.as_os_str(),
        number.as_ref(),
        file.as_os_str(),
    ];
    run("copy", &arguments)
}

/// An image in which no two stretches are alike.
fn counted_image() -> Vec<u8> {
    let words = (0..DISC_SIZE as u32 / 4).flat_map(|word| word.to_le_bytes());
    words.collect()
}

#[test]
fn the_readme_line_prints_what_it_shows() {
    let folder = folder("copy_readme");
    let (map, image) = make_disc(&folder);
    let (arguments, shown) = readme_line("copy");
    let typed = "target/disc/b.map target/disc/b.image 503 target/disc/file";
    assert_eq!(arguments, typed);
    let file = folder.join("file");
    assert_eq!(copy(&map, &image, "503", &file), (Some(0), shown));
    let bytes = fs::read(&image).unwrap();
    assert!(fs::read(&file).unwrap() == bytes[12_800..32_768]);
}

/// Two pieces that touch and one apart: three runs, joined in order.
#[test]
fn a_file_in_pieces_is_copied_in_order() {
    let folder = folder("copy_pieces");
    let (map, image) = (folder.join("map"), folder.join("image"));
    let mut bytes = fs::read("../maps/a.map").unwrap();
    place(&mut bytes, 5, &[12, 12, 24, 13, 100, 12]).unwrap();
    fs::write(&map, &bytes).unwrap();
    let disc = counted_image();
    fs::write(&image, &disc).unwrap();
    let whole = [&disc[12_288..37_888], &disc[102_400..114_688]].concat();
    let lines = "12288 bytes from 12288\n13312 bytes from 24576\n12288 bytes from 102400\n";
    for (number, skipped, lines) in [
        ("500", 0, lines),
        ("501", 0, lines),
        (
            "502",
            256,
            "12032 bytes from 12544\n13312 bytes from 24576\n12288 bytes from 102400\n",
        ),
        ("565", 25_600, "12288 bytes from 102400\n"),
    ] {
        let file = folder.join(number);
        let copied = whole.len() - skipped;
        let last = format!("copied {copied} bytes of 0x000{number}\n");
        assert_eq!(
            copy(&map, &image, number, &file),
            (Some(0), format!("{lines}{last}"))
        );
        assert!(fs::read(&file).unwrap() == whole[skipped..]);
    }
}

#[test]
fn a_refusal_makes_no_file() {
    let folder = folder("copy_refused");
    let (map, image) = make_disc(&folder);
    let file = folder.join("file");
    // No such object; object 1 has no number; a start past the object's end.
    for (number, told) in [("600", 10), ("100", 8), ("551", 16), ("1000000", 8)] {
        let (status, text) = copy(&map, &image, number, &file);
        assert_eq!(status, Some(1));
        let end = format!("(refusal {told}, zone 0)\n");
        assert!(text.ends_with(&end), "{number}: {text}");
        assert!(!file.exists());
    }
}

#[test]
fn a_failure_names_its_file() {
    let folder = folder("copy_failures");
    let (map, image) = make_disc(&folder);
    let (short, absent) = (folder.join("short"), folder.join("absent"));
    // The object's last byte is not there.
    fs::write(&short, vec![7; 32_767]).unwrap();
    for (turn, (map, image, named)) in [
        (&absent, &image, &absent),
        (&map, &absent, &absent),
        (&map, &short, &short),
    ]
    .into_iter()
    .enumerate()
    {
        let file = folder.join(format!("file {turn}"));
        let (status, text) = copy(map, image, "500", &file);
        assert_eq!(status, Some(2));
        let begin = format!("failed: {}: ", named.display());
        assert!(text.starts_with(&begin), "{text}");
        assert!(!file.exists());
    }
    // A file that is there stays as it is.
    let bytes = fs::read(&image).unwrap();
    assert_eq!(copy(&map, &image, "500", &image).0, Some(2));
    assert!(fs::read(&image).unwrap() == bytes);
    assert_eq!(copy(&map, &image, "5g0", &absent).0, Some(2));
    assert!(!absent.exists());
}
