//! The example that wipes, run as README shows it, and where it must fail.

mod programs;

use std::fs::{self, File};
use std::os::unix::fs::MetadataExt;
use std::path::Path;

use programs::{folder, make_disc, readme_line, run, DISC_SIZE};
use shoalswift::claim;

fn wipe(map: &Path, image: &Path, id: u32, fill: u8) -> (Option<i32>, String) {
    let (id, fill) = (id.to_string(), fill.to_string());
    run(
        "wipe",
        &[map.as_ref(), image.as_ref(), id.as_ref(), fill.as_ref()],
    )
}

#[test]
fn the_readme_line_prints_what_it_shows() {
    let folder = folder("readme");
    let (map, image) = make_disc(&folder);
    let (arguments, shown) = readme_line("wipe");
    assert_eq!(arguments, "target/disc/b.map target/disc/b.image 5 0");
    let mut expected = fs::read(&image).unwrap();
    assert_eq!(expected.len(), DISC_SIZE);
    assert_eq!(wipe(&map, &image, 5, 0), (Some(0), shown));
    expected[12_288..32_768].fill(0);
    assert!(fs::read(&image).unwrap() == expected);
    assert!(fs::read(&map).unwrap() == fs::read("../maps/a.map").unwrap());

    // A second time the object is gone.
    let (status, text) = wipe(&map, &image, 5, 0);
    let refusal = "the map has no such object (refusal 10, zone 0)";
    assert_eq!(text, format!("refused: {}: {refusal}\n", map.display()));
    assert_eq!(status, Some(1));
    assert!(fs::read(&image).unwrap() == expected);
}

#[test]
fn only_the_pieces_are_written() {
    let folder = folder("pieces");
    let (map, image) = (folder.join("map"), folder.join("image"));
    fs::copy("../maps/b.map", &map).unwrap();
    // A file of holes: what is written of it takes room, the rest does not.
    let file = File::create(&image).unwrap();
    file.set_len(DISC_SIZE as u64).unwrap();
    let taken = || fs::metadata(&image).unwrap().blocks() * 512;
    assert_eq!(taken(), 0, "the folder's file system keeps holes");
    assert_eq!(wipe(&map, &image, 5, 229).0, Some(0));
    assert!((20_480..65_536).contains(&taken()), "{} bytes", taken());
    let mut expected = vec![0; DISC_SIZE];
    expected[12_288..32_768].fill(229);
    assert!(fs::read(&image).unwrap() == expected);
}

#[test]
fn a_piece_longer_than_a_window_is_wiped_whole() {
    let folder = folder("long");
    let (map, image) = (folder.join("map"), folder.join("image"));
    let mut bytes = fs::read("../maps/a.map").unwrap();
    let mut piece = [0; 2];
    let claimed = claim(&mut bytes, 1_200_000, 0, &mut piece).unwrap();
    fs::write(&map, &bytes).unwrap();
    fs::write(&image, vec![7; DISC_SIZE]).unwrap();
    assert_eq!(wipe(&map, &image, claimed.id, 1).0, Some(0));
    let mut expected = vec![7; DISC_SIZE];
    let [first, length] = piece.map(|entry| entry as usize);
    expected[first * 1_024..(first + length) * 1_024].fill(1);
    assert!(fs::read(&image).unwrap() == expected);
}

#[test]
fn a_failure_names_its_file_and_leaves_both() {
    let folder = folder("failures");
    let (map, image) = (folder.join("map"), folder.join("image"));
    let absent = folder.join("absent");
    let bytes = fs::read("../maps/b.map").unwrap();
    fs::write(&map, &bytes).unwrap();
    // The object's last byte is not there.
    let short = vec![7; 32_767];
    fs::write(&image, &short).unwrap();
    for (map, image, named) in [
        (&absent, &image, &absent),
        (&map, &absent, &absent),
        (&map, &image, &image),
    ] {
        let (status, text) = wipe(map, image, 5, 0);
        assert_eq!(status, Some(2));
        let begin = format!("failed: {}: ", named.display());
        assert!(text.starts_with(&begin), "{text}");
    }
    assert!(fs::read(&map).unwrap() == bytes);
    assert!(fs::read(&image).unwrap() == short);
    assert!(!absent.exists());
}
